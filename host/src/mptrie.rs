//! The minimal-prefix form of a dictionary: lookups on its arrays.

use crate::sys;
use crate::trie::{counted, found, Refused};

/// The arrays of a dictionary of the minimal-prefix form. Any arrays may stand here: a lookup is total.
#[derive(Clone, Copy, Debug)]
pub struct MpTrie<'a> {
    /// The code of each character.
    pub table: &'a [u32],
    /// The base of each element.
    pub base: &'a [u32],
    /// The check of each element.
    pub check: &'a [u32],
    /// The tails of the leaves.
    pub tails: &'a [u8],
    /// How many bytes a code takes in a tail.
    pub code_width: u8,
    /// How many bytes a value takes in a tail.
    pub value_width: u8,
}

impl MpTrie<'_> {
    /// The value of a key, given as code points.
    pub fn exact_match(&self, query: &[u32]) -> Result<Option<u32>, Refused> {
        let (table, base, check, tails) = (self.table, self.base, self.check, self.tails);
        // SAFETY: each pointer and length are those of one slice, lent for the call.
        let answer = unsafe {
            sys::groat_mptrie_exact_match(
                table.as_ptr(),
                table.len(),
                base.as_ptr(),
                base.len(),
                check.as_ptr(),
                check.len(),
                tails.as_ptr(),
                tails.len(),
                self.code_width,
                self.value_width,
                query.as_ptr(),
                query.len(),
            )
        };
        found(answer)
    }

    /// The keys that begin a query, given as code points: the first so many places of `values` and `lengths` become their values and
    /// lengths, shortest first. Nothing is written if the search is refused.
    pub fn common_prefix_search(&self, query: &[u32], values: &mut [u32], lengths: &mut [u32]) -> Result<usize, Refused> {
        let (table, base, check, tails) = (self.table, self.base, self.check, self.tails);
        // SAFETY: each pointer and length are those of one slice, lent for the call, and the two that are written overlap nothing.
        counted(unsafe {
            sys::groat_mptrie_common_prefix_search(
                table.as_ptr(),
                table.len(),
                base.as_ptr(),
                base.len(),
                check.as_ptr(),
                check.len(),
                tails.as_ptr(),
                tails.len(),
                self.code_width,
                self.value_width,
                query.as_ptr(),
                query.len(),
                values.as_mut_ptr(),
                values.len(),
                lengths.as_mut_ptr(),
                lengths.len(),
            )
        })
    }
}
