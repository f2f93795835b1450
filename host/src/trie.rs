//! The plain form of a dictionary: lookups on its arrays.

use crate::sys;

/// The number of a refusal in document 01's table.
#[derive(Clone, Copy, Debug, PartialEq, Eq)]
pub struct Refused(pub u32);

/// What an answer of exact match says.
pub(crate) fn found(answer: sys::GroatAnswer) -> Result<Option<u32>, Refused> {
    match answer.status {
        0 => Ok(Some(answer.value)),
        sys::NONE => Ok(None),
        number => Err(Refused(number)),
    }
}

/// What an answer that is a count says.
pub(crate) fn counted(place: sys::GroatPlace) -> Result<usize, Refused> {
    match place.status {
        0 => Ok(place.next as usize),
        number => Err(Refused(number)),
    }
}

/// The arrays of a dictionary of the plain form. Any arrays may stand here: a lookup is total.
#[derive(Clone, Copy, Debug)]
pub struct Trie<'a> {
    /// The code of each character.
    pub table: &'a [u32],
    /// The base of each element.
    pub base: &'a [u32],
    /// The check of each element.
    pub check: &'a [u32],
}

impl Trie<'_> {
    /// The value of a key, given as code points.
    pub fn exact_match(&self, query: &[u32]) -> Result<Option<u32>, Refused> {
        let (table, base, check) = (self.table, self.base, self.check);
        // SAFETY: each pointer and length are those of one slice, lent for the call.
        let answer = unsafe {
            sys::groat_trie_exact_match(
                table.as_ptr(),
                table.len(),
                base.as_ptr(),
                base.len(),
                check.as_ptr(),
                check.len(),
                query.as_ptr(),
                query.len(),
            )
        };
        found(answer)
    }

    /// The keys that begin a query, given as code points: the first so many places of `values` and `lengths` become their values and
    /// lengths, shortest first. Nothing is written if the search is refused.
    pub fn common_prefix_search(&self, query: &[u32], values: &mut [u32], lengths: &mut [u32]) -> Result<usize, Refused> {
        let (table, base, check) = (self.table, self.base, self.check);
        // SAFETY: each pointer and length are those of one slice, lent for the call, and the two that are written overlap nothing.
        let place = unsafe {
            sys::groat_trie_common_prefix_search(
                table.as_ptr(),
                table.len(),
                base.as_ptr(),
                base.len(),
                check.as_ptr(),
                check.len(),
                query.as_ptr(),
                query.len(),
                values.as_mut_ptr(),
                values.len(),
                lengths.as_mut_ptr(),
                lengths.len(),
            )
        };
        counted(place)
    }

    /// How many elements there are.
    pub fn num_elems(&self) -> Result<usize, Refused> {
        let (table, base, check) = (self.table, self.base, self.check);
        // SAFETY: each pointer and length are those of one slice, lent for the call.
        counted(unsafe {
            sys::groat_trie_num_elems(table.as_ptr(), table.len(), base.as_ptr(), base.len(), check.as_ptr(), check.len())
        })
    }

    /// How many elements are vacant.
    pub fn num_vacants(&self) -> Result<usize, Refused> {
        let (table, base, check) = (self.table, self.base, self.check);
        // SAFETY: each pointer and length are those of one slice, lent for the call.
        counted(unsafe {
            sys::groat_trie_num_vacants(table.as_ptr(), table.len(), base.as_ptr(), base.len(), check.as_ptr(), check.len())
        })
    }

    /// How many bytes the dictionary takes when it is written.
    pub fn io_bytes(&self) -> Result<usize, Refused> {
        let (table, base, check) = (self.table, self.base, self.check);
        // SAFETY: each pointer and length are those of one slice, lent for the call.
        counted(unsafe {
            sys::groat_trie_io_bytes(table.as_ptr(), table.len(), base.as_ptr(), base.len(), check.as_ptr(), check.len())
        })
    }
}
