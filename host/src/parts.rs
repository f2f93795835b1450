//! The leaves: packed numbers, the common prefix of two keys, the parts of an element, characters and their codes.

use crate::sys;
use std::cmp::Ordering;

/// The smallest number of bytes that holds `n`.
pub fn pack_size(n: u32) -> u8 {
    // SAFETY: no pointer crosses.
    unsafe { sys::groat_pack_size(n) }
}

/// Packs the lowest `nbytes` bytes of `n` into `out` from the place `at` on, and answers the place behind them; `None`, with `out` as
/// it was, if `nbytes` is not from 1 to 4 or the room is too short.
pub fn pack_u32(out: &mut [u8], at: usize, n: u32, nbytes: u8) -> Option<usize> {
    // SAFETY: the pointer and the length are those of one slice, lent for the call.
    let place = unsafe { sys::groat_pack_u32(out.as_mut_ptr(), out.len(), at, n, nbytes) };
    (place.status != sys::NONE).then_some(place.next as usize)
}

/// The number in the first `nbytes` bytes of `slice`; `None` if `nbytes` is not from 1 to 4 or the slice is too short.
pub fn unpack_u32(slice: &[u8], nbytes: u8) -> Option<u32> {
    // SAFETY: the pointer and the length are those of one slice, lent for the call.
    let answer = unsafe { sys::groat_unpack_u32(slice.as_ptr(), slice.len(), nbytes) };
    (answer.status != sys::NONE).then_some(answer.value)
}

/// The length of the longest common prefix of `a` and `b`, and their order.
pub fn longest_common_prefix(a: &[u32], b: &[u32]) -> (usize, Ordering) {
    // SAFETY: each pointer and length are those of one slice, lent for the call.
    let common = unsafe { sys::groat_longest_common_prefix(a.as_ptr(), a.len(), b.as_ptr(), b.len()) };
    let order = match common.ord {
        0 => Ordering::Less,
        1 => Ordering::Equal,
        _ => Ordering::Greater,
    };
    (common.lcp as usize, order)
}

/// The parts of an element.
#[derive(Clone, Copy, Debug, PartialEq, Eq)]
pub struct Node {
    /// `get_base`: base without its top bit.
    pub base: u32,
    /// `get_check`: check without its top bit.
    pub check: u32,
    /// `is_leaf`: the top bit of base.
    pub is_leaf: bool,
    /// `has_leaf`: the top bit of check.
    pub has_leaf: bool,
    /// `is_vacant`: base and check are both `OFFSET_MASK`.
    pub is_vacant: bool,
}

/// The parts of the element with these two numbers.
pub fn node(base: u32, check: u32) -> Node {
    // SAFETY: no pointer crosses.
    let parts = unsafe { sys::groat_node(base, check) };
    Node {
        base: parts.base,
        check: parts.check,
        is_leaf: parts.leaf == 1,
        has_leaf: parts.marked == 1,
        is_vacant: parts.vacant == 1,
    }
}

/// Is this number a character?
pub fn is_character(c: u32) -> bool {
    // SAFETY: no pointer crosses.
    unsafe { sys::groat_is_character(c) == 1 }
}

/// The code of a character in a table, if it has one.
pub fn code_of(table: &[u32], c: u32) -> Option<u32> {
    // SAFETY: the pointer and the length are those of one slice, lent for the call.
    let code = unsafe { sys::groat_code_of(table.as_ptr(), table.len(), c) };
    (code != u32::MAX).then_some(code)
}
