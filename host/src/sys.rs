//! The C functions, declared: the one place that does. `src/boundary.rs` holds this file, the header `groatlantern.h` and the
//! source `crates/export/src/lib.rt` together.

/// The status of an answer where there is nothing to answer.
pub const NONE: u32 = 0xffff_ffff;

/// An answer that is one number.
#[repr(C)]
#[derive(Clone, Copy, Debug, PartialEq, Eq)]
pub struct GroatAnswer {
    pub status: u32,
    pub value: u32,
}

/// A place in a lent run.
#[repr(C)]
#[derive(Clone, Copy, Debug, PartialEq, Eq)]
pub struct GroatPlace {
    pub status: u32,
    pub next: u64,
}

/// The common prefix of two keys.
#[repr(C)]
#[derive(Clone, Copy, Debug, PartialEq, Eq)]
pub struct GroatCommon {
    pub lcp: u64,
    pub ord: u32,
}

/// The parts of an element.
#[repr(C)]
#[derive(Clone, Copy, Debug, PartialEq, Eq)]
pub struct GroatNode {
    pub base: u32,
    pub check: u32,
    pub leaf: u32,
    pub marked: u32,
    pub vacant: u32,
}

extern "C" {
    pub fn groat_pack_size(n: u32) -> u8;
    pub fn groat_pack_u32(out: *mut u8, out_len: usize, at: usize, n: u32, nbytes: u8) -> GroatPlace;
    pub fn groat_unpack_u32(slice: *const u8, slice_len: usize, nbytes: u8) -> GroatAnswer;
    pub fn groat_longest_common_prefix(a: *const u32, a_len: usize, b: *const u32, b_len: usize) -> GroatCommon;
    pub fn groat_node(base: u32, check: u32) -> GroatNode;
    pub fn groat_is_character(c: u32) -> u32;
    pub fn groat_code_of(table: *const u32, table_len: usize, c: u32) -> u32;
    pub fn groat_trie_exact_match(
        table: *const u32,
        table_len: usize,
        base: *const u32,
        base_len: usize,
        check: *const u32,
        check_len: usize,
        query: *const u32,
        query_len: usize,
    ) -> GroatAnswer;
    pub fn groat_mptrie_exact_match(
        table: *const u32,
        table_len: usize,
        base: *const u32,
        base_len: usize,
        check: *const u32,
        check_len: usize,
        tails: *const u8,
        tails_len: usize,
        code_width: u8,
        value_width: u8,
        query: *const u32,
        query_len: usize,
    ) -> GroatAnswer;
    pub fn groat_trie_common_prefix_search(
        table: *const u32,
        table_len: usize,
        base: *const u32,
        base_len: usize,
        check: *const u32,
        check_len: usize,
        query: *const u32,
        query_len: usize,
        values: *mut u32,
        values_len: usize,
        lengths: *mut u32,
        lengths_len: usize,
    ) -> GroatPlace;
    pub fn groat_trie_num_elems(
        table: *const u32,
        table_len: usize,
        base: *const u32,
        base_len: usize,
        check: *const u32,
        check_len: usize,
    ) -> GroatPlace;
    pub fn groat_trie_num_vacants(
        table: *const u32,
        table_len: usize,
        base: *const u32,
        base_len: usize,
        check: *const u32,
        check_len: usize,
    ) -> GroatPlace;
    pub fn groat_trie_io_bytes(
        table: *const u32,
        table_len: usize,
        base: *const u32,
        base_len: usize,
        check: *const u32,
        check_len: usize,
    ) -> GroatPlace;
    pub fn groat_mptrie_common_prefix_search(
        table: *const u32,
        table_len: usize,
        base: *const u32,
        base_len: usize,
        check: *const u32,
        check_len: usize,
        tails: *const u8,
        tails_len: usize,
        code_width: u8,
        value_width: u8,
        query: *const u32,
        query_len: usize,
        values: *mut u32,
        values_len: usize,
        lengths: *mut u32,
        lengths_len: usize,
    ) -> GroatPlace;
}
