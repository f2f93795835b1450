//! Groatlantern for Rust: safe functions over the C functions of the proved library.
//!
//! Every function here is total: it takes any input of its type and answers, and nothing must have been checked first.

#[cfg(test)]
mod boundary;
mod sys;

pub mod mptrie;
pub mod parts;
pub mod trie;
