//! The rules of 01, and of 02 as far as it has landed, each said once, as plain Rust: one bit at a time, nothing kept, and nothing
//! allocated to read, write or edit. First written from 01, 02 and, for names and for the widths of type 1, from the satellite teams'
//! documents, by other methods than the crates (docs/CASES.md). Nothing of the crates is called here, so that a slip in one of the two
//! shows as a difference. Every program of docs/src in Rust takes its rules from here.

pub mod documents;
pub mod frames;
pub mod leaves;
pub mod names;
pub mod table;
pub mod temperatures;
