//! The second program: what Dwarnizza does, written again from document 01 and its sources alone.
//!
//! It shares no code and no table with the proved library, so that tests can hold the two against
//! each other. One module for each format.

#![forbid(unsafe_code)]

pub mod chain;
pub mod encoding;
pub mod envelope;
pub mod file_number;
pub mod index;
pub mod key;
pub mod md5;
pub mod md5_suite;
pub mod name_hash;
mod number;
pub mod refusal;
pub mod root;
pub mod worklist;
