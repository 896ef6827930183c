//! A differential fuzzer: every export of the proved library against the second program.
//!
//! A case is a file of one kind, which `forge` builds, damages and mostly repairs, so that the
//! damage is reached. Every call with it is made by both programs, and the result, all eight words
//! of the answer and every byte of lent output are compared. A case depends on the seed and its own
//! number alone.

pub mod case;
pub mod compare;
pub mod counts;
pub mod export;
pub mod keep;
pub mod lent;
pub mod run;
