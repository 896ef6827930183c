//! Files for tests and the fuzzer, made by the second program's writers: good ones of random
//! contents, their damage and repair, files with chosen faults, indexes of
//! counted entries, small files, and paths.

#![forbid(unsafe_code)]

pub mod build;
pub mod counted;
pub mod damage;
pub mod faults;
pub mod paths;
pub mod random;
pub mod repair;
pub mod small;
