//! What each export leaves: all eight words of the answer, and the outputs.

mod call;
mod chain;
mod encoding;
mod envelope;
mod file_number;
mod index;
mod key;
mod md5;
mod name_hash;
mod root;
mod worklist;
