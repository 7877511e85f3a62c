//! How much header is enough: prefixes of codestreams and growth's region, beside the whole.

mod compare;
mod laws;

pub use compare::{compare_files, COMPARISON};
