//! `main_header_extent`, ours beside the original's.

mod cases;
mod compare;
mod rows;

pub use cases::KIND;
pub use compare::COMPARISON;
pub use rows::BENCHMARK;
