//! `split_tile_parts`, ours (a count, and part by part) beside the original's.

mod cases;
mod compare;
mod rows;

pub use cases::KIND;
pub use compare::COMPARISON;
pub use rows::BENCHMARK;
