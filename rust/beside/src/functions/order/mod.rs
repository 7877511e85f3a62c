//! `tile_in_order`, ours beside the model's: the original doesn't read what it goes by.

mod cases;
mod compare;
mod rows;

pub use cases::{KIND, RECORDS};
pub use compare::COMPARISON;
pub use rows::BENCHMARK;
