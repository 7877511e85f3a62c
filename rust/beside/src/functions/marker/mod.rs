//! `find_marker`, ours beside the model, and beside the original where it has an answer to a part.

mod cases;
mod compare;
mod rows;

pub use cases::KIND;
pub use compare::COMPARISON;
pub use rows::BENCHMARK;
