//! The growth of the header's region, ours beside the original's: the whole of it, and one step.

mod cases;
mod compare;
mod rows;
mod step;

pub use cases::KIND;
pub use compare::COMPARISON;
pub use rows::BENCHMARK;
pub use step::COMPARISON as STEP;
