//! The list of boxes, `list_boxes`, ours beside the model's: the original has none.

mod cases;
mod compare;
mod laws;
mod rows;
#[cfg(test)]
mod slips;

pub use cases::KIND;
pub use compare::COMPARISON;
pub use rows::{BENCHMARK, BENCHMARK_COLLECTED};

/// By a file, the table that is lent, and the number.
type List = fn(&[u8], &mut [u8], &mut u64) -> u32;
