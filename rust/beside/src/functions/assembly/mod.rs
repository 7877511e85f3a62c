//! `build_minimal_codestream`, ours beside the original's, and by Annex B's rule and in place beside the
//! model; and the same of parts instead of ranges.

mod cases;
mod compare;
mod from_parts;
mod rows;

pub use cases::{KIND, KIND_IN_PLACE, KIND_OF_ANNEX_B};
pub use compare::COMPARISON;
pub use rows::{BENCHMARK, BENCHMARK_IN_PLACE, BENCHMARK_OF_ANNEX_B};
