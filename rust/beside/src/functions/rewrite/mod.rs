//! `rewrite_siz_for_tile`, ours beside the original's, and by Annex B's rule and in place beside the
//! model.

mod cases;
mod compare;
mod laws;
mod rows;

pub use cases::{KIND, KIND_IN_PLACE, KIND_OF_ANNEX_B};
pub use compare::{written, COMPARISON};
pub use rows::{BENCHMARK, BENCHMARK_IN_PLACE, BENCHMARK_OF_ANNEX_B};
