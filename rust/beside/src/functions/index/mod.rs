//! The index by tile, `index_tiles`, `extend_index`, `tile_run` and `tile_entries`, ours beside the model's:
//! the original has none.

mod cases;
mod compare;
mod laws;
mod rows;
#[cfg(test)]
mod slips;

pub use cases::{KIND, RECORDS};
pub use compare::COMPARISON;
pub use rows::{
    BENCHMARK, BENCHMARK_BESIDE_A_FILTER, BENCHMARK_BESIDE_A_SCAN, BENCHMARK_COUNTED,
    BENCHMARK_OF_ENTRIES, BENCHMARK_OF_EXTENSION, BENCHMARK_OF_LOOKUP,
};

type Make = fn(&[u8], &mut [u64], &mut [u64], &mut u64) -> u32;
type Extend = fn(&[u8], u64, &mut [u64], &mut [u64], &mut u64) -> u32;
type Lookup = fn(&[u64], u16, &mut u64, &mut u64) -> u32;
type Give = fn(&[u8], &[u64], u16, &mut [u8], &mut u64) -> u32;

/// The four functions: the archive's, or what stands for them.
#[derive(Clone, Copy)]
pub struct Sides {
    make: Make,
    /// Of rows, and of records.
    extend: [Extend; 2],
    run: Lookup,
    entries: Give,
}
