//! The proved archives beside the original: the same inputs to both, and what came of it.

#![forbid(unsafe_code)]

pub mod bench;
pub mod cases;
pub mod caught;
pub mod compare;
pub mod judge;
pub mod lent;
pub mod model;
pub mod options;
pub mod program;
pub mod random;
pub mod readings;
pub mod sample;
pub mod tally;
pub mod wanted;

#[cfg(present)]
pub mod functions;

/// Where the original isn't at hand nothing can be run beside it.
#[cfg(not(present))]
pub mod functions {
    pub const COMPARISONS: &[&dyn crate::compare::Compared] = &[];
    pub const BENCHMARKS: &[crate::bench::Benchmark] = &[];
    pub const KINDS: &[crate::cases::Kind] = &[];

    pub fn compare_files(
        _: u64,
        _: &[Vec<u8>],
    ) -> Result<Vec<crate::tally::Tally>, crate::program::Stop> {
        Ok(Vec::new())
    }
}
