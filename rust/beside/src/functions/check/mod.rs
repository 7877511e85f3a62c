//! `check_length_table`, ours beside the model's, and beside the lists that the original has where these are
//! the ones that are compared.

mod cases;
mod compare;
mod laws;
mod rows;
#[cfg(test)]
mod slips;

pub use cases::KIND;
pub use compare::COMPARISON;
pub use rows::{BENCHMARK, BENCHMARK_BESIDE_A_SCAN};

use super::{header, scan};
use crate::model::check::{header as region_of, Lists};

/// By a codestream, the region of its header, and the numbers that are lent.
type Check = fn(&[u8], u64, &mut [u64; 6]) -> u32;

/// By the first two, if nothing is refused.
type Listing = fn(&[u8], u64) -> Option<Lists>;

/// The archive's function, or what stands for it, and the original's lists.
#[derive(Clone, Copy)]
pub struct Sides {
    check: Check,
    lists: Listing,
}

/// What the original's main header lists, in file order and numbered from 0 in each segment, and what its
/// scan finds; nothing where it refuses.
fn original(codestream: &[u8], region: u64) -> Option<Lists> {
    let read = header::original(region_of(codestream, region))?;
    let found = scan::original(codestream, read.first_sot)?;
    Some(Lists {
        first_sot: read.first_sot,
        listed: read
            .entries
            .iter()
            .map(|&(tile, _, length)| (tile, length))
            .collect(),
        standing: found
            .iter()
            .map(|&((tile, _, length), _)| (tile, length))
            .collect(),
    })
}
