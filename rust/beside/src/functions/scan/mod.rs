//! `scan_sot_markers`, ours beside the original's.

mod cases;
mod compare;
mod rows;

use original::markers;

use super::entries;
use crate::model::parts::numbers;
use crate::model::{Entry, Record};

pub use cases::{KIND, RECORDS};
pub use compare::COMPARISON;
pub use rows::BENCHMARK;

/// The original's entries, three fields each. It doesn't read TPsot and TNsot: those are the bytes 10 and
/// 11 behind the place that it tells.
pub fn original(codestream: &[u8], start: u64) -> Option<Vec<Record>> {
    let told = markers::scan_sot_markers(codestream, start).ok()?;
    let record = |entry: Entry| (entry, numbers(codestream, entry.1));
    Some(entries::of(&told).into_iter().map(record).collect())
}
