//! The codestream search, ours beside the original's.

mod cases;
mod compare;
mod rows;

use original::buffer::OwnedBuffer;
use original::reader;

use crate::model::Range;

pub use cases::KIND;
pub use compare::COMPARISON;
pub use rows::BENCHMARK;

/// Start and length, if it is found; a range that ends before it starts is left to docs/RULES.md.
fn original(file: &[u8]) -> Option<Range> {
    let range = reader::find_codestream(&OwnedBuffer::resident(file.to_vec()))?;
    let length = range.end.wrapping_sub(range.start);
    Some((range.start as u64, length as u64))
}
