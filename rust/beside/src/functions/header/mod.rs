//! `parse_main_header`, ours beside the original's.

mod cases;
mod compare;
mod rows;

use original::markers;
use probe::host;

use super::{entries, records};
use crate::model::header::{fillers, Header};

pub use cases::{CARRIED_ON, KIND, NEWER, RECORDS, RECORDS_CARRIED_ON, RECORDS_NEWER};
pub use compare::COMPARISON;
pub use rows::BENCHMARK;

/// The original's answer, if it accepts; a table that is absent has no entries. It does not count
/// fillers: that number is the model's.
pub fn original(codestream: &[u8]) -> Option<Header> {
    let told = markers::parse_main_header(codestream).ok()?;
    Some(Header {
        first_sot: told.first_sot_offset,
        decode_header: told.decode_header,
        entries: entries::of(&told.tlm_offset_table.unwrap_or_default()),
        fillers: fillers(codestream),
    })
}

/// Into a table of rows, and output.
pub fn rows_by(
    reading: host::Reading,
    codestream: &[u8],
    [table, out]: [&mut [u8]; 2],
    values: &mut [u64; 4],
) -> u32 {
    host::parse_main_header_by_reading(codestream, reading, table, out, values)
}

/// The same into a table of records, of as many as the archive has at most.
pub fn records_by(
    reading: host::Reading,
    codestream: &[u8],
    [table, out]: [&mut [u8]; 2],
    values: &mut [u64; 4],
) -> u32 {
    records::instead_of(table, |table| {
        probe::header_records(codestream, reading, table, out, values)
    })
}
