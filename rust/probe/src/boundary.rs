//! The archive's functions as C sees them, each behind a safe one. All `unsafe` is here.
//!
//! One reason serves for every call: each pointer and length are those of one slice, or of one
//! number; what is read is shared and what is written is borrowed by nobody else; the archive keeps
//! none of them after it returns.

use crate::host::Reading;

mod archive {
    use crate::host::Reading;

    extern "C" {
        pub fn winterhasp_header_records(
            codestream: *const u8,
            codestream_len: usize,
            reading: Reading,
            table: *mut u8,
            table_len: usize,
            out: *mut u8,
            out_len: usize,
            first_sot: *mut u64,
            decode_length: *mut u64,
            entries: *mut u64,
            fillers: *mut u64,
        ) -> u32;

        pub fn winterhasp_scan_records(
            codestream: *const u8,
            codestream_len: usize,
            first_sot_offset: u64,
            table: *mut u8,
            table_len: usize,
            value: *mut u64,
        ) -> u32;

        pub fn winterhasp_records_in_order(table: *const u8, table_len: usize, tile: u16) -> u32;

        pub fn winterhasp_records_index(
            table: *const u8,
            table_len: usize,
            have: u64,
            index: *mut u64,
            index_len: usize,
            scratch: *mut u64,
            scratch_len: usize,
            value: *mut u64,
        ) -> u32;

        pub fn winterhasp_codestream_of(
            file: *const u8,
            file_len: usize,
            out: *mut u8,
            out_len: usize,
            value: *mut u64,
        ) -> u32;
    }
}

/// As `parse_main_header_by_reading`, with the TLM entries as records, for which the rows of `table` stand:
/// 2,048 at most.
pub fn header_records(
    codestream: &[u8],
    reading: Reading,
    table: &mut [u8],
    out: &mut [u8],
    [first_sot, decode_length, entries, fillers]: &mut [u64; 4],
) -> u32 {
    // SAFETY: as at the top of this file.
    unsafe {
        archive::winterhasp_header_records(
            codestream.as_ptr(),
            codestream.len(),
            reading,
            table.as_mut_ptr(),
            table.len(),
            out.as_mut_ptr(),
            out.len(),
            first_sot,
            decode_length,
            entries,
            fillers,
        )
    }
}

/// As `scan_sot_markers`, with the tile-parts as records, in the same way.
pub fn scan_records(codestream: &[u8], first_sot: u64, table: &mut [u8], value: &mut u64) -> u32 {
    // SAFETY: as at the top of this file.
    unsafe {
        archive::winterhasp_scan_records(
            codestream.as_ptr(),
            codestream.len(),
            first_sot,
            table.as_mut_ptr(),
            table.len(),
            value,
        )
    }
}

/// As `tile_in_order`, of records, in the same way.
pub fn records_in_order(table: &[u8], tile: u16) -> u32 {
    // SAFETY: as at the top of this file.
    unsafe { archive::winterhasp_records_in_order(table.as_ptr(), table.len(), tile) }
}

/// As `extend_index`, of records, in the same way.
pub fn records_index(
    table: &[u8],
    have: u64,
    index: &mut [u64],
    scratch: &mut [u64],
    value: &mut u64,
) -> u32 {
    // SAFETY: as at the top of this file.
    unsafe {
        archive::winterhasp_records_index(
            table.as_ptr(),
            table.len(),
            have,
            index.as_mut_ptr(),
            index.len(),
            scratch.as_mut_ptr(),
            scratch.len(),
            value,
        )
    }
}

/// The codestream's bytes go to `out`, their number to `value`; where the search refuses there are
/// none.
pub fn codestream_of(file: &[u8], out: &mut [u8], value: &mut u64) -> u32 {
    // SAFETY: as at the top of this file.
    unsafe {
        archive::winterhasp_codestream_of(
            file.as_ptr(),
            file.len(),
            out.as_mut_ptr(),
            out.len(),
            value,
        )
    }
}
