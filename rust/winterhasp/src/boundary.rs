//! The archive's functions as C sees them, each behind a safe one. All `unsafe` is here.
//!
//! One reason serves for every call: each pointer and length are those of one slice, or of one
//! number; what is read is shared and what is written is borrowed by nobody else; the archive keeps
//! none of them after it returns. Each function answers 0, or a refusal's number with its place in the
//! first number lent, unless it says otherwise.

mod archive {
    use super::Reading;

    extern "C" {
        pub fn winterhasp_in_file(offset: u64, start: u64, value: *mut u64) -> u32;

        pub fn winterhasp_main_header_extent(
            prefix: *const u8,
            prefix_len: usize,
            value: *mut u64,
        ) -> u32;

        pub fn winterhasp_parse_main_header(
            codestream: *const u8,
            codestream_len: usize,
            table: *mut u8,
            table_len: usize,
            out: *mut u8,
            out_len: usize,
            first_sot: *mut u64,
            decode_length: *mut u64,
            entries: *mut u64,
            fillers: *mut u64,
        ) -> u32;

        pub fn winterhasp_parse_main_header_by_reading(
            codestream: *const u8,
            codestream_len: usize,
            reading: Reading,
            table: *mut u8,
            table_len: usize,
            out: *mut u8,
            out_len: usize,
            first_sot: *mut u64,
            decode_length: *mut u64,
            entries: *mut u64,
            fillers: *mut u64,
        ) -> u32;

        pub fn winterhasp_find_marker(
            codestream: *const u8,
            codestream_len: usize,
            marker: u16,
            value: *mut u64,
        ) -> u32;

        pub fn winterhasp_scan_sot_markers(
            codestream: *const u8,
            codestream_len: usize,
            first_sot_offset: u64,
            table: *mut u8,
            table_len: usize,
            value: *mut u64,
        ) -> u32;

        pub fn winterhasp_check_length_table(
            codestream: *const u8,
            codestream_len: usize,
            region: u64,
            value: *mut u64,
            offset: *mut u64,
            listed_tile: *mut u64,
            listed_length: *mut u64,
            standing_tile: *mut u64,
            standing_length: *mut u64,
        ) -> u32;

        pub fn winterhasp_list_boxes(
            file: *const u8,
            file_len: usize,
            table: *mut u8,
            table_len: usize,
            value: *mut u64,
        ) -> u32;

        pub fn winterhasp_tile_in_order(table: *const u8, table_len: usize, tile: u16) -> u32;

        pub fn winterhasp_index_tiles(
            table: *const u8,
            table_len: usize,
            index: *mut u64,
            index_len: usize,
            scratch: *mut u64,
            scratch_len: usize,
            value: *mut u64,
        ) -> u32;

        pub fn winterhasp_extend_index(
            table: *const u8,
            table_len: usize,
            have: u64,
            index: *mut u64,
            index_len: usize,
            scratch: *mut u64,
            scratch_len: usize,
            value: *mut u64,
        ) -> u32;

        pub fn winterhasp_tile_run(
            index: *const u64,
            index_len: usize,
            tile: u16,
            first: *mut u64,
            count: *mut u64,
        ) -> u32;

        pub fn winterhasp_tile_entries(
            table: *const u8,
            table_len: usize,
            index: *const u64,
            index_len: usize,
            tile: u16,
            out: *mut u8,
            out_len: usize,
            value: *mut u64,
        ) -> u32;

        pub fn winterhasp_split_count(tile: *const u8, tile_len: usize) -> u64;

        pub fn winterhasp_split_part(
            tile: *const u8,
            tile_len: usize,
            k: u64,
            out: *mut u8,
            out_len: usize,
            value: *mut u64,
        ) -> u32;

        pub fn winterhasp_split_at(
            tile: *const u8,
            tile_len: usize,
            at: u64,
            out: *mut u8,
            out_len: usize,
            value: *mut u64,
        ) -> u32;

        pub fn winterhasp_rewrite_siz_for_tile(
            decode_header: *const u8,
            decode_header_len: usize,
            isot: u16,
            out: *mut u8,
            out_len: usize,
            value: *mut u64,
        ) -> u32;

        pub fn winterhasp_rewrite_siz_for_tile_by_rule(
            decode_header: *const u8,
            decode_header_len: usize,
            isot: u16,
            rule: u32,
            out: *mut u8,
            out_len: usize,
            value: *mut u64,
        ) -> u32;

        pub fn winterhasp_build_minimal_codestream(
            decode_header: *const u8,
            decode_header_len: usize,
            tile_parts: *const u8,
            tile_parts_len: usize,
            codestream: *const u8,
            codestream_len: usize,
            out: *mut u8,
            out_len: usize,
            value: *mut u64,
        ) -> u32;

        pub fn winterhasp_build_minimal_codestream_by_rule(
            decode_header: *const u8,
            decode_header_len: usize,
            tile_parts: *const u8,
            tile_parts_len: usize,
            codestream: *const u8,
            codestream_len: usize,
            rule: u32,
            out: *mut u8,
            out_len: usize,
            value: *mut u64,
        ) -> u32;

        pub fn winterhasp_find_codestream(
            file: *const u8,
            file_len: usize,
            start: *mut u64,
            length: *mut u64,
        ) -> u32;

        pub fn winterhasp_parse_siz_marker(
            codestream: *const u8,
            codestream_len: usize,
            width: *mut u64,
            height: *mut u64,
            components: *mut u64,
            bits: *mut u64,
            signed: *mut u64,
        ) -> u32;

        pub fn winterhasp_pixel_type(bits: u8, signed: u32) -> u32;

        pub fn winterhasp_read_components(
            codestream: *const u8,
            codestream_len: usize,
            components: *mut u64,
            x0: *mut u64,
            y0: *mut u64,
            x1: *mut u64,
            y1: *mut u64,
        ) -> u32;

        pub fn winterhasp_read_components_in_tile(
            codestream: *const u8,
            codestream_len: usize,
            tile: u16,
            components: *mut u64,
            x0: *mut u64,
            y0: *mut u64,
            x1: *mut u64,
            y1: *mut u64,
        ) -> u32;

        pub fn winterhasp_read_components_in_tile_by_rule(
            codestream: *const u8,
            codestream_len: usize,
            tile: u16,
            rule: u32,
            components: *mut u64,
            x0: *mut u64,
            y0: *mut u64,
            x1: *mut u64,
            y1: *mut u64,
        ) -> u32;

        pub fn winterhasp_component(
            codestream: *const u8,
            codestream_len: usize,
            number: u64,
            bits: *mut u64,
            signed: *mut u64,
            xrsiz: *mut u64,
            yrsiz: *mut u64,
            x0: *mut u64,
            y0: *mut u64,
            x1: *mut u64,
            y1: *mut u64,
        ) -> u32;

        pub fn winterhasp_component_in_tile(
            codestream: *const u8,
            codestream_len: usize,
            tile: u16,
            number: u64,
            bits: *mut u64,
            signed: *mut u64,
            xrsiz: *mut u64,
            yrsiz: *mut u64,
            x0: *mut u64,
            y0: *mut u64,
            x1: *mut u64,
            y1: *mut u64,
        ) -> u32;

        pub fn winterhasp_component_in_tile_by_rule(
            codestream: *const u8,
            codestream_len: usize,
            tile: u16,
            rule: u32,
            number: u64,
            bits: *mut u64,
            signed: *mut u64,
            xrsiz: *mut u64,
            yrsiz: *mut u64,
            x0: *mut u64,
            y0: *mut u64,
            x1: *mut u64,
            y1: *mut u64,
        ) -> u32;

        pub fn winterhasp_component_within(
            codestream: *const u8,
            codestream_len: usize,
            area_x0: u32,
            area_y0: u32,
            area_x1: u32,
            area_y1: u32,
            number: u64,
            bits: *mut u64,
            signed: *mut u64,
            xrsiz: *mut u64,
            yrsiz: *mut u64,
            x0: *mut u64,
            y0: *mut u64,
            x1: *mut u64,
            y1: *mut u64,
        ) -> u32;

        pub fn winterhasp_grow_header_region(
            codestream: *const u8,
            codestream_len: usize,
            region: *mut u64,
            enlargements: *mut u64,
        ) -> u32;

        pub fn winterhasp_next_region(region: u64, length: u64) -> u64;
    }
}

/// 1 with the place in `value`, or 0 with `value` as it was where it passes 2^64-1.
pub fn in_file(offset: u64, start: u64, value: &mut u64) -> u32 {
    // SAFETY: as at the top of this file.
    unsafe { archive::winterhasp_in_file(offset, start, value) }
}

/// 1 with the first SOT's offset in `value`, or 0 with `value` as it was.
pub fn main_header_extent(prefix: &[u8], value: &mut u64) -> u32 {
    // SAFETY: as at the top of this file.
    unsafe { archive::winterhasp_main_header_extent(prefix.as_ptr(), prefix.len(), value) }
}

/// TLM entries go to `table` as rows of 21 bytes, numbered on over the segments where they have no
/// index, the decode header to `out`; CAP is passed over. Numbers: first SOT, the decode header's
/// length, entries, fillers.
pub fn parse_main_header(
    codestream: &[u8],
    table: &mut [u8],
    out: &mut [u8],
    [first_sot, decode_length, entries, fillers]: &mut [u64; 4],
) -> u32 {
    // SAFETY: as at the top of this file.
    unsafe {
        archive::winterhasp_parse_main_header(
            codestream.as_ptr(),
            codestream.len(),
            table.as_mut_ptr(),
            table.len(),
            out.as_mut_ptr(),
            out.len(),
            first_sot,
            decode_length,
            entries,
            fillers,
        )
    }
}

/// How a main header is read, as the function below takes it: a number for each choice.
#[repr(C)]
#[derive(Debug, Clone, Copy)]
pub struct Reading {
    pub numbering: u32,
    pub edition: u32,
}

/// The numberings; any other number means the first.
pub const CARRIED_ON: u32 = 0;
pub const RESTARTING: u32 = 1;

/// The editions; any other number means the first.
pub const OLDER: u32 = 0;
pub const NEWER: u32 = 1;

/// The same, read as is said.
pub fn parse_main_header_by_reading(
    codestream: &[u8],
    reading: Reading,
    table: &mut [u8],
    out: &mut [u8],
    [first_sot, decode_length, entries, fillers]: &mut [u64; 4],
) -> u32 {
    // SAFETY: as at the top of this file.
    unsafe {
        archive::winterhasp_parse_main_header_by_reading(
            codestream.as_ptr(),
            codestream.len(),
            reading,
            table.as_mut_ptr(),
            table.len(),
            out.as_mut_ptr(),
            out.len(),
            first_sot,
            decode_length,
            entries,
            fillers,
        )
    }
}

/// What the function below answers where the walk over the header stands at no marker of that code;
/// `value` is then as it was.
pub const NO_SUCH_MARKER: u32 = 257;

/// The offset of the first marker of that code goes to `value`.
pub fn find_marker(codestream: &[u8], marker: u16, value: &mut u64) -> u32 {
    // SAFETY: as at the top of this file.
    unsafe { archive::winterhasp_find_marker(codestream.as_ptr(), codestream.len(), marker, value) }
}

/// The tile-parts from `first_sot` on go to `table` as rows of 21 bytes, their number to `value`.
pub fn scan_sot_markers(
    codestream: &[u8],
    first_sot: u64,
    table: &mut [u8],
    value: &mut u64,
) -> u32 {
    // SAFETY: as at the top of this file.
    unsafe {
        archive::winterhasp_scan_sot_markers(
            codestream.as_ptr(),
            codestream.len(),
            first_sot,
            table.as_mut_ptr(),
            table.len(),
            value,
        )
    }
}

/// What the function below answers where the length table differs from what stands there; where it does
/// not, the numbers lent are as they were.
pub const LENGTH_TABLE_DIFFERS: u32 = 258;

/// What it tells for the tile of what is not there, with a length of 0.
pub const NO_TILE: u64 = 65_536;

/// The header is read of the first `region` bytes. Numbers: the entry's, where its tile-part stands, the
/// tile and the length that are listed, and those that stand there.
pub fn check_length_table(
    codestream: &[u8],
    region: u64,
    [number, offset, listed_tile, listed_length, standing_tile, standing_length]: &mut [u64; 6],
) -> u32 {
    // SAFETY: as at the top of this file.
    unsafe {
        archive::winterhasp_check_length_table(
            codestream.as_ptr(),
            codestream.len(),
            region,
            number,
            offset,
            listed_tile,
            listed_length,
            standing_tile,
            standing_length,
        )
    }
}

/// The rows of the boxes go to `table`, their number to `value`.
pub fn list_boxes(file: &[u8], table: &mut [u8], value: &mut u64) -> u32 {
    // SAFETY: as at the top of this file.
    unsafe {
        archive::winterhasp_list_boxes(
            file.as_ptr(),
            file.len(),
            table.as_mut_ptr(),
            table.len(),
            value,
        )
    }
}

/// 1 where the tile-parts of `tile` among the rows of `table` stand in order, and else 0.
pub fn tile_in_order(table: &[u8], tile: u16) -> u32 {
    // SAFETY: as at the top of this file.
    unsafe { archive::winterhasp_tile_in_order(table.as_ptr(), table.len(), tile) }
}

/// The index of the rows of `table` goes to `index`, and to `scratch` too, their number to `value`.
pub fn index_tiles(table: &[u8], index: &mut [u64], scratch: &mut [u64], value: &mut u64) -> u32 {
    // SAFETY: as at the top of this file.
    unsafe {
        archive::winterhasp_index_tiles(
            table.as_ptr(),
            table.len(),
            index.as_mut_ptr(),
            index.len(),
            scratch.as_mut_ptr(),
            scratch.len(),
            value,
        )
    }
}

/// The first `have` of `index`, which are the index of as many rows of `table`, become that of all, whose
/// number goes to `value`; `scratch` then holds the keys of the others.
pub fn extend_index(
    table: &[u8],
    have: u64,
    index: &mut [u64],
    scratch: &mut [u64],
    value: &mut u64,
) -> u32 {
    // SAFETY: as at the top of this file.
    unsafe {
        archive::winterhasp_extend_index(
            table.as_ptr(),
            table.len(),
            have,
            index.as_mut_ptr(),
            index.len(),
            scratch.as_mut_ptr(),
            scratch.len(),
            value,
        )
    }
}

/// 1 where `tile` has a run in `index`, and else 0. Where it stands goes to `first`, its length to `count`.
pub fn tile_run(index: &[u64], tile: u16, first: &mut u64, count: &mut u64) -> u32 {
    // SAFETY: as at the top of this file.
    unsafe { archive::winterhasp_tile_run(index.as_ptr(), index.len(), tile, first, count) }
}

/// The rows of `tile` among those of `table`, by the table's index, go to `out`, their number to `value`.
pub fn tile_entries(
    table: &[u8],
    index: &[u64],
    tile: u16,
    out: &mut [u8],
    value: &mut u64,
) -> u32 {
    // SAFETY: as at the top of this file.
    unsafe {
        archive::winterhasp_tile_entries(
            table.as_ptr(),
            table.len(),
            index.as_ptr(),
            index.len(),
            tile,
            out.as_mut_ptr(),
            out.len(),
            value,
        )
    }
}

/// How many tile-parts `tile` holds.
pub fn split_count(tile: &[u8]) -> u64 {
    // SAFETY: as at the top of this file.
    unsafe { archive::winterhasp_split_count(tile.as_ptr(), tile.len()) }
}

/// The part of number `k`, from 0, goes to `out`, its length to `value`; past the last it is empty.
pub fn split_part(tile: &[u8], k: u64, out: &mut [u8], value: &mut u64) -> u32 {
    // SAFETY: as at the top of this file.
    unsafe {
        archive::winterhasp_split_part(
            tile.as_ptr(),
            tile.len(),
            k,
            out.as_mut_ptr(),
            out.len(),
            value,
        )
    }
}

/// The part that stands at the position `at` goes to `out`, its length to `value`; where none does it
/// is empty.
pub fn split_at(tile: &[u8], at: u64, out: &mut [u8], value: &mut u64) -> u32 {
    // SAFETY: as at the top of this file.
    unsafe {
        archive::winterhasp_split_at(
            tile.as_ptr(),
            tile.len(),
            at,
            out.as_mut_ptr(),
            out.len(),
            value,
        )
    }
}

/// The rules by which a tile's place is told, as the functions take them that end in `by_rule`; any
/// other number means Annex B's, by which all other functions go.
pub const ANNEX_B: u32 = 0;
pub const ORIGINAL: u32 = 1;
pub const IN_PLACE: u32 = 2;

/// The header goes to `out`, its length to `value`.
pub fn rewrite_siz_for_tile(
    decode_header: &[u8],
    isot: u16,
    out: &mut [u8],
    value: &mut u64,
) -> u32 {
    // SAFETY: as at the top of this file.
    unsafe {
        archive::winterhasp_rewrite_siz_for_tile(
            decode_header.as_ptr(),
            decode_header.len(),
            isot,
            out.as_mut_ptr(),
            out.len(),
            value,
        )
    }
}

/// The same by a rule.
pub fn rewrite_siz_for_tile_by_rule(
    decode_header: &[u8],
    isot: u16,
    rule: u32,
    out: &mut [u8],
    value: &mut u64,
) -> u32 {
    // SAFETY: as at the top of this file.
    unsafe {
        archive::winterhasp_rewrite_siz_for_tile_by_rule(
            decode_header.as_ptr(),
            decode_header.len(),
            isot,
            rule,
            out.as_mut_ptr(),
            out.len(),
            value,
        )
    }
}

/// The codestream goes to `out`, its length to `value`; `tile_parts` are rows.
pub fn build_minimal_codestream(
    decode_header: &[u8],
    tile_parts: &[u8],
    codestream: &[u8],
    out: &mut [u8],
    value: &mut u64,
) -> u32 {
    // SAFETY: as at the top of this file.
    unsafe {
        archive::winterhasp_build_minimal_codestream(
            decode_header.as_ptr(),
            decode_header.len(),
            tile_parts.as_ptr(),
            tile_parts.len(),
            codestream.as_ptr(),
            codestream.len(),
            out.as_mut_ptr(),
            out.len(),
            value,
        )
    }
}

/// The same by a rule.
pub fn build_minimal_codestream_by_rule(
    decode_header: &[u8],
    tile_parts: &[u8],
    codestream: &[u8],
    rule: u32,
    out: &mut [u8],
    value: &mut u64,
) -> u32 {
    // SAFETY: as at the top of this file.
    unsafe {
        archive::winterhasp_build_minimal_codestream_by_rule(
            decode_header.as_ptr(),
            decode_header.len(),
            tile_parts.as_ptr(),
            tile_parts.len(),
            codestream.as_ptr(),
            codestream.len(),
            rule,
            out.as_mut_ptr(),
            out.len(),
            value,
        )
    }
}

/// Numbers: where the codestream starts in the file, and its length.
pub fn find_codestream(file: &[u8], [start, length]: &mut [u64; 2]) -> u32 {
    // SAFETY: as at the top of this file.
    unsafe { archive::winterhasp_find_codestream(file.as_ptr(), file.len(), start, length) }
}

/// Numbers: width, height, components, bits of a component, and 1 if it is signed.
pub fn parse_siz_marker(
    codestream: &[u8],
    [width, height, components, bits, signed]: &mut [u64; 5],
) -> u32 {
    // SAFETY: as at the top of this file.
    unsafe {
        archive::winterhasp_parse_siz_marker(
            codestream.as_ptr(),
            codestream.len(),
            width,
            height,
            components,
            bits,
            signed,
        )
    }
}

/// UInt8 0, Int8 1, UInt16 2, Int16 3, UInt32 4, Int32 5.
pub fn pixel_type(bits: u8, signed: bool) -> u32 {
    // SAFETY: numbers alone.
    unsafe { archive::winterhasp_pixel_type(bits, u32::from(signed)) }
}

/// Numbers: how many components, and the image's area: x0, y0, x1, y1.
pub fn read_components(codestream: &[u8], [components, x0, y0, x1, y1]: &mut [u64; 5]) -> u32 {
    // SAFETY: as at the top of this file.
    unsafe {
        archive::winterhasp_read_components(
            codestream.as_ptr(),
            codestream.len(),
            components,
            x0,
            y0,
            x1,
            y1,
        )
    }
}

/// Numbers: how many components, and the tile's area: x0, y0, x1, y1.
pub fn read_components_in_tile(
    codestream: &[u8],
    tile: u16,
    [components, x0, y0, x1, y1]: &mut [u64; 5],
) -> u32 {
    // SAFETY: as at the top of this file.
    unsafe {
        archive::winterhasp_read_components_in_tile(
            codestream.as_ptr(),
            codestream.len(),
            tile,
            components,
            x0,
            y0,
            x1,
            y1,
        )
    }
}

/// The same numbers, by a rule.
pub fn read_components_in_tile_by_rule(
    codestream: &[u8],
    tile: u16,
    rule: u32,
    [components, x0, y0, x1, y1]: &mut [u64; 5],
) -> u32 {
    // SAFETY: as at the top of this file.
    unsafe {
        archive::winterhasp_read_components_in_tile_by_rule(
            codestream.as_ptr(),
            codestream.len(),
            tile,
            rule,
            components,
            x0,
            y0,
            x1,
            y1,
        )
    }
}

/// What the four functions below answer where there is no component of that number; the numbers lent
/// are then as they were.
pub const NO_SUCH_COMPONENT: u32 = 256;

/// Numbers: bits, 1 if signed, XRsiz, YRsiz, and the component's area: x0, y0, x1, y1.
pub fn component(
    codestream: &[u8],
    number: u64,
    [bits, signed, xrsiz, yrsiz, x0, y0, x1, y1]: &mut [u64; 8],
) -> u32 {
    // SAFETY: as at the top of this file.
    unsafe {
        archive::winterhasp_component(
            codestream.as_ptr(),
            codestream.len(),
            number,
            bits,
            signed,
            xrsiz,
            yrsiz,
            x0,
            y0,
            x1,
            y1,
        )
    }
}

/// The same numbers, of the component in a tile.
pub fn component_in_tile(
    codestream: &[u8],
    tile: u16,
    number: u64,
    [bits, signed, xrsiz, yrsiz, x0, y0, x1, y1]: &mut [u64; 8],
) -> u32 {
    // SAFETY: as at the top of this file.
    unsafe {
        archive::winterhasp_component_in_tile(
            codestream.as_ptr(),
            codestream.len(),
            tile,
            number,
            bits,
            signed,
            xrsiz,
            yrsiz,
            x0,
            y0,
            x1,
            y1,
        )
    }
}

/// The same numbers, of the component in a tile by a rule.
pub fn component_in_tile_by_rule(
    codestream: &[u8],
    tile: u16,
    rule: u32,
    number: u64,
    [bits, signed, xrsiz, yrsiz, x0, y0, x1, y1]: &mut [u64; 8],
) -> u32 {
    // SAFETY: as at the top of this file.
    unsafe {
        archive::winterhasp_component_in_tile_by_rule(
            codestream.as_ptr(),
            codestream.len(),
            tile,
            rule,
            number,
            bits,
            signed,
            xrsiz,
            yrsiz,
            x0,
            y0,
            x1,
            y1,
        )
    }
}

/// The same numbers, of the component in an area: x0, y0, x1, y1. It never refuses.
pub fn component_within(
    codestream: &[u8],
    [area_x0, area_y0, area_x1, area_y1]: [u32; 4],
    number: u64,
    [bits, signed, xrsiz, yrsiz, x0, y0, x1, y1]: &mut [u64; 8],
) -> u32 {
    // SAFETY: as at the top of this file.
    unsafe {
        archive::winterhasp_component_within(
            codestream.as_ptr(),
            codestream.len(),
            area_x0,
            area_y0,
            area_x1,
            area_y1,
            number,
            bits,
            signed,
            xrsiz,
            yrsiz,
            x0,
            y0,
            x1,
            y1,
        )
    }
}

/// Numbers: the region that was reached, and how often it was enlarged.
pub fn grow_header_region(codestream: &[u8], [region, enlargements]: &mut [u64; 2]) -> u32 {
    // SAFETY: as at the top of this file.
    unsafe {
        archive::winterhasp_grow_header_region(
            codestream.as_ptr(),
            codestream.len(),
            region,
            enlargements,
        )
    }
}

/// The region after `region` in a codestream of `length` bytes.
pub fn next_region(region: u64, length: u64) -> u64 {
    // SAFETY: numbers alone.
    unsafe { archive::winterhasp_next_region(region, length) }
}
