//! The functions of the original's reader that are ported, cut out of it by name when this crate is
//! built, with stand-ins for the types that they give.

use std::ops::Range;

use crate::buffer::OwnedBuffer;

#[allow(warnings, clippy::all)]
mod cut {
    use super::{PixelType, SizMarkerInfo};
    use crate::buffer::OwnedBuffer;
    use crate::error::CodecError;
    use crate::markers::{main_header_extent, MainHeaderExtent};
    use std::ops::Range;

    include!(concat!(env!("OUT_DIR"), "/reader.rs"));
}

pub struct SizMarkerInfo {
    pub width: u32,
    pub height: u32,
    pub num_components: u32,
    pub bits_per_component: u8,
    pub is_signed: bool,
}

/// Numbered as the archive numbers them.
pub enum PixelType {
    UInt8 = 0,
    Int8 = 1,
    UInt16 = 2,
    Int16 = 3,
    UInt32 = 4,
    Int32 = 5,
}

/// Where the codestream stands in the file, if it is found. The test of the file's first bytes stands
/// in the middle of a long function that can't be taken in: it is written here anew.
pub fn find_codestream(file: &OwnedBuffer) -> Option<Range<usize>> {
    let front = file.read_range(0, file.len().min(12)).ok()?;
    if front.len() < 2 {
        None
    } else if front == cut::JP2_SIGNATURE {
        cut::Reader::find_jp2_codestream_range_buffered(file).ok()
    } else if front.starts_with(&cut::J2K_SOC) {
        Some(0..file.len())
    } else {
        None
    }
}

pub fn parse_siz_marker(codestream: &[u8]) -> Option<SizMarkerInfo> {
    cut::Reader::parse_siz_marker(codestream).ok()
}

pub fn pixel_type_from_siz(bits: u8, signed: bool) -> PixelType {
    cut::Reader::pixel_type_from_siz(bits, signed)
}

/// The length of the region reached in a remote codestream, and how many regions were tried.
pub fn grow_header_region(remote: &OwnedBuffer, codestream: Range<usize>) -> (usize, usize) {
    remote.slices_taken();
    let region = cut::Reader::materialize_header_region(remote, codestream);
    let region = region.expect("every region is inside the codestream");
    (region.len(), remote.slices_taken())
}

/// The region behind one of `region` bytes in a codestream of `length`.
pub fn next_region(region: usize, length: usize) -> usize {
    cut::next_region(region, length)
}
