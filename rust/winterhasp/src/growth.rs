//! How much of a codestream is fetched for its main header.

use crate::boundary;

/// The first bytes of a codestream, enough for its main header or all there are.
#[derive(Debug, Clone, Copy, PartialEq, Eq)]
pub struct HeaderRegion {
    /// In bytes.
    pub length: u64,
    /// How often it was enlarged.
    pub enlargements: u64,
}

/// From 65,536 bytes on doubled until the main header is whole, or the region is all of `codestream`.
/// Of a codestream of at most 2^32-1 bytes the region is read as the whole is, by
/// [`parse_main_header`](crate::parse_main_header) with every reading, and with every refusal; a longer one
/// is refused whole, and is read by its region if that is no longer.
///
/// ```
/// use winterhasp::{grow_header_region, parse_main_header};
///
/// let mut codestream = std::fs::read("sample-a.j2k")?;
/// codestream.resize(1 << 20, 0);
/// let region = grow_header_region(&codestream);
/// assert_eq!((region.length, region.enlargements), (65_536, 0));
/// assert_eq!(parse_main_header(&codestream[..65_536]), parse_main_header(&codestream));
/// # Ok::<(), std::io::Error>(())
/// ```
pub fn grow_header_region(codestream: &[u8]) -> HeaderRegion {
    let mut numbers = [0; 2];
    // It never refuses.
    boundary::grow_header_region(codestream, &mut numbers);
    let [length, enlargements] = numbers;
    HeaderRegion {
        length,
        enlargements,
    }
}

/// One step of that, for who fetches a codestream of `length` bytes piece by piece: the region to try
/// after one of `region` bytes.
///
/// ```
/// use winterhasp::next_region;
///
/// assert_eq!(next_region(65_536, 200_000), 131_072);
/// assert_eq!(next_region(131_072, 200_000), 200_000);
/// ```
pub fn next_region(region: u64, length: u64) -> u64 {
    boundary::next_region(region, length)
}
