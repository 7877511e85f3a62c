//! The main header: where it ends, what a decoder needs of it, and its table of tile-parts.

use crate::boundary;
use crate::lent::lend;
use crate::offsets::CodestreamOffset;
use crate::reading::Reading;
use crate::refusal::Refusal;
use crate::tile_part::{from_rows, TilePart};

/// What a main header says.
#[derive(Debug, Clone, PartialEq, Eq)]
pub struct MainHeader {
    /// Where the header ends and the first tile-part starts.
    pub first_sot: CodestreamOffset,
    /// The header without its TLM segments, for tiles that are cut out.
    pub decode_header: Vec<u8>,
    /// The tile-parts by the header's own length table, if it has entries. Nothing says that they
    /// stand there: [`scan_sot_markers`](crate::scan_sot_markers) does.
    pub tlm: Option<Vec<TilePart>>,
    /// How many fillers the header holds: delimiters (second byte 92, or 30 to 3F) whose first byte is
    /// not FF. The walk passes them, and no edition of the standard allows them.
    pub fillers: u64,
}

/// Reads the main header of `codestream`, which may be cut behind the first SOT marker. At most
/// 2^32-1 bytes are taken: of a longer one hand over the region that
/// [`grow_header_region`](crate::grow_header_region) gives. It is read as [`Reading`] says by default:
/// entries of the length table without an index are numbered on over its segments, and CAP is passed
/// over as any segment.
///
/// ```
/// use winterhasp::{parse_main_header, CodestreamOffset};
///
/// let codestream = std::fs::read("sample-a.j2k")?;
/// let header = parse_main_header(&codestream)?;
/// assert_eq!(header.first_sot, CodestreamOffset(57));
/// assert_eq!(header.decode_header, codestream[..45]);
/// assert_eq!(header.tlm.map(|parts| parts.len()), Some(2));
/// assert_eq!(header.fillers, 0);
///
/// // SOC, SIZ without a body, a delimiter without FF, SOT; then the delimiter with FF
/// let mut short = [0xFF, 0x4F, 0xFF, 0x51, 0x00, 0x02, 0x00, 0x30, 0xFF, 0x90];
/// assert_eq!(parse_main_header(&short)?.fillers, 1);
/// short[6] = 0xFF;
/// assert_eq!(parse_main_header(&short)?.fillers, 0);
///
/// let refusal = parse_main_header(&codestream[..50]).unwrap_err();
/// assert_eq!((refusal.number(), refusal.place()), (3, 45));
/// # Ok::<(), Box<dyn std::error::Error>>(())
/// ```
pub fn parse_main_header(codestream: &[u8]) -> Result<MainHeader, Refusal> {
    read(|table, out, numbers| boundary::parse_main_header(codestream, table, out, numbers))
}

/// The same, read as a [`Reading`] says.
///
/// ```
/// use winterhasp::{parse_main_header, parse_main_header_by_reading, Edition, Numbering, Reading};
///
/// // a table that has all its indices is the same by either numbering, and a header that announces no
/// // CAP and has none by either edition
/// let codestream = std::fs::read("sample-a.j2k")?;
/// for numbering in [Numbering::CarriedOn, Numbering::Restarting] {
///     for edition in [Edition::Older, Edition::Newer] {
///         let header = parse_main_header_by_reading(&codestream, Reading { numbering, edition })?;
///         assert_eq!(header, parse_main_header(&codestream)?);
///     }
/// }
///
/// // SOC, SIZ without a body, three segments of 22,000 lengths without an index, SOT
/// let segment = [&[0xFF, 0x55, 0xAB, 0xE4, 0, 0][..], &[0; 44_000]].concat();
/// let front = [0xFF, 0x4F, 0xFF, 0x51, 0x00, 0x02];
/// let many = [&front, &segment[..], &segment, &segment, &[0xFF, 0x90]].concat();
/// let refusal = parse_main_header_by_reading(&many, Reading::default()).unwrap_err();
/// assert_eq!((refusal.number(), refusal.place()), (26, 6 + 2 * 44_006));
/// let restarting = Reading { numbering: Numbering::Restarting, ..Reading::default() };
/// let header = parse_main_header_by_reading(&many, restarting)?;
/// assert_eq!(header.tlm.map(|parts| parts.len()), Some(66_000));
/// # Ok::<(), Box<dyn std::error::Error>>(())
/// ```
pub fn parse_main_header_by_reading(
    codestream: &[u8],
    reading: Reading,
) -> Result<MainHeader, Refusal> {
    let reading = reading.numbers();
    read(|table, out, numbers| {
        boundary::parse_main_header_by_reading(codestream, reading, table, out, numbers)
    })
}

/// What a call reads into the memory that it asks for.
fn read(call: impl Fn(&mut [u8], &mut [u8], &mut [u64; 4]) -> u32) -> Result<MainHeader, Refusal> {
    let (lent, numbers) = lend(|lent, numbers| call(&mut lent.table, &mut lent.out, numbers))?;
    let [first_sot, _, entries, fillers] = numbers;
    Ok(MainHeader {
        first_sot: CodestreamOffset(first_sot),
        decode_header: lent.out,
        tlm: (entries > 0).then(|| from_rows(&lent.table)),
        fillers,
    })
}
