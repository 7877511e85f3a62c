//! From a file's bytes to its tile-parts, stage by stage.

use winterhasp::{
    find_codestream, find_marker, grow_header_region, main_header_extent,
    parse_main_header_by_reading, Codestream, CodestreamOffset, Edition, FileOffset, HeaderRegion,
    MainHeader, MainHeaderExtent, Numbering, Reading, Refusal, TileIndex, TilePart,
};

const MARKER: u64 = 2;
const CAP: u16 = 0xFF50;
const PPM: u16 = 0xFF60;
pub const EOC: [u8; 2] = [0xFF, 0xD9];
const PSOT_AT: u64 = 6;

/// As nothing is refused that another reading accepts.
const LEAST: Reading = Reading {
    numbering: Numbering::Restarting,
    edition: Edition::Older,
};

/// How tile-parts are scanned: to a list of them, or to an index.
pub type Scan<P> = fn(&[u8], CodestreamOffset) -> Result<P, Refusal>;

/// What each stage gave, up to the first that refused.
#[derive(Default)]
pub struct Stages<'a, P> {
    pub codestream: Option<Codestream<'a>>,
    pub fetch: Option<Fetch>,
    pub header: Option<MainHeader>,
    pub parts: Option<P>,
    pub refused: Option<Refusal>,
}

/// How much of a codestream is fetched for its main header.
#[derive(Clone, Copy)]
pub struct Fetch {
    /// Where the first SOT stands, if one is reached.
    pub first_sot: Option<CodestreamOffset>,
    pub region: HeaderRegion,
}

/// A file that every stage accepted.
#[derive(Debug)]
pub struct Accepted<'a, P> {
    pub codestream: Codestream<'a>,
    pub header: MainHeader,
    pub parts: P,
}

impl<'a, P: Default> Stages<'a, P> {
    pub fn of(file: &'a [u8], reading: Reading, scan: Scan<P>) -> Self {
        let mut stages = Stages::default();
        stages.refused = stages.go(file, reading, scan).err();
        stages
    }

    fn go(&mut self, file: &'a [u8], reading: Reading, scan: Scan<P>) -> Result<(), Refusal> {
        let codestream = find_codestream(file)?;
        self.codestream = Some(codestream);
        let fetch = Fetch::of(codestream.bytes);
        self.fetch = Some(fetch);
        let header = main_header(codestream.bytes, fetch, reading)?;
        let first_sot = header.first_sot;
        self.header = Some(header);
        self.parts = Some(scan(codestream.bytes, first_sot)?);
        Ok(())
    }

    /// Where the codestream starts in the file, if it was found.
    pub fn start(&self) -> Option<FileOffset> {
        Some(self.codestream?.start)
    }
}

impl Fetch {
    /// No byte behind the region is read.
    pub fn of(codestream: &[u8]) -> Self {
        let region = grow_header_region(codestream);
        let first_sot = match main_header_extent(first(codestream, region.length)) {
            MainHeaderExtent::Complete(first_sot) => Some(first_sot),
            MainHeaderExtent::Truncated => None,
        };
        Fetch { first_sot, region }
    }

    /// How many bytes from the codestream's start hold the header, if it ends.
    pub fn enough(self) -> Option<u64> {
        self.first_sot.map(behind_marker)
    }
}

impl<'a, P> Accepted<'a, P> {
    /// Or the refusal, and where the codestream starts in the file if it was found. The header's own table
    /// is not looked at, so it is numbered so that no number is refused.
    pub fn of(file: &'a [u8], scan: Scan<P>) -> Result<Self, (Refusal, Option<FileOffset>)> {
        let codestream = find_codestream(file).map_err(|refusal| (refusal, None))?;
        let refused = |refusal| (refusal, Some(codestream.start));
        let fetch = Fetch::of(codestream.bytes);
        let header = main_header(codestream.bytes, fetch, LEAST).map_err(refused)?;
        let parts = scan(codestream.bytes, header.first_sot).map_err(refused)?;
        Ok(Accepted {
            codestream,
            header,
            parts,
        })
    }
}

/// Of a long codestream only the first bytes are lent. A header that ends is copied first: its
/// reading counts in one pass and writes in the next, and a mapped file might change between them.
fn main_header(codestream: &[u8], fetch: Fetch, reading: Reading) -> Result<MainHeader, Refusal> {
    match fetch.first_sot {
        Some(first_sot) => {
            parse_main_header_by_reading(&with_first_sot(codestream, first_sot), reading)
        }
        None => parse_main_header_by_reading(first(codestream, fetch.region.length), reading),
    }
}

/// A copy of the header, with the marker of the first SOT behind it.
fn with_first_sot(codestream: &[u8], first_sot: CodestreamOffset) -> Vec<u8> {
    first(codestream, behind_marker(first_sot)).to_vec()
}

fn behind_marker(at: CodestreamOffset) -> u64 {
    at.0.saturating_add(MARKER)
}

/// Where CAP stands in the header, which was accepted by the older edition, if it does; or what the newer
/// refuses.
pub fn capabilities(
    codestream: &[u8],
    header: &MainHeader,
) -> Result<Option<CodestreamOffset>, Refusal> {
    let header = with_first_sot(codestream, header.first_sot);
    let newer = Reading {
        edition: Edition::Newer,
        ..LEAST
    };
    parse_main_header_by_reading(&header, newer)?;
    find_marker(&header, CAP)
}

/// Where the header, which was accepted, starts to hold the packet headers of all tile-parts, in the order
/// of the file (PPM); nothing if these stand with the tile-parts, so that a tile can be cut out.
pub fn packed_headers(
    codestream: &[u8],
    header: &MainHeader,
) -> Result<Option<CodestreamOffset>, Refusal> {
    find_marker(&with_first_sot(codestream, header.first_sot), PPM)
}

fn first(bytes: &[u8], length: u64) -> &[u8] {
    let length = usize::try_from(length).unwrap_or(usize::MAX);
    bytes.get(..length).unwrap_or(bytes)
}

/// The tile-parts behind a header that was refused for its TLM alone.
pub fn parts_without_tlm(codestream: &[u8], fetch: Fetch) -> Option<TileIndex> {
    TileIndex::scan(codestream, fetch.first_sot?).ok()
}

/// Where a scan that was accepted stopped.
#[derive(Debug, Clone, Copy, PartialEq, Eq)]
pub struct End {
    pub at: CodestreamOffset,
    pub what: Stopped,
    /// Bytes behind that place, and behind EOC, that nobody looked at.
    pub unread: u64,
}

#[derive(Debug, Clone, Copy, PartialEq, Eq)]
pub enum Stopped {
    AtEoc,
    /// The last tile-part ends with the codestream.
    AtEnd,
    /// The last tile-part has Psot 0: all bytes that are left are its own, EOC too.
    InLastPart,
    /// These stand there, and are neither EOC nor the start of a tile-part.
    AtOther([u8; 2]),
}

impl End {
    /// Behind the last of its tile-parts.
    pub fn of(codestream: &[u8], last: &TilePart) -> Option<Self> {
        let at = last.offset.0.checked_add(last.length)?;
        let left = (codestream.len() as u64).saturating_sub(at);
        let (what, unread) = match at_place(codestream, at) {
            Some(EOC) => (Stopped::AtEoc, left - MARKER),
            Some(other) => (Stopped::AtOther(other), left),
            None if reaches_to_the_end(codestream, last) => (Stopped::InLastPart, 0),
            None => (Stopped::AtEnd, left),
        };
        Some(End {
            at: CodestreamOffset(at),
            what,
            unread,
        })
    }
}

fn at_place<const N: usize>(bytes: &[u8], at: u64) -> Option<[u8; N]> {
    let rest = bytes.get(usize::try_from(at).ok()?..)?;
    rest.first_chunk().copied()
}

fn reaches_to_the_end(codestream: &[u8], last: &TilePart) -> bool {
    at_place(codestream, last.offset.0.saturating_add(PSOT_AT)) == Some([0; 4])
}

#[cfg(test)]
mod tests {
    use winterhasp::scan_sot_markers;

    use super::{packed_headers, Accepted, End, Stopped};

    const SAMPLE: &[u8] = include_bytes!("../../../crates/tileparts/stdin");

    fn end(file: &[u8]) -> (u64, Stopped, u64) {
        let accepted = Accepted::of(file, scan_sot_markers).expect("accepted");
        let last = accepted.parts.last().expect("a part");
        let end = End::of(accepted.codestream.bytes, last).expect("its end");
        (end.at.0, end.what, end.unread)
    }

    #[test]
    fn a_scan_says_where_it_stopped() {
        assert_eq!(end(SAMPLE), (87, Stopped::AtEoc, 0));
        assert_eq!(end(&SAMPLE[..87]), (87, Stopped::AtEnd, 0));
        let behind = [SAMPLE, &[0; 5]].concat();
        assert_eq!(end(&behind), (87, Stopped::AtEoc, 5));
        let mut short = SAMPLE.to_vec();
        short[57 + 9] = 13;
        short.extend([0; 20]);
        assert_eq!(end(&short), (70, Stopped::AtOther([0x93, 0xFF]), 39));
        let mut open = SAMPLE.to_vec();
        open[71 + 9] = 0;
        assert_eq!(end(&open), (89, Stopped::InLastPart, 0));
    }
    /// What stands between SIZ and the first tile-part of the sample, in place of TLM.
    fn packed(between: &[u8], parts: &[u8]) -> Option<u64> {
        let file = [&SAMPLE[..45], between, parts].concat();
        let accepted = Accepted::of(&file, scan_sot_markers).expect("accepted");
        let found = packed_headers(accepted.codestream.bytes, &accepted.header);
        found.expect("not refused").map(|at| at.0)
    }

    #[test]
    fn packet_headers_are_found_where_the_header_has_them() {
        let parts = &SAMPLE[57..];
        let ppm = [0xFF, 0x60, 0, 7, 0, 0, 0, 0, 0];
        let comment = [0xFF, 0x64, 0, 6, 0, 1, 0xFF, 0x60];
        assert_eq!(packed(&[], parts), None);
        assert_eq!(packed(&ppm, parts), Some(45));
        assert_eq!(packed(&[ppm, ppm].concat(), parts), Some(45));
        assert_eq!(packed(&[&comment, &ppm[..]].concat(), parts), Some(53));
        // not in a comment, behind the first SOT, or of another high byte
        assert_eq!(packed(&comment, parts), None);
        let mut behind = parts.to_vec();
        behind[12..14].copy_from_slice(&ppm[..2]);
        assert_eq!(packed(&[], &behind), None);
        assert_eq!(packed(&[0xFE, 0x60, 0, 2], parts), None);
    }
}
