//! `winterhasp show`: what a person asks first of a file, in words or as JSON.

use std::fmt::Write;
use std::ops::RangeInclusive;
use std::path::Path;

use serde::Serialize;
use winterhasp::{
    parse_siz_marker, Codestream, Components, FileOffset, MainHeader, Reading, Refusal, TileIndex,
};

use crate::arguments;
use crate::components::{InTile, Line, Sizes};
use crate::contents::Contents;
use crate::names::shown;
use crate::offsets::Offsets;
use crate::output::{print, tell};
use crate::siz::{box_text, Grid, Pair, Siz};
use crate::stages::{capabilities, packed_headers, parts_without_tlm, End, Fetch, Stages, Stopped};
use crate::tiles::{out_of_order, ranges_text, Tiles};
use crate::trouble::{about, sentence, Refused, Status, Trouble};

pub fn show(arguments: &arguments::Show) -> Result<Status, Trouble> {
    let path = &arguments.file;
    let contents = Contents::open(path)?;
    let reading = Reading {
        edition: arguments.edition.into(),
        ..Reading::default()
    };
    let (report, trouble) = Report::of(path, contents.bytes(), reading, arguments.tile);
    contents.unchanged(path)?;
    let text = if arguments.json {
        report.json()?
    } else {
        report.text()
    };
    print(text.as_bytes())?;
    let Some(trouble) = trouble else {
        return Ok(Status::Accepted);
    };
    tell(&about(path, trouble));
    Ok(Status::Refused)
}

/// What is known of a file; of one that is refused, up to there.
#[derive(Serialize)]
struct Report {
    file: String,
    bytes: u64,
    status: &'static str,
    container: Option<&'static str>,
    codestream: Option<Place>,
    fetch: Option<FetchReport>,
    image: Option<Box>,
    tile: Option<Box>,
    grid: Option<GridReport>,
    components: Option<Sizes>,
    /// None: it isn't asked for, or SIZ is not known.
    in_tile: Option<InTile>,
    header: Option<Header>,
    tile_parts: Option<TileParts>,
    tiles: Option<TilesReport>,
    scan_ended: Option<Ended>,
    refused: Option<Refused>,
}

#[derive(Serialize, Clone, Copy)]
struct Place {
    start: u64,
    length: u64,
}

#[derive(Serialize)]
struct FetchReport {
    /// Bytes from the codestream's start that hold the header; none: no SOT is reached.
    enough: Option<u64>,
    /// Bytes that growth fetches.
    region: u64,
    enlargements: u64,
}

#[derive(Serialize)]
struct Box {
    width: u64,
    height: u64,
    x_origin: u64,
    y_origin: u64,
}

#[derive(Serialize)]
struct GridReport {
    columns: u64,
    rows: u64,
    tiles: u64,
}

#[derive(Serialize)]
struct Header {
    length: u64,
    /// Without TLM.
    decode_length: u64,
    edition: EditionReport,
    /// None: there is no table.
    tlm_entries: Option<u64>,
    /// Delimiters without FF, which no edition of the standard allows.
    fillers: u64,
    /// Where packet headers of all tiles start; none: there are none, and tiles can be cut out.
    ppm: Option<Offsets>,
}

#[derive(Serialize)]
struct EditionReport {
    name: &'static str,
    /// Of the newer edition: where the capabilities stand.
    cap: Option<Offsets>,
    /// Why it is not of the newer, where it would be by what it announces or holds.
    newer_refuses: Option<Refused>,
}

#[derive(Serialize)]
struct TileParts {
    count: u64,
    bytes: u64,
    first: Offsets,
    /// First and last of each range of tiles whose parts are out of order.
    out_of_order_ranges: Vec<[usize; 2]>,
}

#[derive(Serialize)]
struct TilesReport {
    present: u64,
    missing: u64,
    /// First and last of each range; none where there are more tiles than an index can name.
    missing_ranges: Option<Vec<[usize; 2]>>,
    outside_ranges: Vec<[usize; 2]>,
}

#[derive(Serialize)]
struct Ended {
    at: &'static str,
    #[serde(flatten)]
    place: Offsets,
    /// What stands there, where it is neither EOC nor a tile-part.
    bytes: Option<String>,
    unread: u64,
}

impl Report {
    /// And a sentence where the file is refused, or the tile that is asked for.
    fn of(path: &Path, file: &[u8], reading: Reading, tile: Option<u16>) -> (Self, Option<String>) {
        let stages = Stages::of(file, reading, TileIndex::scan);
        let start = stages.start();
        let header = header_with_siz(&stages);
        let (siz, siz_refused) = header.map_or((None, None), siz_of);
        // No more is asked of a SIZ that is refused.
        let known = header.filter(|_| siz.is_some());
        let components = known.map(Components::read);
        let in_tile = tile
            .zip(known)
            .map(|(tile, header)| Components::read_in_tile(header, tile));
        let of_file = stages.refused.or(siz_refused).or(refused(components));
        let refusal = of_file.or(refused(in_tile));
        let mut report = Report {
            file: shown(path),
            bytes: file.len() as u64,
            status: match refusal {
                None => "accepted",
                Some(_) => "refused",
            },
            refused: refusal.map(|refusal| Refused::new(refusal, start)),
            container: stages.codestream.map(container),
            codestream: stages.codestream.map(place),
            fetch: stages.fetch.map(FetchReport::of),
            header: header_of(&stages),
            image: None,
            tile: None,
            grid: None,
            components: components.map(|read| Sizes::of(read, start)),
            in_tile: tile.zip(in_tile).map(|(index, read)| InTile {
                index,
                sizes: Sizes::of(read, start),
            }),
            tile_parts: None,
            tiles: None,
            scan_ended: None,
        };
        if let Some(siz) = &siz {
            report.add_siz(siz);
        }
        if let Some((codestream, fetch)) = stages.codestream.zip(stages.fetch) {
            let parts = stages.parts;
            let parts = parts.or_else(|| parts_of_refused(stages.refused, codestream, fetch));
            let grid = siz.as_ref().and_then(Siz::grid);
            report.add_parts(codestream, &parts.unwrap_or_default(), grid);
        }
        let trouble = refusal.map(|refusal| match (of_file, tile) {
            (None, Some(tile)) => format!("tile {tile}: {}", sentence(refusal, start)),
            _ => sentence(refusal, start),
        });
        (report, trouble)
    }

    fn add_siz(&mut self, siz: &Siz) {
        self.image = siz.image().map(|size| Box::of(size, siz.origin));
        self.tile = Some(Box::of(siz.tile, siz.tile_origin));
        self.grid = siz.grid().map(|grid| GridReport {
            columns: grid.columns,
            rows: grid.rows,
            tiles: grid.tiles(),
        });
    }

    fn add_parts(&mut self, codestream: Codestream, index: &TileIndex, grid: Option<Grid>) {
        let Some((first, last)) = index.parts().next().zip(index.parts().next_back()) else {
            return;
        };
        let end = End::of(codestream.bytes, &last);
        self.scan_ended = end.map(|end| Ended::of(end, codestream.start));
        self.tiles = grid.map(|grid| TilesReport::of(&Tiles::of(index.parts()), grid));
        self.tile_parts = Some(TileParts {
            count: index.len() as u64,
            bytes: index.parts().map(|part| part.length).sum(),
            first: Offsets::of(first.offset, codestream.start),
            out_of_order_ranges: pairs(out_of_order(index)),
        });
    }

    fn json(&self) -> Result<String, Trouble> {
        let json = serde_json::to_string(self);
        let json = json.map_err(|error| Trouble::Failed(format!("winterhasp: {error}")))?;
        Ok(json + "\n")
    }

    fn text(&self) -> String {
        let (parts, tiles) = (self.tile_parts.as_ref(), self.tiles.as_ref());
        let before = [
            ("file", Some(format!("{}, {} bytes", self.file, self.bytes))),
            ("container", self.container_text()),
            ("image", self.image.as_ref().map(Box::text)),
            ("tiles", self.tiles_text()),
        ];
        let sizes = self.components.iter();
        let components = sizes.flat_map(|sizes| sizes.lines("components".to_string()));
        let in_tile = self.in_tile.iter().flat_map(InTile::lines);
        let behind = [
            ("header", self.header.as_ref().map(Header::text)),
            ("fetch", self.fetch_text()),
            ("edition", self.header.as_ref().map(Header::edition_text)),
            ("tlm", self.header.as_ref().map(Header::tlm_text)),
            ("filler", self.header.as_ref().map(Header::filler_text)),
            ("ppm", self.header.as_ref().and_then(Header::ppm_text)),
            ("tile-parts", parts.map(TileParts::text)),
            ("present", self.present_text()),
            ("missing", tiles.map(TilesReport::missing_text)),
            ("outside", tiles.and_then(TilesReport::outside_text)),
            ("order", parts.and_then(TileParts::order_text)),
            ("scan ended", self.scan_ended.as_ref().map(Ended::text)),
            ("refused", self.refused.as_ref().map(Refused::text)),
        ];
        let lines = known(before).chain(components).chain(in_tile);
        let mut text = String::new();
        for (label, line) in lines.chain(known(behind)) {
            // A string takes all that is written to it.
            let _ = writeln!(text, "{label:<11} {line}");
        }
        text
    }

    fn container_text(&self) -> Option<String> {
        let Place { start, length } = self.codestream?;
        Some(match self.container? {
            JP2 => {
                format!("JP2, with a codestream of {length} bytes from byte {start} of the file on")
            }
            _ => format!("none: a bare codestream of {length} bytes"),
        })
    }

    fn fetch_text(&self) -> Option<String> {
        let FetchReport {
            enough,
            region,
            enlargements,
        } = self.fetch.as_ref()?;
        let fetched = match (enough, self.codestream?.start) {
            (None, _) => format!("no tile-part is reached: growth fetches all {region} bytes"),
            (Some(enough), 0) => {
                format!("the file's first {enough} bytes hold the header; growth fetches {region}")
            }
            (Some(enough), start) => {
                format!("{enough} bytes from byte {start} of the file on hold the header; growth fetches {region}")
            }
        };
        Some(match enlargements {
            0 => format!("{fetched}, with no enlargement"),
            1 => format!("{fetched}, with 1 enlargement"),
            _ => format!("{fetched}, with {enlargements} enlargements"),
        })
    }

    fn tiles_text(&self) -> Option<String> {
        let tile = self.tile.as_ref()?.text();
        Some(match &self.grid {
            Some(GridReport {
                columns,
                rows,
                tiles,
            }) => format!("{tile}; {tiles} in a grid of {columns} by {rows}"),
            None => format!("{tile}; they make no grid"),
        })
    }

    fn present_text(&self) -> Option<String> {
        let (tiles, grid) = (self.tiles.as_ref()?, self.grid.as_ref()?);
        Some(format!("{} of {} tiles", tiles.present, grid.tiles))
    }
}

const JP2: &str = "jp2";
const BARE: &str = "codestream";

fn container(codestream: Codestream) -> &'static str {
    match codestream.start {
        FileOffset(0) => BARE,
        _ => JP2,
    }
}

fn place(codestream: Codestream) -> Place {
    Place {
        start: codestream.start.0,
        length: codestream.bytes.len() as u64,
    }
}

fn header_of(stages: &Stages<TileIndex>) -> Option<Header> {
    let (codestream, header) = stages.codestream.zip(stages.header.as_ref())?;
    // A header that was accepted is not refused here.
    let ppm = packed_headers(codestream.bytes, header).ok().flatten();
    Some(Header {
        length: header.first_sot.0,
        decode_length: header.decode_header.len() as u64,
        edition: EditionReport::of(codestream, header),
        tlm_entries: header.tlm.as_ref().map(|entries| entries.len() as u64),
        fillers: header.fillers,
        ppm: ppm.map(|at| Offsets::of(at, codestream.start)),
    })
}

fn known<const N: usize>(lines: [(&str, Option<String>); N]) -> impl Iterator<Item = Line> + '_ {
    let known = |(label, line): (&str, Option<String>)| Some((label.to_string(), line?));
    lines.into_iter().filter_map(known)
}

/// Of a header that was accepted, or that was refused behind SIZ.
fn header_with_siz<'a>(stages: &'a Stages<TileIndex>) -> Option<&'a [u8]> {
    match (&stages.header, stages.refused) {
        (Some(header), _) => Some(&header.decode_header),
        (None, Some(refusal)) if behind_siz(refusal) => Some(stages.codestream?.bytes),
        _ => None,
    }
}

/// And whether it is refused.
fn siz_of(header: &[u8]) -> (Option<Siz>, Option<Refusal>) {
    match parse_siz_marker(header) {
        Ok(_) => (Siz::of(header), None),
        Err(refusal) => (None, Some(refusal)),
    }
}

fn refused(read: Option<Result<Components, Refusal>>) -> Option<Refusal> {
    read?.err()
}

/// The walk over the header has passed SIZ, and TLM or CAP is refused.
fn behind_siz(refusal: Refusal) -> bool {
    matches!(refusal.number(), 4 | 5 | 26 | 33 | 34)
}

/// What the scan lists where only TLM or CAP is wrong, as the remedy says.
fn parts_of_refused(
    refusal: Option<Refusal>,
    codestream: Codestream,
    fetch: Fetch,
) -> Option<TileIndex> {
    refusal.filter(|refusal| behind_siz(*refusal))?;
    parts_without_tlm(codestream.bytes, fetch)
}

impl FetchReport {
    fn of(fetch: Fetch) -> Self {
        FetchReport {
            enough: fetch.enough(),
            region: fetch.region.length,
            enlargements: fetch.region.enlargements,
        }
    }
}

impl Box {
    fn of([width, height]: Pair, [x_origin, y_origin]: Pair) -> Self {
        Box {
            width,
            height,
            x_origin,
            y_origin,
        }
    }

    fn text(&self) -> String {
        box_text([self.width, self.height], [self.x_origin, self.y_origin])
    }
}

impl Header {
    fn text(&self) -> String {
        let Header {
            length,
            decode_length,
            ..
        } = self;
        format!("{length} bytes, {decode_length} without TLM")
    }

    fn edition_text(&self) -> String {
        let edition = &self.edition;
        match (edition.cap, &edition.newer_refuses) {
            (Some(cap), _) => format!("newer: capabilities (CAP) at {}, as announced", cap.text()),
            (None, None) => "older: no capabilities (CAP) are announced".to_string(),
            (None, Some(refused)) => format!("older; THE NEWER REFUSES IT: {}", refused.text()),
        }
    }

    fn tlm_text(&self) -> String {
        match self.tlm_entries {
            Some(entries) => format!("{entries} entries"),
            None => "none".to_string(),
        }
    }

    fn filler_text(&self) -> String {
        let fillers = self.fillers;
        let delimiters = match fillers {
            0 => return "none".to_string(),
            1 => "DELIMITER",
            _ => "DELIMITERS",
        };
        format!("{fillers} {delimiters} WITHOUT FF, which no edition of the standard allows")
    }

    fn ppm_text(&self) -> Option<String> {
        let place = self.ppm?.text();
        Some(format!(
            "PACKET HEADERS OF ALL TILES, from {place} on: no tile can be cut out"
        ))
    }
}

impl EditionReport {
    fn of(codestream: Codestream, header: &MainHeader) -> Self {
        let (cap, refused) = match capabilities(codestream.bytes, header) {
            Ok(cap) => (cap, None),
            Err(refusal) => (None, Some(refusal)),
        };
        EditionReport {
            name: if cap.is_some() { "newer" } else { "older" },
            cap: cap.map(|at| Offsets::of(at, codestream.start)),
            newer_refuses: refused.map(|refusal| Refused::new(refusal, Some(codestream.start))),
        }
    }
}

impl TileParts {
    fn text(&self) -> String {
        let TileParts {
            count,
            bytes,
            first,
            ..
        } = self;
        format!("{count}, {bytes} bytes, from {} on", first.text())
    }

    fn order_text(&self) -> Option<String> {
        let tiles = &self.out_of_order_ranges;
        (!tiles.is_empty()).then(|| format!("TILE-PARTS OUT OF ORDER, of tiles: {}", told(tiles)))
    }
}

impl TilesReport {
    fn of(tiles: &Tiles, grid: Grid) -> Self {
        let present = tiles.present(grid);
        TilesReport {
            present,
            missing: grid.tiles() - present,
            missing_ranges: tiles.missing(grid).map(pairs),
            outside_ranges: pairs(tiles.outside(grid)),
        }
    }

    fn missing_text(&self) -> String {
        match &self.missing_ranges {
            _ if self.missing == 0 => "none".to_string(),
            Some(ranges) => format!("{}: {}", self.missing, told(ranges)),
            None => format!("{}; more tiles than an index can name", self.missing),
        }
    }

    fn outside_text(&self) -> Option<String> {
        let outside = &self.outside_ranges;
        (!outside.is_empty()).then(|| {
            format!(
                "tile-parts of tiles that the grid does not have: {}",
                told(outside)
            )
        })
    }
}

fn pairs(ranges: Vec<RangeInclusive<usize>>) -> Vec<[usize; 2]> {
    let ends = |range: RangeInclusive<usize>| [*range.start(), *range.end()];
    ranges.into_iter().map(ends).collect()
}

/// On a terminal's few lines; JSON has them all.
fn told(pairs: &[[usize; 2]]) -> String {
    const MOST: usize = 100;
    let ranges: Vec<_> = pairs.iter().map(|&[first, last]| first..=last).collect();
    ranges_text(&ranges, MOST)
}

const OTHER: &str = "other bytes";

impl Ended {
    fn of(end: End, start: FileOffset) -> Self {
        let (at, bytes) = match end.what {
            Stopped::AtEoc => ("EOC", None),
            Stopped::AtEnd => ("end", None),
            Stopped::InLastPart => ("end, Psot 0", None),
            Stopped::AtOther([high, low]) => (OTHER, Some(format!("{high:02X}{low:02X}"))),
        };
        Ended {
            at,
            place: Offsets::of(end.at, start),
            bytes,
            unread: end.unread,
        }
    }

    fn text(&self) -> String {
        let (place, unread) = (self.place.text(), self.unread);
        match (self.at, &self.bytes) {
            (OTHER, Some(bytes)) => format!(
                "AT OTHER BYTES ({bytes}), {place}: {unread} bytes are left unread, and a length before them may be wrong"
            ),
            ("EOC", _) if unread == 0 => format!("at EOC, {place}: nothing is left unread"),
            ("EOC", _) => format!("at EOC, {place}: {unread} bytes behind it are left unread"),
            ("end", _) => format!("at the codestream's end, without EOC, {place}: nothing is left unread"),
            _ => format!("at the codestream's end, {place}: the last tile-part (Psot 0) takes all bytes, EOC too"),
        }
    }
}

#[cfg(test)]
mod tests {
    use std::fmt::Display;
    use std::path::Path;

    use winterhasp::Reading;

    use super::Report;

    const SAMPLE: &[u8] = include_bytes!("../../../crates/tileparts/stdin");

    /// The sample with these bytes between SIZ and TLM.
    fn with(between: &[u8]) -> Vec<u8> {
        [&SAMPLE[..45], between, &SAMPLE[45..]].concat()
    }

    /// In words and as JSON, of the sample with these bytes.
    fn told(between: &[u8]) -> [String; 2] {
        told_of(&with(between))
    }

    fn told_of(file: &[u8]) -> [String; 2] {
        let (report, _) = Report::of(Path::new("a.j2k"), file, Reading::default(), None);
        [report.text(), report.json().expect("JSON")]
    }

    #[test]
    fn cap_says_the_edition() {
        let [text, json] = told(&[]);
        assert!(text.contains("\nedition     older: no capabilities (CAP) are announced\n"));
        assert!(json.contains("\"edition\":{\"name\":\"older\",\"cap\":null,"));
        // which SIZ does not announce
        let [text, json] = told(&[0xFF, 0x50, 0, 6, 0, 0, 0, 0]);
        assert!(text.contains("\nedition     older; THE NEWER REFUSES IT: 33 45: "));
        assert!(json.contains("\"newer_refuses\":{\"number\":33,"));
    }

    #[test]
    fn delimiters_without_ff_are_counted_behind_the_table() {
        let counted = |between: &[u8], fillers: u64, line: &str| {
            let [text, json] = told(between);
            let line = format!("\ntlm         2 entries\nfiller      {line}\ntile-parts  ");
            assert!(text.contains(&line), "{text}");
            let field = format!("\"tlm_entries\":2,\"fillers\":{fillers},\"ppm\":null");
            assert!(json.contains(&field), "{json}");
        };
        let one = "1 DELIMITER WITHOUT FF, which no edition of the standard allows";
        let three = "3 DELIMITERS WITHOUT FF, which no edition of the standard allows";
        counted(&[], 0, "none");
        counted(&[0xFF, 0x30, 0xFF, 0x92], 0, "none");
        counted(&[0, 0x30], 1, one);
        counted(&[0, 0x30, 0x41, 0x92, 0xFE, 0x3F], 3, three);
        // the second byte of a length of 1, and the byte behind it
        counted(&[0xFF, 0x64, 0, 1, 0x30], 1, one);
        // in a comment
        counted(&[0xFF, 0x64, 0, 4, 0, 0x30], 0, "none");
    }

    #[test]
    fn of_a_header_that_is_refused_none_are_told() {
        let [text, json] = told(&[0, 0x30, 0xFF, 0x64, 0xFF, 0xFF]);
        assert!(text.contains("\nrefused     3 47: "), "{text}");
        assert!(!text.contains("\nfiller"), "{text}");
        assert!(json.contains("\"header\":null"), "{json}");
    }

    /// What is told of a file's header, and how much of it growth fetches.
    fn fetched(file: &[u8], told: &str, enough: impl Display, region: u64, enlargements: usize) {
        let [text, json] = told_of(file);
        let enlarged = [
            "no enlargement",
            "1 enlargement",
            "2 enlargements",
            "3 enlargements",
        ];
        let line = format!("\nfetch       {told}, with {}\n", enlarged[enlargements]);
        assert!(text.contains(&line), "{text}");
        let numbers =
            format!("\"enough\":{enough},\"region\":{region},\"enlargements\":{enlargements}");
        assert!(json.contains(&format!("\"fetch\":{{{numbers}}}")), "{json}");
    }

    /// The same of a bare codestream, in which an SOT is reached.
    fn held(file: &[u8], enough: u64, region: u64, enlargements: usize) {
        let told =
            format!("the file's first {enough} bytes hold the header; growth fetches {region}");
        fetched(file, &told, enough, region, enlargements);
    }

    #[test]
    fn fetch_stands_behind_the_header() {
        held(SAMPLE, 59, 89, 0);
        let [text, _] = told(&[]);
        assert!(
            text.contains("\nheader      57 bytes, 45 without TLM\nfetch       the file's first ")
        );
        assert!(text.contains(", with no enlargement\nedition     "));
        let before = [
            &[0, 0, 0, 12][..],
            b"jP  \r\n\x87\n",
            &[0, 0, 0, 8 + 89],
            b"jp2c",
        ];
        let told = "59 bytes from byte 20 of the file on hold the header; growth fetches 89";
        fetched(&[&before.concat(), SAMPLE].concat(), told, 59, 89, 0);
    }

    #[test]
    fn growth_ends_at_the_first_region_that_will_do() {
        // with a comment, so that the first SOT stands there
        let commented = |first_sot: u16| {
            let length = first_sot - 57 - 2;
            let body = vec![0; usize::from(length) - 2];
            with(&[&[0xFF, 0x64], &length.to_be_bytes()[..], &body].concat())
        };
        held(&commented(65_534), 65_536, 65_536, 0);
        let mut behind = commented(65_535);
        held(&behind, 65_537, 65_567, 1);
        behind.resize(200_000, 0);
        held(&behind, 65_537, 131_072, 1);
        held(&with(&[0xFF, 0x30].repeat(150_000)), 300_059, 300_089, 3);
    }

    #[test]
    fn of_a_header_that_is_refused_fetch_is_told_too() {
        let short_tlm = with(&[0xFF, 0x55, 0, 3, 0]);
        held(&short_tlm, 64, 94, 0);
        let [text, _] = told_of(&short_tlm);
        assert!(text.contains("\nrefused     4 45: "), "{text}");
        let told = "no tile-part is reached: growth fetches all 57 bytes";
        fetched(&SAMPLE[..57], told, "null", 57, 0);
        // no codestream is found
        let [text, json] = told_of(&[0; 100]);
        assert!(!text.contains("\nfetch"), "{text}");
        assert!(json.contains("\"fetch\":null"), "{json}");
    }
}
