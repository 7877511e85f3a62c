//! A codestream of one tile, cut out of another.

use crate::boundary;
use crate::lent::lend;
use crate::refusal::Refusal;
use crate::rule::Rule;
use crate::tile_part::{to_rows, TilePart, TilePartBytes, TileParts};

/// `decode_header` with a SIZ that speaks of tile `isot` alone, from 0, 0 on, by the standard's rule
/// ([`Rule::AnnexB`]); of a tile of full size it is the same, with the whole image's size.
///
/// ```
/// use winterhasp::{parse_main_header, parse_siz_marker, rewrite_siz_for_tile};
///
/// let header = parse_main_header(&std::fs::read("sample-a.j2k")?)?.decode_header;
/// let siz = parse_siz_marker(&rewrite_siz_for_tile(&header, 5)?)?;
/// assert_eq!((siz.width, siz.height), (2, 2));
///
/// let refusal = rewrite_siz_for_tile(&header, 6).unwrap_err();
/// assert_eq!((refusal.number(), refusal.place()), (31, 2));
/// # Ok::<(), Box<dyn std::error::Error>>(())
/// ```
pub fn rewrite_siz_for_tile(decode_header: &[u8], isot: u16) -> Result<Vec<u8>, Refusal> {
    written(|out, value| boundary::rewrite_siz_for_tile(decode_header, isot, out, value))
}

/// The same by a [`Rule`]; by [`Rule::InPlace`] SIZ has the tile's own area, of full size too.
///
/// ```
/// use winterhasp::{parse_main_header, parse_siz_marker, rewrite_siz_for_tile_by_rule, Rule};
///
/// let mut header = parse_main_header(&std::fs::read("sample-a.j2k")?)?.decode_header;
/// // the image from 3 and the tiles from 1 on, in columns
/// (header[19], header[35]) = (3, 1);
/// let siz = parse_siz_marker(&rewrite_siz_for_tile_by_rule(&header, 2, Rule::AnnexB)?)?;
/// assert_eq!((siz.width, siz.height), (1, 4));
/// let siz = parse_siz_marker(&rewrite_siz_for_tile_by_rule(&header, 2, Rule::Original)?)?;
/// assert_eq!((siz.width, siz.height), (4, 2));
/// // tile 1, of full size: only in place its header is another one
/// for (rule, width) in [(Rule::AnnexB, 7), (Rule::InPlace, 4)] {
///     let siz = parse_siz_marker(&rewrite_siz_for_tile_by_rule(&header, 1, rule)?)?;
///     assert_eq!(siz.width, width);
/// }
///
/// let refusal = rewrite_siz_for_tile_by_rule(&header, 6, Rule::Original).unwrap_err();
/// assert_eq!((refusal.number(), refusal.place()), (10, 2));
/// # Ok::<(), Box<dyn std::error::Error>>(())
/// ```
pub fn rewrite_siz_for_tile_by_rule(
    decode_header: &[u8],
    isot: u16,
    rule: Rule,
) -> Result<Vec<u8>, Refusal> {
    let rule = rule.number();
    written(|out, value| {
        boundary::rewrite_siz_for_tile_by_rule(decode_header, isot, rule, out, value)
    })
}

/// A codestream of one tile, as tile 0: header, tile-parts out of `codestream`, and EOC. The header is
/// rewritten by the standard's rule ([`Rule::AnnexB`]), which moves the tile to 0, 0.
///
/// ```
/// use winterhasp::{build_minimal_codestream, parse_main_header, scan_sot_markers, TileParts};
///
/// let codestream = std::fs::read("sample-a.j2k")?;
/// let header = parse_main_header(&codestream)?;
/// let parts = scan_sot_markers(&codestream, header.first_sot)?;
/// let tile = TileParts::of(5, &parts).ok_or("no part of tile 5")?;
/// let alone = build_minimal_codestream(&header.decode_header, &tile, &codestream)?;
/// assert_eq!(alone.len(), 63);
/// # Ok::<(), Box<dyn std::error::Error>>(())
/// ```
pub fn build_minimal_codestream(
    decode_header: &[u8],
    tile: &TileParts,
    codestream: &[u8],
) -> Result<Vec<u8>, Refusal> {
    built(decode_header, tile.parts(), codestream)
}

/// The same by a [`Rule`]: for a tile that is to be decoded by [`Rule::InPlace`].
///
/// ```
/// use winterhasp::*;
///
/// let mut codestream = std::fs::read("sample-a.j2k")?;
/// // the image from 3 and the tiles from 1 on, in columns
/// (codestream[19], codestream[35]) = (3, 1);
/// let header = parse_main_header(&codestream)?;
/// let parts = scan_sot_markers(&codestream, header.first_sot)?;
/// let tile = TileParts::of(0, &parts).ok_or("no part of tile 0")?;
/// let alone = |rule| {
///     let alone = build_minimal_codestream_by_rule(&header.decode_header, &tile, &codestream, rule)?;
///     parse_siz_marker(&alone)
/// };
/// assert_eq!(alone(Rule::AnnexB)?.width, 2);
/// // a tile of full size by the original's rule, with the whole image's size
/// assert_eq!(alone(Rule::Original)?.width, 7);
/// assert_eq!(alone(Rule::InPlace)?.width, 2);
/// # Ok::<(), Box<dyn std::error::Error>>(())
/// ```
pub fn build_minimal_codestream_by_rule(
    decode_header: &[u8],
    tile: &TileParts,
    codestream: &[u8],
    rule: Rule,
) -> Result<Vec<u8>, Refusal> {
    built_by_rule(decode_header, tile.parts(), codestream, rule)
}

/// A codestream of one tile by the standard's rule, of the tile-parts' own bytes, wherever they
/// come from.
///
/// ```
/// use winterhasp::*;
///
/// let codestream = std::fs::read("sample-a.j2k")?;
/// let header = parse_main_header(&codestream)?;
/// let fetched = &codestream[71..87];
/// let bytes = TilePartBytes::of(5, [fetched]).ok_or("no part of tile 5")?;
/// let alone = build_minimal_codestream_from_parts(&header.decode_header, &bytes)?;
///
/// let parts = scan_sot_markers(&codestream, header.first_sot)?;
/// let tile = TileParts::of(5, &parts).ok_or("no part of tile 5")?;
/// assert_eq!(alone, build_minimal_codestream(&header.decode_header, &tile, &codestream)?);
/// # Ok::<(), Box<dyn std::error::Error>>(())
/// ```
pub fn build_minimal_codestream_from_parts(
    decode_header: &[u8],
    tile: &TilePartBytes<'_>,
) -> Result<Vec<u8>, Refusal> {
    let (parts, joined) = tile.joined();
    built(decode_header, &parts, &joined)
}

/// The same by a [`Rule`].
///
/// ```
/// use winterhasp::*;
///
/// let codestream = std::fs::read("sample-a.j2k")?;
/// let header = parse_main_header(&codestream)?;
/// let bytes = TilePartBytes::of(5, [&codestream[71..87]]).ok_or("no part of tile 5")?;
/// let [standard, original, in_place] = [Rule::AnnexB, Rule::Original, Rule::InPlace]
///     .map(|rule| build_minimal_codestream_from_parts_by_rule(&header.decode_header, &bytes, rule));
/// // all origins are 0: the two rules that move the tile agree
/// assert_eq!(standard?, original?);
/// let area = Area { x0: 8, y0: 4, x1: 10, y1: 6 };
/// assert_eq!(Components::read(&in_place?)?.area(), area);
/// # Ok::<(), Box<dyn std::error::Error>>(())
/// ```
pub fn build_minimal_codestream_from_parts_by_rule(
    decode_header: &[u8],
    tile: &TilePartBytes<'_>,
    rule: Rule,
) -> Result<Vec<u8>, Refusal> {
    let (parts, joined) = tile.joined();
    built_by_rule(decode_header, &parts, &joined, rule)
}

fn built(decode_header: &[u8], parts: &[TilePart], codestream: &[u8]) -> Result<Vec<u8>, Refusal> {
    let rows = to_rows(parts);
    written(|out, value| {
        boundary::build_minimal_codestream(decode_header, &rows, codestream, out, value)
    })
}

fn built_by_rule(
    decode_header: &[u8],
    parts: &[TilePart],
    codestream: &[u8],
    rule: Rule,
) -> Result<Vec<u8>, Refusal> {
    let (rows, rule) = (to_rows(parts), rule.number());
    written(|out, value| {
        boundary::build_minimal_codestream_by_rule(
            decode_header,
            &rows,
            codestream,
            rule,
            out,
            value,
        )
    })
}

/// What `call` writes into as much output as it asks for.
fn written(call: impl Fn(&mut [u8], &mut u64) -> u32) -> Result<Vec<u8>, Refusal> {
    let (lent, _) = lend(|lent, [value]| call(&mut lent.out, value))?;
    Ok(lent.out)
}

#[cfg(test)]
mod tests {
    use super::{build_minimal_codestream_by_rule, rewrite_siz_for_tile_by_rule};
    use crate::components::{Area, Components};
    use crate::rule::Rule;
    use crate::scan::scan_sot_markers;
    use crate::tile_part::TileParts;
    use crate::CodestreamOffset;

    const SAMPLE: &[u8] = include_bytes!("../sample-a.j2k");
    /// Of the sample without TLM.
    const HEADER: usize = 45;

    /// The sample's decode header with the image from 3 and the tiles from 1 on, in columns.
    fn moved() -> Vec<u8> {
        let mut header = SAMPLE[..HEADER].to_vec();
        (header[19], header[35]) = (3, 1);
        header
    }

    fn in_tile(header: &[u8], tile: u16) -> Result<Area, u32> {
        let components = Components::read_in_tile(header, tile);
        components
            .map(|components| components.area())
            .map_err(|refusal| refusal.number())
    }

    #[test]
    fn a_tile_in_place_is_the_whole_image_where_it_was() {
        let in_place = |header: &[u8], tile| {
            rewrite_siz_for_tile_by_rule(header, tile, Rule::InPlace).expect("in the grid")
        };
        for header in [moved(), SAMPLE[..HEADER].to_vec()] {
            for tile in 0..6 {
                let alone = in_place(&header, tile);
                let area = in_tile(&header, tile);
                let image = Components::read(&alone).expect("sound, as the header is");
                assert_eq!(Ok(image.area()), area);
                assert_eq!(in_tile(&alone, 0), area);
                assert_eq!(in_tile(&alone, 1), Err(31));
                assert_eq!(in_place(&alone, 0), alone);
                assert_eq!(alone[40..], header[40..]);
            }
            let past = rewrite_siz_for_tile_by_rule(&header, 6, Rule::InPlace);
            let refusal = past.expect_err("past the last tile");
            assert_eq!((refusal.number(), refusal.place()), (31, 2));
        }
    }

    #[test]
    fn a_header_that_holds_no_siz_stays() {
        let no_siz = [&[0xFF, 0x4F, 0xFF, 0x52], &SAMPLE[4..HEADER]].concat();
        for header in [&moved()[..39], &no_siz] {
            let rewritten = rewrite_siz_for_tile_by_rule(header, 9, Rule::InPlace);
            assert_eq!(rewritten.as_deref(), Ok(header));
        }
    }

    #[test]
    fn the_assembly_keeps_the_tile_in_place_too() {
        let first_sot = CodestreamOffset(57);
        let parts = scan_sot_markers(SAMPLE, first_sot).expect("the sample is sound");
        let tile = TileParts::of(5, &parts).expect("tile 5 is there");
        let alone = build_minimal_codestream_by_rule(&moved(), &tile, SAMPLE, Rule::InPlace);
        let alone = alone.expect("in the grid");
        let header = rewrite_siz_for_tile_by_rule(&moved(), 5, Rule::InPlace);
        assert_eq!(Ok(&alone[..HEADER]), header.as_deref());
        let expected = [&SAMPLE[71..75], &[0, 0], &SAMPLE[77..87], &[0xFF, 0xD9]];
        assert_eq!(alone[HEADER..], expected.concat());
    }
}
