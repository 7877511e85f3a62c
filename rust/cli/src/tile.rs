//! `winterhasp tile`: the codestream of one tile.

use std::path::{Path, PathBuf};

use winterhasp::{
    build_minimal_codestream_by_rule, rewrite_siz_for_tile_by_rule, Components, Refusal, Rule,
    TileIndex,
};

use crate::arguments::Tile;
use crate::contents::Contents;
use crate::offsets::Offsets;
use crate::output::{tell, Destination};
use crate::siz::{Grid, Siz};
use crate::stages::{packed_headers, Accepted};
use crate::trouble::{about, sentence, Status, Trouble};

pub fn tile(arguments: &Tile) -> Result<Status, Trouble> {
    let Tile {
        file,
        index,
        out,
        rule,
    } = arguments;
    let contents = Contents::open(file)?;
    let out = out.clone().unwrap_or_else(|| name_of(file, *index));
    let destination = Destination::new(&out, contents.metadata())?;
    let cut = cut(file, &contents, *index, (*rule).into());
    contents.unchanged(file)?;
    let Cut { bytes, notes } = cut?;
    destination.write(&bytes)?;
    for note in notes {
        tell(&about(file, note));
    }
    Ok(Status::Accepted)
}

/// `flight.jp2` and 5 are `flight.tile5.j2k`, in the current folder.
fn name_of(file: &Path, index: u16) -> PathBuf {
    let mut name = file.file_stem().unwrap_or_default().to_os_string();
    name.push(format!(".tile{index}.j2k"));
    name.into()
}

struct Cut {
    bytes: Vec<u8>,
    notes: Vec<String>,
}

fn cut(file: &Path, contents: &Contents, index: u16, rule: Rule) -> Result<Cut, Trouble> {
    let accepted = Accepted::of(contents.bytes(), TileIndex::scan);
    let accepted = accepted.map_err(|(why, at)| Trouble::refused(file, sentence(why, at)))?;
    let start = accepted.codestream.start;
    let codestream = accepted.codestream.bytes;
    let packed = packed_headers(codestream, &accepted.header);
    let packed = packed.map_err(|why| Trouble::refused(file, sentence(why, Some(start))))?;
    if let Some(at) = packed {
        let why = of_all_tiles(Offsets::of(at, start));
        return Err(Trouble::refused(file, why));
    }
    let header = &accepted.header.decode_header;
    let siz = Siz::of(header);
    if let Some(grid) = siz.as_ref().and_then(Siz::grid) {
        inside(index, grid).map_err(|why| Trouble::refused(file, why))?;
    }
    let refused = |refusal: Refusal| {
        let why = sentence(refusal, Some(start));
        Trouble::refused(file, format!("tile {index}: {why}"))
    };
    // Asked first: where there is no grid no tile is missing.
    let rewritten = rewrite_siz_for_tile_by_rule(header, index, rule).map_err(refused)?;
    let parts = accepted.parts.get(index);
    let parts = parts.ok_or_else(|| Trouble::refused(file, none_of(index)))?;
    contents.expect_order();
    let bytes = build_minimal_codestream_by_rule(header, &parts, codestream, rule);
    let bytes = bytes.map_err(refused)?;
    let kept = rewritten == *header;
    let moved = siz.and_then(|siz| siz.moved(Components::read(header).ok()));
    let notes = siz.map_or_else(Vec::new, |siz| notes(&siz, index, rule, moved, kept));
    Ok(Cut { bytes, notes })
}

fn inside(index: u16, grid: Grid) -> Result<(), String> {
    let Grid { columns, rows } = grid;
    match grid.tiles() - 1 {
        last if last < u64::from(index) => Err(format!(
            "tile {index} lies outside the grid of {columns} by {rows} tiles, which are 0 to {last}; check the index"
        )),
        _ => Ok(()),
    }
}

fn none_of(index: u16) -> String {
    format!("tile {index} has no tile-part; `winterhasp show` lists the tiles that are missing")
}

/// A decoder would take the first packet headers for the tile's own, whichever tile that is. So does OpenJPEG
/// where it is asked for one tile of the whole file.
fn of_all_tiles(at: Offsets) -> String {
    let place = at.text();
    format!(
        "its main header holds the packet headers of all tiles (PPM, at {place}): a tile cut out of it would decode to other \
         pixels; decode the whole file, or have it written without PPM"
    )
}

const KEEPS: &str = "note: the default rule (in-place) keeps the tile's pixels, and a plain decode shows the tile alone";

/// What has to be known of the tile before it is decoded, which is nothing where it stays in its place:
/// `moved` is why other pixels may come of a tile that is moved, and `kept` whether it has the whole image's
/// header.
fn notes(siz: &Siz, index: u16, rule: Rule, moved: Option<&str>, kept: bool) -> Vec<String> {
    if rule == Rule::InPlace {
        return Vec::new();
    }
    let elsewhere = rule == Rule::Original && siz.origin != siz.tile_origin;
    let elsewhere = elsewhere.then(|| {
        format!(
            "note: by --rule original tile {index} is counted from the image's origin, and not from the tiles' origin: \
             it may be another piece of ground than the standard's tile {index}"
        )
    });
    // A header that is kept still has the first tile as its tile 0: so that one is not moved, and a full
    // one decodes wrong where the first is smaller. By the other rule a tile may only seem full.
    let first = kept && index == 0;
    let smaller = kept && rule == Rule::AnnexB && siz.starts_clipped();
    let moved = moved.filter(|_| !first && !smaller).map(|why| {
        format!("note: tile {index} is moved to the origin and may decode to other pixels than in the whole image, since {why}")
    });
    let canvas = siz.image();
    let canvas = canvas.filter(|image| kept && !smaller && *image != siz.tile);
    let canvas = canvas.map(|[width, height]| {
        format!(
            "note: tile {index} has full size and keeps the whole image's canvas of {width} by {height}: \
             decode its tile 0 (opj_decompress -t 0)"
        )
    });
    let smaller = smaller.then(|| {
        format!(
            "note: tile {index} has full size and keeps the whole image's header, whose tile 0 is smaller, as the tiles start \
             before the image: it decodes wrong, so decode tile {index} of the whole file (opj_decompress -t {index})"
        )
    });
    let notes = [elsewhere, moved, canvas, smaller];
    let mut notes: Vec<_> = notes.into_iter().flatten().collect();
    if !notes.is_empty() {
        notes.push(KEEPS.to_string());
    }
    notes
}

#[cfg(test)]
mod tests {
    use winterhasp::Rule;

    use super::{notes, of_all_tiles, Offsets, Siz, KEEPS};

    /// 8 by 8 in tiles of 4 by 4.
    fn siz(origin: u64, tile_origin: u64) -> Siz {
        Siz {
            size: [origin + 8; 2],
            origin: [origin; 2],
            tile: [4; 2],
            tile_origin: [tile_origin; 2],
        }
    }

    /// Which notes there are of a tile for whose pixels there is a reason to fear, before the one that the
    /// default rule keeps them.
    fn kinds(siz: &Siz, index: u16, rule: Rule, kept: bool) -> Vec<&'static str> {
        let kinds = [
            ("by --rule original", "elsewhere"),
            ("may decode to other pixels", "moved"),
            ("opj_decompress -t 0", "canvas"),
            ("it decodes wrong", "smaller"),
        ];
        let mut notes = notes(siz, index, rule, Some("it is so"), kept);
        assert!(notes.pop().is_none_or(|last| last == KEEPS));
        let kind = |note: &String| kinds.iter().find(|(words, _)| note.contains(words));
        notes
            .iter()
            .map(|note| kind(note).expect("known").1)
            .collect()
    }

    #[test]
    fn a_tile_by_annex_b_is_told_as_moved_or_wrong() {
        let kinds = |siz: &Siz, index, kept| kinds(siz, index, Rule::AnnexB, kept);
        let equal = siz(0, 0);
        assert_eq!(kinds(&equal, 0, true), ["canvas"]);
        assert_eq!(kinds(&equal, 1, true), ["moved", "canvas"]);
        assert_eq!(kinds(&equal, 1, false), ["moved"]);
        let apart = siz(2, 0);
        assert_eq!(kinds(&apart, 0, false), ["moved"]);
        assert_eq!(kinds(&apart, 4, true), ["smaller"]);
        let alone = Siz {
            size: [4; 2],
            ..equal
        };
        assert!(kinds(&alone, 0, true).is_empty());
    }

    #[test]
    fn a_tile_by_the_originals_rule_is_told_where_it_may_lie_elsewhere() {
        let kinds = |siz: &Siz, index, kept| kinds(siz, index, Rule::Original, kept);
        assert_eq!(kinds(&siz(2, 2), 1, true), ["moved", "canvas"]);
        let apart = siz(2, 0);
        assert_eq!(kinds(&apart, 0, true), ["elsewhere", "canvas"]);
        assert_eq!(kinds(&apart, 1, true), ["elsewhere", "moved", "canvas"]);
        assert_eq!(kinds(&apart, 5, false), ["elsewhere", "moved"]);
        // no grid by the standard
        assert_eq!(kinds(&siz(0, 1), 5, false), ["elsewhere", "moved"]);
    }

    #[test]
    fn no_reason_to_fear_is_no_note() {
        let told = |rule, kept| notes(&siz(0, 0), 1, rule, None, kept).len();
        for rule in [Rule::AnnexB, Rule::Original] {
            // of the canvas, and of the rule that has none
            assert_eq!((told(rule, false), told(rule, true)), (0, 2));
        }
    }

    #[test]
    fn a_tile_in_its_place_has_no_note() {
        let all = [siz(0, 0), siz(2, 2), siz(2, 0), siz(0, 1)];
        for (siz, index) in all.iter().flat_map(|siz| [(siz, 0), (siz, 4)]) {
            for kept in [false, true] {
                assert!(notes(siz, index, Rule::InPlace, Some("it is so"), kept).is_empty());
            }
        }
    }

    #[test]
    fn packet_headers_of_all_tiles_are_told_with_their_place() {
        let at = Offsets {
            offset: 45,
            file_offset: Some(85),
        };
        let place = "(PPM, at byte 45 of the codestream, byte 85 of the file)";
        assert!(of_all_tiles(at).contains(place));
    }
}
