//! "SIZ rewrite", "Tiles kept in place", "Assembly".

use beside::model::{rows, Area, Entry, Refusal};
use beside::sample::sample_a;
use beside::sample::sizes::{crowded, grid, header, Fields, MOVED, SAMPLE_A};
use beside::sample::tiles::joined;
use probe::host;

use super::written;

const TILE_0: Entry = (0, 57, 14);
const TILE_5: Entry = (5, 71, 16);

/// More than any output here.
const ROOM: usize = 200;

fn rewritten(decode_header: &[u8], isot: u16, room: usize) -> Result<Vec<u8>, Refusal> {
    written(room, 1, |out, value| {
        host::rewrite_siz_for_tile(decode_header, isot, out, value)
    })
}

fn rewritten_by(rule: u32, decode_header: &[u8], isot: u16) -> Result<Vec<u8>, Refusal> {
    written(ROOM, 1, |out, value| {
        host::rewrite_siz_for_tile_by_rule(decode_header, isot, rule, out, value)
    })
}

fn rewritten_by_original(decode_header: &[u8], isot: u16) -> Result<Vec<u8>, Refusal> {
    rewritten_by(host::ORIGINAL, decode_header, isot)
}

fn rewritten_in_place(fields: Fields, isot: u16) -> Result<Vec<u8>, Refusal> {
    rewritten_by(host::IN_PLACE, &header(fields), isot)
}

/// By Annex B's: the same without a rule, by its number, and by those that mean no other.
fn rewritten_by_annex_b(fields: Fields, isot: u16) -> Result<Vec<u8>, Refusal> {
    let decode_header = header(fields);
    let plain = rewritten(&decode_header, isot, ROOM);
    for rule in [host::ANNEX_B, 3, 7, u32::MAX] {
        assert_eq!(rewritten_by(rule, &decode_header, isot), plain, "{rule}");
    }
    plain
}

fn built(
    decode_header: &[u8],
    rows: &[u8],
    codestream: &[u8],
    room: usize,
) -> Result<Vec<u8>, Refusal> {
    written(room, 1, |out, value| {
        host::build_minimal_codestream(decode_header, rows, codestream, out, value)
    })
}

/// Of sample A.
fn cut(entries: &[Entry]) -> Result<Vec<u8>, Refusal> {
    let sample = sample_a();
    built(&sample[..45], &rows(entries), &sample, ROOM)
}

/// At SIZ's marker.
fn refused(number: u32) -> Result<Vec<u8>, Refusal> {
    Err(Refusal::new(number, 2))
}

/// Of a tile that is cut to this size.
fn alone(width: u32, height: u32) -> Result<Vec<u8>, Refusal> {
    Ok(header([width, height, 0, 0, width, height, 0, 0]))
}

/// Of a tile that stays where it lies.
fn kept([x0, y0, x1, y1]: Area) -> Result<Vec<u8>, Refusal> {
    Ok(header([x1, y1, x0, y0, x1 - x0, y1 - y0, x0, y0]))
}

#[test]
fn tile_5_is_2_by_2() {
    let expected = header([2, 2, 0, 0, 2, 2, 0, 0]);
    assert_eq!(rewritten(&sample_a()[..45], 5, ROOM).unwrap(), expected);
    let built = cut(&[TILE_5]).unwrap();
    assert_eq!(built.len(), 63);
    assert_eq!(built[..45], expected);
    assert_eq!(built[45..51], [0xFF, 0x90, 0, 10, 0, 0]);
    assert_eq!(built[51..61], sample_a()[77..87]);
    assert_eq!(built[61..], [0xFF, 0xD9]);
}

#[test]
fn tile_0_keeps_the_header() {
    let sample = sample_a();
    let (decode_header, part) = (&sample[..45], &sample[57..71]);
    assert_eq!(rewritten(decode_header, 0, ROOM).unwrap(), decode_header);
    let expected = [decode_header, part, &[0xFF, 0xD9]].concat();
    assert_eq!(cut(&[TILE_0]).unwrap(), expected);
}

#[test]
fn a_tile_past_the_edge_is_refused() {
    assert_eq!(rewritten_by_annex_b(SAMPLE_A, 6), refused(31));
    assert_eq!(rewritten_by_original(&header(SAMPLE_A), 6), refused(10));
}

/// The original's sums are of 32 bits, and the standard's have no bound.
#[test]
fn a_sum_past_32_bits_is_refused_by_the_originals_rule() {
    let mut fields = SAMPLE_A;
    [fields[0], fields[2], fields[4], fields[6]] = [2, 1, u32::MAX, 1];
    assert_eq!(rewritten_by_original(&header(fields), 0), refused(10));
    assert_eq!(rewritten_by_annex_b(fields, 0), alone(1, 4));
    [fields[2], fields[6]] = [0, 0];
    assert_eq!(rewritten_by_original(&header(fields), 0), alone(2, 4));
    assert_eq!(rewritten_by_annex_b(fields, 0), alone(2, 4));
    // the second of two tiles, which ends past 2^32
    [fields[0], fields[4]] = [u32::MAX, (1 << 31) + 1];
    assert_eq!(rewritten_by_original(&header(fields), 1), refused(10));
    assert_eq!(rewritten_by_annex_b(fields, 1), alone((1 << 31) - 2, 4));
}

/// Both axes: tile origin, image origin, image end, tile size, and how far the first tile reaches.
#[test]
fn there_is_a_grid_or_30() {
    let one_axis = |[end, origin, tile, tile_origin]: [u32; 4]| {
        let across = [end, 4, origin, 0, tile, 4, tile_origin, 0];
        let down = [4, end, 0, origin, 4, tile, 0, tile_origin];
        let answers = [across, down].map(|fields| rewritten_by_annex_b(fields, 0));
        let size = |header: &Vec<u8>, at| u32::from_be_bytes(*header[at..].first_chunk().unwrap());
        match answers {
            [Ok(across), Ok(down)] => {
                assert_eq!(size(&across, 8), size(&down, 12));
                Ok(size(&across, 8))
            }
            [Err(across), Err(down)] => {
                assert_eq!(across, down);
                Err((across.number, across.place))
            }
            _ => panic!("one axis is refused"),
        }
    };
    const NO_GRID: Result<u32, (u32, u64)> = Err((30, 2));
    // the tile origin at the image origin, and one past it
    assert_eq!(one_axis([10, 3, 4, 3]), Ok(10));
    assert_eq!(one_axis([10, 3, 4, 4]), NO_GRID);
    // the first tile ends one past the image origin, and with it
    assert_eq!(one_axis([10, 5, 4, 2]), Ok(1));
    assert_eq!(one_axis([10, 5, 4, 1]), NO_GRID);
    // the image ends one past its origin, and with it, and before it
    assert_eq!(one_axis([4, 3, 4, 0]), Ok(1));
    assert_eq!(one_axis([3, 3, 4, 0]), NO_GRID);
    assert_eq!(one_axis([2, 3, 4, 0]), NO_GRID);
    // tiles of 1 and of 0
    assert_eq!(one_axis([10, 3, 1, 3]), Ok(10));
    assert_eq!(one_axis([10, 3, 0, 3]), NO_GRID);
    assert_eq!(one_axis([10, 0, 0, 0]), NO_GRID);
    // the largest numbers: the first tile ends past 2^32
    const MOST: u32 = u32::MAX;
    assert_eq!(one_axis([MOST, MOST - 1, MOST, MOST - 1]), Ok(1));
    assert_eq!(one_axis([MOST, MOST - 1, MOST, 0]), Ok(1));
    assert_eq!(one_axis([MOST, MOST, MOST, MOST]), NO_GRID);
    assert_eq!(one_axis([MOST, MOST - 1, MOST - 1, 0]), NO_GRID);
}

#[test]
fn tiles_where_the_origins_differ() {
    // 5 columns and 3 rows
    for (isot, width, height) in [(0, 2, 3), (1, 4, 3), (4, 2, 3), (5, 2, 6), (14, 2, 3)] {
        assert_eq!(rewritten_by_annex_b(MOVED, isot), alone(width, height));
    }
    assert_eq!(rewritten_by_annex_b(MOVED, 6), Ok(header(MOVED)));
    for isot in [15, 65_535] {
        assert_eq!(rewritten_by_annex_b(MOVED, isot), refused(31));
    }
    // 4 columns, and 2 rows
    assert_eq!(rewritten_by_original(&header(MOVED), 0), Ok(header(MOVED)));
    assert_eq!(rewritten_by_original(&header(MOVED), 7), Ok(header(MOVED)));
    assert_eq!(rewritten_by_original(&header(MOVED), 8), alone(4, 0));
    assert_eq!(rewritten_by_original(&header(MOVED), 12), refused(10));
}

/// Of every size, full size too, which is written as well.
#[test]
fn tiles_kept_in_place() {
    assert_eq!(rewritten_in_place(SAMPLE_A, 0), kept([0, 0, 4, 4]));
    assert_eq!(rewritten_in_place(SAMPLE_A, 5), kept([8, 4, 10, 6]));
    for (isot, area) in [
        (0, [7, 5, 9, 8]),
        (1, [9, 5, 13, 8]),
        (5, [7, 8, 9, 14]),
        (6, [9, 8, 13, 14]),
        (14, [21, 14, 23, 17]),
    ] {
        assert_eq!(rewritten_in_place(MOVED, isot), kept(area));
        // again, for the only tile that there is
        let alone = kept(area).unwrap();
        assert_eq!(rewritten_by(host::IN_PLACE, &alone, 0), kept(area));
        assert_eq!(rewritten_by(host::IN_PLACE, &alone, 1), refused(31));
    }
    for isot in [15, 65_535] {
        assert_eq!(rewritten_in_place(MOVED, isot), refused(31));
    }
    // the tile origin past the image origin, whatever the tile
    let no_grid = [23, 17, 7, 5, 4, 6, 8, 2];
    for isot in [0, 65_535] {
        assert_eq!(rewritten_in_place(no_grid, isot), refused(30));
    }
    // the largest numbers: the first tile ends past 2^32
    const MOST: u32 = u32::MAX;
    let largest = [MOST, MOST, MOST - 1, 0, MOST, MOST, MOST - 1, 0];
    assert_eq!(
        rewritten_in_place(largest, 0),
        kept([MOST - 1, 0, MOST, MOST])
    );
    // a small image is the tile from 0, 0 on, which moves nothing
    let small = [3, 2, 0, 0, 4, 4, 0, 0];
    assert_eq!(rewritten_in_place(small, 0), alone(3, 2));
}

/// Full in one direction is not full.
#[test]
fn a_tile_is_full_in_both_directions() {
    let fields = [8, 6, 0, 0, 4, 4, 0, 0];
    assert_eq!(rewritten_by_annex_b(fields, 1), Ok(header(fields)));
    assert_eq!(rewritten_by_annex_b(fields, 2), alone(4, 2));
    let fields = [6, 8, 0, 0, 4, 4, 0, 0];
    assert_eq!(rewritten_by_annex_b(fields, 0), Ok(header(fields)));
    assert_eq!(rewritten_by_annex_b(fields, 1), alone(2, 4));
}

/// The number of tiles may pass 32 bits; an index has 16.
#[test]
fn the_last_tile_and_the_next() {
    for fields in crowded() {
        let [columns, rows] = grid(&fields);
        let tiles = columns * rows;
        for index in [0, tiles - 1, tiles, tiles + 1, 65_534, 65_535] {
            let Ok(isot) = u16::try_from(index) else {
                continue;
            };
            let expected = match index < tiles {
                true => Ok(header(fields)),
                false => refused(31),
            };
            assert_eq!(rewritten_by_annex_b(fields, isot), expected);
        }
    }
}

/// 30 comes first, and 17 last.
#[test]
fn the_first_refusal_that_applies() {
    let mut fields = SAMPLE_A;
    fields[6] = 1;
    assert_eq!(rewritten_by_annex_b(fields, 65_535), refused(30));
    assert_eq!(rewritten(&header(fields), 5, 0), refused(30));
    assert_eq!(rewritten(&header(SAMPLE_A), 6, 0), refused(31));
    let short = rewritten(&header(SAMPLE_A), 5, 44);
    assert_eq!(short, Err(Refusal::new(17, 45)));
    let sample = sample_a();
    let no_room = built(&header(fields), &rows(&[TILE_5]), &sample, 0);
    assert_eq!(no_room, refused(30));
}

#[test]
fn the_assembly_by_a_rule() {
    let sample = sample_a();
    let by = |rule| {
        written(ROOM, 1, |out, value| {
            let rows = rows(&[TILE_5]);
            let moved = header(MOVED);
            host::build_minimal_codestream_by_rule(&moved, &rows, &sample, rule, out, value)
        })
    };
    let front = |rule: u32| by(rule).map(|built| built[..45].to_vec());
    for rule in [host::ANNEX_B, 3, 7, u32::MAX] {
        assert_eq!(front(rule), alone(2, 6));
        assert_eq!(
            by(rule),
            built(&header(MOVED), &rows(&[TILE_5]), &sample, ROOM)
        );
    }
    assert_eq!(front(host::ORIGINAL), Ok(header(MOVED)));
    assert_eq!(front(host::IN_PLACE), kept([7, 8, 9, 14]));
    // all behind the header is the same
    let behind = |rule| by(rule).map(|built| built[45..].to_vec());
    assert_eq!(behind(host::IN_PLACE), behind(host::ANNEX_B));
}

#[test]
fn a_header_without_siz_is_copied() {
    // there is no grid, if it is looked at
    let zeros = header([0; 8]);
    assert_eq!(rewritten(&zeros[..40], 5, ROOM), refused(30));
    let mut no_siz = zeros.clone();
    no_siz[3] = 0x52;
    for other in [&sample_a()[..39], &zeros[..39], &no_siz, &[0; 60]] {
        assert_eq!(rewritten(other, 5, ROOM).unwrap(), other);
        for rule in [host::ORIGINAL, host::IN_PLACE] {
            assert_eq!(rewritten_by(rule, other, 5).unwrap(), other);
        }
    }
    assert_eq!(rewritten_by(host::IN_PLACE, &zeros[..40], 5), refused(30));
    let nothing = built(&[1, 2], &[], &[], ROOM);
    assert_eq!(nothing.unwrap(), [1, 2, 0xFF, 0xD9]);
}

/// The first range that is left chooses the tile.
#[test]
fn dropped_ranges_choose_nothing() {
    let mut entries = [(0, 80, 10), (0, 90, 0), (0, u64::MAX, 1), (0, 1, u64::MAX)];
    assert_eq!(cut(&entries).unwrap().len(), 47);
    entries[3] = TILE_5;
    assert_eq!(cut(&entries), cut(&[TILE_5]));
}

/// Empty ones too, of which the first chooses no tile.
#[test]
fn parts_are_as_their_ranges() {
    const NONE: Entry = (0, 0, 0);
    let sample = sample_a();
    let from_parts = |parts: &[&[u8]]| {
        let (bytes, rows) = joined(parts);
        built(&sample[..45], &rows, &bytes, ROOM)
    };
    for entries in [
        &[][..],
        &[NONE],
        &[TILE_5],
        &[TILE_5, NONE, TILE_0],
        &[NONE, TILE_5],
    ] {
        let bytes = |&(_, offset, length): &Entry| &sample[offset as usize..][..length as usize];
        let parts: Vec<&[u8]> = entries.iter().map(bytes).collect();
        assert_eq!(from_parts(&parts), cut(entries));
    }
    assert_eq!(from_parts(&[&[0xFF, 0x90, 0, 10, 0, 6]]), refused(31));
}

#[test]
fn output_one_short_is_left_alone() {
    let sample = sample_a();
    let short = built(&sample[..45], &rows(&[TILE_5]), &sample, 62);
    assert_eq!(short, Err(Refusal::new(17, 63)));
    let short = rewritten(&sample[..45], 5, 44);
    assert_eq!(short, Err(Refusal::new(17, 45)));
    for (isot, refusal) in [(5, Refusal::new(17, 45)), (6, Refusal::new(31, 2))] {
        let short = written(44, 1, |out, value| {
            let rule = host::IN_PLACE;
            host::rewrite_siz_for_tile_by_rule(&sample[..45], isot, rule, out, value)
        });
        assert_eq!(short, Err(refusal));
    }
}
