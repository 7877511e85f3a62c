//! "An index by tile".

use beside::model::{records, rows_of, Record, ROW};
use beside::sample::{sample_a, SAMPLE_A_FIRST_SOT};
use probe::host;

use super::written;

/// Tile-parts of tiles 5, 0, 5, 7, 0, one behind the other.
const TILES: [u16; 5] = [5, 0, 5, 7, 0];

/// Tiles 0, 5 and 7, and the numbers of their entries.
const INDEX: [u64; 5] = [
    0x0000_0000_0000_0001,
    0x0000_0000_0000_0004,
    0x0005_0000_0000_0000,
    0x0005_0000_0000_0002,
    0x0007_0000_0000_0003,
];

const UNTOUCHED: u64 = 0xEEEE;

fn of_tiles(tiles: &[u16]) -> Vec<u8> {
    let record =
        |(k, &tile): (usize, &u16)| -> Record { ((tile, 20 * k as u64, 20), Some([k as u8, 0])) };
    rows_of(&tiles.iter().enumerate().map(record).collect::<Vec<_>>())
}

fn table() -> Vec<u8> {
    of_tiles(&TILES)
}

/// Status and value, and what index and scratch of these sizes then hold.
fn made(table: &[u8], size: usize, scratch: usize) -> (u32, u64, Vec<u64>, Vec<u64>) {
    let (mut index, mut scratch) = (vec![UNTOUCHED; size], vec![UNTOUCHED; scratch]);
    let mut value = 7;
    let status = host::index_tiles(table, &mut index, &mut scratch, &mut value);
    (status, value, index, scratch)
}

/// The same of an index that begins with these, of rows and of records, which agree.
fn extended(
    have: u64,
    begin: &[u64],
    size: usize,
    scratch: usize,
) -> (u32, u64, Vec<u64>, Vec<u64>) {
    let [rows, records] = [host::extend_index, probe::records_index].map(|extend| {
        let (mut index, mut scratch) = (begin.to_vec(), vec![UNTOUCHED; scratch]);
        index.resize(size, UNTOUCHED);
        let mut value = 7;
        let status = extend(&table(), have, &mut index, &mut scratch, &mut value);
        (status, value, index, scratch)
    });
    assert_eq!(rows, records);
    rows
}

#[test]
fn tiles_ascend_and_their_entries_keep_their_order() {
    let index = INDEX.to_vec();
    assert_eq!(made(&table(), 5, 5), (0, 5, index.clone(), index.clone()));
    let longer = [&INDEX[..], &[UNTOUCHED]].concat();
    assert_eq!(made(&table(), 6, 6), (0, 5, longer.clone(), longer));
    // a part of a row is none
    let partial = [&table()[..], &[0; ROW - 1]].concat();
    assert_eq!(made(&partial, 5, 5), (0, 5, index.clone(), index));
    assert_eq!(made(&[], 0, 0), (0, 0, Vec::new(), Vec::new()));
}

#[test]
fn one_too_small_leaves_both_alone() {
    for (size, scratch) in [(4, 5), (5, 4), (0, 0)] {
        let [index, left] = [size, scratch].map(|size| vec![UNTOUCHED; size]);
        assert_eq!(made(&table(), size, scratch), (18, 5, index, left));
    }
    let old = [INDEX[2]];
    let kept = |size: usize| {
        let mut kept = old.to_vec();
        kept.resize(size, UNTOUCHED);
        kept
    };
    assert_eq!(
        extended(1, &old, 4, 4),
        (18, 5, kept(4), vec![UNTOUCHED; 4])
    );
    assert_eq!(
        extended(1, &old, 5, 3),
        (18, 5, kept(5), vec![UNTOUCHED; 3])
    );
}

#[test]
fn late_entries_come_behind_their_tile_s() {
    // of tiles 5, 0, 5
    let old = [INDEX[0], INDEX[2], INDEX[3]];
    let late = vec![INDEX[1], INDEX[4]];
    assert_eq!(extended(3, &old, 5, 2), (0, 5, INDEX.to_vec(), late));
    assert_eq!(
        extended(5, &INDEX, 5, 0),
        (0, 5, INDEX.to_vec(), Vec::new())
    );
    // another table's, and so made afresh
    let afresh = INDEX.to_vec();
    assert_eq!(extended(6, &[9; 5], 5, 5), (0, 5, afresh.clone(), afresh));
}

#[test]
fn keys_that_are_no_index_are_merged_all_the_same() {
    let (low, high) = (0x0001_0000_0000_0009, 0x0009_0000_0000_0009);
    // from the back: tiles 7 and 5 stand behind tile 1, and tile 0 before it and all that is before it
    let merged = vec![INDEX[1], high, low, INDEX[3], INDEX[4]];
    let late = vec![INDEX[1], INDEX[3], INDEX[4]];
    assert_eq!(extended(2, &[high, low], 5, 3), (0, 5, merged, late));
}

#[test]
fn a_run_is_found_or_empty() {
    let found = |index: &[u64], tile| {
        let (mut first, mut count) = (77, 77);
        let status = host::tile_run(index, tile, &mut first, &mut count);
        (status, first, count)
    };
    for (tile, expected) in [
        (0, (1, 0, 2)),
        (1, (0, 2, 0)),
        (4, (0, 2, 0)),
        (5, (1, 2, 2)),
        (6, (0, 4, 0)),
        (7, (1, 4, 1)),
        (8, (0, 5, 0)),
        (65_535, (0, 5, 0)),
    ] {
        assert_eq!(found(&INDEX, tile), expected, "{tile}");
    }
    assert_eq!(found(&[], 0), (0, 0, 0));
    let last = 0xFFFF_0000_0000_0000;
    assert_eq!(found(&[INDEX[4], last, last + 1], 65_535), (1, 1, 2));
}

#[test]
fn a_tile_s_rows_are_given() {
    let table = table();
    let given = |index: &[u64], tile, size| {
        written(size, ROW, |out, value| {
            host::tile_entries(&table, index, tile, out, value)
        })
    };
    let row = |k: usize| table[ROW * k..][..ROW].to_vec();
    assert_eq!(given(&INDEX, 5, 3 * ROW), Ok([row(0), row(2)].concat()));
    assert_eq!(given(&INDEX, 0, 2 * ROW), Ok([row(1), row(4)].concat()));
    assert_eq!(given(&INDEX, 6, 0), Ok(Vec::new()));
    let refusal = given(&INDEX, 5, 2 * ROW - 1).expect_err("a byte too few");
    assert_eq!((refusal.number, refusal.place), (18, 2));
    // numbers that the table has not, and a row of another tile
    let five = 0x0005_0000_0000_0000;
    let others = [five + 5, five + 0xFFFF_FFFF_FFFF, five + 1, five + 2];
    assert_eq!(given(&others, 5, ROW), Ok(row(2)));
}

#[test]
fn numbers_that_are_not_known_are_not_given() {
    let mut table = of_tiles(&[3]);
    table[18..].copy_from_slice(&[2, 8, 9]);
    let given = written(ROW, ROW, |out, value| {
        host::tile_entries(&table, &[0x0003_0000_0000_0000], 3, out, value)
    });
    let mut expected = table.clone();
    expected[18..].fill(0);
    assert_eq!(given, Ok(expected));
}

/// Of sample A first the front, up to its second tile-part.
#[test]
fn records_are_the_first_2_048_rows() {
    for rows in [2_047, 2_048, 2_049, 3_000] {
        let held = rows.min(2_048);
        let [mut index, mut scratch] = [held + 1, held].map(|size| vec![UNTOUCHED; size]);
        let mut value = 7;
        let table = of_tiles(&vec![3; rows]);
        let status = probe::records_index(&table, 0, &mut index, &mut scratch, &mut value);
        assert_eq!((status, value), (0, held as u64));
        let keys: Vec<_> = (0..held as u64).map(|number| 3 << 48 | number).collect();
        assert_eq!(index, [&keys[..], &[UNTOUCHED]].concat());
        assert_eq!(scratch, keys);
        // one old entry more than there are records, and so made afresh
        let [mut index, mut scratch] = [held, held - 1].map(|size| vec![UNTOUCHED; size]);
        let have = held as u64 + 1;
        let status = probe::records_index(&table, have, &mut index, &mut scratch, &mut value);
        assert_eq!((status, value), (18, held as u64));
        assert_eq!(index, vec![UNTOUCHED; held]);
    }
}

#[test]
fn sample_a_s_index() {
    let (sample, first_sot) = (sample_a(), SAMPLE_A_FIRST_SOT as u64);
    let scanned = |codestream: &[u8]| {
        written(2 * ROW, ROW, |table, value| {
            host::scan_sot_markers(codestream, first_sot, table, value)
        })
    };
    let front = scanned(&sample[..71]).expect("a tile-part");
    let whole = scanned(&sample).expect("two tile-parts");
    let tiles: Vec<_> = records(&whole)
        .iter()
        .map(|((tile, ..), _)| *tile)
        .collect();
    assert_eq!(tiles, [0, 5]);
    let (status, value, mut index, _) = made(&front, 2, 1);
    assert_eq!((status, value, index[0]), (0, 1, 0));
    let (mut scratch, mut value) = ([0], 7);
    let status = host::extend_index(&whole, 1, &mut index, &mut scratch, &mut value);
    assert_eq!((status, value), (0, 2));
    assert_eq!(
        (index, scratch),
        (vec![0, 0x0005_0000_0000_0001], [0x0005_0000_0000_0001])
    );
}
