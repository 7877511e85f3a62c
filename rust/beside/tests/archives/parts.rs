//! "SOT scan", "Tile-parts in order", "Split"; and the first two with records.

use beside::model::{rows, rows_of, Entry, Record, Refusal, ROW};
use beside::sample::orders::run;
use beside::sample::parts::{many, sot};
use beside::sample::{sample_a, SAMPLE_A_FIRST_SOT};
use probe::host;

use super::written;

const TWELVE: [u8; 12] = [0; 12];

/// With a table of 20 rows.
fn scanned(codestream: &[u8], start: u64) -> Result<Vec<u8>, Refusal> {
    written(20 * ROW, ROW, |table, value| {
        host::scan_sot_markers(codestream, start, table, value)
    })
}

/// Each says that it is number 0 of 1.
fn listed(entries: &[Entry]) -> Result<Vec<u8>, Refusal> {
    Ok(rows_of(&alone(entries)))
}

fn alone(entries: &[Entry]) -> Vec<Record> {
    entries.iter().map(|&entry| (entry, Some([0, 1]))).collect()
}

fn refused(number: u32, place: u64) -> Result<Vec<u8>, Refusal> {
    Err(Refusal::new(number, place))
}

#[test]
fn sample_a_s_parts() {
    let found = scanned(&sample_a(), SAMPLE_A_FIRST_SOT as u64);
    assert_eq!(found, listed(&[(0, 57, 14), (5, 71, 16)]));
}

#[test]
fn psot_may_be_the_rest_and_no_more() {
    let rest = |psot| [sot(3, psot), vec![0; 3]].concat();
    assert_eq!(scanned(&rest(15), 0), listed(&[(3, 0, 15)]));
    assert_eq!(scanned(&rest(0), 0), listed(&[(3, 0, 15)]));
    assert_eq!(scanned(&rest(16), 0), refused(9, 0));
}

#[test]
fn a_psot_below_12_is_an_entry_too() {
    let five = sot(0, 5);
    let zeros = [&five[..], &TWELVE[..10]].concat();
    assert_eq!(scanned(&zeros, 0), listed(&[(0, 0, 5)]));
    assert_eq!(scanned(&five, 0), refused(7, 5));
}

#[test]
fn what_may_follow_the_last_part() {
    let after = |tail: &[u8]| [&many(1, 14), tail].concat();
    let one = listed(&[(0, 0, 14)]);
    assert_eq!(scanned(&after(&[0]), 0), refused(7, 14));
    assert_eq!(scanned(&after(&[0xFF, 0xD9]), 0), one);
    assert_eq!(scanned(&after(&TWELVE), 0), one);
    let mut lsot = after(&sot(0, 12));
    lsot[17] = 11;
    assert_eq!(scanned(&lsot, 0), refused(8, 14));
}

#[test]
fn a_start_past_the_end_is_an_empty_table() {
    for start in [89, 90, 1 << 32, u64::MAX] {
        assert_eq!(scanned(&sample_a(), start), listed(&[]));
    }
}

#[test]
fn a_table_one_short_is_left_alone() {
    let short = written(2 * ROW - 1, ROW, |table, value| {
        host::scan_sot_markers(&sample_a(), 57, table, value)
    });
    assert_eq!(short, refused(18, 2));
}

#[test]
fn the_numbers_are_the_last_of_the_sot() {
    let mut codestream = sot(3, 12);
    (codestream[10], codestream[11]) = (254, 255);
    let expected = rows_of(&[((3, 0, 12), Some([254, 255]))]);
    assert_eq!(expected[18..], [1, 254, 255]);
    assert_eq!(scanned(&codestream, 0), Ok(expected));
}

#[test]
fn sample_a_s_parts_as_records() {
    let untouched = rows(&[(9, 9, 9)]);
    let (mut table, mut value) = (untouched.repeat(3), 7);
    let status = probe::scan_records(&sample_a(), 57, &mut table, &mut value);
    assert_eq!((status, value), (0, 2));
    let found = rows_of(&alone(&[(0, 57, 14), (5, 71, 16)]));
    assert_eq!(table, [found, untouched.clone()].concat());

    let (mut table, mut value) = (untouched.clone(), 7);
    let status = probe::scan_records(&sample_a(), 57, &mut table, &mut value);
    assert_eq!((status, value, table), (18, 2, untouched));
}

/// Of rows, and of records, which agree.
fn in_order(records: &[Record], tile: u16) -> bool {
    let rows = rows_of(records);
    let answer = host::tile_in_order(&rows, tile);
    assert_eq!(probe::records_in_order(&rows, tile), answer);
    assert!(answer < 2);
    answer == 1
}

/// The parts of tile 7 with these numbers.
fn numbered(numbers: &[[u8; 2]]) -> Vec<Record> {
    let record = |numbers: &[u8; 2]| ((7, 0, 12), Some(*numbers));
    numbers.iter().map(record).collect()
}

#[test]
fn parts_in_order() {
    let seven = |numbers: &[[u8; 2]]| in_order(&numbered(numbers), 7);
    for numbers in [
        &[[0, 1]][..],
        &[[0, 0]],
        &[[0, 2], [1, 2]],
        &[[0, 0], [1, 2]],
        &[[0, 2], [1, 0]],
        &[[0, 3], [1, 0], [2, 3]],
    ] {
        assert!(seven(numbers), "{numbers:?}");
    }
    for numbers in [
        &[][..],
        &[[0, 2]],
        &[[1, 1]],
        &[[1, 0]],
        &[[1, 2], [0, 2]],
        &[[0, 2], [1, 1]],
        &[[0, 2], [0, 2]],
        &[[0, 3], [2, 3], [1, 3]],
        &[[0, 1], [1, 2]],
    ] {
        assert!(!seven(numbers), "{numbers:?}");
    }
}

#[test]
fn other_tiles_are_not_looked_at() {
    let ([first, second], other) = ([0, 1].map(|k| numbered(&[[k, 2]])[0]), ((9, 0, 12), None));
    for table in [
        [other, first, second],
        [first, other, second],
        [first, second, other],
    ] {
        assert!(in_order(&table, 7));
        assert!(!in_order(&table, 9));
        assert!(!in_order(&table, 8));
    }
}

#[test]
fn a_byte_numbers_256_parts() {
    for count in [255, 256, 257, 512, 513] {
        assert_eq!(in_order(&run(7, count, 0), 7), count <= 256, "{count}");
    }
    assert!(in_order(&run(7, 255, 255), 7));
    assert!(!in_order(&run(7, 256, 255), 7));
}

#[test]
fn only_1_says_that_the_numbers_are_known() {
    let mut row = rows_of(&numbered(&[[0, 1]]));
    for known in 0..=u8::MAX {
        row[18] = known;
        assert_eq!(host::tile_in_order(&row, 7), u32::from(known == 1));
    }
    row[18] = 1;
    assert_eq!(host::tile_in_order(&row[..ROW - 1], 7), 0);
    row.push(0);
    assert_eq!(host::tile_in_order(&row, 7), 1);
}

fn split_part(tile: &[u8], k: u64, size: usize) -> Result<Vec<u8>, Refusal> {
    written(size, 1, |out, length| {
        host::split_part(tile, k, out, length)
    })
}

fn split_at(tile: &[u8], at: u64, size: usize) -> Result<Vec<u8>, Refusal> {
    written(size, 1, |out, length| host::split_at(tile, at, out, length))
}

#[test]
fn leftovers_are_dropped() {
    let tile = [&many(1, 14), &TWELVE[..11]].concat();
    assert_eq!(host::split_count(&tile), 1);
    assert_eq!(split_part(&tile, 0, 100), Ok(tile[..14].to_vec()));
    assert_eq!(split_part(&tile, 1, 100), Ok(Vec::new()));
}

#[test]
fn sample_a_splits_in_two() {
    let sample = sample_a();
    let tiles = &sample[SAMPLE_A_FIRST_SOT..];
    assert_eq!(host::split_count(tiles), 2);
    assert_eq!(split_part(tiles, 0, 100), Ok(tiles[..14].to_vec()));
    assert_eq!(split_part(tiles, 1, 100), Ok(tiles[14..30].to_vec()));
    assert_eq!(split_part(tiles, 2, 100), Ok(Vec::new()));
    assert_eq!(split_part(tiles, 1, 15), refused(17, 16));
}

#[test]
fn parts_by_position() {
    let sample = sample_a();
    let tiles = &sample[SAMPLE_A_FIRST_SOT..];
    assert_eq!(split_at(tiles, 0, 100), Ok(tiles[..14].to_vec()));
    assert_eq!(split_at(tiles, 14, 100), Ok(tiles[14..30].to_vec()));
    for at in [1, 13, 15, 30, 31, 32, 33, 1 << 32, u64::MAX] {
        assert_eq!(split_at(tiles, at, 100), Ok(Vec::new()));
    }
    assert_eq!(split_at(tiles, 14, 15), refused(17, 16));
}
