//! Tables of tile-parts whose numbers are in order, or nearly.

use super::codestream::Codestream;
use crate::model::{Entry, Record};
use crate::random::Random;

/// Few, so that most tables have several parts of each.
pub const TILES: [u16; 5] = [0, 1, 7, 255, 65_535];

/// The tile-parts of a few tiles, shuffled without changing a tile's own order; of some of them a number
/// is wrong, or two change places, or one is not known.
pub fn table(random: &mut Random) -> Vec<Record> {
    let mut tiles: Vec<_> = TILES.map(|tile| tile_of(random, tile)).to_vec();
    let mut table = Vec::new();
    while let Some(some) = left(random, &tiles) {
        table.push(tiles[some].remove(0));
    }
    table
}

/// A tile whose parts are not all taken.
fn left(random: &mut Random, tiles: &[Vec<Record>]) -> Option<usize> {
    let some: Vec<_> = (0..tiles.len())
        .filter(|&tile| !tiles[tile].is_empty())
        .collect();
    (!some.is_empty()).then(|| random.pick(&some))
}

fn tile_of(random: &mut Random, tile: u16) -> Vec<Record> {
    let count = random.pick(&[0, 1, 2, 3, 3, 5]);
    let mut records: Vec<_> = (0..count)
        .map(|tpsot| {
            let tnsot = random.pick(&[0, count]);
            (place(random, tile), Some([tpsot, tnsot]))
        })
        .collect();
    if count > 0 && random.once_in(2) {
        slip(random, &mut records);
    }
    records
}

fn place(random: &mut Random, tile: u16) -> Entry {
    (tile, random.spread(), random.spread())
}

fn slip(random: &mut Random, records: &mut Vec<Record>) {
    let one = random.below(records.len());
    let other = random.below(records.len());
    match random.below(6) {
        0 => records.swap(one, other),
        1 => records[one].1 = None,
        2 => {
            records.remove(one);
        }
        3 => records.push(records[one]),
        which => {
            let near = random.pick(&[1, 2, 255]);
            if let Some(numbers) = &mut records[one].1 {
                numbers[which - 4] = numbers[which - 4].wrapping_add(near);
            }
        }
    }
}

/// So many parts of one tile in order; each gives `tnsot`.
pub fn run(tile: u16, count: usize, tnsot: u8) -> Vec<Record> {
    let record = |k: usize| ((tile, 12 * k as u64, 12), Some([k as u8, tnsot]));
    (0..count).map(record).collect()
}

/// Every row of tile 7 or 9 with a first number byte of 0, 1 or 2 and small numbers: its last 3 bytes.
pub fn every_row() -> Vec<(u16, [u8; 3])> {
    let mut rows = Vec::new();
    for tile in [7, 9] {
        for known in 0..3 {
            for tpsot in 0..3 {
                for tnsot in 0..4 {
                    rows.push((tile, [known, tpsot, tnsot]));
                }
            }
        }
    }
    rows
}

/// A tile-part for each record, with its index and numbers; 0 and 0 where they are not known.
pub fn codestream(records: &[Record]) -> Vec<u8> {
    let mut built = Codestream::default();
    for &((tile, ..), numbers) in records {
        let [tpsot, tnsot] = numbers.unwrap_or_default();
        built.sot(tile, 12, tpsot, tnsot);
    }
    built.bytes
}
