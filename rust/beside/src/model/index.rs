//! "An index by tile": for each tile that is there, ascending, its entries in codestream order. An entry is
//! said by its key.

use std::collections::BTreeMap;
use std::ops::Range;

use super::{Record, Refusal};

/// How many entries a key can number: it has 48 bits for that, below the tile's 16.
const ENTRIES: u64 = 1 << 48;

pub fn key(tile: u16, number: usize) -> u64 {
    u64::from(tile) << 48 | number as u64
}

pub fn tile_of(key: u64) -> u64 {
    key >> 48
}

pub fn number_of(key: u64) -> u64 {
    key & (ENTRIES - 1)
}

/// The index of all records.
pub fn index(records: &[Record]) -> Vec<u64> {
    index_from(0, records)
}

/// Of those from a number on: grouped by tile, with the numbers that they have among all.
pub fn index_from(first: usize, records: &[Record]) -> Vec<u64> {
    let mut tiles: BTreeMap<u16, Vec<u64>> = BTreeMap::new();
    for (number, ((tile, ..), _)) in records.iter().enumerate().skip(first) {
        let run = tiles.entry(*tile).or_default();
        run.push(key(*tile, number));
    }
    tiles.into_values().flatten().collect()
}

/// How many of `n` entries an index has that is said to have so many; with more it is another table's.
pub fn old(have: u64, n: usize) -> usize {
    match usize::try_from(have) {
        Ok(have) if have <= n => have,
        _ => 0,
    }
}

/// What stands at the front of the index and of the scratch behind the call.
#[derive(Debug, Clone, PartialEq)]
pub struct Extended {
    pub index: Vec<u64>,
    pub scratch: Vec<u64>,
}

/// The keys that `lent` begins with, whatever they are, and those of the records behind them.
pub fn extend(
    records: &[Record],
    have: u64,
    lent: &[u64],
    scratch: usize,
) -> Result<Extended, Refusal> {
    let n = records.len();
    let old = old(have, n);
    if n as u64 > ENTRIES || n > lent.len() || n - old > scratch {
        return Err(Refusal::new(18, n as u64));
    }
    let scratch = index_from(old, records);
    let index = merged(&lent[..old], &scratch);
    Ok(Extended { index, scratch })
}

/// From the back: the last of both is the old one where its tile is the later.
pub fn merged(old: &[u64], new: &[u64]) -> Vec<u64> {
    let (mut old, mut new) = (old, new);
    let mut behind = Vec::new();
    while let Some((last, others)) = new.split_last() {
        match old.split_last() {
            Some((late, earlier)) if tile_of(*late) > tile_of(*last) => {
                behind.push(*late);
                old = earlier;
            }
            _ => {
                behind.push(*last);
                new = others;
            }
        }
    }
    behind.reverse();
    [old, &behind].concat()
}

/// Where the tile's run stands among keys that may be in any order, by halving.
pub fn run(index: &[u64], tile: u16) -> Range<usize> {
    run_and_reads(index, tile).0
}

/// The same, and how many keys are read for it.
pub fn run_and_reads(index: &[u64], tile: u16) -> (Range<usize>, usize) {
    let tile = u64::from(tile);
    let (first, before) = search(index, tile, 0);
    let (end, behind) = search(index, tile + 1, first);
    (first..end, before + behind)
}

/// The first place from `lo` on whose key is of the tile or a later one, and how many were read.
fn search(index: &[u64], tile: u64, mut lo: usize) -> (usize, usize) {
    let (mut hi, mut reads) = (index.len(), 0);
    while lo < hi {
        let middle = lo + (hi - lo) / 2;
        reads += 1;
        match tile_of(index[middle]) < tile {
            true => lo = middle + 1,
            false => hi = middle,
        }
    }
    (lo, reads)
}

/// The records that the tile's run says; what is not there, and another tile's, is left out.
pub fn entries(records: &[Record], index: &[u64], tile: u16) -> Vec<Record> {
    let found = index[run(index, tile)].iter().filter_map(|&key| {
        let number = usize::try_from(number_of(key)).ok()?;
        records.get(number).filter(|((of, ..), _)| *of == tile)
    });
    found.copied().collect()
}

/// The tile's records without an index.
pub fn filtered(records: &[Record], tile: u16) -> Vec<Record> {
    let of_tile = records.iter().filter(|((of, ..), _)| *of == tile);
    of_tile.copied().collect()
}

#[cfg(test)]
mod tests {
    use super::{entries, extend, filtered, index, key, merged, run, run_and_reads, Extended};
    use crate::model::{Record, Refusal};

    fn records(tiles: &[u16]) -> Vec<Record> {
        let record = |(k, &tile)| ((tile, 12 * k as u64, 12), None);
        tiles.iter().enumerate().map(record).collect()
    }

    #[test]
    fn tiles_ascend_and_a_tile_s_entries_stay_in_order() {
        let table = records(&[5, 0, 5, 65_535, 0]);
        let expected = [(0, 1), (0, 4), (5, 0), (5, 2), (65_535, 3)];
        let found = index(&table);
        assert_eq!(found, expected.map(|(tile, number)| key(tile, number)));
        for (tile, place) in [(0, 0..2), (1, 2..2), (5, 2..4), (6, 4..4), (65_535, 4..5)] {
            assert_eq!(run(&found, tile), place);
            assert_eq!(entries(&table, &found, tile), filtered(&table, tile));
        }
    }

    #[test]
    fn an_extension_is_the_index_of_all() {
        let table = records(&[5, 0, 5, 0, 7, 5]);
        for old in 0..=table.len() {
            let lent = [index(&table[..old]), vec![9; 7 - old]].concat();
            let made = extend(&table, old as u64, &lent, 6 - old);
            assert_eq!(made.map(|made| made.index), Ok(index(&table)));
            if old < 6 {
                let short = extend(&table, old as u64, &lent, 5 - old);
                assert_eq!(short, Err(Refusal::new(18, 6)));
            }
            let short = extend(&table, old as u64, &lent[..5], 6);
            assert_eq!(short, Err(Refusal::new(18, 6)));
        }
        let afresh = index(&table);
        let made = extend(&table, 7, &[9; 6], 6);
        let (index, scratch) = (afresh.clone(), afresh);
        assert_eq!(made, Ok(Extended { index, scratch }));
    }

    #[test]
    fn old_keys_may_be_anything() {
        let [low, high, new] = [key(1, 9), key(8, 9), key(5, 2)];
        assert_eq!(merged(&[high, low], &[new]), [high, low, new]);
        assert_eq!(merged(&[low, high], &[new]), [low, new, high]);
        assert_eq!(merged(&[key(5, 3)], &[new]), [key(5, 3), new]);
        assert_eq!(
            entries(&records(&[5]), &[key(5, 1), key(5, 0), key(6, 0)], 5).len(),
            1
        );
        assert_eq!(entries(&records(&[5]), &[key(6, 0)], 6), []);
    }

    /// Of a million keys 20 for each of the two ends.
    #[test]
    fn a_lookup_reads_few_keys() {
        let tiles: Vec<_> = (0..1_000_000).map(|k| (k % 65_535) as u16).collect();
        let index = index(&records(&tiles));
        let reads = (0..=u16::MAX).map(|tile| run_and_reads(&index, tile).1);
        assert_eq!(reads.max(), Some(40));
    }
}
