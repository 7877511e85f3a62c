//! Tables whose tiles come in many orders, and keys that may be lent as the index of one, right or not.

use crate::model::index::{index, key};
use crate::model::{Record, ROW};
use crate::random::Random;

/// As many as a table of tile-parts names: 0 to 65,534.
pub const TILES: usize = 65_535;

/// The greatest number that a key has; its bits.
pub const LAST: u64 = (1 << 48) - 1;

/// A tile's entries beside each other.
pub fn ascending(count: usize) -> Vec<u16> {
    let tiles = count.min(TILES);
    (0..count).map(|k| (k * tiles / count) as u16).collect()
}

pub fn descending(count: usize) -> Vec<u16> {
    let mut tiles = ascending(count);
    tiles.reverse();
    tiles
}

/// Each of so many tiles once, and again: a resolution behind the other.
pub fn in_turn(count: usize, tiles: usize) -> Vec<u16> {
    (0..count).map(|k| (k % tiles) as u16).collect()
}

pub fn any(random: &mut Random, count: usize) -> Vec<u16> {
    (0..count).map(|_| random.number() as u16).collect()
}

/// Of these alone.
pub fn of(random: &mut Random, count: usize, tiles: &[u16]) -> Vec<u16> {
    (0..count).map(|_| random.pick(tiles)).collect()
}

/// Tiles in one of the orders that a table may have them in.
pub fn tiles(random: &mut Random, count: usize) -> Vec<u16> {
    let one = random.number() as u16;
    let few = 1 + random.below(6);
    match random.below(10) {
        0 => ascending(count),
        1 => descending(count),
        2 | 3 => in_turn(count, few),
        4 => vec![one; count],
        5 => of(random, count, &[0, u16::MAX]),
        6 => any(random, count),
        // alike in one half of their bits
        7 => of(random, count, &[one, one ^ 1, one ^ 0x80, one ^ 0xFF]),
        8 => of(
            random,
            count,
            &[one, one ^ 0x100, one ^ 0x8000, one ^ 0xFF00],
        ),
        _ => {
            let near: Vec<_> = (0..few).map(|k| one.wrapping_add(k as u16)).collect();
            of(random, count, &near)
        }
    }
}

/// A row for each tile; what stands behind the tile is any, but mostly says that its numbers are known.
pub fn rows(random: &mut Random, tiles: &[u16]) -> Vec<u8> {
    let mut rows = random.fill(ROW * tiles.len());
    for (row, tile) in rows.chunks_mut(ROW).zip(tiles) {
        row[..2].copy_from_slice(&tile.to_be_bytes());
        row[18] = random.pick(&[0, 1, 1, 1, 2, row[18]]);
    }
    rows
}

/// Rows, and often a part of one behind them.
pub fn table(random: &mut Random) -> Vec<u8> {
    let count = match random.below(64) {
        0 => random.below(600),
        1..=8 => random.below(60),
        _ => random.below(12),
    };
    let tiles = tiles(random, count);
    let mut table = rows(random, &tiles);
    if random.once_in(2) {
        let partial = random.below(ROW);
        table.extend(random.fill(partial));
    }
    table
}

/// What is lent as the index of the first `count` records: that mostly, or nearly, or any keys.
pub fn keys(random: &mut Random, records: &[Record], count: usize) -> Vec<u64> {
    let mut right = index(&records[..count.min(records.len())]);
    right.resize_with(count, || random.number());
    match random.below(12) {
        0 => (0..count).map(|_| random.number()).collect(),
        1 => right.into_iter().rev().collect(),
        // numbers that the table has not
        2 => {
            let past = [records.len() as u64, LAST - 1, LAST];
            let of_tile = right.into_iter().map(|key| key & !LAST);
            of_tile.map(|key| key | random.pick(&past)).collect()
        }
        3 => {
            let others = tiles(random, count).into_iter().enumerate();
            let others: Vec<Record> = others
                .map(|(at, tile)| ((tile, at as u64, 12), None))
                .collect();
            index(&others)
        }
        // as they stand in the table
        4 => {
            right.sort_by_key(|key| key & LAST);
            right
        }
        5 if count > 0 => {
            slip(random, &mut right);
            right
        }
        _ => right,
    }
}

fn slip(random: &mut Random, keys: &mut [u64]) {
    let one = random.below(keys.len());
    let other = random.below(keys.len());
    match random.below(4) {
        0 => keys.swap(one, other),
        1 => keys[one] = keys[other],
        2 => keys[one] = random.number(),
        _ => keys[one] ^= 1 << random.below(64),
    }
}

/// Every list of up to `longest` of these.
pub fn every_list<T: Copy>(of: &[T], longest: usize) -> Vec<Vec<T>> {
    let mut lists = vec![Vec::new()];
    let mut from = 0;
    for _ in 0..longest {
        let to = lists.len();
        for at in from..to {
            for item in of {
                let longer = [&lists[at][..], &[*item]].concat();
                lists.push(longer);
            }
        }
        from = to;
    }
    lists
}

/// The key of each row of these tiles, in the table's order.
pub fn standing(tiles: &[u16]) -> Vec<u64> {
    let keys = tiles.iter().enumerate();
    keys.map(|(number, tile)| key(*tile, number)).collect()
}

#[cfg(test)]
mod tests {
    use super::{ascending, descending, every_list, in_turn};

    #[test]
    fn orders_are_as_they_say() {
        assert_eq!(ascending(4), [0, 1, 2, 3]);
        assert_eq!(descending(3), [2, 1, 0]);
        assert_eq!(in_turn(5, 2), [0, 1, 0, 1, 0]);
        let many = ascending(131_070);
        assert_eq!((many[0], many[1], many[2]), (0, 0, 1));
        assert_eq!(many[131_069], 65_534);
        assert!(many.is_sorted());
    }

    #[test]
    fn every_list_comes_once() {
        let lists = every_list(&[1, 2], 2);
        let expected: [&[u8]; 7] = [&[], &[1], &[2], &[1, 1], &[1, 2], &[2, 1], &[2, 2]];
        assert_eq!(lists, expected);
    }
}
