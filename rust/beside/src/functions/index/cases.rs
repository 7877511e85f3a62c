//! The replay list's cases of kinds 24 and 25; the payload is the tile's index and how many entries are old,
//! 2 bytes each, and the codestream, whose tile-parts start at 0. The answer is the model's: the keys of an
//! index that is made of the old entries and extended to all, the tile's run among them, and its entries with
//! their numbers.

use std::collections::BTreeMap;

use crate::cases::{numbered, Kind};
use crate::model::index::{entries, extend, index, number_of, run, tile_of};
use crate::model::number;
use crate::model::parts::scan_sot_markers;
use crate::random::Random;
use crate::sample::indices::{descending, in_turn, tiles};
use crate::sample::orders::codestream;
use crate::wanted;

pub const KIND: Kind = Kind {
    number: 24,
    name: wanted::EXTEND.name,
    minimum: 200,
    payloads,
    answer,
};

/// The same through a table of records.
pub const RECORDS: Kind = Kind {
    number: 25,
    name: wanted::EXTEND_OF_RECORDS.name,
    ..KIND
};

/// Keys that the program that answers the list has room for.
const ROOM: usize = 2_048;

fn payloads(random: &mut Random) -> Vec<Vec<u8>> {
    let mut payloads = Vec::new();
    for tiles in [vec![], vec![65_535], descending(20)] {
        around(random, &tiles, &mut payloads);
    }
    for _ in 0..36 {
        let count = 1 + random.below(12);
        let tiles = tiles(random, count);
        around(random, &tiles, &mut payloads);
    }
    payloads.push(framed(6, 257, &parts(&in_turn(300, 7))));
    // one short of its last tile-part's end
    let whole = parts(&in_turn(9, 2));
    payloads.push(framed(1, 4, &whole[..whole.len() - 1]));
    payloads
}

/// Nothing old, all, and more than all; and any of them, for a tile that is there, for its neighbours, and
/// for one that hardly is.
fn around(random: &mut Random, tiles: &[u16], payloads: &mut Vec<Vec<u8>>) {
    let built = parts(tiles);
    let all = tiles.len() as u16;
    let past = random.pick(&[all + 1, all + 2, 65_535]);
    let there = match tiles.is_empty() {
        true => 0,
        false => random.pick(tiles),
    };
    let any = random.number() as u16;
    for old in [0, all, past] {
        payloads.push(framed(there, old, &built));
    }
    for tile in [there, there.wrapping_add(1), there.wrapping_sub(1), any] {
        let old = random.below(tiles.len() + 1) as u16;
        payloads.push(framed(tile, old, &built));
    }
}

/// A tile-part for each, numbered as its tile has them.
fn parts(tiles: &[u16]) -> Vec<u8> {
    let mut before = BTreeMap::<u16, u8>::new();
    let records: Vec<_> = tiles
        .iter()
        .map(|&tile| {
            let next = before.entry(tile).or_default();
            let tpsot = *next;
            *next += 1;
            ((tile, 0, 12), Some([tpsot, 0]))
        })
        .collect();
    codestream(&records)
}

fn framed(tile: u16, old: u16, codestream: &[u8]) -> Vec<u8> {
    [&tile.to_be_bytes(), &old.to_be_bytes(), codestream].concat()
}

fn answer(payload: &[u8]) -> Option<String> {
    let (front, codestream) = payload.split_at(4);
    let (tile, have) = (number(&front[..2]) as u16, number(&front[2..]));
    let found = scan_sot_markers(codestream, 0).ok();
    let scan = match &found {
        Some(records) => records.len().to_string(),
        None => "refused".to_string(),
    };
    let records = found.unwrap_or_default();
    let mut lent = index(&records[..records.len().min(have as usize)]);
    lent.resize(ROOM, 0);
    let keys = extend(&records, have, &lent, ROOM).ok()?.index;
    let each = |key: &u64| format!(" {} {}", tile_of(*key), number_of(*key));
    let listed: String = keys.iter().map(each).collect();
    let place = run(&keys, tile);
    let (first, count) = (place.start, place.len());
    let given = numbered(&entries(&records, &keys, tile));
    Some(format!(
        "scan {scan}, index{listed}, run {first} {count}, entries{given}"
    ))
}

#[cfg(test)]
mod tests {
    use super::{answer, framed, parts};

    fn told(tile: u16, old: u16, tiles: &[u16]) -> String {
        answer(&framed(tile, old, &parts(tiles))).unwrap_or_default()
    }

    #[test]
    fn the_line_is_the_same_from_every_cut() {
        let line = "scan 4, index 0 1 5 0 5 2 7 3, run 1 2, entries 5 0 12 0 0 5 24 12 1 0";
        for old in [0, 1, 2, 3, 4, 5, 65_535] {
            assert_eq!(told(5, old, &[5, 0, 5, 7]), line);
        }
    }

    #[test]
    fn a_tile_that_is_not_there_has_no_entries() {
        assert_eq!(
            told(6, 1, &[5, 7]),
            "scan 2, index 5 0 7 1, run 1 0, entries"
        );
        assert_eq!(told(0, 0, &[]), "scan 0, index, run 0 0, entries");
    }

    #[test]
    fn what_is_refused_has_no_index() {
        let whole = parts(&[5, 7]);
        let line = answer(&framed(5, 1, &whole[..whole.len() - 1]));
        assert_eq!(
            line.as_deref(),
            Some("scan refused, index, run 0 0, entries")
        );
    }
}
