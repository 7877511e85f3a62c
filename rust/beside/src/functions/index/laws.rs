//! What has to hold of the index, by the archive's own answers: extended it is the one made afresh, a tile
//! that gained nothing keeps its run, a run is what a filter gives, and so is what is joined of it.

use probe::host;

use super::Sides;
use crate::model::index::{filtered, number_of};
use crate::model::parts::scan_sot_markers;
use crate::model::{records, rows_of, Record, ROW};
use crate::sample::sample_a;
use crate::tally::{hex, hex_of_front, Tally};
use crate::wanted::{AS_AFRESH, AS_FILTERED, JOINED, SAME_RUN};

/// Of every cut of a table into what was there and what came late, up to so many rows.
const CUTS: usize = 24;

/// Of a table of as many rows as the archive has records, at most.
pub fn check(tally: &mut Tally, sides: &Sides, table: &[u8]) {
    let records = records(table);
    let afresh = made(sides, table);
    let tiles = tiles_of(&records);
    for &tile in &tiles {
        let numbers = |keys: &[u64]| keys.iter().map(|&key| number_of(key)).collect::<Vec<_>>();
        let run = numbers(run_in(sides, &afresh, tile));
        let of_tile = |(_, ((of, ..), _)): &(u64, &Record)| *of == tile;
        let kept = (0..).zip(&records).filter(of_tile);
        let kept: Vec<_> = kept.map(|(number, _)| number).collect();
        tally.compare_by_the_document(AS_FILTERED, &run, &kept, || {
            format!("tile {tile} of {}", hex_of_front(table))
        });
    }
    let step = records.len() / CUTS + 1;
    for old in (0..=records.len()).step_by(step) {
        let front = made(sides, &table[..ROW * old]);
        let input = || format!("{old} rows of {}", hex_of_front(table));
        for extend in sides.extend {
            let (mut index, mut scratch) = (front.clone(), vec![0; records.len() - old]);
            index.resize(records.len(), 0);
            extend(table, old as u64, &mut index, &mut scratch, &mut 0);
            tally.compare_by_the_document(AS_AFRESH, &index, &afresh, input);
            let late = tiles_of(&records[old..]);
            for &tile in tiles
                .iter()
                .filter(|tile| late.binary_search(tile).is_err())
            {
                let [before, after] = [&front, &index].map(|keys| run_in(sides, keys, tile));
                tally.compare_by_the_document(SAME_RUN, &after, &before, input);
            }
        }
    }
}

/// Of a codestream of which only the front was there at first: the parts that the index gives, joined behind
/// sample A's header, beside those that a filter gives.
pub fn check_joined(tally: &mut Tally, sides: &Sides, front: &[u8], codestream: &[u8]) {
    let [early, all] = [front, codestream].map(scanned);
    let early = made(sides, &early);
    let (have, rows) = (early.len(), all.len() / ROW);
    let records = records(&all);
    for extend in sides.extend {
        let (mut index, mut scratch) = (early.clone(), vec![0; rows - have]);
        index.resize(rows, 0);
        extend(&all, have as u64, &mut index, &mut scratch, &mut 0);
        for tile in 0..6 {
            let (mut out, mut count) = (vec![0; all.len()], 0);
            (sides.entries)(&all, &index, tile, &mut out, &mut count);
            out.truncate(ROW * count as usize);
            let [by_index, by_filter] =
                [out, rows_of(&filtered(&records, tile))].map(|rows| joined(&rows, codestream));
            tally.compare_by_the_document(JOINED, &by_index, &by_filter, || {
                format!("tile {tile} of {}, {} early", hex(codestream), front.len())
            });
        }
    }
}

fn made(sides: &Sides, table: &[u8]) -> Vec<u64> {
    let rows = table.len() / ROW;
    let (mut index, mut scratch) = (vec![0; rows], vec![0; rows]);
    (sides.make)(table, &mut index, &mut scratch, &mut 0);
    index
}

fn run_in<'a>(sides: &Sides, index: &'a [u64], tile: u16) -> &'a [u64] {
    let (mut first, mut count) = (0, 0);
    (sides.run)(index, tile, &mut first, &mut count);
    let end = (first as usize).saturating_add(count as usize);
    index.get(first as usize..end).unwrap_or_default()
}

fn tiles_of(records: &[Record]) -> Vec<u16> {
    let mut tiles: Vec<_> = records.iter().map(|((tile, ..), _)| *tile).collect();
    tiles.sort_unstable();
    tiles.dedup();
    tiles
}

/// By the archive.
fn scanned(codestream: &[u8]) -> Vec<u8> {
    let count = scan_sot_markers(codestream, 0).map_or(0, |found| found.len());
    let mut table = vec![0; ROW * count];
    host::scan_sot_markers(codestream, 0, &mut table, &mut 0);
    table
}

/// The status, and what is written.
fn joined(rows: &[u8], codestream: &[u8]) -> (u32, Vec<u8>) {
    let header = &sample_a()[..45];
    let (mut out, mut value) = (vec![0; header.len() + codestream.len() + 2], 0);
    let status = host::build_minimal_codestream(header, rows, codestream, &mut out, &mut value);
    out.truncate(value as usize);
    (status, out)
}

#[cfg(test)]
mod tests {
    use super::{check, check_joined, joined, scanned};
    use crate::functions::index::slips::{of_either, EXTENDS, GIVES, MAKES, RIGHT, RUNS};
    use crate::functions::index::Sides;
    use crate::sample::orders::{codestream, run};
    use crate::tally::Tally;
    use crate::wanted::LAWS_OF_INDEX;

    /// The parts of tiles 5, 2 and 0, of which 5 gains nothing at the end.
    fn parts() -> Vec<u8> {
        let of = |tile, count| run(tile, count, 0);
        codestream(&[of(2, 1), of(5, 2), of(2, 1), of(0, 1), of(2, 1)].concat())
    }

    fn holds(sides: &Sides) -> bool {
        let mut tally = Tally::new("f", 1, LAWS_OF_INDEX.answers);
        let codestream = parts();
        check(&mut tally, sides, &scanned(&codestream));
        check_joined(&mut tally, sides, &codestream[..36], &codestream);
        tally.holds()
    }

    #[test]
    fn what_is_joined_is_accepted() {
        let codestream = parts();
        let (status, built) = joined(&scanned(&codestream), &codestream);
        assert_eq!((status, built.len()), (0, 45 + 6 * 12 + 2));
    }

    /// Those that a law speaks of: which keys there are, and where; none says what the scratch holds.
    #[test]
    fn another_index_shows() {
        assert!(holds(&RIGHT));
        for (at, make) in MAKES[..5].iter().copied().enumerate() {
            assert!(!holds(&Sides { make, ..RIGHT }), "make {at}");
        }
        for (at, extend) in EXTENDS[..7].iter().copied().enumerate() {
            for extend in of_either(extend) {
                assert!(!holds(&Sides { extend, ..RIGHT }), "extend {at}");
            }
        }
        for (at, run) in RUNS[..3]
            .iter()
            .copied()
            .enumerate()
            .filter(|(at, _)| *at != 1)
        {
            assert!(!holds(&Sides { run, ..RIGHT }), "run {at}");
        }
        for (at, entries) in GIVES[..2].iter().copied().enumerate() {
            assert!(!holds(&Sides { entries, ..RIGHT }), "entries {at}");
        }
    }
}
