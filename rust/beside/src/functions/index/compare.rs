//! The comparison: every number and byte that is written and not written, counts and refusals, whatever
//! stands in the table and in what is lent as the index; and the laws.

use probe::host;

use super::laws;
use super::{Extend, Sides};
use crate::compare::{self, Comparison};
use crate::functions::records::MOST;
use crate::lent::{room, Lent};
use crate::model::index::{entries, extend, index, key, old, run as run_of, Extended};
use crate::model::{records, rows_of, Record, Refusal, ROW};
use crate::random::Random;
use crate::sample::indices::{
    any, ascending, descending, every_list, in_turn, keys, of, rows, standing, table, LAST,
};
use crate::sample::orders;
use crate::tally::{hex_of_front, Tally};
use crate::wanted;

type Run = compare::Run<Sides>;

pub const COMPARISON: Comparison<Sides> = Comparison {
    wanted: wanted::INDEX,
    also: &[
        wanted::EXTEND,
        wanted::EXTEND_OF_RECORDS,
        wanted::RUN,
        wanted::ENTRIES,
        wanted::LAWS_OF_INDEX,
    ],
    minimum: 1_000_000,
    original: Sides {
        make: host::index_tiles,
        extend: [host::extend_index, probe::records_index],
        run: host::tile_run,
        entries: host::tile_entries,
    },
    fixed,
    random: Some(random),
};

const EXTEND: usize = 0;
const EXTEND_OF_RECORDS: usize = 1;
const RUN: usize = 2;
const ENTRIES: usize = 3;
const LAWS: usize = 4;

/// The tiles of short tables, and with their neighbours those that are asked for.
const TILES: [u16; 3] = [0, 1, 65_535];
const ASKED: [u16; 5] = [0, 1, 2, 65_534, 65_535];

fn fixed(run: &mut Run) {
    every_short_table(run);
    every_short_list_of_keys(run);
    every_short_run(run);
    every_first_byte(run);
    every_length(run);
    long_tables(run);
}

/// None, one short, exact and one more.
fn rooms(needed: usize) -> [usize; 4] {
    [0, needed.saturating_sub(1), needed, needed + 1]
}

/// An index and a scratch, as they are lent.
type Keys = Lent<1, 2, u64>;

/// Of these sizes; the index begins with these keys.
fn lent(random: &mut Random, keys: &[u64], [size, scratch]: [usize; 2]) -> Keys {
    let mut index = keys.to_vec();
    index.resize_with(size, || random.number());
    let scratch = (0..scratch).map(|_| random.number()).collect();
    Lent::holding(random, [index, scratch])
}

/// With an index and a scratch of these sizes.
fn make(run: &mut Run, table: &[u8], sizes: [usize; 2]) {
    let before = lent(&mut run.random, &[], sizes);
    let make = run.original.make;
    let ours = before.left_by(|[index, scratch], [value]| make(table, index, scratch, value));
    judge(&mut run.tally, table, 0, &before, &ours);
}

fn make_in_every_room(run: &mut Run, table: &[u8]) {
    let count = table.len() / ROW;
    for size in rooms(count) {
        for scratch in rooms(count) {
            make(run, table, [size, scratch]);
        }
    }
}

/// With keys at the index's front that are said to be so many, and an index and a scratch of these sizes; of
/// rows, and of as many records as the archive has.
fn lengthen(run: &mut Run, table: &[u8], have: u64, keys: &[u64], sizes: [usize; 2]) {
    let before = lent(&mut run.random, keys, sizes);
    let [of_rows, of_records] = run.original.extend;
    let held = &table[..table.len().min(MOST * ROW)];
    let left_by = |extend: Extend| {
        before.left_by(|[index, scratch], [value]| extend(table, have, index, scratch, value))
    };
    let [rows, records] = [of_rows, of_records].map(left_by);
    judge(&mut run.also[EXTEND], table, have, &before, &rows);
    judge(
        &mut run.also[EXTEND_OF_RECORDS],
        held,
        have,
        &before,
        &records,
    );
}

fn judge(tally: &mut Tally, table: &[u8], have: u64, before: &Keys, ours: &Keys) {
    let records = records(table);
    let [lent, scratch] = &before.memory;
    let (label, expected) = match extend(&records, have, lent, scratch.len()) {
        Ok(Extended {
            index: made,
            scratch,
        }) => {
            let old = old(have, records.len());
            let right = lent[..old] == index(&records[..old]);
            let count = [made.len() as u64];
            let expected = before.clone().accepted(count, [&made, &scratch]);
            (wanted::extended(right), expected)
        }
        Err(refusal) => (refusal.label(), before.clone().refused(refusal)),
    };
    tally.compare_by_the_document(label, ours, &expected, || {
        format!("{have} of {}; before: {before:?}", hex_of_front(table))
    });
}

/// What the keys are said to be: as many as they are, or more than there are rows.
fn haves(rows: usize) -> impl Iterator<Item = u64> {
    let rows = rows as u64;
    (0..=rows).chain([rows + 1, 1 << 32, (1 << 48) + 1, u64::MAX])
}

/// Each cut into old and new, in each room.
fn every_cut(run: &mut Run, table: &[u8]) {
    let records = records(table);
    for have in haves(records.len()) {
        let old = old(have, records.len());
        let keys = index(&records[..old]);
        for size in rooms(records.len()) {
            for scratch in rooms(records.len() - old) {
                lengthen(run, table, have, &keys, [size, scratch]);
            }
        }
    }
}

fn look_up(run: &mut Run, keys: &[u64], tile: u16) {
    let before = Lent::<2, 0>::preset(&mut run.random, []);
    let find = run.original.run;
    let ours = before.left_by(|[], [first, count]| find(keys, tile, first, count));
    let found = run_of(keys, tile);
    let mut expected = before.accepted([found.start as u64, found.len() as u64], []);
    expected.status = u32::from(!found.is_empty());
    let label = wanted::run(!found.is_empty());
    run.also[RUN].compare_by_the_document(label, &ours, &expected, || {
        format!("tile {tile} in {keys:X?}")
    });
}

/// Into so many bytes.
fn give(run: &mut Run, table: &[u8], keys: &[u64], tile: u16, size: usize) {
    let before = Lent::<1, 1>::preset(&mut run.random, [size]);
    let give = run.original.entries;
    let ours = before.left_by(|[out], [value]| give(table, keys, tile, out, value));
    let found = entries(&records(table), keys, tile);
    let (label, expected) = match Refusal::unless_it_lists(size, found.len()) {
        Ok(()) => {
            let label = wanted::given(found.len() == run_of(keys, tile).len());
            let count = [found.len() as u64];
            (label, before.accepted(count, [&rows_of(&found)]))
        }
        Err(refusal) => (refusal.label(), before.refused(refusal)),
    };
    run.also[ENTRIES].compare_by_the_document(label, &ours, &expected, || {
        let table = hex_of_front(table);
        format!("tile {tile} of {table} by {keys:X?}; output {size}")
    });
}

/// A row short, exact and a row more, each but for a byte too, and no output at all.
fn give_in_every_room(run: &mut Run, table: &[u8], keys: &[u64], tile: u16) {
    let needed = ROW * entries(&records(table), keys, tile).len();
    let short = needed.saturating_sub(1);
    for size in [0, short, needed, needed + 1, needed + ROW] {
        give(run, table, keys, tile, size);
    }
}

/// Up to six rows over three tiles: made in every room, extended from every cut, each tile asked for; and
/// up to four with each list of keys as the old index.
fn every_short_table(run: &mut Run) {
    for tiles in every_list(&TILES, 6) {
        let table = rows(&mut run.random, &tiles);
        make_in_every_room(run, &table);
        every_cut(run, &table);
        let keys = index(&records(&table));
        for tile in ASKED {
            look_up(run, &keys, tile);
            give_in_every_room(run, &table, &keys, tile);
        }
        laws_of(run, &table);
    }
    for tiles in every_list(&TILES, 4) {
        let table = rows(&mut run.random, &tiles);
        for keys in every_list(&TILES.map(|tile| key(tile, 9)), tiles.len()) {
            let sizes = [tiles.len(), tiles.len() - keys.len()];
            lengthen(run, &table, keys.len() as u64, &keys, sizes);
        }
    }
}

/// In whatever order their tiles are.
fn every_short_list_of_keys(run: &mut Run) {
    for tiles in every_list(&TILES, 7) {
        for tile in ASKED {
            look_up(run, &standing(&tiles), tile);
        }
    }
}

/// Of tables of one and two rows, with keys whose numbers they have and have not.
fn every_short_run(run: &mut Run) {
    let numbers = [0, 1, 2, LAST as usize];
    let every_key: Vec<_> = TILES
        .iter()
        .flat_map(|&tile| numbers.map(|number| key(tile, number)))
        .collect();
    for tiles in every_list(&[0, 65_535], 2) {
        let table = rows(&mut run.random, &tiles);
        for keys in every_list(&every_key, 3) {
            for tile in TILES {
                let needed = entries(&records(&table), &keys, tile).len();
                let size = ROW * room(&mut run.random, needed);
                give(run, &table, &keys, tile, size);
            }
        }
    }
}

/// A row whose numbers are not known loses what stands behind that.
fn every_first_byte(run: &mut Run) {
    let mut table = rows(&mut run.random, &[3, 7, 7]);
    // the first row's key under the tile of the others
    let keys = [0, 1, 2].map(|number| key(7, number));
    for known in 0..=u8::MAX {
        table[2 * ROW + 18] = known;
        give_in_every_room(run, &table, &keys, 7);
    }
}

/// A part of a row is none.
fn every_length(run: &mut Run) {
    let table = rows(&mut run.random, &[9, 4, 9, 0]);
    for end in 0..=table.len() {
        let table = &table[..end];
        make_in_every_room(run, table);
        every_cut(run, table);
        let keys = index(&records(table));
        for tile in [0, 1, 4, 8, 9] {
            look_up(run, &keys, tile);
            give_in_every_room(run, table, &keys, tile);
        }
        laws_of(run, table);
    }
}

fn long_tables(run: &mut Run) {
    for count in [
        255, 256, 257, 1_000, 2_047, 2_048, 2_049, 65_535, 65_537, 150_000,
    ] {
        let random = &mut run.random;
        let orders = [
            ascending(count),
            descending(count),
            in_turn(count, 7),
            in_turn(count, count.div_ceil(3).min(65_536)),
            vec![65_535; count],
            of(random, count, &[0, 65_535]),
            of(random, count, &[255, 256, 511, 512]),
            any(random, count),
        ];
        for tiles in orders {
            long_table(run, &tiles);
        }
    }
}

fn long_table(run: &mut Run, tiles: &[u16]) {
    let count = tiles.len();
    let table = rows(&mut run.random, tiles);
    let records = records(&table);
    make(run, &table, [count, count]);
    make(run, &table, [count - 1, count]);
    let anywhere = run.random.below(count);
    for old in [1, anywhere, count / 2, count - 1, count] {
        let keys = index(&records[..old]);
        lengthen(run, &table, old as u64, &keys, [count + 1, count - old]);
    }
    let keys = index(&records);
    let some = run.random.pick(tiles);
    for tile in [0, 1, some, some.wrapping_add(1), 65_535] {
        look_up(run, &keys, tile);
        let needed = entries(&records, &keys, tile).len();
        give(run, &table, &keys, tile, ROW * needed);
    }
}

fn random(run: &mut Run) {
    let table = table(&mut run.random);
    around(run, &table);
    laws_of(run, &table);
    run.damaged(2, &table, around);
    delivered(run);
}

/// With what may be lent, and for tiles that are there and not.
fn around(run: &mut Run, table: &[u8]) {
    let records = records(table);
    let count = records.len();
    for _ in 0..4 {
        let sizes = [count; 2].map(|count| room(&mut run.random, count));
        make(run, table, sizes);
        cut_anywhere(run, table, &records);
        let length = room(&mut run.random, count);
        let keys = keys(&mut run.random, &records, length);
        let tile = asked(&mut run.random, &records);
        look_up(run, &keys, tile);
        let needed = entries(&records, &keys, tile).len();
        let size = ROW * room(&mut run.random, needed) + run.random.below(ROW);
        give(run, table, &keys, tile, size);
    }
}

fn cut_anywhere(run: &mut Run, table: &[u8], records: &[Record]) {
    let random = &mut run.random;
    let count = records.len();
    let have = match random.below(8) {
        0 => random.spread(),
        1 => (count + random.below(3)) as u64,
        _ => random.below(count + 1) as u64,
    };
    let old = old(have, count);
    let keys = keys(random, records, old);
    let sizes = [count, count - old].map(|count| room(random, count));
    lengthen(run, table, have, &keys, sizes);
}

/// A tile that is there, a neighbour of it, or any.
fn asked(random: &mut Random, records: &[Record]) -> u16 {
    let any = random.number() as u16;
    if records.is_empty() {
        return any;
    }
    let ((there, ..), _) = random.pick(records);
    random.pick(&[
        there,
        there,
        there,
        there.wrapping_add(1),
        there.wrapping_sub(1),
        any,
    ])
}

fn laws_of(run: &mut Run, table: &[u8]) {
    laws::check(&mut run.also[LAWS], &run.original, table);
}

/// Parts of tiles that sample A has, some of them late.
fn delivered(run: &mut Run) {
    let mut parts = orders::table(&mut run.random);
    for ((tile, ..), _) in &mut parts {
        *tile = run.random.below(6) as u16;
    }
    let codestream = orders::codestream(&parts);
    let late = run.random.below(parts.len() + 1);
    let front = &codestream[..codestream.len() / parts.len().max(1) * late];
    laws::check_joined(&mut run.also[LAWS], &run.original, front, &codestream);
}

#[cfg(test)]
mod tests {
    use super::{every_first_byte, every_length, Sides};
    use crate::compare::holds_on;
    use crate::functions::index::slips::{of_either, EXTENDS, GIVES, MAKES, RIGHT, RUNS};

    fn holds(sides: Sides) -> bool {
        holds_on::<5, _>(sides, |run| {
            every_first_byte(run);
            every_length(run);
        })
    }

    #[test]
    fn the_model_passes_and_slips_do_not() {
        assert!(holds(RIGHT));
        for (at, make) in MAKES.into_iter().enumerate() {
            assert!(!holds(Sides { make, ..RIGHT }), "make {at}");
        }
        for (at, extend) in EXTENDS.into_iter().enumerate() {
            for extend in of_either(extend) {
                assert!(!holds(Sides { extend, ..RIGHT }), "extend {at}");
            }
        }
        for (at, run) in RUNS.into_iter().enumerate() {
            assert!(!holds(Sides { run, ..RIGHT }), "run {at}");
        }
        for (at, entries) in GIVES.into_iter().enumerate() {
            assert!(!holds(Sides { entries, ..RIGHT }), "entries {at}");
        }
    }
}
