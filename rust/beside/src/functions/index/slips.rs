//! The four functions by the model, and what may go wrong with each, all of which has to show.

use std::ops::Range;

use super::{Extend, Give, Lookup, Make, Sides};
use crate::model::index::{entries, extend, number_of, old, run, tile_of, Extended};
use crate::model::{records, rows_of, Refusal, ROW};

/// What is written; how many keys were old.
type Slip = fn(&mut Extended, usize);

fn extended(
    table: &[u8],
    have: u64,
    [index, scratch]: [&mut [u64]; 2],
    value: &mut u64,
    slip: Slip,
) -> u32 {
    let records = records(table);
    match extend(&records, have, index, scratch.len()) {
        Ok(mut made) => {
            *value = records.len() as u64;
            slip(&mut made, old(have, records.len()));
            index[..made.index.len()].copy_from_slice(&made.index);
            scratch[..made.scratch.len()].copy_from_slice(&made.scratch);
            0
        }
        Err(refusal) => refused(refusal, value),
    }
}

fn refused(refusal: Refusal, value: &mut u64) -> u32 {
    *value = refusal.place;
    refusal.number
}

fn found(run: Range<usize>, first: &mut u64, count: &mut u64) -> u32 {
    (*first, *count) = (run.start as u64, run.len() as u64);
    u32::from(!run.is_empty())
}

fn given(rows: &[u8], out: &mut [u8], value: &mut u64) -> u32 {
    let count = rows.len() / ROW;
    if let Err(refusal) = Refusal::unless_it_lists(out.len(), count) {
        return refused(refusal, value);
    }
    out[..rows.len()].copy_from_slice(rows);
    *value = count as u64;
    0
}

macro_rules! making {
    ($slip:expr) => {
        |table, index, scratch, value| extended(table, 0, [index, scratch], value, $slip)
    };
}

macro_rules! extending {
    ($slip:expr) => {
        |table, have, index, scratch, value| extended(table, have, [index, scratch], value, $slip)
    };
}

pub const RIGHT: Sides = Sides {
    make: making!(none),
    extend: [extending!(none); 2],
    run: |index, tile, first, count| found(run(index, tile), first, count),
    entries: |table, index, tile, out, value| {
        let found = entries(&records(table), index, tile);
        given(&rows_of(&found), out, value)
    },
};

/// With this for rows, and with it for records.
pub fn of_either(extend: Extend) -> [[Extend; 2]; 2] {
    let [rows, records] = RIGHT.extend;
    [[extend, records], [rows, extend]]
}

fn none(_: &mut Extended, _: usize) {}

fn each_run(keys: &mut [u64], change: fn(&mut [u64])) {
    let runs = keys.chunk_by_mut(|one, next| tile_of(*one) == tile_of(*next));
    runs.for_each(change);
}

fn runs_in_reverse(made: &mut Extended, _: usize) {
    each_run(&mut made.index, <[u64]>::reverse);
}

/// The one before it stands in its place.
fn last_lost(made: &mut Extended, _: usize) {
    each_run(&mut made.index, |run| {
        if let [.., before, last] = run {
            *last = *before;
        }
    });
}

/// The last key is in front of all.
fn in_two_runs(made: &mut Extended, _: usize) {
    if !made.index.is_empty() {
        made.index.rotate_right(1);
    }
}

/// As sorted by a way that doesn't keep the order: the least of what is left changes places with the first.
fn unstable(made: &mut Extended, _: usize) {
    let keys = &mut made.index;
    keys.sort_by_key(|key| number_of(*key));
    for at in 0..keys.len() {
        let least = (at..keys.len()).min_by_key(|&at| tile_of(keys[at]));
        keys.swap(at, least.unwrap_or(at));
    }
}

fn tiles_descend(made: &mut Extended, _: usize) {
    made.index.sort_by_key(|key| u64::MAX - tile_of(*key));
}

fn scratch_left(made: &mut Extended, _: usize) {
    made.scratch.clear();
}

fn scratch_not_sorted(made: &mut Extended, _: usize) {
    made.scratch.sort_by_key(|key| number_of(*key));
}

/// Of a tile that gained.
fn old_run_forgotten(made: &mut Extended, old: usize) {
    for key in &mut made.index {
        let mut of_tile = made
            .scratch
            .iter()
            .filter(|new| tile_of(**new) == tile_of(*key));
        if let (Some(new), true) = (of_tile.next(), number_of(*key) < old as u64) {
            *key = *new;
        }
    }
}

fn new_before_old(made: &mut Extended, old: usize) {
    let was = |key: &u64| number_of(*key) < old as u64;
    made.index.sort_by_key(|key| (tile_of(*key), was(key)));
}

fn numbered_from_0(made: &mut Extended, old: usize) {
    for key in made.index.iter_mut().chain(&mut made.scratch) {
        if number_of(*key) >= old as u64 {
            *key -= old as u64;
        }
    }
}

pub const MAKES: [Make; 9] = [
    making!(runs_in_reverse),
    making!(last_lost),
    making!(in_two_runs),
    making!(unstable),
    making!(tiles_descend),
    making!(scratch_left),
    making!(scratch_not_sorted),
    // a part of a row counted
    |table, index, scratch, value| {
        let status = (RIGHT.make)(table, index, scratch, value);
        *value = table.len().div_ceil(ROW) as u64;
        status
    },
    // written before it is judged
    |table, index, scratch, value| {
        index.fill(0);
        (RIGHT.make)(table, index, scratch, value)
    },
];

pub const EXTENDS: [Extend; 11] = [
    extending!(runs_in_reverse),
    extending!(last_lost),
    extending!(in_two_runs),
    extending!(unstable),
    extending!(old_run_forgotten),
    extending!(new_before_old),
    extending!(numbered_from_0),
    extending!(scratch_left),
    extending!(scratch_not_sorted),
    // another table's index taken for this one's
    |table, have, index, scratch, value| {
        let have = have.min((table.len() / ROW) as u64);
        extended(table, have, [index, scratch], value, none)
    },
    // written before it is judged
    |table, have, index, scratch, value| {
        scratch.fill(0);
        extended(table, have, [index, scratch], value, none)
    },
];

pub const RUNS: [Lookup; 5] = [
    // the neighbour's
    |index, tile, first, count| found(run(index, tile.wrapping_add(1)), first, count),
    // the neighbour's, where it has none
    |index, tile, first, count| match run(index, tile) {
        none if none.is_empty() => found(run(index, tile.wrapping_sub(1)), first, count),
        some => found(some, first, count),
    },
    // all behind it too
    |index, tile, first, count| found(run(index, tile).start..index.len(), first, count),
    |index, tile, first, count| {
        found(run(index, tile), first, count);
        1
    },
    // of the first key alone
    |index, tile, first, count| {
        let run = run(index, tile);
        found(run.start..run.end.min(run.start + 1), first, count)
    },
];

pub const GIVES: [Give; 5] = [
    // the neighbour's
    |table, index, tile, out, value| {
        (RIGHT.entries)(table, index, tile.wrapping_add(1), out, value)
    },
    // the last one lost
    |table, index, tile, out, value| {
        let mut found = entries(&records(table), index, tile);
        found.pop();
        given(&rows_of(&found), out, value)
    },
    // whatever tile the row is of
    |table, index, tile, out, value| {
        let records = records(table);
        let keys = index[run(index, tile)].iter();
        let found = keys.filter_map(|key| records.get(number_of(*key) as usize));
        let found: Vec<_> = found.copied().collect();
        given(&rows_of(&found), out, value)
    },
    // copied, with what stands behind numbers that are not known
    |table, index, tile, out, value| {
        let of_tile = |row: &&[u8]| row[..2] == tile.to_be_bytes();
        let keys = index[run(index, tile)].iter();
        let rows = keys.filter_map(|key| table.chunks_exact(ROW).nth(number_of(*key) as usize));
        let rows: Vec<_> = rows.filter(of_tile).collect();
        given(&rows.concat(), out, value)
    },
    // what there is room for, where that is too little
    |table, index, tile, out, value| {
        let status = (RIGHT.entries)(table, index, tile, out, value);
        if status != 0 {
            out.fill(0);
        }
        status
    },
];
