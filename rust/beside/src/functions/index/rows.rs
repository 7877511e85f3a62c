//! The benchmarks: the index made of few and many rows in each order, beside plain Rust of the same rule and
//! beside our own scan of as many tile-parts; extended by a little and by more; a lookup, and a tile's rows,
//! beside plain Rust and beside a filter of the whole table. Whatever is lent is not cleared between calls.

use std::cell::RefCell;

use probe::host;

use crate::bench::{row, row_restored, Benchmark};
use crate::functions::plain::{self, PLAIN};
use crate::model::index::{index, run_and_reads};
use crate::model::{records, rows_of, Record, ROW};
use crate::random::{Random, SEED};
use crate::sample::indices::{any, ascending, descending, in_turn, TILES};
use crate::sample::parts;
use crate::wanted;

/// Sorted by the standard library's stable sort.
pub const BENCHMARK: Benchmark = Benchmark {
    name: wanted::INDEX.name,
    beside: PLAIN,
    rows: || each_order(|name, input| row(name, input, made, sorted)),
};

pub const BENCHMARK_COUNTED: Benchmark = Benchmark {
    name: "index_tiles, beside a counting sort",
    beside: PLAIN,
    rows: || each_order(|name, input| row(name, input, made, counted)),
};

pub const BENCHMARK_BESIDE_A_SCAN: Benchmark = Benchmark {
    name: "index_tiles, beside a scan",
    beside: "our scan",
    rows: || each_order(|name, input| row(name, input, made, scanned)),
};

pub const BENCHMARK_OF_EXTENSION: Benchmark = Benchmark {
    name: wanted::EXTEND.name,
    beside: PLAIN,
    rows: extensions,
};

pub const BENCHMARK_OF_LOOKUP: Benchmark = Benchmark {
    name: wanted::RUN.name,
    beside: PLAIN,
    rows: lookups,
};

pub const BENCHMARK_OF_ENTRIES: Benchmark = Benchmark {
    name: wanted::ENTRIES.name,
    beside: PLAIN,
    rows: || each_tile(|name, input| row(name, input, given, given_plainly)),
};

pub const BENCHMARK_BESIDE_A_FILTER: Benchmark = Benchmark {
    name: "tile_entries, beside a filter of the table",
    beside: "plain filter",
    rows: || each_tile(|name, input| row(name, input, given, filtered)),
};

const COUNTS: [(&str, usize); 4] = [
    ("10", 10),
    ("1,000", 1_000),
    ("100,000", 100_000),
    ("1,000,000", 1_000_000),
];

/// A row for each tile, with 12 bytes each.
fn table(tiles: &[u16]) -> Vec<u8> {
    let record =
        |(k, &tile): (usize, &u16)| -> Record { ((tile, 12 * k as u64, 12), Some([0, 1])) };
    rows_of(&tiles.iter().enumerate().map(record).collect::<Vec<_>>())
}

/// Four resolutions of a table of so many rows, or more where that would take too many tiles.
fn tiles_in(count: usize) -> usize {
    (count / 4).min(TILES)
}

struct Input {
    codestream: Vec<u8>,
    table: Vec<u8>,
    index: RefCell<Vec<u64>>,
    scratch: RefCell<Vec<u64>>,
    out: RefCell<Vec<u8>>,
}

fn each_order(measure: fn(&str, &Input)) {
    for (name, count) in COUNTS {
        let orders = [
            ("ascending", ascending(count)),
            ("each resolution in turn", in_turn(count, tiles_in(count))),
            ("descending", descending(count)),
            ("random", any(&mut Random::new(SEED), count)),
        ];
        for (order, tiles) in orders {
            let mut codestream = parts::many(count, 12);
            for (part, tile) in codestream.chunks_mut(12).zip(&tiles) {
                part[4..6].copy_from_slice(&tile.to_be_bytes());
            }
            let input = Input {
                codestream,
                table: table(&tiles),
                index: vec![0; count].into(),
                scratch: vec![0; count].into(),
                out: vec![0; ROW * count].into(),
            };
            measure(&format!("{name} entries, {order}"), &input);
        }
    }
}

fn made(input: &Input) -> Option<u64> {
    let mut entries = 0;
    let index = &mut input.index.borrow_mut();
    let scratch = &mut input.scratch.borrow_mut();
    let status = host::index_tiles(&input.table, index, scratch, &mut entries);
    (status == 0).then_some(entries)
}

fn sorted(input: &Input) -> Option<u64> {
    plain::index_sorted(&input.table, &mut input.index.borrow_mut())
}

fn counted(input: &Input) -> Option<u64> {
    plain::index_counted(&input.table, &mut input.index.borrow_mut())
}

fn scanned(input: &Input) -> Option<u64> {
    let mut entries = 0;
    let table = &mut input.out.borrow_mut();
    let status = host::scan_sot_markers(&input.codestream, 0, table, &mut entries);
    (status == 0).then_some(entries)
}

/// What an extension is lent; `old` is what stood at the index's front.
struct Late {
    table: Vec<u8>,
    old: Vec<u64>,
    index: RefCell<Vec<u64>>,
    scratch: RefCell<Vec<u64>>,
}

/// Of tables that come resolution by resolution; what is late begins another one, or is a part of some tile.
/// One more of the first tile moves all keys but those of that tile, and one of the last tile none.
fn extensions() {
    for (name, count) in COUNTS {
        let tiles = tiles_in(count);
        let measure = |how, more, first| {
            let name = format!("to {name} entries, by {how}");
            let copies = late(count, more, first);
            row_restored(&name, &copies, restore, extended, extended_plainly);
        };
        measure("one, of the last tile", 1, tiles - 1);
        measure("one, of the middle tile", 1, tiles / 2);
        measure("one, of the first tile", 1, 0);
        if count >= 100 {
            measure("1%", count / 100, 0);
        }
        measure("a resolution", tiles, 0);
    }
}

/// So many entries, the last of them late and of tiles from `first` on. Of small ones there are many copies,
/// so that short calls are timed together.
fn late(count: usize, more: usize, first: usize) -> Vec<Late> {
    let tiles = tiles_in(count);
    let early = in_turn(count - more, tiles);
    let behind = (first..first + more).map(|tile| tile as u16);
    let table = table(&early.into_iter().chain(behind).collect::<Vec<_>>());
    let old = index(&records(&table[..ROW * (count - more)]));
    let copy = |_| Late {
        table: table.clone(),
        old: old.clone(),
        index: vec![0; count].into(),
        scratch: vec![0; more].into(),
    };
    let copies = (65_536 / count).clamp(1, 64);
    (0..copies).map(copy).collect()
}

fn restore(input: &Late) {
    input.index.borrow_mut()[..input.old.len()].copy_from_slice(&input.old);
}

fn extended(input: &Late) -> Option<u64> {
    let mut entries = 0;
    let have = input.old.len() as u64;
    let index = &mut input.index.borrow_mut();
    let scratch = &mut input.scratch.borrow_mut();
    let status = host::extend_index(&input.table, have, index, scratch, &mut entries);
    (status == 0).then_some(entries)
}

fn extended_plainly(input: &Late) -> Option<u64> {
    let index = &mut input.index.borrow_mut();
    let scratch = &mut input.scratch.borrow_mut();
    plain::index_extended(&input.table, input.old.len(), index, scratch)
}

struct Asked {
    table: Vec<u8>,
    index: Vec<u64>,
    tile: u16,
    out: RefCell<Vec<u8>>,
}

/// For the middle one of the tiles.
fn each_tile(measure: fn(&str, &Asked)) {
    for (name, count) in COUNTS {
        let tiles = tiles_in(count);
        let table = table(&in_turn(count, tiles));
        let index = index(&records(&table));
        let tile = tiles as u16 / 2;
        let run = plain::tile_run(&index, tile).1;
        let out = vec![0; ROW * run].into();
        let input = Asked {
            table,
            index,
            tile,
            out,
        };
        measure(&format!("{run} of {name} entries"), &input);
    }
}

fn lookups() {
    each_tile(|name, input| row(name, input, found, found_plainly));
    let table = table(&in_turn(1_000_000, TILES));
    let index = index(&records(&table));
    let most = (0..=u16::MAX)
        .map(|tile| run_and_reads(&index, tile).1)
        .max();
    println!(
        "\nOf 1,000,000 entries a lookup reads {} at most.",
        most.unwrap_or_default()
    );
}

fn found(input: &Asked) -> (usize, usize) {
    let (mut first, mut count) = (0, 0);
    host::tile_run(&input.index, input.tile, &mut first, &mut count);
    (first as usize, count as usize)
}

fn found_plainly(input: &Asked) -> (usize, usize) {
    plain::tile_run(&input.index, input.tile)
}

fn given(input: &Asked) -> Option<u64> {
    let mut entries = 0;
    let out = &mut input.out.borrow_mut();
    let status = host::tile_entries(&input.table, &input.index, input.tile, out, &mut entries);
    (status == 0).then_some(entries)
}

fn given_plainly(input: &Asked) -> Option<u64> {
    plain::tile_entries(
        &input.table,
        &input.index,
        input.tile,
        &mut input.out.borrow_mut(),
    )
}

fn filtered(input: &Asked) -> Option<u64> {
    plain::tile_filtered(&input.table, input.tile, &mut input.out.borrow_mut())
}

/// What ours is timed beside gives what ours gives.
#[cfg(test)]
mod tests {
    use crate::functions::plain;
    use crate::model::index::{entries, index, run};
    use crate::model::{records, rows_of, ROW};
    use crate::random::Random;
    use crate::sample::indices;

    /// With tables of few and more rows, and a place in each.
    fn each_table(check: fn(&[u8], usize)) {
        let random = &mut Random::new(7);
        for count in [0, 1, 2, 10, 300] {
            for _ in 0..20 {
                let tiles = indices::tiles(random, count);
                let table = indices::rows(random, &tiles);
                check(&table, random.below(count + 1));
            }
        }
    }

    #[test]
    fn plain_indices_are_the_model_s() {
        each_table(|table, old| {
            let records = records(table);
            let (expected, count) = (index(&records), records.len());
            for make in [plain::index_sorted, plain::index_counted] {
                let mut keys = vec![9; count + 1];
                assert_eq!(make(table, &mut keys), Some(count as u64));
                assert_eq!(keys, [&expected[..], &[9]].concat());
                assert_eq!(make(&[table, &[0; ROW]].concat(), &mut keys[1..]), None);
            }
            let mut keys = index(&records[..old]);
            keys.resize(count, 9);
            let mut scratch = vec![9; count - old];
            let extended = plain::index_extended(table, old, &mut keys, &mut scratch);
            assert_eq!((extended, keys), (Some(count as u64), expected));
        });
    }

    #[test]
    fn plain_runs_are_the_model_s() {
        each_table(|table, at| {
            let records = records(table);
            let index = index(&records);
            let there = records.get(at).map_or(5, |((tile, ..), _)| *tile);
            for tile in [there, there.wrapping_add(1), 0, u16::MAX] {
                let place = run(&index, tile);
                let found = plain::tile_run(&index, tile);
                assert_eq!(found, (place.start, place.len()));
                let kept = rows_of(&entries(&records, &index, tile));
                let [mut given, mut filtered] = [(); 2].map(|()| vec![9; kept.len()]);
                plain::tile_entries(table, &index, tile, &mut given);
                plain::tile_filtered(table, tile, &mut filtered);
                assert_eq!([given, filtered], [kept.clone(), kept]);
            }
        });
    }
}
