//! The comparison: the answer for a tile, of rows and of records; and the answer for the tile in the
//! codestream that is assembled of its parts. The original has none of these: they are the model's, or
//! our own of the codestream before.

use probe::host;

use crate::compare::{self, Comparison};
use crate::functions::records::MOST;
use crate::model::parts::{scan_sot_markers, tile_in_order};
use crate::model::{records, rows_of, Record, ROW};
use crate::random::Random;
use crate::sample::orders::{codestream, every_row, run as in_a_row, table, TILES};
use crate::sample::{parts, sample_a, SAMPLE_A_FIRST_SOT};
use crate::tally::{hex_of_front, Tally};
use crate::wanted;

type Answer = fn(&[u8], u16) -> u32;
/// Of rows, and of records.
type Sides = [Answer; 2];
type Run = compare::Run<Sides>;

pub const COMPARISON: Comparison<Sides> = Comparison {
    wanted: wanted::ORDER,
    also: &[wanted::ORDER_OF_RECORDS, wanted::ORDER_ASSEMBLED],
    minimum: 300_000,
    original: [host::tile_in_order, probe::records_in_order],
    fixed,
    random: Some(random),
};

fn fixed(run: &mut Run) {
    every_short_table(run);
    long_tables(run);
    every_first_byte(run);
    let sample = sample_a();
    for tile in [0, 1, 5] {
        assembled(run, &sample[..45], &sample, SAMPLE_A_FIRST_SOT as u64, tile);
    }
}

/// Of rows, whatever their bytes are, and of as many records as the archive has.
fn check(run: &mut Run, table: &[u8], tile: u16) {
    let [rows, of_records] = run.original;
    let held = &table[..table.len().min(MOST * ROW)];
    one(&mut run.tally, rows, table, tile);
    one(&mut run.also[0], of_records, held, tile);
}

fn one(tally: &mut Tally, answer: Answer, table: &[u8], tile: u16) {
    let expected = tile_in_order(&records(table), tile);
    let ours = answer(table, tile);
    tally.compare_by_the_document(wanted::order(expected), &ours, &u32::from(expected), || {
        format!("tile {tile} in {}", hex_of_front(table))
    });
}

/// All tables of up to three rows that `every_row` makes, for tile 7.
fn every_short_table(run: &mut Run) {
    let rows: Vec<_> = every_row()
        .into_iter()
        .map(|(tile, numbers)| {
            let mut row = rows_of(&[((tile, 3, 12), None)]);
            row[18..].copy_from_slice(&numbers);
            row
        })
        .collect();
    check(run, &[], 7);
    for first in &rows {
        check(run, first, 7);
        for second in &rows {
            let two = [first.as_slice(), second].concat();
            check(run, &two, 7);
            for third in &rows {
                check(run, &[two.as_slice(), third].concat(), 7);
            }
        }
    }
}

/// As many as TPsot can number, and more; and tables about as long as the archive's own.
fn long_tables(run: &mut Run) {
    for count in [254, 255, 256, 257, 300, 512, 65_537] {
        for tnsot in [0, 254, 255, count as u8] {
            let mut table = in_a_row(7, count, tnsot);
            check(run, &rows_of(&table), 7);
            table.swap(100, 101);
            check(run, &rows_of(&table), 7);
        }
    }
    for count in [MOST - 3, MOST - 2, MOST - 1] {
        let others = in_a_row(9, count, 0);
        let table = [&others[..], &in_a_row(7, 2, 2)].concat();
        check(run, &rows_of(&table), 7);
        check(run, &rows_of(&table), 8);
    }
}

fn every_first_byte(run: &mut Run) {
    let mut row = rows_of(&in_a_row(7, 1, 1));
    for known in 0..=u8::MAX {
        row[18] = known;
        check(run, &row, 7);
    }
    for end in 0..=row.len() {
        check(run, &row[..end], 7);
    }
}

fn random(run: &mut Run) {
    let records = table(&mut run.random);
    let mut table = rows_of(&records);
    for tile in TILES {
        check(run, &table, tile);
    }
    let partial = run.random.below(ROW);
    table.extend(run.random.fill(partial));
    run.damaged(4, &table, |run, damaged| {
        let tile = run.random.pick(&TILES);
        check(run, damaged, tile);
    });
    scanned(run, &records);
    let built = parts::tile_parts(&mut run.random);
    let tile = any_tile(&mut run.random, &built);
    assembled(run, &sample_a()[..45], &built, 0, tile);
}

/// What the scan writes is what is asked.
fn scanned(run: &mut Run, records: &[Record]) {
    let codestream = codestream(records);
    for tile in TILES {
        check(run, &rows_of(&scan(&codestream, 0)), tile);
        assembled(run, &sample_a()[..45], &codestream, 0, tile);
    }
}

fn any_tile(random: &mut Random, codestream: &[u8]) -> u16 {
    let found = scan(codestream, 0);
    match found.is_empty() {
        true => 0,
        false => found[random.below(found.len())].0 .0,
    }
}

/// By the archive.
fn scan(codestream: &[u8], start: u64) -> Vec<Record> {
    let count = scan_sot_markers(codestream, start).map_or(0, |found| found.len());
    let (mut table, mut value) = (vec![0; count * ROW], 0);
    match host::scan_sot_markers(codestream, start, &mut table, &mut value) {
        0 => records(&table),
        _ => Vec::new(),
    }
}

/// Assembled behind this header, the tile's parts stand in order under index 0 exactly where they did
/// before, if each has a whole SOT.
fn assembled(run: &mut Run, header: &[u8], codestream: &[u8], start: u64, tile: u16) {
    let found = scan(codestream, start);
    let of_tile = found.iter().filter(|((index, ..), _)| *index == tile);
    let of_tile: Vec<_> = of_tile.copied().collect();
    if of_tile.iter().any(|((_, _, length), _)| *length < 12) {
        return;
    }
    let (mut out, mut value) = (vec![0; header.len() + codestream.len() + 2], 0);
    let rows = rows_of(&of_tile);
    let status = host::build_minimal_codestream(header, &rows, codestream, &mut out, &mut value);
    if status != 0 {
        return;
    }
    out.truncate(value as usize);
    let [rows, _] = run.original;
    let before = rows(&rows_of(&found), tile);
    let after = rows(&rows_of(&scan(&out, header.len() as u64)), 0);
    let label = wanted::order(before == 1);
    run.also[1].compare_by_the_document(label, &after, &before, || {
        format!("tile {tile} of {} from {start}", hex_of_front(codestream))
    });
}

#[cfg(test)]
mod tests {
    use super::{every_first_byte, long_tables, Answer, Sides};
    use crate::compare::holds_on;
    use crate::model::parts::tile_in_order;
    use crate::model::{records, Record};

    fn holds(sides: Sides) -> bool {
        holds_on::<2, _>(sides, |run| {
            every_first_byte(run);
            long_tables(run);
            run.also[1].compare_by_the_document("none", &0, &0, String::new);
        })
    }

    const RIGHT: Answer = |table, tile| u32::from(tile_in_order(&records(table), tile));

    fn by(change: fn(&mut Record), table: &[u8], tile: u16) -> u32 {
        let mut records = records(table);
        records.iter_mut().for_each(change);
        u32::from(tile_in_order(&records, tile))
    }

    #[test]
    fn the_model_passes_and_slips_do_not() {
        assert!(holds([RIGHT, RIGHT]));
        const WRONG: [Answer; 5] = [
            |_, _| 0,
            |_, _| 1,
            // not known taken as 0
            |table, tile| {
                by(
                    |(_, numbers)| *numbers = numbers.or(Some([0, 0])),
                    table,
                    tile,
                )
            },
            // TNsot not looked at
            |table, tile| {
                by(
                    |(_, numbers)| *numbers = numbers.map(|[tpsot, _]| [tpsot, 0]),
                    table,
                    tile,
                )
            },
            // in whatever order
            |table, tile| {
                let mut records = records(table);
                records.sort_by_key(|(_, numbers)| *numbers);
                u32::from(tile_in_order(&records, tile))
            },
        ];
        for wrong in WRONG {
            assert!(!holds([wrong, RIGHT]));
            assert!(!holds([RIGHT, wrong]));
        }
    }
}
