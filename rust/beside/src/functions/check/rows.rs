//! The benchmarks, beside plain Rust of the same rule and beside our own scan of the same codestream: tables
//! that say what stands there, of few and many entries, in either order of Ztlm, with an index and without; and
//! tables that differ. The table that the scan is lent is not cleared between calls.

use std::cell::RefCell;

use probe::host;

use crate::bench::{row, Benchmark};
use crate::functions::plain::{self, PLAIN};
use crate::model::check::{Checked, Difference, Said, DIFFERS};
use crate::model::{Refusal, ROW};
use crate::sample::codestream::Tlm;
use crate::sample::numbers::FULL;
use crate::sample::{opened, parts};
use crate::wanted;

pub const BENCHMARK: Benchmark = Benchmark {
    name: wanted::CHECK.name,
    beside: PLAIN,
    rows: || each_table(|name, input| row(name, input, ours, plainly)),
};

pub const BENCHMARK_BESIDE_A_SCAN: Benchmark = Benchmark {
    name: "check_length_table, beside a scan",
    beside: "our scan",
    rows: || each_table(|name, input| row(name, input, accepted, scanned)),
};

struct Input {
    codestream: Vec<u8>,
    first_sot: u64,
    table: RefCell<Vec<u8>>,
}

/// Entries with an index and a length of 4 bytes that a segment holds at most.
const FULL_INDEXED: usize = 10_921;
const SIZE: usize = 14;

fn each_table(measure: fn(&str, &Input)) {
    for (name, count) in [
        ("10 entries", 10),
        ("1,000 entries", 1_000),
        ("100,000 entries in 10 segments", 100_000),
        ("1,000,000 entries in 92 segments", 1_000_000),
    ] {
        let segments = tlms(&listed(count), 0x60, FULL_INDEXED);
        measure(name, &input(&segments, count));
        if segments.len() > 1 {
            let descending: Vec<_> = segments.iter().rev().cloned().collect();
            let name = format!("{name}, Ztlm descending");
            measure(&name, &input(&descending, count));
        }
        let mut first = segments;
        first[0].entries[0].1 += 1;
        measure(&format!("{name}, the first differs"), &input(&first, count));
    }
    let unindexed = tlms(&listed(65_535), 0x00, FULL);
    let name = "65,535 entries without an index";
    measure(name, &input(&unindexed, 65_535));
}

/// What is right of so many tile-parts.
fn listed(count: usize) -> Vec<(u16, u32)> {
    (0..count).map(|tile| (tile as u16, SIZE as u32)).collect()
}

/// In the order of Ztlm.
fn tlms(listed: &[(u16, u32)], stlm: u8, full: usize) -> Vec<Tlm> {
    let segments = (0..=u8::MAX).zip(listed.chunks(full));
    segments
        .map(|(ztlm, entries)| Tlm {
            ztlm,
            stlm,
            entries: entries.to_vec(),
        })
        .collect()
}

/// Segments in file order, and so many tile-parts.
fn input(segments: &[Tlm], count: usize) -> Input {
    let mut built = opened();
    for segment in segments {
        built.tlm(segment);
    }
    let first_sot = built.bytes.len() as u64;
    built.raw(&parts::many(count, SIZE)).eoc();
    Input {
        codestream: built.bytes,
        first_sot,
        table: vec![0; ROW * count].into(),
    }
}

/// All that is told.
fn ours(input: &Input) -> Checked {
    let mut told = [0; 6];
    let status = host::check_length_table(&input.codestream, u64::MAX, &mut told);
    let [number, offset, tile, length, standing_tile, standing_length] = told;
    let said = |tile: u64, length| -> Option<Said> { Some((tile.try_into().ok()?, length)) };
    match status {
        0 => Ok(None),
        DIFFERS => Ok(Some(Difference {
            number,
            offset,
            listed: said(tile, length),
            standing: said(standing_tile, standing_length),
        })),
        refused => Err(Refusal::new(refused, number)),
    }
}

fn plainly(input: &Input) -> Checked {
    plain::check_length_table(&input.codestream, u64::MAX)
}

/// Whether nothing is refused.
fn accepted(input: &Input) -> bool {
    ours(input).is_ok()
}

fn scanned(input: &Input) -> bool {
    let table = &mut input.table.borrow_mut();
    host::scan_sot_markers(&input.codestream, input.first_sot, table, &mut 0) == 0
}

/// What ours is timed beside gives what ours gives.
#[cfg(test)]
mod tests {
    use crate::functions::plain;
    use crate::model::check::check_length_table;
    use crate::random::Random;
    use crate::sample::damage::damaged;
    use crate::sample::deliveries::any;
    use crate::sample::lengths::{at_the_last, by_hand, region};

    #[test]
    fn plain_checks_are_the_model_s() {
        let same = |codestream: &[u8], region| {
            let plain = plain::check_length_table(codestream, region);
            assert_eq!(plain, check_length_table(codestream, region));
        };
        for (codestream, region, _) in [by_hand(), at_the_last()].concat() {
            same(&codestream, region);
        }
        let random = &mut Random::new(7);
        for _ in 0..3_000 {
            let built = any(random).bytes();
            same(&built, region(random, &built));
            let damaged = damaged(random, &built);
            same(&damaged, region(random, &damaged));
        }
    }
}
