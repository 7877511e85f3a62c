//! The benchmark: few and many tile-parts, side by side and spread over a gigabyte, of one size and of
//! several. Of one size the processor guesses where the next one stands, and has it at hand before it is
//! asked for. A table that is lent again holds what the last call wrote, or is cleared before the call, within
//! the time; the original allocates its own and lets it grow, so ours is timed with a table allocated for
//! each call too.

use std::cell::RefCell;

use original::markers;
use probe::host;

use crate::bench::{row, Benchmark, ORIGINAL};
use crate::model::ROW;
use crate::random::{Random, SEED};
use crate::sample::parts;
use crate::sample::zeros::zeros;
use crate::wanted;

pub const BENCHMARK: Benchmark = Benchmark {
    name: wanted::SCAN.name,
    beside: ORIGINAL,
    rows,
};

const GIGABYTE: usize = 1 << 30;

struct Input {
    codestream: Vec<u8>,
    parts: usize,
    table: RefCell<Vec<u8>>,
}

impl Input {
    fn scanned(&self, table: &mut [u8]) -> Option<u64> {
        let mut entries = 0;
        let status = host::scan_sot_markers(&self.codestream, 0, table, &mut entries);
        (status == 0).then_some(entries)
    }
}

type Way = fn(&Input) -> Option<u64>;

const WAYS: [(&str, Way); 3] = [
    ("table lent", |input| {
        input.scanned(&mut input.table.borrow_mut())
    }),
    ("table lent and cleared", |input| {
        let mut table = input.table.borrow_mut();
        table.fill(0);
        input.scanned(&mut table)
    }),
    ("table allocated", |input| {
        input.scanned(&mut vec![0; ROW * input.parts])
    }),
];

fn theirs(input: &Input) -> Option<u64> {
    let told = markers::scan_sot_markers(&input.codestream, 0).ok()?;
    Some(told.len() as u64)
}

fn rows() {
    for count in [1, 10, 100, 1_000, 65_535, 1_000_000] {
        measure(count, "of 14 bytes", parts::many(count, 14));
    }
    for count in [10, 100, 1_000, 65_535] {
        let codestream = parts::varied(&mut Random::new(SEED), count, 14, 100);
        measure(count, "of 14 to 113 bytes", codestream);
    }
    for count in [100, 65_535, 1_000_000] {
        let size = GIGABYTE / count;
        if let Some(codestream) = spread(count, |_| size) {
            measure(count, "over 1 GB", codestream);
        }
    }
    for count in [100, 65_535, 1_000_000] {
        let mean = GIGABYTE / count;
        let mut random = Random::new(SEED);
        if let Some(codestream) = spread(count, |_| mean / 2 + random.below(mean)) {
            measure(count, "of several sizes over 1 GB", codestream);
        }
    }
}

fn measure(parts: usize, how: &str, codestream: Vec<u8>) {
    let input = Input {
        codestream,
        parts,
        table: vec![0; ROW * parts].into(),
    };
    for (table, ours) in WAYS {
        row(
            &format!("{parts} parts {how}, {table}"),
            &input,
            ours,
            theirs,
        );
    }
}

/// `count` parts, of which this tells the size by the number.
fn spread(count: usize, mut size: impl FnMut(usize) -> usize) -> Option<Vec<u8>> {
    let sizes: Vec<_> = (0..count).map(&mut size).collect();
    let mut codestream = zeros(sizes.iter().sum())?;
    let mut rest = codestream.as_mut_slice();
    for (isot, size) in sizes.into_iter().enumerate() {
        let (part, others) = rest.split_at_mut(size);
        let sot = parts::sot(isot as u16, size as u32);
        part[..sot.len()].copy_from_slice(&sot);
        rest = others;
    }
    Some(codestream)
}
