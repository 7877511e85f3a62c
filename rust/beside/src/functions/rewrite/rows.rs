//! The benchmarks: tiles that are rewritten and tiles that aren't, in short and long headers, by
//! the original's rule beside the original, and by Annex B's and in place beside plain Rust. The
//! output that is lent is not cleared between calls; the original allocates its own.

use std::cell::RefCell;

use original::markers;
use probe::host;

use super::compare::rewritten;
use crate::bench::{row, Benchmark, ORIGINAL};
use crate::functions::plain::{self, PLAIN};
use crate::sample::codestream::Codestream;
use crate::sample::sizes::{header, Fields, MOVED, SAMPLE_A};
use crate::wanted;

pub const BENCHMARK: Benchmark = Benchmark {
    name: wanted::REWRITE_BY_ORIGINAL.name,
    beside: ORIGINAL,
    rows,
};

pub const BENCHMARK_OF_ANNEX_B: Benchmark = Benchmark {
    name: wanted::REWRITE.name,
    beside: PLAIN,
    rows: || {
        beside_plain(
            |input| input.rewritten(None),
            |input| input.plain(plain::moved),
        )
    },
};

pub const BENCHMARK_IN_PLACE: Benchmark = Benchmark {
    name: wanted::REWRITE_IN_PLACE.name,
    beside: PLAIN,
    rows: || {
        beside_plain(
            |input| input.rewritten(Some(host::IN_PLACE)),
            |input| input.plain(plain::in_place),
        )
    },
};

const SIZES: [usize; 3] = [45, 4096, 1 << 20];

struct Input {
    header: Vec<u8>,
    isot: u16,
    out: RefCell<Vec<u8>>,
}

impl Input {
    fn new(fields: Fields, size: usize, isot: u16) -> Self {
        let mut built = Codestream {
            bytes: header(fields),
        };
        built.pad_to(size);
        Input {
            header: built.bytes,
            isot,
            out: vec![0; size].into(),
        }
    }

    fn rewritten(&self, rule: Option<u32>) -> Option<u64> {
        let (mut out, mut size) = (self.out.borrow_mut(), 0);
        match rewritten(rule, &self.header, self.isot, &mut out, &mut size) {
            0 => Some(size),
            _ => None,
        }
    }

    fn plain(&self, fields: impl plain::Fields) -> Option<u64> {
        plain::rewrite(&self.header, self.isot, fields, &mut self.out.borrow_mut())
    }
}

fn ours_by_original(input: &Input) -> Option<u64> {
    input.rewritten(Some(host::ORIGINAL))
}

fn theirs(input: &Input) -> Option<u64> {
    let rewritten = markers::rewrite_siz_for_tile(&input.header, input.isot);
    Some(rewritten.len() as u64)
}

fn rows() {
    for size in SIZES {
        for (which, isot) in [("full", 0), ("at the edge", 5)] {
            let input = Input::new(SAMPLE_A, size, isot);
            let name = format!("tile {which}, header of {size} bytes");
            row(&name, &input, ours_by_original, theirs);
        }
    }
}

fn beside_plain(ours: fn(&Input) -> Option<u64>, plain: fn(&Input) -> Option<u64>) {
    for size in SIZES {
        for (which, isot) in [("full", 6), ("at the origin", 0), ("at the edge", 14)] {
            let input = Input::new(MOVED, size, isot);
            let name = format!("tile {which}, header of {size} bytes");
            row(&name, &input, ours, plain);
        }
    }
}
