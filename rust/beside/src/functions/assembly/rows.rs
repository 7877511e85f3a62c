//! The benchmarks: tiles of one part and of many, by the original's rule beside the original, and
//! by Annex B's and in place beside plain Rust. The output that is lent is not cleared between calls; the
//! original allocates its own.

use std::cell::RefCell;

use original::markers;
use probe::host;

use super::compare::built;
use crate::bench::{row, Benchmark, ORIGINAL};
use crate::functions::plain::{self, PLAIN};
use crate::sample::parts;
use crate::sample::sizes::{header, Fields, MOVED, SAMPLE_A};
use crate::sample::tiles::Input;
use crate::wanted;

pub const BENCHMARK: Benchmark = Benchmark {
    name: wanted::ASSEMBLY_BY_ORIGINAL.name,
    beside: ORIGINAL,
    rows,
};

pub const BENCHMARK_OF_ANNEX_B: Benchmark = Benchmark {
    name: wanted::ASSEMBLY.name,
    beside: PLAIN,
    rows: || beside_plain(|timed| timed.built(None), |timed| timed.plain(plain::moved)),
};

pub const BENCHMARK_IN_PLACE: Benchmark = Benchmark {
    name: wanted::ASSEMBLY_IN_PLACE.name,
    beside: PLAIN,
    rows: || {
        beside_plain(
            |timed| timed.built(Some(host::IN_PLACE)),
            |timed| timed.plain(plain::in_place),
        )
    },
};

struct Timed {
    input: Input,
    rows: Vec<u8>,
    out: RefCell<Vec<u8>>,
}

impl Timed {
    /// So many parts of this size.
    fn new(fields: Fields, count: usize, size: usize) -> Self {
        let range = |k: usize| ((k * size) as u64, size as u64);
        let input = Input {
            header: header(fields),
            ranges: (0..count).map(range).collect(),
            codestream: parts::many(count, size),
        };
        Timed {
            rows: input.rows(0),
            out: vec![0; input.needed()].into(),
            input,
        }
    }

    fn built(&self, rule: Option<u32>) -> Option<u64> {
        let Input {
            header, codestream, ..
        } = &self.input;
        let (mut out, mut size) = (self.out.borrow_mut(), 0);
        match built(rule, header, &self.rows, codestream, &mut out, &mut size) {
            0 => Some(size),
            _ => None,
        }
    }

    fn plain(&self, fields: impl plain::Fields) -> Option<u64> {
        let Input {
            header, codestream, ..
        } = &self.input;
        let mut out = self.out.borrow_mut();
        plain::build(header, &self.rows, codestream, fields, &mut out)
    }
}

fn ours_by_original(timed: &Timed) -> Option<u64> {
    timed.built(Some(host::ORIGINAL))
}

fn theirs(timed: &Timed) -> Option<u64> {
    let Input {
        header,
        ranges,
        codestream,
    } = &timed.input;
    let built = markers::build_minimal_codestream(header, ranges, codestream);
    Some(built.len() as u64)
}

/// As many bytes, copied from one place to another and nothing else.
fn copied(timed: &Timed) -> Option<u64> {
    let mut out = timed.out.borrow_mut();
    let whole = &timed.input.codestream;
    out[..whole.len()].copy_from_slice(whole);
    Some(out.len() as u64)
}

fn rows() {
    for (count, size) in [
        (1, 14),
        (1, 1 << 10),
        (16, 1 << 16),
        (1, 1 << 20),
        (1_000, 1_049),
        (1, 1 << 26),
        (1_000, 67_109),
    ] {
        let timed = Timed::new(SAMPLE_A, count, size);
        let name = format!("{count} parts of {size} bytes");
        row(&name, &timed, ours_by_original, theirs);
        row(
            &format!("{name}, beside a plain copy"),
            &timed,
            ours_by_original,
            copied,
        );
    }
}

fn beside_plain(ours: fn(&Timed) -> Option<u64>, plain: fn(&Timed) -> Option<u64>) {
    for (count, size) in [
        (1, 14),
        (10, 64),
        (1_000, 64),
        (100_000, 64),
        (16, 1 << 16),
        (1, 1 << 26),
    ] {
        let timed = Timed::new(MOVED, count, size);
        row(
            &format!("{count} parts of {size} bytes"),
            &timed,
            ours,
            plain,
        );
    }
}
