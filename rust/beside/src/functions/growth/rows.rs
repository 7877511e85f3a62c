//! The benchmark: headers that fit in the first region and that don't. The original's slices cost it
//! no copy here.

use original::buffer::OwnedBuffer;
use original::reader;
use probe::host;

use crate::bench::{row, Benchmark, ORIGINAL};
use crate::sample::{padded, sample_a};
use crate::wanted;

pub const BENCHMARK: Benchmark = Benchmark {
    name: wanted::GROWTH.name,
    beside: ORIGINAL,
    rows,
};

struct Input {
    codestream: Vec<u8>,
    remote: OwnedBuffer,
}

/// The region reached, and the enlargements.
fn ours(input: &Input) -> [u64; 2] {
    let mut values = [0; 2];
    host::grow_header_region(&input.codestream, &mut values);
    values
}

fn theirs(input: &Input) -> [u64; 2] {
    let whole = 0..input.codestream.len();
    let (region, tried) = reader::grow_header_region(&input.remote, whole);
    [region as u64, tried as u64 - 1]
}

fn rows() {
    let measure = |name, mut codestream: Vec<u8>| {
        codestream.resize(4 << 20, 0);
        let remote = OwnedBuffer::remote(codestream.clone());
        row(name, &Input { codestream, remote }, ours, theirs);
    };
    measure("sample A and 4 MB", sample_a());
    for (name, at) in [("SOT at 100,000", 100_000), ("SOT at 3,000,000", 3_000_000)] {
        measure(name, padded(at));
    }
}
