//! The benchmark: a tile of many parts, each copied out. Asked for part k by number ours walks k steps
//! to it, so all parts of a tile take steps by the square, and as many steps as parts by position; the
//! first alone is timed too. The output is not cleared between calls.

use std::cell::RefCell;

use original::markers::split_tile_parts;
use probe::host;

use crate::bench::{row, Benchmark, ORIGINAL};
use crate::sample::parts;
use crate::wanted;

pub const BENCHMARK: Benchmark = Benchmark {
    name: wanted::SPLIT.name,
    beside: ORIGINAL,
    rows,
};

struct Input {
    tile: Vec<u8>,
    out: RefCell<Vec<u8>>,
}

/// Count, and the lengths of the first `most` parts, summed.
fn ours(input: &Input, most: u64) -> (u64, u64) {
    let mut out = input.out.borrow_mut();
    let count = host::split_count(&input.tile);
    let length = |k| {
        let mut length = 0;
        host::split_part(&input.tile, k, &mut out, &mut length);
        length
    };
    (count, (0..count.min(most)).map(length).sum())
}

/// The same of all parts, by position.
fn walked(input: &Input) -> (u64, u64) {
    let mut out = input.out.borrow_mut();
    let (mut count, mut at, mut length) = (0, 0, 0);
    while host::split_at(&input.tile, at, &mut out, &mut length) == 0 && length > 0 {
        count += 1;
        at += length;
    }
    (count, at)
}

fn theirs(input: &Input, most: usize) -> (u64, u64) {
    let mut out = input.out.borrow_mut();
    let parts = split_tile_parts(&input.tile);
    let length = |part: &&[u8]| {
        out[..part.len()].copy_from_slice(part);
        part.len() as u64
    };
    let sum = parts.iter().take(most).map(length).sum();
    (parts.len() as u64, sum)
}

fn rows() {
    for (count, size) in [(16, 4096), (1000, 64)] {
        let input = Input {
            tile: parts::many(count, size),
            out: vec![0; size].into(),
        };
        let name = |which| format!("{count} parts of {size} bytes, {which}");
        let all = name("count and all parts");
        row(
            &all,
            &input,
            |of| ours(of, u64::MAX),
            |of| theirs(of, usize::MAX),
        );
        let by_position = name("all parts by position");
        row(&by_position, &input, walked, |of| theirs(of, usize::MAX));
        let first = name("count and the first part");
        row(&first, &input, |of| ours(of, 1), |of| theirs(of, 1));
    }
}
