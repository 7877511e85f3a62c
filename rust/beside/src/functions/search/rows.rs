//! The benchmark: few and many boxes. The original reads each box through a buffer's copying calls;
//! their stand-in here is made once, before the time is taken.

use original::buffer::OwnedBuffer;
use original::reader;
use probe::host;

use crate::bench::{row, Benchmark, ORIGINAL};
use crate::sample::boxes;
use crate::wanted;

pub const BENCHMARK: Benchmark = Benchmark {
    name: wanted::SEARCH.name,
    beside: ORIGINAL,
    rows,
};

struct Input {
    file: Vec<u8>,
    buffer: OwnedBuffer,
}

fn ours(input: &Input) -> Option<u64> {
    let mut values = [0; 2];
    match host::find_codestream(&input.file, &mut values) {
        0 => Some(values[0]),
        _ => None,
    }
}

fn theirs(input: &Input) -> Option<u64> {
    let range = reader::find_codestream(&input.buffer)?;
    Some(range.start as u64)
}

fn rows() {
    for (count, size) in [(0, 0), (10, 32), (10_000, 0), (10_000, 4096)] {
        let file = boxes::many(count, &vec![0; size]);
        let buffer = OwnedBuffer::resident(file.clone());
        let name = format!("{count} boxes of {size} bytes before jp2c");
        row(&name, &Input { file, buffer }, ours, theirs);
    }
}
