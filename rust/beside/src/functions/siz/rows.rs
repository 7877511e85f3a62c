//! The benchmark: SIZ at once, and behind much else.

use probe::host;

use super::original;
use crate::bench::{row, Benchmark, ORIGINAL};
use crate::model::reader::Size;
use crate::sample::codestream::{Codestream, COM};
use crate::sample::sample_a;
use crate::wanted;

pub const BENCHMARK: Benchmark = Benchmark {
    name: wanted::SIZ.name,
    beside: ORIGINAL,
    rows,
};

fn ours(codestream: &[u8]) -> Option<Size> {
    let mut values = [0; 5];
    match host::parse_siz_marker(codestream, &mut values) {
        0 => Some(values),
        _ => None,
    }
}

fn rows() {
    let measure = |name, codestream: &[u8]| row(name, codestream, ours, original);
    let siz = &sample_a()[2..45];
    measure("sample A", &sample_a());
    let mut segments = Codestream::default();
    segments.soc();
    for _ in 0..1000 {
        segments.segment(COM, &[0; 12]);
    }
    measure("behind 1,000 segments", &segments.raw(siz).bytes);
    let mut zeros = Codestream::default();
    zeros.soc().raw(&[0; 10_000]).raw(siz);
    measure("behind 10,000 bytes of 0", &zeros.bytes);
}
