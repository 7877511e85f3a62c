//! The benchmark: headers of few and many, short and long segments.

use original::markers::{self, MainHeaderExtent};
use probe::host;

use crate::bench::{row, Benchmark, ORIGINAL};
use crate::sample::codestream::{Codestream, EPH};
use crate::sample::headers::{delimiters, segments};
use crate::sample::{padded, sample_a, SAMPLE_A_FIRST_SOT};
use crate::wanted;

pub const BENCHMARK: Benchmark = Benchmark {
    name: wanted::EXTENT.name,
    beside: ORIGINAL,
    rows,
};

fn ours(prefix: &[u8]) -> Option<u64> {
    let mut at = 0;
    let complete = host::main_header_extent(prefix, &mut at) == 1;
    complete.then_some(at)
}

fn original(prefix: &[u8]) -> Option<u64> {
    match markers::main_header_extent(prefix) {
        MainHeaderExtent::Complete(at) => Some(at as u64),
        MainHeaderExtent::Truncated => None,
    }
}

fn rows() {
    let sample = sample_a();
    let measure = |name, prefix: &[u8]| row(name, prefix, ours, original);
    measure("sample A", &sample);
    measure("sample A, cut in its SOT", &sample[..=SAMPLE_A_FIRST_SOT]);
    let soc = || {
        let mut built = Codestream::default();
        built.soc();
        built
    };
    measure("10 segments", &segments(soc(), 10, &[0; 12]));
    let thousand = segments(soc(), 1000, &[0; 12]);
    measure("1,000 segments of 16 bytes", &thousand);
    measure("16,000 segments of L = 2", &segments(soc(), 16_000, &[]));
    measure("30,000 delimiters", &delimiters(soc(), EPH, 30_000));
    measure("SOT at 1 MB, longest segments", &padded(1 << 20));
}
