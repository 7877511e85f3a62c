//! The benchmark, beside plain Rust of the same rules, as the original has no such function: headers of
//! few and many segments, delimiters and TLM, asked for a marker that is there and for one that isn't.

use probe::host;

use crate::bench::{row, Benchmark};
use crate::functions::plain::{self, PLAIN};
use crate::model::header::NO_SUCH_MARKER;
use crate::sample::codestream::{COM, EPH, PPM, SOT, TLM};
use crate::sample::headers::{delimiters, segments};
use crate::sample::{opened, sample_a, tlms};
use crate::wanted;

pub const BENCHMARK: Benchmark = Benchmark {
    name: wanted::FIND_MARKER.name,
    beside: PLAIN,
    rows,
};

struct Input {
    codestream: Vec<u8>,
    marker: u16,
}

/// The place, or that there is none; nothing where it is refused.
fn ours(input: &Input) -> Option<Option<u64>> {
    let mut place = 0;
    match host::find_marker(&input.codestream, input.marker, &mut place) {
        0 => Some(Some(place)),
        NO_SUCH_MARKER => Some(None),
        _ => None,
    }
}

fn plain(input: &Input) -> Option<Option<u64>> {
    plain::find_marker(&input.codestream, input.marker)
}

fn rows() {
    let measure = |name: &str, codestream, marker| {
        row(name, &Input { codestream, marker }, ours, plain);
    };
    measure("sample A, TLM", sample_a(), TLM);
    measure("sample A, no PPM", sample_a(), PPM);
    for (name, count, body) in [
        ("10 segments", 10, &[0; 12][..]),
        ("1,000 segments of 16 bytes", 1_000, &[0; 12]),
        ("16,000 segments of L = 2", 16_000, &[]),
    ] {
        let header = || segments(opened(), count, body);
        measure(&format!("{name}, the third"), header(), COM);
        measure(&format!("{name}, no PPM"), header(), PPM);
    }
    let header = delimiters(opened(), EPH, 30_000);
    measure("30,000 delimiters, no PPM", header, PPM);
    let header = tlms::many(1_000, 10, 0x60);
    measure("1,000 TLM of 10 entries, no PPM", header, PPM);
    let mut longest = opened();
    longest.pad_to(1 << 20).marker(SOT);
    measure("SOT at 1 MB, longest segments, no PPM", longest.bytes, PPM);
}
