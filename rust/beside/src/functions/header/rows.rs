//! The benchmark: headers of one and many TLM segments, and of few and many fillers, which the original
//! passes too and does not count. Entries are
//! numbered as the original does, from 0 in each segment, or on over the segments. In the newer edition
//! ours looks for CAP too, which the original passes over: beside ours stands the original with a walk
//! behind it that looks for CAP, in plain Rust. The table and the output that ours is lent are not
//! cleared between calls; the original allocates its own.

use std::cell::RefCell;

use probe::host;

use crate::bench::{row, Benchmark, ORIGINAL};
use crate::model::header::{is_delimiter, parse_main_header, Header, Reading};
use crate::model::ROW;
use crate::readings;
use crate::sample::codestream::{Codestream, CAP, SOT};
use crate::sample::{caps, fillers, sample_a, tlms};
use crate::wanted;

pub const BENCHMARK: Benchmark = Benchmark {
    name: wanted::HEADER.name,
    beside: ORIGINAL,
    rows,
};

struct Input {
    codestream: Vec<u8>,
    table: RefCell<Vec<u8>>,
    out: RefCell<Vec<u8>>,
}

impl Input {
    fn of(codestream: Vec<u8>) -> Self {
        let Header {
            entries,
            decode_header,
            ..
        } = parse_main_header(&codestream, Reading::DEFAULT)
            .expect("a header to be timed is sound");
        Input {
            codestream,
            table: vec![0; ROW * entries.len()].into(),
            out: vec![0; decode_header.len()].into(),
        }
    }
}

/// First SOT, the decode header's length, entries: the numbers that the original has too.
fn ours(input: &Input) -> Option<[u64; 3]> {
    by_reading(input, readings::ORIGINAL)
}

fn carried_on(input: &Input) -> Option<[u64; 3]> {
    by_reading(input, readings::DEFAULT)
}

fn newer(input: &Input) -> Option<[u64; 3]> {
    by_reading(input, readings::IN_NEWER)
}

fn by_reading(input: &Input, reading: host::Reading) -> Option<[u64; 3]> {
    let mut values = [0; 4];
    let (mut table, mut out) = (input.table.borrow_mut(), input.out.borrow_mut());
    let codestream = &input.codestream;
    let status =
        host::parse_main_header_by_reading(codestream, reading, &mut table, &mut out, &mut values);
    shared(status, values)
}

fn shared(status: u32, [first_sot, decode_length, entries, _]: [u64; 4]) -> Option<[u64; 3]> {
    (status == 0).then_some([first_sot, decode_length, entries])
}

fn theirs(input: &Input) -> Option<[u64; 3]> {
    let told = original::markers::parse_main_header(&input.codestream).ok()?;
    let entries = told.tlm_offset_table.map_or(0, |table| table.len());
    Some([
        told.first_sot_offset,
        told.decode_header.len() as u64,
        entries as u64,
    ])
}

/// The original, and behind it what the newer edition asks of CAP.
fn theirs_newer(input: &Input) -> Option<[u64; 3]> {
    let told = theirs(input)?;
    cap_stands(&input.codestream, told[0] as usize)?.then_some(told)
}

/// Of a header that ends there.
fn cap_stands(codestream: &[u8], end: usize) -> Option<bool> {
    let bytes = |at: usize, size| codestream.get(at..)?.get(..size);
    let number = |at| Some(u16::from_be_bytes(bytes(at, 2)?.try_into().ok()?));
    let announced = number(6)? & 0x4000 != 0;
    let (mut at, mut cap) = (2, None);
    while at < end {
        let marker = number(at)?;
        if marker == CAP && (!announced || cap.replace(at).is_some()) {
            return Some(false);
        }
        at += match is_delimiter(marker) {
            true => 2,
            false => 2 + usize::from(number(at + 2)?),
        };
    }
    let Some(cap) = cap else {
        return Some(!announced);
    };
    let length = u32::from(number(cap + 2)?);
    if length < 6 {
        return Some(false);
    }
    let bits = u32::from_be_bytes(bytes(cap + 4, 4)?.try_into().ok()?);
    Some(length == 6 + 2 * bits.count_ones())
}

fn rows() {
    let measure = |name, codestream| row(name, &Input::of(codestream), ours, theirs);
    measure("sample A", sample_a());
    measure("no TLM, SOT at 1 MB", padded(1 << 20));
    measure("10 TLM of 100 entries", tlms::many(10, 100, 0x50));
    measure("1,000 TLM of 10 entries", tlms::many(1000, 10, 0x60));
    measure("1 TLM of 10,000 entries", tlms::many(1, 10_000, 0x60));
    measure("1 TLM of 32,765 entries", tlms::many(1, 32_765, 0x00));
    measure("100 TLM of 10,000 entries", tlms::many(100, 10_000, 0x60));
    measure("no TLM, SOT at 4 MB", padded(1 << 22));
    measure("10 fillers", fillers::many(10));
    measure("1,000 fillers", fillers::many(1_000));
    measure("100,000 fillers", fillers::many(100_000));
    let numbered = |name, codestream| row(name, &Input::of(codestream), carried_on, theirs);
    numbered("10 TLM of 1, carried on", tlms::many(10, 1, 0x00));
    numbered("1,000 TLM of 1, carried on", tlms::many(1_000, 1, 0x00));
    numbered("1,000 TLM of 65, carried on", tlms::many(1_000, 65, 0x00));
    numbered(
        "100,000 indexed TLM of 1, carried on",
        tlms::many(100_000, 1, 0x60),
    );
    numbered(
        "100 TLM of 10,000 indexed, carried on",
        tlms::many(100, 10_000, 0x60),
    );
    for (name, segments) in [("10", 5), ("1,000", 500), ("100,000", 50_000)] {
        let input = Input::of(caps::among(segments));
        row(
            &format!("CAP among {name} segments, older"),
            &input,
            ours,
            theirs,
        );
        row(
            &format!("CAP among {name} segments, newer"),
            &input,
            newer,
            theirs_newer,
        );
    }
}

fn padded(first_sot: usize) -> Vec<u8> {
    let mut built: Codestream = crate::sample::opened();
    built.pad_to(first_sot).marker(SOT);
    built.bytes
}
