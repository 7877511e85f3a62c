//! The comparison: answer, offset, and on Truncated that the caller's number is left alone.

use original::markers::{main_header_extent, MainHeaderExtent};
use probe::host;

use super::cases::payloads;
use crate::caught::caught;
use crate::compare::{self, Comparison};
use crate::sample::codestream::{Codestream, COM, SOC, SOT};
use crate::sample::headers;
use crate::sample::short::each_behind;
use crate::sample::{padded, prefixes, sample_a, TELLING};
use crate::tally::hex;
use crate::wanted::{self, COMPLETE, TRUNCATED};

type Original = fn(&[u8]) -> MainHeaderExtent;
type Run = compare::Run<Original>;

pub const COMPARISON: Comparison<Original> = Comparison {
    wanted: wanted::EXTENT,
    also: &[],
    minimum: 2_000_000,
    original: main_header_extent,
    fixed,
    random: Some(random),
};

fn fixed(run: &mut Run) {
    short_strings(run);
    for prefix in prefixes(&sample_a()) {
        check(run, &prefix);
    }
    run.each(payloads, |run, payload| check(run, payload));
    around_65_536(run);
    far_out(run);
}

/// The archive's status and the number it was lent, as it stands after the call.
#[derive(Debug, PartialEq)]
struct Answer {
    status: u32,
    value: u64,
}

fn check(run: &mut Run, prefix: &[u8]) {
    let lent = run.random.number();
    let mut value = lent;
    let status = host::main_header_extent(prefix, &mut value);
    let ours = Answer { status, value };

    let answer = |status, value| Some(Answer { status, value });
    let (kind, original) = match caught(|| (run.original)(prefix)) {
        Some(MainHeaderExtent::Complete(at)) => (COMPLETE, answer(1, at as u64)),
        Some(MainHeaderExtent::Truncated) => (TRUNCATED, answer(0, lent)),
        None => ("panicked", None),
    };
    let tally = &mut run.tally;
    tally.compare_caught(kind, &ours, original, || hex(prefix));
}

/// Alone, after SOC, after a segment, after an odd delimiter, and as a length's low byte and on.
fn short_strings(run: &mut Run) {
    const FRONTS: [(&[u8], usize); 5] = [
        (&[], 3),
        (&[0xFF, 0x4F], 6),
        (&[0xFF, 0x4F, 0xFF, 0x64, 0x00, 0x03, 0xFF], 5),
        (&[0xFF, 0x4F, 0x00, 0x30], 5),
        (&[0xFF, 0x4F, 0xFF, 0x64, 0x00], 5),
    ];
    each_behind(&FRONTS, &TELLING, |bytes| check(run, bytes));
}

/// A first SOT before, at and past 65,535 and 65,536, by one long segment or many short ones, and
/// prefixes cut before, at and past these lengths and the SOT.
fn around_65_536(run: &mut Run) {
    for at in 65_524..=65_548 {
        let mut many_short = Codestream::default();
        many_short.soc();
        while many_short.bytes.len() + 8 <= at {
            many_short.segment(COM, &[]);
        }
        many_short.pad_to(at).marker(SOT);
        for built in [padded(at), many_short.bytes] {
            check(run, &built);
            for cut in (65_530..=65_542).chain(at - 2..=at + 2) {
                check(run, &built[..cut.min(built.len())]);
            }
        }
    }
}

/// Offsets that need more than 16 bits, and segments of the greatest length.
fn far_out(run: &mut Run) {
    for at in [65_539, 131_071, 131_072, 131_076, 200_000, 1 << 20] {
        let built = padded(at);
        for cut in [0, 1, 2, 3, 4, 65_535] {
            check(run, &built[..built.len() - cut]);
        }
    }
}

fn random(run: &mut Run) {
    let built = headers::codestream(&mut run.random);
    check(run, &built);
    run.cut(8, &built, check);
    run.damaged(16, &built, check);
    let mut telling = SOC.to_be_bytes().to_vec();
    for _ in 0..run.random.below(64) {
        telling.push(run.random.pick(&TELLING));
    }
    check(run, &telling);
}
