//! The comparison: the region reached and the enlargements, in codestreams of up to some megabytes.

use std::ops::Range;

use original::buffer::OwnedBuffer;
use original::reader;
use probe::host;

use crate::compare::{self, Comparison};
use crate::judge::{Case, Told};
use crate::lent::Lent;
use crate::model::header::main_header_extent;
use crate::model::reader::grow_header_region;
use crate::sample::codestream::{Codestream, COM, SOT};
use crate::sample::{headers, padded, sample_a};
use crate::wanted;

type Original = fn(&OwnedBuffer, Range<usize>) -> (usize, usize);
type Run = compare::Run<Original>;

pub const COMPARISON: Comparison<Original> = Comparison {
    wanted: wanted::GROWTH,
    also: &[],
    minimum: 1_000_000,
    original: reader::grow_header_region,
    fixed,
    random: Some(random),
};

const FIRST: usize = 65_536;
/// Doublings of the first region.
const DOUBLINGS: [usize; 7] = [1, 2, 4, 8, 16, 32, 64];
const LONGEST: usize = 64 * FIRST + 100;

fn fixed(run: &mut Run) {
    lengths_around_doublings(run, &sample_a());
    lengths_around_doublings(run, &[0xFF, 0x4F]);
    lengths_around_doublings(run, &[]);
    for doubled in DOUBLINGS {
        for at in [4, 3, 2, 1, 0].map(|before| doubled * FIRST - before) {
            lengths_around_doublings(run, &padded(at));
        }
        lengths_around_doublings(run, &padded(doubled * FIRST + 1));
    }
    lengths_around_doublings(run, &short_segments(3 * FIRST));
}

fn short_segments(at: usize) -> Vec<u8> {
    let mut built = Codestream::default();
    built.soc();
    while built.bytes.len() + 100 < at {
        built.segment(COM, &[3; 60]);
    }
    built.pad_to(at).marker(SOT);
    built.bytes
}

/// `front` and longest segments behind it, that end in nothing; as two buffers.
struct Source {
    bytes: Vec<u8>,
    remote: OwnedBuffer,
}

impl Source {
    fn of(front: &[u8], length: usize) -> Self {
        let mut bytes = front.to_vec();
        while bytes.len() < length {
            bytes.extend([0xFF, 0x64, 0xFF, 0xFF]);
            bytes.resize(bytes.len() + 65_533, 0xFF);
        }
        bytes.truncate(length);
        let remote = OwnedBuffer::remote(bytes.clone());
        Source { bytes, remote }
    }
}

fn lengths_around_doublings(run: &mut Run, front: &[u8]) {
    let source = Source::of(front, LONGEST);
    for length in 0..=100 {
        check(run, &source, 0, length);
    }
    for place in DOUBLINGS
        .map(|doubled| doubled * FIRST)
        .into_iter()
        .chain([front.len()])
    {
        for length in place.saturating_sub(4)..=place + 4 {
            check(run, &source, 0, length.min(LONGEST));
        }
    }
}

fn check(run: &mut Run, source: &Source, start: usize, length: usize) {
    let codestream = &source.bytes[start..start + length];
    let before = Lent::preset(&mut run.random, []);
    let told = Told::by(|| {
        let (region, tried) = (run.original)(&source.remote, start..start + length);
        Some((region as u64, tried as u64 - 1))
    });
    let is_complete = |region: u64| main_header_extent(&codestream[..region as usize]).is_some();
    let case = Case {
        ours: before.left_by(|[], values| host::grow_header_region(codestream, values)),
        before,
        told,
        document: Ok(grow_header_region(length as u64, is_complete)),
    };
    case.judge(&mut run.tally, || {
        let extent = main_header_extent(codestream);
        format!("{length} bytes from {start} on, first SOT {extent:?}")
    });
}

/// A random header at some place, in a file that goes on; many lengths of it.
fn random(run: &mut Run) {
    let start = run.random.below(3);
    let mut front = vec![0; start];
    match run.random.below(3) {
        0 => front.extend(headers::codestream(&mut run.random)),
        _ => {
            let far = run.random.below(5 * FIRST);
            front.extend(padded(6 + far));
        }
    }
    let source = Source::of(&front, 6 * FIRST);
    let most = source.bytes.len() - start;
    for _ in 0..4000 {
        let near = run.random.below(9);
        let length = match run.random.below(4) {
            0 => run.random.below(most),
            1 => front.len() - start + near,
            _ => (FIRST << run.random.below(3)) - 4 + near,
        };
        check(run, &source, start, length.min(most));
    }
}
