//! What a tile's codestream is built from: a header, ranges of tile-parts, and the codestream.

use super::codestream::Codestream;
use super::parts::{sot, tile_parts};
use super::sizes::{header, header_and_index, MOVED, SAMPLE_A};
use super::{sample_a, SAMPLE_A_FIRST_SOT};
use crate::model::tile::{kept, needed};
use crate::model::{rows, Range, ROW};
use crate::random::Random;

#[derive(Clone)]
pub struct Input {
    pub header: Vec<u8>,
    pub ranges: Vec<Range>,
    pub codestream: Vec<u8>,
}

impl Input {
    /// The ranges as rows; the index is `filler`, as nobody is to read it.
    pub fn rows(&self, filler: u16) -> Vec<u8> {
        rows_of_ranges(&self.ranges, filler)
    }

    /// The same with any index and numbers, and a part of a row behind them, which is none.
    pub fn rows_and_more(&self, random: &mut Random) -> Vec<u8> {
        let mut rows = self.rows(random.number() as u16);
        for row in rows.as_chunks_mut::<ROW>().0 {
            row[18..].copy_from_slice(&random.bytes(3));
        }
        let partial = random.below(ROW);
        rows.extend(random.fill(partial));
        rows
    }

    /// Bytes of output, if the assembly isn't refused.
    pub fn needed(&self) -> usize {
        let parts = kept(&self.ranges, &self.codestream);
        needed(&self.header, &parts) as usize
    }
}

pub fn rows_of_ranges(ranges: &[Range], index: u16) -> Vec<u8> {
    let entry = |&(offset, length): &Range| (index, offset, length);
    rows(&ranges.iter().map(entry).collect::<Vec<_>>())
}

/// The parts one behind the other, and a row for each.
pub fn joined(parts: &[&[u8]]) -> (Vec<u8>, Vec<u8>) {
    let mut end = 0;
    let place = |part: &&[u8]| {
        let (offset, length) = (end, part.len() as u64);
        end += length;
        (offset, length)
    };
    let ranges: Vec<_> = parts.iter().map(place).collect();
    (parts.concat(), rows_of_ranges(&ranges, 0))
}

pub fn inputs(random: &mut Random) -> Vec<Input> {
    let mut inputs = on_sample_a();
    inputs.extend((0..400).map(|_| random_input(random)));
    inputs
}

/// Tiles of a grid whose tile and image origin differ, and those behind it.
pub fn inputs_of_annex_b(random: &mut Random) -> Vec<Input> {
    let mut inputs = Vec::new();
    for isot in (0..18).chain([255, 65_535]) {
        let part = [&sot(isot, 14)[..], &[0xFF, 0x93]].concat();
        inputs.push(Input {
            header: header(MOVED),
            ranges: vec![(0, 14), (0, 12), (0, 15), (0, 6)],
            codestream: part,
        });
    }
    for range in edges() {
        inputs.push(Input {
            header: header(MOVED),
            ranges: vec![range, (71, 16)],
            codestream: sample_a(),
        });
    }
    inputs.extend((0..320).map(|_| random_input(random)));
    inputs
}

/// Pairs of ranges at every edge of sample A and its parts.
fn on_sample_a() -> Vec<Input> {
    let input = |ranges: &[Range]| Input {
        header: header(SAMPLE_A),
        ranges: ranges.to_vec(),
        codestream: sample_a(),
    };
    let mut inputs = vec![input(&[])];
    for first in edges() {
        inputs.push(input(&[first]));
        for second in edges() {
            inputs.push(input(&[first, second]));
        }
    }
    inputs
}

/// At every edge of sample A and its parts.
fn edges() -> [Range; 20] {
    let end = sample_a().len() as u64;
    let first_sot = SAMPLE_A_FIRST_SOT as u64;
    [
        (first_sot, 14),
        (71, 16),
        (first_sot, 5),
        (first_sot, 6),
        (71, 6),
        (71, 5),
        (72, 15),
        (0, 0),
        (0, end),
        (0, end + 1),
        (end, 0),
        (end - 1, 1),
        (end - 1, 2),
        (end + 1, 0),
        (1 << 32, 0),
        ((1 << 32) + 71, 16),
        (71, (1 << 32) + 16),
        (u64::MAX, 0),
        (0, u64::MAX),
        (u64::MAX - 14, 14),
    ]
}

/// Parts of a tile or of several, whole or not, and ranges that mostly have to do with them.
pub fn random_input(random: &mut Random) -> Input {
    let (header, isot) = header_and_index(random);
    let mut built = Codestream::default();
    let before = random.below(8);
    built.raw(&random.bytes(before));
    let mut starts = Vec::new();
    for _ in 0..random.below(4) {
        starts.push(built.bytes.len() as u64);
        let body = random.below(8);
        let psot = 12 + body as u32;
        built.raw(&sot(isot, psot)).raw(&random.bytes(body));
    }
    starts.push(built.bytes.len() as u64);
    built.raw(&tile_parts(random));
    let codestream = built.bytes;
    let ranges = (0..random.below(5))
        .map(|_| range(random, &starts, codestream.len() as u64))
        .collect();
    Input {
        header,
        ranges,
        codestream,
    }
}

fn range(random: &mut Random, starts: &[u64], end: u64) -> Range {
    let start = random.pick(starts);
    let near = random.below(3) as u64;
    match random.below(16) {
        0..=6 => (start, random.below(24) as u64),
        7 => (start, 0),
        8 => (start, (end - start).saturating_add(near).saturating_sub(1)),
        9 => ((end + near).saturating_sub(1), near),
        10 => (start, (end - start) / 2),
        11 => (u64::MAX - start, start + near),
        12 => (start, u64::MAX - start.saturating_sub(near)),
        13 => (start + (1 << 32), near),
        14 => (random.spread(), random.spread()),
        _ => (
            random.below(end as usize + 1) as u64,
            random.below(12) as u64,
        ),
    }
}
