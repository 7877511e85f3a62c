//! The comparison: the count, and every part byte for byte, up to two past the last. By position: the
//! walk from part to part, and what stands at each of its positions, elsewhere and past the end.

use original::markers::split_tile_parts as original;
use probe::host;

use super::cases::payloads;
use crate::caught::{caught, PANICKED};
use crate::compare::{self, Comparison};
use crate::functions::part::Part;
use crate::judge::Told;
use crate::model::parts::split_tile_parts;
use crate::model::ACCEPTED;
use crate::random::Random;
use crate::sample::parts;
use crate::sample::short::each_behind;
use crate::tally::{hex, Tally};
use crate::wanted::{self, COUNT, WALK};

type Original = fn(&[u8]) -> Vec<&[u8]>;
type Run = compare::Run<Original>;

pub const COMPARISON: Comparison<Original> = Comparison {
    wanted: wanted::SPLIT,
    also: &[wanted::SPLIT_BY_POSITION],
    minimum: 1_000_000,
    original,
    fixed,
    random: Some(random),
};

fn fixed(run: &mut Run) {
    run.each(payloads, |run, payload| check(run, payload));
    short_strings(run);
    check(run, &parts::many(300, 40));
}

fn check(run: &mut Run, tile: &[u8]) {
    let document = split_tile_parts(tile);
    let told = caught(|| (run.original)(tile));
    by_number(run, tile, told.as_deref(), &document);
    by_position(run, tile, told.as_deref(), &document);
}

fn by_number(run: &mut Run, tile: &[u8], told: Option<&[&[u8]]>, document: &[&[u8]]) {
    let ours = (host::split_count(tile), document);
    let original = told.map(|told| (told.len() as u64, told));
    let tally = &mut run.tally;
    tally.compare_caught(COUNT, &ours, original, || hex(tile));
    let far = run.random.spread();
    let count = document.len() as u64;
    for k in (0..=count + 1).chain([far, far << 32]) {
        let at = usize::try_from(k).unwrap_or(usize::MAX);
        let part = |parts: &[&[u8]]| parts.get(at).map_or(Vec::new(), |part| part.to_vec());
        let asked = Asked {
            split: host::split_part,
            tile,
            which: k,
            told: told.map_or(Told::Amiss(PANICKED), |told| Told::Accepted(part(told))),
            part: part(document),
        };
        asked.check(&mut run.random, &mut run.tally);
    }
}

/// What stands at a position is the first part of the tile from there on.
fn by_position(run: &mut Run, tile: &[u8], told: Option<&[&[u8]]>, document: &[&[u8]]) {
    let tally = &mut run.also[0];
    let walked = walked(tile);
    let ours = (walked.iter().map(Vec::as_slice).collect(), document);
    let original = told.map(|told| (told.to_vec(), told));
    tally.compare_caught(WALK, &ours, original, || hex(tile));
    let mut positions = vec![0];
    for part in document {
        positions.push(positions[positions.len() - 1] + part.len() as u64);
    }
    let end = tile.len() as u64;
    let anywhere = [(); 2].map(|()| run.random.below(tile.len() + 1) as u64);
    let far = run.random.spread();
    positions.extend(anywhere);
    positions.extend([end, end + 1, far, far << 32, u64::MAX]);
    for at in positions {
        let from = usize::try_from(at).ok().and_then(|at| tile.get(at..));
        let from = from.unwrap_or_default();
        let first = |parts: Vec<&[u8]>| parts.first().map_or(Vec::new(), |part| part.to_vec());
        let asked = Asked {
            split: host::split_at,
            tile,
            which: at,
            told: Told::by(|| Some(first((run.original)(from)))),
            part: first(split_tile_parts(from)),
        };
        asked.check(&mut run.random, tally);
    }
}

/// From 0 on, each where the one before ends.
fn walked(tile: &[u8]) -> Vec<Vec<u8>> {
    let mut out = vec![0; tile.len()];
    let (mut parts, mut at, mut length) = (Vec::new(), 0, 0);
    while host::split_at(tile, at, &mut out, &mut length) == 0 && length > 0 {
        parts.push(out[..length as usize].to_vec());
        at += length;
    }
    parts
}

/// A part that is asked for by its number or its position, and what it is to be.
struct Asked<'a> {
    split: fn(&[u8], u64, &mut [u8], &mut u64) -> u32,
    tile: &'a [u8],
    which: u64,
    told: Told<Vec<u8>>,
    part: Vec<u8>,
}

impl Asked<'_> {
    fn check(self, random: &mut Random, tally: &mut Tally) {
        let Asked {
            split, tile, which, ..
        } = self;
        let part = Part {
            told: self.told,
            document: self.part,
            label: ACCEPTED,
        };
        part.check(
            random,
            tally,
            |out, value| split(tile, which, out, value),
            || format!("{}, asked for {which}", hex(tile)),
        );
    }
}

/// In place of the first part's fields, and behind it.
fn short_strings(run: &mut Run) {
    const LETTERS: [u8; 6] = [0x00, 0x01, 0x0C, 0x90, 0x91, 0xFF];
    let two = parts::many(2, 14);
    let fronts: [(&[u8], usize); 4] = [(&[], 4), (&two[..2], 4), (&two[..9], 4), (&two[..14], 4)];
    each_behind(&fronts, &LETTERS, |bytes| {
        check(run, bytes);
        check(run, &[bytes, &two[bytes.len().min(14)..]].concat());
    });
}

fn random(run: &mut Run) {
    let built = parts::tile_parts(&mut run.random);
    check(run, &built);
    run.cut(4, &built, check);
    run.damaged(8, &built, check);
}
