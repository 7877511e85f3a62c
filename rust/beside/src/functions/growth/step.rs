//! The comparison of one step.

use original::reader;
use probe::host;

use super::cases::{pair, pairs};
use crate::caught::caught;
use crate::compare::{self, Comparison};
use crate::model;
use crate::wanted;

type Original = fn(usize, usize) -> usize;
type Run = compare::Run<Original>;

pub const COMPARISON: Comparison<Original> = Comparison {
    wanted: wanted::NEXT_REGION,
    also: &[],
    minimum: 1_000_000,
    original: reader::next_region,
    fixed,
    random: Some(random),
};

fn fixed(run: &mut Run) {
    run.each(pairs, |run, pair| check(run, *pair));
}

fn random(run: &mut Run) {
    for _ in 0..1000 {
        let pair = pair(&mut run.random);
        check(run, pair);
    }
}

fn check(run: &mut Run, (region, length): (u64, u64)) {
    let ours = host::next_region(region, length);
    let document = model::reader::next_region(region, length);
    let original = caught(|| (run.original)(region as usize, length as usize) as u64);
    let label = wanted::next_region(document == length);
    let input = || format!("region {region}, length {length}");
    let tally = &mut run.tally;
    let original = original.map(|told| (told, told));
    tally.compare_caught(label, &(ours, document), original, input);
}
