//! The comparison: start, length, refusals; and the codestream's bytes.

use probe::host;

use super::cases::payloads;
use super::original;
use crate::compare::{self, Comparison};
use crate::functions::part::Part;
use crate::judge::{Case, Leaves, Told};
use crate::lent::Lent;
use crate::model::reader::{find_codestream, JP2C, SIGNATURE};
use crate::model::{Range, Refusal};
use crate::sample::boxes::{self, extended, fitting, saying, FREE};
use crate::sample::damage::damaged;
use crate::sample::short::each_behind;
use crate::tally::hex;
use crate::wanted;

type Original = fn(&[u8]) -> Option<Range>;
type Run = compare::Run<Original>;

pub const COMPARISON: Comparison<Original> = Comparison {
    wanted: wanted::SEARCH,
    also: &[wanted::CODESTREAM],
    minimum: 1_000_000,
    original,
    fixed,
    random: Some(random),
};

fn fixed(run: &mut Run) {
    run.each(payloads, |run, payload| check(run, payload));
    short_strings(run);
    every_length(run);
    check(run, &boxes::many(2000, &[1; 9]));
}

impl Leaves<2, 0> for Range {
    fn leave(&self, before: Lent<2, 0>) -> Lent<2, 0> {
        before.accepted([self.0, self.1], [])
    }
}

fn check(run: &mut Run, file: &[u8]) {
    let document = find_codestream(file);
    let told = Told::by_or_panic(document.is_err_and(panics), || (run.original)(file));
    bytes(run, file, &told, document);
    let before = Lent::preset(&mut run.random, []);
    let case = Case {
        ours: before.left_by(|[], values| host::find_codestream(file, values)),
        before,
        told,
        document,
    };
    case.judge(&mut run.tally, || hex(file));
}

/// Near 2^64 too, where the original looks for a box's first 8 bytes.
fn panics(refusal: Refusal) -> bool {
    refusal.is_its_panic() || refusal.place.checked_add(8).is_none()
}

/// The range's part of the file; none where the search refuses.
fn bytes(run: &mut Run, file: &[u8], told: &Told<Range>, document: Result<Range, Refusal>) {
    let part = |(start, length): Range| file[start as usize..][..length as usize].to_vec();
    let part = Part {
        told: match (told, document) {
            (Told::Nothing, _) => Told::Nothing,
            (Told::Amiss(what), _) => Told::Amiss(what),
            (_, Err(refusal)) if refusal.is_ours_alone() => Told::Nothing,
            (Told::Accepted(range), _) => Told::Accepted(part(*range)),
            (Told::Refused, _) => Told::Accepted(Vec::new()),
        },
        document: document.map_or(Vec::new(), part),
        label: wanted::codestream(document.is_ok()),
    };
    part.check(
        &mut run.random,
        &mut run.also[0],
        |out, value| probe::codestream_of(file, out, value),
        || hex(file),
    );
}

/// Alone, and in place of the first box's length.
fn short_strings(run: &mut Run) {
    const LETTERS: [u8; 7] = [0x00, 0x01, 0x08, 0x10, 0x4F, 0x50, 0xFF];
    each_behind(&[(&[], 4)], &LETTERS, |bytes| {
        check(run, bytes);
        for kind in [JP2C, FREE] {
            let more = [1, 0, 0, 0, 0, 0, 0, 0x20, 1, 2, 3];
            check(run, &[&SIGNATURE, bytes, &kind, &more].concat());
        }
    });
}

/// Both forms with every length to 40, and with those whose end lies around 2^64 for a box that
/// stands at 12 and for one behind it.
fn every_length(run: &mut Run) {
    let near = (0..=60).map(|less| u64::MAX - less);
    for length in (0..=40).chain(near) {
        for kind in [JP2C, FREE] {
            for before in [0, 1, 2] {
                let front = [&SIGNATURE[..], &fitting(FREE, &[]).repeat(before)].concat();
                let behind = fitting(JP2C, &[1]);
                check(
                    run,
                    &[&front, &extended(kind, length, &[9; 6]), &behind[..]].concat(),
                );
                let short = saying(kind, length as u32, &[9; 6]);
                check(run, &[&front, &short, &behind[..]].concat());
            }
        }
    }
}

fn random(run: &mut Run) {
    let file = boxes::file(&mut run.random);
    check(run, &file);
    for _ in 0..6 {
        let damaged = damaged(&mut run.random, &file);
        check(run, &damaged);
        // The signature as it was: most damage to it is refused at once.
        let front = file.iter().take(SIGNATURE.len());
        let behind = damaged.iter().skip(SIGNATURE.len());
        check(run, &front.chain(behind).copied().collect::<Vec<_>>());
    }
}
