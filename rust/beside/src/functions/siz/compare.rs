//! The comparison: all five numbers, refusals.

use probe::host;

use super::cases::{payloads, stops};
use super::original;
use crate::compare::{self, Comparison};
use crate::judge::{Case, Told};
use crate::lent::Lent;
use crate::model::reader::{parse_siz_marker, Size};
use crate::model::Refusal;
use crate::sample::codestream::SOC;
use crate::sample::headers;
use crate::sample::sample_a;
use crate::sample::short::each_behind;
use crate::sample::sizes::header_and_index;
use crate::tally::hex;
use crate::wanted;

type Original = fn(&[u8]) -> Option<Size>;
type Run = compare::Run<Original>;

pub const COMPARISON: Comparison<Original> = Comparison {
    wanted: wanted::SIZ,
    also: &[],
    minimum: 1_000_000,
    original,
    fixed,
    random: Some(random),
};

fn fixed(run: &mut Run) {
    run.each(payloads, |run, payload| check(run, payload));
    short_strings(run);
    every_ssiz(run);
}

fn check(run: &mut Run, codestream: &[u8]) {
    let before = Lent::preset(&mut run.random, []);
    let document = parse_siz_marker(codestream);
    let panics = document.as_ref().is_err_and(Refusal::is_its_panic);
    let case = Case {
        ours: before.left_by(|[], values| host::parse_siz_marker(codestream, values)),
        before,
        told: Told::by_or_panic(panics, || (run.original)(codestream)),
        document,
    };
    case.judge(&mut run.tally, || hex(codestream));
}

/// Behind SOC, as they are and with SIZ behind them.
fn short_strings(run: &mut Run) {
    const LETTERS: [u8; 9] = [0x00, 0x01, 0x02, 0x03, 0x4F, 0x50, 0x51, 0x52, 0xFF];
    let sample = sample_a();
    each_behind(&[(&SOC.to_be_bytes(), 5)], &LETTERS, |bytes| {
        check(run, bytes);
        check(run, &[bytes, &sample[2..45]].concat());
    });
    each_behind(&[(&[], 3)], &LETTERS, |bytes| check(run, bytes));
}

fn every_ssiz(run: &mut Run) {
    for stop in stops() {
        for ssiz in 0..=u8::MAX {
            let mut codestream = stop.clone();
            if let Some(place) = codestream.len().checked_sub(3) {
                codestream[place] = ssiz;
            }
            check(run, &codestream);
        }
    }
}

fn random(run: &mut Run) {
    let (header, _) = header_and_index(&mut run.random);
    let whole = headers::codestream(&mut run.random);
    for built in [header, whole] {
        check(run, &built);
        run.damaged(6, &built, check);
        let front = run.random.below(16);
        let before = run.random.bytes(front);
        check(
            run,
            &[
                &built[..built.len().min(2)],
                &before,
                built.get(2..).unwrap_or(&[]),
            ]
            .concat(),
        );
    }
}
