//! The comparison: where the marker stands, that there is none, refusals, and that the number lent then
//! stays. The original has no such function; its main header refuses what is refused here, and has SIZ
//! at 2, and that a TLM segment was left out of its decode header. The rest is the model's.

use probe::host;

use super::cases::asked;
use crate::compare::{self, Comparison};
use crate::functions::header::original;
use crate::judge::{Case, Leaves, Told};
use crate::lent::Lent;
use crate::model::header::{find_marker, Header, NO_SUCH_MARKER};
use crate::model::{Refusal, ACCEPTED};
use crate::sample::codestream::{PPM, SIZ, SOT, TLM};
use crate::sample::markers::{code, every_code, holding};
use crate::sample::short::each_behind;
use crate::sample::zeros::each_too_long;
use crate::sample::{headers, markers, opened, prefixes, tlms, TELLING};
use crate::tally::hex_of_front;
use crate::wanted::{self, NO_MARKER};

type Original = fn(&[u8]) -> Option<Header>;
type Run = compare::Run<Original>;

pub const COMPARISON: Comparison<Original> = Comparison {
    wanted: wanted::FIND_MARKER,
    also: &[],
    minimum: 1_000_000,
    original,
    fixed,
    random: Some(random),
};

fn fixed(run: &mut Run) {
    over_long_loans(run);
    run.each(asked, |run, (codestream, marker)| {
        check_for(run, codestream, &[*marker]);
    });
    for header in [markers::headers(), headers::stops(), tlms::one()].concat() {
        for prefix in prefixes(&header) {
            check_for(run, &prefix, &every_code(&header));
        }
    }
    short_strings(run);
    every_marker(run);
    far_out(run);
}

/// One that isn't there leaves the number as it was.
impl Leaves<1, 0> for Option<[u64; 1]> {
    fn leave(&self, before: Lent<1, 0>) -> Lent<1, 0> {
        match self {
            Some(place) => place.leave(before),
            None => before.none(NO_SUCH_MARKER),
        }
    }
}

type Found = Result<Option<[u64; 1]>, Refusal>;

/// Asked for so many markers.
fn check<const N: usize>(run: &mut Run, codestream: &[u8]) {
    let codes = [(); N].map(|()| code(&mut run.random, codestream));
    check_for(run, codestream, &codes);
}

fn check_for(run: &mut Run, codestream: &[u8], codes: &[u16]) {
    let stripped = Told::by(|| (run.original)(codestream).map(|header| stripped(&header)));
    for &marker in codes {
        let document = find_marker(codestream, marker).map(|found| found.map(|at| [at]));
        let before = Lent::preset(&mut run.random, []);
        let case = Case {
            ours: before.left_by(|[], [value]| host::find_marker(codestream, marker, value)),
            before,
            told: stripped.and_then(|stripped| told(marker, stripped, &document)),
            document,
        };
        let label = match document {
            Ok(None) => NO_MARKER,
            _ => ACCEPTED,
        };
        case.judge_under(label, &mut run.tally, || {
            format!("{}, marker {marker:04X}", hex_of_front(codestream))
        });
    }
}

/// Bytes of TLM segments.
fn stripped(header: &Header) -> u64 {
    header.first_sot - header.decode_header.len() as u64
}

/// Of a header that the original accepts; where it has a TLM, that stands where the model says.
fn told(marker: u16, stripped: u64, document: &Found) -> Told<Option<[u64; 1]>> {
    match marker {
        SIZ => Told::Accepted(Some([2])),
        TLM if stripped == 0 => Told::Accepted(None),
        TLM => Told::Accepted(Some(document.unwrap_or_default().unwrap_or_default())),
        _ => Told::Nothing,
    }
}

/// On both sides of the longest one.
fn over_long_loans(run: &mut Run) {
    each_too_long(|codestream| {
        for codestream in [codestream, &codestream[..codestream.len() - 1]] {
            check_for(run, codestream, &[SIZ, TLM, PPM]);
        }
    });
}

/// Alone, after SOC and SIZ, and as a TLM's length field and on; as they are and with a SOT behind.
fn short_strings(run: &mut Run) {
    const FRONTS: [(&[u8], usize); 3] = [
        (&[], 3),
        (&[0xFF, 0x4F, 0xFF, 0x51, 0x00, 0x02], 4),
        (&[0xFF, 0x4F, 0xFF, 0x51, 0x00, 0x02, 0xFF, 0x55, 0x00], 3),
    ];
    each_behind(&FRONTS, &TELLING, |bytes| {
        check::<1>(run, bytes);
        check::<1>(run, &[bytes, &SOT.to_be_bytes()].concat());
    });
}

/// Each code there is, in headers that hold it; asked for it, and for what differs by one bit.
fn every_marker(run: &mut Run) {
    for marker in 0..=u16::MAX {
        let off = marker ^ 1 << run.random.below(16);
        for header in holding(marker) {
            check_for(run, &header, &[marker, off]);
        }
    }
}

/// Places that need more than 16 and 24 bits.
fn far_out(run: &mut Run) {
    for at in [65_535, 65_536, 65_537, 1 << 20, (1 << 24) + 1] {
        let mut built = opened();
        built.pad_to(at).segment(PPM, &[]).marker(SOT);
        check_for(run, &built.bytes, &[PPM, SIZ, TLM]);
    }
}

fn random(run: &mut Run) {
    let built = headers::codestream(&mut run.random);
    check_for(run, &built, &[SIZ, TLM]);
    check::<6>(run, &built);
    run.cut(2, &built, check::<1>);
    run.damaged(4, &built, check::<2>);
}

#[cfg(test)]
mod tests {
    use super::{check_for, original, Original, SIZ, TLM};
    use crate::compare::holds_on;
    use crate::model::header::Header;
    use crate::sample::{opened, sample_a};

    /// On sample A, on one that is cut, and on one without TLM.
    fn holds(original: Original) -> bool {
        holds_on::<0, _>(original, |run| {
            let sample = sample_a();
            let short = opened().marker(super::SOT).bytes.clone();
            for codestream in [&sample[..], &sample[..50], &short] {
                check_for(run, codestream, &[SIZ, TLM, 0xFF60]);
            }
        })
    }

    #[test]
    fn another_answer_of_the_original_shows() {
        assert!(holds(original));
        let headers: [Original; 4] = [
            |_| None,
            |codestream| original(codestream).or_else(|| original(&sample_a())),
            // more, or less, was left out of the decode header
            |codestream| {
                let told = original(codestream)?;
                let decode_header = codestream[..told.first_sot as usize].to_vec();
                Some(Header {
                    decode_header,
                    ..told
                })
            },
            |codestream| {
                let mut told = original(codestream)?;
                told.decode_header.pop();
                Some(told)
            },
        ];
        for wrong in headers {
            assert!(!holds(wrong));
        }
    }
}
