//! Headers whose TLM entries have no index, or some of them have none: what either numbering makes of
//! them by hand, and headers in which a number is the last there is, or passes it.

use super::codestream::{Codestream, Tlm, COM, SOT, TLM};
use crate::random::Random;

/// ST 0, 1 and 2, with lengths of 2 bytes; one of 4 bytes.
const NONE: u8 = 0x00;
const ONE: u8 = 0x10;
const TWO: u8 = 0x20;
const NONE_LONG: u8 = 0x40;

/// The entries that a segment of this length holds at most.
pub const FULL: usize = 32_765;

/// The indices as carried on, and as restarting.
pub type ByHand = [Vec<u16>; 2];

pub fn by_hand() -> Vec<(Vec<u8>, ByHand)> {
    let indices = |carried_on: &[u16], restarting: &[u16]| [carried_on, restarting].map(Vec::from);
    let alike = |both: &[u16]| indices(both, both);
    vec![
        (header(&[]), alike(&[])),
        (header(&[(NONE, &[0, 0])]), alike(&[0, 1])),
        (
            header(&[(NONE, &[0, 0]), (NONE, &[0, 0])]),
            indices(&[0, 1, 2, 3], &[0, 1, 0, 1]),
        ),
        (
            header(&[(NONE, &[0]), (NONE_LONG, &[0, 0]), (NONE, &[0])]),
            indices(&[0, 1, 2, 3], &[0, 0, 1, 0]),
        ),
        // an index that is read stays, and its segment does not move the count
        (
            header(&[(NONE, &[0]), (TWO, &[65_535, 9]), (NONE, &[0])]),
            indices(&[0, 65_535, 9, 1], &[0, 65_535, 9, 0]),
        ),
        (
            header(&[(ONE, &[7]), (NONE, &[0, 0]), (ONE, &[7, 255])]),
            alike(&[7, 0, 1, 7, 255]),
        ),
        // nor does one without entries
        (
            header(&[(NONE, &[]), (NONE, &[0, 0]), (NONE, &[])]),
            alike(&[0, 1]),
        ),
        (
            header(&[(NONE, &[0]), (NONE, &[]), (NONE, &[0])]),
            indices(&[0, 1], &[0, 0]),
        ),
        (
            header(&[(ONE, &[1]), (TWO, &[1]), (ONE, &[1])]),
            alike(&[1, 1, 1]),
        ),
    ]
}

/// A refusal's number and place.
pub type Refused = Option<(u32, u64)>;

/// Two full segments, and what stands behind them: what is refused carried on, and restarting.
pub fn at_the_last() -> Vec<(Vec<u8>, Refused, Refused)> {
    const THIRD: u64 = 6 + 2 * (6 + 2 * FULL as u64);
    let third = |entries: u64| THIRD + 6 + 2 * entries;
    let behind = |entries, more: &dyn Fn(&mut Codestream)| {
        let mut built = full();
        built.tlm(&plain(NONE, entries));
        more(&mut built);
        built.bytes
    };
    let sot = |built: &mut Codestream| {
        built.marker(SOT);
    };
    let cut = |built: &mut Codestream| {
        built.segment_saying(COM, 3, &[]);
    };
    let ltlm_3 = |built: &mut Codestream| {
        built.segment(TLM, &[0]).marker(SOT);
    };
    let st_3 = |built: &mut Codestream| {
        built.segment(TLM, &[0, 0x30, 0, 0]).marker(SOT);
    };
    let ends = |_: &mut Codestream| {};
    let none = |built: &mut Codestream| {
        built.tlm(&plain(NONE, 0)).marker(SOT);
    };
    let one = |built: &mut Codestream| {
        built.tlm(&plain(NONE, 1)).marker(SOT);
    };
    let indexed = |built: &mut Codestream| {
        built.tlm(&plain(TWO, 9)).marker(SOT);
    };
    let both = |refused: Refused| (refused, refused);
    let cases: [(usize, &dyn Fn(&mut Codestream), (Refused, Refused)); 15] = [
        (4, &sot, both(None)),
        (5, &sot, both(None)),
        (6, &sot, (Some((26, THIRD)), None)),
        (7, &sot, (Some((26, THIRD)), None)),
        (FULL, &sot, (Some((26, THIRD)), None)),
        // the last number is given: only one more would pass
        (5, &none, both(None)),
        (5, &indexed, both(None)),
        (5, &one, (Some((26, third(5))), None)),
        (4, &one, both(None)),
        // at one marker, and behind
        (5, &cut, both(Some((3, third(5))))),
        (5, &ltlm_3, both(Some((4, third(5))))),
        (5, &st_3, both(Some((5, third(5))))),
        (5, &ends, both(Some((6, third(5))))),
        (6, &cut, (Some((26, THIRD)), Some((3, third(6))))),
        (6, &ltlm_3, (Some((26, THIRD)), Some((4, third(6))))),
    ];
    let cases = cases.into_iter();
    cases
        .map(|(entries, more, (carried_on, restarting))| {
            (behind(entries, more), carried_on, restarting)
        })
        .collect()
}

/// Segments of few entries, most without an index.
pub fn few(random: &mut Random) -> Vec<u8> {
    let mut built = super::opened();
    for _ in 0..2 + random.below(4) {
        let stlm = random.pick(&[NONE, NONE, NONE, NONE_LONG, ONE, TWO]);
        let entries = random.below(4);
        built.tlm(&plain(stlm, entries));
    }
    built.marker(SOT);
    built.bytes
}

/// About as many entries as there are numbers.
pub fn many(random: &mut Random) -> Vec<u8> {
    let mut built = full();
    if random.once_in(2) {
        built.tlm(&plain(TWO, random.below(5)));
    }
    built.tlm(&plain(NONE, random.below(12))).marker(SOT);
    built.bytes
}

fn full() -> Codestream {
    let mut built = super::opened();
    built.tlm(&plain(NONE, FULL)).tlm(&plain(NONE, FULL));
    built
}

fn plain(stlm: u8, entries: usize) -> Tlm {
    let entry = |index| (65_535 - index as u16, 14);
    Tlm {
        ztlm: 0,
        stlm,
        entries: (0..entries).map(entry).collect(),
    }
}

/// Of segments: their form, and their entries' indices where they have any.
fn header(segments: &[(u8, &[u16])]) -> Vec<u8> {
    let mut built = super::opened();
    for (ztlm, (stlm, indices)) in segments.iter().enumerate() {
        built.tlm(&Tlm {
            ztlm: ztlm as u8,
            stlm: *stlm,
            entries: indices.iter().map(|&index| (index, 14)).collect(),
        });
    }
    built.marker(SOT);
    built.bytes
}
