//! Headers with fillers, which are delimiters whose first byte is not FF, and with what looks like them.

use super::codestream::{Codestream, SIZ, SOT, TLM};
use super::{headers, opened, TELLING};
use crate::model::header::is_delimiter;
use crate::random::Random;

/// What stands between SIZ and SOT, and how many of it are fillers.
const MIDDLES: [(&[u8], u64); 21] = [
    (&[], 0),
    (&[0xFF, 0x30], 0),
    (&[0xFF, 0x92], 0),
    (&[0x00, 0x30], 1),
    (&[0x41, 0x92], 1),
    (&[0xFE, 0x3F], 1),
    (&[0x30, 0x92, 0x92, 0x3F], 2),
    (&[0x00, 0x30, 0xFF, 0x30, 0x00, 0x30, 0x00, 0x30], 3),
    (&[0xFF, 0x92, 0x41, 0x92, 0xFF, 0x64, 0, 2, 0x01, 0x3E], 2),
    // 0130 and 0192: the second byte of a length of 1, and the byte behind it
    (&[0xFF, 0x64, 0, 1, 0x30], 1),
    (&[0x00, 0x64, 0, 1, 0x92, 0x00, 0x30], 2),
    // around a TLM, and as an entry's length in one
    (&[0x00, 0x30, 0xFF, 0x55, 0, 4, 0, 0, 0x00, 0x31], 2),
    (&[0xFF, 0x55, 0, 6, 0, 0, 0x00, 0x30], 0),
    // segments without FF, also with a first byte of 30 and 92
    (&[0x00, 0x64, 0, 2], 0),
    (&[0x00, 0x55, 0, 2], 0),
    (&[0x30, 0x90, 0, 2, 0x92, 0x64, 0, 4, 0x00, 0x30], 0),
    // inside a comment
    (&[0xFF, 0x64, 0, 8, 0x00, 0x30, 0x41, 0x92, 0xFE, 0x3F], 0),
    (&[0xFF, 0x64, 0, 3, 0x00, 0x30, 0x30], 1),
    // behind the first SOT
    (&[0xFF, 0x90, 0x00, 0x30], 0),
    (&[0x41, 0x92, 0xFF, 0x90, 0x00, 0x30, 0x00, 0x30], 1),
    (&[0x00, 0x30, 0xFF, 0x90, 0xFF, 0x64, 0, 2, 0x00, 0x30], 1),
];

/// First bytes of a step.
const FIRST: [u8; 6] = [0x00, 0x01, 0x41, 0x90, 0xFE, 0xFF];

/// Headers, all accepted, and how many fillers each has, by hand.
pub fn counted() -> Vec<(Vec<u8>, u64)> {
    let closed = |built: &mut Codestream| built.marker(SOT).bytes.clone();
    let mut counted = Vec::new();
    for (middle, count) in MIDDLES {
        counted.push((closed(opened().raw(middle)), count));
    }
    for first in FIRST {
        let count = u64::from(first != 0xFF);
        for second in [0x30, 0x31, 0x3E, 0x3F, 0x92] {
            counted.push((closed(opened().raw(&[first, second])), count));
        }
        // the neighbours of these, each with a segment
        for second in [0x2F, 0x40, 0x91, 0x93] {
            let code = u16::from_be_bytes([first, second]);
            counted.push((closed(opened().segment(code, &[0x00, 0x30])), 0));
        }
    }
    // inside SIZ, and begun by a length of 1 there
    for (length, body, count) in [(4, &[0x00, 0x30][..], 0), (1, &[0x30], 1)] {
        let mut built = Codestream::default();
        built.soc().segment_saying(SIZ, length, body);
        counted.push((closed(&mut built), count));
    }
    for count in [255, 256, 257] {
        counted.push((many(count), count as u64));
    }
    counted
}

/// So many, and nothing else.
pub fn many(count: usize) -> Vec<u8> {
    headers::delimiters(opened(), 0x0030, count)
}

/// Few steps, a third of them fillers, or now and then more of these than a byte counts; a SOT, and some
/// more behind it.
pub fn header(random: &mut Random) -> Vec<u8> {
    let mut built = opened();
    let count = match random.once_in(32) {
        true => random.below(1_500),
        false => random.below(12),
    };
    for _ in 0..count {
        step(random, &mut built);
    }
    built.marker(SOT);
    for _ in 0..random.below(3) {
        step(random, &mut built);
    }
    built.bytes
}

/// A delimiter or a segment, of codes about the edges between them.
fn step(random: &mut Random, built: &mut Codestream) {
    let first = match random.below(4) {
        0 => random.byte(),
        _ => random.pick(&FIRST),
    };
    let second = match random.below(8) {
        0 | 1 => random.byte(),
        2..=4 => random.pick(&[0x30, 0x3F, 0x92]),
        _ => random.pick(&[0x2F, 0x40, 0x91, 0x93, 0x64]),
    };
    let code = u16::from_be_bytes([first, second]);
    let size = random.below(5);
    let body: Vec<u8> = (0..size).map(|_| random.pick(&TELLING)).collect();
    match code {
        SOT | TLM => built,
        _ if is_delimiter(code) => built.marker(code),
        // the next step is 0130, or one like it
        _ if random.once_in(8) => built.segment_saying(code, 1, &[0x30 + random.below(16) as u8]),
        _ => built.segment(code, &body),
    };
}

#[cfg(test)]
mod tests {
    use super::{counted, header};
    use crate::model::header::{markers, parse_main_header, Reading};
    use crate::random::Random;
    use std::collections::BTreeMap;

    #[test]
    fn none_one_and_several_are_there() {
        let counts: Vec<_> = counted().iter().map(|(_, count)| *count).collect();
        let times = |wanted: fn(u64) -> bool| counts.iter().filter(|&&count| wanted(count)).count();
        assert!(times(|count| count == 0) >= 30);
        assert!(times(|count| count == 1) >= 30);
        assert!(times(|count| count > 1) >= 8);
    }

    /// In 1,000 random headers, all accepted.
    #[test]
    fn each_edge_is_reached_often() {
        let mut random = Random::new(5);
        let (mut none, mut some, mut many) = (0, 0, 0);
        let mut steps: BTreeMap<u16, u32> = BTreeMap::new();
        for _ in 0..1_000 {
            let built = header(&mut random);
            match parse_main_header(&built, Reading::DEFAULT)
                .expect("accepted")
                .fillers
            {
                0 => none += 1,
                1..=255 => some += 1,
                _ => many += 1,
            }
            for (_, marker) in markers(&built) {
                *steps.entry(marker).or_default() += 1;
            }
        }
        let seen = [none, some, many];
        assert!(none >= 100 && some >= 500 && many >= 5, "{seen:?}");
        for first in [0x00, 0x01, 0x41, 0xFE, 0xFF] {
            for second in [0x2F, 0x30, 0x3F, 0x40, 0x91, 0x92, 0x93] {
                let code = u16::from_be_bytes([first, second]);
                assert!(steps[&code] >= 100, "{code:04X}");
            }
        }
    }
}
