//! Codes of markers to ask a header for, and headers that hold one of them where the walk stands, and
//! where it does not.

use super::codestream::{COD, COM, EOC, EPH, PLM, PPM, QCD, SIZ, SOC, SOD, SOT, TLM};
use super::{opened, sample_a};
use crate::model::header::markers;
use crate::random::Random;

/// Of every kind: known, delimiters and their neighbours, no markers at all.
const CODES: [u16; 20] = [
    SOC, SIZ, COD, QCD, TLM, PLM, PPM, COM, SOT, EPH, SOD, EOC, 0xFF2F, 0xFF30, 0xFF3F, 0xFF40,
    0x0060, 0x0030, 0x0000, 0xFFFF,
];

/// All of these, and each two bytes that stand beside each other.
pub fn every_code(codestream: &[u8]) -> Vec<u16> {
    let beside = codestream
        .windows(2)
        .map(|pair| u16::from_be_bytes([pair[0], pair[1]]));
    let mut codes: Vec<_> = beside.chain(CODES).collect();
    codes.sort();
    codes.dedup();
    codes
}

/// Mostly of a marker that the walk stands at, or of two bytes elsewhere; now and then one bit off.
pub fn code(random: &mut Random, codestream: &[u8]) -> u16 {
    let known = match random.below(8) {
        0..=3 => markers(codestream).map(|(_, marker)| marker).collect(),
        4 | 5 => every_code(codestream),
        6 => CODES.to_vec(),
        _ => Vec::new(),
    };
    let code = match known.is_empty() {
        true => random.number() as u16,
        false => random.pick(&known),
    };
    match random.once_in(8) {
        true => code ^ 1 << random.below(16),
        false => code,
    }
}

/// PPM first and last, once and twice, inside segments, as a length, behind the first SOT, and before
/// each refusal of the walk; delimiters; and lengths of 0 and 1, which are markers or begin one.
pub fn headers() -> Vec<Vec<u8>> {
    const PPM: &[u8] = &[0xFF, 0x60, 0, 4, 0, 7];
    /// COM that holds one.
    const HELD: &[u8] = &[0xFF, 0x64, 0, 6, 0xFF, 0x60, 0, 2];
    let middles: [&[&[u8]]; 14] = [
        &[],
        &[PPM],
        &[HELD, PPM],
        &[PPM, HELD, PPM],
        &[&[0xFF, 0x55, 0, 10, 0, 0x60, 0xFF, 0x60, 0, 0, 0, 9]],
        &[&[0xFF, 0x92, 0, 0x30, 0xFF, 0x3F, 0x60, 0x92], PPM],
        &[&[0xFF, 0x60, 0, 0, 0, 2, 0xFF, 0x64, 0, 1, 0x30]],
        &[&[0xFF, 0x64, 0, 1, 0x60, 0, 2], HELD],
        &[HELD, &[0xFF, 0x90], PPM],
        &[PPM, &[0xFF, 0x64, 0xFF, 0x60]],
        &[PPM, &[0xFF, 0x55, 0, 2]],
        &[PPM, &[0xFF, 0x55, 0, 3, 0]],
        &[PPM, &[0xFF, 0x55, 0, 4, 0, 0x30]],
        &[PPM, &[0xFF, 0x55, 0, 7, 0, 0x10, 5, 0, 16]],
    ];
    let whole = |middle: &[&[u8]]| opened().raw(&middle.concat()).marker(SOT).bytes.clone();
    let mut headers: Vec<_> = middles.into_iter().map(whole).collect();
    headers.push(opened().raw(PPM).bytes.clone());
    let mut in_siz = sample_a();
    in_siz[6..10].copy_from_slice(&HELD[4..]);
    headers.push(in_siz);
    headers
}

/// Headers with a marker of this code behind SIZ, by itself as delimiters are, and with a segment.
pub fn holding(code: u16) -> [Vec<u8>; 2] {
    let (mut alone, mut segment) = (opened(), opened());
    alone.marker(code).marker(SOT);
    segment.segment(code, &[]).marker(SOT);
    [alone, segment].map(|built| built.bytes)
}

#[cfg(test)]
mod tests {
    use super::{code, headers, PPM};
    use crate::model::header::find_marker;
    use crate::random::Random;
    use crate::sample::headers::codestream;

    #[test]
    fn headers_hold_it_where_it_counts_and_where_it_does_not() {
        let answers: Vec<_> = headers()
            .iter()
            .map(|header| find_marker(header, PPM).map_err(|refusal| refusal.number))
            .collect();
        let count = |wanted| answers.iter().filter(|&&answer| answer == wanted).count();
        assert!(count(Ok(Some(6))) >= 3);
        assert!(count(Ok(None)) >= 4);
        for number in [3, 4, 5, 6] {
            assert!(count(Err(number)) >= 1, "{number}");
        }
    }

    /// In 10,000 random headers.
    #[test]
    fn both_answers_are_reached_often() {
        let mut random = Random::new(5);
        let (mut found, mut absent, mut refused) = (0, 0, 0);
        for _ in 0..10_000 {
            let built = codestream(&mut random);
            let marker = code(&mut random, &built);
            match find_marker(&built, marker) {
                Ok(Some(_)) => found += 1,
                Ok(None) => absent += 1,
                Err(_) => refused += 1,
            }
        }
        let seen = [found, absent, refused];
        assert!(seen.iter().all(|&count| count >= 1_000), "{seen:?}");
    }
}
