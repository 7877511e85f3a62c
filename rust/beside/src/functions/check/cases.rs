//! The replay list's cases of kind 26; the payload is the header's region, 8 bytes, and the codestream. The
//! original has no such function: the answers are the model's.

use crate::cases::{refused, Kind};
use crate::model::check::{check_length_table, Difference, Said};
use crate::model::number;
use crate::random::Random;
use crate::sample::deliveries::{any, sound};
use crate::sample::lengths::{by_hand, region};
use crate::sample::sample_a;
use crate::wanted;

pub const KIND: Kind = Kind {
    number: 26,
    name: wanted::CHECK.name,
    minimum: 90,
    payloads,
    answer,
};

fn payloads(random: &mut Random) -> Vec<Vec<u8>> {
    let mut payloads = vec![framed(u64::MAX, &sample_a())];
    for (codestream, region, _) in by_hand() {
        payloads.push(framed(region, &codestream));
    }
    for _ in 0..8 {
        payloads.push(framed(u64::MAX, &sound(random).bytes()));
    }
    for _ in 0..32 {
        let built = any(random).bytes();
        payloads.push(framed(region(random, &built), &built));
    }
    payloads
}

fn framed(region: u64, codestream: &[u8]) -> Vec<u8> {
    [&region.to_be_bytes(), codestream].concat()
}

fn answer(payload: &[u8]) -> Option<String> {
    let (region, codestream) = payload.split_at(8);
    let checked = check_length_table(codestream, number(region));
    Some(format!("check{}", checked.map_or_else(refused, told)))
}

fn told(difference: Option<Difference>) -> String {
    let Some(difference) = difference else {
        return " passes".to_string();
    };
    let Difference { number, offset, .. } = difference;
    let [listed, standing] = [difference.listed, difference.standing].map(said);
    format!(" differs {number} {offset}, listed{listed}, standing{standing}")
}

fn said(said: Option<Said>) -> String {
    said.map_or(" none".to_string(), |(tile, length)| {
        format!(" {tile} {length}")
    })
}

#[cfg(test)]
mod tests {
    use super::{answer, framed};
    use crate::sample::sample_a;

    #[test]
    fn a_line_says_what_is_told() {
        let line = |region, codestream: &[u8]| answer(&framed(region, codestream));
        let mut sample = sample_a();
        assert_eq!(line(59, &sample).as_deref(), Some("check passes"));
        assert_eq!(line(58, &sample).as_deref(), Some("check refused 6 58"));
        sample[56] = 17;
        assert_eq!(
            line(89, &sample).as_deref(),
            Some("check differs 1 71, listed 5 17, standing 5 16")
        );
        // two bytes less: the second entry is a part of one
        sample[48] = 8;
        sample.drain(55..57);
        assert_eq!(
            line(89, &sample).as_deref(),
            Some("check differs 1 69, listed none, standing 5 16")
        );
    }
}
