//! The replay list's cases of kind 17; the payload is the marker in 2 bytes, and the codestream. The
//! original has no such function: the answers are the model's.

use crate::cases::{refused, Kind};
use crate::model::header::{find_marker, markers as walked};
use crate::model::number;
use crate::random::Random;
use crate::sample::codestream::{PPM, SIZ, TLM};
use crate::sample::damage::damaged;
use crate::sample::markers::{code, every_code};
use crate::sample::{headers, markers, prefixes, sample_a, tlms};
use crate::wanted;

pub const KIND: Kind = Kind {
    number: 17,
    name: wanted::FIND_MARKER.name,
    minimum: 300,
    payloads: |random| asked(random).iter().map(framed).collect(),
    answer,
};

/// A codestream, and the marker that is asked for.
pub type Asked = (Vec<u8>, u16);

fn framed((codestream, marker): &Asked) -> Vec<u8> {
    [&marker.to_be_bytes(), &codestream[..]].concat()
}

fn answer(payload: &[u8]) -> Option<String> {
    let (marker, codestream) = payload.split_at(2);
    let found = find_marker(codestream, number(marker) as u16);
    let place = |found: Option<u64>| found.map_or(" none".to_string(), |at| format!(" {at}"));
    Some(format!("marker{}", found.map_or_else(refused, place)))
}

pub fn asked(random: &mut Random) -> Vec<Asked> {
    let sample = sample_a();
    let mut asked: Vec<_> = prefixes(&sample).map(|prefix| (prefix, SIZ)).collect();
    asked.push((sample, TLM));
    for header in markers::headers() {
        asked.extend(prefixes(&header).map(|prefix| (prefix, PPM)));
        let codes = every_code(&header).into_iter();
        asked.extend(codes.map(|marker| (header.clone(), marker)));
    }
    for header in [headers::stops(), tlms::odd_lengths()].concat() {
        asked.push((header, TLM));
    }
    for header in headers::short_ones(random, 60, 110) {
        let damaged = damaged(random, &header);
        let marker = code(random, &damaged);
        asked.push((damaged, marker));
        let stands = walked(&header).map(|(_, marker)| marker);
        asked.extend(stands.map(|marker| (header.clone(), marker)));
    }
    asked
}
