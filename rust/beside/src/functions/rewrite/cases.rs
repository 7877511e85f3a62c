//! The replay list's cases of kinds 5, 13 and 15; the payload is the tile's index in 2 bytes, and the
//! header. Those of 13 are answered by Annex B's rule and those of 15 in place, of which the original
//! has none: the answers are the model's.

use original::markers::rewrite_siz_for_tile as original;

use crate::cases::{written, Kind};
use crate::model::number;
use crate::model::rules::Rule;
use crate::model::tile::rewrite_siz_for_tile;
use crate::random::Random;
use crate::sample::prefixes;
use crate::sample::sizes::{
    around_moved, around_sample_a, crowded, every_index, header, header_and_index, MOVED, SAMPLE_A,
};
use crate::tally::lower_hex;
use crate::wanted;

pub const KIND: Kind = Kind {
    number: 5,
    name: wanted::REWRITE_BY_ORIGINAL.name,
    minimum: 300,
    payloads: |random| inputs(random).iter().map(framed).collect(),
    answer: |payload| {
        let (isot, header) = read(payload);
        Some(format!("rewrite {}", lower_hex(&original(header, isot))))
    },
};

pub const KIND_OF_ANNEX_B: Kind = Kind {
    number: 13,
    name: wanted::REWRITE.name,
    minimum: 300,
    payloads: |random| inputs_of_annex_b(random).iter().map(framed).collect(),
    answer: |payload| Some(format!("rewrite-b{}", by(Rule::AnnexB, payload))),
};

pub const KIND_IN_PLACE: Kind = Kind {
    number: 15,
    name: wanted::REWRITE_IN_PLACE.name,
    answer: |payload| Some(format!("rewrite-p{}", by(Rule::InPlace, payload))),
    ..KIND_OF_ANNEX_B
};

fn by(rule: Rule, payload: &[u8]) -> String {
    let (isot, header) = read(payload);
    written(rewrite_siz_for_tile(header, isot, rule))
}

/// A header and an index.
type Input = (Vec<u8>, u16);

fn framed((header, isot): &Input) -> Vec<u8> {
    [&isot.to_be_bytes(), &header[..]].concat()
}

fn read(payload: &[u8]) -> (u16, &[u8]) {
    let (isot, header) = payload.split_at(2);
    (number(isot) as u16, header)
}

pub fn inputs(random: &mut Random) -> Vec<Input> {
    let sample = header(SAMPLE_A);
    let mut inputs: Vec<_> = (0..9).map(|isot| (sample.clone(), isot)).collect();
    inputs.extend(without_siz(&sample));
    for fields in around_sample_a() {
        inputs.extend([0, 1, 2, 3, 5].map(|isot| (header(fields), isot)));
    }
    inputs.extend((0..250).map(|_| header_and_index(random)));
    inputs
}

pub fn inputs_of_annex_b(random: &mut Random) -> Vec<Input> {
    let moved = header(MOVED);
    let mut inputs: Vec<_> = (0..18).map(|isot| (moved.clone(), isot)).collect();
    inputs.extend(without_siz(&moved));
    for fields in around_moved() {
        inputs.extend([0, 7].map(|isot| (header(fields), isot)));
    }
    for fields in crowded() {
        let indices = every_index(&fields).into_iter().rev().take(2);
        inputs.extend(indices.map(|isot| (header(fields), isot)));
    }
    inputs.extend((0..200).map(|_| header_and_index(random)));
    inputs
}

/// Cut anywhere, or with another marker, so that the header may stay as it is.
fn without_siz(whole: &[u8]) -> Vec<Input> {
    let mut inputs: Vec<_> = prefixes(whole).map(|prefix| (prefix, 5)).collect();
    for at in 2..4 {
        let mut no_siz = whole.to_vec();
        no_siz[at] ^= 1;
        inputs.push((no_siz, 5));
    }
    inputs
}
