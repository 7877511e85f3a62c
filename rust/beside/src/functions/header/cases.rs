//! The replay list's cases of kinds 2 and 10, numbered from 0 in each segment, of 18 and 19, numbered
//! on, and of 20 and 21, so in the newer edition; the payload is the codestream. The number of fillers
//! is the model's, and so is all that is numbered on.

use super::original;
use crate::cases::{listed, Kind};
use crate::model::header::{parse_main_header, Header, Reading};
use crate::random::Random;
use crate::sample::damage::damaged;
use crate::sample::{caps, fillers, headers, numbers, prefixes, sample_a, tlms};
use crate::tally::lower_hex;
use crate::wanted;

/// Of a payload that is kept.
const LONGEST: usize = 300;

pub const KIND: Kind = Kind {
    number: 2,
    name: wanted::HEADER_RESTARTING.name,
    minimum: 300,
    payloads,
    answer,
};

/// The same through a table of records.
pub const RECORDS: Kind = Kind {
    number: 10,
    name: "header records",
    ..KIND
};

/// Numbered on.
pub const CARRIED_ON: Kind = Kind {
    number: 18,
    name: "header, carried on",
    minimum: 250,
    payloads: numbered,
    answer: |codestream| said(parse_main_header(codestream, Reading::DEFAULT).ok()),
};

pub const RECORDS_CARRIED_ON: Kind = Kind {
    number: 19,
    name: "header records, carried on",
    ..CARRIED_ON
};

/// In the newer edition.
pub const NEWER: Kind = Kind {
    number: 20,
    name: "header, newer",
    minimum: 200,
    payloads: capped,
    answer: |codestream| said(parse_main_header(codestream, Reading::NEWER).ok()),
};

pub const RECORDS_NEWER: Kind = Kind {
    number: 21,
    name: "header records, newer",
    ..NEWER
};

fn answer(codestream: &[u8]) -> Option<String> {
    said(original(codestream))
}

/// A header, or that there is none.
fn said(header: Option<Header>) -> Option<String> {
    let Some(header) = header else {
        return Some("header refused".to_string());
    };
    let entries = match &header.entries[..] {
        [] => " none".to_string(),
        some => listed(some),
    };
    Some(format!(
        "header {} {} {} {}{entries}",
        header.first_sot,
        header.decode_header.len(),
        header.fillers,
        lower_hex(&header.decode_header),
    ))
}

pub fn payloads(random: &mut Random) -> Vec<Vec<u8>> {
    let sample = sample_a();
    let mut payloads: Vec<_> = prefixes(&sample).collect();
    payloads.extend(tlms::one());
    payloads.extend(tlms::pairs());
    payloads.extend(tlms::odd_lengths());
    payloads.extend(headers::stops());
    payloads.extend(fillers::counted().into_iter().map(|(header, _)| header));
    payloads.extend((0..100).map(|_| damaged(random, &sample)));
    payloads.extend(headers::short_ones(random, 150, 300));
    payloads
}

fn numbered(random: &mut Random) -> Vec<Vec<u8>> {
    let sample = sample_a();
    let mut payloads = vec![sample];
    payloads.extend(tlms::pairs());
    payloads.extend(numbers::by_hand().into_iter().map(|(header, _)| header));
    for _ in 0..100 {
        let built = numbers::few(random);
        payloads.push(damaged(random, &built));
        payloads.push(built);
    }
    payloads
}

fn capped(random: &mut Random) -> Vec<Vec<u8>> {
    let mut payloads = vec![sample_a()];
    let by_hand = caps::by_hand().into_iter().map(|(header, _)| header);
    payloads.extend(by_hand.filter(|header| header.len() <= LONGEST));
    for _ in 0..80 {
        let built = caps::few(random);
        payloads.push(damaged(random, &built));
        payloads.push(built);
    }
    payloads
}
