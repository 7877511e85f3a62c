//! The replay list's cases of kinds 3 and 11; the payload is the start in 8 bytes, and the
//! codestream.

use super::original;
use crate::cases::{listed, Kind};
use crate::model::{entries, number};
use crate::random::Random;
use crate::sample::damage::damaged;
use crate::sample::{headers, parts, prefixes, sample_a, SAMPLE_A_FIRST_SOT};
use crate::wanted;

pub const KIND: Kind = Kind {
    number: 3,
    name: wanted::SCAN.name,
    minimum: 300,
    payloads: |random| {
        let framed = |(start, codestream): (u64, Vec<u8>)| {
            [&start.to_be_bytes(), codestream.as_slice()].concat()
        };
        inputs(random).into_iter().map(framed).collect()
    },
    answer,
};

/// The same through a table of records.
pub const RECORDS: Kind = Kind {
    number: 11,
    name: "scan records",
    ..KIND
};

fn answer(payload: &[u8]) -> Option<String> {
    let (start, codestream) = payload.split_at(8);
    Some(match original(codestream, number(start)) {
        Some(records) => format!("scan {}{}", records.len(), listed(&entries(&records))),
        None => "scan refused".to_string(),
    })
}

/// Start and codestream.
pub fn inputs(random: &mut Random) -> Vec<(u64, Vec<u8>)> {
    let sample = sample_a();
    let first_sot = SAMPLE_A_FIRST_SOT as u64;
    let mut inputs: Vec<_> = (0..=sample.len() as u64 + 2)
        .chain([1 << 31, 1 << 32, (1 << 32) + first_sot, 1 << 63])
        .chain([u64::MAX - 12, u64::MAX - 1, u64::MAX])
        .map(|start| (start, sample.clone()))
        .collect();
    inputs.extend(prefixes(&sample).map(|prefix| (first_sot, prefix)));
    inputs.extend(parts::edges().into_iter().map(|edge| (0, edge)));
    inputs.extend((0..80).map(|_| (first_sot, damaged(random, &sample))));
    inputs.extend((0..80).map(|_| (0, parts::tile_parts(random))));
    for built in headers::short_ones(random, 20, 300) {
        inputs.push((random.below(built.len() + 1) as u64, built));
    }
    inputs
}
