//! The replay list's cases of kind 4; the payload is the tile.

use original::markers::split_tile_parts;

use crate::cases::Kind;
use crate::random::Random;
use crate::sample::damage::damaged;
use crate::sample::{parts, prefixes, sample_a, SAMPLE_A_FIRST_SOT};
use crate::wanted;

pub const KIND: Kind = Kind {
    number: 4,
    name: wanted::SPLIT.name,
    minimum: 300,
    payloads,
    answer,
};

fn answer(tile: &[u8]) -> Option<String> {
    let parts = split_tile_parts(tile);
    let lengths: String = parts
        .iter()
        .map(|part| format!(" {}", part.len()))
        .collect();
    Some(format!("split {}{lengths}", parts.len()))
}

pub fn payloads(random: &mut Random) -> Vec<Vec<u8>> {
    let sample = sample_a();
    let tiles = &sample[SAMPLE_A_FIRST_SOT..];
    let mut payloads: Vec<_> = prefixes(tiles).collect();
    payloads.extend(parts::edges());
    payloads.extend((0..80).map(|_| damaged(random, tiles)));
    payloads.extend((0..120).map(|_| parts::tile_parts(random)));
    payloads
}
