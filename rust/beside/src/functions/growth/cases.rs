//! The replay list's cases of kind 9, of one step: the payload is the region and the codestream's
//! length, 8 bytes each.

use original::reader::next_region;

use crate::cases::Kind;
use crate::model::number;
use crate::random::Random;
use crate::wanted;

pub const KIND: Kind = Kind {
    number: 9,
    name: wanted::NEXT_REGION.name,
    minimum: 300,
    payloads: |random| {
        let framed = |(region, length): (u64, u64)| [region, length].map(u64::to_be_bytes).concat();
        pairs(random).into_iter().map(framed).collect()
    },
    answer,
};

fn answer(payload: &[u8]) -> Option<String> {
    let [region, length] = [&payload[..8], &payload[8..]].map(|bytes| number(bytes) as usize);
    Some(format!("growth {}", next_region(region, length)))
}

/// Region and length: both at the edges of 16, 32, 63 and 64 bits.
pub fn pairs(random: &mut Random) -> Vec<(u64, u64)> {
    let mut edges = vec![0, 1, 2, 3, 65_535, 65_536, 65_537, 131_072, 131_073];
    edges.extend([
        (1 << 31) - 1,
        1 << 31,
        (1 << 32) - 1,
        1 << 32,
        (1 << 63) - 1,
    ]);
    edges.extend([1 << 63, (1 << 63) + 1, u64::MAX - 1, u64::MAX]);
    let mut pairs = Vec::new();
    for &region in &edges {
        pairs.extend(edges.iter().map(|&length| (region, length)));
    }
    pairs.extend((0..100).map(|_| pair(random)));
    pairs
}

/// Mostly a length near twice the region.
pub fn pair(random: &mut Random) -> (u64, u64) {
    let region = random.spread();
    let near = random.below(5) as u64;
    let length = match random.below(4) {
        0 => random.spread(),
        1 => region.wrapping_add(near),
        _ => region.wrapping_mul(2).wrapping_add(near).wrapping_sub(2),
    };
    (region, length)
}
