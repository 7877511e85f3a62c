//! The replay list's cases of kind 8; the payload is the codestream.

use original::reader::pixel_type_from_siz;

use super::original;
use crate::cases::Kind;
use crate::random::Random;
use crate::sample::damage::damaged;
use crate::sample::sizes::{around_sample_a, header, header_and_index};
use crate::sample::{headers, prefixes, sample_a};
use crate::wanted;

pub const KIND: Kind = Kind {
    number: 8,
    name: wanted::SIZ.name,
    minimum: 300,
    payloads,
    answer,
};

fn answer(codestream: &[u8]) -> Option<String> {
    let Some([width, height, components, bits, signed]) = original(codestream) else {
        return Some("siz refused".to_string());
    };
    let pixel_type = pixel_type_from_siz(bits as u8, signed != 0) as u32;
    Some(format!(
        "siz {width} {height} {components} {bits} {signed} {pixel_type}"
    ))
}

pub fn payloads(random: &mut Random) -> Vec<Vec<u8>> {
    let sample = sample_a();
    let mut payloads: Vec<_> = prefixes(&sample[..46]).collect();
    payloads.extend(stops());
    payloads.extend(around_sample_a().into_iter().map(header));
    for ssiz in [0, 7, 8, 15, 16, 31, 32, 37, 126, 127] {
        for sign in [0, 128] {
            let mut other = sample[..46].to_vec();
            other[42] = ssiz | sign;
            payloads.push(other);
        }
    }
    for _ in 0..150 {
        let (header, _) = header_and_index(random);
        payloads.push(damaged(random, &header));
    }
    payloads.extend(headers::short_ones(random, 60, 200));
    payloads
}

/// What may stand between SOC and SIZ, with SIZ behind it and without.
pub fn stops() -> Vec<Vec<u8>> {
    let fronts: [&[u8]; 18] = [
        &[],
        &[0x00],
        &[0x51],
        &[0xFF],
        &[0xFF, 0x52],
        &[0xFF, 0x52, 0x00],
        &[0xFF, 0x52, 0x00, 0x00],
        &[0xFF, 0x52, 0x00, 0x01],
        &[0xFF, 0x52, 0x00, 0x02],
        &[0xFF, 0x52, 0x00, 0x03],
        &[0xFF, 0x52, 0x00, 0x03, 0xFF],
        &[0xFF, 0x52, 0x00, 0x04, 0xFF],
        &[0xFF, 0x52, 0xFF, 0xFF],
        &[0xFF, 0xFF, 0x51, 0x00],
        &[0xFF, 0x90, 0x00, 0x02],
        &[0x00, 0xFF, 0x30, 0x00, 0x02],
        &[0x00, 0x00, 0x00, 0x00],
        &[0x51, 0xFF, 0x4F, 0x00, 0x02, 0x51],
    ];
    let sample = sample_a();
    let siz = &sample[2..45];
    let with = |front: &&[u8], size| [&[0xFF, 0x4F], *front, &siz[..size]].concat();
    let sizes = [0, 1, 2, 40, 41, 43];
    let all = fronts
        .iter()
        .flat_map(|front| sizes.map(|size| with(front, size)));
    all.collect()
}
