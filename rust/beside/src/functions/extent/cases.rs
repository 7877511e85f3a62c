//! The replay list's cases of kind 1; the payload is the prefix.

use original::markers::{main_header_extent, MainHeaderExtent};

use crate::cases::Kind;
use crate::random::Random;
use crate::sample::codestream::{Codestream, COM, SOT};
use crate::sample::damage::damaged;
use crate::sample::headers;
use crate::sample::{prefixes, sample_a, SAMPLE_A_FIRST_SOT};
use crate::wanted;

pub const KIND: Kind = Kind {
    number: 1,
    name: wanted::EXTENT.name,
    minimum: 240,
    payloads,
    answer,
};

fn answer(prefix: &[u8]) -> Option<String> {
    Some(match main_header_extent(prefix) {
        MainHeaderExtent::Complete(at) => format!("extent complete {at}"),
        MainHeaderExtent::Truncated => "extent truncated".to_string(),
    })
}

pub fn payloads(random: &mut Random) -> Vec<Vec<u8>> {
    let mut payloads: Vec<_> = prefixes(&sample_a()).collect();
    payloads.extend(short_forms());
    payloads.extend(markers_on_the_edges());
    payloads.extend(lengths_on_the_edges());
    let header = &sample_a()[..SAMPLE_A_FIRST_SOT + 4];
    payloads.extend((0..60).map(|_| damaged(random, header)));
    payloads.extend(headers::short_ones(random, 80, 200));
    payloads
}

fn short_forms() -> impl Iterator<Item = Vec<u8>> {
    let forms: [&[u8]; 14] = [
        &[0x00],
        &[0xFF, 0x90],
        &[0x4F, 0xFF],
        &[0xFF, 0x4F, 0x00],
        &[0xFF, 0x4F, 0x90],
        &[0xFF, 0x4F, 0xFF, 0x4F],
        &[0xFF, 0x4F, 0xFF, 0x90],
        &[0xFF, 0x4E, 0xFF, 0x90],
        &[0x00, 0x4F, 0xFF, 0x90],
        &[0xFF, 0x90, 0xFF, 0x90],
        &[0xFF, 0x4F, 0xFF, 0x90, 0xFF],
        &[0xFF, 0x4F, 0xFF, 0xFF, 0x90],
        &[0xFF, 0x4F, 0xFF, 0xD9, 0xFF, 0x90],
        &[0xFF, 0x4F, 0xFF, 0x51, 0x00, 0x02, 0xFF],
    ];
    forms.into_iter().map(<[u8]>::to_vec)
}

/// Markers on both sides of the delimiters' bounds, with high bytes sound and odd, before a SOT
/// that stands where one reading or the other expects it.
fn markers_on_the_edges() -> Vec<Vec<u8>> {
    let mut payloads = Vec::new();
    for high in [0x00, 0x30, 0x92, 0xFE, 0xFF] {
        for low in [0x2F, 0x30, 0x37, 0x3F, 0x40, 0x90, 0x91, 0x92, 0x93] {
            for length in [&[][..], &[0, 2]] {
                let mut built = Codestream::default();
                built.soc().raw(&[high, low]).raw(length).marker(SOT);
                payloads.push(built.bytes);
            }
        }
    }
    payloads
}

/// Every length from 0 to 6 and some long ones, with bodies that fall short, fit and are longer.
fn lengths_on_the_edges() -> Vec<Vec<u8>> {
    let mut payloads = Vec::new();
    for length in [0, 1, 2, 3, 4, 5, 6, 254, 255, 256, 0x7FFF, 0x8000, 0xFFFF] {
        for body in 0..5 {
            let mut built = Codestream::default();
            built.soc().segment_saying(COM, length, &vec![0; body]);
            payloads.push(built.bytes.clone());
            payloads.push(built.marker(SOT).bytes.clone());
        }
    }
    for after in [[0x00, 0x30], [0x00, 0x02], [0x30, 0x00], [0x92, 0xFF]] {
        for length in [0, 1] {
            let mut built = Codestream::default();
            built.soc().segment_saying(COM, length, &after).marker(SOT);
            payloads.push(built.bytes);
        }
    }
    for size in [254, 255, 256] {
        let mut built = Codestream::default();
        built.soc().segment(COM, &vec![0; size]).marker(SOT);
        payloads.push(built.bytes);
    }
    payloads
}
