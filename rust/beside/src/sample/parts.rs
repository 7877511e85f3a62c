//! Tile-parts one behind the other, sound and not.

use super::codestream::{Codestream, EOC, SOT};
use crate::random::Random;

pub const SOT_BYTES: usize = 12;

/// A few tile-parts and what may follow them.
pub fn tile_parts(random: &mut Random) -> Vec<u8> {
    let mut built = Codestream::default();
    for _ in 0..random.below(6) {
        tile_part(random, &mut built);
    }
    if !random.once_in(6) {
        last_part(random, &mut built);
    }
    after(random, &mut built);
    built.bytes
}

/// A Psot that fits, most of the time; a body in which SOT may stand.
fn tile_part(random: &mut Random, built: &mut Codestream) {
    let any = random.number() as u16;
    let isot = random.pick(&[0, 1, 5, 255, 256, 65_535, any]);
    let size = random.below(16);
    let mut body = random.bytes(size);
    if size > 2 && random.once_in(2) {
        body[1..3].copy_from_slice(&SOT.to_be_bytes());
    }
    let psot = SOT_BYTES + size;
    match random.below(24) {
        // Shorter than SOT itself: the next is looked for inside it.
        0 => built.sot(isot, random.below(SOT_BYTES) as u32, 0, 1),
        1 => built.sot(isot, random.number() as u32, 0, 1),
        2 => built.segment_saying(SOT, random.below(20) as u16, &[0; 8]),
        _ => built.sot(isot, psot as u32, random.byte(), random.byte()),
    };
    built.raw(&body);
}

/// Psot 0, the rest, or one or two to either side of it, with `after` not yet there.
fn last_part(random: &mut Random, built: &mut Codestream) {
    let size = random.below(8);
    let rest = SOT_BYTES + size;
    let psot = match random.below(3) {
        0 => 0,
        1 => rest,
        _ => rest + random.below(5) - 2,
    };
    built.sot(3, psot as u32, 0, 0).raw(&random.bytes(size));
}

fn after(random: &mut Random, built: &mut Codestream) {
    let count = random.below(15);
    match random.below(5) {
        0 => built.eoc(),
        1 => built.eoc().raw(&vec![0; count]),
        2 => built.raw(&vec![0; count]),
        3 => built.raw(&EOC.to_be_bytes()[..1]),
        _ => built,
    };
}

/// `count` parts of `size` bytes each, of tiles 0, 1 and so on.
pub fn many(count: usize, size: usize) -> Vec<u8> {
    let mut built = Codestream::default();
    let body = vec![0x5A; size - SOT_BYTES];
    for isot in 0..count {
        built.tile_part(isot as u16, &body);
    }
    built.bytes
}

/// `count` parts of `least` bytes and fewer than `more` more, each with an index and numbers of its own.
pub fn varied(random: &mut Random, count: usize, least: usize, more: usize) -> Vec<u8> {
    let mut built = Codestream::default();
    for number in 0..count {
        let size = least + random.below(more);
        built
            .sot(number as u16, size as u32, random.byte(), random.byte())
            .raw(&vec![0x5A; size - SOT_BYTES]);
    }
    built.bytes
}

/// What may stand behind sound parts: nothing, EOC, a last part with Psot 0, and each of the refusals.
pub fn endings() -> Vec<Vec<u8>> {
    let mut lsot_9 = Codestream::default();
    lsot_9.segment_saying(SOT, 9, &[0; 8]);
    vec![
        vec![],
        EOC.to_be_bytes().to_vec(),
        sot(7, 0),
        [sot(7, 0), vec![0; 5]].concat(),
        SOT.to_be_bytes().to_vec(),
        lsot_9.bytes,
        sot(7, 13),
    ]
}

/// A SOT with these fields.
pub fn sot(isot: u16, psot: u32) -> Vec<u8> {
    let mut built = Codestream::default();
    built.sot(isot, psot, 0, 1);
    built.bytes
}

/// The edges of the scan and the split (docs/RULES.md, "Edges"), with their neighbours: Psot around the rest and
/// around SOT's own size, each Lsot near 10, and everything short that may follow a part.
pub fn edges() -> Vec<Vec<u8>> {
    let mut edges = Vec::new();
    for psot in (0..=30).chain([u32::MAX - 1, u32::MAX]) {
        for after in [0, 1, 2, 10, 11, 12] {
            edges.push([sot(7, psot), vec![0; after]].concat());
        }
    }
    for lsot in [0, 1, 9, 10, 11, 266, 2560, 65_535] {
        let mut built = Codestream::default();
        built
            .tile_part(1, &[1, 2])
            .segment_saying(SOT, lsot, &[0; 8]);
        edges.push(built.bytes);
    }
    let tails: [&[u8]; 8] = [
        &[],
        &[0xFF],
        &[0xFF, 0xD9],
        &[0xFF, 0xD9, 0],
        &[0xFF, 0x90],
        &[0xFF, 0x91],
        &[0x90, 0xFF],
        &[0xFF, 0x93, 0xFF, 0xD9],
    ];
    for tail in tails {
        for more in [0, 7, 8, 9, 10, 11, 12] {
            let mut built = Codestream::default();
            built.tile_part(2, &[9, 9]).raw(tail).raw(&vec![0; more]);
            edges.push(built.bytes);
        }
    }
    edges
}
