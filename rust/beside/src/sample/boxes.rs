//! JP2 files: the signature and boxes, sound and not.

use super::codestream::SOC;
use super::prefixes;
use crate::model::reader::{JP2C, SIGNATURE};
use crate::random::Random;

pub const FREE: [u8; 4] = *b"free";
const KINDS: [[u8; 4]; 6] = [FREE, *b"ftyp", *b"jp2h", *b"uuid", *b"jp2i", JP2C];

/// A box whose length field fits its content.
pub fn fitting(kind: [u8; 4], content: &[u8]) -> Vec<u8> {
    saying(kind, 8 + content.len() as u32, content)
}

/// A box whose length field says what it likes.
pub fn saying(kind: [u8; 4], length: u32, content: &[u8]) -> Vec<u8> {
    [&length.to_be_bytes(), &kind, content].concat()
}

/// A box of the extended form, whose length counts 16 bytes and the content if it is sound.
pub fn extended(kind: [u8; 4], length: u64, content: &[u8]) -> Vec<u8> {
    saying(kind, 1, &[&length.to_be_bytes(), content].concat())
}

/// A file of a few boxes; most hold a codestream.
pub fn file(random: &mut Random) -> Vec<u8> {
    let mut file = match random.below(16) {
        0 => SOC.to_be_bytes().to_vec(),
        1 => Vec::new(),
        _ => SIGNATURE.to_vec(),
    };
    for _ in 0..random.below(5) {
        let kind = random.pick(&KINDS[..5]);
        file.extend(any_box(random, kind));
    }
    if !random.once_in(6) {
        file.extend(any_box(random, JP2C));
    }
    if random.once_in(3) {
        let kind = random.pick(&KINDS);
        file.extend(any_box(random, kind));
    }
    if random.once_in(4) {
        file.truncate(random.below(file.len() + 1));
    }
    file
}

fn any_box(random: &mut Random, kind: [u8; 4]) -> Vec<u8> {
    let size = random.below(20);
    let content = random.bytes(size);
    match random.below(24) {
        0 => saying(kind, 0, &content),
        1 => saying(kind, random.below(30) as u32, &content),
        2 => saying(kind, random.number() as u32 >> random.below(32), &content),
        3 => extended(kind, random.below(40) as u64, &content),
        4 => extended(kind, random.spread(), &content),
        5 => extended(kind, u64::MAX - random.below(60) as u64, &content),
        6..=11 => extended(kind, 16 + size as u64, &content),
        _ => fitting(kind, &content),
    }
}

/// `count` boxes before the codestream's.
pub fn many(count: usize, content: &[u8]) -> Vec<u8> {
    let mut file = SIGNATURE.to_vec();
    for _ in 0..count {
        file.extend(fitting(FREE, content));
    }
    file.extend(fitting(JP2C, &[0xFF, 0x4F]));
    file
}

/// Every length at an edge, in both forms, of a codestream's box and another; alone behind the
/// signature, with a codestream's box behind, and cut short.
pub fn edges() -> Vec<Vec<u8>> {
    let mut boxes = Vec::new();
    for kind in [JP2C, FREE] {
        for length in (0..=18).chain([1 << 31, u32::MAX - 1, u32::MAX]) {
            boxes.push(saying(kind, length, &[7; 4]));
        }
        let long = [1 << 32, 1 << 63, u64::MAX - 20, u64::MAX - 19];
        let near = (0..4).flat_map(|less| [u64::MAX - less, u64::MAX - 10 - less]);
        for length in (0..=22).chain(long).chain(near) {
            boxes.push(extended(kind, length, &[7; 4]));
        }
    }
    let mut files = Vec::new();
    for last in boxes {
        let alone = [&SIGNATURE, &last[..]].concat();
        files.push(alone[..alone.len() - 4].to_vec());
        files.push([&alone[..], &fitting(JP2C, &[1, 2, 3])].concat());
        files.push(alone);
    }
    let whole = [
        &SIGNATURE,
        &extended(FREE, 20, &[7; 4])[..],
        &fitting(JP2C, &[5; 3]),
    ]
    .concat();
    files.extend(prefixes(&whole));
    for front in [
        &[0xFF][..],
        &[0xFF, 0x4F],
        &[0x4F, 0xFF],
        &[0xFF, 0x4F, 0xFF, 0x51],
    ] {
        files.push(front.to_vec());
    }
    for at in 0..SIGNATURE.len() {
        let mut broken = whole.clone();
        broken[at] ^= 1;
        files.push(broken);
    }
    files
}
