//! "SIZ reading", "Codestream search", "Growth".

use super::{read, Range, Refusal};
use crate::sample::codestream::{SIZ, SOC};

/// Width, height, components, bits of a component, and 1 if it is signed.
pub type Size = [u64; 5];

const SIZ_BYTES: usize = 41;

pub fn parse_siz_marker(codestream: &[u8]) -> Result<Size, Refusal> {
    let mut at = 2;
    loop {
        let stopped = Refusal::new(21, at);
        let marker = read(codestream, at, 2).ok_or(stopped)?;
        if marker == SIZ.into() {
            let from = &codestream[at as usize..];
            let siz = from.get(..SIZ_BYTES).ok_or(Refusal::new(20, at))?;
            return size(siz).ok_or(Refusal::new(22, at));
        }
        at += match marker >> 8 {
            0xFF => 2 + read(codestream, at + 2, 2).ok_or(stopped)?,
            _ => 1,
        };
    }
}

fn size(siz: &[u8]) -> Option<Size> {
    let field = |at| read(siz, at, 4).expect("SIZ is whole");
    let ssiz = u64::from(siz[40]);
    Some([
        field(6).checked_sub(field(14))?,
        field(10).checked_sub(field(18))?,
        field(36) & 0xFFFF,
        ssiz % 128 + 1,
        ssiz / 128,
    ])
}

/// UInt8 0, Int8 1, UInt16 2, Int16 3, UInt32 4, Int32 5.
pub fn pixel_type(bits: u8, signed: bool) -> u32 {
    let unsigned = match bits {
        1..=8 => 0,
        9..=16 => 2,
        17..=32 => 4,
        _ => return 0,
    };
    unsigned + u32::from(signed)
}

pub const SIGNATURE: [u8; 12] = *b"\0\0\0\x0CjP  \x0D\x0A\x87\x0A";
pub const JP2C: [u8; 4] = *b"jp2c";

/// Where the codestream starts in the file, and its length.
pub fn find_codestream(file: &[u8]) -> Result<Range, Refusal> {
    let length = file.len() as u64;
    if length < 2 {
        return Err(Refusal::new(11, 0));
    }
    if !file.starts_with(&SIGNATURE) {
        return match read(file, 0, 2) == Some(SOC.into()) {
            true => Ok((0, length)),
            false => Err(Refusal::new(12, 0)),
        };
    }
    let mut at = 0;
    loop {
        let front = read(file, at, 8).ok_or(Refusal::new(14, at))?;
        let (header, size) = match front >> 32 {
            1 => match at.checked_add(8).and_then(|next| read(file, next, 8)) {
                Some(extended) => (16, extended),
                None => return Err(Refusal::new(13, at)),
            },
            0 => (8, length - at),
            size => (8, size),
        };
        let is_jp2c = (front as u32).to_be_bytes() == JP2C;
        if size < header {
            return Err(Refusal::new(if is_jp2c { 15 } else { 14 }, at));
        }
        let end = at.checked_add(size).ok_or(Refusal::new(16, at))?;
        if is_jp2c {
            let start = at + header;
            return Ok((start, end.min(length) - start));
        }
        at = end;
    }
}

const FIRST_REGION: u64 = 65_536;

pub fn next_region(region: u64, length: u64) -> u64 {
    u64::try_from(u128::from(region) * 2).map_or(length, |doubled| doubled.min(length))
}

/// The region reached and the enlargements, by whether a region holds the whole header.
pub fn grow_header_region(length: u64, is_complete: impl Fn(u64) -> bool) -> (u64, u64) {
    let mut region = FIRST_REGION.min(length);
    let mut enlargements = 0;
    while region < length && !is_complete(region) {
        region = next_region(region, length);
        enlargements += 1;
    }
    (region, enlargements)
}
