//! Inputs: sample A, a builder of codestreams, random and telling ones, damage, all short strings.

pub mod boxes;
pub mod caps;
pub mod codestream;
pub mod components;
pub mod damage;
pub mod deliveries;
pub mod far;
pub mod fillers;
pub mod headers;
pub mod indices;
pub mod lengths;
pub mod markers;
pub mod numbers;
pub mod orders;
pub mod parts;
pub mod short;
pub mod sizes;
pub mod tiles;
pub mod tlms;
pub mod trees;
pub mod zeros;

use codestream::{Codestream, Siz, Tlm, SIZ, SOT};

/// Bytes that mean something to the header walk, alone or in pairs.
pub const TELLING: [u8; 19] = [
    0x00, 0x01, 0x02, 0x03, 0x04, 0x2F, 0x30, 0x3F, 0x40, 0x4F, 0x51, 0x52, 0x55, 0x90, 0x91, 0x92,
    0x93, 0xD9, 0xFF,
];

/// Sample A: 10 by 6 in tiles of 4 by 4, one TLM, tile-parts of tiles 0 and 5.
pub fn sample_a() -> Vec<u8> {
    let mut sample = Codestream::default();
    sample
        .soc()
        .siz(&Siz {
            width: 10,
            height: 6,
            tile_width: 4,
            tile_height: 4,
            ..Siz::default()
        })
        .tlm(&Tlm {
            ztlm: 0,
            stlm: 0x10,
            entries: vec![(0, 14), (5, 16)],
        })
        .tile_part(0, &[0xFF, 0x93])
        .tile_part(5, &[0xFF, 0x93, 0xAA, 0xBB])
        .eoc();
    sample.bytes
}

/// SOC and the shortest SIZ that the header walk passes.
pub fn opened() -> Codestream {
    let mut built = Codestream::default();
    built.soc().segment(SIZ, &[]);
    built
}

/// SOC, as few segments as will do, and a SOT at `first_sot`.
pub fn padded(first_sot: usize) -> Vec<u8> {
    let mut built = Codestream::default();
    built.soc().pad_to(first_sot).marker(SOT);
    built.bytes
}

/// All that `bytes` begin with, from nothing to the whole.
pub fn prefixes(bytes: &[u8]) -> impl Iterator<Item = Vec<u8>> + '_ {
    (0..=bytes.len()).map(|end| bytes[..end].to_vec())
}

/// Where sample A's first SOT stands.
pub const SAMPLE_A_FIRST_SOT: usize = 57;

#[cfg(test)]
mod tests {
    use super::{sample_a, SAMPLE_A_FIRST_SOT};

    #[test]
    fn sample_a_is_as_described() {
        let sample = sample_a();
        assert_eq!(sample.len(), 89);
        assert_eq!(sample[..4], [0xFF, 0x4F, 0xFF, 0x51]);
        assert_eq!(sample[4..6], [0, 41]);
        assert_eq!(sample[45..51], [0xFF, 0x55, 0, 10, 0, 0x10]);
        assert_eq!(sample[51..57], [0, 0, 14, 5, 0, 16]);
        for sot in [SAMPLE_A_FIRST_SOT, 71] {
            assert_eq!(sample[sot..sot + 4], [0xFF, 0x90, 0, 10]);
        }
        assert_eq!(sample[87..], [0xFF, 0xD9]);
    }
}
