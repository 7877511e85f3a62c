//! Headers with TLM segments of every form, behind a SIZ that is a marker and a length of 2.

use super::codestream::{Codestream, Tlm, COM, EPH, SOT, TLM};

/// ST in bits 5-4, SP in bit 6; 3 is no ST.
pub const STLM: [u8; 8] = [0x00, 0x10, 0x20, 0x30, 0x40, 0x50, 0x60, 0x70];

/// Every Stlm, with bodies from too short to three entries, none of which need be whole.
pub fn one() -> Vec<Vec<u8>> {
    let mut built = Vec::new();
    for stlm in STLM {
        for size in 0..=13 {
            let mut body: Vec<u8> = (0..size).collect();
            if let Some(second) = body.get_mut(1) {
                *second = stlm | 0x8F;
            }
            built.push(header(|header| header.segment(TLM, &body)));
        }
    }
    built
}

/// Two segments of each pair of forms, with something between them.
pub fn pairs() -> Vec<Vec<u8>> {
    let mut built = Vec::new();
    for first in STLM {
        for second in STLM {
            let tlm = |stlm, ztlm| Tlm {
                ztlm,
                stlm,
                entries: vec![(300, 0xFFFF_FFFE), (7, 0x0001_0002)],
            };
            built.push(header(|header| {
                header.tlm(&tlm(first, 1)).marker(EPH).segment(COM, &[1]);
                header.tlm(&tlm(second, 0))
            }));
        }
    }
    built
}

/// Ltlm from 0 to 7 and Stlm sound and not, whatever follows.
pub fn odd_lengths() -> Vec<Vec<u8>> {
    let mut built = Vec::new();
    for length in 0..=7 {
        for stlm in [0x00, 0x30, 0x50] {
            let after = [0, stlm, 0, 2, 0, 2];
            built.push(header(|header| header.segment_saying(TLM, length, &after)));
        }
    }
    built
}

/// `segments` TLM segments of `entries` entries each.
pub fn many(segments: usize, entries: usize, stlm: u8) -> Vec<u8> {
    header(|header| {
        for ztlm in 0..segments {
            let entry = |index| (index as u16, 5000 + index as u32);
            header.tlm(&Tlm {
                ztlm: ztlm as u8,
                stlm,
                entries: (0..entries).map(entry).collect(),
            });
        }
        header
    })
}

fn header(middle: impl Fn(&mut Codestream) -> &mut Codestream) -> Vec<u8> {
    let mut built = super::opened();
    middle(&mut built).marker(SOT);
    built.bytes
}
