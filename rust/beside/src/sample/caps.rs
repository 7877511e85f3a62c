//! Headers with CAP, announced and not, sound and not: what the newer edition makes of them by hand, and
//! random ones.

use super::codestream::{Codestream, CAP, COM, SIZ, SOD, SOT, TLM};
use super::numbers::Refused;
use crate::random::Random;

/// Rsiz with bit 14, by which CAP is announced, alone and with every other; the others alone.
const ANNOUNCED: u16 = 0x4000;
const ALL: u16 = 0xFFFF;
const ALL_OTHERS: u16 = 0xBFFF;

/// SOC, and SIZ with nothing but Rsiz.
const FRONT: u64 = 8;

/// Lcap, which is what is written, and Pcap.
pub type Cap = (u16, u32);

/// CAP of one part, the 15th, as high-throughput files have it: 10 bytes.
pub const ONE: Cap = (8, 1 << 17);

/// Each is accepted by the older.
pub fn by_hand() -> Vec<(Vec<u8>, Refused)> {
    let second = FRONT + 10;
    let mut cases = vec![
        // bytes 6 and 7 are the SOT
        (
            vec![0xFF, 0x4F, 0xFF, 0x51, 0, 2, 0xFF, 0x90],
            Some((33, 2)),
        ),
        (with(0, &[]), None),
        (with(ALL_OTHERS, &[]), None),
        (with(ANNOUNCED, &[]), Some((33, 2))),
        (with(ALL, &[]), Some((33, 2))),
        (with(0, &[ONE]), Some((33, FRONT))),
        (with(ALL_OTHERS, &[ONE]), Some((33, FRONT))),
        // 14 by another order of bytes or bits
        (with(0x0040, &[]), None),
        (with(0x8000, &[ONE]), Some((33, FRONT))),
        (with(0x2000, &[ONE]), Some((33, FRONT))),
        (with(ANNOUNCED, &[ONE]), None),
        (with(ALL, &[ONE]), None),
        (with(ANNOUNCED, &[ONE, ONE]), Some((33, second))),
        (with(ANNOUNCED, &[ONE, ONE, ONE]), Some((33, second))),
        (with(0, &[ONE, ONE]), Some((33, FRONT))),
        // 33 before 34, whichever is the wrong one
        (with(ANNOUNCED, &[(8, 0), ONE]), Some((33, second))),
        (with(ANNOUNCED, &[ONE, (8, 0)]), Some((33, second))),
        (with(0, &[(8, 0)]), Some((33, FRONT))),
    ];
    let wrong = |cap: Cap| (with(ANNOUNCED, &[cap]), Some((34, FRONT)));
    let sound = |cap: Cap| (with(ANNOUNCED, &[cap]), None);
    cases.extend([
        sound((6, 0)),
        wrong((6, 1)),
        wrong((7, 0)),
        wrong((7, 1)),
        wrong((8, 0)),
        sound((8, 1)),
        sound((8, 1 << 31)),
        wrong((8, 3)),
        sound((10, 3)),
        wrong((10, 1)),
        wrong((9, 3)),
        sound((70, u32::MAX)),
        wrong((68, u32::MAX)),
        wrong((72, u32::MAX)),
        sound((68, u32::MAX - 1)),
        wrong((38, u32::MAX)),
        wrong((65_535, u32::MAX)),
    ]);
    // of Lcap below 6 the bits are what stands behind
    cases.extend((2..6).map(|lcap| wrong((lcap, 0))));
    cases.extend(elsewhere());
    cases
}

/// CAP's code inside a segment, and behind the first SOT; CAP behind other segments.
fn elsewhere() -> Vec<(Vec<u8>, Refused)> {
    let inside = |rsiz| {
        let mut built = opened(rsiz);
        built
            .segment(COM, &[0xFF, 0x50, 0, 6, 0, 0, 0, 0])
            .marker(SOT);
        built.bytes
    };
    let behind = |rsiz| {
        let mut built = opened(rsiz);
        built.marker(SOT).raw(&[0, 10, 0, 0, 0, 0, 0, 0, 0, 1]);
        cap(&mut built, ONE);
        built.marker(SOD);
        built.bytes
    };
    let between = |rsiz| {
        let mut built = opened(rsiz);
        built.segment(COM, &[1]).segment(TLM, &[0, 0x10, 5, 0, 16]);
        cap(&mut built, ONE);
        built.segment(TLM, &[0, 0x10, 5, 0, 16]).marker(SOT);
        built.bytes
    };
    vec![
        (inside(0), None),
        (inside(ANNOUNCED), Some((33, 2))),
        (behind(0), None),
        (behind(ANNOUNCED), Some((33, 2))),
        (between(ANNOUNCED), None),
        (between(0), Some((33, FRONT + 5 + 9))),
    ]
}

/// Mostly sound but for one thing.
pub fn few(random: &mut Random) -> Vec<u8> {
    let announced = random.once_in(2);
    let others = random.number() as u16 & ALL_OTHERS;
    let mut built = opened(others | if announced { ANNOUNCED } else { 0 });
    let caps = match random.below(8) {
        0 => 2,
        1 => usize::from(!announced),
        _ => usize::from(announced),
    };
    for _ in 0..caps {
        if random.once_in(4) {
            built.segment(COM, &[0; 3]);
        }
        random_cap(random, &mut built);
    }
    if random.once_in(3) {
        built.segment(TLM, &[0, 0x10, 5, 0, 16]);
    }
    built.marker(SOT);
    built.bytes
}

fn random_cap(random: &mut Random, built: &mut Codestream) {
    let [some, others] = [random.number() as u32, random.number() as u32];
    let pcap = random.pick(&[0, 1 << 17, some, some & others, u32::MAX]);
    let right = 6 + 2 * pcap.count_ones() as u16;
    let lcap = match random.below(8) {
        0 => right + 1 + random.below(3) as u16,
        1 => right.saturating_sub(1 + random.below(3) as u16).max(2),
        2 => 2 + random.below(6) as u16,
        _ => right,
    };
    cap(built, (lcap, pcap));
}

/// `count` segments, CAP, as many again, and SOT.
pub fn among(count: usize) -> Vec<u8> {
    let mut built = opened(ANNOUNCED);
    for _ in 0..count {
        built.segment(COM, &[]);
    }
    cap(&mut built, ONE);
    for _ in 0..count {
        built.segment(COM, &[]);
    }
    built.marker(SOT);
    built.bytes
}

/// SOC, SIZ with this Rsiz, these CAP, and SOT.
pub fn with(rsiz: u16, caps: &[Cap]) -> Vec<u8> {
    let mut built = opened(rsiz);
    for &written in caps {
        cap(&mut built, written);
    }
    built.marker(SOT);
    built.bytes
}

/// One CAP of this Lcap, announced.
pub fn one(lcap: u16, pcap: u32) -> Vec<u8> {
    with(ANNOUNCED, &[(lcap, pcap)])
}

fn opened(rsiz: u16) -> Codestream {
    let mut built = Codestream::default();
    built.soc().segment(SIZ, &rsiz.to_be_bytes());
    built
}

fn cap(built: &mut Codestream, (lcap, pcap): Cap) {
    let mut body = pcap.to_be_bytes().to_vec();
    body.resize(usize::from(lcap.max(2)) - 2, 0);
    built.segment_saying(CAP, lcap, &body);
}
