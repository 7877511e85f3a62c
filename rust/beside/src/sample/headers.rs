//! Random codestreams that are built as headers are: segments of every kind, TLM of every form,
//! delimiters sound and odd, lengths of 0, 1 and 2, tile-parts, and now and then a cut.

use super::codestream::{Codestream, Siz, Tlm, COC, COD, COM, EPH, QCD, SIZ, SOT, TLM};
use crate::random::Random;

/// A main header, tile-parts and EOC; about half would pass for sound.
pub fn codestream(random: &mut Random) -> Vec<u8> {
    let mut built = Codestream::default();
    main_header(random, &mut built);
    tile_parts(random, &mut built);
    if random.once_in(4) {
        let end = random.below(built.bytes.len() + 1);
        built.bytes.truncate(end);
    }
    built.bytes
}

/// `count` of these, none longer than `longest`.
pub fn short_ones(random: &mut Random, count: usize, longest: usize) -> Vec<Vec<u8>> {
    let mut built = Vec::new();
    while built.len() < count {
        let next = codestream(random);
        if next.len() <= longest {
            built.push(next);
        }
    }
    built
}

/// Headers that stop at each refusal of the walk, and just don't.
pub fn stops() -> Vec<Vec<u8>> {
    let mut built = Vec::new();
    let tails: [&[u8]; 16] = [
        &[],
        &[0xFF],
        &[0xFF, 0x64],
        &[0xFF, 0x64, 0x00],
        &[0xFF, 0x64, 0x00, 0x00],
        &[0xFF, 0x64, 0x00, 0x01],
        &[0xFF, 0x64, 0x00, 0x01, 0x30],
        &[0xFF, 0x64, 0x00, 0x02],
        &[0xFF, 0x64, 0x00, 0x03],
        &[0xFF, 0x55, 0x00, 0x04],
        &[0xFF, 0x55, 0x00, 0x04, 0x00],
        &[0xFF, 0x55, 0x00, 0x03, 0x00],
        &[0xFF, 0x55, 0x00, 0x04, 0x00, 0x30],
        &[0xFF, 0x55, 0x00, 0x05, 0x00, 0x30],
        &[0x00, 0x92],
        &[0x30, 0x3F, 0x92, 0x90],
    ];
    for tail in tails {
        for end in [&[][..], &[0xFF], &[0xFF, 0x90]] {
            let mut whole = super::opened();
            whole.raw(tail).raw(end);
            built.push(whole.bytes);
        }
    }
    built
}

/// SOC up to where the first SOT belongs.
pub fn main_header(random: &mut Random, built: &mut Codestream) {
    built.soc();
    if !random.once_in(16) {
        siz(random, built);
    }
    for _ in 0..random.below(10) {
        match random.below(10) {
            0..=2 => segment(random, built),
            3..=5 => tlm(random, built),
            6 | 7 => delimiter(random, built),
            8 => short_segment(random, built),
            _ if random.once_in(64) => long_segment(random, built),
            _ => {}
        }
    }
}

fn siz(random: &mut Random, built: &mut Codestream) {
    let mut small = || random.below(64) as u32;
    built.siz(&Siz {
        width: small() + 1,
        height: small() + 1,
        origin: (small() / 8, small() / 8),
        tile_width: small() + 1,
        tile_height: small() + 1,
        tile_origin: (small() / 16, small() / 16),
        components: 1 + small() as u16 / 16,
    });
}

const CODES: [u16; 10] = [COD, COC, QCD, COM, SIZ, TLM, 0xFF2F, 0xFF40, 0xFF91, 0xFF93];

fn segment(random: &mut Random, built: &mut Codestream) {
    let code = match random.below(4) {
        0 => any_code(random),
        _ => random.pick(&CODES),
    };
    let size = random.below(24);
    let body = random.bytes(size);
    built.segment(code, &body);
}

fn any_code(random: &mut Random) -> u16 {
    random.number() as u16
}

fn long_segment(random: &mut Random, built: &mut Codestream) {
    let size = random.below(65_534);
    built.segment(COM, &vec![0x90; size]);
}

fn tlm(random: &mut Random, built: &mut Codestream) {
    let stlm = random.byte();
    let entries = (0..random.below(5))
        .map(|_| (random.below(12) as u16, 12 + random.below(40) as u32))
        .collect();
    built.tlm(&Tlm {
        ztlm: random.below(3) as u8,
        stlm,
        entries,
    });
    if random.once_in(4) {
        partial_tlm(random, built);
    }
}

/// A TLM whose last entry is cut off, or that is too short to have any.
fn partial_tlm(random: &mut Random, built: &mut Codestream) {
    let size = random.below(10);
    let body = random.bytes(size);
    built.segment(TLM, &body);
}

/// Any high byte will do for the walk: half of them are not FF.
fn delimiter(random: &mut Random, built: &mut Codestream) {
    let low = match random.below(3) {
        0 => EPH as u8,
        _ => 0x30 + random.below(16) as u8,
    };
    let high = match random.below(2) {
        0 => 0xFF,
        _ => random.byte(),
    };
    built.raw(&[high, low]);
}

/// Lengths of 0, 1 and 2. The first two end before or within the length field, so the walk goes on
/// from there: what follows is chosen to keep it in step.
fn short_segment(random: &mut Random, built: &mut Codestream) {
    let code = random.pick(&CODES);
    let size = random.below(4);
    let body = random.bytes(size);
    match random.below(5) {
        0 => built.segment_saying(code, 0, &[0, 2]),
        // Marker 0000, whose length field follows.
        1 => built
            .segment_saying(code, 0, &[0, 2 + size as u8])
            .raw(&body),
        // Delimiter 0130 up to 013F, or 0192.
        2 => built.segment_saying(code, 1, &[0x30 + random.below(16) as u8]),
        3 => built.segment_saying(code, 1, &[EPH as u8]),
        _ => built.segment_saying(code, 2, &[]),
    };
}

fn tile_parts(random: &mut Random, built: &mut Codestream) {
    for _ in 0..random.below(4) {
        let isot = random.below(12) as u16;
        let size = random.below(12);
        let body = random.bytes(size);
        match random.below(8) {
            0 => built.marker(SOT),
            1 => built
                .sot(isot, random.below(64) as u32, random.byte(), random.byte())
                .raw(&body),
            _ => built.tile_part(isot, &body),
        };
    }
    if !random.once_in(4) {
        built.eoc();
    }
}

/// Behind what is built, `count` segments of three kinds in turn, and SOT.
pub fn segments(mut built: Codestream, count: usize, body: &[u8]) -> Vec<u8> {
    for code in [COD, QCD, COM].into_iter().cycle().take(count) {
        built.segment(code, body);
    }
    built.marker(SOT);
    built.bytes
}

/// The same of delimiters of one code.
pub fn delimiters(mut built: Codestream, code: u16, count: usize) -> Vec<u8> {
    for _ in 0..count {
        built.marker(code);
    }
    built.marker(SOT);
    built.bytes
}

#[cfg(test)]
mod tests {
    use super::codestream;
    use crate::random::Random;

    #[test]
    fn same_seed_same_codestreams() {
        let (mut one, mut other) = (Random::new(11), Random::new(11));
        for _ in 0..100 {
            assert_eq!(codestream(&mut one), codestream(&mut other));
        }
    }
}
