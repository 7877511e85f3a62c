//! Headers of SOC and SIZ with components of every kind: signed and not, subsampled by odd numbers, very
//! many, not held by their segment, and 0 apart; and what they are asked for.

use super::sizes::{self, Fields};
use crate::model::{read, Area};
use crate::random::Random;

/// A component's Ssiz, XRsiz and YRsiz.
pub type Sampling = [u8; 3];

/// As many as are accepted.
pub const MOST: usize = 16_384;
/// As many as Lsiz can say.
pub const MOST_SAID: usize = 21_832;

/// Lsiz and Csiz are those of `components`.
pub fn header(fields: Fields, components: &[Sampling]) -> Vec<u8> {
    let csiz = components.len() as u16;
    saying(fields, 38 + 3 * csiz, csiz, components)
}

/// Lsiz and Csiz say what they like.
pub fn saying(fields: Fields, lsiz: u16, csiz: u16, components: &[Sampling]) -> Vec<u8> {
    let mut header = sizes::header(fields);
    header[4..6].copy_from_slice(&lsiz.to_be_bytes());
    header[40..42].copy_from_slice(&csiz.to_be_bytes());
    header.truncate(42);
    header.extend(components.as_flattened());
    header
}

/// Components whose samplings differ from each other.
pub fn many(count: usize) -> Vec<Sampling> {
    let sampling = |k: usize| [k, k / 7 % 255 + 1, k / 3 % 255 + 1].map(|number| number as u8);
    (0..count).map(sampling).collect()
}

/// A header, mostly whole, and a tile's index that mostly has to do with it.
pub fn header_and_index(random: &mut Random) -> (Vec<u8>, u16) {
    let fields = sizes::fields(random);
    let isot = sizes::index(random, &fields);
    let mut components = samplings(random);
    if random.once_in(12) {
        let at = random.below(components.len());
        components[at][1 + random.below(2)] = 0;
    }
    let mut header = header(fields, &components);
    match random.below(24) {
        0 => header.truncate(random.below(header.len() + 1)),
        1 => header[2 + random.below(2)] = random.byte(),
        2 | 3 => amiss(random, &mut header),
        4..=8 => {
            let size = random.below(12);
            header.extend(random.bytes(size));
        }
        _ => {}
    }
    (header, isot)
}

/// Few, mostly; now and then as many as may be, or more.
fn samplings(random: &mut Random) -> Vec<Sampling> {
    let count = match random.below(1024) {
        0 => random.pick(&[MOST - 1, MOST, MOST, MOST + 1, MOST_SAID]),
        1..=16 => 1 + random.below(300),
        17..=256 => 1 + random.below(30),
        _ => 1 + random.below(4),
    };
    let apart = |random: &mut Random| match random.below(3) {
        0 => 1,
        1 => 1 + random.below(4) as u8,
        _ => 1 + random.below(255) as u8,
    };
    let mut sampling = || [random.byte(), apart(random), apart(random)];
    (0..count).map(|_| sampling()).collect()
}

/// Lsiz or Csiz misses what is there, with and without bytes behind.
fn amiss(random: &mut Random, header: &mut Vec<u8>) {
    let at = random.pick(&[4, 40]);
    let said = read(header, at, 2).expect("SIZ is whole") as u16;
    let near = said
        .wrapping_add(random.below(7) as u16)
        .wrapping_sub(random.pick(&[3, 4]));
    let instead = random.pick(&[near, near, said / 4, 0]);
    header[at as usize..][..2].copy_from_slice(&instead.to_be_bytes());
    header.resize(header.len() + random.pick(&[0, 2, 9]), 1);
}

/// Past 16 and 32 bits, and such that three times each passes 32 or 64 bits by little.
const FAR: [u64; 12] = [
    65_535,
    65_536,
    65_537,
    0x5555_5556,
    0xFFFF_FFFF,
    1 << 32,
    (1 << 32) + 1,
    0x5555_5555_5555_5548,
    0x5555_5555_5555_5556,
    0xAAAA_AAAA_AAAA_AAAB,
    u64::MAX - 1,
    u64::MAX,
];

/// The first and the last components that a codestream says and that it has bytes for, the next ones, and
/// some that are far from it.
pub fn every_number(codestream: &[u8]) -> Vec<u64> {
    let said = read(codestream, 40, 2).unwrap_or(0);
    let held = codestream.len().saturating_sub(42) as u64 / 3;
    let around = |count: u64| count.saturating_sub(2)..=count + 1;
    let mut numbers: Vec<_> = (0..2).chain(around(said)).chain(around(held)).collect();
    numbers.extend(FAR);
    numbers.sort();
    numbers.dedup();
    numbers
}

/// Mostly of a component that is there.
pub fn number_of(random: &mut Random, codestream: &[u8]) -> u64 {
    let said = read(codestream, 40, 2).unwrap_or(0);
    match random.below(16) {
        0 => random.spread(),
        1 => random.pick(&FAR),
        2 => 0,
        3..=6 => (said + random.below(3) as u64).saturating_sub(2),
        _ => random.number() % said.max(1),
    }
}

/// Four numbers, which need not be in order.
pub fn any_area(random: &mut Random) -> Area {
    [(); 4].map(|()| match random.below(3) {
        0 => random.below(600) as u32,
        1 => u32::MAX - random.below(600) as u32,
        _ => random.spread() as u32,
    })
}

#[cfg(test)]
mod tests {
    use super::{every_number, header, many};
    use crate::sample::sample_a;
    use crate::sample::sizes::SAMPLE_A;

    #[test]
    fn one_component_is_sample_a_s() {
        assert_eq!(header(SAMPLE_A, &[[7, 1, 1]]), sample_a()[..45]);
    }

    #[test]
    fn no_sampling_is_0() {
        let components = many(1000);
        assert!(components.iter().all(|[_, x, y]| *x > 0 && *y > 0));
        assert_eq!(components[999], [231, 143, 79]);
    }

    #[test]
    fn numbers_around_the_last() {
        let numbers = every_number(&header(SAMPLE_A, &many(9)));
        assert_eq!(numbers[..8], [0, 1, 7, 8, 9, 10, 65_535, 65_536]);
    }
}
