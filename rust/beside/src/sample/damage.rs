//! Damage: bytes flipped, replaced, put in, taken out and cut off.

use super::TELLING;
use crate::random::Random;

/// A copy with one to four things done to it.
pub fn damaged(random: &mut Random, bytes: &[u8]) -> Vec<u8> {
    let mut copy = bytes.to_vec();
    damage(random, &mut copy);
    copy
}

/// Does one to four things to `bytes`.
pub fn damage(random: &mut Random, bytes: &mut Vec<u8>) {
    for _ in 0..=random.below(4) {
        once(random, bytes);
    }
}

fn once(random: &mut Random, bytes: &mut Vec<u8>) {
    let at = random.below(bytes.len() + 1);
    match random.below(8) {
        0 => put_in(random, bytes, at),
        1 => take_out(random, bytes, at),
        // Cut short more rarely than the rest: it leaves less to go wrong.
        2 if random.once_in(2) => bytes.truncate(at),
        3 | 4 => {
            if let Some(byte) = bytes.get_mut(at) {
                *byte ^= 1 << random.below(8);
            }
        }
        _ => {
            if let Some(byte) = bytes.get_mut(at) {
                *byte = telling_or_any(random);
            }
        }
    }
}

fn put_in(random: &mut Random, bytes: &mut Vec<u8>, at: usize) {
    let count = 1 + random.below(4);
    let new: Vec<u8> = (0..count).map(|_| telling_or_any(random)).collect();
    bytes.splice(at..at, new);
}

fn take_out(random: &mut Random, bytes: &mut Vec<u8>, at: usize) {
    let end = bytes.len().min(at + 1 + random.below(4));
    bytes.drain(at..end);
}

fn telling_or_any(random: &mut Random) -> u8 {
    if random.once_in(4) {
        random.byte()
    } else {
        random.pick(&TELLING)
    }
}

#[cfg(test)]
mod tests {
    use super::damage;
    use crate::random::Random;
    use crate::sample::sample_a;

    #[test]
    fn damage_is_the_same_for_the_same_seed() {
        let (mut one, mut other) = (sample_a(), sample_a());
        damage(&mut Random::new(3), &mut one);
        damage(&mut Random::new(3), &mut other);
        assert_eq!(one, other);
    }

    #[test]
    fn damage_copes_with_nothing_at_all() {
        let mut random = Random::new(4);
        for _ in 0..1000 {
            damage(&mut random, &mut Vec::new());
        }
    }
}
