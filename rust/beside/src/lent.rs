//! What is lent to a function, and how it stands afterwards.

use std::fmt::{self, UpperHex};

use crate::model::{Refusal, ROW};
use crate::random::Random;

/// The status, `V` numbers and `M` stretches of memory: of bytes, or of the numbers that an index is.
#[derive(Clone, PartialEq)]
pub struct Lent<const V: usize, const M: usize, T = u8> {
    pub status: u32,
    pub values: [u64; V],
    pub memory: [Vec<T>; M],
}

impl<const V: usize, const M: usize> Lent<V, M> {
    /// Numbers and bytes at random, so that one left alone shows; now and then zeros, as memory is that was
    /// just allocated, or zeros but for one byte.
    pub fn preset(random: &mut Random, sizes: [usize; M]) -> Self {
        Lent {
            status: u32::MAX,
            values: [(); V].map(|()| random.number()),
            memory: sizes.map(|size| bytes(random, size)),
        }
    }
}

impl<const V: usize, const M: usize, T: Copy> Lent<V, M, T> {
    /// Numbers at random, and this memory.
    pub fn holding(random: &mut Random, memory: [Vec<T>; M]) -> Self {
        Lent {
            status: u32::MAX,
            values: [(); V].map(|()| random.number()),
            memory,
        }
    }

    /// As `call` leaves a copy of it.
    pub fn left_by(&self, call: impl FnOnce([&mut [T]; M], &mut [u64; V]) -> u32) -> Self {
        let mut lent = self.clone();
        let memory = lent.memory.each_mut().map(Vec::as_mut_slice);
        lent.status = call(memory, &mut lent.values);
        lent
    }

    /// As a refusal leaves it: all but the first number untouched.
    pub fn refused(mut self, refusal: Refusal) -> Self {
        self.status = refusal.number;
        self.values[0] = refusal.place;
        self
    }

    /// As a status leaves it that says there is nothing of the kind: all numbers untouched too.
    pub fn none(mut self, status: u32) -> Self {
        self.status = status;
        self
    }

    /// As an answer leaves it: what is beyond the bytes written untouched.
    pub fn accepted(mut self, values: [u64; V], written: [&[T]; M]) -> Self {
        self.status = 0;
        self.values = values;
        for (memory, items) in self.memory.iter_mut().zip(written) {
            memory[..items.len()].copy_from_slice(items);
        }
        self
    }
}

impl<const V: usize, const M: usize, T: UpperHex> fmt::Debug for Lent<V, M, T> {
    fn fmt(&self, out: &mut fmt::Formatter) -> fmt::Result {
        write!(out, "status {}, numbers {:?}", self.status, self.values)?;
        let digits = 2 * size_of::<T>();
        for memory in &self.memory {
            write!(out, ", memory ")?;
            for item in memory {
                write!(out, "{item:0digits$X}")?;
            }
        }
        Ok(())
    }
}

fn bytes(random: &mut Random, size: usize) -> Vec<u8> {
    let zeros = random.below(8);
    if zeros > 2 {
        return random.fill(size);
    }
    let mut bytes = vec![0; size];
    if zeros == 0 && size > 0 {
        bytes[random.below(size)] = 1 + random.below(255) as u8;
    }
    bytes
}

/// Bytes of a table of so many `entries`, and of a part of a row behind them, which is none.
pub fn table(random: &mut Random, entries: usize) -> usize {
    table_of(random, ROW, entries)
}

/// The same, of rows of another size.
pub fn table_of(random: &mut Random, row: usize, entries: usize) -> usize {
    row * entries + random.below(row)
}

/// Room for `needed` things: mostly as much as that, often one less, and now and then none or more.
pub fn room(random: &mut Random, needed: usize) -> usize {
    match random.below(8) {
        0 | 1 => needed.saturating_sub(1),
        2 => needed + random.below(20),
        3 if needed > 0 => random.below(needed),
        _ => needed,
    }
}

#[cfg(test)]
mod tests {
    use super::Lent;
    use crate::model::Refusal;
    use crate::random::Random;

    #[test]
    fn what_an_answer_does_not_write_stays() {
        let before = Lent::<2, 1>::preset(&mut Random::new(5), [4]);
        let after = before.clone().accepted([1, 2], [&[8, 9]]);
        assert_eq!(after.memory[0][..2], [8, 9]);
        assert_eq!(after.memory[0][2..], before.memory[0][2..]);
        let left = before.left_by(|[memory], values| {
            memory[..2].copy_from_slice(&[8, 9]);
            *values = [1, 2];
            0
        });
        assert_eq!(left, after);
        let refused = before.clone().refused(Refusal::new(3, 7));
        assert_eq!((refused.status, refused.values[0]), (3, 7));
        assert_eq!(refused.values[1], before.values[1]);
        assert_eq!(refused.memory, before.memory);
    }

    #[test]
    fn what_is_lent_is_told_in_hex() {
        let random = &mut Random::new(5);
        let bytes = Lent::<0, 2>::holding(random, [vec![1, 0xAB], Vec::new()]);
        let text = "status 4294967295, numbers [], memory";
        assert_eq!(format!("{bytes:?}"), format!("{text} 01AB, memory "));
        let keys = Lent::<0, 1, u64>::holding(random, [vec![5, 7 << 48]]);
        let digits = "00000000000000050007000000000000";
        assert_eq!(format!("{keys:?}"), format!("{text} {digits}"));
    }
}
