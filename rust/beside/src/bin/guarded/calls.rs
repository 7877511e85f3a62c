//! Calls in ordinary memory, and with all that is lent between inaccessible pages.

use std::fmt::UpperHex;

use beside::lent::Lent;
use beside::random::Random;
use beside::tally::{hex, Tally};

use super::pages::{Guarded, Side};

/// In bytes, for each thing that is lent.
pub const ROOM: usize = 1 << 20;

/// Where things are lent from: as many of each as a function takes at most.
pub struct Pools {
    inputs: [Guarded; 3],
    keys: Guarded,
    memory: [Guarded; 2],
    numbers: Guarded,
}

impl Pools {
    pub fn new() -> Self {
        let pool = |()| Guarded::new(ROOM);
        Pools {
            inputs: [(); 3].map(pool),
            keys: pool(()),
            memory: [(); 2].map(pool),
            numbers: Guarded::new(1),
        }
    }

    /// What `call` leaves of what stood in `before`.
    fn call<const I: usize, const V: usize, const M: usize, T: Copy>(
        &mut self,
        side: Side,
        inputs: &[Vec<u8>; I],
        keys: &[u64],
        before: &Lent<V, M, T>,
        call: impl Fn([&[u8]; I], &[u64], [&mut [T]; M], &mut [u64; V]) -> u32,
    ) -> Lent<V, M, T> {
        let mut pools = self.inputs.iter_mut();
        let inputs = inputs.each_ref().map(|bytes| {
            let pool = pools.next().expect("a pool for each input");
            pool.shared(side, bytes)
        });
        let keys = self.keys.shared(side, keys);
        let mut pools = self.memory.iter_mut();
        let mut memory = before.memory.each_ref().map(|items| {
            let pool = pools.next().expect("a pool for each stretch of memory");
            pool.exclusive(side, items)
        });
        let values = self.numbers.numbers(side, before.values);
        let lent = memory.each_mut().map(|lent| &mut **lent);
        let status = call(inputs, keys, lent, values);
        Lent {
            status,
            values: *values,
            memory: memory.map(|lent| lent.to_vec()),
        }
    }
}

/// One function's calls under way.
pub struct Calls<'a> {
    pub random: Random,
    pub tally: Tally,
    pub pools: &'a mut Pools,
}

impl Calls<'_> {
    /// Lends `inputs`, and memory of these `sizes`, at either side.
    pub fn call<const I: usize, const V: usize, const M: usize>(
        &mut self,
        inputs: [Vec<u8>; I],
        sizes: [usize; M],
        label: impl Fn(u32) -> &'static str,
        call: impl Fn([&[u8]; I], [&mut [u8]; M], &mut [u64; V]) -> u32,
    ) {
        let before = Lent::preset(&mut self.random, sizes);
        self.call_with(
            inputs,
            Vec::new(),
            before,
            label,
            |inputs, _, memory, values| call(inputs, memory, values),
        );
    }

    /// Lends `inputs` and `keys`, and what stands in `before`, at either side; the answers are to be those
    /// that ordinary memory gives, of exactly the size, so that valgrind sees its ends.
    pub fn call_with<const I: usize, const V: usize, const M: usize, T>(
        &mut self,
        inputs: [Vec<u8>; I],
        keys: Vec<u64>,
        before: Lent<V, M, T>,
        label: impl Fn(u32) -> &'static str,
        call: impl Fn([&[u8]; I], &[u64], [&mut [T]; M], &mut [u64; V]) -> u32,
    ) where
        T: Copy + PartialEq + UpperHex,
    {
        let inputs = inputs.map(|bytes| bytes.as_slice().to_vec());
        let keys = keys.as_slice().to_vec();
        let ordinary = before.left_by(|memory, values| {
            let inputs = inputs.each_ref().map(Vec::as_slice);
            call(inputs, &keys, memory, values)
        });
        let answer = label(ordinary.status);
        for side in [Side::Front, Side::Back] {
            let guarded = self.pools.call(side, &inputs, &keys, &before, &call);
            let input = || {
                let bytes = inputs.each_ref().map(|one| hex(one)).join(", ");
                format!("{side:?}, {bytes}, {keys:X?}")
            };
            self.tally.compare(answer, &guarded, &ordinary, input);
        }
    }
}
