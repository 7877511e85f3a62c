//! The archives held to the lines of docs/RULES.md, with no original at hand.

mod boxes;
mod components;
mod extent;
mod header;
mod index;
mod lengths;
mod parts;
mod reader;
mod tile;

use beside::model::Refusal;

/// What `call` writes into memory of `size` bytes, things of `unit` bytes each, or its refusal. All
/// else there has to stay as it was.
fn written(
    size: usize,
    unit: usize,
    call: impl FnOnce(&mut [u8], &mut u64) -> u32,
) -> Result<Vec<u8>, Refusal> {
    let (mut memory, mut value) = (vec![0xEE; size], 7);
    let (count, refusal) = match call(&mut memory, &mut value) {
        0 => (value as usize, None),
        number => (0, Some(Refusal::new(number, value))),
    };
    let rest = memory.split_off(count * unit);
    assert!(rest.iter().all(|&byte| byte == 0xEE));
    refusal.map_or(Ok(memory), Err)
}
