//! Memory of some gigabytes that stays untouched: zeroed pages come as they are written to.

use super::sample_a;

/// `size` bytes of 0, or nothing, said loudly, where they can't be had.
pub fn zeros(size: usize) -> Option<Vec<u8>> {
    let mut room: Vec<u8> = Vec::new();
    if room.try_reserve_exact(size).is_err() {
        println!("NO MEMORY OF {size} BYTES: THE CASES THAT NEED IT ARE LEFT OUT");
        return None;
    }
    drop(room);
    Some(vec![0; size])
}

/// Zeros, and sample A before zeros: one byte more than may be lent to read a header of.
pub fn each_too_long(mut each: impl FnMut(&[u8])) {
    const TOO_LONG: usize = 1 << 32;
    let Some(mut codestream) = zeros(TOO_LONG) else {
        return;
    };
    let sample = sample_a();
    for front in [&[][..], &sample] {
        codestream[..front.len()].copy_from_slice(front);
        each(&codestream);
    }
}
