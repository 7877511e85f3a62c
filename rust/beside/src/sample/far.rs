//! Headers whose first SOT stands about where growth's regions end, or where none is reached.

use super::codestream::Codestream;
use super::{caps, fillers, headers, numbers};
use crate::random::Random;

const FIRST_REGION: usize = 65_536;
const SIZ_AT: usize = 2;

/// A random header of some kind.
pub fn header(random: &mut Random) -> Vec<u8> {
    match random.below(4) {
        0 => caps::few(random),
        1 => numbers::few(random),
        2 => fillers::header(random),
        _ => headers::codestream(random),
    }
}

/// `header` with comments behind its SIZ, so many bytes, and others behind all of it.
pub fn padded(header: &[u8], bytes: usize, behind: usize) -> Vec<u8> {
    let (front, rest) = header.split_at(behind_siz(header));
    let mut built = Codestream::default();
    built.raw(front).pad_to(front.len() + bytes).raw(rest);
    built.bytes.resize(built.bytes.len() + behind, 0x90);
    built.bytes
}

/// A header of some kind, as far out as growth's first three regions reach, and some bytes behind it.
pub fn out(random: &mut Random) -> Vec<u8> {
    let header = header(random);
    let end = (FIRST_REGION << random.below(3)) + random.below(9);
    let bytes = end.saturating_sub(header.len() + random.below(2 * header.len() + 1));
    padded(&header, bytes.max(4), random.below(3 * FIRST_REGION))
}

/// Behind SOC where SIZ passes the end.
fn behind_siz(header: &[u8]) -> usize {
    let length = header.get(SIZ_AT + 2..SIZ_AT + 4);
    let length = length.map_or(0, |bytes| {
        usize::from(bytes[0]) << 8 | usize::from(bytes[1])
    });
    match SIZ_AT + 2 + length {
        end if end <= header.len() => end,
        _ => SIZ_AT.min(header.len()),
    }
}

#[cfg(test)]
mod tests {
    use super::padded;
    use crate::model::header::main_header_extent;
    use crate::sample::{sample_a, SAMPLE_A_FIRST_SOT};

    #[test]
    fn comments_move_the_first_sot() {
        let sample = sample_a();
        for bytes in [4, 5, 65_537, 65_538, 200_000] {
            let moved = padded(&sample, bytes, 3);
            let first_sot = (SAMPLE_A_FIRST_SOT + bytes) as u64;
            assert_eq!(main_header_extent(&moved), Some(first_sot));
            assert_eq!(moved.len(), sample.len() + bytes + 3);
        }
        assert_eq!(padded(&[], 4, 0).len(), 4);
        assert_eq!(padded(&[0xFF, 0x4F, 0xFF], 4, 0)[..3], [0xFF, 0x4F, 0xFF]);
    }
}
