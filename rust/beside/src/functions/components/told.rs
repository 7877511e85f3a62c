//! What the original says. It has an answer to a part: its SIZ reading has the image's size, how many
//! components there are, and bits and sign of the first, and panics at 22; its SIZ rewrite has the
//! tile's size by its own rule, and panics at 10; its main header refuses what is refused by 1, 2 and 3
//! here. The rest of an answer is the model's.

use original::markers;

use super::numbers;
use crate::functions::siz;
use crate::judge::Told;
use crate::model::components::{Component, Components};
use crate::model::reader::Size;
use crate::model::{number, Refusal};

#[derive(Clone, Copy)]
pub struct Original {
    accepts_header: fn(&[u8]) -> bool,
    size: fn(&[u8]) -> Option<Size>,
    rewrite: fn(&[u8], u16) -> Vec<u8>,
}

pub const ORIGINAL: Original = Original {
    accepts_header: |codestream| markers::parse_main_header(codestream).is_ok(),
    size: siz::original,
    rewrite: markers::rewrite_siz_for_tile,
};

impl Original {
    /// A header that it accepts where we refuse may be of any size: that differs. Of gigabytes, which the
    /// rewrite would copy, it isn't asked.
    pub fn size(&self, codestream: &[u8], image: &Result<Components, Refusal>) -> Told<Size> {
        match image {
            _ if codestream.len() > 1 << 30 => Told::Nothing,
            Err(Refusal { number: 1..=3, .. }) => {
                Told::by(|| (self.accepts_header)(codestream).then_some([0; 5]))
            }
            Err(refusal) if refusal.is_ours_alone() => Told::Nothing,
            _ => Told::by_or_panic(panics(image), || (self.size)(codestream)),
        }
    }

    /// The same of a tile: full or not, its size is what XTsiz and YTsiz are after the rewrite.
    pub fn size_in_tile(
        &self,
        codestream: &[u8],
        tile: u16,
        [_, _, count, bits, signed]: Size,
        in_tile: &Result<Components, Refusal>,
    ) -> Told<Size> {
        Told::by_or_panic(panics(in_tile), || {
            let rewritten = (self.rewrite)(codestream, tile);
            let [width, height] = [24, 28].map(|at| number(&rewritten[at..at + 4]));
            Some([width, height, count, bits, signed])
        })
    }
}

fn panics(document: &Result<Components, Refusal>) -> bool {
    document.as_ref().is_err_and(Refusal::is_its_panic)
}

/// How many, and the area of this size from the model's corner on.
pub fn counted(size: Size, document: &Result<Components, Refusal>) -> Told<[u64; 5]> {
    let [width, height, count, ..] = size;
    let (_, [x0, y0, ..]) = document.unwrap_or_default();
    let [x0, y0] = [x0, y0].map(u64::from);
    Told::Accepted([count, x0, y0, x0 + width, y0 + height])
}

/// That there is none of this number, or bits and sign of the first.
pub fn component(
    [.., count, bits, signed]: Size,
    which: u64,
    document: &Result<Option<Component>, Refusal>,
) -> Told<Option<[u64; 8]>> {
    let known = document.unwrap_or_default().map(numbers);
    match known {
        _ if which >= count => Told::Accepted(None),
        Some([_, _, xrsiz, yrsiz, x0, y0, x1, y1]) if which == 0 => {
            Told::Accepted(Some([bits, signed, xrsiz, yrsiz, x0, y0, x1, y1]))
        }
        _ => Told::Nothing,
    }
}

#[cfg(test)]
mod tests {
    use super::super::compare::check_with;
    use super::{Original, ORIGINAL};
    use crate::compare::holds_on;
    use crate::sample::sample_a;
    use crate::sample::sizes::header;

    /// On sample A, in a tile of it and in none, without SOC, and ending before it starts.
    fn holds(original: Original) -> bool {
        holds_on::<11, _>(original, |run| {
            check_with(run, &sample_a(), 5, &[0, 1]);
            check_with(run, &sample_a(), 6, &[0]);
            check_with(run, &sample_a()[1..], 0, &[0]);
            check_with(run, &header([10, 6, 11, 0, 4, 4, 0, 0]), 0, &[0]);
        })
    }

    #[test]
    fn another_answer_of_the_original_shows() {
        assert!(holds(ORIGINAL));
        let sizes: [fn(&[u8]) -> _; 7] = [
            |_| None,
            |_| Some([10, 6, 1, 8, 0]),
            |bytes| (ORIGINAL.size)(bytes).map(|[w, h, c, b, s]| [w + 1, h, c, b, s]),
            |bytes| (ORIGINAL.size)(bytes).map(|[w, h, c, b, s]| [w, h + 1, c, b, s]),
            |bytes| (ORIGINAL.size)(bytes).map(|[w, h, c, b, s]| [w, h, c + 1, b, s]),
            |bytes| (ORIGINAL.size)(bytes).map(|[w, h, c, b, s]| [w, h, c, b + 1, s]),
            |bytes| (ORIGINAL.size)(bytes).map(|[w, h, c, b, s]| [w, h, c, b, 1 - s]),
        ];
        for size in sizes {
            assert!(!holds(Original { size, ..ORIGINAL }));
        }
        let rewrites: [fn(&[u8], u16) -> _; 3] = [
            |_, _| panic!("as it may be"),
            |bytes, tile| (ORIGINAL.rewrite)(bytes, tile.min(5)),
            |bytes, tile| (ORIGINAL.rewrite)(bytes, tile.max(6) - 3),
        ];
        for rewrite in rewrites {
            let wrong = Original {
                rewrite,
                ..ORIGINAL
            };
            assert!(!holds(wrong));
        }
        assert!(!holds(Original {
            accepts_header: |_| true,
            ..ORIGINAL
        }));
    }
}
