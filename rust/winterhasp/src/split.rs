//! One tile's joined tile-parts, taken apart again.

use std::iter::FusedIterator;

use crate::boundary;

/// The tile-parts in `joined`, one tile's bytes: each is a part of them, from Psot to Psot. What is
/// left over behind the last is none.
///
/// ```
/// use winterhasp::split_tile_parts;
///
/// let codestream = std::fs::read("sample-a.j2k")?;
/// let parts: Vec<&[u8]> = split_tile_parts(&codestream[57..87]).collect();
/// assert_eq!(parts, [&codestream[57..71], &codestream[71..87]]);
/// # Ok::<(), std::io::Error>(())
/// ```
pub fn split_tile_parts(joined: &[u8]) -> Parts<'_> {
    Parts { rest: joined }
}

/// Tile-parts, in order; made by [`split_tile_parts`].
#[derive(Debug, Clone)]
pub struct Parts<'a> {
    rest: &'a [u8],
}

impl<'a> Iterator for Parts<'a> {
    type Item = &'a [u8];

    fn next(&mut self) -> Option<&'a [u8]> {
        // With no output lent the archive still says how long the part is.
        let mut length = 0;
        boundary::split_at(self.rest, 0, &mut [], &mut length);
        let (part, rest) = self.rest.split_at_checked(length as usize)?;
        self.rest = rest;
        (!part.is_empty()).then_some(part)
    }
}

/// No real part is empty, and behind the last nothing is passed.
impl FusedIterator for Parts<'_> {}
