//! Tile-parts: one by its record, which is a row of bytes to the archive, and those of one tile.

use crate::offsets::{CodestreamOffset, FileOffset};
use crate::order::tile_in_order;
use crate::scan::scan_sot_markers;

/// Bytes of a row: index 2, offset 8, length 8, big-endian; then 1 and the two numbers where these are
/// known, and else three times 0.
pub const ROW: usize = 21;

/// A tile-part's number among its tile's, and how many its tile has, as its SOT gives them.
#[derive(Debug, Clone, Copy, PartialEq, Eq)]
pub struct PartNumbers {
    /// Its number, from 0.
    pub tpsot: u8,
    /// How many tile-parts its tile has; 0 where its SOT doesn't say.
    pub tnsot: u8,
}

/// Where a tile-part stands in its codestream.
#[derive(Debug, Clone, Copy, PartialEq, Eq)]
pub struct TilePart {
    /// Its tile's.
    pub index: u16,
    /// Where its SOT marker stands.
    pub offset: CodestreamOffset,
    /// In bytes, from the SOT marker on.
    pub length: u64,
    /// Known of a tile-part that was found by its SOT, and not of one in a header's length table.
    pub numbers: Option<PartNumbers>,
}

impl TilePart {
    /// Where it stands in a file that has its codestream at `start`; nothing past 2^64-1.
    ///
    /// ```
    /// use winterhasp::{CodestreamOffset, FileOffset, TilePart};
    ///
    /// let offset = CodestreamOffset(71);
    /// let part = TilePart { index: 5, offset, length: 16, numbers: None };
    /// assert_eq!(part.place_in_file(FileOffset(85)), Some(FileOffset(156)));
    /// ```
    pub fn place_in_file(&self, start: FileOffset) -> Option<FileOffset> {
        self.offset.in_file(start)
    }

    fn from_row(row: &[u8; ROW]) -> Self {
        let [i0, i1, o0, o1, o2, o3, o4, o5, o6, o7, l0, l1, l2, l3, l4, l5, l6, l7, known, tpsot, tnsot] =
            *row;
        TilePart {
            index: u16::from_be_bytes([i0, i1]),
            offset: CodestreamOffset(u64::from_be_bytes([o0, o1, o2, o3, o4, o5, o6, o7])),
            length: u64::from_be_bytes([l0, l1, l2, l3, l4, l5, l6, l7]),
            numbers: (known == 1).then_some(PartNumbers { tpsot, tnsot }),
        }
    }

    fn to_row(self) -> [u8; ROW] {
        let mut row = [0; ROW];
        row[..2].copy_from_slice(&self.index.to_be_bytes());
        row[2..10].copy_from_slice(&self.offset.0.to_be_bytes());
        row[10..18].copy_from_slice(&self.length.to_be_bytes());
        if let Some(PartNumbers { tpsot, tnsot }) = self.numbers {
            row[18..].copy_from_slice(&[1, tpsot, tnsot]);
        }
        row
    }
}

/// The records of a table's rows.
pub fn from_rows(table: &[u8]) -> Vec<TilePart> {
    records(table).collect()
}

/// The same, one by one.
pub fn records(table: &[u8]) -> impl DoubleEndedIterator<Item = TilePart> + ExactSizeIterator + '_ {
    table.as_chunks().0.iter().map(TilePart::from_row)
}

pub fn to_rows(parts: &[TilePart]) -> Vec<u8> {
    let mut table = Vec::with_capacity(parts.len() * ROW);
    append_rows(&mut table, parts);
    table
}

pub fn append_rows(table: &mut Vec<u8>, parts: &[TilePart]) {
    for part in parts {
        table.extend_from_slice(&part.to_row());
    }
}

/// The tile-parts of one tile: at least one, and all of that tile.
#[derive(Debug, Clone, PartialEq, Eq)]
pub struct TileParts {
    index: u16,
    parts: Vec<TilePart>,
}

impl TileParts {
    /// Those of tile `index` among `parts`, in their order; nothing if there is none.
    ///
    /// ```
    /// use winterhasp::{scan_sot_markers, CodestreamOffset, TileParts};
    ///
    /// let codestream = std::fs::read("sample-a.j2k")?;
    /// let parts = scan_sot_markers(&codestream, CodestreamOffset(57))?;
    /// assert_eq!(TileParts::of(5, &parts).map(|tile| tile.parts().len()), Some(1));
    /// assert_eq!(TileParts::of(1, &parts), None);
    /// # Ok::<(), Box<dyn std::error::Error>>(())
    /// ```
    pub fn of(index: u16, parts: &[TilePart]) -> Option<Self> {
        let of_tile = parts.iter().filter(|part| part.index == index);
        let parts: Vec<_> = of_tile.copied().collect();
        (!parts.is_empty()).then_some(TileParts { index, parts })
    }

    /// The same of rows that are all of tile `index`.
    pub(crate) fn of_rows(index: u16, rows: &[u8]) -> Option<Self> {
        let parts = from_rows(rows);
        (!parts.is_empty()).then_some(TileParts { index, parts })
    }

    /// The tile's.
    ///
    /// ```
    /// # use winterhasp::{CodestreamOffset, TilePart, TileParts};
    /// # let offset = CodestreamOffset(71);
    /// let part = TilePart { index: 5, offset, length: 16, numbers: None };
    /// assert_eq!(TileParts::of(5, &[part]).map(|tile| tile.index()), Some(5));
    /// ```
    pub fn index(&self) -> u16 {
        self.index
    }

    /// At least one.
    ///
    /// ```
    /// # use winterhasp::{CodestreamOffset, TilePart, TileParts};
    /// # let offset = CodestreamOffset(71);
    /// let part = TilePart { index: 5, offset, length: 16, numbers: None };
    /// let other = TilePart { index: 6, ..part };
    /// let tile = TileParts::of(5, &[other, part]).unwrap();
    /// assert_eq!(tile.parts(), [part]);
    /// ```
    pub fn parts(&self) -> &[TilePart] {
        &self.parts
    }

    /// Whether they stand in order: see [`tile_in_order`].
    ///
    /// ```
    /// # use winterhasp::{CodestreamOffset, PartNumbers, TilePart, TileParts};
    /// # let offset = CodestreamOffset(71);
    /// let numbers = |tpsot| Some(PartNumbers { tpsot, tnsot: 2 });
    /// let [first, second] = [0, 1].map(|n| TilePart { index: 5, offset, length: 16, numbers: numbers(n) });
    /// let in_order = |parts: [TilePart; 2]| TileParts::of(5, &parts).map(|tile| tile.in_order());
    /// assert_eq!(in_order([first, second]), Some(true));
    /// assert_eq!(in_order([second, first]), Some(false));
    /// ```
    pub fn in_order(&self) -> bool {
        tile_in_order(self.index, &self.parts)
    }
}

/// The same by their own bytes, wherever these were fetched from.
#[derive(Debug, Clone, PartialEq, Eq)]
pub struct TilePartBytes<'a> {
    index: u16,
    parts: Vec<&'a [u8]>,
}

impl<'a> TilePartBytes<'a> {
    /// Nothing if there is none, or if one of them is not, from end to end, a single tile-part of tile
    /// `index`.
    ///
    /// ```
    /// use winterhasp::TilePartBytes;
    ///
    /// let codestream = std::fs::read("sample-a.j2k")?;
    /// let (first, second) = (&codestream[57..71], &codestream[71..87]);
    /// assert!(TilePartBytes::of(5, [second]).is_some());
    /// assert!(TilePartBytes::of(5, [second, first]).is_none());
    /// assert!(TilePartBytes::of(5, []).is_none());
    /// # Ok::<(), std::io::Error>(())
    /// ```
    pub fn of(index: u16, parts: impl IntoIterator<Item = &'a [u8]>) -> Option<Self> {
        let whole = |part: &'a [u8]| {
            let found = scan_sot_markers(part, CodestreamOffset(0)).ok()?;
            let [alone] = found[..] else {
                return None;
            };
            (alone.index == index && alone.length == part.len() as u64).then_some(part)
        };
        let parts: Vec<_> = parts.into_iter().map(whole).collect::<Option<_>>()?;
        (!parts.is_empty()).then_some(TilePartBytes { index, parts })
    }

    /// The parts joined, and each one's record there.
    pub(crate) fn joined(&self) -> (Vec<TilePart>, Vec<u8>) {
        let mut offset = 0;
        let record = |part: &&[u8]| {
            let length = part.len() as u64;
            offset += length;
            TilePart {
                index: self.index,
                offset: CodestreamOffset(offset - length),
                length,
                numbers: None,
            }
        };
        (self.parts.iter().map(record).collect(), self.parts.concat())
    }
}

#[cfg(test)]
mod tests {
    use super::{from_rows, to_rows, CodestreamOffset, PartNumbers, TilePart, TilePartBytes};

    #[test]
    fn a_row_is_big_endian_and_comes_back() {
        let part = TilePart {
            index: 0x0102,
            offset: CodestreamOffset(0x0304_0506_0708_090A),
            length: 0x0B0C_0D0E_0F10_1112,
            numbers: None,
        };
        let rows = to_rows(&[part]);
        assert!(rows[..18].iter().copied().eq(1..=18));
        assert_eq!(rows[18..], [0; 3]);
        assert_eq!(from_rows(&rows), [part]);
        let (tpsot, tnsot) = (20, 21);
        let known = TilePart {
            numbers: Some(PartNumbers { tpsot, tnsot }),
            ..part
        };
        let rows = to_rows(&[known]);
        assert_eq!(rows[18..], [1, 20, 21]);
        assert_eq!(from_rows(&rows), [known]);
    }

    #[test]
    fn any_first_byte_but_1_means_not_known() {
        for known in 0..=u8::MAX {
            let mut row = [7; 21];
            row[18] = known;
            let [part] = from_rows(&row)[..] else {
                panic!("one row");
            };
            assert_eq!(part.numbers.is_some(), known == 1);
        }
    }

    /// A tile-part of 14 bytes that says it has `psot`.
    fn part(psot: u8) -> [u8; 14] {
        [0xFF, 0x90, 0, 10, 0, 3, 0, 0, 0, psot, 0, 1, 0xFF, 0x93]
    }

    #[test]
    fn bytes_are_those_of_whole_tile_parts() {
        let of = |index, bytes: &[u8]| TilePartBytes::of(index, [bytes]).is_some();
        assert!(of(3, &part(14)));
        assert!(of(3, &part(0)));
        assert!(!of(4, &part(14)));
        assert!(!of(3, &part(13)));
        assert!(!of(3, &part(15)));
        assert!(!of(3, &[part(14), part(14)].concat()));
        assert!(!of(3, &[]));
    }
}
