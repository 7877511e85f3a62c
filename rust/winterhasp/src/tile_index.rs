//! The tile-parts of a codestream by their tile: an index that is extended as tile-parts are appended.

use crate::boundary;
use crate::lent::{accepted, TABLE_TOO_SMALL};
use crate::offsets::CodestreamOffset;
use crate::refusal::Refusal;
use crate::scan::scanned;
use crate::tile_part::{append_rows, records, TilePart, TileParts, ROW};

/// A key is its entry's tile times 2^48, and its entry's number in the table.
const NUMBER_BITS: u32 = 48;

/// Takes the table, how many of its rows have a key, the keys, a scratch for those of the other rows, and
/// where the number of all goes.
type Call = fn(&[u8], u64, &mut [u64], &mut [u64], &mut u64) -> u32;

/// As one that extends no index.
fn afresh(table: &[u8], _: u64, keys: &mut [u64], scratch: &mut [u64], entries: &mut u64) -> u32 {
    boundary::index_tiles(table, keys, scratch, entries)
}

/// Tile-parts and an index of them: for each tile that has one its own, in their order. Looking up a tile
/// reads these alone, however many others there are.
///
/// ```
/// use winterhasp::{scan_sot_markers, CodestreamOffset, TileIndex, TilePart};
///
/// let codestream = std::fs::read("sample-a.j2k")?;
/// let parts = scan_sot_markers(&codestream, CodestreamOffset(57))?;
/// let mut index = TileIndex::of(&parts)?;
/// let tile = index.get(5).ok_or("no part of tile 5")?;
/// assert_eq!(tile.parts(), [parts[1]]);
/// assert_eq!(index.get(1), None);
///
/// // one more of tile 0 is delivered late
/// let late = TilePart { offset: CodestreamOffset(87), ..parts[0] };
/// index.extend(&[late])?;
/// assert_eq!(index, TileIndex::of(&[parts[0], parts[1], late])?);
/// assert_eq!(index.get(0).ok_or("no part of tile 0")?.parts(), [parts[0], late]);
/// assert_eq!(index.get(5), Some(tile));
/// # Ok::<(), Box<dyn std::error::Error>>(())
/// ```
#[derive(Debug, Clone, Default, PartialEq, Eq)]
pub struct TileIndex {
    /// The table, row behind row, and the keys of all its entries, ascending.
    table: Vec<u8>,
    keys: Vec<u64>,
}

impl TileIndex {
    /// That of `parts`. The refusal is 18, where there is not memory enough.
    ///
    /// ```
    /// # use winterhasp::{CodestreamOffset, TileIndex, TilePart};
    /// # let offset = CodestreamOffset(71);
    /// let part = TilePart { index: 5, offset, length: 16, numbers: None };
    /// let other = TilePart { index: 6, ..part };
    /// assert!(TileIndex::of(&[other, part])?.tiles().eq([5, 6]));
    /// # Ok::<(), winterhasp::Refusal>(())
    /// ```
    pub fn of(parts: &[TilePart]) -> Result<Self, Refusal> {
        let mut index = TileIndex::default();
        index.append(parts, afresh)?;
        Ok(index)
    }

    /// That of the tile-parts that [`scan_sot_markers`](crate::scan_sot_markers) finds, or its refusal; with
    /// less memory and time, as no record is made of them.
    ///
    /// ```
    /// use winterhasp::{scan_sot_markers, CodestreamOffset, TileIndex};
    ///
    /// let codestream = std::fs::read("sample-a.j2k")?;
    /// let index = TileIndex::scan(&codestream, CodestreamOffset(57))?;
    /// let parts = scan_sot_markers(&codestream, CodestreamOffset(57))?;
    /// assert_eq!(index, TileIndex::of(&parts)?);
    ///
    /// let refusal = TileIndex::scan(&codestream[..80], CodestreamOffset(57)).unwrap_err();
    /// assert_eq!((refusal.number(), refusal.place()), (7, 71));
    /// # Ok::<(), Box<dyn std::error::Error>>(())
    /// ```
    pub fn scan(codestream: &[u8], first_sot: CodestreamOffset) -> Result<Self, Refusal> {
        let mut index = TileIndex {
            table: scanned(codestream, first_sot)?,
            keys: Vec::new(),
        };
        index.index_rows(afresh)?;
        Ok(index)
    }

    /// Makes it that of all tile-parts, with `appended` behind those that it has: the same as one that is
    /// made of them all. A tile that has none of `appended` keeps what it had. The refusal is 18, where
    /// there is not memory enough, and the index then stays as it was.
    ///
    /// ```
    /// # use winterhasp::{CodestreamOffset, TileIndex, TilePart};
    /// # let offset = CodestreamOffset(71);
    /// let part = TilePart { index: 5, offset, length: 16, numbers: None };
    /// let late = TilePart { offset: CodestreamOffset(87), ..part };
    /// let mut index = TileIndex::of(&[part])?;
    /// index.extend(&[late])?;
    /// assert_eq!(index, TileIndex::of(&[part, late])?);
    /// # Ok::<(), winterhasp::Refusal>(())
    /// ```
    pub fn extend(&mut self, appended: &[TilePart]) -> Result<(), Refusal> {
        self.append(appended, boundary::extend_index)
    }

    fn append(&mut self, appended: &[TilePart], call: Call) -> Result<(), Refusal> {
        let had = self.table.len();
        let needed = self.len().saturating_add(appended.len());
        let refusal = Refusal::new(TABLE_TOO_SMALL, needed as u64);
        let more = appended.len().checked_mul(ROW).ok_or(refusal)?;
        self.table.try_reserve(more).map_err(|_| refusal)?;
        append_rows(&mut self.table, appended);
        let indexed = self.index_rows(call);
        if indexed.is_err() {
            self.table.truncate(had);
        }
        indexed
    }

    /// Has `call` put the keys of rows that have none yet among the others. On a refusal these stay.
    fn index_rows(&mut self, call: Call) -> Result<(), Refusal> {
        let (have, rows) = (self.keys.len(), self.table.len() / ROW);
        let refusal = Refusal::new(TABLE_TOO_SMALL, rows as u64);
        let mut scratch = Vec::new();
        scratch
            .try_reserve_exact(rows - have)
            .map_err(|_| refusal)?;
        self.keys.try_reserve(rows - have).map_err(|_| refusal)?;
        scratch.resize(rows - have, 0);
        self.keys.resize(rows, 0);
        let (table, keys) = (&self.table, &mut self.keys);
        let made = accepted(|[entries]| call(table, have as u64, keys, &mut scratch, entries));
        if made.is_err() {
            self.keys.truncate(have);
        }
        made.map(|_| ())
    }

    /// The tile-parts of a tile, in their order; nothing if there is none.
    ///
    /// ```
    /// # use winterhasp::{CodestreamOffset, TileIndex, TilePart};
    /// # let offset = CodestreamOffset(71);
    /// let part = TilePart { index: 5, offset, length: 16, numbers: None };
    /// let index = TileIndex::of(&[part])?;
    /// assert_eq!(index.get(5).map(|tile| tile.parts().len()), Some(1));
    /// assert_eq!(index.get(6), None);
    /// # Ok::<(), winterhasp::Refusal>(())
    /// ```
    pub fn get(&self, tile: u16) -> Option<TileParts> {
        let (mut first, mut count) = (0, 0);
        boundary::tile_run(&self.keys, tile, &mut first, &mut count);
        // places among the keys
        let (first, count) = (first as usize, count as usize);
        self.entries(tile, &self.keys[first..first + count])
    }

    /// By the tile's run, which is an index of its entries alone.
    fn entries(&self, tile: u16, run: &[u64]) -> Option<TileParts> {
        let table = &self.table;
        let mut rows = vec![0; run.len() * ROW];
        // There is room for all of them: it is not refused.
        accepted(|[entries]| boundary::tile_entries(table, run, tile, &mut rows, entries)).ok()?;
        TileParts::of_rows(tile, &rows)
    }

    /// The tile-parts of each tile that has one, the tiles ascending.
    ///
    /// ```
    /// # use winterhasp::{CodestreamOffset, TileIndex};
    /// let codestream = std::fs::read("sample-a.j2k")?;
    /// let index = TileIndex::scan(&codestream, CodestreamOffset(57))?;
    /// assert!(index.iter().all(|tile| tile.in_order()));
    /// # Ok::<(), Box<dyn std::error::Error>>(())
    /// ```
    pub fn iter(&self) -> impl Iterator<Item = TileParts> + '_ {
        self.runs()
            .filter_map(|run| self.entries(tile_of(run[0]), run))
    }

    fn runs(&self) -> impl Iterator<Item = &[u64]> {
        self.keys
            .chunk_by(|key, next| tile_of(*key) == tile_of(*next))
    }

    /// The tiles that have a tile-part, ascending.
    ///
    /// ```
    /// # use winterhasp::{CodestreamOffset, TileIndex};
    /// let codestream = std::fs::read("sample-a.j2k")?;
    /// let index = TileIndex::scan(&codestream, CodestreamOffset(57))?;
    /// assert!(index.tiles().eq([0, 5]));
    /// # Ok::<(), Box<dyn std::error::Error>>(())
    /// ```
    pub fn tiles(&self) -> impl Iterator<Item = u16> + '_ {
        self.runs().map(|run| tile_of(run[0]))
    }

    /// All tile-parts, in their order.
    ///
    /// ```
    /// # use winterhasp::{CodestreamOffset, TileIndex, TilePart};
    /// # let offset = CodestreamOffset(71);
    /// let part = TilePart { index: 5, offset, length: 16, numbers: None };
    /// let other = TilePart { index: 0, ..part };
    /// assert!(TileIndex::of(&[part, other])?.parts().eq([part, other]));
    /// # Ok::<(), winterhasp::Refusal>(())
    /// ```
    pub fn parts(&self) -> impl DoubleEndedIterator<Item = TilePart> + ExactSizeIterator + '_ {
        records(&self.table)
    }

    /// How many tile-parts there are of all tiles.
    ///
    /// ```
    /// # use winterhasp::{CodestreamOffset, TileIndex};
    /// let codestream = std::fs::read("sample-a.j2k")?;
    /// let index = TileIndex::scan(&codestream, CodestreamOffset(57))?;
    /// assert_eq!((index.len(), index.is_empty()), (2, false));
    /// # Ok::<(), Box<dyn std::error::Error>>(())
    /// ```
    pub fn len(&self) -> usize {
        self.keys.len()
    }

    /// Whether there is none.
    ///
    /// ```
    /// assert!(winterhasp::TileIndex::default().is_empty());
    /// ```
    pub fn is_empty(&self) -> bool {
        self.keys.is_empty()
    }
}

fn tile_of(key: u64) -> u16 {
    (key >> NUMBER_BITS) as u16
}

#[cfg(test)]
mod tests {
    use super::TileIndex;
    use crate::{CodestreamOffset, PartNumbers, TilePart, TileParts};

    /// A tile-part for each tile, no two of them alike; every third has no numbers.
    fn parts(tiles: &[u16]) -> Vec<TilePart> {
        let part = |(at, &index): (usize, &u16)| TilePart {
            index,
            offset: CodestreamOffset(57 + 14 * at as u64),
            length: 14 + at as u64 % 5,
            numbers: (at % 3 != 0).then_some(PartNumbers {
                tpsot: at as u8,
                tnsot: 0,
            }),
        };
        tiles.iter().enumerate().map(part).collect()
    }

    /// Tables with tiles ascending, descending, by turns, alone, and at both ends of what an index can name.
    fn tables() -> Vec<Vec<TilePart>> {
        let mixed = random_tiles(40, 7);
        let tiles: [&[u16]; 8] = [
            &[],
            &[3],
            &[0, 1, 2, 3, 4],
            &[4, 3, 2, 1, 0],
            &[0, 5, 0, 5, 0, 5],
            &[2; 9],
            &[65_535, 0, 65_535, 7, 0],
            &mixed,
        ];
        tiles.map(parts).to_vec()
    }

    /// Below `below`, by a generator that is always the same.
    fn random_tiles(count: usize, below: u64) -> Vec<u16> {
        let mut state = below;
        let mut next = || {
            state = state
                .wrapping_mul(6_364_136_223_846_793_005)
                .wrapping_add(1);
            (state >> 33) % below
        };
        (0..count).map(|_| next() as u16).collect()
    }

    fn made(parts: &[TilePart]) -> TileIndex {
        TileIndex::of(parts).expect("there is memory")
    }

    /// What a plain pass over all of them gives, tile by tile.
    fn holds(index: &TileIndex, parts: &[TilePart]) {
        let mut tiles: Vec<_> = parts.iter().map(|part| part.index).collect();
        tiles.sort();
        tiles.dedup();
        assert!(index.tiles().eq(tiles.iter().copied()));
        assert!(index.parts().eq(parts.iter().copied()));
        assert_eq!(index.len(), parts.len());
        assert_eq!(index.is_empty(), parts.is_empty());
        let beside = tiles.iter().flat_map(|&tile| {
            let (before, next) = (tile.saturating_sub(1), tile.saturating_add(1));
            [before, tile, next]
        });
        for tile in beside.chain([0, 1, 65_534, 65_535]) {
            assert_eq!(index.get(tile), TileParts::of(tile, parts));
        }
        let each: Vec<_> = index.iter().collect();
        let plain = tiles.iter().map(|&tile| TileParts::of(tile, parts));
        assert_eq!(Some(each), plain.collect());
    }

    #[test]
    fn a_tile_gives_its_parts_in_their_order() {
        for table in tables() {
            holds(&made(&table), &table);
        }
    }

    #[test]
    fn any_order_of_tiles_is_looked_up() {
        for (count, below) in [
            (1, 1),
            (2, 2),
            (100, 3),
            (300, 65_536),
            (1_000, 40),
            (5_000, 1_000),
        ] {
            let table = parts(&random_tiles(count, below));
            holds(&made(&table), &table);
        }
    }

    #[test]
    fn extended_is_made_afresh() {
        for table in tables() {
            for cut in 0..=table.len() {
                let (first, appended) = table.split_at(cut);
                let mut index = made(first);
                index.extend(appended).expect("there is memory");
                assert_eq!(index, made(&table));
            }
            // one by one, with nothing appended between
            let mut index = TileIndex::default();
            for part in &table {
                index.extend(&[]).expect("there is memory");
                index.extend(&[*part]).expect("there is memory");
            }
            assert_eq!(index, made(&table));
        }
    }

    #[test]
    fn a_tile_that_gained_nothing_gives_the_same() {
        let table = parts(&[7, 0, 65_535, 7, 3, 0, 3, 3]);
        let (first, appended) = table.split_at(5);
        let before = made(first);
        let mut index = before.clone();
        index.extend(appended).expect("there is memory");
        for tile in [7, 65_535, 1] {
            assert_eq!(index.get(tile), before.get(tile));
        }
        for tile in [0, 3] {
            assert_eq!(index.get(tile), TileParts::of(tile, &table));
            assert_ne!(index.get(tile), before.get(tile));
        }
    }

    #[test]
    fn a_refusal_leaves_it_as_it_was() {
        let table = parts(&[5, 0, 5]);
        let mut index = made(&table[..2]);
        let before = index.clone();
        let refused = index.append(&table[2..], |table, have, keys, scratch, value| {
            assert_eq!(
                (table.len(), have, keys.len(), scratch.len()),
                (63, 2, 3, 1)
            );
            *value = 3;
            18
        });
        let refusal = refused.expect_err("refused");
        assert_eq!((refusal.number(), refusal.place()), (18, 3));
        assert_eq!(index, before);
    }
}
