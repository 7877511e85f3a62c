//! What the tile-parts make of each tile.

use std::ops::RangeInclusive;

use winterhasp::{TileIndex, TilePart};

use crate::siz::{Grid, MOST_TILES};

const INDICES: usize = 1 << 16;

#[derive(Debug, Clone, Copy, Default, PartialEq, Eq)]
pub struct Tile {
    pub parts: u64,
    pub bytes: u64,
}

/// One for each index that there is.
pub struct Tiles(Vec<Tile>);

impl Tiles {
    pub fn of(parts: impl Iterator<Item = TilePart>) -> Self {
        let mut tiles = vec![Tile::default(); INDICES];
        for part in parts {
            let tile = &mut tiles[usize::from(part.index)];
            tile.parts += 1;
            tile.bytes = tile.bytes.saturating_add(part.length);
        }
        Tiles(tiles)
    }

    /// Those of a grid, which has no more than there are indices.
    pub fn inside(&self, grid: Grid) -> &[Tile] {
        let (inside, _) = self.0.split_at(self.border(grid));
        inside
    }

    /// How many tiles of the grid have a part.
    pub fn present(&self, grid: Grid) -> u64 {
        let inside = self.inside(grid);
        inside.iter().filter(|tile| tile.parts > 0).count() as u64
    }

    /// The tiles of the grid without a part; nothing where there are more than an index can name.
    pub fn missing(&self, grid: Grid) -> Option<Vec<RangeInclusive<usize>>> {
        (grid.tiles() <= MOST_TILES)
            .then(|| ranges(self.inside(grid).iter().map(|tile| tile.parts == 0)))
    }

    /// The tiles that have a part, and that the grid does not have.
    pub fn outside(&self, grid: Grid) -> Vec<RangeInclusive<usize>> {
        let border = self.border(grid);
        let named = self.0.iter().enumerate();
        ranges(named.map(|(index, tile)| index >= border && tile.parts > 0))
    }

    fn border(&self, grid: Grid) -> usize {
        usize::try_from(grid.tiles()).map_or(INDICES, |tiles| tiles.min(INDICES))
    }
}

/// The tiles whose parts stand out of order. Each is asked for over its own parts alone, since there may be
/// as many tiles as indices.
pub fn out_of_order(index: &TileIndex) -> Vec<RangeInclusive<usize>> {
    let mut found = vec![false; INDICES];
    for tile in index.iter() {
        found[usize::from(tile.index())] = !tile.in_order();
    }
    ranges(found.into_iter())
}

/// The numbers at which it is so, as ranges.
fn ranges(so: impl Iterator<Item = bool>) -> Vec<RangeInclusive<usize>> {
    let mut found: Vec<RangeInclusive<usize>> = Vec::new();
    for (number, _) in so.enumerate().filter(|&(_, so)| so) {
        match found.last_mut() {
            Some(last) if *last.end() + 1 == number => *last = *last.start()..=number,
            _ => found.push(number..=number),
        }
    }
    found
}

pub fn range_text(range: &RangeInclusive<usize>) -> String {
    let (first, last) = (range.start(), range.end());
    if first == last {
        first.to_string()
    } else {
        format!("{first}-{last}")
    }
}

/// The first ranges, and how many more there are.
pub fn ranges_text(ranges: &[RangeInclusive<usize>], most: usize) -> String {
    let told: Vec<_> = ranges.iter().take(most).map(range_text).collect();
    let told = told.join(" ");
    match ranges.len().saturating_sub(most) {
        0 => told,
        more => format!("{told} and {more} ranges more"),
    }
}

#[cfg(test)]
mod tests {
    use super::{out_of_order, ranges_text, Tiles};
    use crate::siz::Grid;
    use winterhasp::{CodestreamOffset, PartNumbers, TileIndex, TilePart};

    fn part(index: u16, numbers: Option<PartNumbers>) -> TilePart {
        TilePart {
            index,
            offset: CodestreamOffset(0),
            length: 14,
            numbers,
        }
    }

    fn tiles(indices: &[u16]) -> Tiles {
        let part = |&index| part(index, None);
        Tiles::of(indices.iter().map(part))
    }

    const SIX: Grid = Grid {
        columns: 3,
        rows: 2,
    };

    #[test]
    fn tiles_without_a_part_are_missing() {
        let tiles = tiles(&[0, 5, 5]);
        assert_eq!(
            (tiles.present(SIX), tiles.missing(SIX)),
            (2, Some(vec![1..=4]))
        );
        assert_eq!((tiles.0[5].parts, tiles.0[5].bytes), (2, 28));
        assert!(tiles.outside(SIX).is_empty());
    }

    #[test]
    fn tiles_past_the_grid_are_outside() {
        let tiles = tiles(&[1, 3, 6, 7, 65_535]);
        assert_eq!(tiles.present(SIX), 2);
        assert_eq!(tiles.missing(SIX), Some(vec![0..=0, 2..=2, 4..=5]));
        assert_eq!(tiles.outside(SIX), [6..=7, 65_535..=65_535]);
    }

    #[test]
    fn more_tiles_than_indices_are_only_counted() {
        let grid = Grid {
            columns: 65_536,
            rows: 1 << 31,
        };
        let tiles = tiles(&[0, 65_535]);
        assert_eq!((tiles.present(grid), tiles.missing(grid)), (2, None));
        assert!(tiles.outside(grid).is_empty());
    }

    #[test]
    fn tiles_are_out_of_order_each_by_its_own_parts() {
        let part = |(index, tpsot, tnsot)| part(index, Some(PartNumbers { tpsot, tnsot }));
        // 0 is in order among the others, 4 has its second part before its first, and of 65,535 one is missing
        let parts = [(4, 1, 2), (0, 0, 0), (65_535, 0, 2), (4, 0, 2), (0, 1, 2)];
        let index = TileIndex::of(&parts.map(part)).expect("there is memory");
        assert_eq!(out_of_order(&index), [4..=4, 65_535..=65_535]);
        assert!(out_of_order(&TileIndex::default()).is_empty());
    }

    #[test]
    fn ranges_are_told_up_to_a_number() {
        let ranges = [1..=4, 6..=6, 9..=10];
        assert_eq!(ranges_text(&ranges, 3), "1-4 6 9-10");
        assert_eq!(ranges_text(&ranges, 2), "1-4 6 and 1 ranges more");
    }
}
