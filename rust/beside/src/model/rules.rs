//! Where a tile lies by a rule: "Tiles by Annex B", "Tiles by the original's rule", "Tiles kept in place".

use super::{number, read, Area, Refusal};
use crate::sample::codestream::SIZ;

/// The rule by which a tile's place is told.
#[derive(Debug, Clone, Copy, PartialEq, Eq)]
pub enum Rule {
    /// The standard's.
    AnnexB,
    Original,
    /// The standard's, and a tile that is cut out stays where it lies.
    InPlace,
}

impl Rule {
    /// What a number means at the boundary.
    pub fn of(number: u32) -> Self {
        match number {
            1 => Rule::Original,
            2 => Rule::InPlace,
            _ => Rule::AnnexB,
        }
    }
}

const SHORTEST_HEADER: usize = 40;
/// The fields' offsets, from the header's start: each group is one field of x and one of y.
pub const SIZE: usize = 8;
pub const ORIGIN: usize = 16;
pub const TILE: usize = 24;
pub const TILE_ORIGIN: usize = 32;

/// Whether a header holds the fields, where they are looked for.
pub fn has_siz(header: &[u8]) -> bool {
    header.len() >= SHORTEST_HEADER && read(header, 2, 2) == Some(SIZ.into())
}

pub fn field(header: &[u8], at: usize) -> u64 {
    number(&header[at..at + 4])
}

/// Whether the original's rule and Annex B's have to give one answer where both accept: tiles are
/// counted from the image origin, or there is nothing to go by.
pub fn have_to_agree(header: &[u8]) -> bool {
    !has_siz(header) || header[ORIGIN..ORIGIN + 8] == header[TILE_ORIGIN..TILE_ORIGIN + 8]
}

/// Of a header that holds the fields.
pub fn tile_area(header: &[u8], isot: u16, rule: Rule) -> Result<Area, Refusal> {
    match rule {
        Rule::AnnexB | Rule::InPlace => by_annex_b(header, isot),
        Rule::Original => steps(header, isot).ok_or(Refusal::new(10, 2)),
    }
}

/// B.3, with the names that it has. No sum or product of these numbers passes 128 bits.
fn by_annex_b(header: &[u8], isot: u16) -> Result<Area, Refusal> {
    let both = |at: usize| [at, at + 4].map(|at| u128::from(field(header, at)));
    let ([xsiz, ysiz], [xosiz, yosiz]) = (both(SIZE), both(ORIGIN));
    let ([xtsiz, ytsiz], [xtosiz, ytosiz]) = (both(TILE), both(TILE_ORIGIN));
    let laid = |siz: u128, osiz: u128, tsiz: u128, tosiz: u128| {
        tosiz <= osiz && osiz < siz && tsiz >= 1 && tosiz + tsiz > osiz
    };
    if !laid(xsiz, xosiz, xtsiz, xtosiz) || !laid(ysiz, yosiz, ytsiz, ytosiz) {
        return Err(Refusal::new(30, 2));
    }
    let num_x_tiles = (xsiz - xtosiz).div_ceil(xtsiz);
    let num_y_tiles = (ysiz - ytosiz).div_ceil(ytsiz);
    let index = u128::from(isot);
    if index >= num_x_tiles * num_y_tiles {
        return Err(Refusal::new(31, 2));
    }
    let (p, q) = (index % num_x_tiles, index / num_x_tiles);
    let tx0 = (xtosiz + p * xtsiz).max(xosiz);
    let ty0 = (ytosiz + q * ytsiz).max(yosiz);
    let tx1 = (xtosiz + (p + 1) * xtsiz).min(xsiz);
    let ty1 = (ytosiz + (q + 1) * ytsiz).min(ysiz);
    Ok([tx0, ty0, tx1, ty1].map(|place| place.try_into().expect("no further than the image")))
}

/// Nothing where a step falls below 0, passes 2^32-1 or divides by 0.
fn steps(header: &[u8], isot: u16) -> Option<Area> {
    let (size, origin) = (field(header, SIZE), field(header, ORIGIN));
    let tile = field(header, TILE);
    let across = size.checked_sub(origin)?;
    let columns = across.checked_add(tile.checked_sub(1)?)? / tile;
    let column = u64::from(isot).checked_rem(columns)?;
    let row = u64::from(isot) / columns;
    let (x0, x1) = extent(size, origin, tile, column)?;
    let (y0, y1) = extent(
        field(header, SIZE + 4),
        field(header, ORIGIN + 4),
        field(header, TILE + 4),
        row,
    )?;
    Some([x0, y0, x1, y1])
}

/// Where the tile that is `nth` in one direction starts and ends.
fn extent(size: u64, origin: u64, tile: u64, nth: u64) -> Option<(u32, u32)> {
    let within = |sum: u64| u32::try_from(sum).ok();
    let start = within(origin + u64::from(within(nth * tile)?))?;
    let end = within(u64::from(start) + tile)?.min(within(size)?);
    (start <= end).then_some((start, end))
}

#[cfg(test)]
mod tests {
    use super::{have_to_agree, tile_area, Rule};
    use crate::model::{Area, Refusal};
    use crate::sample::sizes::{header, Fields, MOVED, SAMPLE_A};

    /// In place it is where Annex B has it.
    fn both(fields: Fields, isot: u16) -> [Result<Area, u32>; 2] {
        let [standard, original, in_place] = [Rule::AnnexB, Rule::Original, Rule::InPlace]
            .map(|rule| tile_area(&header(fields), isot, rule));
        assert_eq!(in_place, standard);
        [standard, original].map(|area| {
            area.map_err(|Refusal { number, place }| {
                assert_eq!(place, 2);
                number
            })
        })
    }

    /// Each by hand.
    #[test]
    fn tiles_of_both_rules() {
        assert_eq!(both(SAMPLE_A, 5), [Ok([8, 4, 10, 6]); 2]);
        assert_eq!(both(SAMPLE_A, 6), [Err(31), Err(10)]);
        // from 7, 5 to 23, 17 in tiles of 4 by 6 from 5, 2 on: 5 columns, 3 rows
        let by_annex_b = |isot| both(MOVED, isot)[0];
        assert_eq!(by_annex_b(0), Ok([7, 5, 9, 8]));
        assert_eq!(by_annex_b(1), Ok([9, 5, 13, 8]));
        assert_eq!(by_annex_b(4), Ok([21, 5, 23, 8]));
        assert_eq!(by_annex_b(5), Ok([7, 8, 9, 14]));
        assert_eq!(by_annex_b(14), Ok([21, 14, 23, 17]));
        assert_eq!(by_annex_b(15), Err(31));
        assert_eq!(both(MOVED, 0)[1], Ok([7, 5, 11, 11]));
        assert_eq!(both(MOVED, 12), [Ok([13, 14, 17, 17]), Err(10)]);
    }

    /// Every tile of a grid of each kind, and the first behind it: none meets another, and all
    /// together are the image, sample by sample.
    #[test]
    fn the_tiles_of_annex_b_are_the_image() {
        for [end, origin, tile, tile_origin] in [
            [9, 0, 4, 0],
            [9, 3, 4, 3],
            [9, 3, 4, 0],
            [9, 3, 1, 3],
            [8, 4, 9, 0],
            [5, 4, 3, 2],
        ] {
            let fields = [end, 7, origin, 2, tile, 3, tile_origin, 1];
            let mut times = vec![vec![0; 7]; end as usize];
            let mut isot = 0;
            while let Ok([x0, y0, x1, y1]) = both(fields, isot)[0] {
                for x in x0..x1 {
                    (y0..y1).for_each(|y| times[x as usize][y as usize] += 1);
                }
                isot += 1;
            }
            assert_eq!(both(fields, isot)[0], Err(31));
            for (x, column) in (0..).zip(times) {
                let of_image = |y| x >= origin && y >= 2;
                let expected: Vec<_> = (0..7).map(|y| i32::from(of_image(y))).collect();
                assert_eq!(column, expected);
            }
        }
    }

    #[test]
    fn where_they_have_to_agree() {
        assert!(have_to_agree(&header(SAMPLE_A)));
        assert!(!have_to_agree(&header(MOVED)));
        assert!(have_to_agree(&header(MOVED)[..39]));
        assert!(have_to_agree(&[0; 60]));
        for at in [6, 7] {
            let mut fields = SAMPLE_A;
            fields[at] = 1;
            assert!(!have_to_agree(&header(fields)));
        }
    }

    #[test]
    fn numbers_of_the_boundary() {
        assert_eq!(Rule::of(1), Rule::Original);
        assert_eq!(Rule::of(2), Rule::InPlace);
        for number in [0, 3, 7, u32::MAX] {
            assert_eq!(Rule::of(number), Rule::AnnexB);
        }
    }
}
