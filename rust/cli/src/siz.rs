//! Image and tiles by SIZ, and the grid of tiles by ISO/IEC 15444-1, B.3. The library is proved to refuse
//! a tile by that grid, and tells no columns and rows: these are computed here, unproved, for words and
//! pictures, and a test holds them to its refusals. They go when the library gives them.

use winterhasp::Components;

/// The fields of SIZ, whose marker stands at 2 of a main header.
#[derive(Debug, Clone, Copy, PartialEq, Eq)]
pub struct Siz {
    pub size: Pair,
    pub origin: Pair,
    pub tile: Pair,
    pub tile_origin: Pair,
}

/// Along x and along y.
pub type Pair = [u64; 2];

pub fn box_text([width, height]: Pair, [x, y]: Pair) -> String {
    format!("{width} by {height}, from {x}, {y} on")
}

const SIZES: usize = 8;

/// Tiles that Isot can name, by the standard.
pub const MOST_TILES: u64 = 65_535;

impl Siz {
    /// Of a main header, or of its first bytes; nothing if they end before these fields do.
    pub fn of(header: &[u8]) -> Option<Self> {
        let mut fields = [0; 8];
        for (number, field) in fields.iter_mut().enumerate() {
            *field = u32::from_be_bytes(array(header, SIZES + 4 * number)?).into();
        }
        let [x, y, x_origin, y_origin, tile_x, tile_y, tile_x_origin, tile_y_origin] = fields;
        Some(Siz {
            size: [x, y],
            origin: [x_origin, y_origin],
            tile: [tile_x, tile_y],
            tile_origin: [tile_x_origin, tile_y_origin],
        })
    }

    /// The image's width and height; nothing if it ends before it starts.
    pub fn image(&self) -> Option<Pair> {
        let [x, y] = self.size;
        Some([
            x.checked_sub(self.origin[0])?,
            y.checked_sub(self.origin[1])?,
        ])
    }

    pub fn grid(&self) -> Option<Grid> {
        Grid::of(self)
    }

    /// Whether the first tile is smaller than a full one, since the tiles start before the image.
    pub fn starts_clipped(&self) -> bool {
        self.grid().is_some() && self.origin != self.tile_origin
    }

    /// Why a tile that is moved to the origin may decode to other pixels; nothing where it may not. The
    /// components are none where they are refused.
    pub fn moved(&self, components: Option<Components>) -> Option<&'static str> {
        let Some(components) = components else {
            return Some("its size segment (SIZ) does not tell the subsampling");
        };
        let mut factors = components.iter().flat_map(|each| [each.xrsiz, each.yrsiz]);
        if self.origin != [0; 2] || self.tile_origin != [0; 2] {
            Some("the image or its tiles do not start at 0")
        } else if !self.tile.iter().all(|side| side.is_power_of_two()) {
            Some("the sides of its tiles are not powers of two")
        } else if !factors.all(u8::is_power_of_two) {
            Some("its subsampling is not by powers of two")
        } else {
            None
        }
    }
}

fn array<const N: usize>(bytes: &[u8], at: usize) -> Option<[u8; N]> {
    bytes.get(at..)?.first_chunk().copied()
}

/// How many tiles there are: B-5 of the standard.
#[derive(Debug, Clone, Copy, PartialEq, Eq)]
pub struct Grid {
    pub columns: u64,
    pub rows: u64,
}

impl Grid {
    /// Nothing where the library refuses every tile (30): on each axis the first tile starts at or before
    /// the image, which is not empty, and reaches into it.
    fn of(siz: &Siz) -> Option<Self> {
        let along = |axis: usize| {
            let (start, end) = (siz.origin[axis], siz.size[axis]);
            let (first, side) = (siz.tile_origin[axis], siz.tile[axis]);
            let laid = first <= start && start < end && side > 0 && start < first + side;
            laid.then(|| (end - first).div_ceil(side))
        };
        Some(Grid {
            columns: along(0)?,
            rows: along(1)?,
        })
    }

    /// Both are below 2^32.
    pub fn tiles(&self) -> u64 {
        self.columns * self.rows
    }
}

#[cfg(test)]
mod tests {
    use winterhasp::{rewrite_siz_for_tile, Components};

    use super::{Grid, Siz};

    const SAMPLE: &[u8] = include_bytes!("../../../crates/tileparts/stdin");

    fn siz() -> Siz {
        Siz::of(SAMPLE).expect("a whole SIZ")
    }

    #[test]
    fn the_fields_are_those_of_sample_a() {
        let siz = siz();
        assert_eq!(
            (siz.size, siz.tile, siz.image()),
            ([10, 6], [4, 4], Some([10, 6]))
        );
        assert_eq!((siz.origin, siz.tile_origin), ([0, 0], [0, 0]));
    }

    #[test]
    fn a_header_that_ends_early_has_none() {
        for length in 0..40 {
            assert_eq!(Siz::of(&SAMPLE[..length]), None, "{length}");
        }
        assert_eq!(Siz::of(&SAMPLE[..40]), Some(siz()));
    }

    #[test]
    fn the_grid_is_counted_from_the_tiles_origin() {
        let grid = |size, origin, tile, tile_origin| {
            let siz = Siz {
                size,
                origin,
                tile,
                tile_origin,
            };
            siz.grid().map(|Grid { columns, rows }| (columns, rows))
        };
        assert_eq!(grid([10, 6], [0, 0], [4, 4], [0, 0]), Some((3, 2)));
        assert_eq!(grid([8, 8], [0, 0], [4, 4], [0, 0]), Some((2, 2)));
        assert_eq!(grid([9, 9], [1, 1], [4, 4], [1, 1]), Some((2, 2)));
        assert_eq!(grid([9, 9], [1, 1], [4, 4], [0, 1]), Some((3, 2)));
        let most = u64::from(u32::MAX);
        let all = Some((most, most));
        assert_eq!(grid([most, most], [0, 0], [1, 1], [0, 0]), all);
        let one = Some((1, 1));
        let last = [most - 1, most - 1];
        assert_eq!(grid([most, most], last, [most, most], last), one);
    }

    /// Fields from 0 to 3 on one axis, with the other's at 0 to 1 in a tile of 1, and then on both.
    #[test]
    fn the_grid_is_the_one_by_which_the_library_refuses() {
        let axes: Vec<_> = (0..256_u32)
            .map(|all| [0, 2, 4, 6].map(|at| all >> at & 3))
            .collect();
        let plain = [1, 0, 1, 0];
        let pairs = axes
            .iter()
            .flat_map(|&axis| [[axis, plain], [plain, axis], [axis, axis]]);
        let mut grids = 0;
        for [x, y] in pairs {
            let mut header = SAMPLE.to_vec();
            for number in 0..4 {
                for (at, field) in [(8, x[number]), (12, y[number])] {
                    let at = at + 8 * number;
                    header[at..at + 4].copy_from_slice(&field.to_be_bytes());
                }
            }
            let refused = |tile| {
                let refusal = rewrite_siz_for_tile(&header, tile).err();
                refusal.map(|refusal| refusal.number())
            };
            let grid = Siz::of(&header).expect("a whole SIZ").grid();
            grids += u32::from(grid.is_some());
            for tile in [0, 1, 2, 3, 8, 9, u16::MAX] {
                let wanted = match grid {
                    None => Some(30),
                    Some(grid) => (grid.tiles() <= tile.into()).then_some(31),
                };
                assert_eq!(refused(tile), wanted, "{x:?} {y:?} {tile}");
            }
        }
        assert!(grids > 0);
    }

    #[test]
    fn the_first_tile_is_smaller_where_tiles_start_before_the_image() {
        let clipped = |origin, tile_origin| {
            let siz = Siz {
                origin,
                tile_origin,
                ..siz()
            };
            siz.starts_clipped()
        };
        assert!(!clipped([0, 0], [0, 0]) && !clipped([3, 1], [3, 1]));
        assert!(clipped([1, 0], [0, 0]) && clipped([3, 3], [3, 2]));
        // no grid
        assert!(!clipped([0, 0], [1, 0]) && !clipped([4, 0], [0, 0]));
    }

    #[test]
    fn a_moved_tile_keeps_its_pixels_where_all_is_a_power_of_two() {
        // in the codestream: XOsiz, XTsiz, XTOsiz, XRsiz and YRsiz end there
        let moved = |changes: &[(usize, u8)]| {
            let mut header = SAMPLE.to_vec();
            for &(at, byte) in changes {
                header[at] = byte;
            }
            let siz = Siz::of(&header).expect("a whole SIZ");
            siz.moved(Components::read(&header).ok())
        };
        assert_eq!(moved(&[]), None);
        assert_eq!(moved(&[(43, 2), (44, 4)]), None);
        let origin = moved(&[(19, 1)]).expect("an origin of the image");
        assert_eq!(moved(&[(35, 4)]), Some(origin));
        let side = moved(&[(27, 96)]).expect("a side of 96");
        let subsampling = moved(&[(44, 3)]).expect("a sample for 3 rows");
        let unknown = moved(&[(43, 0)]).expect("a sample for 0 columns");
        assert_eq!(moved(&[(41, 2)]), Some(unknown));
        let all = [origin, side, subsampling, unknown];
        for (number, one) in all.iter().enumerate() {
            assert!(!all[..number].contains(one), "{one}");
        }
    }
}
