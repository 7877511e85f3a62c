//! Headers of SOC and SIZ, with sizes, origins and tiles at the edges of their sums.

use super::codestream::{Codestream, Siz};
use crate::random::Random;

/// Xsiz, Ysiz, XOsiz, YOsiz, XTsiz, YTsiz, XTOsiz, YTOsiz.
pub type Fields = [u32; 8];

/// Sample A's.
pub const SAMPLE_A: Fields = [10, 6, 0, 0, 4, 4, 0, 0];

/// The image from 7, 5 on, and the tiles from before it: 5 columns and 3 rows, each first one cut
/// off by the image origin, each last one by the image end, and the others whole.
pub const MOVED: Fields = [23, 17, 7, 5, 4, 6, 5, 2];

const TELLING: [u32; 14] = [
    0,
    1,
    2,
    3,
    4,
    7,
    255,
    65_535,
    65_536,
    0x7FFF_FFFF,
    0x8000_0000,
    0x8000_0001,
    0xFFFF_FFFE,
    0xFFFF_FFFF,
];

/// SOC and a SIZ of one component, 45 bytes.
pub fn header(fields: Fields) -> Vec<u8> {
    let [width, height, x, y, tile_width, tile_height, tile_x, tile_y] = fields;
    let mut built = Codestream::default();
    built.soc().siz(&Siz {
        width,
        height,
        origin: (x, y),
        tile_width,
        tile_height,
        tile_origin: (tile_x, tile_y),
        components: 1,
    });
    built.bytes
}

/// A header, mostly whole, and a tile's index that mostly has to do with it.
pub fn header_and_index(random: &mut Random) -> (Vec<u8>, u16) {
    let fields = fields(random);
    let mut header = header(fields);
    match random.below(40) {
        0 => header.truncate(random.below(header.len() + 1)),
        1 => header[2 + random.below(2)] = random.byte(),
        2..=9 => {
            let size = random.below(12);
            header.extend(random.bytes(size));
        }
        _ => {}
    }
    (header, index(random, &fields))
}

/// A tile in the first rows, at an edge of the grid by either rule, or anything.
pub fn index(random: &mut Random, fields: &Fields) -> u16 {
    let &[width, _, x, _, tile_width, _, _, _] = fields;
    let columns = tiles(width, x, tile_width);
    let [across, down] = grid(fields);
    let edge = [0, 1, 2, 5, columns, columns * 2, 65_535];
    let edge_of_grid = [across, across * down, across * down];
    match random.below(10) {
        0 => random.number() as u16,
        1..=4 => random.below(6) as u16,
        5 | 6 => random.pick(&edge).wrapping_sub(random.below(2) as u64) as u16,
        _ => random
            .pick(&edge_of_grid)
            .wrapping_sub(random.below(2) as u64) as u16,
    }
}

/// Columns and rows by Annex B, where there is a grid.
pub fn grid(fields: &Fields) -> [u64; 2] {
    let &[width, height, _, _, tile_width, tile_height, x, y] = fields;
    [tiles(width, x, tile_width), tiles(height, y, tile_height)]
}

fn tiles(end: u32, start: u32, tile: u32) -> u64 {
    end.saturating_sub(start).div_ceil(tile.max(1)).into()
}

/// Sound and small half the time.
pub fn fields(random: &mut Random) -> Fields {
    let side = random.pick(&[small_side as Side, any_side]);
    let [x, y] = [(); 2].map(|()| {
        let (size, origin, tile) = side(random);
        [size, origin, tile, tile_origin(random, origin, tile)]
    });
    mixed(x, y)
}

/// Size, origin, tile and tile origin of each direction.
fn mixed(
    [width, x, tile_width, tile_x]: [u32; 4],
    [height, y, tile_height, tile_y]: [u32; 4],
) -> Fields {
    [width, height, x, y, tile_width, tile_height, tile_x, tile_y]
}

/// Size, origin and tile of one direction.
type Side = fn(&mut Random) -> (u32, u32, u32);

fn small_side(random: &mut Random) -> (u32, u32, u32) {
    let origin = random.below(4).min(1) * random.below(30);
    let tile = 1 + random.below(20);
    let size = origin + random.below(70);
    (size as u32, origin as u32, tile as u32)
}

/// One less, the same or one more.
fn near(random: &mut Random, number: u32) -> u32 {
    number.wrapping_add((random.below(3) as u32).wrapping_sub(1))
}

fn any_side(random: &mut Random) -> (u32, u32, u32) {
    let telling = |random: &mut Random| random.pick(&TELLING);
    match random.below(7) {
        0..=2 => small_side(random),
        // The tiles' ends meet the size, or miss it by one.
        3 => {
            let (origin, tile) = (telling(random), telling(random));
            let tiles = tile.wrapping_mul(random.below(4) as u32);
            (near(random, origin.wrapping_add(tiles)), origin, tile)
        }
        // Origin and tile come to 2^32, or miss it by one.
        4 => {
            let origin = telling(random);
            let tile = near(random, origin.wrapping_neg());
            (telling(random), origin, tile)
        }
        // Tiles whose multiples pass 2^32.
        5 => {
            let tile = random.number() as u32 >> random.below(20);
            (u32::MAX - random.below(3) as u32, telling(random), tile)
        }
        _ => (telling(random), telling(random), telling(random)),
    }
}

/// That of the image; before it, so that the first tile reaches into it; at the edges of both; or
/// anything.
fn tile_origin(random: &mut Random, origin: u32, tile: u32) -> u32 {
    match random.below(16) {
        0..=3 => origin,
        4..=12 => {
            let most = (tile.max(1) - 1).min(origin);
            origin - random.below(most as usize + 1) as u32
        }
        13 => near(random, origin.wrapping_sub(tile)),
        14 => near(random, origin),
        _ => random.pick(&TELLING),
    }
}

/// Each of four values in every one of the six fields that the original's rule reads.
pub fn every_mixture(values: [u32; 4]) -> Vec<Fields> {
    (0..4usize.pow(6))
        .map(|mixture| {
            let value = |place: u32| values[mixture / 4usize.pow(place) % 4];
            [
                value(0),
                value(1),
                value(2),
                value(3),
                value(4),
                value(5),
                9,
                9,
            ]
        })
        .collect()
}

/// Each of some values in every field of one direction, beside sound ones in the other.
pub fn every_side(values: &[u32]) -> Vec<Fields> {
    let count = values.len();
    let side =
        |mixture: usize| [0, 1, 2, 3].map(|place| values[mixture / count.pow(place) % count]);
    let mut all = Vec::new();
    for varied in (0..count.pow(4)).map(side) {
        for sound in [
            [6, 0, 4, 0],
            [5, 3, 4, 1],
            [2, 1, 1, 1],
            [u32::MAX, 9, 1 << 31, 0],
        ] {
            all.extend([mixed(varied, sound), mixed(sound, varied)]);
        }
    }
    all
}

/// Each of some values as width and height of the image and of its tiles, all from 0 on.
pub fn every_size(values: &[u32]) -> Vec<Fields> {
    let mut all = Vec::new();
    for &width in values {
        for &height in values {
            for &tile_width in values {
                let fields = |&down| [width, height, 0, 0, tile_width, down, 0, 0];
                all.extend(values.iter().map(fields));
            }
        }
    }
    all
}

/// Grids of tiles of 1 by 1 whose number passes 16 or 32 bits by little or not at all, or is close
/// to as large as it can be.
pub fn crowded() -> Vec<Fields> {
    let [half, most] = [1 << 31, u32::MAX];
    let grids = [
        [65_535, 1],
        [65_536, 1],
        [65_537, 1],
        [1, 65_535],
        [1, 65_536],
        [255, 257],
        [256, 256],
        [65_535, 65_537],
        [65_536, 65_536],
        [641, 6_700_417],
        [65_537, 65_537],
        [2, half],
        [half, 2],
        [half, half],
        [most, 1],
        [most, 2],
        [1, most],
        [most - 1, most],
        [most, most],
    ];
    let fields = |[columns, rows]: [u32; 2]| [columns, rows, 0, 0, 1, 1, 0, 0];
    grids.into_iter().map(fields).collect()
}

/// The first and the last tiles of the grid by Annex B and those behind it, as far as an index goes.
pub fn every_index(fields: &Fields) -> Vec<u16> {
    let [columns, rows] = grid(fields);
    let ends = [0, 1, 2, 3, columns, columns * 2, columns * rows, 65_535];
    let around = |end: u64| [end.saturating_sub(1), end, end.saturating_add(1)];
    let indices = ends.into_iter().flat_map(around);
    let mut indices: Vec<_> = indices.filter_map(|index| index.try_into().ok()).collect();
    indices.sort();
    indices.dedup();
    indices
}

/// Around sample A: each field at its edges, the others as they are.
pub fn around_sample_a() -> Vec<Fields> {
    around(SAMPLE_A, &[5, 6, 8, 9, 10, 11, 12])
}

/// The same where tile and image origin differ: each field meets the others, and misses them by one.
pub fn around_moved() -> Vec<Fields> {
    around(MOVED, &[5, 6, 8, 9, 10, 11, 17, 18, 22, 23, 24])
}

fn around(fields: Fields, edges: &[u32]) -> Vec<Fields> {
    let mut around = vec![fields];
    for place in 0..8 {
        for value in TELLING.iter().chain(edges) {
            let mut fields = fields;
            fields[place] = *value;
            around.push(fields);
        }
    }
    around
}

/// A number that means Annex B's rule: its own, or one that means nothing else.
pub fn annex_b_number(random: &mut Random) -> u32 {
    let unknown = (random.number() as u32).max(3);
    random.pick(&[0, 0, 3, 7, u32::MAX, unknown])
}

#[cfg(test)]
mod tests {
    use super::{
        annex_b_number, crowded, every_index, fields, header, header_and_index, index, MOVED,
    };
    use crate::model::rules::{field, has_siz, tile_area, Rule, ORIGIN, TILE_ORIGIN};
    use crate::random::Random;

    /// In 100,000 random headers.
    #[test]
    fn every_answer_is_reached_often() {
        let mut random = Random::new(5);
        let (mut accepted, mut agreed, mut parted) = (0, 0, 0);
        let (mut no_grid, mut no_tile) = (0, 0);
        for _ in 0..100_000 {
            let (header, isot) = header_and_index(&mut random);
            if !has_siz(&header) {
                continue;
            }
            let by = |rule| tile_area(&header, isot, rule);
            let differ =
                [0, 4].map(|y| field(&header, ORIGIN + y) != field(&header, TILE_ORIGIN + y));
            match by(Rule::AnnexB) {
                Ok(area) => {
                    accepted += 1;
                    agreed += u32::from(differ == [false; 2] && by(Rule::Original) == Ok(area));
                    parted += u32::from(differ == [true; 2] && by(Rule::Original) != Ok(area));
                }
                Err(refusal) if refusal.number == 30 => no_grid += 1,
                Err(_) => no_tile += 1,
            }
        }
        let least = [accepted, agreed, parted, no_grid, no_tile];
        assert!(accepted >= 30_000, "{least:?}");
        assert!(agreed >= 5_000, "{least:?}");
        assert!(parted >= 5_000, "{least:?}");
        assert!(no_grid >= 10_000, "{least:?}");
        assert!(no_tile >= 5_000, "{least:?}");
    }

    /// Along one direction: where the tile origin lies to the image origin, and how far the first
    /// tile reaches.
    #[test]
    fn every_edge_of_the_origins_is_reached_often() {
        let mut random = Random::new(5);
        let mut seen = [0; 6];
        for _ in 0..100_000 {
            let [_, _, origin, _, tile, _, tile_origin, _] = fields(&mut random).map(i64::from);
            let reach = tile_origin + tile;
            let edges = [
                tile_origin < origin,
                tile_origin == origin && origin > 0,
                tile_origin == origin + 1,
                reach == origin,
                reach == origin + 1,
                reach > i64::from(u32::MAX),
            ];
            for (count, edge) in seen.iter_mut().zip(edges) {
                *count += u32::from(edge);
            }
        }
        assert!(seen.iter().all(|&count| count >= 1_000), "{seen:?}");
    }

    #[test]
    fn the_last_tile_and_the_next_are_reached_often() {
        let mut random = Random::new(5);
        let (mut last, mut next) = (0, 0);
        for _ in 0..100_000 {
            let fields = fields(&mut random);
            let isot = index(&mut random, &fields);
            let header = header(fields);
            let at = |isot| tile_area(&header, isot, Rule::AnnexB).is_ok();
            last += u32::from(at(isot) && isot < u16::MAX && !at(isot + 1));
            next += u32::from(!at(isot) && isot > 0 && at(isot - 1));
        }
        assert!(last >= 3_000 && next >= 3_000, "{last}, {next}");
    }

    #[test]
    fn indices_around_the_grid() {
        let indices = [0, 1, 2, 3, 4, 5, 6, 9, 10, 11, 14, 15, 16, 65_534, 65_535];
        assert_eq!(every_index(&MOVED), indices);
        let small = crowded()
            .into_iter()
            .map(|fields| u64::from(fields[0]) * u64::from(fields[1]));
        let passes =
            |bits: u32| move |tiles: &u64| *tiles >= 1 << bits && *tiles <= (1 << bits) + 1;
        assert_eq!(small.clone().filter(passes(16)).count(), 4);
        assert_eq!(small.filter(passes(32)).count(), 4);
    }

    #[test]
    fn no_number_of_annex_b_is_another_rules() {
        let mut random = Random::new(5);
        let numbers: Vec<_> = (0..1_000).map(|_| annex_b_number(&mut random)).collect();
        assert!([0, 3, 7, u32::MAX]
            .iter()
            .all(|number| numbers.contains(number)));
        assert!(numbers
            .iter()
            .all(|&number| Rule::of(number) == Rule::AnnexB));
    }
}
