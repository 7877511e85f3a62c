//! "Component sizes".

use beside::model::components::NO_SUCH_COMPONENT;
use beside::sample::components::{header, many, saying, MOST};
use beside::sample::sample_a;
use beside::sample::sizes::{Fields, SAMPLE_A};
use probe::host;

/// 8 bits; 12 bits, signed, 2 across and 3 down; 38 bits, 255 across and 254 down.
const THREE: [[u8; 3]; 3] = [[7, 1, 1], [0x8B, 2, 3], [37, 255, 254]];

/// From 3, 2 to 10, 6. Tiles from 1, 1 on: three columns and two rows. By the original's rule they
/// are two columns from 3, 2 on, and tile 2 starts at 3, 6, which is the end.
const FROM_3_2: Fields = [10, 6, 3, 2, 4, 4, 1, 1];

/// Status, and the numbers lent as they stand after it.
fn left<const V: usize>(call: impl FnOnce(&mut [u64; V]) -> u32) -> (u32, [u64; V]) {
    let mut values = [7; V];
    (call(&mut values), values)
}

fn image(codestream: &[u8]) -> (u32, [u64; 5]) {
    left(|values| host::read_components(codestream, values))
}

/// Without a rule, by Annex B's number, by those that mean no other, and in place.
fn in_tile(codestream: &[u8], tile: u16) -> (u32, [u64; 5]) {
    let plain = left(|values| host::read_components_in_tile(codestream, tile, values));
    for rule in [host::ANNEX_B, 3, 7, u32::MAX, host::IN_PLACE] {
        assert_eq!(in_tile_by(codestream, tile, rule), plain, "{rule}");
    }
    plain
}

fn in_tile_by(codestream: &[u8], tile: u16, rule: u32) -> (u32, [u64; 5]) {
    left(|values| host::read_components_in_tile_by_rule(codestream, tile, rule, values))
}

fn refused<const V: usize>(number: u32, place: u64) -> (u32, [u64; V]) {
    let mut values = [7; V];
    values[0] = place;
    (number, values)
}

#[test]
fn the_status_of_none_is_256() {
    assert_eq!(NO_SUCH_COMPONENT, 256);
    assert_eq!(host::NO_SUCH_COMPONENT, NO_SUCH_COMPONENT);
}

#[test]
fn how_many_and_where() {
    assert_eq!(image(&sample_a()), (0, [1, 0, 0, 10, 6]));
    assert_eq!(image(&sample_a()[..45]), (0, [1, 0, 0, 10, 6]));
    let three = header(FROM_3_2, &THREE);
    assert_eq!(image(&three), (0, [3, 3, 2, 10, 6]));
    assert_eq!(in_tile(&three, 0), (0, [3, 3, 2, 5, 5]));
    assert_eq!(in_tile(&three, 1), (0, [3, 5, 2, 9, 5]));
    assert_eq!(in_tile(&three, 2), (0, [3, 9, 2, 10, 5]));
    assert_eq!(in_tile(&three, 5), (0, [3, 9, 5, 10, 6]));
    assert_eq!(in_tile(&three, 6), refused(31, 2));
    assert_eq!(in_tile(&three, 65_535), refused(31, 2));
}

#[test]
fn where_by_the_originals_rule() {
    let three = header(FROM_3_2, &THREE);
    let in_tile = |tile| in_tile_by(&three, tile, host::ORIGINAL);
    assert_eq!(in_tile(0), (0, [3, 3, 2, 7, 6]));
    assert_eq!(in_tile(1), (0, [3, 7, 2, 10, 6]));
    assert_eq!(in_tile(2), (0, [3, 3, 6, 7, 6]));
    assert_eq!(in_tile(4), refused(10, 2));
    assert_eq!(in_tile(65_535), refused(10, 2));
}

/// 30 and 31 come behind all that is refused in the image, and before "no such component".
#[test]
fn a_tile_that_is_not_there() {
    let no_grid = [10, 6, 3, 2, 4, 4, 4, 1];
    assert_eq!(in_tile(&header(no_grid, &THREE), 0), refused(30, 2));
    assert_eq!(in_tile(&header(no_grid, &THREE), 65_535), refused(30, 2));
    assert_eq!(in_tile(&header(no_grid, &[[7, 0, 1]]), 0), refused(25, 2));
    let before = [2, 6, 3, 2, 4, 4, 4, 1];
    assert_eq!(in_tile(&header(before, &THREE), 0), refused(22, 2));
    let empty = [3, 6, 3, 2, 4, 4, 1, 1];
    assert_eq!(image(&header(empty, &THREE)), (0, [3, 3, 2, 3, 6]));
    assert_eq!(in_tile(&header(empty, &THREE), 0), refused(30, 2));
    for (fields, tile, number) in [(no_grid, 0, 30), (FROM_3_2, 6, 31)] {
        let codestream = header(fields, &THREE);
        let found = left(|values| host::component_in_tile(&codestream, tile, 9, values));
        assert_eq!(found, refused(number, 2));
        let rule = host::ORIGINAL;
        let by_original =
            left(|values| host::component_in_tile_by_rule(&codestream, tile, rule, 9, values));
        assert_eq!(
            by_original.0,
            [NO_SUCH_COMPONENT, 10][usize::from(tile == 6)]
        );
    }
}

#[test]
fn what_is_refused() {
    let three = header(SAMPLE_A, &THREE);
    for (end, number, place) in [(0, 1, 0), (1, 1, 0), (2, 2, 2), (3, 2, 2)] {
        assert_eq!(image(&three[..end]), refused(number, place));
    }
    for end in 4..three.len() {
        assert_eq!(image(&three[..end]), refused(3, 2));
        assert_eq!(in_tile(&three[..end], 0), refused(3, 2));
    }
    for (lsiz, csiz) in [
        (46, 3),
        (48, 3),
        (47, 2),
        (47, 4),
        (38, 0),
        (40, 1),
        (41, 0),
    ] {
        let amiss = saying(SAMPLE_A, lsiz, csiz, &many(4));
        assert_eq!(image(&amiss), refused(24, 2));
    }
    for at in [43, 44, 46, 47, 49, 50] {
        let mut zero = three.clone();
        zero[at] = 0;
        assert_eq!(image(&zero), refused(25, 2));
    }
    for fields in [[2, 6, 3, 0, 4, 4, 0, 0], [10, 1, 0, 2, 4, 4, 0, 0]] {
        assert_eq!(image(&header(fields, &THREE)), refused(22, 2));
        assert_eq!(image(&header(fields, &[[7, 0, 1]])), refused(25, 2));
    }
}

#[test]
fn as_many_as_there_may_be() {
    let last = MOST as u64 - 1;
    let most = header(SAMPLE_A, &many(MOST));
    assert_eq!(image(&most), (0, [16_384, 0, 0, 10, 6]));
    let found = left(|values| host::component(&most, last, values));
    assert_eq!(found, (0, [128, 1, 46, 107, 0, 0, 1, 1]));
    let found = left::<8>(|values| host::component(&most, last + 1, values));
    assert_eq!(found, (NO_SUCH_COMPONENT, [7; 8]));
    assert_eq!(image(&header(SAMPLE_A, &many(MOST + 1))), refused(24, 2));
}

#[test]
fn one_component() {
    let three = header(FROM_3_2, &THREE);
    for (number, expected) in [
        (0, [8, 0, 1, 1, 3, 2, 10, 6]),
        (1, [12, 1, 2, 3, 2, 1, 5, 2]),
        (2, [38, 0, 255, 254, 1, 1, 1, 1]),
    ] {
        let found = left(|values| host::component(&three, number, values));
        assert_eq!(found, (0, expected));
    }
    let found = left(|values| host::component_in_tile(&three, 1, 1, values));
    assert_eq!(found, (0, [12, 1, 2, 3, 3, 1, 5, 2]));
    let by =
        |tile, rule| left(|values| host::component_in_tile_by_rule(&three, tile, rule, 1, values));
    for rule in [host::ANNEX_B, 3, 7, u32::MAX, host::IN_PLACE] {
        assert_eq!(by(1, rule), found);
    }
    assert_eq!(by(1, host::ORIGINAL), (0, [12, 1, 2, 3, 4, 1, 5, 2]));
    assert_eq!(by(4, host::ORIGINAL), refused(10, 2));
    let found = left(|values| host::component_in_tile(&three, 6, 9, values));
    assert_eq!(found, refused(31, 2));
    let found = left(|values| host::component(&three[..50], 9, values));
    assert_eq!(found, refused(3, 2));
    for number in [3, 1 << 16, 1 << 32, 0x5555_5555_5555_5556, u64::MAX] {
        let found = left(|values| host::component_in_tile(&three, 1, number, values));
        assert_eq!(found, (NO_SUCH_COMPONENT, [7; 8]));
    }
}

/// Nothing need be checked before, and any four numbers are an area.
#[test]
fn within_an_area() {
    let mut three = header(SAMPLE_A, &THREE);
    three[..40].fill(0);
    let area = [u32::MAX, 1, 0, u32::MAX];
    let within = |codestream: &[u8], number| {
        left(|values| host::component_within(codestream, area, number, values))
    };
    let found = [12, 1, 2, 3, 1 << 31, 1, 0, 1_431_655_765];
    assert_eq!(within(&three, 1), (0, found));
    assert_eq!(within(&three[..48], 1), (0, found));
    let none = (NO_SUCH_COMPONENT, [7; 8]);
    for end in 0..48 {
        assert_eq!(within(&three[..end], 1), none);
    }
    assert_eq!(within(&three, 3), none);
    three[46] = 0;
    assert_eq!(within(&three, 1), none);
    assert_eq!(within(&three, 2).0, 0);
}
