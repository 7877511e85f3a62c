//! The replay list's cases of kind 12; the payload is a tile's index in 2 bytes, a component's
//! number in 8, and the codestream. The original has no such functions: the answers are the
//! model's, in the tile by Annex B's rule.

use super::{counted, numbers};
use crate::cases::{refused, Kind};
use crate::model::components::{
    component, component_in_tile, component_within, read_components, read_components_in_tile,
    Component, Components,
};
use crate::model::rules::Rule;
use crate::model::{number, Area, Refusal};
use crate::random::Random;
use crate::sample::components::{
    every_number, header, header_and_index, many, number_of, saying, MOST,
};
use crate::sample::damage::damaged;
use crate::sample::prefixes;
use crate::sample::sizes::{around_sample_a, Fields, MOVED, SAMPLE_A};

pub const KIND: Kind = Kind {
    number: 12,
    name: "component sizes",
    minimum: 300,
    payloads: |random| asked(random).iter().map(Asked::framed).collect(),
    answer,
};

/// A component that is asked for, in the image and in a tile.
pub struct Asked {
    pub codestream: Vec<u8>,
    pub tile: u16,
    pub number: u64,
}

impl Asked {
    fn new(codestream: &[u8], tile: u16, number: u64) -> Self {
        Asked {
            codestream: codestream.to_vec(),
            tile,
            number,
        }
    }

    fn framed(&self) -> Vec<u8> {
        let Asked {
            codestream,
            tile,
            number,
        } = self;
        [&tile.to_be_bytes(), &number.to_be_bytes()[..], codestream].concat()
    }
}

/// What `component_within` is asked for, whatever the codestream.
const AREA: Area = [1, 254, 65_537, u32::MAX];

/// Of all five functions.
fn answer(payload: &[u8]) -> Option<String> {
    let (tile, rest) = payload.split_at(2);
    let (which, codestream) = rest.split_at(8);
    let (tile, which) = (number(tile) as u16, number(which));
    let answers = [
        area(read_components(codestream)),
        area(read_components_in_tile(codestream, tile, Rule::AnnexB)),
        one(component(codestream, which)),
        one(component_in_tile(codestream, tile, Rule::AnnexB, which)),
        one(Ok(component_within(codestream, AREA, which))),
    ];
    Some(format!("components{}", answers.join(",")))
}

fn area(read: Result<Components, Refusal>) -> String {
    read.map_or_else(refused, |read| listed(&counted(read)))
}

fn one(read: Result<Option<Component>, Refusal>) -> String {
    let found = |component| listed(&numbers(component));
    let found = |read: Option<_>| read.map_or(" none".to_string(), found);
    read.map_or_else(refused, found)
}

fn listed(numbers: &[u64]) -> String {
    let text = |number: &u64| format!(" {number}");
    numbers.iter().map(text).collect()
}

pub fn asked(random: &mut Random) -> Vec<Asked> {
    let mut all = around_three();
    let moved = header(MOVED, &[[7, 2, 3], [0x8F, 255, 254]]);
    all.extend((0..17).map(|tile| Asked::new(&moved, tile, 0)));
    for fields in around_sample_a() {
        let two = header(fields, &[[7, 2, 3], [0x8F, 255, 254]]);
        all.extend([(0, 0), (5, 1)].map(|(tile, number)| Asked::new(&two, tile, number)));
    }
    for csiz in 0..5 {
        for lsiz in 37..=51 {
            all.push(Asked::new(&saying(SAMPLE_A, lsiz, csiz, &many(4)), 0, 3));
        }
    }
    all.extend(first_of_several());
    for count in [MOST, MOST + 1] {
        let number = MOST as u64 - 1;
        all.push(Asked::new(&header(SAMPLE_A, &many(count)), 5, number));
    }
    while all.len() < 800 {
        let (header, tile) = header_and_index(random);
        if header.len() <= 200 {
            let damaged = damaged(random, &header);
            for codestream in [header, damaged] {
                let number = number_of(random, &codestream);
                all.push(Asked::new(&codestream, tile, number));
            }
        }
    }
    all
}

/// Numbers, tiles, ends, and a 0 in each byte of the markers and of the components.
fn around_three() -> Vec<Asked> {
    let three = header(SAMPLE_A, &[[7, 1, 1], [0x8B, 2, 3], [37, 255, 254]]);
    let numbers = every_number(&three).into_iter();
    let mut all: Vec<_> = numbers
        .map(|number| Asked::new(&three, 5, number))
        .collect();
    let tiles = (0..9).chain([65_535]);
    all.extend(tiles.map(|tile| Asked::new(&three, tile, 1)));
    all.extend(prefixes(&three).map(|prefix| Asked::new(&prefix, 5, 1)));
    for at in (0..4).chain(42..51) {
        let mut other = three.clone();
        other[at] = 0;
        all.extend([0, 1, 2].map(|number| Asked::new(&other, 5, number)));
    }
    all
}

/// Several refusals apply: all from 3 on, then with one after the other mended.
fn first_of_several() -> Vec<Asked> {
    const BEFORE_ITS_START: Fields = [10, 6, 11, 0, 4, 4, 0, 0];
    const NO_TILES: Fields = [10, 6, 0, 0, 0, 4, 0, 0];
    const NOT_REACHED: Fields = [10, 6, 4, 4, 4, 4, 0, 0];
    let zero = [[7, 1, 1], [7, 1, 0]];
    let sound = [[7, 1, 1], [7, 1, 2]];
    [
        saying(BEFORE_ITS_START, 45, 2, &zero),
        saying(BEFORE_ITS_START, 43, 2, &zero),
        header(BEFORE_ITS_START, &zero),
        header(BEFORE_ITS_START, &sound),
        header(NO_TILES, &zero),
        header(NO_TILES, &sound),
        header(NOT_REACHED, &zero),
        header(NOT_REACHED, &sound),
    ]
    .iter()
    .flat_map(|codestream| [0, 1, 2].map(|number| Asked::new(codestream, 0, number)))
    .collect()
}
