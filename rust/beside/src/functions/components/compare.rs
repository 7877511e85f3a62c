//! The comparison: every number of all seven functions, refusals, and what has to stay as it was.
//! In a tile by the original's rule, and by Annex B's and in place, of which the original says
//! something where the rules have to agree. And each component of a tile that is cut out in place is
//! what it is in the whole.

use std::fmt::{self, Display};

use probe::host;

use super::cases::{asked, Asked};
use super::told::{self, Original, ORIGINAL};
use super::{counted, numbers};
use crate::compare::{self, Comparison};
use crate::functions::rewrite::written;
use crate::judge::{Case, Leaves, Told};
use crate::lent::Lent;
use crate::model::components::{
    component, component_in_tile, component_within, read_components, read_components_in_tile,
    Component, Components, NO_SUCH_COMPONENT,
};
use crate::model::reader::Size;
use crate::model::rules::{have_to_agree, Rule};
use crate::model::{Area, Refusal, ACCEPTED};
use crate::sample::components::{
    any_area, every_number, header, header_and_index, many, number_of, saying, MOST, MOST_SAID,
};
use crate::sample::short::each_behind;
use crate::sample::sizes::{
    annex_b_number, around_moved, around_sample_a, crowded, every_index, every_mixture, every_side,
    SAMPLE_A,
};
use crate::sample::zeros::zeros;
use crate::sample::{headers, prefixes};
use crate::tally::hex_of_front;
use crate::wanted::{self, NONE};

type Run = compare::Run<Original>;

pub const COMPARISON: Comparison<Original> = Comparison {
    wanted: wanted::READ_COMPONENTS,
    also: &[
        wanted::READ_COMPONENTS_BY_ORIGINAL,
        wanted::READ_COMPONENTS_IN_TILE,
        wanted::READ_COMPONENTS_BY_ANNEX_B,
        wanted::READ_COMPONENTS_IN_PLACE,
        wanted::COMPONENT,
        wanted::COMPONENT_BY_ORIGINAL,
        wanted::COMPONENT_IN_TILE,
        wanted::COMPONENT_BY_ANNEX_B,
        wanted::COMPONENT_IN_PLACE,
        wanted::COMPONENT_WITHIN,
        wanted::COMPONENT_KEPT,
    ],
    minimum: 1_000_000,
    original: ORIGINAL,
    fixed,
    random: Some(random),
};

/// Where the tallies of functions stand among the others; those in a tile from there on, by rule.
const READ_IN_TILE: usize = 0;
const ONE: usize = 4;
const ONE_IN_TILE: usize = 5;
const ONE_WITHIN: usize = 9;
const ONE_KEPT: usize = 10;

/// In bytes: of more nothing is cut out, as that would be copied.
const LONGEST_KEPT: usize = 1 << 20;

fn fixed(run: &mut Run) {
    run.each(asked, |run, asked| {
        let Asked {
            codestream,
            tile,
            number,
        } = asked;
        check_with(run, codestream, *tile, &[*number]);
    });
    short_strings(run);
    every_prefix(run);
    every_sampling(run);
    every_lsiz_and_csiz(run);
    very_many(run);
    past_4_gigabytes(run);
    every_tile(run);
}

/// One that isn't there leaves all numbers as they were.
impl Leaves<8, 0> for Option<[u64; 8]> {
    fn leave(&self, before: Lent<8, 0>) -> Lent<8, 0> {
        match self {
            Some(numbers) => numbers.leave(before),
            None => before.none(NO_SUCH_COMPONENT),
        }
    }
}

/// Asked for two components.
fn check(run: &mut Run, codestream: &[u8], tile: u16) {
    let which = [(); 2].map(|()| number_of(&mut run.random, codestream));
    check_with(run, codestream, tile, &which);
}

/// Asked for the components at every edge.
fn check_every_number(run: &mut Run, codestream: &[u8], tile: u16) {
    check_with(run, codestream, tile, &every_number(codestream));
}

pub fn check_with(run: &mut Run, codestream: &[u8], tile: u16, which: &[u64]) {
    let image = read_components(codestream);
    let told = run.original.size(codestream, &image);
    let counts = told.and_then(|size| told::counted(size, &image));
    let case = lent(run, counts, image.map(counted), |values| {
        host::read_components(codestream, values)
    });
    case.judge(&mut run.tally, || hex_of_front(codestream));

    let tiles = by_rules(run, codestream, tile, &image, told);
    for (place, tile) in (READ_IN_TILE..).zip(&tiles) {
        let document = tile.document;
        let counts = tile.told.and_then(|size| told::counted(size, &document));
        let case = lent(run, counts, document.map(counted), |values| {
            tile.read(codestream, values)
        });
        case.judge(&mut run.also[place], || {
            format!("{}, {tile}", hex_of_front(codestream))
        });
    }

    for &number in which {
        let asked = One { codestream, number };
        asked.of_image(run, told);
        for (place, tile) in (ONE_IN_TILE..).zip(&tiles) {
            asked.of_tile(run, place, tile);
        }
        // It never refuses: where the others do the original says nothing.
        let told = image.map_or(Told::Nothing, |_| told);
        let any = any_area(&mut run.random);
        let [by_original, by_annex_b, ..] = tiles.map(|tile| tile.document);
        let read = [image, by_original, by_annex_b].into_iter().flatten();
        for area in read.map(|(_, area)| area).chain([any]) {
            asked.within(run, area, told);
        }
    }
    kept(run, codestream, tile, which);
}

/// The law of a tile alone: in tile 0 of its own header, and in the image, each component is what the
/// archive says that it is in the tile of the whole.
fn kept(run: &mut Run, codestream: &[u8], tile: u16, which: &[u64]) {
    if codestream.len() > LONGEST_KEPT {
        return;
    }
    let Some(alone) = written(codestream, tile, host::IN_PLACE) else {
        return;
    };
    for &number in which {
        let found = |call: &dyn Fn(&mut [u64; 8]) -> u32| {
            let mut numbers = [0; 8];
            (call(&mut numbers), numbers)
        };
        let whole = found(&|numbers| host::component_in_tile(codestream, tile, number, numbers));
        let label = match whole.0 {
            0 => ACCEPTED,
            NO_SUCH_COMPONENT => NONE,
            _ => continue,
        };
        for alone in [
            found(&|numbers| host::component_in_tile(&alone, 0, number, numbers)),
            found(&|numbers| host::component(&alone, number, numbers)),
        ] {
            let tally = &mut run.also[ONE_KEPT];
            tally.compare_by_the_document(label, &alone, &whole, || {
                format!("{}, tile {tile}", One { codestream, number })
            });
        }
    }
}

/// A tile by the rule of a number or, without one, of the functions that take none; what the model
/// says of it, and the original.
#[derive(Clone, Copy)]
struct Tile {
    index: u16,
    rule: Option<u32>,
    document: Result<Components, Refusal>,
    told: Told<Size>,
}

/// In the order of the tallies. Where the image is refused no rule counts, and elsewhere the
/// original speaks for Annex B's, and for it in place, where that has to agree with its own.
fn by_rules(
    run: &mut Run,
    codestream: &[u8],
    index: u16,
    image: &Result<Components, Refusal>,
    told: Told<Size>,
) -> [Tile; 4] {
    let tile = |rule, told| Tile {
        index,
        rule,
        document: read_components_in_tile(codestream, index, rule_of(rule)),
        told,
    };
    let mut by_original = tile(Some(host::ORIGINAL), told);
    by_original.told = told.and_then(|size| {
        let document = &by_original.document;
        run.original.size_in_tile(codestream, index, size, document)
    });
    let speaks = image.is_err() || have_to_agree(codestream);
    let told = by_original.told.only_if(speaks);
    let number = annex_b_number(&mut run.random);
    let [standard, numbered, in_place] =
        [None, Some(number), Some(host::IN_PLACE)].map(|rule| tile(rule, told));
    [by_original, standard, numbered, in_place]
}

fn rule_of(number: Option<u32>) -> Rule {
    number.map_or(Rule::AnnexB, Rule::of)
}

impl Tile {
    fn read(&self, codestream: &[u8], values: &mut [u64; 5]) -> u32 {
        match self.rule {
            None => host::read_components_in_tile(codestream, self.index, values),
            Some(rule) => {
                host::read_components_in_tile_by_rule(codestream, self.index, rule, values)
            }
        }
    }

    fn component(&self, codestream: &[u8], number: u64, values: &mut [u64; 8]) -> u32 {
        let index = self.index;
        match self.rule {
            None => host::component_in_tile(codestream, index, number, values),
            Some(rule) => host::component_in_tile_by_rule(codestream, index, rule, number, values),
        }
    }
}

impl Display for Tile {
    fn fmt(&self, out: &mut fmt::Formatter) -> fmt::Result {
        write!(out, "tile {}, rule {:?}", self.index, self.rule)
    }
}

/// What is lent, before and after `call`.
fn lent<A, const V: usize>(
    run: &mut Run,
    told: Told<A>,
    document: Result<A, Refusal>,
    call: impl FnOnce(&mut [u64; V]) -> u32,
) -> Case<A, V, 0> {
    let before = Lent::preset(&mut run.random, []);
    Case {
        ours: before.left_by(|[], values| call(values)),
        before,
        told,
        document,
    }
}

/// A component that is asked for.
struct One<'a> {
    codestream: &'a [u8],
    number: u64,
}

impl One<'_> {
    fn of_image(&self, run: &mut Run, told: Told<Size>) {
        let &One { codestream, number } = self;
        let document = component(codestream, number);
        let case = self.lent(run, told, document, |values| {
            host::component(codestream, number, values)
        });
        case.judge_under(label(&document), &mut run.also[ONE], || self.to_string());
    }

    fn of_tile(&self, run: &mut Run, place: usize, tile: &Tile) {
        let &One { codestream, number } = self;
        let document = component_in_tile(codestream, tile.index, rule_of(tile.rule), number);
        let case = self.lent(run, tile.told, document, |values| {
            tile.component(codestream, number, values)
        });
        let input = || format!("{self}, {tile}");
        case.judge_under(label(&document), &mut run.also[place], input);
    }

    fn within(&self, run: &mut Run, area: Area, told: Told<Size>) {
        let &One { codestream, number } = self;
        let document = Ok(component_within(codestream, area, number));
        let case = self.lent(run, told, document, |values| {
            host::component_within(codestream, area, number, values)
        });
        let input = || format!("{self}, area {area:?}");
        case.judge_under(label(&document), &mut run.also[ONE_WITHIN], input);
    }

    fn lent(
        &self,
        run: &mut Run,
        told: Told<Size>,
        document: Found,
        call: impl FnOnce(&mut [u64; 8]) -> u32,
    ) -> Case<Option<[u64; 8]>, 8, 0> {
        let told = told.and_then(|size| told::component(size, self.number, &document));
        lent(run, told, document.map(|found| found.map(numbers)), call)
    }
}

impl Display for One<'_> {
    fn fmt(&self, out: &mut fmt::Formatter) -> fmt::Result {
        write!(
            out,
            "{}, component {}",
            hex_of_front(self.codestream),
            self.number
        )
    }
}

type Found = Result<Option<Component>, Refusal>;

fn label(document: &Found) -> &'static str {
    match document {
        Ok(None) => NONE,
        _ => ACCEPTED,
    }
}

/// Instead of the markers, of Lsiz, and from Csiz on, with and without bytes behind them.
fn short_strings(run: &mut Run) {
    const LETTERS: [u8; 8] = [0x00, 0x01, 0x02, 0x29, 0x2C, 0x4F, 0x51, 0xFF];
    let two = header(SAMPLE_A, &many(2));
    let fronts: [(&[u8], usize); 4] = [(&[], 4), (&two[..2], 4), (&two[..4], 3), (&two[..40], 5)];
    each_behind(&fronts, &LETTERS, |bytes| {
        check(run, bytes, 0);
        check(run, &[bytes, &two[bytes.len().min(48)..]].concat(), 0);
    });
}

fn every_prefix(run: &mut Run) {
    for count in [1, 2, 3, 9] {
        let mut whole = header(SAMPLE_A, &many(count));
        whole.extend([0xFF, 0x90]);
        for prefix in prefixes(&whole) {
            check_every_number(run, &prefix, 5);
        }
    }
}

/// Every Ssiz, XRsiz and YRsiz, at each edge of the area's fields.
fn every_sampling(run: &mut Run) {
    for fields in [around_sample_a(), around_moved()].concat() {
        for byte in 0..=u8::MAX {
            let other = run.random.byte();
            let samplings = [[byte, byte, other], [other, other, byte]];
            check_with(run, &header(fields, &samplings), 0, &[0, 1]);
        }
    }
}

/// Around each other, with as many bytes as both say, fewer and more.
fn every_lsiz_and_csiz(run: &mut Run) {
    for csiz in (0..=5u16).chain([255, 256, 257]) {
        let fitting = 38 + 3 * csiz;
        let low = (36..=42).chain([0, 1, 2, 3]);
        for lsiz in low.chain(fitting - 4..=fitting + 4) {
            for held in csiz.saturating_sub(1)..=csiz + 2 {
                let samplings = many(held.into());
                check_every_number(run, &saying(SAMPLE_A, lsiz, csiz, &samplings), 1);
            }
        }
    }
}

/// Around as many as are accepted, and as many as Lsiz can say; and 0 in one of them.
fn very_many(run: &mut Run) {
    for count in [MOST - 1, MOST, MOST + 1, MOST_SAID] {
        let samplings = many(count);
        let whole = header(SAMPLE_A, &samplings);
        check_every_number(run, &whole, 0);
        check_every_number(run, &whole[..whole.len() - 1], 0);
        for at in [0, 1, count / 2, MOST - 2, MOST - 1, count - 1] {
            for place in [1, 2] {
                let mut zero = samplings.clone();
                if let Some(sampling) = zero.get_mut(at) {
                    sampling[place] = 0;
                }
                check_with(run, &header(SAMPLE_A, &zero), 0, &[0, at as u64]);
            }
        }
    }
}

/// As nothing behind SIZ is walked, so long a loan is no other.
fn past_4_gigabytes(run: &mut Run) {
    let Some(mut codestream) = zeros((1 << 32) + 100) else {
        return;
    };
    let front = header(SAMPLE_A, &many(3));
    check_every_number(run, &codestream, 5);
    codestream[..front.len()].copy_from_slice(&front);
    check_every_number(run, &codestream, 5);
}

/// In every mixture of sizes, origins and tiles.
fn every_tile(run: &mut Run) {
    let samplings = [[7, 2, 1], [0x8F, 1, 3]];
    for values in [[0, 1, 1 << 31, u32::MAX], [1, 2, 3, 4]] {
        for fields in every_mixture(values) {
            for tile in [0, 1, 2, 3, 65_535] {
                check_with(run, &header(fields, &samplings), tile, &[1]);
            }
        }
    }
    for fields in [every_side(&[0, 1, 2, 3, 4]), crowded()].concat() {
        for tile in every_index(&fields) {
            check_with(run, &header(fields, &samplings), tile, &[1]);
        }
    }
}

fn random(run: &mut Run) {
    let (built, tile) = header_and_index(&mut run.random);
    let whole = headers::codestream(&mut run.random);
    check(run, &built, tile);
    check(run, &built, tile.wrapping_add(1));
    check(run, &whole, tile);
    run.damaged(5, &built, |run, damaged| check(run, damaged, tile));
    run.cut(1, &built, |run, cut| check(run, cut, tile));
}
