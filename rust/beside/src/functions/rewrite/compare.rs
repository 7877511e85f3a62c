//! The comparison: bytes written, refusals, and the output beyond. By the original's rule beside
//! the original, and by Annex B's and in place beside the model, and beside the original where the
//! rules have to agree.

use original::markers::rewrite_siz_for_tile as original;
use probe::host;

use super::cases::{inputs, inputs_of_annex_b};
use super::laws;
use crate::compare::{self, Comparison};
use crate::judge::{Case, Told};
use crate::lent::{room, Lent};
use crate::model::rules::{have_to_agree, Rule};
use crate::model::tile::rewrite_siz_for_tile;
use crate::model::Refusal;
use crate::sample::sizes::{
    annex_b_number, crowded, every_index, every_mixture, every_side, every_size, header,
    header_and_index,
};
use crate::tally::{hex, Tally};
use crate::wanted;

type Original = fn(&[u8], u16) -> Vec<u8>;
type Run = compare::Run<Original>;

pub const COMPARISON: Comparison<Original> = Comparison {
    wanted: wanted::REWRITE_BY_ORIGINAL,
    also: &[
        wanted::REWRITE,
        wanted::REWRITE_BY_ANNEX_B,
        wanted::REWRITE_IN_PLACE,
        wanted::LAWS_IN_PLACE,
    ],
    minimum: 1_000_000,
    original,
    fixed,
    random: Some(random),
};

fn fixed(run: &mut Run) {
    for make in [inputs, inputs_of_annex_b] {
        run.each(make, |run, (header, isot)| every_room(run, header, *isot));
    }
    for values in [[0, 1, 1 << 31, u32::MAX], [1, 2, 3, 4]] {
        for fields in every_mixture(values) {
            for isot in [0, 1, 2, 3, 65_535] {
                check(run, &header(fields), isot);
            }
        }
    }
    many_indices(run);
    every_origin(run);
    from_0_on(run);
}

fn check(run: &mut Run, header: &[u8], isot: u16) {
    let size = room(&mut run.random, header.len());
    check_with(run, header, isot, size);
    laws::check(&mut run.also[3], header, isot, written);
}

fn every_room(run: &mut Run, header: &[u8], isot: u16) {
    let needed = header.len();
    for size in [0, needed.saturating_sub(1), needed, needed + 1] {
        check_with(run, header, isot, size);
    }
}

/// By a rule's number, or without one.
pub fn rewritten(
    rule: Option<u32>,
    header: &[u8],
    isot: u16,
    out: &mut [u8],
    value: &mut u64,
) -> u32 {
    match rule {
        None => host::rewrite_siz_for_tile(header, isot, out, value),
        Some(rule) => host::rewrite_siz_for_tile_by_rule(header, isot, rule, out, value),
    }
}

/// The header that is written, or nothing where it is refused.
pub fn written(header: &[u8], isot: u16, rule: u32) -> Option<Vec<u8>> {
    let mut out = vec![0; header.len()];
    match rewritten(Some(rule), header, isot, &mut out, &mut 0) {
        0 => Some(out),
        _ => None,
    }
}

fn check_with(run: &mut Run, header: &[u8], isot: u16, size: usize) {
    let fit = |rewritten: Vec<u8>| {
        Refusal::unless_it_holds(size, rewritten.len() as u128)?;
        Ok(rewritten)
    };
    let document = |rule| rewrite_siz_for_tile(header, isot, rule).and_then(fit);
    let original = document(Rule::Original);
    let panics = original.as_ref().is_err_and(Refusal::is_its_panic);
    let told = Told::by_or_panic(panics, || Some((run.original)(header, isot)));
    let agreed = told.clone().only_if(have_to_agree(header));

    let before = Lent::preset(&mut run.random, [size]);
    let judge = |tally: &mut Tally, rule, told, document| {
        let case = Case {
            ours: before.left_by(|[out], [value]| rewritten(rule, header, isot, out, value)),
            before: before.clone(),
            told,
            document,
        };
        case.judge(tally, || {
            format!("{}, tile {isot}, rule {rule:?}, output {size}", hex(header))
        });
    };
    judge(&mut run.tally, Some(host::ORIGINAL), told, original);
    let [standard, in_place] = [Rule::AnnexB, Rule::InPlace].map(document);
    // it speaks for a tile in place where that is to be the one that is moved
    let told_in_place = agreed.clone().only_if(in_place == standard);
    judge(&mut run.also[0], None, agreed.clone(), standard.clone());
    let number = annex_b_number(&mut run.random);
    judge(&mut run.also[1], Some(number), agreed, standard);
    let number = Some(host::IN_PLACE);
    judge(&mut run.also[2], number, told_in_place, in_place);
}

/// One column, as many as there are indices, and one to either side.
fn many_indices(run: &mut Run) {
    for columns in [1, 255, 65_534, 65_535, 65_536, 65_537] {
        let header = header([columns, 65_536, 0, 0, 1, 1, 0, 0]);
        for isot in (0..=u16::MAX).step_by(37).chain([65_533, 65_534, u16::MAX]) {
            check(run, &header, isot);
        }
    }
}

/// All fields of a direction, small and large, and grids of very many tiles.
fn every_origin(run: &mut Run) {
    let small = every_side(&[0, 1, 2, 3, 4, 5]);
    let large = every_side(&[0, 1, 1 << 31, u32::MAX - 1, u32::MAX]);
    for fields in [small, large, crowded()].concat() {
        for isot in every_index(&fields) {
            check(run, &header(fields), isot);
        }
    }
}

/// First tiles, which nothing moves; most are cut off by the image's end.
fn from_0_on(run: &mut Run) {
    let sizes = [1, 2, 3, 4, 7, 255, 256, 65_536, 1 << 31, u32::MAX];
    for fields in every_size(&sizes) {
        check(run, &header(fields), 0);
    }
}

fn random(run: &mut Run) {
    let (header, isot) = header_and_index(&mut run.random);
    check(run, &header, isot);
    check(run, &header, isot.wrapping_add(1));
    run.damaged(1, &header, |run, damaged| check(run, damaged, isot));
}
