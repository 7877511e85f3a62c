//! The comparison: bytes written, refusals, and the output beyond. By the original's rule beside
//! the original, and by Annex B's and in place beside the model, and beside the original where the
//! rules have to agree.

use original::markers;
use probe::host;

use super::from_parts;
use crate::compare::{self, Comparison};
use crate::judge::{Case, Told};
use crate::lent::{room, Lent};
use crate::model::rules::{have_to_agree, Rule};
use crate::model::tile::build_minimal_codestream;
use crate::model::{Range, Refusal};
use crate::sample::damage::damage;
use crate::sample::parts::{many, sot};
use crate::sample::sizes::{annex_b_number, header, MOVED, SAMPLE_A};
use crate::sample::tiles::{inputs, inputs_of_annex_b, random_input, rows_of_ranges, Input};
use crate::sample::zeros::zeros;
use crate::tally::{hex, Tally};
use crate::wanted;

type Build = fn(&[u8], &[Range], &[u8]) -> Vec<u8>;

/// The function itself, and that of parts.
#[derive(Clone, Copy)]
pub struct Original {
    build: Build,
    pub from_parts: fn(&[u8], &[&[u8]]) -> Vec<u8>,
}

pub type Run = compare::Run<Original>;

pub const COMPARISON: Comparison<Original> = Comparison {
    wanted: wanted::ASSEMBLY_BY_ORIGINAL,
    also: &[
        wanted::ASSEMBLY,
        wanted::ASSEMBLY_BY_ANNEX_B,
        wanted::ASSEMBLY_IN_PLACE,
        wanted::FROM_PARTS_BY_ORIGINAL,
        wanted::FROM_PARTS,
    ],
    minimum: 1_000_000,
    original: Original {
        build: markers::build_minimal_codestream,
        from_parts: markers::build_minimal_codestream_from_parts,
    },
    fixed,
    random: Some(random),
};

fn fixed(run: &mut Run) {
    past_4_gigabytes(run);
    for make in [inputs, inputs_of_annex_b] {
        run.each(make, every_room);
    }
    long_parts(run);
}

fn check(run: &mut Run, input: &Input) {
    let size = room(&mut run.random, input.needed());
    check_with(run, input, size);
    from_parts::check(run, input);
}

fn every_room(run: &mut Run, input: &Input) {
    let needed = input.needed();
    for size in [0, needed - 2, needed - 1, needed, needed + 1] {
        check_with(run, input, size);
    }
    from_parts::check(run, input);
}

/// By a rule's number, or without one.
pub fn built(
    rule: Option<u32>,
    header: &[u8],
    rows: &[u8],
    codestream: &[u8],
    out: &mut [u8],
    value: &mut u64,
) -> u32 {
    match rule {
        None => host::build_minimal_codestream(header, rows, codestream, out, value),
        Some(rule) => {
            host::build_minimal_codestream_by_rule(header, rows, codestream, rule, out, value)
        }
    }
}

fn check_with(run: &mut Run, input: &Input, size: usize) {
    let Input {
        header,
        ranges,
        codestream,
    } = input;
    let document = |rule| build_minimal_codestream(header, ranges, codestream, rule, size);
    let original = document(Rule::Original);
    let passes = |&(offset, length): &Range| offset.checked_add(length).is_none();
    let panics = ranges.iter().any(passes) || original.as_ref().is_err_and(Refusal::is_its_panic);
    let build = run.original.build;
    let told = Told::by_or_panic(panics, || Some(build(header, ranges, codestream)));
    let agreed = told.clone().only_if(have_to_agree(header));

    let rows = input.rows_and_more(&mut run.random);
    let before = Lent::preset(&mut run.random, [size]);
    let judge = |tally: &mut Tally, rule, told, document| {
        let case = Case {
            ours: before
                .left_by(|[out], [value]| built(rule, header, &rows, codestream, out, value)),
            before: before.clone(),
            told,
            document,
        };
        case.judge(tally, || {
            let [header, codestream] = [header, codestream].map(|bytes| hex(bytes));
            let lent = format!("header {header}, ranges {ranges:?}, codestream {codestream}");
            format!("{lent}, rule {rule:?}, output {size}")
        });
    };
    judge(&mut run.tally, Some(host::ORIGINAL), told, original);
    let [standard, in_place] = [Rule::AnnexB, Rule::InPlace].map(document);
    // it speaks for a tile in place where that is to be the one that is moved
    let told_in_place = agreed.clone().only_if(in_place == standard);
    judge(&mut run.also[0], None, agreed.clone(), standard.clone());
    let number = annex_b_number(&mut run.random);
    judge(&mut run.also[1], Some(number), agreed, standard);
    let number = Some(host::IN_PLACE);
    judge(&mut run.also[2], number, told_in_place, in_place);
}

/// Sizes needed that pass 2^32 and 2^33, and parts that lie past 2^32, in 5 GB of zeros. For a size
/// that passes 2^64 no machine has the rows. The original would write it all, and isn't asked.
fn past_4_gigabytes(run: &mut Run) {
    const LENGTH: u64 = 5 << 30;
    const FAR: usize = (1 << 32) + 7;
    let Some(mut codestream) = zeros(LENGTH as usize) else {
        return;
    };
    let sot = sot(5, 14);
    codestream[FAR..FAR + sot.len()].copy_from_slice(&sot);
    let far = FAR as u64;
    let whole = (0, LENGTH);
    for (ranges, size) in [
        (vec![(far, 14)], 61),
        (vec![(far, 14), (LENGTH, 0), (LENGTH, 1)], 61),
        (vec![(far, 14)], 60),
        (vec![(far, LENGTH - far), (LENGTH, 0)], 60),
        (vec![(far, LENGTH - far + 1), (far, 12)], 59),
        (vec![(0, 1 << 32)], 61),
        (vec![whole], 61),
        (vec![whole; 2], 61),
        (vec![whole; 1000], 61),
    ] {
        let rows = rows_of_ranges(&ranges, 9);
        let before = Lent::preset(&mut run.random, [size]);
        let judge = |tally: &mut Tally, rule: Option<u32>, fields| {
            let header = header(fields);
            let by = rule.map_or(Rule::AnnexB, Rule::of);
            let case = Case {
                ours: before
                    .left_by(|[out], [value]| built(rule, &header, &rows, &codestream, out, value)),
                before: before.clone(),
                told: Told::Nothing,
                document: build_minimal_codestream(&header, &ranges, &codestream, by, size),
            };
            case.judge(tally, || format!("{ranges:?} of 5 GB, rule {rule:?}"));
        };
        judge(&mut run.tally, Some(host::ORIGINAL), SAMPLE_A);
        judge(&mut run.also[0], None, MOVED);
        judge(&mut run.also[1], Some(host::ANNEX_B), MOVED);
        judge(&mut run.also[2], Some(host::IN_PLACE), MOVED);
    }
}

/// Parts and headers around 65,536 bytes, and many of them.
fn long_parts(run: &mut Run) {
    for size in [65_535, 65_536, 65_537] {
        let codestream = many(3, size);
        let part = |k: usize| ((k * size) as u64, size as u64);
        let mut header = header(SAMPLE_A);
        header.resize(size, 0x11);
        let input = Input {
            header,
            ranges: vec![part(2), part(0), part(2), part(1), part(3)],
            codestream,
        };
        every_room(run, &input);
    }
}

fn random(run: &mut Run) {
    let mut input = random_input(&mut run.random);
    check(run, &input);
    input.ranges.reverse();
    check(run, &input);
    for _ in 0..2 {
        damage(&mut run.random, &mut input.codestream);
        check(run, &input);
    }
    damage(&mut run.random, &mut input.header);
    check(run, &input);
}
