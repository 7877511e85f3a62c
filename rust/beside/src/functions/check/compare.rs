//! The comparison: that the table passes, where it differs and in what, refusals, and each number that is lent
//! and has to stay. The original has no such function; but where its main header lists the entries in the same
//! order and under the same numbers, its two lists say whether they are the same, and where not. The rest is
//! the model's.

use probe::host;

use super::laws;
use super::{original, Sides};
use crate::compare::{self, Comparison};
use crate::judge::{Case, Leaves, Told};
use crate::lent::Lent;
use crate::model::check::{check_length_table, header, Difference, DIFFERS};
use crate::model::header::{have_to_agree, tlms};
use crate::sample::codestream::{Codestream, TLM};
use crate::sample::deliveries::{any, sound, Delivery, Listed, Said, SLIPS};
use crate::sample::far::{self, padded};
use crate::sample::indices::every_list;
use crate::sample::lengths::{at_the_last, by_hand, many, region, regions};
use crate::sample::short::each_behind;
use crate::sample::zeros::{each_too_long, zeros};
use crate::sample::{headers, opened, parts, prefixes, sample_a, TELLING};
use crate::tally::hex_of_front;
use crate::wanted;

type Run = compare::Run<Sides>;

pub const COMPARISON: Comparison<Sides> = Comparison {
    wanted: wanted::CHECK,
    also: &[wanted::LAWS_OF_CHECK],
    minimum: 1_000_000,
    original: Sides {
        check: host::check_length_table,
        lists: original,
    },
    fixed,
    random: Some(random),
};

const LAWS: usize = 0;

/// With no region, the whole.
const WHOLE: u64 = u64::MAX;

fn fixed(run: &mut Run) {
    over_long_loans(run);
    past_4_gigabytes(run);
    known_by_hand(run);
    about_the_last_number(run);
    every_prefix(run);
    short_strings(run);
    every_small_delivery(run);
    every_pair_of_numbers(run);
    every_number_at_once(run);
    every_stlm(run);
    growth_s_regions(run);
}

impl Leaves<6, 0> for Option<Difference> {
    fn leave(&self, before: Lent<6, 0>) -> Lent<6, 0> {
        match self {
            None => before.none(0),
            Some(difference) => before.accepted(difference.numbers(), []).none(DIFFERS),
        }
    }
}

fn check_in(run: &mut Run, codestream: &[u8], region: u64) {
    let Sides { check, lists } = run.original;
    let document = check_length_table(codestream, region);
    let told = Told::by(|| lists(codestream, region).map(|lists| lists.difference()));
    // what it refuses it refuses in any order
    let told = told.only_if(document.is_err() || lists_alike(header(codestream, region)));
    let before = Lent::preset(&mut run.random, []);
    let case = Case {
        ours: before.left_by(|[], values| check(codestream, region, values)),
        before,
        told,
        document,
    };
    let label = wanted::checked(document.unwrap_or_default());
    case.judge_under(label, &mut run.tally, || {
        format!("region {region} of {}", hex_of_front(codestream))
    });
}

/// Whether the original's table has to be ours: Ztlm ascends in the file, and the numberings agree.
fn lists_alike(header: &[u8]) -> bool {
    let ztlms: Vec<_> = tlms(header).map(|(_, body)| body.get(2)).collect();
    ztlms.is_sorted_by(|one, next| one < next) && have_to_agree(header)
}

/// In a region that is mostly enough.
fn check(run: &mut Run, codestream: &[u8]) {
    let region = region(&mut run.random, codestream);
    check_in(run, codestream, region);
}

fn in_every_region(run: &mut Run, codestream: &[u8]) {
    for region in regions(codestream) {
        check_in(run, codestream, region);
    }
    laws_of(run, codestream);
}

fn laws_of(run: &mut Run, codestream: &[u8]) {
    laws::check(
        &mut run.also[LAWS],
        &mut run.random,
        run.original.check,
        codestream,
    );
}

/// With regions on both sides of the longest loan, and of one that may be lent.
fn over_long_loans(run: &mut Run) {
    each_too_long(|codestream| {
        for codestream in [codestream, &codestream[..codestream.len() - 1]] {
            for region in regions(codestream) {
                check_in(run, codestream, region);
            }
        }
    });
}

/// Offsets, ends and a length that need more than 32 bits, in 5 GB of zeros.
fn past_4_gigabytes(run: &mut Run) {
    const LENGTH: usize = 5 << 30;
    const LONG: u32 = u32::MAX;
    const LISTED: [Said; 3] = [(0, LONG), (1, 12), (2, 40)];
    let Some(mut codestream) = zeros(LENGTH) else {
        return;
    };
    let segments: [Listed; 2] = [(1, 0x40, &LISTED[1..]), (0, 0x40, &LISTED[..1])];
    let mut header = Delivery::of(&segments, &[]);
    header.behind.clear();
    let header = header.bytes();
    let first_sot = header.len();
    let places = [0, LONG as usize, LONG as usize + 12].map(|behind| first_sot + behind);
    let put = |codestream: &mut [u8], at: usize, bytes: &[u8]| {
        codestream[at..at + bytes.len()].copy_from_slice(bytes);
    };
    put(&mut codestream, 0, &header);
    for ((tile, length), at) in LISTED.into_iter().zip(places) {
        put(&mut codestream, at, &parts::sot(tile, length));
    }
    let enough = first_sot as u64 + 2;
    check_in(run, &codestream, enough);
    check_in(run, &codestream, WHOLE);
    for (tile, psot) in [(2, 41), (7, 40), (2, LONG), (2, 0)] {
        put(&mut codestream, places[2], &parts::sot(tile, psot));
        check_in(run, &codestream, enough);
    }
    for end in [places[2], places[2] + 11, places[2] + 12] {
        check_in(run, &codestream[..end], enough);
    }
    put(&mut codestream, places[0], &parts::sot(0, 0));
    check_in(run, &codestream, enough);
}

fn known_by_hand(run: &mut Run) {
    for (codestream, region, _) in by_hand() {
        check_in(run, &codestream, region);
        in_every_region(run, &codestream);
    }
}

fn about_the_last_number(run: &mut Run) {
    for (codestream, region, _) in at_the_last() {
        check_in(run, &codestream, region);
        laws_of(run, &codestream);
    }
}

fn every_prefix(run: &mut Run) {
    let sample = sample_a();
    for (end, prefix) in prefixes(&sample).enumerate() {
        check_in(run, &sample, end as u64);
        in_every_region(run, &prefix);
    }
}

/// Alone, after SOC and SIZ, and as a TLM's length field and on; as they are, and with a tile-part behind.
fn short_strings(run: &mut Run) {
    const FRONTS: [(&[u8], usize); 3] = [
        (&[], 3),
        (&[0xFF, 0x4F, 0xFF, 0x51, 0x00, 0x02], 4),
        (&[0xFF, 0x4F, 0xFF, 0x51, 0x00, 0x02, 0xFF, 0x55, 0x00], 3),
    ];
    let part = parts::many(1, 12);
    each_behind(&FRONTS, &TELLING, |bytes| {
        check_in(run, bytes, WHOLE);
        check_in(run, &[bytes, &part].concat(), WHOLE);
    });
}

/// Up to two segments of up to two entries, with and without an index, before each one, two and three
/// tile-parts of two tiles and two lengths.
fn every_small_delivery(run: &mut Run) {
    const EITHER: [Said; 4] = [(0, 12), (0, 13), (1, 12), (1, 13)];
    let indexed = every_list(&EITHER, 2);
    let lengths = every_list(&EITHER[..2], 2);
    let mut one: Vec<Listed> = Vec::new();
    for ztlm in [0, 1] {
        one.extend(lengths.iter().map(|list| (ztlm, 0x00, &list[..])));
        one.extend(indexed.iter().map(|list| (ztlm, 0x10, &list[..])));
    }
    let parts = every_list(&EITHER, 3);
    for segments in every_list(&one, 2) {
        let header = Delivery::of(&segments, &[]);
        for parts in &parts {
            let built = Delivery {
                parts: Delivery::of(&[], parts).parts,
                ..header.clone()
            };
            check_in(run, &built.bytes(), WHOLE);
        }
    }
}

/// Of two segments, the first in the file with the second part's entry.
fn every_pair_of_numbers(run: &mut Run) {
    const PARTS: [Said; 2] = [(0, 14), (5, 16)];
    for one in 0..=u8::MAX {
        for other in 0..=u8::MAX {
            let segments: [Listed; 2] = [(one, 0x10, &PARTS[1..]), (other, 0x10, &PARTS[..1])];
            check_in(run, &Delivery::of(&segments, &PARTS).bytes(), WHOLE);
        }
    }
}

/// 256 segments, with and without an index, in either order and in any; and one more.
fn every_number_at_once(run: &mut Run) {
    let parts: Vec<Said> = (0..256)
        .map(|tile| (tile, 12 + u32::from(tile % 3)))
        .collect();
    for stlm in [0x00, 0x10, 0x60] {
        let entry = |ztlm: u8| (ztlm, stlm, &parts[usize::from(ztlm)..][..1]);
        let ascending: Vec<Listed> = (0..=u8::MAX).map(entry).collect();
        let descending = ascending.iter().rev().copied().collect();
        let mut shuffled = ascending.clone();
        run.random.shuffle(&mut shuffled);
        let mut repeated = shuffled.clone();
        repeated.push(entry(run.random.byte()));
        for segments in [ascending, descending, shuffled, repeated] {
            in_every_region(run, &Delivery::of(&segments, &parts).bytes());
        }
    }
}

/// All of Stlm with all of Ltlm from 0 to 16, by themselves and behind another TLM.
fn every_stlm(run: &mut Run) {
    for stlm in 0..=u8::MAX {
        for length in 0..=16 {
            let mut body = run.random.bytes(14);
            body[..2].copy_from_slice(&[0, stlm]);
            body.truncate(usize::from(length).saturating_sub(2));
            let mut second = Codestream::default();
            second.segment(TLM, &[run.random.below(2) as u8, 0x00, 0, 12]);
            for before in [&[][..], &second.bytes] {
                let mut built = opened();
                built.raw(before).segment_saying(TLM, length, &body);
                built.tile_part(0, &[]).eoc();
                check_in(run, &built.bytes, WHOLE);
            }
        }
    }
}

/// Headers that end about where these do.
fn growth_s_regions(run: &mut Run) {
    const FIRST: usize = 65_536;
    for delivery in [sound(&mut run.random), any(&mut run.random)] {
        let built = delivery.bytes();
        let first_sot = tlms(&built)
            .map(|(at, body)| at as usize + 2 + body.len())
            .last();
        for region in [FIRST, 2 * FIRST] {
            for end in region - 3..=region + 3 {
                let behind = run.random.pick(&[0, 9, 2 * FIRST]);
                let bytes = end - first_sot.unwrap_or(6);
                in_every_region(run, &padded(&built, bytes, behind));
            }
        }
    }
}

fn random(run: &mut Run) {
    let delivery = sound(&mut run.random);
    let built = delivery.bytes();
    check_in(run, &built, WHOLE);
    in_every_region(run, &built);
    for slip in SLIPS {
        let mut other = delivery.clone();
        slip(&mut run.random, &mut other);
        check_and_hold(run, &other.bytes());
    }
    let other = any(&mut run.random).bytes();
    check_and_hold(run, &other);
    run.damaged(4, &other, check);
    run.cut(2, &built, check);
    run.damaged(12, &built, check_and_hold);
    let header = headers::codestream(&mut run.random);
    check(run, &header);
    if run.random.once_in(256) {
        let far = far::out(&mut run.random);
        check(run, &far);
        let many = many(&mut run.random);
        check_and_hold(run, &many);
    }
}

/// To the laws too.
fn check_and_hold(run: &mut Run, codestream: &[u8]) {
    check(run, codestream);
    laws_of(run, codestream);
}

#[cfg(test)]
mod tests {
    use super::{at_the_last, check_in, known_by_hand, original, Sides};
    use crate::compare::holds_on;
    use crate::functions::check::slips::{PAST_THE_LAST, RIGHT, WRONG};
    use crate::functions::check::{Check, Listing};
    use crate::model::check::Lists;

    fn beside_the_original(check: Check) -> Sides {
        Sides {
            check,
            lists: original,
        }
    }

    fn holds(check: Check) -> bool {
        holds_on::<1, _>(beside_the_original(check), known_by_hand)
    }

    /// Without the laws, which take long.
    fn holds_about_the_last(check: Check) -> bool {
        holds_on::<0, _>(beside_the_original(check), |run| {
            for (codestream, region, _) in at_the_last() {
                check_in(run, &codestream, region);
            }
        })
    }

    #[test]
    fn the_model_passes_and_slips_do_not() {
        assert!(holds(RIGHT) && holds_about_the_last(RIGHT));
        for (at, check) in WRONG.into_iter().enumerate() {
            assert!(!holds(check), "{at}");
        }
        for (at, check) in PAST_THE_LAST.into_iter().enumerate() {
            assert!(!holds_about_the_last(check), "{at}");
        }
    }

    #[test]
    fn other_lists_of_the_original_show() {
        let wrong: [Listing; 4] = [
            |_, _| None,
            |codestream, region| {
                let mut lists = original(codestream, region)?;
                lists.listed.pop();
                Some(lists)
            },
            |codestream, region| {
                let mut lists = original(codestream, region)?;
                lists.standing.pop();
                Some(lists)
            },
            |codestream, region| {
                let lists = original(codestream, region)?;
                let first_sot = lists.first_sot + 1;
                Some(Lists { first_sot, ..lists })
            },
        ];
        for (at, lists) in wrong.into_iter().enumerate() {
            let sides = Sides {
                check: RIGHT,
                lists,
            };
            assert!(!holds_on::<1, _>(sides, known_by_hand), "{at}");
        }
    }
}
