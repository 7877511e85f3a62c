//! What has to hold of the check, by its own answers: it passes exactly where the lists are the same; up to
//! where they differ they are, and there they are not; segments that change places in the file, each with its
//! Ztlm, change nothing but the place of 26 and 32; and every region that is enough is as the whole.

use probe::host;

use super::Check;
use crate::lent::Lent;
use crate::model::check::{lists, Lists, DIFFERS, NO_TILE};
use crate::model::header::{main_header_extent, markers};
use crate::model::{records, Record, ROW};
use crate::random::Random;
use crate::sample::codestream::TLM;
use crate::sample::lengths::regions;
use crate::tally::{hex_of_front, Tally};
use crate::wanted::{AS_THE_WHOLE, FIRST_AGREE, OTHER_LISTS, SAME_LISTS, SHUFFLED};

/// Status and numbers, these as they were where nothing is told.
type Answer = Lent<6, 0>;

/// A check, and what it is lent, which is the same in each call.
struct Asked {
    check: Check,
    before: Answer,
}

impl Asked {
    fn of(&self, codestream: &[u8], region: u64) -> Answer {
        let Asked { check, before } = self;
        before.left_by(|[], values| check(codestream, region, values))
    }
}

/// Of a codestream that may be lent whole.
pub fn check(tally: &mut Tally, random: &mut Random, check: Check, codestream: &[u8]) {
    let before = Answer::preset(random, []);
    let asked = Asked { check, before };
    let whole = asked.of(codestream, u64::MAX);
    if let Ok(lists) = lists(codestream, u64::MAX) {
        as_the_lists(tally, &lists, codestream, &whole);
    }
    for region in enough(random, codestream) {
        let ours = asked.of(codestream, region);
        tally.compare_by_the_document(AS_THE_WHOLE, &ours, &whole, || {
            format!("region {region} of {}", hex_of_front(codestream))
        });
    }
    if matches!(whole.status, 1..=6) {
        return;
    }
    if let Some(other) = shuffled(random, codestream) {
        let ours = asked.of(&other, u64::MAX);
        let [ours, expected] = [ours, whole].map(but_for_a_place);
        tally.compare_by_the_document(SHUFFLED, &ours, &expected, || {
            format!("{} and {}", hex_of_front(codestream), hex_of_front(&other))
        });
    }
}

/// Whether it passes, and where it does not.
fn as_the_lists(tally: &mut Tally, lists: &Lists, codestream: &[u8], answer: &Answer) {
    let same = lists.listed == lists.standing;
    let label = match same {
        true => SAME_LISTS,
        false => OTHER_LISTS,
    };
    let input = || hex_of_front(codestream);
    tally.compare_by_the_document(label, &(answer.status == 0), &same, input);
    if answer.status == DIFFERS {
        let agree = first_agree(lists, codestream, answer.values);
        tally.compare_by_the_document(FIRST_AGREE, &agree, &true, input);
    }
}

/// The least that is, and two more.
fn enough(random: &mut Random, codestream: &[u8]) -> [u64; 3] {
    let least = main_header_extent(codestream).map_or(codestream.len() as u64, |at| at + 2);
    let enough = regions(codestream)
        .into_iter()
        .filter(|region| *region >= least);
    let enough: Vec<_> = enough.collect();
    [least, random.pick(&enough), random.pick(&enough)]
}

/// That of 26 and 32 moves with the segments.
fn but_for_a_place(answer: Answer) -> Answer {
    match answer.status {
        26 | 32 => Answer {
            values: [0; 6],
            ..answer
        },
        _ => answer,
    }
}

/// Up to the number that is told both lists are the same, and there each has what is told; the archive's own
/// scan has that too, and there.
fn first_agree(lists: &Lists, codestream: &[u8], told: [u64; 6]) -> bool {
    let [number, offset, listed @ .., tile, length] = told;
    let Lists {
        first_sot,
        listed: table,
        standing: parts,
    } = lists;
    let at = number as usize;
    let (Some(front), Some(before)) = (table.get(..at), parts.get(..at)) else {
        return false;
    };
    let said = table.get(at).map(|&(tile, length)| [tile.into(), length]);
    let scanned = scanned(codestream, *first_sot, parts.len());
    let there = match scanned.get(at) {
        Some(&((tile, offset, length), _)) => [tile.into(), offset, length],
        None => [NO_TILE, end(&scanned), 0],
    };
    front == before
        && listed == said.unwrap_or([NO_TILE, 0])
        && listed != [tile, length]
        && there == [tile, offset, length]
}

/// So many tile-parts, by the archive.
fn scanned(codestream: &[u8], first_sot: u64, count: usize) -> Vec<Record> {
    let mut table = vec![0; ROW * count];
    host::scan_sot_markers(codestream, first_sot, &mut table, &mut 0);
    records(&table)
}

/// Where the last one ends; one is there always.
fn end(records: &[Record]) -> u64 {
    let last = records.last();
    last.map_or(0, |((_, offset, length), _)| offset + length)
}

/// With the TLM segments in another order, and all else in the order that it had; nothing where there is no
/// header. What stands behind a segment whose length is 0 or 1 begins in that, and is no TLM.
fn shuffled(random: &mut Random, codestream: &[u8]) -> Option<Vec<u8>> {
    let first_sot = main_header_extent(codestream)? as usize;
    let (places, codes): (Vec<_>, Vec<_>) = markers(codestream).unzip();
    let ends = places.iter().skip(1).map(|at| *at as usize);
    let ends = ends.chain([first_sot]);
    let pieces = places.iter().zip(ends);
    let mut pieces: Vec<_> = pieces
        .map(|(at, end)| &codestream[*at as usize..end])
        .collect();
    let of_tlm = || (0..codes.len()).filter(|&at| codes[at] == TLM);
    let mut segments: Vec<_> = of_tlm().map(|at| pieces[at]).collect();
    random.shuffle(&mut segments);
    for (at, segment) in of_tlm().zip(segments) {
        pieces[at] = segment;
    }
    Some([&codestream[..2], &pieces.concat(), &codestream[first_sot..]].concat())
}

#[cfg(test)]
mod tests {
    use super::{check, shuffled};
    use crate::functions::check::slips::{RIGHT, WRONG};
    use crate::functions::check::Check;
    use crate::model::header::tlms;
    use crate::random::Random;
    use crate::sample::deliveries::any;
    use crate::sample::lengths::by_hand;
    use crate::tally::Tally;
    use crate::wanted::LAWS_OF_CHECK;

    fn holds(one: Check) -> bool {
        let mut tally = Tally::new("f", 1, LAWS_OF_CHECK.answers);
        let random = &mut Random::new(9);
        for (codestream, ..) in by_hand() {
            check(&mut tally, random, one, &codestream);
        }
        tally.holds()
    }

    /// Those that a law speaks of: none says which refusal comes first, nor what its place is.
    #[test]
    fn another_check_shows() {
        assert!(holds(RIGHT));
        for (at, wrong) in WRONG[..15].iter().copied().enumerate() {
            assert!(!holds(wrong), "{at}");
        }
    }

    #[test]
    fn a_header_that_is_shuffled_has_the_same_segments() {
        let random = &mut Random::new(3);
        for _ in 0..1000 {
            let built = any(random).bytes();
            let Some(other) = shuffled(random, &built) else {
                continue;
            };
            assert_eq!(other.len(), built.len());
            let [one, other] = [&built, &other].map(|codestream| {
                let mut bodies: Vec<_> = tlms(codestream).map(|(_, body)| body).collect();
                bodies.sort();
                bodies
            });
            assert_eq!(one, other);
        }
    }
}
