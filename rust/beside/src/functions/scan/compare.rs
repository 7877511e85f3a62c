//! The comparison: entries, refusals, and the table beyond what was written; of rows and of records.

use probe::host;

use super::cases::inputs;
use super::original;
use crate::compare::{self, Comparison};
use crate::functions::records::{self, MOST};
use crate::judge::{Case, Leaves, Told};
use crate::lent::{room, table, Lent};
use crate::model::header::{parse_main_header, Reading};
use crate::model::parts::{needed, scan_sot_markers};
use crate::model::{rows_of, Record, Refusal, ACCEPTED};
use crate::sample::codestream::EOC;
use crate::sample::short::each_behind;
use crate::sample::zeros::zeros;
use crate::sample::{headers, parts};
use crate::tally::{hex_of_front, Tally};
use crate::wanted;

type Original = fn(&[u8], u64) -> Option<Vec<Record>>;
type Run = compare::Run<Original>;

pub const COMPARISON: Comparison<Original> = Comparison {
    wanted: wanted::SCAN,
    also: &[wanted::SCAN_RECORDS],
    minimum: 1_000_000,
    original,
    fixed,
    random: Some(random),
};

fn fixed(run: &mut Run) {
    past_4_gigabytes(run);
    every_input(run);
    short_strings(run);
    runs(run);
    many(run);
}

fn every_input(run: &mut Run) {
    run.each(inputs, |run, (start, codestream)| {
        every_room(run, codestream, *start);
    });
}

impl Leaves<1, 1> for Vec<Record> {
    fn leave(&self, before: Lent<1, 1>) -> Lent<1, 1> {
        before.accepted([self.len() as u64], [&rows_of(self)])
    }
}

fn check(run: &mut Run, codestream: &[u8], start: u64) {
    let entries = room(&mut run.random, needed(codestream, start));
    check_with(run, codestream, start, entries);
}

/// One short, exact and one more, and no table at all.
fn every_room(run: &mut Run, codestream: &[u8], start: u64) {
    let needed = needed(codestream, start);
    for entries in [0, needed.saturating_sub(1), needed, needed + 1] {
        check_with(run, codestream, start, entries);
    }
}

fn check_with(run: &mut Run, codestream: &[u8], start: u64, entries: usize) {
    let told = Told::by(|| (run.original)(codestream, start));
    let document = scan_sot_markers(codestream, start);
    let mut judge = |tally: &mut Tally, entries: usize, scan: Scan| {
        let table = table(&mut run.random, entries);
        let before = Lent::preset(&mut run.random, [table]);
        let fit = |records: Vec<Record>| {
            Refusal::unless_it_lists(table, records.len())?;
            Ok(records)
        };
        let case = Case {
            ours: before.left_by(|[table], [value]| scan(codestream, start, table, value)),
            before,
            told: told.clone(),
            document: document.clone().and_then(fit),
        };
        case.judge_under(ACCEPTED, tally, || {
            let codestream = hex_of_front(codestream);
            format!("{codestream} from {start}; table {table}")
        });
    };
    judge(&mut run.tally, entries, host::scan_sot_markers);
    judge(&mut run.also[0], entries.min(MOST), records_scanned);
}

type Scan = fn(&[u8], u64, &mut [u8], &mut u64) -> u32;

fn records_scanned(codestream: &[u8], start: u64, table: &mut [u8], value: &mut u64) -> u32 {
    records::instead_of(table, |table| {
        probe::scan_records(codestream, start, table, value)
    })
}

/// Parts whose offsets, ends and lengths need more than 32 bits, in 5 GB of zeros.
fn past_4_gigabytes(run: &mut Run) {
    const LENGTH: usize = 5 << 30;
    const LONGEST: usize = u32::MAX as usize;
    const PARTS: [(usize, u32); 4] = [
        (0, u32::MAX),
        (LONGEST, 101),
        (LONGEST + 101, 12),
        (LONGEST + 113, 0),
    ];
    let Some(mut codestream) = zeros(LENGTH) else {
        return;
    };
    for (isot, (at, psot)) in PARTS.into_iter().enumerate() {
        let sot = parts::sot(isot as u16, psot);
        codestream[at..at + sot.len()].copy_from_slice(&sot);
    }
    let (last, _) = PARTS[3];
    let rest = (LENGTH - last) as u32;
    for psot in [0, 50, rest, rest + 1, u32::MAX] {
        codestream[last + 6..last + 10].copy_from_slice(&psot.to_be_bytes());
        for start in PARTS.map(|(at, _)| at) {
            every_room(run, &codestream, start as u64);
        }
        for end in [LONGEST, LONGEST + 1, last + 2, last + 11, last + 12] {
            every_room(run, &codestream[..end], 0);
        }
    }
    codestream[last..last + 2].copy_from_slice(&EOC.to_be_bytes());
    every_room(run, &codestream, 0);
}

/// At the end of a part and by themselves, and in a SOT from its Lsot on.
fn short_strings(run: &mut Run) {
    const LETTERS: [u8; 8] = [0x00, 0x01, 0x0A, 0x0C, 0x90, 0x93, 0xD9, 0xFF];
    let part = parts::many(1, 12);
    let fronts: [(&[u8], usize); 4] = [(&[], 5), (&part, 5), (&part[..2], 5), (&part[..6], 4)];
    each_behind(&fronts, &LETTERS, |bytes| {
        check(run, bytes, 0);
        check(run, &[bytes, &[0; 10]].concat(), 0);
    });
}

/// Around as many parts as make four runs, and as many marks as there is room for: whole, cut and damaged,
/// with each way to end.
fn runs(run: &mut Run) {
    let near = |middle: usize| middle - 3..=middle + 3;
    let doubled = (7..14).flat_map(|power| near(1 << power));
    for count in (0..=100).chain(doubled).chain(near(48)) {
        let built = parts::varied(&mut run.random, count, 12, 20);
        for ending in parts::endings() {
            every_room(run, &[built.as_slice(), &ending].concat(), 0);
        }
        for _ in 0..4 {
            let end = run.random.below(built.len() + 1);
            check(run, &built[..end], 0);
        }
        run.damaged(6, &built, |run, damaged| check(run, damaged, 0));
    }
}

fn many(run: &mut Run) {
    let most = MOST;
    for (count, size) in [
        (65_535, 12),
        (65_537, 13),
        (300, 500),
        (most - 1, 12),
        (most, 12),
        (most + 1, 12),
        (1_000_000, 12),
    ] {
        every_room(run, &parts::many(count, size), 0);
    }
}

fn random(run: &mut Run) {
    let parts = parts::tile_parts(&mut run.random);
    around(run, &parts, 0);
    let whole = headers::codestream(&mut run.random);
    let start = parse_main_header(&whole, Reading::ORIGINAL).map_or(2, |header| header.first_sot);
    around(run, &whole, start);
}

/// As it is, cut, damaged, and from somewhere else.
fn around(run: &mut Run, built: &[u8], start: u64) {
    every_room(run, built, start);
    for _ in 0..4 {
        let end = run.random.below(built.len() + 1);
        check(run, &built[..end], start);
        let elsewhere = run.random.below(built.len() + 3) as u64;
        check(run, built, elsewhere);
    }
    run.damaged(12, built, |run, damaged| check(run, damaged, start));
    let far = run.random.spread();
    check(run, built, far);
    let last = u64::MAX - run.random.below(14) as u64;
    check(run, built, last);
}

#[cfg(test)]
mod tests {
    use std::time::Duration;

    use super::{every_input, original, Original, COMPARISON};
    use crate::caught::PANICKED;
    use crate::compare::{Compared, Comparison};
    use crate::random::SEED;
    use crate::tally::{Answer, Tally};
    use crate::wanted::{Wanted, SCAN, SCAN_RECORDS};

    const FEW: &[Answer] = &[
        ("accepted", 200),
        ("refused 7", 50),
        ("refused 8", 20),
        ("refused 9", 50),
    ];

    /// A short run beside this original; the first tally is of rows, the second of records.
    fn beside(original: Original) -> Vec<Tally> {
        let short = Comparison {
            wanted: Wanted {
                answers: FEW,
                ..SCAN
            },
            also: &[Wanted {
                answers: FEW,
                ..SCAN_RECORDS
            }],
            minimum: 1000,
            original,
            fixed: every_input,
            random: None,
        };
        short.tallies(SEED, Duration::ZERO)
    }

    #[test]
    fn the_original_itself_passes() {
        for tally in beside(original) {
            assert!(tally.holds(), "{tally}");
        }
    }

    #[test]
    fn an_original_that_panics_fails() {
        let tallies = beside(|_, _| panic!("broken"));
        for (tally, name) in tallies.iter().zip(COMPARISON.names()) {
            let text = tally.to_string();
            assert!(!tally.holds(), "{text}");
            let too_few = format!("of {name}, accepted, at least 200 are wanted, 0 came");
            assert!(text.contains(&too_few), "{text}");
            assert!(text.contains(PANICKED), "{text}");
        }
    }

    #[test]
    fn an_original_with_other_answers_fails() {
        const REFUSES: Original = |_, _| None;
        const LISTS_NOTHING: Original = |_, _| Some(Vec::new());
        for broken in [REFUSES, LISTS_NOTHING] {
            for tally in beside(broken) {
                assert!(!tally.holds(), "{tally}");
            }
        }
    }
}
