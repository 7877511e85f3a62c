//! The comparison: first SOT, decode header, table of rows and of records, refusals, and all that is
//! not to be written; and the number of fillers, by the model. Restarting, as the original numbers;
//! carried on beside the model, and beside the original where the numberings have to agree. In the newer
//! edition beside the model, and beside the original where it refuses nothing of its own.

use probe::host;

use super::cases::payloads;
use super::{original, records_by, rows_by};
use crate::compare::{self, Comparison};
use crate::functions::records::MOST;
use crate::judge::{Case, Leaves, Told};
use crate::lent::{room, table, Lent};
use crate::model::header::{have_to_agree, markers, needed, parse_main_header, Header, Reading};
use crate::model::{rows, Refusal};
use crate::random::Random;
use crate::readings::meant;
use crate::sample::codestream::{Codestream, CAP, SOT, TLM};
use crate::sample::markers::holding;
use crate::sample::short::each_behind;
use crate::sample::zeros::each_too_long;
use crate::sample::{caps, fillers, headers, numbers, opened, tlms, TELLING};
use crate::tally::{hex_of_front, Tally};
use crate::wanted;

type Original = fn(&[u8]) -> Option<Header>;
type Run = compare::Run<Original>;

pub const COMPARISON: Comparison<Original> = Comparison {
    wanted: wanted::HEADER_RESTARTING,
    also: &[
        wanted::RECORDS_RESTARTING,
        wanted::HEADER,
        wanted::HEADER_CARRIED_ON,
        wanted::RECORDS_CARRIED_ON,
        wanted::HEADER_NEWER,
        wanted::RECORDS_NEWER,
    ],
    minimum: 1_250_000,
    original,
    fixed,
    random: Some(random),
};

fn fixed(run: &mut Run) {
    over_long_loans(run);
    run.each(payloads, |run, payload| every_room(run, payload));
    short_strings(run);
    every_stlm(run);
    many_entries(run);
    every_marker(run);
    many_fillers(run);
    numbers_by_hand(run);
    caps_by_hand(run);
    every_rsiz(run);
    every_lcap(run);
}

impl Leaves<4, 2> for Header {
    fn leave(&self, before: Lent<4, 2>) -> Lent<4, 2> {
        let values = [
            self.first_sot,
            self.decode_header.len() as u64,
            self.entries.len() as u64,
            self.fillers,
        ];
        before.accepted(values, [&rows(&self.entries), &self.decode_header])
    }
}

/// With rooms for what is needed, or about that.
fn check(run: &mut Run, codestream: &[u8]) {
    let (entries, size) = needed(codestream, Reading::ORIGINAL);
    let entries = room(&mut run.random, entries);
    let size = room(&mut run.random, size);
    check_with(run, codestream, entries, size);
}

/// A reading, and what the original and the model say of it.
struct Asked {
    reading: host::Reading,
    told: Told<Header>,
    document: Result<Header, Refusal>,
}

fn check_with(run: &mut Run, codestream: &[u8], entries: usize, size: usize) {
    let told = Told::by(|| (run.original)(codestream));
    let agreed = told.clone().only_if(have_to_agree(codestream));
    let asked = |numbering, edition| {
        let reading = host::Reading { numbering, edition };
        Asked {
            reading,
            told: match numbering {
                host::RESTARTING => told.clone(),
                _ => agreed.clone(),
            },
            document: parse_main_header(codestream, meant(reading)),
        }
    };
    let mut unsaid = |default| unsaid(&mut run.random, default);
    let again = asked(host::RESTARTING, unsaid(host::OLDER));
    let on = asked(unsaid(host::CARRIED_ON), unsaid(host::OLDER));
    let either = run.random.pick(&[host::CARRIED_ON, host::RESTARTING]);
    let newer = asked(either, host::NEWER);

    let has_cap = markers(codestream).any(|(_, marker)| marker == CAP);
    let lent = |random: &mut Random, entries| {
        let table = table(random, entries);
        Lent::preset(random, [table, size])
    };
    let judge = |tally: &mut Tally, before: &Lent<4, 2>, ours, asked: &Asked| {
        let capped = has_cap && asked.reading.edition == host::NEWER;
        let table = before.memory[0].len();
        let fit = |asked: &Asked| {
            let document = asked.document.clone();
            document.and_then(|header| header.fit(table, size))
        };
        let document = fit(asked);
        let numbered_on = match (fit(&again), &document) {
            (Ok(again), Ok(header)) => again.entries != header.entries,
            _ => false,
        };
        let fillers = document.as_ref().map_or(0, |header| header.fillers);
        let case = Case {
            ours,
            before: before.clone(),
            told: asked.told.clone(),
            document,
        };
        case.judge_under(wanted::header(capped, numbered_on, fillers), tally, || {
            let (codestream, reading) = (hex_of_front(codestream), asked.reading);
            format!("{codestream}; table {table}, output {size}, {reading:?}")
        });
    };
    let before = lent(&mut run.random, entries);
    let of_rows = |asked: &Asked| {
        before.left_by(|lent, values| rows_by(asked.reading, codestream, lent, values))
    };
    let without_a_word = before
        .left_by(|[table, out], values| host::parse_main_header(codestream, table, out, values));
    let held = match entries <= MOST {
        true => before.clone(),
        false => lent(&mut run.random, MOST),
    };
    let of_records = |asked: &Asked| {
        held.left_by(|lent, values| records_by(asked.reading, codestream, lent, values))
    };
    judge(&mut run.tally, &before, of_rows(&again), &again);
    judge(&mut run.also[0], &held, of_records(&again), &again);
    judge(&mut run.also[1], &before, without_a_word, &on);
    judge(&mut run.also[2], &before, of_rows(&on), &on);
    judge(&mut run.also[3], &held, of_records(&on), &on);
    judge(&mut run.also[4], &before, of_rows(&newer), &newer);
    judge(&mut run.also[5], &held, of_records(&newer), &newer);
}

/// 0, or a number that means nothing, and so the same.
fn unsaid(random: &mut Random, default: u32) -> u32 {
    match random.below(4) {
        0 => random.pick(&[2, 256, 1 << 31, u32::MAX]),
        _ => default,
    }
}

/// Each pair of one short, exact and one more, and nothing lent at all.
fn every_room(run: &mut Run, codestream: &[u8]) {
    let (entries, size) = needed(codestream, Reading::ORIGINAL);
    check_with(run, codestream, 0, 0);
    for entries in [entries.saturating_sub(1), entries, entries + 1] {
        for size in [size - 1, size, size + 1] {
            check_with(run, codestream, entries, size);
        }
    }
}

/// On both sides of the longest one.
fn over_long_loans(run: &mut Run) {
    each_too_long(|codestream| {
        let longest = &codestream[..codestream.len() - 1];
        check_with(run, codestream, 2, 45);
        check_with(run, codestream, 0, 0);
        check_with(run, longest, 2, 45);
        check_with(run, longest, 1, 44);
    });
}

/// Alone, after SOC and SIZ, as a TLM's length field and on; as they are and with a SOT behind.
fn short_strings(run: &mut Run) {
    const FRONTS: [(&[u8], usize); 4] = [
        (&[], 4),
        (&[0xFF, 0x4F, 0xFF, 0x51, 0x00, 0x02], 4),
        (&[0xFF, 0x4F, 0xFF, 0x51, 0x00], 3),
        (&[0xFF, 0x4F, 0xFF, 0x51, 0x00, 0x02, 0xFF, 0x55, 0x00], 3),
    ];
    each_behind(&FRONTS, &TELLING, |bytes| {
        check(run, bytes);
        check(run, &[bytes, &SOT.to_be_bytes()].concat());
    });
}

/// All of Stlm with all of Ltlm from 0 to 16, by themselves and behind another TLM.
fn every_stlm(run: &mut Run) {
    for stlm in 0..=u8::MAX {
        for length in 0..=16 {
            let mut body = run.random.bytes(14);
            body[1] = stlm;
            body.truncate(usize::from(length).saturating_sub(2));
            let segment = |built: &mut Codestream| {
                built.segment_saying(TLM, length, &body).marker(SOT);
            };
            let mut alone = opened();
            segment(&mut alone);
            let mut second = opened();
            second.segment(TLM, &[0, 0x40, 0, 0, 0, 9]);
            segment(&mut second);
            for built in [alone, second] {
                every_room(run, &built.bytes);
            }
        }
    }
}

/// Segments of the greatest length, and more segments than a byte numbers.
fn many_entries(run: &mut Run) {
    for (segments, entries, stlm) in [
        (1, 32_765, 0x00),
        (3, 16_382, 0x40),
        (700, 3, 0x60),
        (1, MOST, 0x40),
        (2, MOST / 2, 0x60),
    ] {
        every_room(run, &tlms::many(segments, entries, stlm));
    }
}

/// Each code there is, by itself as delimiters are, and with a segment.
fn every_marker(run: &mut Run) {
    for marker in 0..=u16::MAX {
        for header in holding(marker) {
            check_with(run, &header, 0, header.len());
        }
    }
}

/// More than 16 bits count.
fn many_fillers(run: &mut Run) {
    for count in [65_535, 65_536, 65_537, 1 << 20] {
        check_with(run, &fillers::many(count), 0, 6 + 2 * count);
    }
}

/// Of each numbering, and about as many entries as there are numbers.
fn numbers_by_hand(run: &mut Run) {
    for (codestream, _) in numbers::by_hand() {
        every_room(run, &codestream);
    }
    for (codestream, ..) in numbers::at_the_last() {
        every_room(run, &codestream);
    }
}

/// And with SIZ, CAP and SOT in each of their bytes another.
fn caps_by_hand(run: &mut Run) {
    for (codestream, _) in caps::by_hand() {
        every_room(run, &codestream);
        for place in 4..codestream.len().min(24) {
            for byte in TELLING {
                let mut changed = codestream.clone();
                changed[place] = byte;
                check(run, &changed);
            }
        }
    }
}

/// With one CAP, and of each first byte with none.
fn every_rsiz(run: &mut Run) {
    for rsiz in 0..=u16::MAX {
        check(run, &caps::with(rsiz, &[caps::ONE]));
    }
    for first in 0..=u8::MAX {
        check(run, &caps::with(u16::from_be_bytes([first, 0]), &[]));
    }
}

/// Each number of ones, from either end of Pcap, with each Lcap up to one word too many; and each bit alone.
fn every_lcap(run: &mut Run) {
    let low = |ones: u32| ((1_u64 << ones) - 1) as u32;
    for ones in 0..=32 {
        for pcap in [low(ones), !low(32 - ones)] {
            for lcap in 0..=72 {
                check(run, &caps::one(lcap, pcap));
            }
        }
    }
    for bit in 0..32 {
        for lcap in 6..=10 {
            check(run, &caps::one(lcap, 1 << bit));
        }
    }
}

fn random(run: &mut Run) {
    let built = caps::few(&mut run.random);
    check(run, &built);
    run.damaged(2, &built, check);
    let built = numbers::few(&mut run.random);
    check(run, &built);
    run.damaged(2, &built, check);
    if run.random.once_in(1 << 10) {
        let built = numbers::many(&mut run.random);
        check(run, &built);
    }
    let built = headers::codestream(&mut run.random);
    every_room(run, &built);
    run.cut(2, &built, check);
    run.damaged(16, &built, check);
    let built = fillers::header(&mut run.random);
    check(run, &built);
    run.damaged(3, &built, check);
}

#[cfg(test)]
mod tests {
    use super::{check_with, original, Original};
    use crate::compare::holds_on;
    use crate::model::header::{fillers as counted, is_delimiter, markers, Header};
    use crate::sample::{fillers, numbers};

    /// On the headers whose fillers are counted by hand.
    fn holds(original: Original) -> bool {
        holds_on::<6, _>(original, |run| {
            for (codestream, _) in fillers::counted() {
                check_with(run, &codestream, 1, codestream.len());
            }
        })
    }

    /// The original's answer with another number of fillers.
    fn saying(fillers: u64, codestream: &[u8]) -> Option<Header> {
        let told = original(codestream)?;
        Some(Header { fillers, ..told })
    }

    fn steps(codestream: &[u8], counts: fn(u16) -> bool) -> u64 {
        let found = markers(codestream).filter(|&(_, marker)| counts(marker));
        found.count() as u64
    }

    /// Pairs of bytes that look like fillers.
    fn pairs(bytes: &[u8]) -> u64 {
        let alike = |pair: &&[u8]| pair[0] != 0xFF && is_delimiter(pair[1].into());
        bytes.windows(2).filter(alike).count() as u64
    }

    #[test]
    fn another_number_of_fillers_shows() {
        assert!(holds(original));
        let wrong: [Original; 8] = [
            |codestream| saying(0, codestream),
            |codestream| saying(counted(codestream).min(1), codestream),
            |codestream| saying(counted(codestream) & 0xFF, codestream),
            // segments without FF, delimiters with FF, and no delimiter but of 00
            |codestream| saying(steps(codestream, |marker| marker >> 8 != 0xFF), codestream),
            |codestream| saying(steps(codestream, is_delimiter), codestream),
            |codestream| {
                let of_00 = |marker| is_delimiter(marker) && marker >> 8 == 0;
                saying(steps(codestream, of_00), codestream)
            },
            // inside segments, and behind the first SOT
            |codestream| {
                let first_sot = original(codestream)?.first_sot as usize;
                saying(pairs(&codestream[..first_sot]), codestream)
            },
            |codestream| {
                let first_sot = original(codestream)?.first_sot as usize;
                let behind = pairs(&codestream[first_sot..]);
                saying(counted(codestream) + behind, codestream)
            },
        ];
        for (nth, wrong) in wrong.into_iter().enumerate() {
            assert!(!holds(wrong), "{nth}");
        }
    }

    /// On the headers whose indices are known by hand.
    fn holds_numbered(original: Original) -> bool {
        holds_on::<6, _>(original, |run| {
            for (codestream, _) in numbers::by_hand() {
                check_with(run, &codestream, 9, codestream.len());
            }
        })
    }

    /// The original's answer with other indices.
    fn indexed(codestream: &[u8], index: fn(usize, u16) -> u16) -> Option<Header> {
        let mut told = original(codestream)?;
        for (row, entry) in told.entries.iter_mut().enumerate() {
            entry.0 = index(row, entry.0);
        }
        Some(told)
    }

    #[test]
    fn another_index_shows() {
        assert!(holds_numbered(original));
        let wrong: [Original; 3] = [
            // by the row, none, and one more
            |codestream| indexed(codestream, |row, _| row as u16),
            |codestream| indexed(codestream, |_, _| 0),
            |codestream| indexed(codestream, |_, index| index.wrapping_add(1)),
        ];
        for (nth, wrong) in wrong.into_iter().enumerate() {
            assert!(!holds_numbered(wrong), "{nth}");
        }
    }
}
