//! The check by the model, and what may go wrong with it, all of which has to show.

use super::Check;
use crate::model::check::{
    check_length_table, header, lists, Checked, Difference, Lists, Said, DIFFERS, NO_TILE,
};
use crate::model::header::{parse_main_header, tlm, tlms, Reading};
use crate::model::parts::scan_sot_markers;
use crate::model::Refusal;

fn told(checked: Checked, values: &mut [u64; 6]) -> u32 {
    match checked {
        Ok(None) => 0,
        Ok(Some(difference)) => {
            *values = difference.numbers();
            DIFFERS
        }
        Err(refusal) => {
            values[0] = refusal.place;
            refusal.number
        }
    }
}

pub const RIGHT: Check =
    |codestream, region, values| told(check_length_table(codestream, region), values);

/// Of other lists.
macro_rules! listing {
    ($change:expr) => {
        |codestream, region, values| {
            let other = lists(codestream, region).map(|mut lists| {
                let change: fn(&mut Lists) = $change;
                change(&mut lists);
                lists.difference()
            });
            told(other, values)
        }
    };
}

/// Of another difference between them.
macro_rules! differing {
    ($change:expr) => {
        |codestream, region, values| {
            let other = lists(codestream, region).map(|lists| {
                let change: fn(&Lists, &mut Difference) = $change;
                let mut difference = lists.difference()?;
                change(&lists, &mut difference);
                Some(difference)
            });
            told(other, values)
        }
    };
}

/// Of other numbers, by the status.
macro_rules! telling {
    ($change:expr) => {
        |codestream, region, values| {
            let status = RIGHT(codestream, region, values);
            let change: fn(u32, &mut [u64; 6]) = $change;
            change(status, values);
            status
        }
    };
}

/// With Ztlm as the segments stand in the file.
fn in_file_order(codestream: &[u8], region: u64) -> Vec<u8> {
    let mut other = codestream.to_vec();
    for (ztlm, (at, _)) in tlms(header(codestream, region)).enumerate() {
        if let Some(place) = other.get_mut(at as usize + 4) {
            *place = ztlm as u8;
        }
    }
    other
}

/// The tiles as the main header has them by a reading, which goes by the file, in the order of Ztlm.
fn numbered_by(reading: Reading, codestream: &[u8], region: u64) -> Checked {
    let mut found = lists(codestream, region)?;
    let header = header(codestream, region);
    let mut entries = parse_main_header(header, reading)?.entries.into_iter();
    let mut segments: Vec<(u8, Vec<Said>)> = Vec::new();
    for (_, body) in tlms(header) {
        let count = tlm(body).map_or(0, |listed| listed.len());
        let said = entries.by_ref().map(|(tile, _, length)| (tile, length));
        segments.push((body[2], said.take(count).collect()));
    }
    segments.sort_by_key(|(ztlm, _)| *ztlm);
    found.listed = segments.into_iter().flat_map(|(_, said)| said).collect();
    Ok(found.difference())
}

/// A difference before what the scan refuses.
fn stopped_at_the_difference(codestream: &[u8], region: u64) -> Checked {
    let refusal = match check_length_table(codestream, region) {
        Err(refusal) if matches!(refusal.number, 7..=9) => refusal,
        checked => return checked,
    };
    let before = lists(&codestream[..refusal.place as usize], region);
    match before.map(|lists| lists.difference()) {
        Ok(Some(difference)) if difference.standing.is_some() => Ok(Some(difference)),
        _ => Err(refusal),
    }
}

/// Whatever is refused, what the scan refuses comes first.
fn behind_the_scan(codestream: &[u8], region: u64) -> Checked {
    let first_sot = parse_main_header(header(codestream, region), Reading::ORIGINAL)?.first_sot;
    scan_sot_markers(codestream, first_sot)?;
    check_length_table(codestream, region)
}

/// Each segment whose Ztlm was used before: where it stands, and where the first of them does.
fn used_again(codestream: &[u8], region: u64) -> Vec<[u64; 2]> {
    let segments: Vec<_> = tlms(header(codestream, region)).collect();
    let again = segments.iter().enumerate().filter_map(|(nth, (at, body))| {
        let mut before = segments[..nth].iter();
        let (first, _) = before.find(|(_, other)| other.get(2) == body.get(2))?;
        Some([*at, *first])
    });
    again.collect()
}

/// The first ones are those that laws speak of.
pub const WRONG: [Check; 31] = [
    // the order of the file
    |codestream, region, values| {
        told(
            check_length_table(&in_file_order(codestream, region), region),
            values,
        )
    },
    // numbered on in the order of the file, and from 0 in each segment
    |codestream, region, values| told(numbered_by(Reading::DEFAULT, codestream, region), values),
    |codestream, region, values| told(numbered_by(Reading::ORIGINAL, codestream, region), values),
    // lengths alone, and tiles alone
    listing!(|lists| {
        let all = lists.listed.iter_mut().chain(&mut lists.standing);
        all.for_each(|said| said.0 = 0);
    }),
    listing!(|lists| {
        let all = lists.listed.iter_mut().chain(&mut lists.standing);
        all.for_each(|said| said.1 = 12);
    }),
    // what is missing, or too many, passes
    listing!(|lists| lists.standing.truncate(lists.listed.len())),
    listing!(|lists| lists.listed.truncate(lists.standing.len())),
    // a header without entries passes
    listing!(|lists| {
        if lists.listed.is_empty() {
            lists.standing.clear();
        }
    }),
    // the last entry is lost, the last part ends before EOC, and the first of each alone
    listing!(|lists| {
        lists.listed.pop();
    }),
    listing!(|lists| {
        if let Some((_, length)) = lists.standing.last_mut() {
            *length -= 2;
        }
    }),
    listing!(|lists| {
        lists.listed.truncate(1);
        lists.standing.truncate(1);
    }),
    // numbered from 1; at the first SOT, and behind what is listed; and each for the other
    differing!(|_, difference| difference.number += 1),
    differing!(|lists, difference| difference.offset = lists.first_sot),
    differing!(|_, difference| {
        let behind = difference.listed.map_or(0, |(_, length)| length);
        difference.offset += behind;
    }),
    differing!(|_, difference| {
        let Difference {
            listed, standing, ..
        } = *difference;
        (difference.listed, difference.standing) = (standing, listed);
    }),
    // a tile told where there is nothing
    telling!(|status, values| {
        if status == DIFFERS && values[2] == NO_TILE {
            values[2] = 0;
        }
    }),
    // passes always, never differs, and never passes
    |_, _, _| 0,
    |codestream, region, values| match RIGHT(codestream, region, values) {
        DIFFERS => 0,
        status => status,
    },
    |codestream, region, values| match RIGHT(codestream, region, values) {
        0 => DIFFERS,
        status => status,
    },
    // numbers that have to stay
    telling!(|status, values| {
        if status == 0 {
            values[0] = 0;
        }
    }),
    telling!(|status, values| {
        if status != DIFFERS {
            values[1] = 0;
        }
    }),
    |codestream, region, values| {
        values[5] = 0;
        RIGHT(codestream, region, values)
    },
    // a difference before the scan's refusal
    |codestream, region, values| told(stopped_at_the_difference(codestream, region), values),
    // the region not looked at, and the scan of it alone
    |codestream, _, values| RIGHT(codestream, u64::MAX, values),
    |codestream, region, values| RIGHT(header(codestream, region), u64::MAX, values),
    // 32 at the first of the two, at the last that is used again, before the walk's, behind the scan's, never
    |codestream, region, values| {
        let status = RIGHT(codestream, region, values);
        match used_again(codestream, region)[..] {
            [[_, first], ..] if status == 32 => values[0] = first,
            _ => {}
        }
        status
    },
    |codestream, region, values| {
        let status = RIGHT(codestream, region, values);
        match used_again(codestream, region)[..] {
            [.., [last, _]] if status == 32 => values[0] = last,
            _ => {}
        }
        status
    },
    |codestream, region, values| match used_again(codestream, region)[..] {
        [[at, _], ..] => told(Err(Refusal::new(32, at)), values),
        [] => RIGHT(codestream, region, values),
    },
    |codestream, region, values| told(behind_the_scan(codestream, region), values),
    |codestream, region, values| match check_length_table(codestream, region) {
        Err(Refusal { number: 32, .. }) => {
            RIGHT(&in_file_order(codestream, region), region, values)
        }
        checked => told(checked, values),
    },
    // the walk's refusals at 0
    telling!(|status, values| {
        if matches!(status, 3..=6) {
            values[0] = 0;
        }
    }),
];

/// Those that about as many entries show as there are numbers.
pub const PAST_THE_LAST: [Check; 5] = [
    // by the order of the file, at its first segment or its last, and before 32
    |codestream, region, values| {
        let by_file = check_length_table(&in_file_order(codestream, region), region);
        match check_length_table(codestream, region) {
            Err(Refusal { number: 26, .. }) => told(by_file, values),
            checked => told(checked, values),
        }
    },
    telling!(|status, values| {
        if status == 26 {
            values[0] = 6;
        }
    }),
    |codestream, region, values| match parse_main_header(
        header(codestream, region),
        Reading::DEFAULT,
    ) {
        Err(refusal) => told(Err(refusal), values),
        Ok(_) => RIGHT(codestream, region, values),
    },
    // as if the last number were one less, and behind the scan's refusals
    |codestream, region, values| match check_length_table(codestream, region) {
        Ok(None) => told(Err(Refusal::new(26, 6)), values),
        checked => told(checked, values),
    },
    |codestream, region, values| match check_length_table(codestream, region) {
        Err(Refusal { number: 26, .. }) => told(behind_the_scan(codestream, region), values),
        checked => told(checked, values),
    },
];
