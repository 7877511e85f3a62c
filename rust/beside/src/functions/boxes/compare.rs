//! The comparison: every row, the table beyond them and where it has to stay, the number of boxes, refusals;
//! and the laws.

use probe::host;

use super::laws;
use super::List;
use crate::compare::{self, Comparison};
use crate::judge::{Case, Leaves, Told};
use crate::lent::{room, table_of, Lent};
use crate::model::boxes::{box_rows, list_boxes, needed, BoxEntry, BOX_ROW};
use crate::model::reader::{JP2C, SIGNATURE};
use crate::model::Refusal;
use crate::sample::boxes::{self, edges, extended, fitting, saying, FREE};
use crate::sample::damage::damaged;
use crate::sample::prefixes;
use crate::sample::short::each_behind;
use crate::sample::trees::{
    by_hand, bytes, deep_and_wide, edited, entries, file, held_at, jp2, too_deep, wide, JP2H, RES,
};
use crate::sample::zeros::{each_too_long, zeros};
use crate::tally::hex_of_front;
use crate::wanted;

type Run = compare::Run<List>;

pub const COMPARISON: Comparison<List> = Comparison {
    wanted: wanted::BOXES,
    also: &[wanted::LAWS_OF_BOXES],
    minimum: 1_000_000,
    original: host::list_boxes,
    fixed,
    random: Some(random),
};

const LAWS: usize = 0;

fn fixed(run: &mut Run) {
    over_long_loans(run);
    past_4_gigabytes(run);
    known_by_hand(run);
    files_of_the_search(run);
    every_prefix(run);
    short_strings(run);
    every_few_words(run);
    every_length(run);
    about_65_536(run);
    many(run);
}

impl Leaves<1, 1> for Vec<BoxEntry> {
    fn leave(&self, before: Lent<1, 1>) -> Lent<1, 1> {
        before.accepted([self.len() as u64], [&box_rows(self)])
    }
}

/// With a table of so many bytes.
fn check_with(run: &mut Run, file: &[u8], table: usize) {
    let list = run.original;
    let document = list_boxes(file).and_then(|boxes| {
        Refusal::unless_it_has(table / BOX_ROW, boxes.len())?;
        Ok(boxes)
    });
    let label = document.as_ref().map_or("", |boxes| wanted::boxes(boxes));
    let before = Lent::preset(&mut run.random, [table]);
    let case = Case {
        ours: before.left_by(|[table], [value]| list(file, table, value)),
        before,
        told: Told::Nothing,
        document,
    };
    case.judge_under(label, &mut run.tally, || {
        format!("{}; table {table}", hex_of_front(file))
    });
}

/// With a table that mostly has room.
fn check(run: &mut Run, file: &[u8]) {
    let rows = room(&mut run.random, needed(file));
    let table = table_of(&mut run.random, BOX_ROW, rows);
    check_with(run, file, table);
}

/// None, a byte short of the rows, just these, a byte short of one more, and that.
fn in_every_table(run: &mut Run, file: &[u8]) {
    let rows = BOX_ROW * needed(file);
    for table in [
        0,
        rows.saturating_sub(1),
        rows,
        rows + BOX_ROW - 1,
        rows + BOX_ROW,
    ] {
        check_with(run, file, table);
    }
}

/// And the laws.
fn check_and_hold(run: &mut Run, file: &[u8]) {
    check(run, file);
    laws::check(&mut run.also[LAWS], run.original, file);
}

/// What is too long to read a header of is a file like others.
fn over_long_loans(run: &mut Run) {
    each_too_long(|file| {
        for file in [file, &file[..file.len() - 1]] {
            in_every_table(run, file);
        }
    });
}

/// Places, lengths and ends that need more than 32 bits, in 5 GB of zeros: where the top has these left, a box
/// with length 0.
fn past_4_gigabytes(run: &mut Run) {
    const LENGTH: usize = 5 << 30;
    const LONG: u64 = 1 << 32;
    let Some(mut file) = zeros(LENGTH) else {
        return;
    };
    let put = |file: &mut [u8], at: u64, bytes: &[u8]| {
        let at = at as usize;
        file[at..at + bytes.len()].copy_from_slice(bytes);
    };
    for length in [LONG - 1, LONG, LONG + 16, LENGTH as u64, LENGTH as u64 + 1] {
        put(&mut file, 0, &extended(FREE, length, &[]));
        in_every_table(run, &file);
    }
    put(&mut file, 0, &saying(FREE, u32::MAX, &[]));
    in_every_table(run, &file);
    // a superbox from there on, with a box that is as long as it allows, or not
    let superbox = LONG - 1;
    let inner = superbox + 16;
    let rest = LENGTH as u64 - inner;
    put(&mut file, superbox, &extended(JP2H, 16 + rest, &[]));
    for length in [
        rest - 8,
        rest - 1,
        rest,
        rest + 1,
        LONG + 16,
        u64::MAX - inner,
    ] {
        put(
            &mut file,
            inner,
            &extended(RES, length, &extended(FREE, length - 16, &[])),
        );
        in_every_table(run, &file);
    }
    put(&mut file, inner, &saying(JP2C, rest as u32, &[]));
    in_every_table(run, &file);
    for end in [
        superbox,
        superbox + 7,
        superbox + 8,
        inner,
        inner + 7,
        LENGTH as u64 - 1,
    ] {
        in_every_table(run, &file[..end as usize]);
    }
    put(
        &mut file,
        0,
        &extended(JP2H, LENGTH as u64, &extended(FREE, superbox - 16, &[])),
    );
    in_every_table(run, &file);
    in_every_table(run, &file[..LENGTH - 1]);
}

fn known_by_hand(run: &mut Run) {
    for (file, _) in by_hand() {
        in_every_table(run, &file);
        laws::check(&mut run.also[LAWS], run.original, &file);
    }
}

fn files_of_the_search(run: &mut Run) {
    for file in edges() {
        in_every_table(run, &file);
    }
}

fn every_prefix(run: &mut Run) {
    for (file, _) in by_hand() {
        for prefix in prefixes(&file) {
            check(run, &prefix);
        }
    }
    for prefix in prefixes(&jp2()) {
        check(run, &prefix);
    }
}

/// Alone, as a box's length, and in the longer form, at the top and below it.
fn short_strings(run: &mut Run) {
    const LETTERS: [u8; 7] = [0x00, 0x01, 0x07, 0x08, 0x10, 0x11, 0xFF];
    each_behind(&[(&[], 4)], &LETTERS, |bytes| {
        let short = [bytes, &FREE, &[1; 9]].concat();
        let long = [&[0, 0, 0, 1], &JP2H, &[0; 4], bytes, &[0, 0, 0, 8], &FREE].concat();
        for file in [bytes, &short, &long] {
            check(run, file);
            check(run, &fitting(RES, file));
        }
    });
}

/// Files of up to six words that are small lengths and types, and what a superbox before others holds; cut too.
fn every_few_words(run: &mut Run) {
    const WORDS: [[u8; 4]; 8] = [
        [0, 0, 0, 0],
        [0, 0, 0, 1],
        [0, 0, 0, 8],
        [0, 0, 0, 12],
        [0, 0, 0, 16],
        [0, 0, 0, 24],
        JP2H,
        FREE,
    ];
    each_behind(&[(&[], 6)], &[0, 1, 2, 3, 4, 5, 6, 7], |words| {
        let file: Vec<u8> = words
            .iter()
            .flat_map(|&at| WORDS[usize::from(at)])
            .collect();
        check(run, &file);
        if words.len() < 6 {
            check(run, &file[..file.len().saturating_sub(1)]);
            for depth in [2, 7, 8] {
                check(run, &held_at(depth, &file));
            }
            check(run, &[fitting(RES, &file), wide(2, &[])].concat());
        }
    });
}

/// Both forms with every length to 60, and those whose end lies around 2^32 and 2^64, at the top, below it
/// and as deep as may be, before more bytes in the list and none.
fn every_length(run: &mut Run) {
    let near = |middle: u64| (0..=100).map(move |off| middle.wrapping_sub(80).wrapping_add(off));
    let lengths = (0..=60)
        .chain(near(1 << 31))
        .chain(near(1 << 32))
        .chain(near(0));
    for length in lengths {
        for kind in [JP2H, FREE] {
            for behind in [&[][..], &[1], &fitting(FREE, &[]), &[0; 24]] {
                let content = fitting(FREE, &[9; 3]);
                let short = saying(kind, length as u32, &content);
                let long = extended(kind, length, &content);
                for one in [short, long] {
                    let list = [&one, behind].concat();
                    for depth in [1, 2, 8] {
                        check(run, &held_at(depth, &list));
                        let more = [held_at(depth, &list), fitting(JP2C, &[1; 60])].concat();
                        check(run, &more);
                    }
                }
            }
        }
    }
}

/// Boxes of about as many bytes, in both forms, held and holding.
fn about_65_536(run: &mut Run) {
    for size in 65_536 - 40..=65_536 + 8 {
        let content = vec![1; size - 8];
        let fits = fitting(FREE, &content);
        let long = extended(FREE, size as u64, &content[8..]);
        for one in [&fits, &long] {
            check(run, one);
            check(run, &[&fitting(JP2H, one)[..], one].concat());
            check(run, &one[..size - 1]);
            check(
                run,
                &[&fitting(RES, &one[..size - 1]), &[0; 9][..]].concat(),
            );
        }
        check(run, &fitting(JP2H, &wide(size / 8, &[])));
    }
}

fn many(run: &mut Run) {
    for count in [255, 256, 257, 65_535, 65_536, 65_537] {
        in_every_table(run, &wide(count, &[]));
        in_every_table(run, &fitting(JP2H, &wide(count, &[1])));
    }
    for file in [wide(1_000_000, &[]), deep_and_wide(100_000, &[1, 2, 3])] {
        in_every_table(run, &file);
        laws::check(&mut run.also[LAWS], run.original, &file);
        check(run, &file[..file.len() - 1]);
        check(run, &[file, vec![0]].concat());
    }
}

fn random(run: &mut Run) {
    let trees = file(&mut run.random);
    let built = bytes(&trees);
    in_every_table(run, &built);
    laws::as_built(&mut run.also[LAWS], run.original, &trees);
    laws::check(&mut run.also[LAWS], run.original, &built);
    let boxes = entries(&trees);
    for _ in 0..8 {
        let other = edited(&mut run.random, &built, &boxes);
        check_and_hold(run, &other);
        let again = edited(&mut run.random, &other, &boxes);
        check(run, &again);
    }
    run.damaged(6, &built, check_and_hold);
    run.cut(3, &built, check);
    more_behind(run, &built);
    let trees = too_deep(&mut run.random);
    let built = bytes(&trees);
    check(run, &built);
    let other = edited(&mut run.random, &built, &entries(&trees));
    check(run, &other);
    let other = boxes::file(&mut run.random);
    check_and_hold(run, &other);
    let other = [&SIGNATURE, &damaged(&mut run.random, &other)[..]].concat();
    check_and_hold(run, &other);
}

/// A few bytes more, at the file's end and in a superbox around it.
fn more_behind(run: &mut Run, built: &[u8]) {
    let count = 1 + run.random.below(20);
    let mut longer = built.to_vec();
    longer.extend(run.random.bytes(count));
    check(run, &longer);
    check(run, &held_at(2, &longer));
}

#[cfg(test)]
mod tests {
    use super::known_by_hand;
    use crate::compare::holds_on;
    use crate::functions::boxes::slips::{ALIKE, RIGHT, WRONG};
    use crate::functions::boxes::List;

    fn holds(list: List) -> bool {
        holds_on::<1, _>(list, known_by_hand)
    }

    #[test]
    fn the_model_passes_and_slips_do_not() {
        assert!(holds(RIGHT));
        for (at, list) in WRONG.into_iter().enumerate() {
            assert!(!holds(list), "{at}");
        }
    }

    /// Two lines of which no file fits both may change places.
    #[test]
    fn an_order_that_no_file_tells_apart_passes() {
        assert!(holds(ALIKE));
    }
}
