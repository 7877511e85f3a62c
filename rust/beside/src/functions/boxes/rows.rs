//! The benchmarks, beside plain Rust of the same rule, which judges and then fills as ours does, or collects and
//! then writes: a file as writers lay it out, few and many boxes at the top, and as many at each of eight depths.
//! The table that is lent is not cleared between calls.

use std::cell::RefCell;

use probe::host;

use crate::bench::{row, Benchmark};
use crate::functions::plain::{self, PLAIN};
use crate::model::boxes::{needed, BOX_ROW};
use crate::model::Refusal;
use crate::sample::trees::{deep_and_wide, jp2, wide};
use crate::wanted;

pub const BENCHMARK: Benchmark = Benchmark {
    name: wanted::BOXES.name,
    beside: PLAIN,
    rows: || each_file(|name, input| row(name, input, ours, plainly)),
};

pub const BENCHMARK_COLLECTED: Benchmark = Benchmark {
    name: "list_boxes, beside a list of its own",
    beside: PLAIN,
    rows: || each_file(|name, input| row(name, input, ours, collected)),
};

struct Input {
    file: Vec<u8>,
    table: RefCell<Vec<u8>>,
}

fn each_file(measure: fn(&str, &Input)) {
    let measure = |name: &str, file: Vec<u8>| {
        let table = vec![0; BOX_ROW * needed(&file)].into();
        measure(name, &Input { file, table });
    };
    measure("a JP2 file of 10 boxes", jp2());
    for (name, count) in [
        ("10 boxes", 10),
        ("1,000 boxes", 1_000),
        ("100,000 boxes", 100_000),
        ("3,000,000 boxes", 3_000_000),
    ] {
        measure(&format!("{name} at the top"), wide(count, &[0; 4]));
    }
    for (name, count) in [
        ("1,007 boxes", 1_000),
        ("100,007 boxes", 100_000),
        ("3,000,007 boxes", 3_000_000),
    ] {
        measure(
            &format!("{name} at eight depths"),
            deep_and_wide(count, &[0; 4]),
        );
    }
    let mut cut = wide(100_000, &[0; 4]);
    cut.pop();
    measure("100,000 boxes at the top, the last cut short", cut);
}

/// The answer, and a byte of the last row.
fn told(
    input: &Input,
    list: impl Fn(&[u8], &mut [u8]) -> Result<u64, Refusal>,
) -> (Result<u64, Refusal>, Option<u8>) {
    let table = &mut input.table.borrow_mut();
    let answer = list(&input.file, table);
    (answer, table.last().copied())
}

fn ours(input: &Input) -> (Result<u64, Refusal>, Option<u8>) {
    told(input, |file, table| {
        let mut value = 0;
        match host::list_boxes(file, table, &mut value) {
            0 => Ok(value),
            refused => Err(Refusal::new(refused, value)),
        }
    })
}

fn plainly(input: &Input) -> (Result<u64, Refusal>, Option<u8>) {
    told(input, plain::list_boxes)
}

fn collected(input: &Input) -> (Result<u64, Refusal>, Option<u8>) {
    told(input, plain::list_boxes_collected)
}

/// What ours is timed beside gives what ours gives.
#[cfg(test)]
mod tests {
    use crate::functions::boxes::slips::RIGHT;
    use crate::functions::plain;
    use crate::lent::{room, table_of, Lent};
    use crate::model::boxes::{needed, BOX_ROW};
    use crate::model::Refusal;
    use crate::random::Random;
    use crate::sample::damage::damaged;
    use crate::sample::trees::{by_hand, bytes, deep_and_wide, edited, entries, file};

    type Plain = fn(&[u8], &mut [u8]) -> Result<u64, Refusal>;

    fn same(random: &mut Random, file: &[u8]) {
        let rows = room(random, needed(file));
        let size = table_of(random, BOX_ROW, rows);
        let before = Lent::<1, 1>::preset(random, [size]);
        let model = before.left_by(|[table], [value]| RIGHT(file, table, value));
        let both: [Plain; 2] = [plain::list_boxes, plain::list_boxes_collected];
        for list in both {
            let left = before.left_by(|[table], [value]| match list(file, table) {
                Ok(boxes) => {
                    *value = boxes;
                    0
                }
                Err(refusal) => {
                    *value = refusal.place;
                    refusal.number
                }
            });
            assert_eq!(left, model, "{file:02X?}");
        }
    }

    #[test]
    fn plain_lists_are_the_model_s() {
        let random = &mut Random::new(7);
        for (file, _) in by_hand() {
            same(random, &file);
        }
        same(random, &deep_and_wide(1_000, &[1]));
        for _ in 0..3_000 {
            let trees = file(random);
            let built = bytes(&trees);
            same(random, &built);
            let edited = edited(random, &built, &entries(&trees));
            same(random, &edited);
            let damaged = damaged(random, &built);
            same(random, &damaged);
        }
    }
}
