//! The benchmark, beside plain Rust of the same rule over the same rows: few and many rows, of which the
//! last few are the tile's, and as many parts of one tile as can be in order.

use probe::host;

use crate::bench::{row, Benchmark};
use crate::functions::plain::{self, PLAIN};
use crate::model::{rows_of, Record};
use crate::sample::orders::run;
use crate::wanted;

pub const BENCHMARK: Benchmark = Benchmark {
    name: wanted::ORDER.name,
    beside: PLAIN,
    rows,
};

struct Input {
    table: Vec<u8>,
    tile: u16,
}

fn ours(input: &Input) -> bool {
    host::tile_in_order(&input.table, input.tile) == 1
}

fn plain(input: &Input) -> bool {
    plain::tile_in_order(&input.table, input.tile)
}

fn rows() {
    for (name, count) in [("10", 10), ("1,000", 1_000), ("100,000", 100_000)] {
        let others: Vec<Record> = (0..count - 5)
            .map(|k| ((k as u16 % 7, 0, 12), None))
            .collect();
        measure(
            &format!("{name} rows, the last 5 the tile's"),
            [others, run(9, 5, 5)].concat(),
        );
    }
    measure("256 rows of one tile", run(9, 256, 0));
}

fn measure(name: &str, records: Vec<Record>) {
    let table = rows_of(&records);
    row(name, &Input { table, tile: 9 }, ours, plain);
}
