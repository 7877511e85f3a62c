//! Each function that is run beside the original or the model: a module, named once in each program's list.

mod assembly;
mod boxes;
mod check;
mod components;
mod enough;
mod entries;
mod extent;
mod growth;
mod header;
mod index;
mod marker;
mod order;
mod part;
mod pixel;
mod plain;
mod records;
mod rewrite;
mod scan;
mod search;
mod siz;
mod split;
mod whole;

pub use enough::compare_files;

use crate::bench::Benchmark;
use crate::cases::Kind;
use crate::compare::Compared;

pub const COMPARISONS: &[&dyn Compared] = &[
    &extent::COMPARISON,
    &header::COMPARISON,
    &marker::COMPARISON,
    &scan::COMPARISON,
    &check::COMPARISON,
    &order::COMPARISON,
    &index::COMPARISON,
    &split::COMPARISON,
    &rewrite::COMPARISON,
    &assembly::COMPARISON,
    &search::COMPARISON,
    &boxes::COMPARISON,
    &siz::COMPARISON,
    &pixel::COMPARISON,
    &growth::COMPARISON,
    &growth::STEP,
    &enough::COMPARISON,
    &components::COMPARISON,
];

pub const BENCHMARKS: &[Benchmark] = &[
    extent::BENCHMARK,
    header::BENCHMARK,
    marker::BENCHMARK,
    scan::BENCHMARK,
    check::BENCHMARK,
    check::BENCHMARK_BESIDE_A_SCAN,
    order::BENCHMARK,
    index::BENCHMARK,
    index::BENCHMARK_COUNTED,
    index::BENCHMARK_BESIDE_A_SCAN,
    index::BENCHMARK_OF_EXTENSION,
    index::BENCHMARK_OF_LOOKUP,
    index::BENCHMARK_OF_ENTRIES,
    index::BENCHMARK_BESIDE_A_FILTER,
    split::BENCHMARK,
    rewrite::BENCHMARK,
    rewrite::BENCHMARK_OF_ANNEX_B,
    rewrite::BENCHMARK_IN_PLACE,
    assembly::BENCHMARK,
    assembly::BENCHMARK_OF_ANNEX_B,
    assembly::BENCHMARK_IN_PLACE,
    search::BENCHMARK,
    boxes::BENCHMARK,
    boxes::BENCHMARK_COLLECTED,
    siz::BENCHMARK,
    growth::BENCHMARK,
    components::BENCHMARK,
    whole::BENCHMARK,
];

/// In the order of the replay list.
pub const KINDS: &[Kind] = &[
    extent::KIND,
    header::KIND,
    scan::KIND,
    split::KIND,
    rewrite::KIND,
    assembly::KIND,
    search::KIND,
    siz::KIND,
    growth::KIND,
    header::RECORDS,
    scan::RECORDS,
    components::KIND,
    rewrite::KIND_OF_ANNEX_B,
    assembly::KIND_OF_ANNEX_B,
    rewrite::KIND_IN_PLACE,
    assembly::KIND_IN_PLACE,
    marker::KIND,
    header::CARRIED_ON,
    header::RECORDS_CARRIED_ON,
    header::NEWER,
    header::RECORDS_NEWER,
    order::KIND,
    order::RECORDS,
    index::KIND,
    index::RECORDS,
    check::KIND,
    boxes::KIND,
];

#[cfg(test)]
mod tests {
    use super::KINDS;

    #[test]
    fn kinds_are_numbered_in_order() {
        let numbers: Vec<_> = KINDS.iter().map(|kind| kind.number).collect();
        assert_eq!(numbers, (1..=27).collect::<Vec<_>>());
    }
}
