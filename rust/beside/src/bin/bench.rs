//! Times every function beside the original, or beside plain Rust where that has none, and prints a
//! table for each: `bench [NAME]`, of the functions with that in their name. Status 2 for misuse or in a
//! build with overflow checks, 3 without the original.

#![forbid(unsafe_code)]

use std::process::ExitCode;

use beside::functions::BENCHMARKS;
use beside::options::Options;
use beside::program::{asks_the_original, ended, named, Build, Stop};

fn main() -> ExitCode {
    ended(bench())
}

fn bench() -> Result<(), Stop> {
    let mut options = Options::of_the_program("bench [NAME]");
    let name = options.unnamed().unwrap_or_default();
    options.end()?;
    asks_the_original(Build::Released)?;
    let name = name.to_string_lossy();
    for benchmark in named(BENCHMARKS, &name, |benchmark| vec![benchmark.name])? {
        benchmark.run();
    }
    Ok(())
}
