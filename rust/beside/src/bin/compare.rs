//! Runs every function beside the original: `compare [--seconds N | --minutes N] [--seed S]
//! [--only NAME]`, of the functions with that in their name.
//! Status 1 if anything differed or too little was seen, 2 for misuse, 3 without the original.

#![forbid(unsafe_code)]

use std::process::ExitCode;
use std::time::Duration;

use beside::compare::Compared;
use beside::functions::COMPARISONS;
use beside::options::Options;
use beside::program::{asks_the_original, ended, named, Build, Stop};
use beside::random::SEED;

const USAGE: &str = "compare [--seconds N | --minutes N] [--seed S] [--only NAME]";

/// For the whole run, in equal parts for each function; more where that is too short.
const SECONDS: u64 = 20;

fn main() -> ExitCode {
    ended(compare())
}

fn compare() -> Result<(), Stop> {
    let mut options = Options::of_the_program(USAGE);
    let seconds = match options.number("--minutes")? {
        Some(minutes) => minutes.checked_mul(60).ok_or_else(|| options.misuse())?,
        None => options.number("--seconds")?.unwrap_or(SECONDS),
    };
    let seed = options.number("--seed")?.unwrap_or(SEED);
    let only = options.word("--only")?.unwrap_or_default();
    options.end()?;
    asks_the_original(Build::Checked)?;
    let chosen = named(COMPARISONS, &only, |comparison| comparison.names())?;
    match compare_all(&chosen, Duration::from_secs(seconds), seed) {
        true => Ok(()),
        false => Err(Stop::failed("something differed, or too little was seen")),
    }
}

fn compare_all(chosen: &[&&dyn Compared], time: Duration, seed: u64) -> bool {
    println!("seed {seed}");
    let share = time / chosen.len() as u32;
    let mut all_hold = true;
    for comparison in chosen {
        for tally in comparison.tallies(seed, share) {
            println!("{tally}");
            all_hold &= tally.holds();
        }
    }
    all_hold
}
