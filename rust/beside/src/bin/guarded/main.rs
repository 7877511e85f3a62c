//! Calls every function with all that it is lent between inaccessible pages, at either side, on
//! structured and damaged inputs: `guarded [--calls N] [--seed S]`. A stray read or write ends it by
//! a signal. Status 1 if an answer isn't that of ordinary memory or never came, 2 for misuse.

#![deny(unsafe_code)]

mod calls;
mod functions;
#[allow(unsafe_code)]
mod pages;

use std::process::ExitCode;

use beside::options::Options;
use beside::program::{ended, Stop};
use beside::random::{Random, SEED};
use beside::tally::Tally;
use beside::wanted::TOO_LONG;

use calls::{Calls, Pools};
use functions::{Function, FUNCTIONS};

/// For all functions, in equal parts.
const CALLS: u64 = 150_000;

fn main() -> ExitCode {
    ended(guarded())
}

fn guarded() -> Result<(), Stop> {
    let mut options = Options::of_the_program("guarded [--calls N] [--seed S]");
    let calls = options.number("--calls")?.unwrap_or(CALLS);
    let seed = options.number("--seed")?.unwrap_or(SEED);
    options.end()?;
    println!("seed {seed}");
    let share = calls / FUNCTIONS.len() as u64;
    let mut pools = Pools::new();
    let (mut all, mut hold) = (0, true);
    for function in FUNCTIONS {
        let tally = called(function, share, seed, &mut pools);
        println!("{tally}");
        all += tally.compared();
        hold &= tally.holds();
    }
    println!("guarded: {all} calls between inaccessible pages");
    match hold {
        true => Ok(()),
        false => Err(Stop::failed("an answer was another, or never came")),
    }
}

fn called((wanted, run): &Function, least: u64, seed: u64, pools: &mut Pools) -> Tally {
    let labels = wanted.answers.iter().map(|&(label, _)| label);
    // So long a loan has no room here, and the original has no part in this.
    let labels = labels.filter(|&label| label != TOO_LONG);
    let answers: Vec<_> = labels.map(|label| (label, 0)).collect();
    let mut calls = Calls {
        random: Random::new(seed),
        tally: Tally::new(wanted.name, least, &answers),
        pools,
    };
    while !calls.tally.enough() {
        run(&mut calls);
    }
    calls.tally
}
