//! Holds what is said of every prefix of a header, and of growth's region, to what is said of the whole,
//! on files and on damaged ones: `prefixes [--seed S] FILE...`
//! Status 1 if anything differed or too little was seen, 2 for misuse, 3 without the original.

#![forbid(unsafe_code)]

use std::fs;
use std::process::ExitCode;

use beside::functions::compare_files;
use beside::options::Options;
use beside::program::{asks_the_original, ended, Build, Stop};
use beside::random::SEED;
use beside::tally::Tally;

const USAGE: &str = "prefixes [--seed S] FILE...";

fn main() -> ExitCode {
    ended(prefixes())
}

fn prefixes() -> Result<(), Stop> {
    let mut options = Options::of_the_program(USAGE);
    let seed = options.number("--seed")?.unwrap_or(SEED);
    let mut files = Vec::new();
    while let Some(file) = options.unnamed() {
        let bytes = fs::read(&file);
        files.push(bytes.map_err(|error| Stop::failed(format!("{}: {error}", file.display())))?);
    }
    if files.is_empty() {
        return Err(options.misuse());
    }
    asks_the_original(Build::Checked)?;
    let tallies = compare_files(seed, &files)?;
    println!("{} files, seed {seed}", files.len());
    for tally in &tallies {
        println!("{tally}");
    }
    match tallies.iter().all(Tally::holds) {
        true => Ok(()),
        false => Err(Stop::failed("something differed, or too little was seen")),
    }
}
