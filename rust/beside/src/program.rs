//! How the programs end, and what those need that ask the original.

use std::process::ExitCode;

use crate::caught::overflow_panics;

/// A difference, too little seen, or a list that can't be made or written.
const FAILED: u8 = 1;
const MISUSE: u8 = 2;
const NO_ORIGINAL: u8 = 3;

/// Why a program ends with a status other than 0.
#[derive(Debug, PartialEq)]
pub struct Stop {
    status: u8,
    why: String,
}

impl Stop {
    pub fn failed(why: impl Into<String>) -> Self {
        Self::with(FAILED, why)
    }

    pub fn misuse(why: impl Into<String>) -> Self {
        Self::with(MISUSE, why)
    }

    fn with(status: u8, why: impl Into<String>) -> Self {
        let why = why.into();
        Stop { status, why }
    }
}

/// The status of a program that ended so; says why it stopped.
pub fn ended(outcome: Result<(), Stop>) -> ExitCode {
    match outcome {
        Ok(()) => ExitCode::SUCCESS,
        Err(Stop { status, why }) => {
            eprintln!("{why}");
            ExitCode::from(status)
        }
    }
}

/// A build with or without overflow checks.
#[derive(Clone, Copy, PartialEq)]
pub enum Build {
    /// Where the original would go wrong instead of panicking, or never end.
    Checked,
    /// Where it is timed as it is.
    Released,
}

/// The original has to be there, in a build of this kind.
pub fn asks_the_original(build: Build) -> Result<(), Stop> {
    if !original::PRESENT {
        let why = "THE ORIGINAL IS NOT AT HAND: NOTHING WAS COMPARED (0 cases)";
        return Err(Stop::with(NO_ORIGINAL, why));
    }
    match (build, overflow_panics()) {
        (Build::Checked, false) => Err(Stop::misuse(
            "built without overflow checks; build with --profile compare",
        )),
        (Build::Released, true) => Err(Stop::misuse(
            "built with overflow checks; build with --release",
        )),
        _ => Ok(()),
    }
}

/// Those of `all` that have `part` in one of their names; it is misuse if there are none.
pub fn named<'a, T>(
    all: &'a [T],
    part: &str,
    names: impl Fn(&T) -> Vec<&'static str>,
) -> Result<Vec<&'a T>, Stop> {
    let is_named = |one: &&T| names(one).iter().any(|name| name.contains(part));
    let found: Vec<_> = all.iter().filter(is_named).collect();
    match found.is_empty() {
        true => Err(Stop::misuse(format!("no function has {part} in its name"))),
        false => Ok(found),
    }
}

#[cfg(test)]
mod tests {
    use super::{asks_the_original, named, Build, MISUSE, NO_ORIGINAL};
    use crate::caught::overflow_panics;

    #[test]
    fn one_kind_of_build_will_do_and_none_without_the_original() {
        let (right, wrong) = match overflow_panics() {
            true => (Build::Checked, Build::Released),
            false => (Build::Released, Build::Checked),
        };
        let status = |build| asks_the_original(build).map_err(|stop| stop.status);
        let expected = match original::PRESENT {
            true => [Ok(()), Err(MISUSE)],
            false => [Err(NO_ORIGINAL); 2],
        };
        assert_eq!([status(right), status(wrong)], expected);
    }

    #[test]
    fn a_part_of_one_name_chooses() {
        let all = [["scan", "records"], ["split", "count"]];
        let chosen = |part| named(&all, part, |names| names.to_vec());
        assert_eq!(chosen(""), Ok(vec![&all[0], &all[1]]));
        assert_eq!(chosen("cord"), Ok(vec![&all[0]]));
        assert_eq!(chosen("siz").map_err(|stop| stop.status), Err(MISUSE));
    }
}
