//! One function's comparison: what program `compare` lists, and what it hands to each.

use std::time::{Duration, Instant};

use crate::random::Random;
use crate::sample::damage::damaged;
use crate::tally::Tally;
use crate::wanted::Wanted;

/// A function's comparison, with what it must have seen at least.
pub struct Comparison<O> {
    pub wanted: Wanted,
    /// Of other functions of ours that go through the same cases.
    pub also: &'static [Wanted],
    /// Cases of each.
    pub minimum: u64,
    /// The function that is asked beside ours.
    pub original: O,
    /// The cases that are always run.
    pub fixed: fn(&mut Run<O>),
    /// A few random ones, if the fixed ones aren't all there are.
    pub random: Option<fn(&mut Run<O>)>,
}

/// A comparison, whatever its original is.
pub trait Compared {
    fn names(&self) -> Vec<&'static str>;

    /// The fixed cases, then random ones while time is left, or until enough were seen.
    fn tallies(&self, seed: u64, time: Duration) -> Vec<Tally>;
}

impl<O: Copy> Compared for Comparison<O> {
    fn names(&self) -> Vec<&'static str> {
        let also = self.also.iter().map(|also| also.name);
        [self.wanted.name].into_iter().chain(also).collect()
    }

    fn tallies(&self, seed: u64, time: Duration) -> Vec<Tally> {
        let mut run = self.begun(seed, time);
        (self.fixed)(&mut run);
        if let Some(random) = self.random {
            while run.goes_on() {
                random(&mut run);
            }
        }
        run.ended()
    }
}

impl<O: Copy> Comparison<O> {
    /// With nothing compared.
    pub fn begun(&self, seed: u64, time: Duration) -> Run<O> {
        let tally = |wanted: &Wanted| Tally::new(wanted.name, self.minimum, wanted.answers);
        Run {
            random: Random::new(seed),
            tally: tally(&self.wanted),
            also: self.also.iter().map(tally).collect(),
            original: self.original,
            until: Instant::now() + time,
        }
    }
}

/// A comparison under way.
pub struct Run<O> {
    pub random: Random,
    pub tally: Tally,
    /// In the order of the comparison's `also`.
    pub also: Vec<Tally>,
    pub original: O,
    until: Instant,
}

impl<O> Run<O> {
    fn goes_on(&self) -> bool {
        let enough = self.tally.enough() && self.also.iter().all(Tally::enough);
        !enough || Instant::now() < self.until
    }

    /// The function's tally, and those of the others.
    pub fn ended(mut self) -> Vec<Tally> {
        self.also.insert(0, self.tally);
        self.also
    }

    /// Checks each of what `make` makes of a copy of the random numbers, so that the rest of the run
    /// doesn't depend on how many it takes.
    pub fn each<I>(&mut self, make: fn(&mut Random) -> Vec<I>, check: impl Fn(&mut Self, &I)) {
        for input in make(&mut self.random.clone()) {
            check(self, &input);
        }
    }

    /// Checks `built` cut short anywhere, so many `times`.
    pub fn cut(&mut self, times: usize, built: &[u8], check: impl Fn(&mut Self, &[u8])) {
        for _ in 0..times {
            let end = self.random.below(built.len() + 1);
            check(self, &built[..end]);
        }
    }

    /// Checks `built` damaged, so many `times`.
    pub fn damaged(&mut self, times: usize, built: &[u8], check: impl Fn(&mut Self, &[u8])) {
        for _ in 0..times {
            let damaged = damaged(&mut self.random, built);
            check(self, &damaged);
        }
    }
}

/// Whether all that was compared was the same, on these cases and with this in the original's place,
/// of a function and so many others that go through the same cases.
#[cfg(test)]
pub fn holds_on<const ALSO: usize, O: Copy>(original: O, cases: fn(&mut Run<O>)) -> bool {
    const ANY: Wanted = Wanted {
        name: "f",
        answers: &[],
    };
    let comparison = Comparison {
        wanted: ANY,
        also: const { &[ANY; ALSO] },
        minimum: 1,
        original,
        fixed: cases,
        random: None,
    };
    let tallies = comparison.tallies(0, Duration::ZERO);
    tallies.iter().all(Tally::holds)
}

#[cfg(test)]
mod tests {
    use super::{Compared, Comparison};
    use crate::wanted::Wanted;
    use std::time::Duration;

    #[test]
    fn another_function_has_its_own_line_and_minimum() {
        let comparison = Comparison {
            wanted: Wanted {
                name: "f",
                answers: &[("even", 1), ("odd", 1)],
            },
            also: &[Wanted {
                name: "g",
                answers: &[("even", 1)],
            }],
            minimum: 4,
            original: (),
            fixed: |_| {},
            random: Some(|run| {
                run.tally.compare("even", &0, &0, String::new);
                run.tally.compare("odd", &1, &1, String::new);
                run.also[0].compare("even", &2, &3, String::new);
            }),
        };
        assert_eq!(comparison.names(), ["f", "g"]);
        let tallies = comparison.tallies(0, Duration::ZERO);
        let [f, g] = &tallies[..] else {
            panic!("{} tallies", tallies.len());
        };
        assert_eq!((f.compared(), f.holds()), (8, true));
        assert_eq!((g.compared(), g.holds()), (4, false));
        assert!(g.to_string().starts_with("g: 4 compared"));
    }
}
