//! Times both sides by the same driver: the same inputs, through pointers to functions of the same
//! type, in turn, and the best round of each.

use std::fmt::Debug;
use std::hint::black_box;
use std::time::{Duration, Instant};

const ROUNDS: usize = 15;
const ROUND: Duration = Duration::from_millis(10);
/// No round is begun after this, for calls that take longer than a round should.
const ROW: Duration = Duration::from_millis(400);

/// A function's benchmark: prints a row for each of its inputs.
pub struct Benchmark {
    pub name: &'static str,
    /// What ours is timed beside.
    pub beside: &'static str,
    pub rows: fn(),
}

pub const ORIGINAL: &str = "original";

impl Benchmark {
    pub fn run(&self) {
        let Benchmark { name, beside, .. } = self;
        println!("\n### {name}\n");
        println!("| input | ns ours | ns {beside} | ours / {beside} |");
        println!("|---|---:|---:|---:|");
        (self.rows)();
    }
}

pub fn row<I: ?Sized, A: PartialEq + Debug>(
    name: &str,
    input: &I,
    ours: fn(&I) -> A,
    other: fn(&I) -> A,
) {
    assert_eq!(ours(input), other(input), "{name}: the answers differ");
    let calls = calls_in_a_round(|calls| time(input, other, calls));
    let nanoseconds = |side| time(input, side, calls).as_nanos() as f64 / f64::from(calls);
    print_best(name, || nanoseconds(ours), || nanoseconds(other));
}

/// The same of calls that change what they are lent: a round goes over copies of the input, each of which
/// `restore` makes what it was, untimed, before it is used again. A round is as long with that.
pub fn row_restored<I, A: PartialEq + Debug>(
    name: &str,
    copies: &[I],
    restore: fn(&I),
    ours: fn(&I) -> A,
    other: fn(&I) -> A,
) {
    let answer = |side: fn(&I) -> A| {
        restore(&copies[0]);
        side(&copies[0])
    };
    assert_eq!(answer(ours), answer(other), "{name}: the answers differ");
    let over_copies = |side, times| {
        let mut sum = Duration::ZERO;
        for _ in 0..times {
            copies.iter().for_each(restore);
            sum += time_each(copies, side);
        }
        sum
    };
    let times = calls_in_a_round(|times| {
        let start = Instant::now();
        over_copies(other, times);
        start.elapsed()
    });
    let calls = f64::from(times) * copies.len() as f64;
    let nanoseconds = |side| over_copies(side, times).as_nanos() as f64 / calls;
    print_best(name, || nanoseconds(ours), || nanoseconds(other));
}

/// Of several rounds, each side's best, in nanoseconds a call.
fn print_best(name: &str, ours: impl Fn() -> f64, other: impl Fn() -> f64) {
    let (mut best_ours, mut best_other) = (f64::INFINITY, f64::INFINITY);
    let start = Instant::now();
    for round in 0..ROUNDS {
        if round > 0 && start.elapsed() > ROW {
            break;
        }
        best_ours = best_ours.min(ours());
        best_other = best_other.min(other());
    }
    let ratio = best_ours / best_other;
    println!("| {name} | {best_ours:.1} | {best_other:.1} | {ratio:.2} |");
}

fn calls_in_a_round(time: impl Fn(u32) -> Duration) -> u32 {
    let mut calls = 1;
    while time(calls) < ROUND {
        calls *= 2;
    }
    calls
}

#[inline(never)]
fn time<I: ?Sized, A>(input: &I, side: fn(&I) -> A, calls: u32) -> Duration {
    let side = black_box(side);
    let start = Instant::now();
    for _ in 0..calls {
        black_box(side(black_box(input)));
    }
    start.elapsed()
}

#[inline(never)]
fn time_each<I, A>(inputs: &[I], side: fn(&I) -> A) -> Duration {
    let side = black_box(side);
    let start = Instant::now();
    for input in inputs {
        black_box(side(black_box(input)));
    }
    start.elapsed()
}
