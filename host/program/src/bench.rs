//! `juolgesot bench`.

mod aiger;
mod build;
mod editions;
mod inputs;
mod joins;
mod pins;
mod repair;
mod rounds;
mod run;

use crate::files::Writing;
use crate::say::say;
use crate::{chart, Failure, Outcome};
use random::Random;
use std::time::{Duration, Instant};

pub const HELP: &str = "
usage: juolgesot bench [--seconds S] [--svg FILE]

Times of our functions and of plain Rust on the same inputs, turn about in one process. What both made is compared each
time. Prints Markdown tables; ratio is our time / their time: below 1 ours is faster.

read rounds  beside GEM's Rust, small sets to large, sets that take many tries, and sets that are refused
build        beside GEM's Rust, on three netlists (small, mid and large, by the words of their scripts) and on a random
             part alone, twice, and so on to sixteen times; the time for each part too; and on a part that reads 8192 pins,
             near each other, far apart, and chosen to collide in the pin map
join         beside a merge in plain Rust and beside a BTreeMap
run          beside host/model's run, in turns a second, on the scripts of the same plans
repair       beside GEM's own functions, on a full stage; and what a count list costs
editions     the same part in both editions: its reads, its build and its run in the small one, beside the full one
AIGER        beside host/model's plain reader and writer, on a million gates

Where GEM's sources were missing, host/model stands in for GEM's Rust, and there are no netlists.
--seconds: for each row, 0 to 3600 (default 1). --svg: writes the ratios as a chart.
";

const SEED: u64 = 20_240_617;

/// One input.
pub struct Row {
    pub group: &'static str,
    pub name: String,
    pub times: Times,
}

/// The least times of a call: what else the machine does only adds to them.
#[derive(Clone, Copy)]
pub struct Times {
    pub ours: Duration,
    pub theirs: Duration,
}

impl Times {
    /// Our time / their time.
    pub fn ratio(&self) -> f64 {
        self.ours.as_secs_f64() / self.theirs.as_secs_f64()
    }
}

pub fn call(words: &[String]) -> Outcome {
    let words = crate::Words::read_options(words, &["--seconds", "--svg"])?;
    let time = Duration::from_secs(words.number("--seconds", 0..=3600)?.unwrap_or(1));
    let svg = words.option("--svg").map(Writing::begin).transpose()?;
    ::compare::silence_expected_panics();
    say!("Ratio is our time / their time, on the same inputs, turn about in one process.");
    say!("Below 1: ours is faster. Above 1: ours is slower.");
    let mut random = Random::new(SEED);
    let mut table = Table { rows: Vec::new() };
    rounds::rows(&mut table, &mut random, time)?;
    let inputs = inputs::all(&mut random);
    build::rows(&mut table, &inputs, time)?;
    pins::rows(&mut table, time)?;
    joins::rows(&mut table, &mut random, time)?;
    run::rows(&mut table, &inputs, &mut random, time)?;
    editions::rows(&mut table, &mut random, time)?;
    aiger::rows(&mut table, &mut random, time)?;
    repair::rows(&mut table, time)?;
    if let Some(mut svg) = svg {
        svg.write(chart::ratios(&table.rows).as_bytes())?;
        svg.finish()?;
    }
    Ok(())
}

/// The rows so far.
pub struct Table {
    rows: Vec<Row>,
}

impl Table {
    /// Begins a table of these columns.
    fn begin(&self, columns: &[&str]) {
        say!("\n| {} |", columns.join(" | "));
        say!("|{}", "---|".repeat(columns.len()));
    }

    /// Prints a row, its cells behind its name, and keeps it.
    fn add(&mut self, row: Row, cells: &[String]) {
        say!("| {} | {} |", row.name, cells.join(" | "));
        self.rows.push(row);
    }
}

fn in_words(time: Duration) -> String {
    let us = time.as_secs_f64() * 1e6;
    match us {
        us if us < 1e3 => format!("{:.1} us", us),
        us if us < 1e6 => format!("{:.2} ms", us / 1e3),
        us => format!("{:.2} s", us / 1e6),
    }
}

fn in_two_places(ratio: f64) -> String {
    format!("{:.2}", ratio)
}

/// What the work made, and how long it took.
fn timed<T>(work: impl FnOnce() -> T) -> (T, Duration) {
    let start = Instant::now();
    let made = work();
    (made, start.elapsed())
}

/// Calls of each, at least.
const CALLS: u32 = 3;

/// Calls both, turn about so that both see the same machine, until the time is over. Both give what they made, which
/// is compared, and how long they took.
fn time_both<T: PartialEq>(
    time: Duration,
    mut ours: impl FnMut() -> (T, Duration),
    mut theirs: impl FnMut() -> (T, Duration),
) -> Result<Times, Failure> {
    let mut least = Times { ours: Duration::MAX, theirs: Duration::MAX };
    let (start, mut calls) = (Instant::now(), 0);
    while calls < CALLS || start.elapsed() < time {
        let ((our_result, our_time), (their_result, their_time)) = (ours(), theirs());
        if our_result != their_result {
            return Err(Failure::Failed("both were timed, and they differ".to_string()));
        }
        least = Times { ours: least.ours.min(our_time), theirs: least.theirs.min(their_time) };
        calls += 1;
    }
    Ok(least)
}
