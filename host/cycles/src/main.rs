//! Cycles of designs through the library's build and run, judged by the netlist simulator.
//!
//! compare_cycles [all] [SEED]    stops at the first difference
//!
//! A design goes through GEM's staging, partitioning and flattening into a plan; the library builds its script and runs
//! it. In every cycle each normal word of the state is looked at, bit by bit: a register, an output or a staged pin has
//! the simulator's value, and a bit that is none of them is that of the old state. All other words are as they were lent.
//! Designs with enables, and some of the forty; or all of these.

mod bench;
mod counter;
mod seen;

use bench::Bench;
use netlists::designs::{self, Design};
use netlists::enabled;
use random::Random;
use seen::Seen;
use std::time::Instant;

const SEED: u64 = 20_241_113;
const CYCLES: usize = 200;
/// Registers and odds are drawn anew after so many cycles.
const AT_A_STRETCH: usize = 10;

/// Those of the forty that are run if not all are: with registers, and not the largest.
const SOME_OF_FORTY: [&str; 18] = [
    "register of a constant",
    "CRC-16, deep",
    "CRC-16, flat",
    "counter of 8",
    "counters of 16",
    "counters of 24, staged",
    "counters of 40, staged",
    "one RAM",
    "narrow RAMs",
    "RAMs, staged",
    "a dozen RAMs",
    "Bloom filter of 16",
    "Bloom filter of 64",
    "random, 20 gates",
    "random, 60 gates",
    "random, 150 gates",
    "random, 300 gates",
    "random, 600 gates",
];

fn main() {
    let mut words: Vec<String> = std::env::args().skip(1).collect();
    let all = words.first().map_or(false, |word| word == "all");
    words.drain(..all as usize);
    let seed = words.first().map_or(SEED, |word| word.parse().expect("a seed is a number"));
    println!("reference: the netlist simulator; seed {}; {} cycles a design", seed, CYCLES);
    let start = Instant::now();
    let mut random = Random::new(seed);
    counter::counts(&mut random);

    let mut total = Seen::default();
    for design in enabled::all() {
        let seen = cycles(&design, &mut random);
        seen.assert_most(&design.name);
        total.add(&seen);
    }
    for design in if all { designs::forty() } else { designs::named(&SOME_OF_FORTY) } {
        let seen = cycles(&design, &mut random);
        seen.assert_some(&design.name);
        total.add(&seen);
    }
    let refused = designs::staged_duplicates().len();
    println!(
        "  left out: {} designs whose staged pins lie in duplicate words, refused by 12 until 6/13",
        refused
    );
    total.print();
    total.assert_all();
    println!("compare_cycles: no difference, {:.1} s", start.elapsed().as_secs_f64());
}

/// Runs a design's cycles, or stops the program at a difference.
fn cycles(design: &Design, random: &mut Random) -> Seen {
    let made = from_gem::make(design);
    let mut bench = Bench::new(&made).unwrap_or_else(|what| stop(design, &what));
    for cycle in 0..CYCLES {
        if cycle % AT_A_STRETCH == 0 {
            bench.begin(random);
        }
        if let Err(what) = bench.cycle(random) {
            stop(design, &format!("cycle {}, {}", cycle, what));
        }
    }
    println!("  {:32} {}", design.name, bench.seen.line());
    bench.seen
}

fn stop(design: &Design, what: &str) -> ! {
    println!("DIFFERENCE: {}: {}", design.name, what);
    std::process::exit(1);
}
