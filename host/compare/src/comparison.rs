//! A comparison program from its first line to its last.

use crate::tally::Tally;
use crate::Dose;
use random::Random;
use std::time::Instant;

pub struct Comparison {
    name: &'static str,
    start: Instant,
    pub random: Random,
    /// What else the program was given.
    pub words: Vec<String>,
}

impl Comparison {
    /// Reads the program's words: a seed may be the last.
    pub fn begin(name: &'static str, reference: &str, seed: u64) -> Self {
        crate::silence_expected_panics();
        let mut words: Vec<String> = std::env::args().skip(1).collect();
        let given_seed = words.last().and_then(|word| word.parse().ok());
        if given_seed.is_some() {
            words.pop();
        }
        let seed = given_seed.unwrap_or(seed);
        println!("reference: {}; seed {}", reference, seed);
        Comparison { name, start: Instant::now(), random: Random::new(seed), words }
    }

    /// The same for each edition, the tallies of one after those of the other.
    pub fn finish_both(&self, what: &str, tallies: &[(Dose, Vec<&Tally>)]) {
        for (dose, tallies) in tallies {
            println!("the {} edition: {} {}", dose.name(), tallies[0].total(), what);
            for tally in tallies {
                tally.print();
            }
        }
        let total: u64 = tallies.iter().map(|(_, tallies)| tallies[0].total()).sum();
        self.no_difference(total, what);
    }

    /// Prints the counts and, the first of them being by kind, that there was no difference.
    pub fn finish(&self, what: &str, tallies: &[&Tally]) {
        for tally in tallies {
            tally.print();
        }
        self.no_difference(tallies[0].total(), what);
    }

    fn no_difference(&self, total: u64, what: &str) {
        let seconds = self.start.elapsed().as_secs_f64();
        println!("{}: {} {}, no difference, {:.1} s", self.name, total, what, seconds);
    }
}
