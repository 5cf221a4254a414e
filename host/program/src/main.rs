//! `juolgesot`: the library from a shell, and what is shown with it.

mod aiger;
mod bench;
mod build;
mod chart;
mod compare;
mod files;
mod join;
mod list;
mod progress;
mod repair;
mod replay;
mod run;
mod say;
mod why;

use juolgesot::Edition;
use say::{say, tell};
use std::ops::RangeInclusive;
use std::process::ExitCode;

/// Why a verb did not end well.
pub enum Failure {
    /// It was not asked rightly: what is wrong.
    Usage(String),
    /// It was, and something is not as it should be.
    Failed(String),
    /// All is well but for plans that are refused.
    Refused(String),
}

type Outcome = Result<(), Failure>;

struct Verb {
    name: &'static str,
    summary: &'static str,
    help: &'static str,
    call: fn(&[String]) -> Outcome,
}

const VERBS: [Verb; 9] = [
    Verb {
        name: "compare",
        summary: "both builders on the same plans, a line each",
        help: compare::HELP,
        call: compare::call,
    },
    Verb { name: "build", summary: "a plan record into a script", help: build::HELP, call: build::call },
    Verb { name: "run", summary: "a script on a state", help: run::HELP, call: run::call },
    Verb {
        name: "list",
        summary: "lanes and rounds of requested positions",
        help: list::HELP,
        call: list::call,
    },
    Verb { name: "join", summary: "two read sets into one", help: join::HELP, call: join::call },
    Verb {
        name: "aiger",
        summary: "gate lists from binary AIGER, and back",
        help: aiger::HELP,
        call: aiger::call,
    },
    Verb {
        name: "repair",
        summary: "one node of a plan's stage placed or cleared",
        help: repair::HELP,
        call: repair::call,
    },
    Verb {
        name: "replay",
        summary: "traffic through a Bloom filter's gates",
        help: replay::HELP,
        call: replay::call,
    },
    Verb { name: "bench", summary: "times, as ratios to plain Rust", help: bench::HELP, call: bench::call },
];

fn main() -> ExitCode {
    let mut words = Vec::new();
    for word in std::env::args_os().skip(1) {
        match word.into_string() {
            Ok(word) => words.push(word),
            Err(word) => {
                tell!("juolgesot: the word {:?} is no text", word);
                return ExitCode::from(2);
            }
        }
    }
    let (name, rest) = match words.split_first() {
        Some((name, rest)) => (name.as_str(), rest),
        None => {
            tell!("juolgesot: a verb is needed\n\n{}", overview());
            return ExitCode::from(2);
        }
    };
    if matches!(name, "--help" | "-h" | "help") {
        say!("{}", overview());
        return ExitCode::SUCCESS;
    }
    let verb = match VERBS.iter().find(|verb| verb.name == name) {
        Some(verb) => verb,
        None => {
            tell!("juolgesot: no verb '{}'\n\n{}", name, overview());
            return ExitCode::from(2);
        }
    };
    if rest.iter().any(|word| word == "--help" || word == "-h") {
        say!("{}", verb.help.trim());
        return ExitCode::SUCCESS;
    }
    match (verb.call)(rest) {
        Ok(()) => ExitCode::SUCCESS,
        Err(Failure::Usage(what)) => {
            tell!("juolgesot {}: {}\n\n{}", name, what, verb.help.trim());
            ExitCode::from(2)
        }
        Err(Failure::Failed(what)) => {
            tell!("juolgesot {}: {}", name, what);
            ExitCode::from(1)
        }
        Err(Failure::Refused(what)) => {
            tell!("juolgesot {}: {}", name, what);
            ExitCode::from(3)
        }
    }
}

fn overview() -> String {
    let mut text = "usage: juolgesot VERB ..    (juolgesot VERB --help says more)\n\n".to_string();
    for verb in &VERBS {
        text += &format!("  {:8} {}\n", verb.name, verb.summary);
    }
    text + "\nExit status: 0 all is well; 1 it is not; 2 not asked rightly; 3 compare: a plan is refused."
}

/// The words of a call: those that stand by themselves, and the values of options (`--name VALUE`).
pub struct Words {
    pub plain: Vec<String>,
    options: Vec<(String, String)>,
}

impl Words {
    pub fn read(words: &[String], names: &[&str]) -> Result<Self, Failure> {
        let mut read = Words { plain: Vec::new(), options: Vec::new() };
        let mut words = words.iter();
        while let Some(word) = words.next() {
            if !is_option(word) {
                read.plain.push(word.clone());
                continue;
            }
            if !names.contains(&word.as_str()) {
                return Err(Failure::Usage(format!("no option {}", word)));
            }
            if read.option(word).is_some() {
                return Err(Failure::Usage(format!("{} is given twice", word)));
            }
            let value = words.next().ok_or_else(|| Failure::Usage(format!("{} needs a value", word)))?;
            read.options.push((word.clone(), value.clone()));
        }
        Ok(read)
    }

    /// The words of a verb that takes options alone.
    pub fn read_options(words: &[String], names: &[&str]) -> Result<Self, Failure> {
        let read = Words::read(words, names)?;
        match read.plain.first() {
            None => Ok(read),
            Some(word) => Err(Failure::Usage(format!("what is '{}'?", word))),
        }
    }

    pub fn option(&self, name: &str) -> Option<&str> {
        self.options.iter().find(|(option, _)| option == name).map(|(_, value)| value.as_str())
    }

    /// The edition that `--edition` names.
    pub fn edition(&self) -> Result<Option<Edition>, Failure> {
        let named = |name: &str| {
            let none = || Failure::Usage(format!("--edition is full or small, not {}", name));
            Edition::named(name).ok_or_else(none)
        };
        self.option("--edition").map(named).transpose()
    }

    pub fn number(&self, name: &str, range: RangeInclusive<u64>) -> Result<Option<u64>, Failure> {
        self.option(name).map(|word| number(name, word, range)).transpose()
    }
}

/// A word that begins with `-` and a letter, or `--`.
fn is_option(word: &str) -> bool {
    word.strip_prefix('-')
        .map_or(false, |rest| !rest.is_empty() && !rest.starts_with(|c: char| c.is_ascii_digit()))
}

/// The number that a word is, where it is one of these.
pub fn number(name: &str, word: &str, range: RangeInclusive<u64>) -> Result<u64, Failure> {
    match word.parse() {
        Ok(number) if range.contains(&number) => Ok(number),
        _ => Err(Failure::Usage(match range.into_inner() {
            (low, high) if low == high => format!("{} can only be {}, not {}", name, low, word),
            (low, high) => format!("{} is a number from {} to {}, not {}", name, low, high, word),
        })),
    }
}

impl From<juolgesot::Refusal> for Failure {
    fn from(refusal: juolgesot::Refusal) -> Self {
        Failure::Failed(refusal.to_string())
    }
}
