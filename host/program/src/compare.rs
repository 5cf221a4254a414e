//! `juolgesot compare`.

use crate::files;
use crate::say::{many, say};
use crate::{Failure, Outcome};
use ::compare::builders::{self, Line};
use plan::script_file;
use std::collections::BTreeMap;

pub const HELP: &str = "
usage: juolgesot compare [PLAN [SCRIPT] ..]
       juolgesot compare --made FILE

Both builders on the same plans, a line each: our script and GEM's, word by word. Without words: forty netlists (and
some whose staged pins lie in duplicate words, which document 01 refuses by 12), taken through GEM's staging and
partitioning first. PLAN is a plan record. SCRIPT, a file that begins with JUOLGES2, is what GEM made of the plan before it:
host/gem/juolgesot_plan.rs writes both inside GEM. Of a plan without one GEM makes its script here, given the plan's tables
and positions. --made: what make_plans wrote.
Every lent word is looked at too. All differences of a plan are counted, and the first is told by major stage, block,
part, section and lane; a refused plan is told with whether GEM builds it. A line follows for each part whose reads were not
placed as one piece, with the piece size that won, which is GEM's too. Exit status: 0 where all scripts are equal, 1
where one differs, 3 where none differs but a plan is refused.
";

pub fn call(words: &[String]) -> Outcome {
    let words = crate::Words::read(words, &["--made"])?;
    ::compare::silence_expected_panics();
    match (words.option("--made"), &words.plain[..]) {
        (Some(path), []) => {
            let cases = plan::stored::read(&files::read(path)?)
                .map_err(|what| Failure::Failed(format!("{} is no file of plans: {}", path, what)))?;
            let mut table = Table::new();
            for case in cases {
                let line = builders::design(&mut table.checker, &case);
                table.add(&case.name, line);
            }
            table.finish()
        }
        (None, []) => designs(),
        (None, paths) => {
            let pairs = pairs(paths)?;
            let mut table = Table::new();
            for (path, record, script) in &pairs {
                let line = match script {
                    Some(script) => builders::pair(&mut table.checker, record, script),
                    None => builders::record(&mut table.checker, record),
                };
                table.add(path, line);
            }
            table.finish()
        }
        _ => Err(Failure::Usage("plans, or --made, not both".to_string())),
    }
}

/// A plan's path and record, and the script that is given with it.
type Pair<'a> = (&'a str, Vec<u8>, Option<plan::Script>);

/// The plans, each with the script that follows it.
fn pairs(paths: &[String]) -> Result<Vec<Pair<'_>>, Failure> {
    let mut pairs: Vec<Pair<'_>> = Vec::new();
    for path in paths {
        let bytes = files::read(path)?;
        if !script_file::begins(&bytes) {
            pairs.push((path, bytes, None));
            continue;
        }
        let script = files::script(path)?;
        match pairs.last_mut() {
            Some((_, _, given @ None)) => *given = Some(script),
            _ => return Err(Failure::Usage(format!("{} is a script, and no plan is before it", path))),
        }
    }
    Ok(pairs)
}

#[cfg(feature = "gem")]
fn designs() -> Outcome {
    use netlists::designs;
    let mut table = Table::new();
    let mut progress = crate::progress::Progress::of("netlists through GEM");
    let all: Vec<designs::Design> =
        designs::forty().into_iter().chain(designs::staged_duplicates()).collect();
    for (index, design) in all.iter().enumerate() {
        let made = from_gem::make(design);
        progress.tell(index as u64, all.len() as u64);
        let line = builders::pair(&mut table.checker, &made.plan.record(), &made.script);
        table.add(&design.name, line);
    }
    table.finish()
}

#[cfg(not(feature = "gem"))]
fn designs() -> Outcome {
    Err(Failure::Failed(
        "GEM's sources were missing when this was built, so there are no netlists: give plan records"
            .to_string(),
    ))
}

/// The lines so far.
struct Table {
    checker: ::compare::plan_checker::PlanChecker,
    progress: crate::progress::Progress,
    equal: u64,
    /// How many were refused, by the refusal's number.
    refused: BTreeMap<u32, u64>,
    different: u64,
    /// Parts whose search fell back to a smaller piece size.
    fell_back: u64,
}

impl Table {
    fn new() -> Self {
        let progress = crate::progress::Progress::of("plans");
        say!("builders: juolgesot and {}", reference::NAME);
        Table {
            checker: ::compare::plan_checker::PlanChecker::new(),
            progress,
            equal: 0,
            refused: BTreeMap::new(),
            different: 0,
            fell_back: 0,
        }
    }

    fn add(&mut self, name: &str, line: Line) {
        use builders::Outcome::*;
        let verdict = match line.outcome {
            Equal => {
                self.equal += 1;
                "equal".to_string()
            }
            Refused(refused, gem) => {
                *self.refused.entry(refused.number).or_insert(0) += 1;
                format!("refused {}; {}", refused.number, gem.sentence())
            }
            Differs(what) => {
                self.different += 1;
                format!("DIFFERS: {}", what)
            }
        };
        say!("  {:32} {}: {}", name, line.shape, verdict);
        for told in line.fell_back {
            self.fell_back += 1;
            say!("    {}", told);
        }
    }

    fn finish(self) -> Outcome {
        let refused: u64 = self.refused.values().sum();
        let by: Vec<String> =
            self.refused.iter().map(|(number, times)| format!("{} by {}", times, number)).collect();
        let by = if by.is_empty() { String::new() } else { format!(" ({})", by.join(", ")) };
        say!(
            "{}: {} equal in every word, start and size; {} refused{}; {} different; {:.1} s",
            many(self.equal + refused + self.different, "plan"),
            many(self.equal, "script"),
            refused,
            by,
            self.different,
            self.progress.seconds()
        );
        say!("fell back to a smaller piece size: {}", many(self.fell_back, "part"));
        match (self.different, refused) {
            (0, 0) => Ok(()),
            (0, refused) => Err(Failure::Refused(format!("refused: {}", many(refused, "plan")))),
            (different, _) => Err(Failure::Failed(format!("different: {}", many(different, "plan")))),
        }
    }
}
