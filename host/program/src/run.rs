//! `juolgesot run`.

use crate::files;
use crate::progress::while_working;
use crate::say::{many, say};
use crate::{why, Failure, Outcome};
use std::ops::Range;

pub const HELP: &str = "
usage: juolgesot run SCRIPT OLD OUT [--new FILE] [--stage N [--turns FILE]] [--edition full|small]

Runs a script on the state in the file OLD and writes the new state to OUT. All major stages are run in their order,
each with turns that finish it; with --stage only that one (from 0). --turns: the blocks to give turns to, as numbers
in a text. --new: what the new state holds before (default: zeros). States are little-endian u32 words; the script is
what `juolgesot build` wrote, and says its edition; with --edition it is run as one of that edition. Prints the turns left of each major stage; exit status 0 only where none is left.
";

pub fn call(words: &[String]) -> Outcome {
    let words = crate::Words::read(words, &["--new", "--stage", "--turns", "--edition"])?;
    let (script_path, old_path, out) = match &words.plain[..] {
        [script, old, out] => (script, old, out),
        _ => return Err(Failure::Usage("a script, an old state and an output file are needed".to_string())),
    };
    let edition = words.edition()?;
    let built = files::script(script_path)?;
    let edition = edition.unwrap_or(built.edition);
    let old = files::words(old_path)?;
    let mut new = match words.option("--new") {
        Some(path) => files::words(path)?,
        None => vec![0; (built.state_words as usize).max(old.len())],
    };
    let stages = stages(&words, built.major_stages())?;
    let given = match words.option("--turns") {
        Some(_) if words.option("--stage").is_none() => {
            return Err(Failure::Usage("--turns needs --stage".to_string()))
        }
        Some(path) => Some(turns_of(path)?),
        None => None,
    };
    let mut lines = Vec::new();
    let mut left_over = 0;
    for stage in stages {
        let starts = built.stage_starts(stage);
        let turns = match &given {
            Some(turns) => turns.clone(),
            None => juolgesot::finishing_turns(&built.words, starts, edition),
        };
        let run = || juolgesot::run(&built.words, starts, &turns, &old, &mut new, edition);
        let left = while_working("running", run)
            .map_err(|refusal| why::run(edition, &built.words, starts, (old.len(), new.len()), refusal))?;
        let given = many(turns.len() as u64, "turn");
        lines.push(format!("major stage {}: {} given, {} left", stage, given, left));
        left_over += left;
    }
    files::write(out, &plan::bytes(&new))?;
    lines.iter().for_each(|line| say!("{}", line));
    if left_over > 0 {
        let left = many(left_over, "turn");
        return Err(Failure::Failed(format!("{} left: {} is the state so far", left, out)));
    }
    Ok(())
}

/// The major stages to run, of so many.
fn stages(words: &crate::Words, all: usize) -> Result<Range<usize>, Failure> {
    match words.number("--stage", 0..=all as u64 - 1)? {
        Some(stage) => Ok(stage as usize..stage as usize + 1),
        None => Ok(0..all),
    }
}

fn turns_of(path: &str) -> Result<Vec<u32>, Failure> {
    let word = |word: &str| {
        word.parse().map_err(|_| Failure::Failed(format!("{}: '{}' is no block's number", path, word)))
    };
    files::text(path)?.split_whitespace().map(word).collect()
}
