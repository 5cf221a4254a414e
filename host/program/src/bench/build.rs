//! Times of `build`, beside GEM's flattener.

use super::inputs::Input;
use super::{in_two_places, in_words, time_both, timed, Row, Table, Times};
use crate::{Failure, Outcome};
use plan::Script;
use std::time::Duration;

pub fn rows(table: &mut Table, inputs: &[Input], time: Duration) -> Outcome {
    let theirs = reference::NAME;
    let their_part = format!("{}, a part", theirs);
    table.begin(&["build", "parts", "words", "ours", theirs, "ratio", "ours, a part", &their_part]);
    for input in inputs {
        let times = times(input, time)?;
        let parts = input.plan.parts().count() as u32;
        let cells = [
            parts.to_string(),
            input.script.words.len().to_string(),
            in_words(times.ours),
            in_words(times.theirs),
            in_two_places(times.ratio()),
            in_words(times.ours / parts),
            in_words(times.theirs / parts),
        ];
        table.add(Row { group: "build", name: input.name.clone(), times }, &cells);
    }
    Ok(())
}

/// Their time does not count what it takes to make their lists of the plan.
fn times(input: &Input, time: Duration) -> Result<Times, Failure> {
    let Input { plan, script, .. } = input;
    let record = plan.record();
    let mut room = vec![0; juolgesot::plan_room(&record) as usize];
    let (mut starts, mut words) = (vec![0; script.starts.len()], vec![0; script.words.len()]);
    let mut pieces = vec![0; plan.parts().count()];
    let ours = || {
        starts.fill(0);
        words.fill(0);
        let (sizes, took) =
            timed(|| juolgesot::build_into(&record, &mut room, &mut starts, &mut words, &mut pieces));
        let made = sizes.ok().map(|sizes| Script {
            edition: plan.edition,
            blocks: plan.blocks as usize,
            starts: starts.clone(),
            words: words.clone(),
            state_words: sizes.state_words,
            sram_words: sizes.sram_words,
            pieces: pieces.clone(),
        });
        (made, took)
    };
    let theirs = || {
        let (made, took) = reference::flatten_timed(plan);
        (Some(made), took)
    };
    let times = time_both(time, ours, theirs)?;
    if (starts, words) != (script.starts.clone(), script.words.clone()) {
        return Err(Failure::Failed("what was timed is not the script".to_string()));
    }
    Ok(times)
}
