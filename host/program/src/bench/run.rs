//! Turns a second of the run, beside host/model's.

use super::inputs::Input;
use super::{in_two_places, time_both, timed, Row, Table, Times};
use crate::{Failure, Outcome};
use ::compare::run_damage::state;
use plan::Script;
use random::Random;
use std::time::Duration;

pub fn rows(table: &mut Table, inputs: &[Input], random: &mut Random, time: Duration) -> Outcome {
    table.begin(&["run", "turns", "ours, turns a second", "host/model, turns a second", "ratio of times"]);
    for input in inputs {
        let stages = major_stages(input);
        let state_words = input.script.state_words as usize;
        let (old, new) = (state(random, state_words), state(random, state_words));
        let times = times(&input.script, &stages, &old, &new, time)?;
        let turns: usize = stages.iter().map(|stage| stage.turns.len()).sum();
        let a_second = |time: Duration| format!("{:.0}", turns as f64 / time.as_secs_f64());
        let cells =
            [turns.to_string(), a_second(times.ours), a_second(times.theirs), in_two_places(times.ratio())];
        table.add(Row { group: "run", name: input.name.clone(), times }, &cells);
    }
    Ok(())
}

/// What a major stage is run with.
struct MajorStage<'a> {
    starts: &'a [u64],
    turns: Vec<u32>,
}

fn major_stages(input: &Input) -> Vec<MajorStage<'_>> {
    let script = &input.script;
    script
        .stages()
        .map(|starts| MajorStage {
            starts,
            turns: juolgesot::finishing_turns(&script.words, starts, script.edition),
        })
        .collect()
}

/// Both run all major stages, one after another, to their ends.
fn times(
    script: &Script,
    stages: &[MajorStage<'_>],
    old: &[u32],
    new: &[u32],
    time: Duration,
) -> Result<Times, Failure> {
    let room_length = juolgesot::BLOCK_ROOM * (stages[0].starts.len() - 1);
    let (words, edition, mut room) = (&script.words, script.edition, vec![0; room_length]);
    let ours = || {
        let mut state = new.to_vec();
        let (left, took) = timed(|| -> Result<u64, juolgesot::Refusal> {
            let mut left = 0;
            for MajorStage { starts, turns } in stages {
                left += juolgesot::run_into(words, starts, turns, old, &mut state, &mut room, edition)?;
            }
            Ok(left)
        });
        ((state, left.ok()), took)
    };
    let theirs = || {
        let mut state = new.to_vec();
        let (left, took) = timed(|| -> Result<u64, model::Refused> {
            let mut left = 0;
            let edition = edition.number();
            for MajorStage { starts, turns } in stages {
                let ran = model::run::answer(words, starts, turns, old, &state, room_length, edition)?;
                state = ran.new;
                left += ran.turns_left;
            }
            Ok(left)
        });
        ((state, left.ok()), took)
    };
    time_both(time, ours, theirs)
}
