//! The same part in both editions, and a part of each with all slots filled: the small one's time beside the full one's.

use super::inputs::{copies, one_part};
use super::{in_two_places, in_words, timed, Row, Table, Times};
use crate::{Failure, Outcome};
use ::compare::plans::tables;
use ::compare::run_damage::state;
use juolgesot::Refusal;
use plan::{Edition, Part, Plan, Script, Stage};
use random::Random;
use std::time::{Duration, Instant};

/// Its words are half as many, or a little more.
const AIM: f64 = 0.6;

pub fn rows(table: &mut Table, random: &mut Random, time: Duration) -> Outcome {
    let part = one_part(random, Edition::Small);
    let (wide, filled) = (widened(random, &part), one_part(random, Edition::Full));
    for (group, title, full) in [
        ("small beside full", "the same part in both editions", &wide),
        ("small beside full, filled", "a part of each edition, all of its slots filled", &filled),
    ] {
        table.begin(&[title, "small", "full", "ratio"]);
        beside(table, random, time, group, &part, full)?;
    }
    Ok(())
}

/// A small plan beside a full one, each four times.
fn beside(
    table: &mut Table,
    random: &mut Random,
    time: Duration,
    group: &'static str,
    small: &Plan,
    full: &Plan,
) -> Outcome {
    let (small, full) = (copies(small, 4), copies(full, 4));
    let (small, full) =
        (Prepared::of(random, small.plan, small.script), Prepared::of(random, full.plan, full.script));
    for (name, work) in [
        ("its read rounds", Prepared::read as fn(&mut Prepared) -> Result<(), Refusal>),
        ("build, 4 times", Prepared::build),
        ("run, 4 times", Prepared::run),
    ] {
        let (mut small, mut full) = (small.clone(), full.clone());
        let times = time_both(time, || work(&mut small), || work(&mut full))?;
        let cells = [in_words(times.ours), in_words(times.theirs), in_two_places(times.ratio())];
        table.add(Row { group, name: name.to_string(), times }, &cells);
    }
    let words = small.script.words.len() as f64 / full.script.words.len() as f64;
    println!("\nScript words: {:.2} of the full edition's. Aim: {} of its time.", words, AIM);
    Ok(())
}

/// The part of a small plan in the full edition: what stands at index i of a stage stands at 2i, so that a is under a and b under b. A
/// location becomes the two that capture the same pins.
fn widened(random: &mut Random, plan: &Plan) -> Plan {
    let stage = |stage: &Stage| {
        let mut wide = Stage::empty();
        for (index, &pin) in stage.slots.iter().enumerate() {
            wide.slots[2 * index] = pin;
        }
        wide.locations =
            stage.locations.iter().flat_map(|&location| [2 * location, 2 * location + 1]).collect();
        wide
    };
    let part = plan.stages[0][0].clone();
    let stages = part.stages.iter().map(stage).collect();
    // Its endpoints stay: they are of no edition. Tables are others, of the same kind.
    let part = Part { stages, tables: tables(random, Edition::Full), ..part };
    Plan { edition: Edition::Full, stages: vec![vec![part]], ..plan.clone() }
}

/// A plan, and all that the calls are lent.
#[derive(Clone)]
struct Prepared {
    script: Script,
    record: Vec<u8>,
    /// The read set of its part.
    set: Vec<u32>,
    room: Vec<u32>,
    set_room: Vec<u32>,
    run_room: Vec<u32>,
    out: Vec<u32>,
    starts: Vec<u64>,
    words: Vec<u32>,
    pieces: Vec<u32>,
    turns: Vec<u32>,
    old: Vec<u32>,
    new: Vec<u32>,
}

impl Prepared {
    fn of(random: &mut Random, plan: Plan, script: Script) -> Self {
        let record = plan.record();
        let held = model::record::words(&record);
        let accepted = model::build::accept(record.len(), &held).ok().expect("a plan in order");
        let set = accepted.sets[0].iter().flat_map(|&(word, mask)| [word, mask]).collect();
        let state_words = script.state_words as usize;
        Prepared {
            room: vec![0; juolgesot::plan_room(&record) as usize],
            set_room: vec![0; juolgesot::SET_ROOM],
            run_room: vec![0; juolgesot::BLOCK_ROOM * script.blocks],
            out: vec![0; juolgesot::MOST_ROUNDS * script.edition.round_words()],
            starts: vec![0; script.starts.len()],
            words: vec![0; script.words.len()],
            pieces: vec![0; script.pieces.len()],
            turns: juolgesot::finishing_turns(&script.words, script.stage_starts(0), script.edition),
            old: state(random, state_words),
            new: state(random, state_words),
            set,
            record,
            script,
        }
    }

    fn read(&mut self) -> Result<(), Refusal> {
        juolgesot::read_rounds_into(&self.set, &mut self.set_room, &mut self.out, self.script.edition)
            .map(|_| ())
    }

    fn build(&mut self) -> Result<(), Refusal> {
        let Prepared { record, room, starts, words, pieces, .. } = self;
        juolgesot::build_into(record, room, starts, words, pieces).map(|_| ())
    }

    fn run(&mut self) -> Result<(), Refusal> {
        let Prepared { script, turns, old, new, run_room, .. } = self;
        juolgesot::run_into(&script.words, script.stage_starts(0), turns, old, new, run_room, script.edition)
            .map(|_| ())
    }
}

/// The least time of each, turn about. What they make is compared elsewhere.
fn time_both(
    time: Duration,
    mut small: impl FnMut() -> Result<(), Refusal>,
    mut full: impl FnMut() -> Result<(), Refusal>,
) -> Result<Times, Failure> {
    let mut least = Times { ours: Duration::MAX, theirs: Duration::MAX };
    let (start, mut calls) = (Instant::now(), 0);
    while calls < super::CALLS || start.elapsed() < time {
        let (done, ours) = timed(&mut small);
        done?;
        let (done, theirs) = timed(&mut full);
        done?;
        least = Times { ours: least.ours.min(ours), theirs: least.theirs.min(theirs) };
        calls += 1;
    }
    Ok(least)
}
