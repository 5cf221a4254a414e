//! `juolgesot repair`.

use crate::files;
use crate::say::{many, say};
use crate::{number, why, Failure, Outcome};
use juolgesot::{levels, place_bit, plan_sizes, purge_bit, stage_counts, Edition, Netlist, Pin, Place};
use model::record::{self, Plan, EMPTY};
use std::ops::Range;

pub const HELP: &str = "
usage: juolgesot repair place PLAN PART STAGE LEVEL SLOT NODE OUT [--edition full|small]
       juolgesot repair clear PLAN PART STAGE LEVEL SLOT OUT [--edition full|small]

Places the pin NODE at a slot of a level (0 to 13; in the small edition to 12) of one stage, or clears that slot and what it is made of, and writes the
repaired plan record to OUT. PART is counted on through the major stages, all from 0.
How often each node stands is counted from the stage's slots. Levels are worked from the gates: a pin that the stage can
take from below (the first stage of a part: from the state; a later one: from the stage before) is at level 0, any other
gate is one above its higher fan-in. A repair that is refused writes nothing. Says whether the plan is in order, or by what
it is refused first, before and after. With --edition a plan of the other edition is not repaired.
";

pub fn call(words: &[String]) -> Outcome {
    let words = crate::Words::read(words, &["--edition"])?;
    let asked = words.edition()?;
    match &words.plain.iter().map(String::as_str).collect::<Vec<_>>()[..] {
        ["place", plan, part, stage, level, slot, node, out] => {
            let node = Pin(number("NODE", node, 0..=MOST_PIN)? as u32);
            repair(plan, asked, [part, stage, level, slot], out, |stage, place| {
                let levels = levels(stage.gates, &stage.inputs, node);
                let netlist = Netlist { gates: stage.gates, levels: &levels };
                place_bit(netlist, &stage.counts, stage.slots, place, node, stage.edition)
            })
        }
        ["clear", plan, part, stage, level, slot, out] => {
            repair(plan, asked, [part, stage, level, slot], out, |stage, place| {
                purge_bit(&stage.counts, stage.slots, place, stage.edition)
            })
        }
        _ => Err(Failure::Usage(
            "place or clear, a plan, a place of it and an output file are needed".to_string(),
        )),
    }
}

const MOST_PIN: u64 = 1 << 30;

/// A stage that is repaired.
struct Stage<'a> {
    edition: Edition,
    gates: &'a [u32],
    /// Pins that it can take from below.
    inputs: Vec<Pin>,
    counts: Vec<u32>,
    slots: &'a mut [u32],
}

fn repair(
    plan_path: &str,
    asked: Option<Edition>,
    place: [&str; 4],
    out: &str,
    work: impl FnOnce(Stage<'_>, Place) -> Result<Vec<u32>, juolgesot::Refusal>,
) -> Outcome {
    let bytes = files::read(plan_path)?;
    files::is_of(plan_path, &bytes, asked)?;
    let words = record::words(&bytes);
    let plan = match record::plan(bytes.len(), &words) {
        Ok(plan) => plan,
        Err(_) => return Err(Failure::Failed(order_of(&bytes))),
    };
    let edition = ::compare::host(plan.edition);
    let levels = u64::from(edition.levels());
    let level = number("LEVEL", place[2], 0..=levels)?;
    let last = (1 << (levels - level)) - 1;
    let slot = number(&format!("SLOT of level {}", level), place[3], 0..=last)?;
    let part = index("PART", place[0], plan.parts.len(), "the plan has no parts")?;
    let stage = index("STAGE", place[1], plan.parts[part].stages.len(), "the part has no stages")?;
    let place = Place { level: level as u32, slot: slot as u32 };
    let (range, inputs) = find_stage(&plan, &words, part, stage);
    let mut slots = words[range.clone()].to_vec();
    let counts = stage_counts(&slots, edition);
    let entries = counts.len() / 2;
    let after = work(Stage { edition, gates: plan.gates, inputs, counts, slots: &mut slots }, place)?;
    let changed = slots.iter().zip(&words[range.clone()]).filter(|(new, old)| new != old).count();
    let mut repaired = words.clone();
    repaired[range].copy_from_slice(&slots);
    let repaired = plan::bytes(&repaired);
    files::write(out, &repaired)?;
    let changed = many(changed as u64, "slot");
    say!("{}: {} changed; nodes counted: {} before, {} now", out, changed, entries, after.len() / 2);
    say!("before: {}", order_of(&bytes));
    say!("after: {}", order_of(&repaired));
    Ok(())
}

/// A place in a list of so many.
fn index(name: &str, word: &str, count: usize, none: &str) -> Result<usize, Failure> {
    match count.checked_sub(1) {
        Some(last) => number(name, word, 0..=last as u64).map(|index| index as usize),
        None => Err(Failure::Failed(none.to_string())),
    }
}

/// Where the slots of a stage stand in the record, and the pins that it can take from below.
fn find_stage(plan: &Plan<'_>, words: &[u32], part: usize, stage: usize) -> (Range<usize>, Vec<Pin>) {
    let stages = &plan.parts[part].stages;
    let slots = stages[stage].slots();
    let from = (slots.as_ptr() as usize - words.as_ptr() as usize) / std::mem::size_of::<u32>();
    let inputs: Vec<u32> = match stage {
        0 => plan.layout.iter().chain(plan.positions.iter().step_by(record::POSITION)).copied().collect(),
        stage => stages[stage - 1].positions().map(|(_, pin)| pin).collect(),
    };
    let inputs = inputs.into_iter().filter(|&pin| pin != EMPTY).map(Pin).collect();
    (from..from + slots.len(), inputs)
}

/// By what a plan is refused, or that it is not.
fn order_of(record: &[u8]) -> String {
    match plan_sizes(record) {
        Ok(sizes) => {
            format!("the plan is in order, its script has {}", many(sizes.words as u64, "word"))
        }
        Err(refusal) => format!("the plan is {}", why::plan_sentence(record, refusal)),
    }
}
