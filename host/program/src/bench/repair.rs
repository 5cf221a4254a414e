//! Times of a node placed and cleared, beside GEM's own functions.

use super::{in_two_places, in_words, time_both, timed, Row, Table, Times};
use crate::{Failure, Outcome};
use ::compare::repairs::{full_tree, Case};
use juolgesot::{place_bit_into, purge_bit_into, repair_room, Netlist, Pin, Place, Refusal, RepairSlices};
use model::edition::Edition;
use reference::{Placer, PlacerStage};
use std::time::Duration;

/// GEM's.
const FULL: juolgesot::Edition = juolgesot::Edition::Full;

/// What a repair leaves: slots, and counts by node.
type Left = (Vec<u32>, Vec<(u32, u64)>);

pub fn rows(table: &mut Table, time: Duration) -> Outcome {
    let empty = full_tree(Edition::FULL);
    match Placer::of(&empty.gates, &empty.levels) {
        Some(placer) => beside_gem(table, &placer, &empty, time)?,
        None => {
            println!("\nGEM's sources were missing when this was built: nothing to time a repair beside.")
        }
    }
    println!("\n| counts listed | place and clear a gate of level 1 | for each entry |\n|---|---|---|");
    let mut none = Duration::ZERO;
    for entries in [0, 1_000, 10_000, 100_000] {
        let took = small_node(&empty, entries, time)?;
        let each = match entries {
            0 => "".to_string(),
            _ => format!("{:.1} ns", took.saturating_sub(none).as_secs_f64() * 1e9 / f64::from(2 * entries)),
        };
        println!("| {} | {} | {} |", entries, in_words(took), each);
        if entries == 0 {
            none = took;
        }
    }
    Ok(())
}

fn beside_gem(table: &mut Table, placer: &Placer, empty: &Case, time: Duration) -> Outcome {
    table.begin(&["repair", "ours", reference::NAME, "ratio"]);
    let mut lent = Memory::of(empty);
    let refused = |refusal: Refusal| Failure::Failed(refusal.to_string());
    lent.place(empty).map_err(refused)?;
    let full = Case { slots: lent.slots.clone(), counts: lent.counts(), ..empty.clone() };
    let Place { level, slot } = placing(empty);
    let placed = times(
        time,
        &mut lent,
        empty,
        |lent| lent.place(empty),
        |stage| placer.place(stage, level, slot, empty.node),
    )?;
    let cleared =
        times(time, &mut lent, &full, |lent| lent.clear(&full), |stage| placer.purge(stage, level, slot))?;
    for (name, times) in [("place", placed), ("clear", cleared)] {
        let cells = [in_words(times.ours), in_words(times.theirs), in_two_places(times.ratio())];
        let name = format!("{} the full tree of level 13", name);
        table.add(Row { group: "repair", name, times }, &cells);
    }
    Ok(())
}

fn placing(case: &Case) -> Place {
    Place { level: case.place.level, slot: case.place.slot }
}

/// Both work on a copy of the case's stage, made before.
fn times(
    time: Duration,
    lent: &mut Memory,
    case: &Case,
    mut ours: impl FnMut(&mut Memory) -> Result<(), Refusal>,
    mut theirs: impl FnMut(&mut PlacerStage) -> bool,
) -> Result<Times, Failure> {
    let ours = || {
        lent.slots.copy_from_slice(&case.slots);
        let (done, took) = timed(|| ours(lent));
        (done.ok().map(|()| lent.left()), took)
    };
    let theirs = || {
        let mut stage = PlacerStage::of(&case.slots, &case.counts);
        let (went_on, took) = timed(|| theirs(&mut stage));
        let mut counts = stage.counts();
        counts.sort_unstable();
        (went_on.then(|| (stage.slots(), counts)), took)
    };
    time_both(time, ours, theirs)
}

/// What is lent to our functions, again and again.
struct Memory {
    slots: Vec<u32>,
    after: Vec<u32>,
    room: Vec<u32>,
    entries: usize,
}

impl Memory {
    fn of(case: &Case) -> Self {
        let count_words = case.counts.len() + case.slots.len();
        Memory {
            slots: case.slots.clone(),
            after: vec![0; count_words],
            room: vec![0; repair_room(count_words)],
            entries: 0,
        }
    }

    fn slices(&mut self) -> RepairSlices<'_> {
        RepairSlices { slots: &mut self.slots, after: &mut self.after, room: &mut self.room }
    }

    fn place(&mut self, case: &Case) -> Result<(), Refusal> {
        let netlist = Netlist { gates: &case.gates, levels: &case.levels };
        self.entries =
            place_bit_into(netlist, &case.counts, self.slices(), placing(case), Pin(case.node), FULL)?;
        Ok(())
    }

    fn clear(&mut self, case: &Case) -> Result<(), Refusal> {
        self.entries = purge_bit_into(&case.counts, self.slices(), placing(case), FULL)?;
        Ok(())
    }

    fn counts(&self) -> Vec<u32> {
        self.after[..2 * self.entries].to_vec()
    }

    fn left(&self) -> Left {
        let mut counts: Vec<(u32, u64)> =
            self.counts().chunks(2).map(|entry| (entry[0], entry[1].into())).collect();
        counts.sort_unstable();
        (self.slots.clone(), counts)
    }
}

/// The least time to place a gate of level 1 and to clear it again, with so many entries of others in the count list.
fn small_node(tree: &Case, entries: u32, time: Duration) -> Result<Duration, Failure> {
    let gate = tree.gates[0];
    let counts: Vec<u32> = (0..entries).flat_map(|entry| [1_000_000 + 3 * entry, 1]).collect();
    let place = ::model::repair::Place { level: 1, slot: 7 };
    // The gate alone: the list of gates is read too.
    let case = Case { gates: tree.gates[..3].to_vec(), counts, place, node: gate, ..tree.clone() };
    let mut lent = Memory::of(&case);
    let start = std::time::Instant::now();
    let mut least = Duration::MAX;
    while start.elapsed() < time || least == Duration::MAX {
        let (done, took) = timed(|| lent.place(&case));
        done.map_err(|refusal| Failure::Failed(refusal.to_string()))?;
        let placed = Case { counts: lent.counts(), ..case.clone() };
        let (done, took_again) = timed(|| lent.clear(&placed));
        done.map_err(|refusal| Failure::Failed(refusal.to_string()))?;
        if lent.counts() != case.counts || lent.slots != case.slots {
            return Err(Failure::Failed("placed and cleared, the stage is another".to_string()));
        }
        least = least.min(took + took_again);
    }
    Ok(least)
}
