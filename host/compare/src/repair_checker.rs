//! One comparison of a node that is placed, or of a place that is cleared: held to the model in its answer and every lent
//! word; and the model to GEM's own functions.

use crate::lent::{Lent, LentRead, Room};
use crate::repairs::Case;
use crate::tally::Tally;
use juolgesot::ffi::{self, Answer};
use model::repair::{self, room_words, Reached, Repaired};
use model::Refused;
use reference::{Placer, PlacerStage};

/// What is done at the case's place.
#[derive(Debug, Clone, Copy, PartialEq, Eq)]
pub enum Work {
    Place,
    Clear,
}

impl Work {
    /// What the model says of a case, whatever is lent.
    pub fn expected(self, case: &Case) -> Result<Repaired, Refused> {
        self.answer(case, usize::MAX, usize::MAX)
    }

    fn answer(self, case: &Case, after: usize, room: usize) -> Result<Repaired, Refused> {
        let Case { told: edition, counts, slots, place, node, .. } = case;
        match self {
            Work::Place => repair::place(case.netlist(), counts, slots, after, room, *place, *node, *edition),
            Work::Clear => repair::clear(counts, slots, after, room, *place, *edition),
        }
    }
}

/// What a call is lent: so many words more than are needed.
#[derive(Debug, Clone, Copy)]
pub struct More {
    pub room: i64,
    pub room_is_zero: bool,
    pub after: i64,
}

impl Default for More {
    fn default() -> Self {
        More { room: 0, room_is_zero: false, after: 3 }
    }
}

/// What the new count list holds before a call.
const WORD: u32 = 0xEEEE_EEEE;

pub struct RepairChecker {
    pub kinds: Tally,
    pub answers: Tally,
    pub gem: Tally,
}

impl RepairChecker {
    pub fn new() -> Self {
        RepairChecker {
            kinds: Tally::new("repairs by kind"),
            answers: Tally::new("repairs by answer"),
            gem: Tally::new("repairs given to GEM's Rust too"),
        }
    }

    /// Compares one call and counts it, or stops the program at a difference. Gives what is then there, or the refusal.
    pub fn check(&mut self, kind: &str, work: Work, case: &Case, more: More) -> Result<Repaired, u32> {
        let expected = match difference(work, case, more) {
            Ok(expected) => expected,
            Err(what) => stop(kind, work, case, &what),
        };
        let done = if work == Work::Place { "placed" } else { "cleared" };
        self.kinds.count(kind);
        match &expected {
            Ok(_) => self.answers.count(done),
            Err(refused) => self.answers.count(&format!("not {}: {}", done, refused.number)),
        }
        expected.map_err(|refused| refused.number)
    }

    /// Holds what the model expects to GEM's function on the same stage. `in_order`: GEM was given the case's own count list,
    /// so that a placing's counts are in the same order too.
    pub fn check_gem(
        &mut self,
        gem: (&Placer, &mut PlacerStage),
        work: Work,
        case: &Case,
        expected: &Result<Repaired, u32>,
        in_order: bool,
    ) {
        let (placer, stage) = gem;
        let went_on = gem_works(placer, stage, work, case);
        let found = match expected {
            Ok(_) if !went_on => Err("GEM panicked".to_string()),
            Ok(repaired) => same_stage(stage, repaired, in_order && work == Work::Place)
                .map(|()| "the same slots and counts".to_string()),
            Err(number) if must_panic(*number, case) && went_on => {
                Err(format!("GEM went on where the model refuses by {}", number))
            }
            Err(number) if went_on => Ok(format!("refused {}, and GEM went on", number)),
            Err(number) => Ok(format!("refused {}, and GEM panicked", number)),
        };
        match found {
            Ok(answer) => self.gem.count(&answer),
            Err(what) => stop("host/model and GEM", work, case, &what),
        }
    }
}

fn gem_works(placer: &Placer, stage: &mut PlacerStage, work: Work, case: &Case) -> bool {
    let place = case.place;
    match work {
        Work::Place => placer.place(stage, place.level, place.slot, case.node),
        Work::Clear => placer.purge(stage, place.level, place.slot),
    }
}

/// At 25 and 26 above level 0, and at 34.
fn must_panic(number: u32, case: &Case) -> bool {
    match number {
        25 | 26 => {
            let reached = Reached::of(case.edition, case.netlist(), case.place, case.node);
            reached.bad_levels.iter().chain(&reached.no_gates).any(|&level| level > 0)
        }
        number => number == 34,
    }
}

/// Slots are equal, and counts as sets, or in their order.
fn same_stage(stage: &PlacerStage, repaired: &Repaired, in_order: bool) -> Result<(), String> {
    let slots = stage.slots();
    if let Some(word) = (0..slots.len()).find(|&word| slots[word] != repaired.slots[word]) {
        return Err(format!("slot word {} is {}, GEM's {}", word, repaired.slots[word], slots[word]));
    }
    let mut counts: Vec<(u32, u64)> =
        repaired.counts.chunks(2).map(|entry| (entry[0], entry[1].into())).collect();
    let mut gem_counts = stage.counts();
    if !in_order {
        counts.sort_unstable();
        gem_counts.sort_unstable();
    }
    if slots.len() != repaired.slots.len() || counts != gem_counts {
        return Err("the counts are not GEM's".to_string());
    }
    Ok(())
}

/// One call: what was expected where it was found, or the first difference.
fn difference(work: Work, case: &Case, more: More) -> Result<Result<Repaired, Refused>, String> {
    let Case { told, gates, levels, counts, slots, place, node, .. } = case;
    let room_length = (room_words(counts.len()) as i64 + more.room).max(0) as usize;
    let unbound = work.answer(case, usize::MAX, room_length);
    let needed = unbound.as_ref().map_or(counts.len(), |repaired| repaired.counts.len());
    let after_length = (needed as i64 + more.after).max(0) as usize;
    let expected = if after_length < needed { work.answer(case, after_length, room_length) } else { unbound };
    let wanted = match &expected {
        Ok(repaired) => Answer { code: 0, first: repaired.counts.len() as u64 / 2, second: 0 },
        Err(refused) => Answer { code: refused.number, first: refused.part, second: refused.item },
    };

    let (lent_gates, lent_levels) = (LentRead::new(gates), LentRead::new(levels));
    let lent_counts = LentRead::new(counts);
    let mut lent_slots = Lent::new(slots.len(), |word| slots[word], !WORD);
    let mut after = Lent::new(after_length, |_| WORD, !WORD);
    let mut room = Room::new(room_length, more.room_is_zero);
    let answer = match work {
        Work::Place => ffi::place_bit(
            lent_gates.slice(),
            lent_levels.slice(),
            lent_counts.slice(),
            lent_slots.slice(),
            after.slice(),
            room.slice(),
            place.level,
            place.slot,
            *node,
            *told,
        ),
        Work::Clear => ffi::purge_bit(
            lent_counts.slice(),
            lent_slots.slice(),
            after.slice(),
            room.slice(),
            place.level,
            place.slot,
            *told,
        ),
    };
    if answer != wanted {
        return Err(format!("answered {:?}, expected {:?}", answer, wanted));
    }
    let (new_slots, new_counts) =
        expected.as_ref().map_or((&[][..], &[][..]), |repaired| (&repaired.slots[..], &repaired.counts[..]));
    lent_slots.check("slot word", new_slots, |word| slots[word])?;
    after.check("count word", new_counts, |_| WORD)?;
    room.check(answer.code)?;
    Ok(expected)
}

fn stop(kind: &str, work: Work, case: &Case, what: &str) -> ! {
    println!("DIFFERENCE ({}): {}", kind, what);
    println!("a stage of {} lanes, told {}", case.edition.lanes(), case.told);
    println!("{:?} {} at {:?}; {} gates", work, case.node, case.place, case.gates.len() / 3);
    println!("gates: {:?}", &case.gates[..case.gates.len().min(90)]);
    println!("levels: {:?}", &case.levels[..case.levels.len().min(90)]);
    println!("counts: {:?}", &case.counts[..case.counts.len().min(90)]);
    std::process::exit(1);
}
