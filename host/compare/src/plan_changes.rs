//! Changes of plans, from which `plan_damage` makes its damages. Each gives nothing where the plan has no place for it.

use crate::plans::State;
use plan::{Endpoint, Part, Plan, Position, Stage, EMPTY, ENDPOINT_WORDS, HEAD_WORDS, PART_HEAD_WORDS};
use random::Random;
use std::collections::HashSet;
use std::ops::Range;

pub fn set(words: &mut [u32], index: usize, value: u32) -> Option<()> {
    words[index] = value;
    Some(())
}

/// One more or one less.
pub fn bump(random: &mut Random, words: &mut [u32], index: usize) -> Option<()> {
    let value = if words[index] == 0 || random.chance(2) { words[index] + 1 } else { words[index] - 1 };
    set(words, index, value)
}

pub fn part_count(random: &mut Random, plan: &Plan, words: &mut Vec<u32>) -> Option<()> {
    let index = HEAD_WORDS + random.below(plan.stages.len());
    bump(random, words, index)
}

pub fn part_count_out_of_range(random: &mut Random, plan: &Plan, words: &mut Vec<u32>) -> Option<()> {
    set(words, HEAD_WORDS + random.below(plan.stages.len()), 4097)
}

/// A number of a part head: one off, or one of these.
pub fn head_count(
    random: &mut Random,
    plan: &Plan,
    words: &mut [u32],
    word: usize,
    values: &[u32],
) -> Option<()> {
    let index = plan.heads_at() + PART_HEAD_WORDS * random.below(plan.parts().count()) + word;
    if random.chance(2) {
        return set(words, index, random.pick(values));
    }
    bump(random, words, index)
}

pub fn location_count(random: &mut Random, plan: &Plan, words: &mut Vec<u32>) -> Option<()> {
    let number = random.below(plan.parts().count());
    let part = plan.parts().nth(number)?;
    let index =
        plan.body_at(number) + ENDPOINT_WORDS * part.endpoints.len() + random.below(part.stages.len());
    if random.chance(4) {
        return set(words, index, u32::MAX);
    }
    bump(random, words, index)
}

pub fn any<'a, T>(random: &mut Random, items: &'a mut [T]) -> Option<&'a mut T> {
    if items.is_empty() {
        return None;
    }
    let index = random.below(items.len());
    items.get_mut(index)
}

pub fn any_index<T>(random: &mut Random, items: &[T]) -> Option<usize> {
    if items.is_empty() {
        None
    } else {
        Some(random.below(items.len()))
    }
}

/// Puts one of these values into a field of one of the items.
pub fn put<T>(
    random: &mut Random,
    items: &mut [T],
    field: fn(&mut T) -> &mut u32,
    values: &[u32],
) -> Option<()> {
    let value = random.pick(values);
    any(random, items).map(|item| *field(item) = value)
}

pub fn any_part<'a>(random: &mut Random, plan: &'a mut Plan) -> Option<&'a mut Part> {
    let count = plan.parts().count();
    plan.stages.iter_mut().flatten().nth(random.below(count.max(1)))
}

pub fn any_stage<'a>(random: &mut Random, plan: &'a mut Plan) -> Option<&'a mut Stage> {
    let part = any_part(random, plan)?;
    any(random, &mut part.stages)
}

/// Puts one of these values at a location.
pub fn location(random: &mut Random, plan: &mut Plan, values: &[u32]) -> Option<()> {
    let stages = plan.stages.iter_mut().flatten().flat_map(|part| &mut part.stages);
    let mut locations: Vec<&mut u32> = stages.flat_map(|stage| &mut stage.locations).collect();
    put(random, &mut locations, |location| location, values)
}

/// Slots of level 0, or of those above.
#[derive(Clone, Copy)]
pub enum Level {
    Positions,
    Zero,
}

/// Puts one of these values into a slot.
pub fn slot(random: &mut Random, plan: &mut Plan, slots: Level, values: &[u32]) -> Option<()> {
    let level_0 = plan.edition.slots();
    let stage = any_stage(random, plan)?;
    let slots: Range<usize> = match slots {
        Level::Positions => 1..level_0,
        Level::Zero => level_0..2 * level_0,
    };
    put(random, &mut stage.slots[slots], |slot| slot, values)
}

/// Puts one of these endpoints in the place of another.
pub fn endpoint(random: &mut Random, plan: &mut Plan, choices: &[[u32; 3]]) -> Option<()> {
    let part = any_part(random, plan)?;
    let [kind, x, y] = random.pick(choices);
    any(random, &mut part.endpoints).map(|endpoint| *endpoint = Endpoint { kind, x, y })
}

pub fn fan_in_above(random: &mut Random, plan: &mut Plan) -> Option<()> {
    let last = plan.gates.last()?.pin;
    let gate = any(random, &mut plan.gates)?;
    let above = 2 * random.between(gate.pin as usize, last as usize) as u32 + random.below(2) as u32;
    if random.chance(2) {
        gate.first = above;
    } else {
        gate.second = above;
    }
    Some(())
}

#[derive(Clone, Copy)]
pub enum More {
    Locations,
    Srams,
    Duplicates,
}

/// Gives a part so many write-out words by more of one kind.
pub fn write_outs(random: &mut Random, plan: &mut Plan, words: usize, by: More) -> Option<()> {
    let lanes = plan.edition.lanes();
    let part = any_part(random, plan)?;
    let now = crate::plans::model_counts(part).write_outs() as usize;
    let missing = words.checked_sub(now)?;
    match by {
        More::Locations => {
            let stage = any(random, &mut part.stages)?;
            stage.locations.extend((0..missing).map(|_| random.below(lanes) as u32));
        }
        More::Srams => part.endpoints.extend(vec![Endpoint::sram(); missing]),
        More::Duplicates => {
            // Enables that stand nowhere else: each register is an activation more of one pin.
            let first = 1 << 20;
            part.endpoints.extend((0..=32 * missing as u32).map(|en| Endpoint::register(first, first + en)));
        }
    }
    Some(())
}

/// A stage and a position whose pin is computed by a gate.
pub fn any_gate_slot<'a>(random: &mut Random, plan: &'a mut Plan) -> Option<(&'a mut Stage, usize)> {
    let stage = any_stage(random, plan)?;
    let computed: Vec<usize> = (1..stage.edition().slots()).filter(|&q| is_computed(stage, q)).collect();
    if computed.is_empty() {
        return None;
    }
    Some((stage, random.pick(&computed)))
}

/// At a position that a gate computes, from the pins a and b below it: puts a value into the slot of the position, of a
/// or of b.
pub fn at_gate(
    random: &mut Random,
    plan: &mut Plan,
    value: impl Fn(u32, u32) -> u32,
    slot: fn(usize, usize, usize) -> usize,
) -> Option<()> {
    let (stage, q) = any_gate_slot(random, plan)?;
    let (a, b) = model::record::below(q);
    stage.slots[slot(q, a, b)] = value(stage.slots[a], stage.slots[b]);
    Some(())
}

pub fn fan_ins_inverted(random: &mut Random, plan: &mut Plan) -> Option<()> {
    for gate in &mut plan.gates {
        gate.first ^= random.below(2) as u32;
        gate.second ^= random.below(2) as u32;
    }
    Some(())
}

pub fn is_computed(stage: &Stage, position: usize) -> bool {
    let pin = stage.slots[position];
    pin != EMPTY && pin != stage.slots[model::record::below(position).0]
}

pub fn fan_ins_swapped(random: &mut Random, plan: &mut Plan) -> Option<()> {
    let (stage, q) = any_gate_slot(random, plan)?;
    let pin = stage.slots[q];
    let gate = plan.gates.iter_mut().find(|gate| gate.pin == pin)?;
    std::mem::swap(&mut gate.first, &mut gate.second);
    Some(())
}

pub fn gate_removed(random: &mut Random, plan: &mut Plan) -> Option<()> {
    let (stage, q) = any_gate_slot(random, plan)?;
    let pin = stage.slots[q];
    plan.gates.retain(|gate| gate.pin != pin);
    Some(())
}

/// A small pin that stands nowhere in the plan.
pub fn free_pin(plan: &Plan) -> Option<u32> {
    let mut used = vec![false; 90_000];
    let slots = plan.parts().flat_map(|part| &part.stages).flat_map(|stage| &stage.slots[1..]);
    let listed = plan.gates.iter().map(|gate| gate.pin).chain(plan.positions.iter().map(|entry| entry.pin));
    for pin in slots.chain(&plan.layout).copied().chain(listed) {
        if let Some(used) = used.get_mut(pin as usize) {
            *used = true;
        }
    }
    used.iter().position(|used| !used).map(|pin| pin as u32)
}

/// Slots of level 0 that are empty and that no position looks at: changing one harms nothing else in its stage.
pub fn spare_slots(stage: &Stage) -> Vec<usize> {
    let (slots, half) = (stage.edition().slots(), stage.edition().slots() / 2);
    (slots..2 * slots)
        .filter(|&slot| stage.slots[slot] == EMPTY && stage.slots[half + slot % half] == EMPTY)
        .collect()
}

/// A stage, the one after it, and a spare slot of that.
pub fn later_slot<'a>(random: &mut Random, plan: &'a mut Plan) -> Option<(&'a mut [Stage], usize)> {
    let part = any_part(random, plan)?;
    let pairs = part.stages.len() - 1;
    if pairs == 0 {
        return None;
    }
    let first = random.below(pairs);
    let spare = spare_slots(&part.stages[first + 1]);
    if spare.is_empty() {
        return None;
    }
    Some((&mut part.stages[first..first + 2], random.pick(&spare)))
}

/// A pin of the first list that is not in the second.
pub fn only_in(random: &mut Random, first: &[u32], second: &[u32]) -> Option<u32> {
    let second: HashSet<u32> = second.iter().copied().collect();
    let pins: Vec<u32> =
        first.iter().copied().filter(|&pin| pin != EMPTY && !second.contains(&pin)).collect();
    if pins.is_empty() {
        return None;
    }
    Some(random.pick(&pins))
}

pub fn later_pin_from_level_0(random: &mut Random, plan: &mut Plan) -> Option<()> {
    let level_0 = plan.edition.slots();
    let (stages, slot) = later_slot(random, plan)?;
    let pin = only_in(random, &stages[0].slots[level_0..], &stages[0].slots[1..level_0])?;
    stages[1].slots[slot] = pin;
    Some(())
}

pub fn later_pin_two_before(random: &mut Random, plan: &mut Plan) -> Option<()> {
    let level_0 = plan.edition.slots();
    let part = any_part(random, plan)?;
    let pairs = part.stages.len().checked_sub(2).filter(|&pairs| pairs > 0)?;
    let first = random.below(pairs);
    let spare = spare_slots(&part.stages[first + 2]);
    let pin =
        only_in(random, &part.stages[first].slots[1..level_0], &part.stages[first + 1].slots[1..level_0])?;
    *part.stages[first + 2].slots.get_mut(*spare.first()?)? = pin;
    Some(())
}

/// A pin that a part computes in this stage or a later one, read by the part too.
pub fn computed_read(random: &mut Random, plan: &mut Plan, from_stage: usize) -> Option<()> {
    let level_0 = plan.edition.slots();
    let part = any_part(random, plan)?;
    let stages = part.stages.get(from_stage..).filter(|stages| !stages.is_empty())?;
    let stage = &stages[random.below(stages.len())];
    let computed: Vec<u32> =
        (1..level_0).filter(|&q| is_computed(stage, q)).map(|q| stage.slots[q]).collect();
    let spare = spare_slots(&part.stages[0]);
    if computed.is_empty() || spare.is_empty() {
        return None;
    }
    part.stages[0].slots[random.pick(&spare)] = random.pick(&computed);
    Some(())
}

/// A part's major stage, and a pin that the part reads.
pub fn read_pin(random: &mut Random, plan: &mut Plan) -> Option<(usize, u32)> {
    let mut parts: Vec<(usize, &Part)> = plan
        .stages
        .iter()
        .enumerate()
        .flat_map(|(major, parts)| parts.iter().map(move |part| (major, part)))
        .collect();
    if parts.is_empty() {
        return None;
    }
    let (major, part) = parts.swap_remove(random.below(parts.len()));
    let pin = only_in(random, &part.stages[0].slots[plan.edition.slots()..], &[])?;
    Some((major, pin))
}

/// Takes a pin out of layout and positions.
pub fn forget(plan: &mut Plan, pin: u32) {
    for held in plan.layout.iter_mut().filter(|held| **held == pin) {
        *held = EMPTY;
    }
    plan.positions.retain(|entry| entry.pin != pin);
}

/// Gives a pin that is read a position of its own.
pub fn place_read(
    random: &mut Random,
    plan: &mut Plan,
    staged: u32,
    position: fn(&mut Random, &State, usize) -> Option<u32>,
) -> Option<()> {
    let (major, pin) = read_pin(random, plan)?;
    let position = position(random, &State::of(plan), major)?;
    forget(plan, pin);
    let at = random.below(plan.positions.len() + 1);
    plan.positions.insert(at, Position { pin, position, staged });
    Some(())
}

/// Has a part read a pin more, with this position.
pub fn place_new(
    random: &mut Random,
    plan: &mut Plan,
    staged: u32,
    position: fn(&mut Random, &State, usize) -> Option<u32>,
) -> Option<()> {
    let pin = free_pin(plan)?;
    let parts: Vec<(usize, usize)> = plan
        .stages
        .iter()
        .enumerate()
        .flat_map(|(major, parts)| (0..parts.len()).map(move |part| (major, part)))
        .collect();
    let (major, part) = random.pick(&parts);
    let spare = spare_slots(&plan.stages[major][part].stages[0]);
    if spare.is_empty() {
        return None;
    }
    let position = position(random, &State::of(plan), major)?;
    plan.stages[major][part].stages[0].slots[random.pick(&spare)] = pin;
    plan.positions.insert(0, Position { pin, position, staged });
    Some(())
}

pub fn bad_beaten(random: &mut Random, plan: &mut Plan) -> Option<()> {
    let pin = read_pin(random, plan)?.1;
    let staged = plan.positions.iter().rev().find(|entry| entry.pin == pin)?.staged;
    plan.positions.insert(0, Position { pin, position: u32::MAX, staged });
    Some(())
}

pub fn staged_entry(random: &mut Random, plan: &mut Plan) -> Option<()> {
    let pin = read_pin(random, plan)?.1;
    let unstaged = plan.positions.iter().any(|entry| entry.pin == pin && entry.staged == 0);
    if !unstaged && !plan.layout.contains(&pin) {
        return None;
    }
    plan.positions.push(Position { pin, position: u32::MAX, staged: 1 });
    Some(())
}

pub fn just_outside(random: &mut Random, state: &State, _: usize) -> Option<u32> {
    Some((32 * state.words + random.below(32)) as u32)
}

pub fn of_inputs(random: &mut Random, state: &State, _: usize) -> Option<u32> {
    Some(state.input_words).filter(|&words| words > 0).map(|words| random.below(32 * words) as u32)
}

/// Of an SRAM of an earlier major stage.
pub fn of_an_sram(random: &mut Random, state: &State, major: usize) -> Option<u32> {
    state.bit(random, |of, counts| {
        let first = counts.normal + counts.duplicates;
        if of < major {
            first..counts.write_outs()
        } else {
            0..0
        }
    })
}

/// Of the duplicates of an earlier major stage.
pub fn of_duplicates(random: &mut Random, state: &State, major: usize) -> Option<u32> {
    state.bit(random, |of, counts| {
        let end = counts.normal + counts.duplicates;
        if of < major {
            counts.normal..end
        } else {
            0..0
        }
    })
}
