//! One node of one stage placed, and cleared.

use crate::ffi;
use crate::refusal::Refusal;
use plan::{Edition, Pin};
use std::collections::HashMap;

const MOST_PIN: u32 = 1 << 30;

/// Words of working room where the count list has so many words.
#[must_use]
pub fn repair_room(count_words: usize) -> usize {
    65536 + 4 * ((count_words + 1) / 2)
}

/// A slot of a level: level 0 to 13, slot below 2^(13-level); in the small edition 12 in the place of 13.
#[derive(Debug, Clone, Copy, PartialEq, Eq)]
pub struct Place {
    /// The level.
    pub level: u32,
    /// The slot.
    pub slot: u32,
}

/// The gates (pin, first and second fan-in of each) and the level of each pin; a pin past the end has none.
#[derive(Debug, Clone, Copy)]
pub struct Netlist<'a> {
    /// The gate list, three words a gate.
    pub gates: &'a [u32],
    /// Levels by pin.
    pub levels: &'a [u32],
}

/// What is lent to be written: the stage's slots, the new count list, and working room of `repair_room` words.
pub struct RepairSlices<'a> {
    /// The stage's slots, `Edition::stage_slots` of them.
    pub slots: &'a mut [u32],
    /// The new count list.
    pub after: &'a mut [u32],
    /// Working room.
    pub room: &'a mut [u32],
}

/// How often each pin stands at levels 1 and up of a stage, as a count list. What is no pin is left out.
#[must_use]
pub fn stage_counts(slots: &[u32], edition: Edition) -> Vec<u32> {
    let mut counts: Vec<u32> = Vec::new();
    let mut places = HashMap::new();
    for &pin in slots.iter().take(edition.counted_slots()).filter(|&&pin| pin <= MOST_PIN) {
        let place = *places.entry(pin).or_insert(counts.len());
        if place == counts.len() {
            counts.extend([pin, 0]);
        }
        counts[place + 1] += 1;
    }
    counts
}

/// Levels of the pins up to a node, worked from the gates: these inputs are at level 0, any other gate is one above its
/// higher fan-in. All others have none, which is said by a number above every place.
#[must_use]
pub fn levels(gates: &[u32], inputs: &[Pin], node: Pin) -> Vec<u32> {
    let known = gates.chunks_exact(3).map(|gate| gate[0]).chain(inputs.iter().map(|pin| pin.0)).max();
    let mut levels = vec![u32::MAX; known.map_or(0, |most| most.min(node.0) as usize + 1)];
    for pin in inputs {
        if let Some(level) = levels.get_mut(pin.0 as usize) {
            *level = 0;
        }
    }
    for gate in gates.chunks_exact(3) {
        let level = |fan_in: u32| levels.get(fan_in as usize >> 1).copied().unwrap_or(u32::MAX);
        let above = level(gate[1]).max(level(gate[2])).saturating_add(1);
        if let Some(level) = levels.get_mut(gate[0] as usize).filter(|level| **level != 0) {
            *level = above;
        }
    }
    levels
}

/// Places a node: above its level it is carried down the same slot, at its level the gate is split to two slots. `counts`
/// says how often each node stands at levels 1 and up: node, count, node, count .. Gives the new list, in any order.
///
#[doc = "```"]
#[doc = include_str!("../examples/place_bit.rs")]
#[doc = "```"]
pub fn place_bit(
    netlist: Netlist<'_>,
    counts: &[u32],
    slots: &mut [u32],
    place: Place,
    node: Pin,
    edition: Edition,
) -> Result<Vec<u32>, Refusal> {
    lending(counts, slots, edition, |lent| place_bit_into(netlist, counts, lent, place, node, edition))
}

/// Clears a place and all under it, down to empty slots. Gives the new count list, in any order.
///
#[doc = "```"]
#[doc = include_str!("../examples/purge_bit.rs")]
#[doc = "```"]
pub fn purge_bit(
    counts: &[u32],
    slots: &mut [u32],
    place: Place,
    edition: Edition,
) -> Result<Vec<u32>, Refusal> {
    lending(counts, slots, edition, |lent| purge_bit_into(counts, lent, place, edition))
}

/// Calls with room and a count list that is long enough.
fn lending(
    counts: &[u32],
    slots: &mut [u32],
    edition: Edition,
    call: impl FnOnce(RepairSlices<'_>) -> Result<usize, Refusal>,
) -> Result<Vec<u32>, Refusal> {
    let mut room = vec![0; repair_room(counts.len())];
    let mut after = vec![0; counts.len() + 2 * edition.counted_slots()];
    let entries = call(RepairSlices { slots, after: &mut after, room: &mut room })?;
    after.truncate(2 * entries);
    Ok(after)
}

/// `place_bit` with lent slices. Gives the number of entries that `after` begins with; what is behind them is left as it is.
/// The room holds zeros afterwards, but for refusal 32, which changes nothing.
pub fn place_bit_into(
    netlist: Netlist<'_>,
    counts: &[u32],
    lent: RepairSlices<'_>,
    place: Place,
    node: Pin,
    edition: Edition,
) -> Result<usize, Refusal> {
    let Netlist { gates, levels } = netlist;
    let RepairSlices { slots, after, room } = lent;
    let Place { level, slot } = place;
    let edition = edition.number();
    let answer = ffi::place_bit(gates, levels, counts, slots, after, room, level, slot, node.0, edition);
    Refusal::check(answer).map(|entries| entries as usize)
}

/// `purge_bit` likewise.
pub fn purge_bit_into(
    counts: &[u32],
    lent: RepairSlices<'_>,
    place: Place,
    edition: Edition,
) -> Result<usize, Refusal> {
    let RepairSlices { slots, after, room } = lent;
    Refusal::check(ffi::purge_bit(counts, slots, after, room, place.level, place.slot, edition.number()))
        .map(|entries| entries as usize)
}
