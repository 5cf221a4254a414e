//! Change request 7/13: one node of one stage placed, and cleared.

use crate::edition::Edition;
use crate::plan::bad_gate;
use crate::record::{is_pin, EMPTY};
use crate::Refused;
use std::collections::HashMap;

/// "Working room": 65536 words, and 4 for each whole or half entry of the count list.
pub fn room_words(count_words: usize) -> usize {
    65536 + 4 * ((count_words + 1) / 2)
}

/// A slot of a level.
#[derive(Debug, Clone, Copy, PartialEq, Eq)]
pub struct Place {
    pub level: u32,
    pub slot: u32,
}

impl Place {
    /// Level and slot are there; else it has no word.
    pub fn is_in_form(self, edition: Edition) -> bool {
        self.level <= edition.levels() && (self.slot as usize) < edition.level_slots(self.level)
    }

    /// Its word in a stage's slots: slot j of level h has index 2^(13-h) + j, from 1 on.
    pub fn word(self, edition: Edition) -> usize {
        edition.level_slots(self.level) + self.slot as usize - 1
    }

    /// The two slots of the level below: j, and j + 2^(13-h).
    fn below(self, edition: Edition) -> [Place; 2] {
        let (level, level_slots) = (self.level - 1, edition.level_slots(self.level) as u32);
        [self.slot, self.slot + level_slots].map(|slot| Place { level, slot })
    }

    /// The place and all that is under it: at each level the slots that leave j by 2^(13-h).
    fn subtree(self, edition: Edition) -> impl Iterator<Item = Place> {
        let top = edition.level_slots(self.level);
        (0..=self.level).flat_map(move |level| {
            let slots = self.slot..edition.level_slots(level) as u32;
            slots.step_by(top).map(move |slot| Place { level, slot })
        })
    }
}

/// Gates, three words each, and the levels of pins; a pin past the end of these has none.
#[derive(Debug, Clone, Copy)]
pub struct Netlist<'a> {
    pub gates: &'a [u32],
    pub levels: &'a [u32],
}

impl Netlist<'_> {
    fn level(&self, pin: u32) -> Option<u32> {
        self.levels.get(pin as usize).copied()
    }

    /// The pins of a gate's fan-ins, in a list that is not refused by 6.
    fn fan_ins(&self, pin: u32) -> Option<[u32; 2]> {
        let (mut low, mut high) = (0, self.gates.len() / 3);
        while low < high {
            let middle = (low + high) / 2;
            if self.gates[3 * middle] < pin {
                low = middle + 1;
            } else {
                high = middle;
            }
        }
        let gate = self.gates.get(3 * low..3 * low + 3).filter(|gate| gate[0] == pin)?;
        Some([gate[1] >> 1, gate[2] >> 1])
    }
}

/// What placing a node reaches.
#[derive(Debug, Default)]
pub struct Reached {
    /// Slots and their nodes, as they are written.
    pub slots: Vec<(Place, u32)>,
    /// Levels at which a node has no level, or one above.
    pub bad_levels: Vec<u32>,
    /// Levels at which a node of that level is no gate.
    pub no_gates: Vec<u32>,
}

impl Reached {
    pub fn of(edition: Edition, netlist: Netlist<'_>, place: Place, node: u32) -> Self {
        let mut reached = Reached::default();
        reached.place(edition, netlist, place, node);
        reached
    }

    /// "A node placed above its level is carried down the same slot; at its level the gate is split to two slots." A node
    /// with a fault is not gone below.
    fn place(&mut self, edition: Edition, netlist: Netlist<'_>, place: Place, node: u32) {
        self.slots.push((place, node));
        match netlist.level(node) {
            Some(level) if level <= place.level => {
                if place.level == 0 {
                    return;
                }
                let [a, b] = place.below(edition);
                if level < place.level {
                    return self.place(edition, netlist, a, node);
                }
                match netlist.fan_ins(node) {
                    Some([first, second]) => {
                        self.place(edition, netlist, a, first);
                        self.place(edition, netlist, b, second);
                    }
                    None => self.no_gates.push(place.level),
                }
            }
            _ => self.bad_levels.push(place.level),
        }
    }
}

/// The slots that clearing reaches, and their nodes: it stops at an empty one. A slot that is not there is empty.
pub fn clearing(edition: Edition, slots: &[u32], place: Place) -> Vec<(Place, u32)> {
    let mut reached = Vec::new();
    let mut next = vec![place];
    while let Some(place) = next.pop() {
        let node = slots.get(place.word(edition)).copied().unwrap_or(EMPTY);
        if node != EMPTY {
            reached.push((place, node));
            if place.level > 0 {
                next.extend(place.below(edition));
            }
        }
    }
    reached
}

/// What a call leaves behind where it is not refused.
#[derive(Debug, Clone, PartialEq, Eq)]
pub struct Repaired {
    /// The slots of a stage.
    pub slots: Vec<u32>,
    /// The count list. Its order is not promised by 02; this is ours: entries as they stood, new nodes behind them.
    pub counts: Vec<u32>,
}

/// "Each node listed once, at 1 or more."
fn counts_in_form(counts: &[u32]) -> bool {
    let mut nodes: Vec<u32> = counts.chunks(2).map(|entry| entry[0]).collect();
    nodes.sort_unstable();
    nodes.windows(2).all(|two| two[0] != two[1])
        && counts.chunks(2).all(|entry| entry.len() == 2 && is_pin(entry[0]) && entry[1] > 0)
}

/// "Counts cover levels 1 and up."
fn counted(reached: &[(Place, u32)]) -> impl Iterator<Item = u32> + '_ {
    reached.iter().filter(|(place, _)| place.level > 0).map(|&(_, node)| node)
}

/// What a call answers. `after` and `room` are the lengths of what is lent.
pub fn place(
    netlist: Netlist<'_>,
    counts: &[u32],
    slots: &[u32],
    after: usize,
    room: usize,
    place: Place,
    node: u32,
    edition: u32,
) -> Result<Repaired, Refused> {
    if room < room_words(counts.len()) {
        return Err(Refused::plain(32));
    }
    let edition = Edition::numbered(edition).ok_or(Refused::plain(29))?;
    if !place.is_in_form(edition) || !is_pin(node) || !counts_in_form(counts) {
        return Err(Refused::plain(5));
    }
    if let Some(gate) = bad_gate(netlist.gates) {
        return Err(Refused::at(6, 0, gate));
    }
    if place.subtree(edition).any(|place| slots.get(place.word(edition)).map_or(false, |&pin| pin != EMPTY)) {
        return Err(Refused::plain(24));
    }
    let reached = Reached::of(edition, netlist, place, node);
    if !reached.bad_levels.is_empty() {
        return Err(Refused::plain(25));
    }
    if !reached.no_gates.is_empty() {
        return Err(Refused::plain(26));
    }
    let mut entries: Vec<(u32, u64)> = counts.chunks(2).map(|entry| (entry[0], entry[1].into())).collect();
    let mut places: HashMap<u32, usize> =
        entries.iter().enumerate().map(|(place, entry)| (entry.0, place)).collect();
    for node in counted(&reached.slots) {
        let place = *places.entry(node).or_insert(entries.len());
        if place == entries.len() {
            entries.push((node, 0));
        }
        entries[place].1 += 1;
    }
    repaired(edition, slots, after, &reached.slots, |node| node, &entries)
}

/// The same for clearing.
pub fn clear(
    counts: &[u32],
    slots: &[u32],
    after: usize,
    room: usize,
    place: Place,
    edition: u32,
) -> Result<Repaired, Refused> {
    if room < room_words(counts.len()) {
        return Err(Refused::plain(32));
    }
    let edition = Edition::numbered(edition).ok_or(Refused::plain(29))?;
    if !place.is_in_form(edition) || !counts_in_form(counts) {
        return Err(Refused::plain(5));
    }
    let reached = clearing(edition, slots, place);
    let mut times: HashMap<u32, u64> = HashMap::new();
    for node in counted(&reached) {
        *times.entry(node).or_insert(0) += 1;
    }
    let mut entries = Vec::new();
    for entry in counts.chunks(2) {
        let less = times.remove(&entry[0]).unwrap_or(0);
        entries.push((entry[0], u64::from(entry[1]).checked_sub(less).ok_or(Refused::plain(34))?));
    }
    // What is left is not listed.
    if !times.is_empty() {
        return Err(Refused::plain(34));
    }
    entries.retain(|&(_, count)| count > 0);
    repaired(edition, slots, after, &reached, |_| EMPTY, &entries)
}

/// 14: a result is too short, or a count would pass 2^32 - 1.
fn repaired(
    edition: Edition,
    slots: &[u32],
    after: usize,
    reached: &[(Place, u32)],
    held: impl Fn(u32) -> u32,
    entries: &[(u32, u64)],
) -> Result<Repaired, Refused> {
    let too_many = entries.iter().any(|&(_, count)| count > u32::MAX.into());
    if slots.len() < edition.stage_slots() || after < 2 * entries.len() || too_many {
        return Err(Refused::plain(14));
    }
    let mut slots = slots[..edition.stage_slots()].to_vec();
    for &(place, node) in reached {
        slots[place.word(edition)] = held(node);
    }
    let counts = entries.iter().flat_map(|&(node, count)| [node, count as u32]).collect();
    Ok(Repaired { slots, counts })
}

#[cfg(test)]
mod tests {
    use super::*;

    const FULL: u32 = 256;
    const SMALL: u32 = 128;

    /// An input of level 0 at a place of an empty stage of so many slots.
    fn put(edition: u32, slots: usize, level: u32, slot: u32) -> Result<Repaired, Refused> {
        let netlist = Netlist { gates: &[], levels: &[0, 0] };
        let room = room_words(0);
        place(netlist, &[], &vec![EMPTY; slots], 2, room, Place { level, slot }, 1, edition)
    }

    /// "12 levels, 4096 slots": levels and slots at their limits and one past; 8191 slots of a stage.
    #[test]
    fn places_of_both_editions() {
        for (edition, levels, slots) in [(FULL, 13, 8192), (SMALL, 12, 4096)] {
            let all = 2 * slots as usize - 1;
            for (level, slot) in [(levels, 0), (levels - 1, 1), (1, slots / 2 - 1), (0, slots - 1)] {
                let placed = put(edition, all, level, slot).unwrap();
                let index = (1 << (levels - level)) + slot as usize;
                assert_eq!((placed.slots.len(), placed.slots[index - 1]), (all, 1));
                assert_eq!(placed.counts, if level == 0 { vec![] } else { vec![1, level] });
            }
            for (level, slot) in
                [(levels + 1, 0), (levels, 1), (levels - 1, 2), (1, slots / 2), (0, slots), (33, 0)]
            {
                assert_eq!(put(edition, all, level, slot), Err(Refused::plain(5)));
            }
            assert_eq!(put(edition, all - 1, 0, 0), Err(Refused::plain(14)));
        }
    }

    /// The whole tree of a stage: a gate at each level, split to slots j and j + 2^(12-h).
    #[test]
    fn a_tree_of_the_small_edition() {
        let gates: Vec<u32> = (2..=13).flat_map(|pin| [pin, 2 * (pin - 1), 2 * (pin - 1) + 1]).collect();
        let levels: Vec<u32> = (0..=13).map(|pin: u32| pin.saturating_sub(1)).collect();
        let netlist = Netlist { gates: &gates, levels: &levels };
        let (empty, top) = (vec![EMPTY; 8191], Place { level: 12, slot: 0 });
        let placed = place(netlist, &[], &empty, 24, room_words(0), top, 13, SMALL).unwrap();
        for level in 0..=12 {
            for slot in 0..Edition::SMALL.level_slots(level) as u32 {
                assert_eq!(placed.slots[Place { level, slot }.word(Edition::SMALL)], level + 1);
            }
        }
        let room = room_words(placed.counts.len());
        assert_eq!(
            clear(&placed.counts, &placed.slots, 0, room, top, SMALL),
            Ok(Repaired { slots: empty.clone(), counts: vec![] })
        );
        // In the full edition level 12 has two slots, and a stage 16383.
        assert_eq!(place(netlist, &[], &empty, 24, room_words(0), top, 13, FULL), Err(Refused::plain(14)));
    }

    #[test]
    fn the_edition_is_judged_after_the_room() {
        let (none, bad) = (Netlist { gates: &[], levels: &[] }, Place { level: 99, slot: 0 });
        for edition in [0, 1, 127, 255, 257] {
            assert_eq!(place(none, &[1], &[], 0, room_words(1), bad, 0, edition), Err(Refused::plain(29)));
            assert_eq!(
                place(none, &[1], &[], 0, room_words(1) - 1, bad, 0, edition),
                Err(Refused::plain(32))
            );
            assert_eq!(clear(&[1], &[], 0, room_words(1), bad, edition), Err(Refused::plain(29)));
            assert_eq!(clear(&[1], &[], 0, room_words(1) - 1, bad, edition), Err(Refused::plain(32)));
        }
    }
}
