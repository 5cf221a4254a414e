//! "The script of a part".

use crate::edition::Edition;
use crate::plan::{Counts, Found, Gates};
use crate::record::{below, Part, Stage, EMPTY};
use crate::rounds::{self, Lanes, Pair};
use std::collections::{BTreeMap, HashMap};

/// The words and masks that stage 0 of a part asks for.
pub fn read_set(part: &Part<'_>, found: &Found) -> Vec<Pair> {
    let mut set = BTreeMap::new();
    for &pin in part.stages[0].level_0() {
        if pin != EMPTY {
            let bit = found.bit(pin).expect("12 is excluded");
            *set.entry(bit.read_word()).or_insert(0) |= 1u32 << (bit.position & 31);
        }
    }
    set.into_iter().collect()
}

/// "Local position of bit k of a pair: 32·lane, plus all mask bits of later rounds in that lane, plus mask bits above
/// k in the same pair", by word and bit.
pub fn local_positions(lanes: &Lanes) -> HashMap<(u32, u32), u16> {
    let mut local = HashMap::new();
    for (lane, pairs) in lanes.iter().enumerate() {
        for (round, &(word, mask)) in pairs.iter().enumerate() {
            let later: u32 = pairs[round + 1..].iter().map(|(_, mask)| mask.count_ones()).sum();
            for k in (0..32).filter(|k| mask >> k & 1 == 1) {
                let above = (mask >> k).count_ones() - 1;
                local.insert((word, k), (32 * lane as u32 + later + above) as u16);
            }
        }
    }
    local
}

/// What the script of a part says of it beside the plan's own lists.
pub struct Facts<'a> {
    pub edition: Edition,
    pub counts: Counts,
    pub last_of_block: bool,
    pub state_start: u64,
    pub sram_start: u64,
    pub lanes: &'a Lanes,
}

pub fn words(part: &Part<'_>, facts: &Facts<'_>, found: &Found, gates: &Gates) -> Vec<u32> {
    let (edition, slots, all) = (facts.edition, facts.edition.slots(), facts.edition.lanes());
    let mut words = head(part, facts);
    words.extend(rounds::section(edition, facts.lanes));
    let local = local_positions(facts.lanes);
    let mut before: HashMap<u32, u16> = HashMap::new();
    for (s, stage) in part.stages.iter().enumerate() {
        let entry = |&pin: &u32| {
            if pin == EMPTY {
                0
            } else if s == 0 {
                let bit = found.bit(pin).expect("12 is excluded");
                local[&(bit.read_word(), bit.position & 31)]
            } else {
                before[&pin]
            }
        };
        let entries: Vec<u16> = stage.level_0().iter().map(entry).collect();
        push_permutation(edition, &mut words, &entries);
        push_lanes(edition, &mut words, &gate_words(edition, stage, gates));
        // Later positions win: a pin standing twice is found at its highest position.
        let pins = stage.positions().filter(|&(_, pin)| pin != EMPTY);
        before = pins.map(|(position, pin)| (pin, position as u16)).collect();
    }
    for (table, lists) in [(part.sram_table, 2), (part.enable_table, 3)] {
        let entries: Vec<u16> = table[..slots].iter().map(|&entry| entry as u16).collect();
        push_permutation(edition, &mut words, &entries);
        let lists: Vec<&[u32]> = (0..lists).map(|list| &table[slots + all * list..][..all]).collect();
        push_lanes(edition, &mut words, &lists);
    }
    words
}

fn head(part: &Part<'_>, facts: &Facts<'_>) -> Vec<u32> {
    let mut words = vec![
        part.stages.len() as u32,
        facts.last_of_block as u32,
        facts.counts.write_outs() as u32,
        facts.state_start as u32,
        facts.counts.srams as u32,
        facts.sram_start as u32,
        rounds::rounds(facts.lanes) as u32,
        facts.counts.duplicates as u32,
    ];
    words.resize(facts.edition.head_numbers(), 0);
    let mut halves = Vec::new();
    for (s, stage) in part.stages.iter().enumerate() {
        halves.extend(stage.locations.iter().map(|&location| 256 * s as u32 + location));
    }
    words.extend(halves.chunks(2).map(|pair| pair[0] | pair.get(1).unwrap_or(&0xFFFF) << 16));
    words.resize(facts.edition.head_words(), u32::MAX);
    words
}

/// "entry 32t+8k+2h+e in word 1024k+4t+h, low half for e=0".
fn push_permutation(edition: Edition, words: &mut Vec<u32>, entries: &[u16]) {
    let start = words.len();
    words.resize(start + edition.permutation_words(), 0);
    for (index, &entry) in entries.iter().enumerate() {
        let (word, is_high) = edition.entry_place(index);
        words[start + word] |= u32::from(entry) << if is_high { 16 } else { 0 };
    }
}

/// Four words a lane: those of the lists, then zeros.
fn push_lanes<L: AsRef<[u32]>>(edition: Edition, words: &mut Vec<u32>, lists: &[L]) {
    for lane in 0..edition.lanes() {
        words.extend((0..4).map(|list| lists.get(list).map_or(0, |list| list.as_ref()[lane])));
    }
}

/// xora, xorb and orb of a stage.
fn gate_words(edition: Edition, stage: &Stage<'_>, gates: &Gates) -> Vec<Vec<u32>> {
    let mut lists = vec![vec![0; edition.lanes()]; 3];
    for (position, pin) in stage.positions() {
        if pin == EMPTY {
            continue;
        }
        let mut set = |list: usize, bit: u32| lists[list][position / 32] |= bit << (position % 32);
        if pin == stage.at(below(position).0) {
            set(2, 1);
        } else {
            let (first, second) = gates.fan_ins(pin).expect("9 is excluded");
            set(0, first & 1);
            set(1, second & 1);
        }
    }
    lists
}

#[cfg(test)]
mod tests {
    use super::*;

    /// M2: "local positions 1, 0, 32, 64". "Each requested bit has its own, below 8192": 4096 in the small edition.
    #[test]
    fn local_positions_are_below_the_slots() {
        for edition in [Edition::FULL, Edition::SMALL] {
            let local = |pairs: &[Pair]| local_positions(&rounds::pack(edition, pairs).unwrap().lanes);
            let m2 = local(&[(0, 3), (1, 0x20), (1 << 31, 1)]);
            assert_eq!([(0, 0), (0, 1), (1, 5), (1 << 31, 0)].map(|bit| m2[&bit]), [1, 0, 32, 64]);
            let pairs: Vec<Pair> = (0..edition.slots() as u32).map(|word| (word, 1 << (word % 32))).collect();
            let mut all: Vec<u16> = local(&pairs).into_values().collect();
            all.sort_unstable();
            assert!(all.into_iter().eq(0..edition.slots() as u16));
        }
    }
}
