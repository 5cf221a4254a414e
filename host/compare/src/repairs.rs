//! Stages to be repaired, made at random: gates with levels, and nodes placed on them.

use model::edition::Edition;
use model::record::EMPTY;
use model::repair::{self, Netlist, Place};
use random::Random;

/// The level of a pin that has none: above every place.
pub const NO_LEVEL: u32 = u32::MAX;

/// A stage, the netlist that it is made of, and a place on it.
#[derive(Debug, Clone)]
pub struct Case {
    /// The edition of the stage.
    pub edition: Edition,
    /// The number of the edition that a call is told.
    pub told: u32,
    pub gates: Vec<u32>,
    pub levels: Vec<u32>,
    pub counts: Vec<u32>,
    pub slots: Vec<u32>,
    pub place: Place,
    pub node: u32,
}

impl Case {
    /// An empty stage, at its first slot.
    pub fn empty(edition: Edition, gates: Vec<u32>, levels: Vec<u32>) -> Self {
        let (told, slots) = (edition.number(), vec![EMPTY; edition.stage_slots()]);
        let place = Place { level: 0, slot: 0 };
        Case { edition, told, gates, levels, counts: Vec::new(), slots, place, node: 0 }
    }

    pub fn netlist(&self) -> Netlist<'_> {
        Netlist { gates: &self.gates, levels: &self.levels }
    }

    /// A place, and a node whose level is not above it. (The constant stays out of the way of most.)
    pub fn aim(&mut self, random: &mut Random) {
        self.place = any_place(random, self.edition);
        let fits = |level: &u32| *level <= self.place.level;
        let fitting: Vec<u32> =
            (0..self.levels.len() as u32).filter(|&pin| fits(&self.levels[pin as usize])).collect();
        // The highest ones make the largest trees.
        let among = if random.chance(2) { &fitting[fitting.len() / 2..] } else { &fitting[..] };
        self.node = if among.is_empty() { 0 } else { random.pick(among) };
    }

    /// The place of a slot that holds something, the top ones first.
    pub fn aim_at_held(&mut self, random: &mut Random) {
        let held: Vec<usize> =
            (0..self.edition.stage_slots()).filter(|&word| self.slots[word] != EMPTY).collect();
        if !held.is_empty() {
            let among = random.pick(&[4, 40, held.len()]).min(held.len());
            self.place = place_of(self.edition, held[random.below(among)]);
        }
    }
}

/// The place of a word of a stage's slots.
pub fn place_of(edition: Edition, word: usize) -> Place {
    let levels = edition.levels();
    let index = word as u32 + 1;
    let level = index.leading_zeros() - (1u32 << levels).leading_zeros();
    Place { level, slot: index - (1 << (levels - level)) }
}

/// High levels have few slots and low ones many: every level comes as often.
pub fn any_place(random: &mut Random, edition: Edition) -> Place {
    let level = random.below(edition.levels() as usize + 1) as u32;
    Place { level, slot: random.below(edition.level_slots(level)) as u32 }
}

/// Gates over some inputs, and levels: a gate is above its fan-ins, by one or at times by more. Levels can pass 13.
pub fn netlist(random: &mut Random, most_inputs: usize, most_gates: usize) -> (Vec<u32>, Vec<u32>) {
    let inputs = random.between(1, most_inputs);
    let mut pins: Vec<u32> = (0..=inputs as u32).collect();
    let mut levels: Vec<u32> = vec![0; pins.len()];
    let mut gates = Vec::new();
    // Narrow ones are deep.
    let reach = random.pick(&[2, 4, 20, 1000]);
    let is_spread = random.chance(4);
    for _ in 0..random.between(1, most_gates) {
        let gap = if random.chance(6) { random.below(4) } else { 0 };
        // Pins in a gap are nothing; some have a level all the same.
        levels.extend((0..gap).map(|_| random.pick(&[0, 1, 5, NO_LEVEL])));
        let pin = levels.len() as u32;
        let fan_ins = [(); 2].map(|()| {
            let from = pins.len() - reach.min(pins.len());
            2 * pins[random.between(from, pins.len() - 1)] + random.below(2) as u32
        });
        let above = fan_ins.iter().map(|&fan_in| levels[fan_in as usize >> 1]).max().expect("two");
        let more = if is_spread && random.chance(5) { random.below(3) as u32 } else { 0 };
        levels.push(above + 1 + more);
        gates.extend([pin, fan_ins[0], fan_ins[1]]);
        pins.push(pin);
    }
    (gates, levels)
}

/// A stage on which so many nodes were tried to be placed, by the model.
pub fn any(random: &mut Random, edition: Edition, nodes: usize) -> Case {
    let (gates, levels) = netlist(random, 60, 200);
    let mut case = Case::empty(edition, gates, levels);
    for _ in 0..nodes {
        case.aim(random);
        let (all, edition) = (usize::MAX, edition.number());
        let Case { counts, slots, place, node, .. } = &case;
        if let Ok(repaired) = repair::place(case.netlist(), counts, slots, all, all, *place, *node, edition) {
            case.slots = repaired.slots;
            case.counts = repaired.counts;
        }
    }
    // Any order is in form, and counts need not agree with the slots.
    let mut entries: Vec<[u32; 2]> = case.counts.chunks(2).map(|entry| [entry[0], entry[1]]).collect();
    random.shuffle(&mut entries);
    if random.chance(3) {
        for entry in &mut entries {
            entry[1] += random.pick(&[0, 0, 1, 1000]);
        }
    }
    case.counts = entries.concat();
    case.aim(random);
    case
}

/// The full tree of level 13: 8192 inputs, a gate for each two, and so on up. Of the small edition 12 and 4096.
pub fn full_tree(edition: Edition) -> Case {
    let inputs = edition.slots() as u32;
    let mut levels = vec![0; inputs as usize + 1];
    let mut gates = Vec::new();
    let mut below: Vec<u32> = (1..=inputs).collect();
    for level in 1..=edition.levels() {
        let pins: Vec<u32> = (levels.len() as u32..).take(below.len() / 2).collect();
        for (pin, fan_ins) in pins.iter().zip(below.chunks(2)) {
            gates.extend([*pin, 2 * fan_ins[0], 2 * fan_ins[1] + 1]);
            levels.push(level);
        }
        below = pins;
    }
    let place = Place { level: edition.levels(), slot: 0 };
    Case { place, node: below[0], ..Case::empty(edition, gates, levels) }
}
