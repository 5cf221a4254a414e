//! Positions and counts, and the refusals of a plan in form but 8: 6, 7 and 9 to 13. Each function gives the lowest
//! place (part, item) of one refusal, if there is any.

use crate::blocks::Blocks;
use crate::record::{below, is_pin, Part, Plan, EMPTY, ENDPOINT, POSITION};
use crate::Refused;
use std::collections::{HashMap, HashSet};

/// Write-out words of a part.
#[derive(Debug, Clone, Copy, PartialEq, Eq)]
pub struct Counts {
    pub normal: u64,
    pub srams: u64,
    pub duplicates: u64,
}

impl Counts {
    pub fn write_outs(&self) -> u64 {
        self.normal + self.srams + self.duplicates
    }
}

pub fn counts(part: &Part<'_>) -> Counts {
    counts_of(part.endpoints, part.stages.iter().map(|stage| stage.locations.len() as u64).sum())
}

/// The counts of these endpoints (kind, x, y, any) and so many locations. Activations are pairs (d, en): output i is
/// (i, 1), staged pin p is (2p, 1).
pub fn counts_of(endpoints: &[u32], locations: u64) -> Counts {
    let mut activations = HashSet::new();
    let mut pins = HashSet::new();
    let mut srams = 0;
    for endpoint in endpoints.chunks(ENDPOINT) {
        let (d, en) = match endpoint[0] {
            0 => (endpoint[1], 1),
            1 => (2 * endpoint[1], 1),
            2 => (endpoint[1], endpoint[2]),
            _ => {
                srams += 1;
                continue;
            }
        };
        activations.insert((d, en));
        pins.insert(d >> 1);
    }
    let duplicates = ((activations.len() - pins.len() + 31) / 32) as u64;
    Counts { normal: locations, srams, duplicates }
}

pub fn gate_fault(plan: &Plan<'_>) -> Option<Refused> {
    bad_gate(plan.gates).map(|gate| Refused::at(6, 0, gate))
}

/// The first gate that is not as refusal 6 asks; a cut one is not.
pub fn bad_gate(gates: &[u32]) -> Option<usize> {
    let mut before = 0;
    gates.chunks(3).position(|gate| match *gate {
        [pin, first, second] => {
            let is_bad = pin <= before || first >> 1 >= pin || second >> 1 >= pin;
            before = pin;
            is_bad
        }
        _ => true,
    })
}

pub fn location_fault(plan: &Plan<'_>, counts: &[Counts]) -> Option<Refused> {
    let most = plan.edition.lanes();
    for (number, (part, counts)) in plan.parts.iter().zip(counts).enumerate() {
        let mut locations = part.stages.iter().flat_map(|stage| stage.locations);
        let item = match locations.position(|&location| location as usize >= most) {
            Some(index) => index,
            None if counts.write_outs() > most as u64 => counts.normal as usize,
            None => continue,
        };
        return Some(Refused::at(7, number, item));
    }
    None
}

/// The fan-ins of gates.
pub struct Gates {
    fan_ins: HashMap<u32, (u32, u32)>,
}

impl Gates {
    pub fn of(plan: &Plan<'_>) -> Self {
        Gates { fan_ins: plan.gates.chunks(3).map(|gate| (gate[0], (gate[1], gate[2]))).collect() }
    }

    pub fn fan_ins(&self, pin: u32) -> Option<(u32, u32)> {
        self.fan_ins.get(&pin).copied()
    }
}

pub fn slot_fault(plan: &Plan<'_>, gates: &Gates) -> Option<Refused> {
    let slots = plan.edition.slots();
    for (number, part) in plan.parts.iter().enumerate() {
        for (s, stage) in part.stages.iter().enumerate() {
            let good = |index: usize| {
                let pin = stage.at(index);
                if pin == EMPTY || !is_pin(pin) || index >= slots {
                    return pin == EMPTY || is_pin(pin);
                }
                let (a, b) = below(index);
                let (a, b) = (stage.at(a), stage.at(b));
                pin == a || gates.fan_ins(pin).map_or(false, |(x, y)| (x >> 1, y >> 1) == (a, b))
            };
            // Item x is position x (none for 0) and slot x of level 0.
            let fault = (0..slots).find(|&x| !good(slots + x) || x > 0 && !good(x));
            if let Some(item) = fault {
                return Some(Refused::at(9, number, slots * s + item));
            }
        }
    }
    None
}

pub fn absent_fault(plan: &Plan<'_>) -> Option<Refused> {
    let slots = plan.edition.slots();
    for (number, part) in plan.parts.iter().enumerate() {
        for (s, stages) in part.stages.windows(2).enumerate() {
            let pins = stages[0].positions().map(|(_, pin)| pin);
            let before: HashSet<u32> = pins.filter(|&pin| pin != EMPTY).collect();
            let absent = |pin: &u32| *pin != EMPTY && !before.contains(pin);
            if let Some(slot) = stages[1].level_0().iter().position(absent) {
                return Some(Refused::at(10, number, slots * (s + 1) + slot));
            }
        }
    }
    None
}

pub fn computed_fault(plan: &Plan<'_>) -> Option<Refused> {
    let slots = plan.edition.slots();
    for (number, part) in plan.parts.iter().enumerate() {
        let read: HashSet<u32> =
            part.stages[0].level_0().iter().copied().filter(|&pin| pin != EMPTY).collect();
        for (s, stage) in part.stages.iter().enumerate() {
            let computed = stage
                .positions()
                .find(|&(p, pin)| pin != EMPTY && pin != stage.at(below(p).0) && read.contains(&pin));
            if let Some((position, _)) = computed {
                return Some(Refused::at(11, number, slots * s + position));
            }
        }
    }
    None
}

/// State positions of pins: input layout, then unstaged positions, later entries winning; and staged ones likewise.
pub struct Found {
    unstaged: HashMap<u32, u32>,
    staged: HashMap<u32, u32>,
}

/// Where a pin's bit is in the state.
#[derive(Debug, Clone, Copy, PartialEq, Eq)]
pub struct StateBit {
    pub staged: bool,
    pub position: u32,
}

impl StateBit {
    /// The word as a read set has it.
    pub fn read_word(self) -> u32 {
        self.position >> 5 | (self.staged as u32) << 31
    }
}

impl Found {
    pub fn of(plan: &Plan<'_>) -> Self {
        let mut unstaged = HashMap::new();
        let mut staged = HashMap::new();
        for (index, &pin) in plan.layout.iter().enumerate() {
            if pin != EMPTY {
                unstaged.insert(pin, index as u32);
            }
        }
        for entry in plan.positions.chunks(POSITION) {
            let map = if entry[2] == 0 { &mut unstaged } else { &mut staged };
            map.insert(entry[0], entry[1]);
        }
        Found { unstaged, staged }
    }

    pub fn bit(&self, pin: u32) -> Option<StateBit> {
        match self.unstaged.get(&pin) {
            Some(&position) => Some(StateBit { staged: false, position }),
            None => self.staged.get(&pin).map(|&position| StateBit { staged: true, position }),
        }
    }
}

pub fn position_fault(plan: &Plan<'_>, found: &Found, counts: &[Counts], blocks: &Blocks) -> Option<Refused> {
    // Normal write-out words of the major stages before the part's.
    let mut earlier: HashSet<u64> = HashSet::new();
    let mut known_majors = 0;
    for (number, part) in plan.parts.iter().enumerate() {
        if part.major > known_majors {
            known_majors = part.major;
            for (other, counts) in counts.iter().enumerate() {
                if plan.parts[other].major < part.major {
                    let start = blocks.state_starts[other];
                    earlier.extend(start..start + counts.normal);
                }
            }
        }
        let good = |pin: u32| match found.bit(pin) {
            None => false,
            Some(bit) => {
                let word = (bit.position >> 5) as u64;
                if bit.staged {
                    earlier.contains(&word)
                } else {
                    word < blocks.state_words
                }
            }
        };
        if let Some(slot) = part.stages[0].level_0().iter().position(|&pin| pin != EMPTY && !good(pin)) {
            return Some(Refused::at(12, number, slot));
        }
    }
    None
}

pub fn table_fault(plan: &Plan<'_>) -> Option<Refused> {
    let slots = plan.edition.slots();
    for (number, part) in plan.parts.iter().enumerate() {
        let mut entries = part.sram_table[..slots].iter().chain(&part.enable_table[..slots]);
        if let Some(entry) = entries.position(|&entry| entry as usize >= slots) {
            return Some(Refused::at(13, number, entry));
        }
    }
    None
}
