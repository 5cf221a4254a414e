//! What the gates give: the values of some pins, worked out from the plan's gates and old states, of 64 cycles at once.

use juolgesot::{Pin, PinIv, StatePosition};
use model::record;
use std::collections::{HashMap, HashSet};

/// Where the old state has pins.
pub type Positions = HashMap<Pin, StatePosition>;

/// The input layout, then the positions that are not staged, later entries winning.
pub fn positions(record: &[u8]) -> Result<Positions, String> {
    let words = record::words(record);
    Ok(positions_of(&record::read(record.len(), &words)?))
}

fn positions_of(plan: &record::Plan<'_>) -> Positions {
    let layout = plan.layout.iter().zip(0..).map(|(&pin, position)| (Pin(pin), StatePosition(position)));
    let unstaged = plan.positions.chunks(record::POSITION).filter(|entry| entry[2] == 0);
    layout.chain(unstaged.map(|entry| (Pin(entry[0]), StatePosition(entry[1])))).collect()
}

/// Cycles that are worked out at once: a bit of a word for each.
pub const CYCLES: u32 = u64::BITS;

/// The gates that some pins need.
pub struct Cone {
    /// Values of each pin: first those that the old states have, then the gates, each after its fan-ins; the last is 0.
    values: Vec<u64>,
    read: Vec<StatePosition>,
    gates: Vec<(Value, Value)>,
    wanted: Vec<Value>,
}

/// Twice a place among the values, plus 1 where the value is inverted.
type Value = u32;

impl Cone {
    /// The gates of a plan record that these pins need. A pin that the plan neither reads nor has a gate for is 0.
    pub fn of(record: &[u8], wanted: &[PinIv]) -> Result<Self, String> {
        let words = record::words(record);
        let plan = record::read(record.len(), &words)?;
        let positions = positions_of(&plan);
        let is_worked_out = |gate: &&[u32]| !positions.contains_key(&Pin(gate[0]));
        let mut needed: HashSet<Pin> = wanted.iter().map(|pin| pin.pin()).collect();
        for gate in plan.gates.chunks(3).rev().filter(is_worked_out) {
            if needed.contains(&Pin(gate[0])) {
                needed.extend(gate[1..].iter().map(|&fan_in| PinIv(fan_in).pin()));
            }
        }
        let mut read: Vec<Pin> = needed.iter().copied().filter(|pin| positions.contains_key(pin)).collect();
        read.sort_unstable_by_key(|pin| positions[pin]);
        let mut places: HashMap<Pin, u32> = read.iter().copied().zip(0..).collect();
        let gates: Vec<&[u32]> = plan.gates.chunks(3).filter(is_worked_out).collect();
        let gates: Vec<&[u32]> = gates.into_iter().filter(|gate| needed.contains(&Pin(gate[0]))).collect();
        let zero = (read.len() + gates.len()) as u32;
        let value = |pin: PinIv, places: &HashMap<Pin, u32>| {
            2 * places.get(&pin.pin()).copied().unwrap_or(zero) + pin.is_inverted() as u32
        };
        let mut worked_out = Vec::new();
        for (gate, place) in gates.into_iter().zip(read.len() as u32..) {
            let fan_in = |index: usize| value(PinIv(gate[index]), &places);
            worked_out.push((fan_in(1), fan_in(2)));
            places.insert(Pin(gate[0]), place);
        }
        Ok(Cone {
            values: vec![0; zero as usize + 1],
            read: read.iter().map(|pin| positions[pin]).collect(),
            gates: worked_out,
            wanted: wanted.iter().map(|&pin| value(pin, &places)).collect(),
        })
    }

    /// Takes an old state as that of a cycle, below `CYCLES`.
    pub fn take(&mut self, cycle: u32, old: &[u32]) {
        for (value, position) in self.values.iter_mut().zip(&self.read) {
            put(value, cycle, position.get(old));
        }
    }

    /// Works the values out, of all cycles.
    pub fn work_out(&mut self) {
        for (index, &(first, second)) in self.gates.iter().enumerate() {
            self.values[self.read.len() + index] = value(&self.values, first) & value(&self.values, second);
        }
    }

    /// The values of a wanted pin, as they were worked out last.
    pub fn wanted(&self, index: usize) -> u64 {
        value(&self.values, self.wanted[index])
    }
}

/// Puts the bit of a cycle.
pub fn put(word: &mut u64, cycle: u32, bit: bool) {
    *word = *word & !(1 << cycle) | (bit as u64) << cycle;
}

fn value(values: &[u64], at: Value) -> u64 {
    values[(at >> 1) as usize] ^ 0u64.wrapping_sub((at & 1).into())
}
