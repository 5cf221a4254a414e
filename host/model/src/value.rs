//! "The value of a pin by the gates".

use crate::plan::{self, Found};
use crate::record::{self, Part, Plan, EMPTY};
use crate::Refused;

/// Values of pins for one part, over the two states.
pub struct Values {
    /// The pins that the part reads in stage 0 and their state bits, ascending by pin.
    read: Vec<(u32, bool)>,
    /// The gates' pins and their values, as far as they are worked out, in the order of the list: ascending by pin, as
    /// 6 is excluded.
    gates: Vec<(u32, bool)>,
}

impl Values {
    /// A part that is not there reads nothing: only the gates speak. What lies behind a state is 0.
    pub fn of(plan: &Plan<'_>, part: Option<&Part<'_>>, found: &Found, old: &[u32], new: &[u32]) -> Self {
        let mut read = Vec::new();
        let slots = part.map_or(&[][..], |part| part.stages[0].level_0());
        for &pin in slots.iter().filter(|&&pin| pin != EMPTY) {
            if let Some(bit) = found.bit(pin) {
                let word = (bit.position >> 5) as usize;
                let held = if bit.staged { new.get(word) } else { old.get(word) };
                read.push((pin, held.copied().unwrap_or(0) >> (bit.position & 31) & 1 == 1));
            }
        }
        read.sort_unstable();
        let mut values = Values { read, gates: Vec::new() };
        values.work_up(plan.gates);
        values
    }

    /// From the first gate to the last: fan-ins are below their gates.
    fn work_up(&mut self, gates: &[u32]) {
        for gate in gates.chunks(3) {
            let fan_in = |inverted: u32| self.value(inverted >> 1) ^ (inverted & 1 == 1);
            let bit = known(&self.read, gate[0]).unwrap_or_else(|| fan_in(gate[1]) && fan_in(gate[2]));
            self.gates.push((gate[0], bit));
        }
    }

    /// "Its state bit if the part reads it in stage 0; else, for a gate, the AND of its fan-ins' values, inversions
    /// applied; else 0".
    pub fn value(&self, pin: u32) -> bool {
        known(&self.read, pin).or_else(|| known(&self.gates, pin)).unwrap_or(false)
    }

    /// One bit a gate: bit g mod 32 of word g/32 is that of gate g.
    pub fn gate_words(&self) -> Vec<u32> {
        let word = |gates: &[(u32, bool)]| gates.iter().rev().fold(0, |word, gate| word << 1 | gate.1 as u32);
        self.gates.chunks(32).map(word).collect()
    }
}

/// The value of a pin in a list that ascends by pin.
fn known(list: &[(u32, bool)], pin: u32) -> Option<bool> {
    list.binary_search_by_key(&pin, |&(pin, _)| pin).ok().map(|index| list[index].1)
}

/// What a call answers with 0.
#[derive(Debug, Clone, PartialEq, Eq)]
pub struct Answer {
    /// The value of the pin that is asked for.
    pub bit: bool,
    pub gate_words: Vec<u32>,
}

/// What a call answers where the room is long enough: 29, 5, 6, and 14 where so many words for the gates' bits are too few.
/// The empty pin is no pin.
pub fn answer(
    record_bytes: usize,
    words: &[u32],
    part: u32,
    pin: u32,
    old: &[u32],
    new: &[u32],
    bits_words: usize,
) -> Result<Answer, Refused> {
    let plan = record::plan(record_bytes, words)?;
    if let Some(fault) = plan::gate_fault(&plan) {
        return Err(fault);
    }
    let gates = plan.gates.len() / 3;
    if bits_words < (gates + 31) / 32 {
        return Err(Refused::plain(14));
    }
    let values = Values::of(&plan, plan.parts.get(part as usize), &Found::of(&plan), old, new);
    Ok(Answer { bit: pin != EMPTY && values.value(pin), gate_words: values.gate_words() })
}
