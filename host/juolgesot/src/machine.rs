//! Cycles of a plan: inputs put, all major stages run, outputs read, by pin.

use crate::plans::build;
use crate::refusal::Refusal;
use crate::run::{finishing_turns, run_into, BLOCK_ROOM};
use plan::{Part, PartHead, Pin, PinIv, Plan, Script, StatePosition, EMPTY};
use std::collections::HashMap;
use std::fmt;

/// A built plan and its state, cycle by cycle. At the start all bits are 0.
///
/// A cycle reads the state as the cycle before left it, with what was put since, and stores a new one: that of each register
/// and output that a part stores, the other bits staying as they are.
#[derive(Debug, Clone)]
pub struct Machine {
    script: Script,
    /// For each major stage, a block for each turn.
    turns: Vec<Vec<u32>>,
    /// Where the plan's parts read a pin from the old state.
    read: HashMap<Pin, StatePosition>,
    /// Where outputs are stored.
    outputs: HashMap<PinIv, StatePosition>,
    state: Vec<u32>,
    next: Vec<u32>,
    room: Vec<u32>,
}

/// Why a machine did not do what was asked.
#[derive(Debug, Clone, Copy, PartialEq, Eq)]
pub enum Trouble {
    /// The plan reads the pin nowhere from the state.
    NoPlace(Pin),
    /// A major stage was refused.
    Refused {
        /// The major stage.
        stage: usize,
        /// What refused it.
        refusal: Refusal,
    },
    /// A major stage was not finished: its words cannot be followed.
    TurnsLeft {
        /// The major stage.
        stage: usize,
        /// How many turns are left.
        turns: u64,
    },
}

impl Machine {
    /// Builds the plan's script.
    ///
    #[doc = "```"]
    #[doc = include_str!("../examples/machine.rs")]
    #[doc = "```"]
    pub fn new(plan: &Plan) -> Result<Self, Refusal> {
        let mut machine = Machine::of_script(build(&plan.record())?);
        for (index, &pin) in plan.layout.iter().enumerate().filter(|&(_, &pin)| pin != EMPTY) {
            machine.read.insert(Pin(pin), StatePosition(index as u32));
        }
        for entry in plan.positions.iter().filter(|entry| entry.staged == 0) {
            machine.read.insert(Pin(entry.pin), StatePosition(entry.position));
        }
        for (part, head) in plan.parts().zip(machine.script.parts()) {
            for pin in
                part.endpoints.iter().filter(|endpoint| endpoint.kind == 0).map(|endpoint| PinIv(endpoint.x))
            {
                if let Some(position) = stored_at(part, head, pin) {
                    machine.outputs.entry(pin).or_insert(position);
                }
            }
        }
        Ok(machine)
    }

    /// A machine of a script that is built already. It knows no pins: bits are read and put through the state.
    #[must_use]
    pub fn of_script(script: Script) -> Self {
        let turns =
            script.stages().map(|starts| finishing_turns(&script.words, starts, script.edition)).collect();
        let state = vec![0; script.state_words as usize];
        let room = vec![0; BLOCK_ROOM * script.blocks];
        let next = state.clone();
        Machine { script, turns, read: HashMap::new(), outputs: HashMap::new(), state, next, room }
    }

    /// The script.
    #[must_use]
    pub fn script(&self) -> &Script {
        &self.script
    }

    /// Where the plan's parts read a pin from the old state: an input, or a register's output.
    #[must_use]
    pub fn position(&self, pin: Pin) -> Option<StatePosition> {
        self.read.get(&pin).copied()
    }

    /// Where a primary output is stored. None where no part stores it in a normal word under an enable that is always 1.
    #[must_use]
    pub fn output_position(&self, pin: PinIv) -> Option<StatePosition> {
        self.outputs.get(&pin).copied()
    }

    /// Puts an input's bit, or a register's.
    pub fn put(&mut self, pin: Pin, value: bool) -> Result<(), Trouble> {
        let position = self.position(pin).ok_or(Trouble::NoPlace(pin))?;
        position.set(&mut self.state, value);
        Ok(())
    }

    /// The bit of an input or a register.
    #[must_use]
    pub fn get(&self, pin: Pin) -> Option<bool> {
        Some(self.position(pin)?.get(&self.state))
    }

    /// A primary output's bit, as the last cycle stored it.
    #[must_use]
    pub fn output(&self, pin: PinIv) -> Option<bool> {
        Some(self.output_position(pin)?.get(&self.state))
    }

    /// The whole state.
    #[must_use]
    pub fn state(&self) -> &[u32] {
        &self.state
    }

    /// The same to be changed.
    #[must_use]
    pub fn state_mut(&mut self) -> &mut [u32] {
        &mut self.state
    }

    /// Runs one cycle: all major stages in their order. On trouble the state is as it was.
    pub fn cycle(&mut self) -> Result<(), Trouble> {
        self.next.copy_from_slice(&self.state);
        for (stage, starts) in self.script.stages().enumerate() {
            let (words, turns) = (&self.script.words, &self.turns[stage]);
            let (new, room) = (&mut self.next, &mut self.room);
            match run_into(words, starts, turns, &self.state, new, room, self.script.edition) {
                Ok(0) => {}
                Ok(turns) => return Err(Trouble::TurnsLeft { stage, turns }),
                Err(refusal) => return Err(Trouble::Refused { stage, refusal }),
            }
        }
        std::mem::swap(&mut self.state, &mut self.next);
        Ok(())
    }
}

/// Where a part stores an output: a bit that captures its pin, always enabled, with the output's inversion.
fn stored_at(part: &Part, head: PartHead, output: PinIv) -> Option<StatePosition> {
    let tables = &part.tables;
    let bit_of =
        |list: &[u32], word: usize, bit: u32| list.get(word).map_or(false, |word| word >> bit & 1 == 1);
    part.stored().take(head.normal_words() as usize).enumerate().find_map(|(word, (stage, location))| {
        let bit = (0..32).find(|&bit| {
            stage.captured(location, bit) == Some(output.pin())
                && bit_of(&tables.enable_set0, word, bit)
                && bit_of(&tables.enable_inv, word, bit)
                && bit_of(&tables.data_inv, word, bit) == output.is_inverted()
        })?;
        Some(StatePosition(32 * (head.state_start + word as u32) + bit))
    })
}

impl fmt::Display for Trouble {
    fn fmt(&self, f: &mut fmt::Formatter<'_>) -> fmt::Result {
        match self {
            Trouble::NoPlace(pin) => write!(f, "{} has no place in the state", pin),
            Trouble::Refused { stage, refusal } => write!(f, "major stage {}: {}", stage, refusal),
            Trouble::TurnsLeft { stage, turns } => {
                write!(f, "major stage {}: {} turns are left", stage, turns)
            }
        }
    }
}

impl std::error::Error for Trouble {}
