//! A built script, run cycle by cycle.
//!
//! A cycle reads the old state: its inputs, and the registers as the cycle before stored them. GEM places a register's
//! output where its input is stored, so the new state of a cycle is the old state of the next once the next inputs are
//! put in. Staged bits are read from the new state, and only where an earlier major stage of the cycle stored them.

use crate::States;
use juolgesot::{finishing_turns, run_into, Refusal, Script, BLOCK_ROOM};

pub struct Machine {
    script: Script,
    blocks: usize,
    /// For each major stage, a block for each turn: block after block, round and round, until all are finished.
    turns: Vec<Vec<u32>>,
    old: Vec<u32>,
    new: Vec<u32>,
    room: Vec<u32>,
    /// Cycles that came to their end.
    cycles: u64,
}

/// Why a cycle did not come to its end.
#[derive(Debug)]
pub enum Trouble {
    Refused { stage: usize, refusal: Refusal },
    TurnsLeft { stage: usize, turns: u64 },
}

impl std::fmt::Display for Trouble {
    fn fmt(&self, f: &mut std::fmt::Formatter<'_>) -> std::fmt::Result {
        match self {
            Trouble::Refused { stage, refusal } => write!(f, "major stage {}: {}", stage, refusal),
            Trouble::TurnsLeft { stage, turns } => {
                write!(f, "major stage {}: {} turns are left", stage, turns)
            }
        }
    }
}

impl Machine {
    /// All bits are 0 at the start. `blocks` and `stages` are the plan's numbers of blocks and major stages.
    pub fn new(script: Script, blocks: usize, stages: usize) -> Result<Self, String> {
        if blocks == 0 || stages == 0 || blocks.checked_mul(stages) != script.starts.len().checked_sub(1) {
            return Err(format!(
                "a script of {} starts is none of {} blocks in {} major stages",
                script.starts.len(),
                blocks,
                stages
            ));
        }
        let turns = (0..stages)
            .map(|stage| {
                let starts = &script.starts[stage * blocks..(stage + 1) * blocks + 1];
                finishing_turns(&script.words, starts, script.edition)
            })
            .collect();
        let state = vec![0; script.state_words as usize];
        let room = vec![0; BLOCK_ROOM * blocks];
        Ok(Machine { blocks, turns, old: state.clone(), new: state, room, script, cycles: 0 })
    }

    /// The state that the next cycle reads.
    pub fn old(&mut self) -> &mut [u32] {
        &mut self.old
    }

    /// The states before and after the last cycle that came to its end; the cycles that did, this one among them.
    pub fn states(&self) -> States<'_> {
        States { before: &self.new, after: &self.old, cycles: self.cycles }
    }

    /// Runs one cycle. Afterwards `old` is what it stored.
    pub fn cycle(&mut self) -> Result<(), Trouble> {
        for (stage, turns) in self.turns.iter().enumerate() {
            let starts = &self.script.starts[stage * self.blocks..(stage + 1) * self.blocks + 1];
            let (words, new, room) = (&self.script.words, &mut self.new, &mut self.room);
            match run_into(words, starts, turns, &self.old, new, room, self.script.edition) {
                Ok(0) => {}
                Ok(turns) => return Err(Trouble::TurnsLeft { stage, turns }),
                Err(refusal) => return Err(Trouble::Refused { stage, refusal }),
            }
        }
        std::mem::swap(&mut self.old, &mut self.new);
        self.cycles += 1;
        Ok(())
    }
}
