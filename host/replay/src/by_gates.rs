//! Outputs and registers held to the plan's gates: an output is its pin's value; a register took its data, inverted where they
//! are, where it was enabled, and holds its bit elsewhere. So the replay knows that a register was not enabled while its data
//! differed, and was seen to hold. 64 cycles are looked at together.

use crate::gates::{put, Cone, CYCLES};
use crate::ports::{Port, Register};
use crate::States;
use juolgesot::PinIv;

/// What was seen.
#[derive(Debug, Default, Clone, Copy, PartialEq, Eq)]
pub struct Seen {
    /// Bits of outputs and of registers that were looked at.
    pub outputs: u64,
    pub registers: u64,
    /// Bits of registers that were not enabled while their data differed, and that were stored inverted.
    pub held: u64,
    pub inverted: u64,
}

pub struct ByGates {
    /// The gates below the outputs, then below each register's data and enable.
    cone: Cone,
    outputs: Vec<Port>,
    registers: Vec<Register>,
    /// What each output is, and what each register held and then stores, a bit for each cycle.
    given_out: Vec<u64>,
    held: Vec<u64>,
    stored: Vec<u64>,
    /// The number of the first cycle, and how many were taken.
    first: u64,
    taken: u32,
    pub seen: Seen,
}

impl ByGates {
    pub fn of(record: &[u8], outputs: &[Port], registers: &[Register]) -> Result<Self, String> {
        let mut wanted: Vec<PinIv> = outputs.iter().map(|port| port.place.pin).collect();
        wanted.extend(registers.iter().flat_map(|register| [register.data, register.enable]));
        Ok(ByGates {
            cone: Cone::of(record, &wanted)?,
            outputs: outputs.to_vec(),
            registers: registers.to_vec(),
            given_out: vec![0; outputs.len()],
            held: vec![0; registers.len()],
            stored: vec![0; registers.len()],
            first: 0,
            taken: 0,
            seen: Seen::default(),
        })
    }

    /// Takes the states of a cycle that came to its end, and looks where there are enough of them.
    pub fn take(&mut self, states: &States<'_>) -> Result<(), String> {
        let States { before, after, .. } = *states;
        self.cone.take(self.taken, before);
        for (given, port) in self.given_out.iter_mut().zip(&self.outputs) {
            put(given, self.taken, port.place.get(after));
        }
        for (index, register) in self.registers.iter().enumerate() {
            put(&mut self.held[index], self.taken, register.output.get(before));
            put(&mut self.stored[index], self.taken, register.output.get(after));
        }
        self.taken += 1;
        if self.taken == CYCLES {
            return self.look();
        }
        Ok(())
    }

    /// Looks at what was taken: the first cycle that differs, and the first of it.
    pub fn look(&mut self) -> Result<(), String> {
        if self.taken == 0 {
            return Ok(());
        }
        self.cone.work_out();
        let cycles = u64::MAX >> (CYCLES - self.taken);
        let differs = |index: usize| self.difference(index) & cycles;
        let items = 0..self.outputs.len() + self.registers.len();
        if let Some(cycle) = items.clone().map(|index| differs(index).trailing_zeros()).min() {
            if cycle < CYCLES {
                let item =
                    items.clone().find(|&index| differs(index) >> cycle & 1 == 1).expect("one differs");
                return Err(format!(
                    "cycle {}, {}",
                    self.first + u64::from(cycle),
                    self.sentence(item, cycle)
                ));
            }
        }
        for (index, register) in self.registers.iter().enumerate() {
            let (data, enabled) = self.given(index);
            self.seen.held += u64::from((!enabled & (data ^ self.held[index]) & cycles).count_ones());
            if register.data.is_inverted() {
                self.seen.inverted += u64::from((enabled & cycles).count_ones());
            }
        }
        self.seen.outputs += u64::from(self.taken) * self.outputs.len() as u64;
        self.seen.registers += u64::from(self.taken) * self.registers.len() as u64;
        self.first += u64::from(self.taken);
        self.taken = 0;
        Ok(())
    }

    /// Data and enable of a register.
    fn given(&self, register: usize) -> (u64, u64) {
        let at = self.outputs.len() + 2 * register;
        (self.cone.wanted(at), self.cone.wanted(at + 1))
    }

    /// The cycles in which an output, or a register behind them, is not what the gates say.
    fn difference(&self, index: usize) -> u64 {
        match index.checked_sub(self.outputs.len()) {
            None => self.cone.wanted(index) ^ self.given_out[index],
            Some(register) => {
                let (data, enabled) = self.given(register);
                enabled & data ^ !enabled & self.held[register] ^ self.stored[register]
            }
        }
    }

    fn sentence(&self, index: usize, cycle: u32) -> String {
        let bit = |word: u64| word >> cycle & 1;
        match index.checked_sub(self.outputs.len()) {
            None => {
                let Port { name, place } = &self.outputs[index];
                let (said, stored) = (bit(self.cone.wanted(index)), bit(self.given_out[index]));
                format!(
                    "output {}, {} ({}): {} by the gates, and {} is stored",
                    name, place.pin, place.position, said, stored
                )
            }
            Some(at) => {
                let (data, enabled) = self.given(at);
                let Register { name, output, data: pin, .. } = &self.registers[at];
                format!(
                    "register {}, {} ({}): held {}, enable {}, data {} ({}), and {} is stored",
                    name,
                    output.pin,
                    output.position,
                    bit(self.held[at]),
                    bit(enabled),
                    bit(data),
                    pin,
                    bit(self.stored[at])
                )
            }
        }
    }
}
