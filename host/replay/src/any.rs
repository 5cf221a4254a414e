//! Any netlist, cycle by cycle: inputs from a text, each output and register held to the plan's gates.
//!
//! ```text
//! NAME = VALUE     puts a number on the inputs NAME 0, NAME 1 .. (least bit first), or a bit on the input NAME; it stays
//! cycle [COUNT]    so many cycles (1)
//! # ..             a comment
//! ```
//!
//! At the start all inputs and registers are 0. Numbers are decimal, or hex behind 0x.

pub use crate::by_gates::Seen;

use crate::by_gates::ByGates;
use crate::gates;
use crate::machine::Machine;
use crate::ports::{Bus, Ports};
use crate::{traffic, Netlist, States};
use juolgesot::Script;

/// A line of the text.
#[derive(Debug, Clone, PartialEq, Eq)]
enum Step {
    /// An input bus by its number, and the bits that it gets, least first.
    Put(usize, Vec<bool>),
    Cycles(u64),
}

/// Cycles that one line may stand for.
const MOST_OF_A_LINE: u32 = 100_000_000;

pub struct Any {
    machine: Machine,
    ports: Ports,
    inputs: Vec<Bus>,
    outputs: Vec<Bus>,
    by_gates: ByGates,
    steps: Vec<Step>,
}

impl Any {
    /// `script` is that of the netlist's plan, `inputs` the text; what is wrong is told with the file's name.
    pub fn new(netlist: &Netlist, script: Script) -> Result<Self, String> {
        let ports = Ports::read(&netlist.ports, script.state_words as usize)?;
        ports.belong_to(&gates::positions(&netlist.record)?)?;
        let by_gates = ByGates::of(&netlist.record, &ports.outputs, &ports.registers)?;
        let machine = Machine::new(script, netlist.blocks(), netlist.stages())?;
        let (inputs, outputs) = (Bus::of_inputs(&ports), Bus::of_outputs(&ports));
        Ok(Any { machine, ports, inputs, outputs, by_gates, steps: Vec::new() })
    }

    /// Takes the inputs from a text, or says which line has not the form.
    pub fn read(&mut self, text: &str) -> Result<(), String> {
        for (number, line) in text.lines().enumerate() {
            let line = line.split('#').next().unwrap_or("").trim();
            if !line.is_empty() {
                let step = self.step(line).map_err(|what| format!("line {}: {}", number + 1, what))?;
                self.steps.push(step);
            }
        }
        Ok(())
    }

    fn step(&self, line: &str) -> Result<Step, String> {
        if let Some((name, value)) = line.split_once('=') {
            let name = name.trim();
            let found = self.inputs.iter().position(|bus| bus.name == name);
            let bus = found.ok_or_else(|| format!("there is no input '{}'", name))?;
            return bits(value.trim(), self.inputs[bus].bits.len()).map(|bits| Step::Put(bus, bits));
        }
        let count = match line.split_whitespace().collect::<Vec<_>>()[..] {
            ["cycle"] => 1,
            ["cycle", count] => traffic::number(count)?,
            _ => return Err("it is neither NAME = VALUE nor cycle [COUNT]".to_string()),
        };
        match count <= MOST_OF_A_LINE {
            true => Ok(Step::Cycles(count.into())),
            false => Err(format!("the count is a number from 0 to {}, not {}", MOST_OF_A_LINE, count)),
        }
    }

    /// How many cycles there are in all.
    pub fn all_cycles(&self) -> u64 {
        self.steps.iter().map(|step| if let Step::Cycles(count) = step { *count } else { 0 }).sum()
    }

    pub fn ports(&self) -> &Ports {
        &self.ports
    }

    pub fn states(&self) -> States<'_> {
        self.machine.states()
    }

    /// The names of the outputs, and their digits, the highest first, after the last cycle.
    pub fn outputs(&self) -> impl Iterator<Item = (&str, String)> {
        let after = self.states().after;
        self.outputs.iter().map(move |bus| (bus.name.as_str(), bus.digits(after)))
    }

    /// What was held to the gates.
    pub fn seen(&self) -> Seen {
        self.by_gates.seen
    }

    /// Runs all cycles, and calls after each of them; or gives the first difference that one shows.
    pub fn run<E: From<String>>(&mut self, mut after: impl FnMut(&Self) -> Result<(), E>) -> Result<(), E> {
        for step in std::mem::take(&mut self.steps) {
            match step {
                Step::Put(bus, bits) => {
                    for (position, bit) in self.inputs[bus].bits.iter().zip(bits) {
                        position.set(self.machine.old(), bit);
                    }
                }
                Step::Cycles(count) => {
                    for _ in 0..count {
                        self.cycle()?;
                        after(self)?;
                        self.by_gates.take(&self.machine.states())?;
                        self.keep_inputs();
                    }
                }
            }
        }
        Ok(self.by_gates.look()?)
    }

    fn cycle(&mut self) -> Result<(), String> {
        match self.machine.cycle() {
            Ok(()) => Ok(()),
            Err(trouble) => {
                self.by_gates.look()?;
                Err(format!("cycle {}, {}", self.states().cycles, trouble))
            }
        }
    }

    /// The next cycle has the inputs of the last one.
    fn keep_inputs(&mut self) {
        for bus in &self.inputs {
            for position in &bus.bits {
                let bit = position.get(self.machine.states().before);
                position.set(self.machine.old(), bit);
            }
        }
    }
}

/// The bits of a number, least first.
fn bits(word: &str, width: usize) -> Result<Vec<bool>, String> {
    let number = match word.strip_prefix("0x") {
        Some(digits) => u128::from_str_radix(digits, 16),
        None => word.parse(),
    };
    match number {
        Ok(number) if width >= 128 || number >> width == 0 => {
            Ok((0..width).map(|bit| bit < 128 && number >> bit & 1 == 1).collect())
        }
        _ => Err(format!("'{}' is no number below 2^{}", word, width)),
    }
}
