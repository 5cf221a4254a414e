//! Waves: inputs, outputs and registers of each cycle as a VCD file (IEEE 1364), which GTKWave and others open.
//!
//! A cycle takes ten units of time. From its begin on stand its inputs, what the outputs then are, and what the registers hold
//! in it; what it stores into them stands from the next cycle on.

use crate::ports::{Bus, Ports};
use crate::States;
use std::fmt::Write;

const CYCLE: u64 = 10;

struct Wave {
    bus: Bus,
    /// What the file calls it.
    code: String,
    /// The digits that were written last.
    last: String,
}

pub struct Vcd {
    inputs: Vec<Wave>,
    outputs: Vec<Wave>,
    registers: Vec<Wave>,
}

impl Vcd {
    pub fn of(ports: &Ports) -> Self {
        let mut codes = (0..).map(code);
        let mut waves = |buses: Vec<Bus>| -> Vec<Wave> {
            let wave = |(bus, code)| Wave { bus, code, last: String::new() };
            buses.into_iter().zip(codes.by_ref()).map(wave).collect()
        };
        Vcd {
            inputs: waves(Bus::of_inputs(ports)),
            outputs: waves(Bus::of_outputs(ports)),
            registers: waves(Bus::of_registers(ports)),
        }
    }

    /// The head of the file.
    pub fn head(&self) -> String {
        let mut text = "$version juolgesot replay $end\n$timescale 1ns $end\n".to_string();
        for (scope, waves) in
            [("inputs", &self.inputs), ("outputs", &self.outputs), ("registers", &self.registers)]
        {
            writeln!(text, "$scope module {} $end", scope).expect("text");
            for wave in waves {
                let (width, name) = (wave.bus.bits.len(), name(&wave.bus.name, scope));
                let range = if width == 1 { String::new() } else { format!(" [{}:0]", width - 1) };
                writeln!(text, "$var wire {} {} {}{} $end", width, wave.code, name, range).expect("text");
            }
            text += "$upscope $end\n";
        }
        text + "$enddefinitions $end\n"
    }

    /// What changes with a cycle.
    pub fn cycle(&mut self, states: &States<'_>) -> String {
        let mut changes = String::new();
        push_changes(&mut changes, &mut self.inputs, states.before);
        push_changes(&mut changes, &mut self.outputs, states.after);
        push_changes(&mut changes, &mut self.registers, states.before);
        match changes.is_empty() {
            true => changes,
            false => format!("#{}\n{}", CYCLE * (states.cycles - 1), changes),
        }
    }

    /// What stands after the last cycle.
    pub fn end(&mut self, states: &States<'_>) -> String {
        let mut changes = String::new();
        push_changes(&mut changes, &mut self.registers, states.after);
        format!("#{}\n{}", CYCLE * states.cycles, changes)
    }
}

fn push_changes(text: &mut String, waves: &mut [Wave], state: &[u32]) {
    for wave in waves {
        let digits = wave.bus.digits(state);
        if digits != wave.last {
            match digits.len() {
                1 => writeln!(text, "{}{}", digits, wave.code).expect("text"),
                _ => writeln!(text, "b{} {}", digits, wave.code).expect("text"),
            }
            wave.last = digits;
        }
    }
}

/// The characters ! to ~, as digits of a number.
fn code(mut number: usize) -> String {
    let mut code = String::new();
    loop {
        code.push((b'!' + (number % 94) as u8) as char);
        number /= 94;
        if number == 0 {
            return code;
        }
    }
}

/// A name without blanks; what has none is called by its scope.
fn name(name: &str, scope: &str) -> String {
    match name {
        "" => scope.trim_end_matches('s').to_string(),
        name => name.split_whitespace().collect::<Vec<_>>().join("_"),
    }
}
