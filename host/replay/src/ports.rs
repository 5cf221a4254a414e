//! Where the ports and registers of a netlist are in the state, by name: a ports file, as `make_filter` writes them.
//!
//! ```text
//! in NAME: PIN POSITION
//! out NAME: PIN POSITION
//! register NAME: PIN POSITION DATA ENABLE
//! # ..
//! ```
//!
//! PIN, DATA and ENABLE are twice a pin's number, plus 1 where it is inverted; POSITION is a bit of the state.

use crate::gates::Positions;
use juolgesot::{PinIv, StatePosition};

/// A bit of the state and the pin that it carries, inverted or not.
#[derive(Debug, Clone, Copy)]
pub struct Place {
    pub pin: PinIv,
    pub position: StatePosition,
}

impl Place {
    /// The stored bit as it stands: a run has applied the inversion.
    pub fn get(self, state: &[u32]) -> bool {
        self.position.get(state)
    }
}

/// An input or an output.
#[derive(Debug, Clone)]
pub struct Port {
    pub name: String,
    pub place: Place,
}

/// A register: its output, and what the gates give it.
#[derive(Debug, Clone)]
pub struct Register {
    pub name: String,
    pub output: Place,
    pub data: PinIv,
    pub enable: PinIv,
}

#[derive(Debug, Default)]
pub struct Ports {
    pub inputs: Vec<Port>,
    pub outputs: Vec<Port>,
    pub registers: Vec<Register>,
}

impl Ports {
    /// Reads a ports file, or says what is wrong with it.
    pub fn read(text: &str, state_words: usize) -> Result<Self, String> {
        let mut ports = Ports::default();
        for (number, line) in text.lines().enumerate() {
            let line = line.split('#').next().unwrap_or("").trim();
            if !line.is_empty() {
                let read = ports.read_line(line, state_words);
                read.map_err(|what| format!("line {}: {}", number + 1, what))?;
            }
        }
        Ok(ports)
    }

    fn read_line(&mut self, line: &str, state_words: usize) -> Result<(), String> {
        let not_in_form =
            || "it is no in NAME: PIN POSITION, out likewise, or register NAME: PIN POSITION DATA ENABLE";
        let (front, numbers) = line.split_once(':').ok_or_else(not_in_form)?;
        let (kind, name) = front.trim().split_once(' ').ok_or_else(not_in_form)?;
        let name = name.trim().to_string();
        let numbers: Option<Vec<u32>> = numbers.split_whitespace().map(|word| word.parse().ok()).collect();
        let numbers = numbers.ok_or_else(not_in_form)?;
        let place = |pin: u32, position: u32| {
            let place = Place { pin: PinIv(pin), position: StatePosition(position) };
            match place.position.word() < state_words {
                true => Ok(place),
                false => Err(format!("{} is outside the state of {} words", place.position, state_words)),
            }
        };
        match (kind, &numbers[..]) {
            ("in", &[pin, position]) => self.inputs.push(Port { name, place: place(pin, position)? }),
            ("out", &[pin, position]) => self.outputs.push(Port { name, place: place(pin, position)? }),
            ("register", &[pin, position, data, enable]) => self.registers.push(Register {
                name,
                output: place(pin, position)?,
                data: PinIv(data),
                enable: PinIv(enable),
            }),
            _ => return Err(not_in_form().to_string()),
        }
        Ok(())
    }

    /// Inputs and registers are where the plan has them; else the first that is not.
    pub fn belong_to(&self, positions: &Positions) -> Result<(), String> {
        let inputs = self.inputs.iter().map(|port| ("in", &port.name, port.place));
        let registers = self.registers.iter().map(|register| ("register", &register.name, register.output));
        for (kind, name, place) in inputs.chain(registers) {
            match positions.get(&place.pin.pin()) {
                Some(&position) if position == place.position => {}
                Some(position) => {
                    return Err(format!("'{} {}': the plan has {} at {}", kind, name, place.pin, position))
                }
                None => return Err(format!("'{} {}': the plan has no {}", kind, name, place.pin)),
            }
        }
        Ok(())
    }
}

/// Bits that belong together: NAME 0, NAME 1 .. by their names, or one alone.
#[derive(Debug, Clone)]
pub struct Bus {
    pub name: String,
    /// Least bit first.
    pub bits: Vec<StatePosition>,
}

impl Bus {
    /// The buses of some named bits, in the order of their first bits.
    pub fn all<'a>(named: impl Iterator<Item = (&'a str, StatePosition)>) -> Vec<Bus> {
        let mut buses: Vec<Bus> = Vec::new();
        for (name, position) in named {
            let (front, index) = match name.rsplit_once(' ').unwrap_or(("", name)) {
                (front, digits) => match digits.parse::<usize>() {
                    Ok(index) => (front, index),
                    Err(_) => (name, 0),
                },
            };
            let last = buses.iter_mut().rev().find(|bus| bus.name == front && bus.bits.len() == index);
            match last {
                Some(bus) if index > 0 => bus.bits.push(position),
                _ if index == 0 => buses.push(Bus { name: front.to_string(), bits: vec![position] }),
                _ => buses.push(Bus { name: name.to_string(), bits: vec![position] }),
            }
        }
        buses
    }

    pub fn of_inputs(ports: &Ports) -> Vec<Bus> {
        Bus::all(ports.inputs.iter().map(|port| (port.name.as_str(), port.place.position)))
    }

    pub fn of_outputs(ports: &Ports) -> Vec<Bus> {
        Bus::all(ports.outputs.iter().map(|port| (port.name.as_str(), port.place.position)))
    }

    pub fn of_registers(ports: &Ports) -> Vec<Bus> {
        Bus::all(ports.registers.iter().map(|register| (register.name.as_str(), register.output.position)))
    }

    /// The bits as digits, the highest first.
    pub fn digits(&self, state: &[u32]) -> String {
        self.bits.iter().rev().map(|bit| if bit.get(state) { '1' } else { '0' }).collect()
    }
}
