//! The ports of the Bloom filter, found by their names.

use crate::ports::{Place, Port, Ports, Register};
use filter::{Cycle, KEY_BITS, PORTS, REGISTERS};
use juolgesot::StatePosition;
use std::collections::HashMap;

struct LookPort {
    look: StatePosition,
    key: Vec<Stretch>,
    maybe: Place,
}

pub struct FilterPorts {
    clock: StatePosition,
    clear: StatePosition,
    insert: StatePosition,
    ports: Vec<LookPort>,
    registers: Vec<Register>,
}

impl FilterPorts {
    pub fn of(ports: &Ports) -> Result<Self, String> {
        let by_name = |kind: &'static str, ports: &[Port]| {
            let by_name: HashMap<String, Place> =
                ports.iter().map(|port| (port.name.clone(), port.place)).collect();
            move |name: &str| by_name.get(name).copied().ok_or_else(|| lacks(kind, name))
        };
        let (input, output) = (by_name("in", &ports.inputs), by_name("out", &ports.outputs));
        let input = |name: &str| input(name).map(|place| place.position);
        let registers: HashMap<&str, &Register> =
            ports.registers.iter().map(|register| (register.name.as_str(), register)).collect();
        let register = |number: usize| {
            let name = number.to_string();
            registers.get(name.as_str()).map(|&found| found.clone()).ok_or_else(|| lacks("register", &name))
        };
        let port = |port: usize| {
            let key = (0..KEY_BITS).map(|bit| input(&format!("key {} {}", port, bit)));
            Ok(LookPort {
                look: input(&format!("look {}", port))?,
                key: stretches(&key.collect::<Result<Vec<_>, String>>()?),
                maybe: output(&format!("maybe {}", port))?,
            })
        };
        Ok(FilterPorts {
            clock: input("clock")?,
            clear: input("clear")?,
            insert: input("insert")?,
            ports: (0..PORTS).map(port).collect::<Result<_, String>>()?,
            registers: (0..REGISTERS).map(register).collect::<Result<_, String>>()?,
        })
    }

    /// Puts a cycle's inputs into the state that the cycle reads.
    pub fn put(&self, cycle: &Cycle, state: &mut [u32]) {
        self.clock.set(state, cycle.clock);
        self.clear.set(state, cycle.clear);
        self.insert.set(state, cycle.insert);
        for (places, (key, looks_up)) in self.ports.iter().zip(cycle.ports) {
            places.look.set(state, looks_up);
            places.key.iter().for_each(|stretch| stretch.put(key, state));
        }
    }

    /// Where the gates say maybe, or not, for a port.
    pub fn maybe(&self, port: usize) -> Place {
        self.ports[port].maybe
    }

    pub fn registers(&self) -> &[Register] {
        &self.registers
    }
}

/// Bits of a key, from one on, that lie beside each other in one word of the state.
struct Stretch {
    first: u32,
    /// As many ones as there are bits.
    mask: u32,
    position: StatePosition,
}

impl Stretch {
    fn put(&self, key: u32, state: &mut [u32]) {
        let (word, bit) = (&mut state[self.position.word()], self.position.bit());
        *word = *word & !(self.mask << bit) | (key >> self.first & self.mask) << bit;
    }
}

/// The stretches of a key whose bits lie there.
fn stretches(bits: &[StatePosition]) -> Vec<Stretch> {
    let mut stretches: Vec<Stretch> = Vec::new();
    for (index, &position) in bits.iter().enumerate() {
        match stretches.last_mut() {
            Some(last) if index > 0 && position.0 == bits[index - 1].0 + 1 && position.bit() > 0 => {
                last.mask = 2 * last.mask + 1
            }
            _ => stretches.push(Stretch { first: index as u32, mask: 1, position }),
        }
    }
    stretches
}

fn lacks(kind: &str, name: &str) -> String {
    format!(
        "there is no '{} {}': these are not the filter's ports (--inputs replays any netlist)",
        kind, name
    )
}
