//! A netlist simulator: GEM's AIG, evaluated as it is.
//!
//! A cycle is given its inputs, works out every gate from them and from the registers, and then clocks the registers:
//! q' = d where the enable is 1, else q. An edge of a clock is an input (GEM's clock flag), and where it is 0 there is
//! no edge. What an SRAM has read is an input too: its words are nobody's business here.
//!
//! It knows nothing of parts, plans, positions or scripts.

use oracle::aig::{DriverType, AIG};

pub struct Simulator<'a> {
    aig: &'a AIG,
    /// The value of each pin in this cycle.
    values: Vec<bool>,
}

impl<'a> Simulator<'a> {
    /// All registers and inputs are 0.
    pub fn new(aig: &'a AIG) -> Self {
        let mut simulator = Simulator { aig, values: vec![false; aig.num_aigpins + 1] };
        simulator.settle();
        simulator
    }

    /// Gives an input, or a register's output, its value. The gates take no notice before `settle`.
    pub fn set(&mut self, pin: usize, value: bool) {
        assert!(!matches!(self.aig.drivers[pin], DriverType::AndGate(..) | DriverType::Tie0), "pin {}", pin);
        self.values[pin] = value;
    }

    /// Works out the gates, each after its fan-ins.
    pub fn settle(&mut self) {
        for pin in 1..=self.aig.num_aigpins {
            if let DriverType::AndGate(first, second) = self.aig.drivers[pin] {
                assert!(first >> 1 < pin && second >> 1 < pin, "the AIG is in order");
                self.values[pin] = self.value(first) && self.value(second);
            }
        }
    }

    /// The value of an inverted pin number: twice the pin, plus 1 where it is inverted.
    pub fn value(&self, inverted_pin: usize) -> bool {
        self.values[inverted_pin >> 1] != (inverted_pin & 1 == 1)
    }

    /// What each register holds in the next cycle, in the AIG's order.
    pub fn next(&self) -> Vec<bool> {
        let next = |register: &oracle::aig::DFF| {
            if self.value(register.en_iv) {
                self.value(register.d_iv)
            } else {
                self.values[register.q]
            }
        };
        self.aig.dffs.values().map(next).collect()
    }

    /// Ends the cycle: all registers at once.
    pub fn clock(&mut self) {
        let next = self.next();
        for (register, next) in self.aig.dffs.values().zip(next) {
            self.values[register.q] = next;
        }
    }
}
