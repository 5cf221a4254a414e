//! What the cycles showed: counted, printed and, where it must be there, asserted.

use from_gem::{Made, Place, What};
use oracle::aig::{DriverType, AIG, DFF};
use simulate::Simulator;

/// What enables a register.
#[derive(Debug, Clone, Copy, PartialEq, Eq)]
pub enum Enable {
    ClockEdge,
    Gate,
    InvertedGate,
    Input,
    InvertedInput,
    Register,
    InvertedRegister,
}

impl Enable {
    pub fn all() -> [Enable; 7] {
        use Enable::*;
        [ClockEdge, Gate, InvertedGate, Input, InvertedInput, Register, InvertedRegister]
    }

    fn of(aig: &AIG, register: &DFF) -> Enable {
        let inverted = register.en_iv & 1 == 1;
        match (&aig.drivers[register.en_iv >> 1], inverted) {
            (DriverType::InputClockFlag(..), false) => Enable::ClockEdge,
            (DriverType::AndGate(..), false) => Enable::Gate,
            (DriverType::AndGate(..), true) => Enable::InvertedGate,
            (DriverType::InputPort(_), false) => Enable::Input,
            (DriverType::InputPort(_), true) => Enable::InvertedInput,
            (DriverType::DFF(_), false) => Enable::Register,
            (DriverType::DFF(_), true) => Enable::InvertedRegister,
            (driver, _) => panic!("GEM enables no register by {:?}", driver),
        }
    }

    fn name(self) -> &'static str {
        match self {
            Enable::ClockEdge => "edge of a clock",
            Enable::Gate => "gate",
            Enable::InvertedGate => "gate, inverted",
            Enable::Input => "input",
            Enable::InvertedInput => "input, inverted",
            Enable::Register => "register's output",
            Enable::InvertedRegister => "register's output, inverted",
        }
    }
}

/// Of a register whose bit lies in a normal word: how often it held against its data (not enabled, and they differed),
/// and how often it took data that differed.
#[derive(Debug, Clone)]
struct Register {
    number: usize,
    enable: Enable,
    /// Its data are stored inverted.
    inverted: bool,
    held: u64,
    taken: u64,
}

#[derive(Debug, Default, Clone)]
pub struct Seen {
    cells: Vec<Register>,
    /// Bits that were compared, over all cycles.
    of_registers: u64,
    of_outputs: u64,
    of_inverted_outputs: u64,
    of_staged: u64,
    pub others: u64,
    pub by_machine: u64,
    /// What the run does not store, and so is not judged.
    duplicate_registers: u64,
    duplicate_outputs: u64,
    registers_of_0: u64,
    srams: u64,
}

impl Seen {
    pub fn of(made: &Made) -> Self {
        let mut seen = Seen::default();
        for endpoint in &made.endpoints {
            match (endpoint.what, endpoint.place) {
                (What::Register(number), Place::Normal(_)) => {
                    let register = &made.aig.dffs[number];
                    let enable = Enable::of(&made.aig, register);
                    let inverted = register.d_iv & 1 == 1;
                    seen.cells.push(Register { number, enable, inverted, held: 0, taken: 0 });
                }
                (What::Register(_), Place::Duplicate(_)) => seen.duplicate_registers += 1,
                (What::Register(_), Place::None) => seen.registers_of_0 += 1,
                (What::Output(_), Place::Duplicate(_)) => seen.duplicate_outputs += 1,
                (What::Sram, _) => seen.srams += 1,
                (What::Output(_) | What::Staged(_), _) => {}
            }
        }
        seen
    }

    /// Looks at the registers before they are clocked.
    pub fn look(&mut self, made: &Made, simulator: &Simulator<'_>) {
        for cell in &mut self.cells {
            let register = &made.aig.dffs[cell.number];
            if simulator.value(register.d_iv) != simulator.value(2 * register.q) {
                if simulator.value(register.en_iv) {
                    cell.taken += 1;
                } else {
                    cell.held += 1;
                }
            }
        }
    }

    pub fn judged(&mut self, what: What) {
        match what {
            What::Register(_) => self.of_registers += 1,
            What::Output(inverted_pin) => {
                self.of_outputs += 1;
                self.of_inverted_outputs += (inverted_pin & 1) as u64;
            }
            What::Staged(_) => self.of_staged += 1,
            What::Sram => {}
        }
    }

    pub fn add(&mut self, other: &Seen) {
        self.cells.extend(other.cells.iter().cloned());
        self.of_registers += other.of_registers;
        self.of_outputs += other.of_outputs;
        self.of_inverted_outputs += other.of_inverted_outputs;
        self.of_staged += other.of_staged;
        self.others += other.others;
        self.by_machine += other.by_machine;
        self.duplicate_registers += other.duplicate_registers;
        self.duplicate_outputs += other.duplicate_outputs;
        self.registers_of_0 += other.registers_of_0;
        self.srams += other.srams;
    }

    fn sum(&self, which: impl Fn(&Register) -> bool, count: impl Fn(&Register) -> u64) -> u64 {
        self.cells.iter().filter(|cell| which(cell)).map(count).sum()
    }

    /// One design's line.
    pub fn line(&self) -> String {
        let line = |which: fn(&Register) -> bool| {
            let (held, taken) = (self.sum(which, |cell| cell.held), self.sum(which, |cell| cell.taken));
            format!("{:3}, held {:4}, taken {:4}", self.sum(which, |_| 1), held, taken)
        };
        let left_out: String = [
            (self.duplicate_registers, "registers"),
            (self.duplicate_outputs, "outputs"),
            (self.registers_of_0, "registers of 0"),
            (self.srams, "SRAMs"),
        ]
        .iter()
        .filter(|(count, _)| *count > 0)
        .map(|(count, what)| format!("; left out: {} {}", count, what))
        .collect();
        format!("registers {}; inverted {}{}", line(|_| true), line(|cell| cell.inverted), left_out)
    }

    pub fn print(&self) {
        println!("enables, of registers in normal words:");
        for enable in Enable::all() {
            let is = |cell: &Register| cell.enable == enable;
            println!(
                "  {:30} {:5} registers: held {:6} times, took {:6} times data that differed",
                enable.name(),
                self.sum(is, |_| 1),
                self.sum(is, |cell| cell.held),
                self.sum(is, |cell| cell.taken)
            );
        }
        println!("bits that were compared:");
        println!("  {:9}  registers", self.of_registers);
        println!("  {:9}  outputs, {} of them inverted", self.of_outputs, self.of_inverted_outputs);
        println!("  {:9}  staged pins", self.of_staged);
        println!("  {:9}  others of normal words: they hold", self.others);
        println!("  {:9}  outputs that a machine (juolgesot::Machine) gave by their pins", self.by_machine);
        println!("not judged, since the run stores no duplicate word (before 6/13) and no SRAM's:");
        println!(
            "  {:9}  registers in duplicate words: the host puts in what the simulator says",
            self.duplicate_registers
        );
        println!("  {:9}  outputs in duplicate words", self.duplicate_outputs);
        println!(
            "  {:9}  SRAMs: what they read is drawn, as inputs are; what they write, nobody sees",
            self.srams
        );
        println!(
            "  {:9}  registers of 0: GEM gives them no bit, and reads them at the state's first",
            self.registers_of_0
        );
    }

    /// Nine of ten registers were seen to hold against their data, and nine of ten to take them.
    pub fn assert_most(&self, name: &str) {
        let all = self.cells.len();
        let count = |seen: fn(&Register) -> bool| self.cells.iter().filter(|cell| seen(cell)).count();
        let (held, taken) = (count(|cell| cell.held > 0), count(|cell| cell.taken > 0));
        assert!(all > 0, "{}: no register lies in a normal word", name);
        assert!(10 * held >= 9 * all, "{}: of {} registers {} were seen to hold", name, all, held);
        assert!(10 * taken >= 9 * all, "{}: of {} registers {} took their data", name, all, taken);
    }

    /// Some register was seen to hold and some to take its data, and some inverted one, where there are such.
    pub fn assert_some(&self, name: &str) {
        for which in [|_: &Register| true, |cell: &Register| cell.inverted] {
            if self.sum(which, |_| 1) > 0 {
                self.assert_times(name, 1, which);
            }
        }
    }

    /// Over all designs: registers with each kind of enable held, and took their data, many times; so did inverted
    /// ones; and there were inverted outputs and staged pins.
    pub fn assert_all(&self) {
        for enable in Enable::all() {
            self.assert_times(enable.name(), 30, |cell| cell.enable == enable);
        }
        self.assert_times("inverted data", 1000, |cell| cell.inverted);
        assert!(self.of_inverted_outputs >= 1000 && self.of_staged >= 1000 && self.by_machine >= 1000);
    }

    fn assert_times(&self, what: &str, times: u64, which: impl Fn(&Register) -> bool) {
        let (held, taken) = (self.sum(&which, |cell| cell.held), self.sum(&which, |cell| cell.taken));
        assert!(held >= times && taken >= times, "{}: held {}, taken {}", what, held, taken);
    }
}
