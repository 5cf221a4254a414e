//! The replay: traffic through a Bloom filter's gates, cycle by cycle, beside a software model of the filter.

pub mod any;
mod by_gates;
mod filter_ports;
pub mod gates;
pub mod machine;
pub mod ports;
pub mod report;
pub mod traffic;
pub mod vcd;

use by_gates::ByGates;
use filter::{Answer, Cycle, Filter, Holding, PORTS};
use filter_ports::FilterPorts;
use juolgesot::{Pin, Script};
use machine::Machine;
use plan::packed;
use ports::{Place, Ports, Register};
use std::collections::{BTreeSet, HashSet};

/// A filter that comes with the replay, as GEM staged and placed it (host/oracle/bin/make_filter.rs): the packed plan,
/// and the ports.
fn stored(holding: Holding) -> (&'static [u8], &'static str) {
    match holding {
        Holding::Logic => (include_bytes!("../stored/logic.packed"), include_str!("../stored/logic.ports")),
        Holding::Enable => {
            (include_bytes!("../stored/enable.packed"), include_str!("../stored/enable.ports"))
        }
    }
}

/// The traffic that comes with them.
pub const TRAFFIC: &str = include_str!("../stored/traffic.txt");

/// Words that no plan record we take is longer than.
const MOST_WORDS: usize = 1 << 26;

/// A plan record and where its ports are.
pub struct Netlist {
    pub record: Vec<u8>,
    pub ports: String,
}

impl Netlist {
    /// One that comes with the replay.
    pub fn stored(holding: Holding) -> Self {
        let (plan, ports) = stored(holding);
        let words = packed::unpack(plan, MOST_WORDS).expect("the stored plan is in form");
        Netlist { record: plan::bytes(&words), ports: ports.to_string() }
    }

    /// The plan's number of blocks, the first word of its record.
    pub fn blocks(&self) -> usize {
        self.word(0)
    }

    /// The plan's number of major stages, the second word.
    pub fn stages(&self) -> usize {
        self.word(1)
    }

    fn word(&self, index: usize) -> usize {
        let bytes = self.record.get(4 * index..4 * index + 4);
        bytes.map_or(0, |bytes| u32::from_le_bytes([bytes[0], bytes[1], bytes[2], bytes[3]]) as usize)
    }
}

/// What was seen.
#[derive(Debug, Default, Clone, Copy, PartialEq, Eq)]
pub struct Counts {
    pub cycles: u64,
    /// Cycles without an edge of the clock.
    pub without_edge: u64,
    pub inserts: u64,
    /// Clears that emptied something.
    pub emptied: u64,
    pub looked_up: u64,
    pub no: u64,
    pub maybe: u64,
    /// Maybes whose key flash did not hold.
    pub false_maybe: u64,
    pub flash_reads: u64,
    pub found_in_flash: u64,
    /// Bits of registers that were not enabled while their data differed, and that were stored inverted: known after
    /// `look`.
    pub held: u64,
    pub inverted: u64,
}

/// What is seen of a look-up: the gates' answer and, where it was maybe, whether flash holds the key.
#[derive(Debug, Clone, Copy, PartialEq, Eq)]
pub struct Looked {
    pub port: usize,
    pub key: u32,
    pub answer: Answer,
    pub in_flash: bool,
}

/// A state before a cycle, with the cycle's inputs, and after it; the cycles so far, this one among them.
pub struct States<'a> {
    pub before: &'a [u32],
    pub after: &'a [u32],
    pub cycles: u64,
}

pub struct Replay {
    machine: Machine,
    names: Ports,
    ports: FilterPorts,
    by_gates: ByGates,
    /// The state's words that have registers, by number, and what they held when they were last found to be as expected.
    same_words: Vec<(usize, u32)>,
    filter: Filter,
    /// The keys that were put in: flash, which alone says yes.
    flash: HashSet<u32>,
    pub counts: Counts,
}

impl Replay {
    /// `script` is that of the netlist's plan.
    pub fn new(netlist: &Netlist, script: Script) -> Result<Self, String> {
        let names = Ports::read(&netlist.ports, script.state_words as usize)?;
        let ports = FilterPorts::of(&names)?;
        names.belong_to(&gates::positions(&netlist.record)?)?;
        let by_gates = ByGates::of(&netlist.record, &[], ports.registers())?;
        let words: BTreeSet<usize> =
            ports.registers().iter().map(|register| register.output.position.word()).collect();
        // At the start all is 0, as in an empty filter.
        let same_words = words.into_iter().map(|word| (word, 0)).collect();
        let machine = Machine::new(script, netlist.blocks(), netlist.stages())?;
        let (filter, flash, counts) = (Filter::new(), HashSet::new(), Counts::default());
        Ok(Replay { machine, names, ports, by_gates, same_words, filter, flash, counts })
    }

    /// The ports by name.
    pub fn ports(&self) -> &Ports {
        &self.names
    }

    /// The states of the last cycle.
    pub fn states(&self) -> States<'_> {
        self.machine.states()
    }

    /// How many registers are set, and how many keys flash holds.
    pub fn fill(&self) -> (usize, usize) {
        (self.filter.registers_set().iter().filter(|&&set| set).count(), self.flash.len())
    }

    /// One cycle, and what was looked up in it; or the first difference that it, or one of the 63 before it, shows.
    pub fn cycle(&mut self, cycle: &Cycle) -> Result<[Option<Looked>; PORTS], String> {
        match self.try_cycle(cycle) {
            Ok(looked) => Ok(looked),
            Err(what) => self.by_gates.look().and(Err(what)),
        }
    }

    fn try_cycle(&mut self, cycle: &Cycle) -> Result<[Option<Looked>; PORTS], String> {
        self.ports.put(cycle, self.machine.old());
        self.machine.cycle().map_err(|trouble| format!("cycle {}, {}", self.counts.cycles, trouble))?;
        self.by_gates.take(&self.machine.states())?;
        let empties = cycle.clock && cycle.clear && self.filter.registers_set().contains(&true);
        let expected = self.filter.cycle(cycle);
        let looked = self.same_answers(cycle, &expected)?;
        self.same_registers(cycle.insert || cycle.clear)?;
        if cycle.clock && cycle.insert {
            self.flash.insert(cycle.ports[0].0);
            self.counts.inserts += 1;
        }
        if cycle.clock && cycle.clear {
            self.flash.clear();
            self.counts.emptied += empties as u64;
        }
        self.counts.cycles += 1;
        self.counts.without_edge += !cycle.clock as u64;
        Ok(looked)
    }

    fn same_answers(
        &mut self,
        cycle: &Cycle,
        expected: &[Option<Answer>],
    ) -> Result<[Option<Looked>; PORTS], String> {
        let number = self.counts.cycles;
        let mut looked = [None; PORTS];
        for (port, (expected, (key, _))) in expected.iter().zip(cycle.ports).enumerate() {
            let place = self.ports.maybe(port);
            let at_port = |what: String| format!("cycle {}, port {}, {}", number, port, what);
            let maybe = place.get(self.machine.old());
            if maybe != (*expected == Some(Answer::Maybe)) {
                return Err(at_port(differs(place, maybe, key, *expected)));
            }
            if expected.is_some() {
                let answer = if maybe { Answer::Maybe } else { Answer::No };
                let in_flash =
                    self.go_on(answer, key).map_err(|what| at_port(format!("{}: {}", place.pin, what)))?;
                looked[port] = Some(Looked { port, key, answer, in_flash });
            }
        }
        Ok(looked)
    }

    /// Looks at the last cycles: registers are held to the gates 64 cycles at a time.
    pub fn look(&mut self) -> Result<(), String> {
        self.by_gates.look()?;
        self.counts.held = self.by_gates.seen.held;
        self.counts.inverted = self.by_gates.seen.inverted;
        Ok(())
    }

    /// A clear is put on the ports without an edge first, and then enables every register. So where one emptied the
    /// filter, registers were seen to hold, and inverted ones to be stored inverted, if the filter has such.
    pub fn finish(&self) -> Result<(), String> {
        let has = |such: fn(&Register) -> bool| self.ports.registers().iter().any(such);
        let Counts { emptied, held, inverted, .. } = self.counts;
        if emptied > 0 && held == 0 && has(|register| register.enable.pin() != Pin(0)) {
            return Err("no register was seen to hold while its data differed".to_string());
        }
        if emptied > 0 && inverted == 0 && has(|register| register.data.is_inverted()) {
            return Err("no bit was seen to be stored inverted".to_string());
        }
        Ok(())
    }

    /// What follows an answer of the gates: no ends it, and flash must not hold the key; a maybe goes on to flash. Gives
    /// whether flash holds the key.
    fn go_on(&mut self, answer: Answer, key: u32) -> Result<bool, String> {
        self.counts.looked_up += 1;
        let in_flash = self.flash.contains(&key);
        match answer {
            Answer::No => {
                self.counts.no += 1;
                if in_flash {
                    return Err(format!("no for key {:#010x}, which flash holds", key));
                }
            }
            Answer::Maybe => {
                self.counts.maybe += 1;
                self.counts.flash_reads += 1;
                self.counts.found_in_flash += in_flash as u64;
                self.counts.false_maybe += !in_flash as u64;
            }
        }
        Ok(in_flash)
    }

    /// Where nothing was asked of the software model's registers, and the words of ours are as they were when they were
    /// found to be the same, they are the same still.
    fn same_registers(&mut self, is_asked: bool) -> Result<(), String> {
        let state = self.machine.old();
        let same = |&(word, held): &(usize, u32)| state[word] == held;
        if !is_asked && self.same_words.iter().all(same) {
            return Ok(());
        }
        let expected = self.filter.registers_set();
        for (number, Register { output, .. }) in self.ports.registers().iter().enumerate() {
            if output.get(self.machine.old()) != expected[number] {
                return Err(format!(
                    "cycle {}, register {}, {} ({}): the gates hold {}, the software model {}",
                    self.counts.cycles,
                    number,
                    output.pin,
                    output.position,
                    !expected[number] as u8,
                    expected[number] as u8
                ));
            }
        }
        let state = self.machine.old();
        self.same_words.iter_mut().for_each(|(word, held)| *held = state[*word]);
        Ok(())
    }
}

/// How an answer of the gates differs from the software model's.
fn differs(place: Place, maybe: bool, key: u32, expected: Option<Answer>) -> String {
    format!(
        "{} ({}): the gates say {} for key {:#010x}, the software model says {}",
        place.pin,
        place.position,
        if maybe { "maybe" } else { "no" },
        key,
        match expected {
            Some(Answer::Maybe) => "maybe",
            Some(Answer::No) => "no",
            None => "that nothing is looked up",
        }
    )
}
