//! A design on the bench: the library's run of its script, and the simulator beside it.

use crate::seen::Seen;
use from_gem::{Made, Place, What};
use juolgesot::{finishing_turns, run_into, Machine, Pin, PinIv, Script, StatePosition, BLOCK_ROOM};
use plan::part_heads;
use random::Random;
use simulate::Simulator;

/// Cycles of a design that a machine runs too.
const MACHINE_CYCLES: usize = 10;

pub struct Bench<'a> {
    made: &'a Made,
    script: Script,
    simulator: Simulator<'a>,
    old: Vec<u32>,
    new: Vec<u32>,
    room: Vec<u32>,
    /// For each word of the state, whether a part stores it, and which of its bits belong to an endpoint.
    normal: Vec<bool>,
    carried: Vec<u32>,
    /// Runs the first cycles too, and tells outputs by their pins.
    machine: Machine,
    machine_cycles: usize,
    /// For each given pin, how often of four times it is 1.
    odds: Vec<usize>,
    pub seen: Seen,
}

impl<'a> Bench<'a> {
    pub fn new(made: &'a Made) -> Result<Self, String> {
        let machine = Machine::new(&made.plan).map_err(|refusal| refusal.to_string())?;
        let script = machine.script().clone();
        let words = script.state_words as usize;
        let mut carried = vec![0; words];
        for endpoint in &made.endpoints {
            if let Place::Normal(position) = endpoint.place {
                StatePosition(position).set(&mut carried, true);
            }
        }
        Ok(Bench {
            normal: normal_words(&script),
            carried,
            simulator: Simulator::new(&made.aig),
            old: vec![0; words],
            new: vec![0; words],
            room: vec![0; BLOCK_ROOM * script.blocks],
            machine,
            machine_cycles: MACHINE_CYCLES,
            odds: Vec::new(),
            seen: Seen::of(made),
            made,
            script,
        })
    }

    /// Draws the old state, and with it what the registers hold; and the odds of the inputs.
    pub fn begin(&mut self, random: &mut Random) {
        self.odds = self.made.given.iter().map(|_| random.between(1, 3)).collect();
        fill(&mut self.old, random);
        let registers: Vec<usize> = self.made.aig.dffs.values().map(|register| register.q).collect();
        for endpoint in &self.made.endpoints {
            if let (What::Register(number), Place::Normal(position) | Place::Duplicate(position)) =
                (endpoint.what, endpoint.place)
            {
                self.simulator.set(registers[number], StatePosition(position).get(&self.old));
            }
        }
    }

    /// One cycle, or the first difference that it shows.
    pub fn cycle(&mut self, random: &mut Random) -> Result<(), String> {
        self.give(random);
        self.simulator.settle();
        self.seen.look(self.made, &self.simulator);
        fill(&mut self.new, random);
        let lent = self.new.clone();
        self.run(random)?;
        let next = self.simulator.next();
        self.judge_endpoints(&next)?;
        self.judge_others(&lent)?;
        if self.machine_cycles > 0 {
            self.machine_cycles -= 1;
            self.judge_machine()?;
        }
        self.simulator.clock();
        std::mem::swap(&mut self.old, &mut self.new);
        self.put_duplicates(&next);
        Ok(())
    }

    /// Draws what is given to a cycle, for the state and for the simulator.
    fn give(&mut self, random: &mut Random) {
        for (&(pin, position), &odds) in self.made.given.iter().zip(&self.odds) {
            let value = random.below(4) < odds;
            StatePosition(position).set(&mut self.old, value);
            self.simulator.set(pin, value);
        }
        // GEM gives a register of 0 no bit, and reads it at the state's first: so both are given what is there.
        for endpoint in &self.made.endpoints {
            if let (What::Register(number), Place::None) = (endpoint.what, endpoint.place) {
                self.simulator.set(self.made.aig.dffs[number].q, StatePosition(0).get(&self.old));
            }
        }
    }

    /// All major stages, the turns of each in any order.
    fn run(&mut self, random: &mut Random) -> Result<(), String> {
        for (stage, starts) in self.script.stages().enumerate() {
            let mut turns = finishing_turns(&self.script.words, starts, self.script.edition);
            random.shuffle(&mut turns);
            let (words, new, room) = (&self.script.words, &mut self.new, &mut self.room);
            let left = run_into(words, starts, &turns, &self.old, new, room, self.script.edition)
                .map_err(|refusal| format!("major stage {}: {}", stage, refusal))?;
            if left != 0 {
                return Err(format!("major stage {}: {} turns are left", stage, left));
            }
        }
        Ok(())
    }

    fn judge_endpoints(&mut self, next: &[bool]) -> Result<(), String> {
        for endpoint in &self.made.endpoints {
            let position = match endpoint.place {
                Place::Normal(position) => StatePosition(position),
                Place::Duplicate(_) | Place::None => continue,
            };
            let expected = match endpoint.what {
                What::Output(inverted_pin) => self.simulator.value(inverted_pin),
                What::Staged(pin) => self.simulator.value(2 * pin),
                What::Register(number) => next[number],
                What::Sram => continue,
            };
            if position.get(&self.new) != expected {
                return Err(format!(
                    "{}, {}: stored {}, the simulator says {}",
                    self.named(endpoint.what),
                    position,
                    !expected as u8,
                    expected as u8
                ));
            }
            self.seen.judged(endpoint.what);
        }
        Ok(())
    }

    /// Bits of normal words that belong to no endpoint are never enabled, and hold; other words are not stored.
    fn judge_others(&mut self, lent: &[u32]) -> Result<(), String> {
        for (word, &lent) in lent.iter().enumerate() {
            let (old, new) = (self.old[word], self.new[word]);
            if self.normal[word] {
                let others = !self.carried[word];
                if (old ^ new) & others != 0 {
                    return Err(format!(
                        "state word {}: old {:08x}, new {:08x}, and only the bits {:08x} belong to endpoints",
                        word, old, new, self.carried[word]
                    ));
                }
                self.seen.others += u64::from(others.count_ones());
            } else if new != lent {
                return Err(format!("state word {} was stored, and is no part's normal word", word));
            }
        }
        Ok(())
    }

    /// A machine of the plan makes the same normal words of the old state, and gives the outputs by their pins.
    fn judge_machine(&mut self) -> Result<(), String> {
        self.machine.state_mut().copy_from_slice(&self.old);
        self.machine.cycle().map_err(|trouble| trouble.to_string())?;
        let differs = |word: &usize| self.normal[*word] && self.machine.state()[*word] != self.new[*word];
        if let Some(word) = (0..self.new.len()).find(differs) {
            return Err(format!("state word {}: a machine stores another", word));
        }
        for endpoint in &self.made.endpoints {
            if let (What::Output(inverted_pin), Place::Normal(_)) = (endpoint.what, endpoint.place) {
                let (given, expected) =
                    (self.machine.output(PinIv(inverted_pin as u32)), self.simulator.value(inverted_pin));
                if given != Some(expected) {
                    return Err(format!(
                        "{}: a machine gives {:?}, the simulator says {}",
                        self.named(endpoint.what),
                        given,
                        expected
                    ));
                }
                self.seen.by_machine += 1;
            }
        }
        Ok(())
    }

    /// Registers whose bits lie in duplicate words: the run does not store them, so the host does.
    fn put_duplicates(&mut self, next: &[bool]) {
        for endpoint in &self.made.endpoints {
            if let (What::Register(number), Place::Duplicate(position)) = (endpoint.what, endpoint.place) {
                StatePosition(position).set(&mut self.old, next[number]);
            }
        }
    }

    fn named(&self, what: What) -> String {
        let shown = |inverted_pin: usize| PinIv(inverted_pin as u32).to_string();
        match what {
            What::Output(inverted_pin) => format!("output {}", shown(inverted_pin)),
            What::Staged(pin) => format!("staged {}", Pin(pin as u32)),
            What::Register(number) => {
                let register = &self.made.aig.dffs[number];
                let value = |inverted_pin: usize| self.simulator.value(inverted_pin) as u8;
                format!(
                    "register {} (q {} is {}, d {} is {}, enable {} is {})",
                    number,
                    Pin(register.q as u32),
                    value(2 * register.q),
                    shown(register.d_iv),
                    value(register.d_iv),
                    shown(register.en_iv),
                    value(register.en_iv)
                )
            }
            What::Sram => "SRAM".to_string(),
        }
    }
}

fn fill(words: &mut [u32], random: &mut Random) {
    for word in words {
        *word = random.word();
    }
}

/// Which words of the state parts store.
fn normal_words(script: &Script) -> Vec<bool> {
    let mut normal = vec![false; script.state_words as usize];
    for range in script.starts.windows(2) {
        for head in part_heads(&script.words, range[0], range[1], script.edition) {
            normal[head.state_start as usize..][..head.normal_words() as usize].fill(true);
        }
    }
    normal
}
