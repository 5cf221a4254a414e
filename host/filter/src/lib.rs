//! The Bloom filter of the replay: what its ports and hashes are, and a plain software model of it.
//!
//! An index chip asks the filter before it reads flash. "No" is sure: the key was not put in. "Maybe" is no answer: the
//! key goes on to flash, which alone says yes.
//!
//! The netlists (host/netlists/src/filter.rs) and the model below share the numbers here and nothing else.

use random::Random;

pub const KEY_BITS: usize = 32;
pub const INDEX_BITS: usize = 7;
/// Bits of the filter: one register each.
pub const REGISTERS: usize = 1 << INDEX_BITS;
pub const HASHES: usize = 3;
/// Keys that are looked up in one cycle. The key of port 0 is also the one that is put in.
pub const PORTS: usize = 8;

/// Key bits that each hash bit takes the parity of.
const TAPS: usize = 7;
const SEED: u64 = 20_240_801;

/// How a netlist's registers keep their bits: by logic, being enabled at every edge of the clock, or by enables.
#[derive(Debug, Clone, Copy, PartialEq, Eq)]
pub enum Holding {
    Logic,
    Enable,
}

impl Holding {
    pub const ALL: [Holding; 2] = [Holding::Logic, Holding::Enable];

    pub fn name(self) -> &'static str {
        match self {
            Holding::Logic => "logic",
            Holding::Enable => "enable",
        }
    }
}

/// One bit of a hash: the parity of some key bits, and of the AND of two others.
#[derive(Debug, Clone, Copy)]
pub struct HashBit {
    pub taps: u32,
    pub both: [u32; 2],
}

/// A hash of a key: the number of a register.
pub type Hash = [HashBit; INDEX_BITS];

pub fn hashes() -> Vec<Hash> {
    let mut random = Random::new(SEED);
    (0..HASHES).map(|_| [(); INDEX_BITS].map(|()| hash_bit(&mut random))).collect()
}

fn hash_bit(random: &mut Random) -> HashBit {
    let mut bits: Vec<u32> = (0..KEY_BITS as u32).collect();
    random.shuffle(&mut bits);
    let taps = bits[..TAPS].iter().fold(0, |taps, bit| taps | 1 << bit);
    HashBit { taps, both: [bits[TAPS], bits[TAPS + 1]] }
}

/// What is put on the ports in one cycle.
#[derive(Debug, Clone, PartialEq, Eq)]
pub struct Cycle {
    /// The clock has an edge at the end of the cycle. Where it has none, nothing is put in or emptied.
    pub clock: bool,
    /// Empties the filter at the end of the cycle.
    pub clear: bool,
    /// Puts the key of port 0 in at the end of the cycle.
    pub insert: bool,
    /// For each port the key, and whether it is looked up.
    pub ports: [(u32, bool); PORTS],
}

impl Cycle {
    pub fn idle() -> Self {
        Cycle { clock: true, clear: false, insert: false, ports: [(0, false); PORTS] }
    }
}

/// What the filter says of a key. There is no yes among it.
#[derive(Debug, Clone, Copy, PartialEq, Eq)]
pub enum Answer {
    No,
    Maybe,
}

/// The software model.
pub struct Filter {
    hashes: Vec<Hash>,
    set: [bool; REGISTERS],
}

impl Filter {
    pub fn new() -> Self {
        Filter { hashes: hashes(), set: [false; REGISTERS] }
    }

    pub fn look_up(&self, key: u32) -> Answer {
        if self.hashes.iter().all(|hash| self.set[register(hash, key)]) {
            Answer::Maybe
        } else {
            Answer::No
        }
    }

    pub fn registers_set(&self) -> &[bool; REGISTERS] {
        &self.set
    }

    /// The answers of a cycle, port by port, where a key is looked up; then what the cycle puts in or clears.
    pub fn cycle(&mut self, cycle: &Cycle) -> [Option<Answer>; PORTS] {
        let answers = cycle.ports.map(|(key, looks_up)| looks_up.then(|| self.look_up(key)));
        if !cycle.clock {
            return answers;
        }
        if cycle.insert {
            for hash in &self.hashes {
                self.set[register(hash, cycle.ports[0].0)] = true;
            }
        }
        if cycle.clear {
            self.set = [false; REGISTERS];
        }
        answers
    }
}

impl Default for Filter {
    fn default() -> Self {
        Filter::new()
    }
}

fn register(hash: &Hash, key: u32) -> usize {
    let bit = |index: usize| {
        let HashBit { taps, both: [one, other] } = hash[index];
        ((key & taps).count_ones() + (key >> one & key >> other & 1)) as usize & 1
    };
    (0..INDEX_BITS).map(|index| bit(index) << index).sum()
}
