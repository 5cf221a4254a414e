//! AIGER files and gate lists, made at random; their numbers lie around every boundary.

use random::Random;

const MOST_PIN: u64 = 1 << 30;

/// A file in pieces, so that each can be damaged by itself.
#[derive(Debug, Clone)]
pub struct File {
    pub mark: String,
    /// M, I, L, O, A, each with a blank behind it, the last with LF.
    pub numbers: Vec<String>,
    /// Latch and output lines, each with its LF.
    pub lines: Vec<String>,
    /// Two for each gate.
    pub differences: Vec<Vec<u8>>,
    pub behind: Vec<u8>,
}

impl File {
    pub fn bytes(&self) -> Vec<u8> {
        let mut bytes = self.mark.clone().into_bytes();
        bytes.extend(self.numbers.iter().chain(&self.lines).flat_map(|piece| piece.as_bytes()));
        bytes.extend(self.differences.iter().flatten());
        bytes.extend(&self.behind);
        bytes
    }

    /// A number of the header.
    pub fn number(&self, index: usize) -> u64 {
        self.numbers[index].trim_end().parse().expect("not damaged yet")
    }

    pub fn set_number(&mut self, index: usize, number: u128) {
        let end = if index == 4 { "\n" } else { " " };
        self.numbers[index] = format!("{}{}", number, end);
    }

    /// Twice the variable of a gate.
    pub fn literal(&self, gate: usize) -> u64 {
        2 * (self.number(1) + self.number(2) + 1 + gate as u64)
    }

    /// The first fan-in of a gate.
    pub fn first(&self, gate: usize) -> u64 {
        self.literal(gate) - number_of(&self.differences[2 * gate])
    }
}

/// The bytes of a number, and so many groups more than it needs.
pub fn groups(number: u64, more: usize) -> Vec<u8> {
    let bits = 64 - number.leading_zeros() as usize;
    let count = ((bits + 6) / 7).max(1) + more;
    let byte = |group: usize| (number >> (7 * group) & 127) as u8 | if group + 1 < count { 128 } else { 0 };
    (0..count).map(byte).collect()
}

fn number_of(groups: &[u8]) -> u64 {
    groups.iter().rev().fold(0, |number, &group| number << 7 | u64::from(group & 127))
}

/// Numbers at which a difference gets longer, and their neighbours.
fn around_a_boundary(random: &mut Random) -> u64 {
    let bound = random.pick(&[1, 2, 1 << 7, 258, 1 << 14, 1 << 21, 1 << 28, 1 << 30, 1 << 31]);
    bound + random.below(3) as u64 - 1
}

/// A number of `least..=most`, often at a bound of its own or where differences get longer.
fn difference(random: &mut Random, least: u64, most: u64) -> u64 {
    let number = match random.below(5) {
        0 => least + random.below(3) as u64,
        1 => most - (random.below(3) as u64).min(most),
        2 | 3 => around_a_boundary(random),
        _ => random.next() % (most + 1),
    };
    number.clamp(least, most)
}

/// How many pins lie below the first gate.
fn pins_below(random: &mut Random, gates: u64) -> u64 {
    let most = MOST_PIN - gates;
    match random.below(6) {
        0 => random.below(4) as u64,
        1 => random.below(300) as u64,
        2 => most - random.below(3) as u64,
        3 | 4 => (around_a_boundary(random) / 2).min(most),
        _ => random.next() % (most + 1),
    }
}

/// A file that is not refused, of at most so many gates.
pub fn any(random: &mut Random, most_gates: usize) -> File {
    let gates = random.below(most_gates + 1) as u64;
    let below = pins_below(random, gates);
    let latches = (random.below(4) as u64 * random.below(4) as u64).min(below);
    let outputs = random.below(4) * random.below(4);
    let variables = below + gates;
    let mut file = File {
        mark: "aig ".to_string(),
        numbers: vec![String::new(); 5],
        lines: Vec::new(),
        differences: Vec::new(),
        behind: any_behind(random),
    };
    for (index, number) in [variables, below - latches, latches, outputs as u64, gates].iter().enumerate() {
        file.set_number(index, (*number).into());
    }
    for _ in 0..latches as usize + outputs {
        let most = 2 * variables + 1;
        let literal = if random.chance(3) { most } else { random.next() % (most + 1) };
        file.lines.push(format!("{}\n", literal));
    }
    for gate in 1..=gates {
        let literal = 2 * (below + gate);
        let to_first = difference(random, 1, literal);
        let to_second = difference(random, 0, literal - to_first);
        file.differences.extend([groups(to_first, 0), groups(to_second, 0)]);
    }
    file
}

/// What follows the gates: nothing, a symbol table and a comment, or any bytes.
fn any_behind(random: &mut Random) -> Vec<u8> {
    match random.below(3) {
        0 => b"i0 a[0]\no0 s[0]\nc\nmade at random\n".to_vec(),
        1 => (0..random.below(12)).map(|_| random.below(256) as u8).collect(),
        _ => Vec::new(),
    }
}

/// A gate list that can be written: what a file's gates are.
pub fn list(random: &mut Random, most_gates: usize) -> Vec<u32> {
    let file = any(random, most_gates);
    let mut list = Vec::new();
    for gate in 0..file.differences.len() / 2 {
        let first = file.first(gate);
        let second = first - number_of(&file.differences[2 * gate + 1]);
        list.extend([file.literal(gate) as u32 / 2, first as u32, second as u32]);
    }
    list
}
