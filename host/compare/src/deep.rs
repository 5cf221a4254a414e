//! Plans whose gates lie deep, or have more ways down than can be walked: chains, cones that double, a multiplier.

use plan::{Edition, Gate, Part, Plan, Stage, Tables};
use random::Random;

/// Inputs of a chain and of a cone.
const INPUTS: u32 = 40;
/// The inverted pin numbers of pin 0, which nothing reads and no gate makes: 0 and 1.
const ZERO: u32 = 0;
const ONE: u32 = 1;

/// A plan of one part that reads pins 1..=inputs, pin p at bit p - 1 of the state.
fn plan_of(inputs: u32, gates: Vec<Gate>) -> Plan {
    let mut stage = Stage::empty();
    for pin in 1..=inputs {
        stage.slots[Edition::Full.slots() + pin as usize - 1] = pin;
    }
    let part = Part { endpoints: Vec::new(), stages: vec![stage], tables: Tables::zeros(Edition::Full) };
    Plan { blocks: 1, gates, layout: (1..=inputs).collect(), stages: vec![vec![part]], ..Plan::default() }
}

/// Gates by their fan-ins, the first of them being pin 1 of the inputs or the gate before.
fn in_a_row(gates: usize, mut fan_ins: impl FnMut(u32) -> (u32, u32)) -> Plan {
    let mut before = 1;
    let list = (INPUTS + 1..).take(gates).map(|pin| {
        let (first, second) = fan_ins(before);
        before = pin;
        Gate { pin, first, second }
    });
    plan_of(INPUTS, list.collect())
}

/// Each gate is the inverse of the one before: every bit depends on the first.
pub fn inverters(gates: usize) -> Plan {
    in_a_row(gates, |before| (2 * before + 1, ONE))
}

/// Each gate is the one before and any input, each inverted or not, in either order.
pub fn chain(random: &mut Random, gates: usize) -> Plan {
    in_a_row(gates, |before| {
        let through = 2 * before + random.below(2) as u32;
        let input = 2 * random.between(1, INPUTS as usize) as u32 + random.below(2) as u32;
        if random.chance(2) {
            (through, input)
        } else {
            (input, through)
        }
    })
}

/// Each gate is the one before and itself, or the inverse and itself: gate k has 2^k ways down.
pub fn doubling(random: &mut Random, gates: usize) -> Plan {
    in_a_row(gates, |before| {
        let through = 2 * before + random.below(2) as u32;
        (through, through)
    })
}

/// A multiplier of so many bits: x is at the state's first bits, y behind it.
pub struct Multiplier {
    pub plan: Plan,
    /// The product's bits, as inverted pin numbers.
    pub product: Vec<u32>,
}

impl Multiplier {
    pub fn of(bits: u32) -> Self {
        let mut logic = Logic { inputs: 2 * bits, gates: Vec::new() };
        let x: Vec<u32> = (1..=bits).map(|pin| 2 * pin).collect();
        let y: Vec<u32> = (bits + 1..=2 * bits).map(|pin| 2 * pin).collect();
        let mut product = Vec::new();
        let mut row = vec![ZERO; x.len()];
        for &y in &y {
            let mut carry = ZERO;
            for (sum, &x) in row.iter_mut().zip(&x) {
                let addend = logic.and(x, y);
                let (bit, next) = logic.add(*sum, addend, carry);
                *sum = bit;
                carry = next;
            }
            product.push(row.remove(0));
            row.push(carry);
        }
        product.extend(row);
        Multiplier { plan: plan_of(logic.inputs, logic.gates), product }
    }
}

/// Gates being made, over inverted pin numbers.
struct Logic {
    inputs: u32,
    gates: Vec<Gate>,
}

impl Logic {
    fn and(&mut self, first: u32, second: u32) -> u32 {
        let pin = self.inputs + 1 + self.gates.len() as u32;
        self.gates.push(Gate { pin, first, second });
        2 * pin
    }

    fn or(&mut self, a: u32, b: u32) -> u32 {
        self.and(a ^ 1, b ^ 1) ^ 1
    }

    fn xor(&mut self, a: u32, b: u32) -> u32 {
        let (left, right) = (self.and(a, b ^ 1), self.and(a ^ 1, b));
        self.or(left, right)
    }

    /// The sum of three bits, and the carry.
    fn add(&mut self, a: u32, b: u32, c: u32) -> (u32, u32) {
        let half = self.xor(a, b);
        let both = self.and(a, b);
        let through = self.and(half, c);
        (self.xor(half, c), self.or(both, through))
    }
}
