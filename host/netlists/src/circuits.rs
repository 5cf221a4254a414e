//! Circuits that the designs are made of.

use crate::{Builder, Net};
use random::Random;

pub fn inputs(b: &mut Builder, count: usize) -> Vec<Net> {
    (0..count).map(|_| b.input()).collect()
}

pub fn outputs(b: &mut Builder, nets: &[Net]) {
    for &net in nets {
        b.output(net);
    }
}

/// Registers of one clock; their outputs.
pub struct Registers {
    cells: Vec<usize>,
    pub q: Vec<Net>,
}

pub fn registers(b: &mut Builder, clock: Net, count: usize) -> Registers {
    let (cells, q) = (0..count).map(|_| b.register(clock)).unzip();
    Registers { cells, q }
}

impl Registers {
    /// Gives each register its input.
    pub fn set(&self, b: &mut Builder, d: &[Net]) {
        for (&cell, &d) in self.cells.iter().zip(d) {
            b.set_register(cell, d);
        }
    }
}

/// The sum, and the last carry.
pub fn add(b: &mut Builder, x: &[Net], y: &[Net], carry: Net) -> (Vec<Net>, Net) {
    let mut carry = carry;
    let mut sums = Vec::new();
    for (&x, &y) in x.iter().zip(y) {
        let half = b.xor(x, y);
        sums.push(b.xor(half, carry));
        let both = b.and(x, y);
        let through = b.and(half, carry);
        carry = b.or(both, through);
    }
    (sums, carry)
}

/// The product's low bits, row by row.
pub fn multiply(b: &mut Builder, x: &[Net], y: &[Net]) -> Vec<Net> {
    let mut row: Vec<Net> = x.iter().map(|&x| b.and(x, y[0])).collect();
    let mut product = Vec::new();
    for &y in &y[1..] {
        product.push(row.remove(0));
        let zero = b.zero();
        row.resize(x.len(), zero);
        let addend: Vec<Net> = x.iter().map(|&x| b.and(x, y)).collect();
        let (mut sums, carry) = add(b, &row, &addend, zero);
        sums.push(carry);
        row = sums;
    }
    product.extend(row);
    product
}

/// What a counter holds next.
pub fn increment(b: &mut Builder, q: &[Net]) -> Vec<Net> {
    let mut next = vec![b.not(q[0])];
    let mut carry = q[0];
    for &q in &q[1..] {
        next.push(b.xor(q, carry));
        carry = b.and(q, carry);
    }
    next
}

/// Some nets joined two and two, as a balanced tree.
fn tree(b: &mut Builder, nets: &[Net], join: fn(&mut Builder, Net, Net) -> Net) -> Net {
    if nets.len() == 1 {
        return nets[0];
    }
    let (left, right) = nets.split_at(nets.len() / 2);
    let left = tree(b, left, join);
    let right = tree(b, right, join);
    join(b, left, right)
}

pub fn xor_all(b: &mut Builder, nets: &[Net]) -> Net {
    tree(b, nets, Builder::xor)
}

pub fn and_all(b: &mut Builder, nets: &[Net]) -> Net {
    tree(b, nets, Builder::and)
}

pub fn or_all(b: &mut Builder, nets: &[Net]) -> Net {
    tree(b, nets, Builder::or)
}

/// A CRC register after the data, one bit after another: deep.
pub fn crc_bit_by_bit(b: &mut Builder, state: &[Net], data: &[Net], polynomial: u64) -> Vec<Net> {
    let mut state = state.to_vec();
    for &bit in data {
        let last = state.pop().expect("a register");
        let back = b.xor(last, bit);
        let mut next = vec![back];
        for (index, &net) in state.iter().enumerate() {
            let tapped = polynomial >> (index + 1) & 1 == 1;
            next.push(if tapped { b.xor(net, back) } else { net });
        }
        state = next;
    }
    state
}

/// The same as a tree for each bit: flat.
pub fn crc_trees(b: &mut Builder, state: &[Net], data: &[Net], polynomial: u64) -> Vec<Net> {
    let sources: Vec<Net> = state.iter().chain(data).copied().collect();
    let mut rows: Vec<u128> = (0..state.len()).map(|index| 1 << index).collect();
    for bit in 0..data.len() {
        let back = rows.pop().expect("a register") ^ 1 << (state.len() + bit);
        let mut next = vec![back];
        for (index, &row) in rows.iter().enumerate() {
            let tapped = polynomial >> (index + 1) & 1 == 1;
            next.push(if tapped { row ^ back } else { row });
        }
        rows = next;
    }
    rows.iter()
        .map(|row| {
            let nets: Vec<Net> =
                (0..sources.len()).filter(|i| row >> i & 1 == 1).map(|i| sources[i]).collect();
            xor_all(b, &nets)
        })
        .collect()
}

/// A line for each number of the index, one of them 1.
pub fn decode(b: &mut Builder, index: &[Net]) -> Vec<Net> {
    if index.len() == 1 {
        return vec![b.not(index[0]), index[0]];
    }
    let (low, high) = index.split_at(index.len() / 2);
    let low = decode(b, low);
    let high = decode(b, high);
    high.iter().flat_map(|&high| low.iter().map(|&low| b.and(low, high)).collect::<Vec<_>>()).collect()
}

/// The value that the index names.
pub fn choose(b: &mut Builder, index: &[Net], values: &[Net]) -> Net {
    match index.split_last() {
        None => values[0],
        Some((&top, rest)) => {
            let (low, high) = values.split_at(values.len() / 2);
            let low = choose(b, rest, low);
            let high = choose(b, rest, high);
            let not_top = b.not(top);
            let low = b.and(low, not_top);
            let high = b.and(high, top);
            b.or(low, high)
        }
    }
}

/// Bits that are each an XOR of some of the key, mixed with an AND of two others.
pub fn hash(b: &mut Builder, random: &mut Random, key: &[Net], bits: usize) -> Vec<Net> {
    (0..bits)
        .map(|_| {
            let mut nets: Vec<Net> = key.iter().copied().filter(|_| random.chance(2)).collect();
            let (one, other) = (random.pick(key), random.pick(key));
            nets.push(b.and(one, other));
            xor_all(b, &nets)
        })
        .collect()
}

/// A Bloom filter: hashes of a key choose registers; `insert` sets them, the result says whether all are set.
pub fn bloom(
    b: &mut Builder,
    random: &mut Random,
    clock: Net,
    insert: Net,
    key: &[Net],
    hashes: usize,
    index_bits: usize,
) -> Net {
    let array = registers(b, clock, 1 << index_bits);
    let indices: Vec<Vec<Net>> = (0..hashes).map(|_| hash(b, random, key, index_bits)).collect();
    let lines: Vec<Vec<Net>> = indices.iter().map(|index| decode(b, index)).collect();
    let next: Vec<Net> = (0..1 << index_bits)
        .map(|register| {
            let chosen: Vec<Net> = lines.iter().map(|lines| lines[register]).collect();
            let chosen = or_all(b, &chosen);
            let set = b.and(chosen, insert);
            b.or(array.q[register], set)
        })
        .collect();
    array.set(b, &next);
    let found: Vec<Net> = indices.iter().map(|index| choose(b, index, &array.q)).collect();
    and_all(b, &found)
}

/// So many gates, each over two nets that are there already, near ones preferred where `reach` is small.
pub fn random_logic(
    b: &mut Builder,
    random: &mut Random,
    from: &[Net],
    gates: usize,
    reach: usize,
) -> Vec<Net> {
    let mut nets = from.to_vec();
    for _ in 0..gates {
        let near = nets.len() - random.between(1, reach.min(nets.len()));
        let x = nets[near];
        let y = random.pick(&nets);
        let net = match random.below(5) {
            0 => b.and(x, y),
            1 => b.or(x, y),
            2 => b.xor(x, y),
            3 => {
                let not = b.not(x);
                b.and(not, y)
            }
            _ => {
                let not = b.not(y);
                b.or(x, not)
            }
        };
        nets.push(net);
    }
    nets.split_off(from.len())
}
