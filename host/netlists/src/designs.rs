//! The designs that both builders are compared on: forty, and some more whose staged pins come to lie in
//! duplicate words (document 01 refuses those). Each is a netlist and how it is cut; all are fixed by their seeds.

use crate::circuits::*;
use crate::{Builder, Net};
use netlistdb::NetlistDB;
use random::Random;

pub struct Design {
    pub name: String,
    pub netlist: NetlistDB,
    /// Levels at which the design is split into major stages.
    pub splits: Vec<usize>,
    pub clusters: Clusters,
    pub blocks: usize,
    pub layout: Layout,
    pub seed: u64,
}

/// How the endpoints of a major stage are put together before GEM's partitioner places them.
#[derive(Debug, Clone, Copy)]
pub enum Clusters {
    /// So many in their order, merged by GEM where they fit one part.
    Merged(usize),
    /// So many in their order, not merged.
    Apart(usize),
    /// So many in any order, not merged.
    Mixed(usize),
    /// So many in descending order, not merged: registers and outputs before staged pins.
    Backwards(usize),
}

#[derive(Debug, Clone, Copy)]
pub enum Layout {
    /// The input pins in their order.
    Plain,
    /// In any order, with gaps.
    Gaps,
    /// With gaps, some pins twice, and some pins that are no inputs.
    Crowded,
    /// In any order, most of them alone in their words: many words to read.
    Sparse,
}

/// Makes a design's netlist.
pub type Make = fn(&mut Builder, &mut Random);

pub const SEED: u64 = 20_240_700;

/// The forty.
pub fn forty() -> Vec<Design> {
    use Clusters::*;
    use Layout::*;
    let list: Vec<(&str, Make, &[usize], Clusters, usize, Layout)> = vec![
        ("wire", wire, &[], Merged(1), 1, Plain),
        ("one gate", one_gate, &[], Merged(1), 2, Plain),
        ("output both ways", both_ways, &[], Merged(1), 1, Gaps),
        ("register of a constant", constant_register, &[], Apart(2), 3, Plain),
        ("adder of 4", adder::<4>, &[], Merged(2), 1, Gaps),
        ("adder of 32", adder::<32>, &[16], Merged(11), 4, Plain),
        ("adder of 64", adder::<64>, &[20, 40, 80], Apart(9), 5, Crowded),
        ("adder of 64, many stages", adder::<64>, &MANY_SPLITS, Apart(100), 2, Gaps),
        ("multiplier of 4", multiplier::<4>, &[], Merged(3), 1024, Plain),
        ("multiplier of 8", multiplier::<8>, &[10, 22], Apart(4), 3, Gaps),
        ("multiplier of 12", multiplier::<12>, &[30], Apart(5), 2, Plain),
        ("CRC-8, deep", crc_deep::<8>, &[9], Apart(3), 7, Gaps),
        ("CRC-16, deep", crc_deep::<16>, &[7, 14, 21], Apart(6), 4, Crowded),
        ("CRC-16, flat", crc_flat::<16>, &[], Apart(4), 2, Plain),
        ("CRC-32, flat", crc_flat::<32>, &[6], Apart(7), 3, Gaps),
        ("XOR tree of 5", xor_tree::<5>, &[], Merged(1), 1024, Crowded),
        ("XOR tree of 64", xor_tree::<64>, &[], Merged(1), 1, Plain),
        ("XOR tree of 500", xor_tree::<500>, &[6, 12], Apart(40), 6, Sparse),
        ("XOR tree of 2000", xor_tree::<2000>, &[8], Apart(64), 3, Sparse),
        ("counter of 8", counters::<1, 8>, &[], Merged(4), 1, Plain),
        ("counters of 16", counters::<4, 16>, &[], Apart(13), 2, Gaps),
        ("counters of 24, staged", counters::<5, 24>, &[8], Apart(17), 9, Crowded),
        ("counters of 40, staged", counters::<3, 40>, &[15, 31], Mixed(21), 4, Gaps),
        ("one RAM", rams::<1, 32>, &[], Merged(9), 1, Plain),
        ("narrow RAMs", rams::<3, 7>, &[], Apart(12), 2, Gaps),
        ("RAMs, staged", rams::<4, 32>, &[5], Apart(14), 3, Crowded),
        ("a dozen RAMs", rams::<12, 32>, &[], Apart(100), 1, Gaps),
        ("Bloom filter of 16", bloom_filter::<2, 4>, &[], Merged(6), 2, Plain),
        ("Bloom filter of 64", bloom_filter::<2, 6>, &[8], Apart(16), 4, Gaps),
        ("Bloom filter of 128", bloom_filter::<3, 7>, &[10], Apart(33), 5, Crowded),
        ("Bloom filter of 256", bloom_filter::<2, 8>, &[7, 14], Apart(60), 8, Gaps),
        ("random, 20 gates", random_design::<20>, &[], Merged(3), 1, Gaps),
        ("random, 60 gates", random_design::<60>, &[], Apart(4), 4, Crowded),
        ("random, 150 gates", random_design::<150>, &[6], Apart(7), 2, Plain),
        ("random, 300 gates", random_design::<300>, &[10], Merged(80), 3, Gaps),
        ("random, 300 gates, many parts", random_design::<300>, &[8], Mixed(3), 5, Crowded),
        ("random, 600 gates", random_design::<600>, &[5, 11, 20], Mixed(15), 6, Gaps),
        ("random, 1000 gates", random_design::<1000>, &[12], Apart(25), 1024, Crowded),
        ("random, 2000 gates", random_design::<2000>, &[14, 40], Apart(60), 10, Gaps),
        ("random, 3000 gates", random_design::<3000>, &[20], Apart(200), 2, Sparse),
    ];
    assert_eq!(list.len(), 40);
    made(list, SEED)
}

/// Three of the forty that differ in the words of their scripts: as few as any (18,176), the middle (184,576), and more
/// than all but one (854,784).
pub fn small_mid_and_large() -> Vec<Design> {
    named(&["counter of 8", "Bloom filter of 64", "multiplier of 12"])
}

/// Some of the forty, by their names.
pub fn named(names: &[&str]) -> Vec<Design> {
    let mut forty = forty();
    let mut take = |name: &&str| {
        let place = forty.iter().position(|design| design.name == *name).expect("one of the forty");
        forty.swap_remove(place)
    };
    names.iter().map(|name| take(name)).collect()
}

/// Designs whose staged pins come to lie in duplicate words.
pub fn staged_duplicates() -> Vec<Design> {
    use Clusters::*;
    use Layout::*;
    let list: Vec<(&str, Make, &[usize], Clusters, usize, Layout)> = vec![
        ("chain of 12, backwards", tapped_chain::<12>, &[5], Backwards(40), 2, Plain),
        ("chain of 60, backwards", tapped_chain::<60>, &[7, 20, 33], Backwards(200), 3, Gaps),
        ("random, backwards", random_design::<900>, &[5, 10], Backwards(400), 1, Crowded),
    ];
    made(list, SEED + 1000)
}

/// Splits that give 64 major stages where the design is deep enough.
const MANY_SPLITS: [usize; 63] = {
    let mut splits = [0; 63];
    let mut index = 0;
    while index < 63 {
        splits[index] = 2 * (index + 1);
        index += 1;
    }
    splits
};

pub fn made(list: Vec<(&str, Make, &[usize], Clusters, usize, Layout)>, first_seed: u64) -> Vec<Design> {
    list.into_iter()
        .zip(first_seed..)
        .map(|((name, make, splits, clusters, blocks, layout), seed)| {
            let mut b = Builder::new();
            make(&mut b, &mut Random::new(seed));
            let (name, splits) = (name.to_string(), splits.to_vec());
            Design { name, netlist: b.finish(), splits, clusters, blocks, layout, seed }
        })
        .collect()
}

fn wire(b: &mut Builder, _: &mut Random) {
    let x = b.input();
    b.output(x);
}

fn one_gate(b: &mut Builder, _: &mut Random) {
    let (x, y) = (b.input(), b.input());
    let not = b.not(y);
    let and = b.and(x, not);
    b.output(and);
}

/// Outputs and their inversions: each pin is put out twice, once in a duplicate word.
fn both_ways(b: &mut Builder, _: &mut Random) {
    for _ in 0..40 {
        let (x, y) = (b.input(), b.input());
        let and = b.and(x, y);
        let not = b.not(and);
        outputs(b, &[and, not]);
    }
}

/// A register whose input is 0 beside one that counts it.
fn constant_register(b: &mut Builder, _: &mut Random) {
    let clock = b.input();
    let x = b.input();
    let both = registers(b, clock, 2);
    let zero = b.zero();
    let sum = b.xor(both.q[0], both.q[1]);
    let next = b.xor(sum, x);
    both.set(b, &[zero, next]);
    b.output(sum);
}

fn adder<const BITS: usize>(b: &mut Builder, _: &mut Random) {
    let x = inputs(b, BITS);
    let y = inputs(b, BITS);
    let carry = b.input();
    let (sums, carry) = add(b, &x, &y, carry);
    outputs(b, &sums);
    b.output(carry);
}

/// A multiplier that adds to a register.
fn multiplier<const BITS: usize>(b: &mut Builder, _: &mut Random) {
    let clock = b.input();
    let (x, y) = (inputs(b, BITS), inputs(b, BITS));
    let sum = registers(b, clock, 2 * BITS);
    let product = multiply(b, &x, &y);
    let zero = b.zero();
    let (next, carry) = add(b, &product, &sum.q, zero);
    sum.set(b, &next);
    outputs(b, &sum.q);
    b.output(carry);
}

const POLYNOMIAL: u64 = 0x1_04C1_1DB7;

fn crc_deep<const BITS: usize>(b: &mut Builder, _: &mut Random) {
    let clock = b.input();
    let data = inputs(b, 8);
    let crc = registers(b, clock, BITS);
    let next = crc_bit_by_bit(b, &crc.q, &data, POLYNOMIAL);
    crc.set(b, &next);
    outputs(b, &next);
}

/// Two CRC registers of one width, the second one enabled.
fn crc_flat<const BITS: usize>(b: &mut Builder, _: &mut Random) {
    let clock = b.input();
    let enable = b.input();
    let gated = b.gated_clock(clock, enable);
    let data = inputs(b, BITS);
    for clock in [clock, gated] {
        let crc = registers(b, clock, BITS);
        let next = crc_trees(b, &crc.q, &data, POLYNOMIAL);
        crc.set(b, &next);
        outputs(b, &crc.q);
    }
}

fn xor_tree<const LEAVES: usize>(b: &mut Builder, _: &mut Random) {
    let leaves = inputs(b, LEAVES);
    let all = xor_all(b, &leaves);
    let half = xor_all(b, &leaves[..(LEAVES + 1) / 2]);
    outputs(b, &[all, half]);
}

/// Counters with enables of their own, the next one's enable coming from the one before; some have a reset,
/// every other one counts on the falling edge. A register holds each carry twice, under two enables.
fn counters<const COUNT: usize, const BITS: usize>(b: &mut Builder, _: &mut Random) {
    let clock = b.input();
    let falling = b.not(clock);
    let set = b.input();
    let reset = b.input();
    let mut enable = b.input();
    for counter in 0..COUNT {
        let edge = if counter % 2 == 0 { clock } else { falling };
        let gated = b.gated_clock(edge, enable);
        let cells: Vec<(usize, Net)> = (0..BITS)
            .map(|bit| {
                if (counter + bit) % 3 == 2 {
                    b.register_with(gated, set, reset)
                } else {
                    b.register(gated)
                }
            })
            .collect();
        let q: Vec<Net> = cells.iter().map(|&(_, q)| q).collect();
        let next = increment(b, &q);
        for (&(cell, _), &next) in cells.iter().zip(&next) {
            b.set_register(cell, next);
        }
        let carry = and_all(b, &q);
        for clock in [clock, gated] {
            let (cell, held) = b.register(clock);
            b.set_register(cell, carry);
            b.output(held);
        }
        b.output(carry);
        b.output(next[BITS - 1]);
        enable = b.xor(carry, enable);
    }
}

/// A chain of gates; each of its nets is put out, and held by a register under an enable.
fn tapped_chain<const LENGTH: usize>(b: &mut Builder, _: &mut Random) {
    let clock = b.input();
    let enable = b.input();
    let gated = b.gated_clock(clock, enable);
    let mut net = b.input();
    for _ in 0..LENGTH {
        let (x, register) = (b.input(), b.register(gated));
        let not = b.not(net);
        net = b.and(not, x);
        b.set_register(register.0, net);
        b.output(register.1);
        b.output(net);
    }
}

/// RAMs that a counter and each other's data address.
fn rams<const COUNT: usize, const READ_BITS: usize>(b: &mut Builder, random: &mut Random) {
    let clock = b.input();
    let enable = b.input();
    let gated = b.gated_clock(clock, enable);
    let counter = registers(b, gated, 13);
    let next = increment(b, &counter.q);
    counter.set(b, &next);
    let mut nets = inputs(b, 20);
    nets.extend(&counter.q);
    for _ in 0..COUNT {
        let mut address = || {
            let mut address = [enable; 13];
            for (net, &count) in address.iter_mut().zip(&counter.q) {
                *net = if random.chance(3) { random.pick(&nets) } else { count };
            }
            address
        };
        let (read, write) = (address(), address());
        let mut data = [enable; 32];
        for net in &mut data {
            let (x, y) = (random.pick(&nets), random.pick(&nets));
            *net = if random.chance(2) { b.xor(x, y) } else { x };
        }
        let clock = random.pick(&[clock, gated]);
        let found = b.ram(clock, &read, &write, enable, &data, READ_BITS);
        let parity = xor_all(b, &found);
        b.output(parity);
        nets.extend(&found);
    }
}

fn bloom_filter<const HASHES: usize, const INDEX_BITS: usize>(b: &mut Builder, random: &mut Random) {
    let clock = b.input();
    let insert = b.input();
    let key = inputs(b, 32);
    let found = bloom(b, random, clock, insert, &key, HASHES, INDEX_BITS);
    b.output(found);
}

/// Random logic between inputs, registers of four enables, and outputs.
fn random_design<const GATES: usize>(b: &mut Builder, random: &mut Random) {
    let clock = b.input();
    let mut from = inputs(b, random_size(random, GATES / 10 + 3));
    let mut clocks = vec![clock];
    for &enable in &from[..3] {
        clocks.push(b.gated_clock(clock, enable));
    }
    let groups: Vec<Registers> = clocks
        .iter()
        .map(|&clock| {
            let count = random_size(random, GATES / 40 + 1);
            registers(b, clock, count)
        })
        .collect();
    for group in &groups {
        from.extend(&group.q);
    }
    let reach = random.pick(&[20, 60, 200]);
    let nets = random_logic(b, random, &from, GATES, reach);
    for group in &groups {
        let d: Vec<Net> = group.q.iter().map(|_| random.pick(&nets)).collect();
        group.set(b, &d);
    }
    for _ in 0..GATES / 10 + 1 {
        let net = random.pick(&nets);
        let net = if random.chance(4) { b.not(net) } else { net };
        b.output(net);
    }
}

fn random_size(random: &mut Random, about: usize) -> usize {
    random.between(about, about + about / 2 + 1)
}
