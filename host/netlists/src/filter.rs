//! The netlists of the replay's Bloom filter.
//!
//! Ports: in, the clock, `clear`, `insert`, then for each port `look up` and the key's bits; out, a `maybe` for each
//! port. A register is one bit of the filter. There are two netlists, which differ in how the registers keep their bits
//! (`Holding`): by logic, or by enables, half of the data being inverted there.

use crate::circuits::{and_all, choose, decode, inputs, or_all, registers, xor_all};
use crate::designs::{Clusters, Design, Layout};
use crate::{Builder, Net};
use filter::{Hash, HashBit, Holding, KEY_BITS, PORTS, REGISTERS};

pub fn design(holding: Holding, splits: &[usize], clusters: Clusters, blocks: usize) -> Design {
    let mut b = Builder::new();
    netlist(&mut b, holding);
    Design {
        name: format!("Bloom filter of {}, {} ports, held by {}", REGISTERS, PORTS, holding.name()),
        netlist: b.finish(),
        splits: splits.to_vec(),
        clusters,
        blocks,
        layout: Layout::Plain,
        seed: 1,
    }
}

struct Inputs {
    clock: Net,
    clear: Net,
    insert: Net,
    /// For each port `look up`, and the key.
    ports: Vec<(Net, Vec<Net>)>,
}

/// For each port and each hash, the number of a register.
type Indices = Vec<Vec<Vec<Net>>>;

fn netlist(b: &mut Builder, holding: Holding) {
    let inputs = Inputs {
        clock: b.input(),
        clear: b.input(),
        insert: b.input(),
        ports: (0..PORTS).map(|_| (b.input(), inputs(b, KEY_BITS))).collect(),
    };
    let (indices, array) = match holding {
        Holding::Logic => held_by_logic(b, &inputs),
        Holding::Enable => held_by_enable(b, &inputs),
    };
    for ((look_up, _), indices) in inputs.ports.iter().zip(&indices) {
        let found: Vec<Net> = indices.iter().map(|index| choose(b, index, &array)).collect();
        let all = and_all(b, &found);
        let maybe = b.and(all, *look_up);
        b.output(maybe);
    }
}

/// Registers of the clock: d = not clear and (q or set), an AND that is not inverted.
fn held_by_logic(b: &mut Builder, inputs: &Inputs) -> (Indices, Vec<Net>) {
    let array = registers(b, inputs.clock, REGISTERS);
    let indices = indices(b, inputs);
    let lines: Vec<Vec<Net>> = indices[0].iter().map(|index| decode(b, index)).collect();
    let keep = b.not(inputs.clear);
    let next: Vec<Net> = (0..REGISTERS)
        .map(|register| {
            let chosen: Vec<Net> = lines.iter().map(|lines| lines[register]).collect();
            let chosen = or_all(b, &chosen);
            let set = b.and(chosen, inputs.insert);
            let held = b.or(array.q[register], set);
            b.and(held, keep)
        })
        .collect();
    array.set(b, &next);
    (indices, array.q)
}

/// Each register has a clock gate, open where it is set or cleared; d = chosen and not clear, whatever q is. Every
/// other one has it as an OR, so that GEM stores it inverted.
fn held_by_enable(b: &mut Builder, inputs: &Inputs) -> (Indices, Vec<Net>) {
    let indices = indices(b, inputs);
    let lines: Vec<Vec<Net>> = indices[0].iter().map(|index| decode(b, index)).collect();
    let keep = b.not(inputs.clear);
    let q = (0..REGISTERS)
        .map(|number| {
            let lines: Vec<Net> = lines.iter().map(|lines| lines[number]).collect();
            let chosen = or_all(b, &lines);
            let set = b.and(chosen, inputs.insert);
            let enable = b.or(set, inputs.clear);
            let gated = b.gated_clock(inputs.clock, enable);
            let register = registers(b, gated, 1);
            let d = if number % 2 == 0 {
                b.and(chosen, keep)
            } else {
                let kept: Vec<Net> = lines.iter().map(|&line| b.and(line, keep)).collect();
                or_all(b, &kept)
            };
            register.set(b, &[d]);
            register.q[0]
        })
        .collect();
    (indices, q)
}

fn indices(b: &mut Builder, inputs: &Inputs) -> Indices {
    let hashes = filter::hashes();
    inputs.ports.iter().map(|(_, key)| hashes.iter().map(|hash| hash_nets(b, hash, key)).collect()).collect()
}

fn hash_nets(b: &mut Builder, hash: &Hash, key: &[Net]) -> Vec<Net> {
    hash.iter()
        .map(|HashBit { taps, both: [one, other] }| {
            let mut nets: Vec<Net> =
                (0..KEY_BITS).filter(|bit| taps >> bit & 1 == 1).map(|bit| key[bit]).collect();
            nets.push(b.and(key[*one as usize], key[*other as usize]));
            xor_all(b, &nets)
        })
        .collect()
}
