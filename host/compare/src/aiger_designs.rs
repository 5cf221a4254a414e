//! What the stored AIGER files do (host/aiger/designs.v), said in Rust. The gates that the library reads of a file are
//! worked out on random inputs, cycle by cycle, and every output is held to it. Lines and names are read here: the library
//! passes them over.

use filter::{Answer, Cycle, Filter, PORTS};
use random::Random;
use std::collections::HashMap;

/// Cycles, of 64 runs beside each other, each with inputs of its own.
const CYCLES: usize = 12;
const RUNS: usize = 64;

/// The numbers on the input ports, by name.
type Inputs<'a> = HashMap<&'a str, u128>;
/// A cycle of a design: the numbers on its output ports.
type Software = Box<dyn FnMut(&Inputs<'_>) -> Vec<(&'static str, u128)>>;

/// A design from its beginning; none of this name is known.
fn software(name: &str) -> Option<Software> {
    Some(match name {
        "adder8" | "adder64" => plain(|port| vec![("sum", port("a") + port("b") + port("carry"))]),
        "multiplier8" | "multiplier24" => plain(|port| vec![("product", port("a") * port("b"))]),
        "divider12" => plain(|port| match (port("a"), port("b")) {
            (a, 0) => vec![("quotient", 0xFFF), ("rest", a)],
            (a, b) => vec![("quotient", a / b), ("rest", a % b)],
        }),
        "ones64" => plain(|port| vec![("ones", port("a").count_ones().into())]),
        "rotator32" => {
            plain(|port| vec![("turned", (port("a") as u32).rotate_left(port("by") as u32).into())])
        }
        "sorter4" => plain(|port| {
            let mut numbers = ["a", "b", "c", "d"].map(port);
            numbers.sort_unstable();
            ["first", "second", "third", "fourth"].into_iter().zip(numbers).collect()
        }),
        "wires" => plain(|port| {
            let bit = |bit: u32| port("a") >> bit & 1;
            vec![("out", 0b10_0000 | bit(0) << 3 | (bit(1) ^ 1) << 2 | bit(2) << 1 | (bit(3) ^ 1))]
        }),
        "counter16" | "counter16_abc" => counter(),
        "crc32" => checksum(),
        "bloom" => bloom(),
        _ => return None,
    })
}

/// A design without registers.
fn plain(outputs: fn(&dyn Fn(&str) -> u128) -> Vec<(&'static str, u128)>) -> Software {
    Box::new(move |inputs| outputs(&|port| inputs[port]))
}

fn counter() -> Software {
    let mut count: u16 = 0;
    Box::new(move |inputs| {
        let before = count;
        count = match (inputs["reset"], inputs["enable"]) {
            (1, _) => 0,
            (_, enable) => count.wrapping_add(enable as u16),
        };
        vec![("count", before.into())]
    })
}

fn checksum() -> Software {
    let mut state: u32 = 0;
    Box::new(move |inputs| {
        let before = !state;
        let start = if inputs["reset"] == 1 { u32::MAX } else { state };
        state = (0..8).fold(start, |sum, bit| {
            let low = (sum ^ (inputs["data"] as u32 >> bit)) & 1;
            sum >> 1 ^ if low == 1 { 0xEDB8_8320 } else { 0 }
        });
        vec![("sum", before.into())]
    })
}

fn bloom() -> Software {
    let mut filter = Filter::new();
    Box::new(move |inputs| {
        let mut cycle = Cycle::idle();
        cycle.clear = inputs["clear"] == 1;
        cycle.insert = inputs["insert"] == 1;
        for port in 0..PORTS {
            let key = inputs[&format!("key{}", port)[..]] as u32;
            cycle.ports[port] = (key, inputs["look"] >> port & 1 == 1);
        }
        let answers = filter.cycle(&cycle);
        let bit = |port: usize| u128::from(answers[port] == Some(Answer::Maybe)) << port;
        vec![("maybe", (0..PORTS).map(bit).sum())]
    })
}

/// What a file has beside its gates.
struct Ports {
    /// The port and the bit of each input.
    inputs: Vec<(String, u32)>,
    /// The literal that each register takes at the end of a cycle.
    next: Vec<u32>,
    outputs: Vec<(String, u32)>,
    /// The literal of each output.
    literals: Vec<u32>,
}

impl Ports {
    fn of(bytes: &[u8]) -> Self {
        let mut rest = bytes;
        let header: Vec<usize> =
            line(&mut rest).split(' ').skip(1).map(|number| number.parse().expect("a number")).collect();
        let mut lines = (0..header[2] + header[3]).map(|_| line(&mut rest).parse().expect("a literal"));
        let next = lines.by_ref().take(header[2]).collect();
        let literals = lines.collect();
        for _ in 0..2 * header[4] {
            let length = rest.iter().take_while(|&&byte| byte >= 128).count();
            rest = &rest[length + 1..];
        }
        let mut names = HashMap::new();
        while let Some((symbol, name)) = line(&mut rest).split_once(' ') {
            names.insert(symbol.to_string(), port_and_bit(name));
        }
        let named = |kind: char, count: usize| {
            (0..count).map(|port| names[&format!("{}{}", kind, port)].clone()).collect()
        };
        Ports { inputs: named('i', header[1]), next, outputs: named('o', header[3]), literals }
    }
}

/// Takes a line off the front, without its LF.
fn line(bytes: &mut &[u8]) -> String {
    let length = bytes.iter().position(|&byte| byte == b'\n').expect("a line");
    let line = String::from_utf8(bytes[..length].to_vec()).expect("text");
    *bytes = &bytes[length + 1..];
    line
}

/// `name[bit]`, or a port of one bit.
fn port_and_bit(name: &str) -> (String, u32) {
    match name.trim_end_matches(']').split_once('[') {
        Some((port, bit)) => (port.to_string(), bit.parse().expect("a bit")),
        None => (name.to_string(), 0),
    }
}

/// The bits of an input, one for each run. Few runs are reset or cleared in a cycle; and half of them have few keys, so
/// that a key comes again.
fn any_input(random: &mut Random, port: &str, bit: u32) -> u64 {
    let few = random.next() & random.next() & random.next() & random.next();
    match (port, bit) {
        ("reset" | "clear", _) => few,
        (_, 3..) if port.starts_with("key") => random.next() >> 32,
        _ => random.next(),
    }
}

/// Holds a file's gates to what the design of this name does. Gives the number of output bits, or how they differ.
pub fn check(random: &mut Random, name: &str, bytes: &[u8]) -> Result<usize, String> {
    let gates = juolgesot::read_aiger(bytes).map_err(|refusal| refusal.to_string())?;
    let ports = Ports::of(bytes);
    let known = || software(name).ok_or(format!("what {} does is not said", name));
    let mut runs = (0..RUNS).map(|_| known()).collect::<Result<Vec<Software>, String>>()?;
    let below = (gates.header.inputs + gates.header.latches) as usize;
    // A word by variable, a bit by run.
    let mut values: Vec<u64> = vec![0; 1 + below + gates.header.gates as usize];
    let of_literal =
        |values: &[u64], literal: u32| values[literal as usize >> 1] ^ (literal as u64 & 1).wrapping_neg();
    let mut ones = 0;
    for cycle in 0..CYCLES {
        for (input, (port, bit)) in ports.inputs.iter().enumerate() {
            values[1 + input] = any_input(random, port, *bit);
        }
        for (pin, first, second) in gates.gates() {
            values[pin.0 as usize] = of_literal(&values, first.0) & of_literal(&values, second.0);
        }
        for (run, software) in runs.iter_mut().enumerate() {
            let mut inputs = Inputs::new();
            for (input, (port, bit)) in ports.inputs.iter().enumerate() {
                *inputs.entry(port).or_default() |= u128::from(values[1 + input] >> run & 1) << bit;
            }
            let expected: HashMap<&str, u128> = software(&inputs).into_iter().collect();
            for ((port, bit), &literal) in ports.outputs.iter().zip(&ports.literals) {
                let found = u128::from(of_literal(&values, literal) >> run & 1);
                if found != expected[&port[..]] >> bit & 1 {
                    let place = format!("bit {} of {}, cycle {}", bit, port, cycle);
                    return Err(format!("{}: {} is {} on {:?}", name, place, found, inputs));
                }
                ones += found as usize;
            }
        }
        let next: Vec<u64> = ports.next.iter().map(|&literal| of_literal(&values, literal)).collect();
        values[1 + ports.inputs.len()..=below].copy_from_slice(&next);
    }
    let bits = RUNS * CYCLES * ports.outputs.len();
    if ones < bits / 20 || ones > bits - bits / 20 {
        return Err(format!("{}: {} ones among {} bits say little", name, ones, bits));
    }
    Ok(bits)
}
