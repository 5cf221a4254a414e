//! Designs whose registers hold where they are not enabled. Enables are edges of clocks (a plain register's), gates of
//! every kind (clock gates), gates that are inverted (set and reset beside a clock), and, where a register has no clock,
//! inputs and registers' outputs, inverted or not. Many data are inverted: GEM stores them inverted.

use crate::circuits::*;
use crate::designs::{made, Clusters, Design, Layout, SEED};
use crate::{Builder, Net};
use random::Random;

pub fn all() -> Vec<Design> {
    use Clusters::*;
    use Layout::*;
    made(
        vec![
            ("enabled counters of 4", enabled_counters::<2, 4>, &[], Merged(9), 1, Plain),
            ("loaded counters of 12", loaded_counters::<3, 12>, &[], Apart(18), 2, Gaps),
            ("register file, words apart", register_file, &[], Apart(8), 3, Gaps),
            ("register file, words together", register_file, &[5], Apart(100), 2, Plain),
            ("shift registers with hold", shift_registers::<14>, &[], Apart(20), 2, Crowded),
            ("nested clock gates", nested_gates, &[], Mixed(9), 2, Gaps),
            ("set and reset", set_and_reset, &[], Apart(14), 3, Gaps),
            ("inverted data", inverted_data::<40>, &[], Apart(23), 2, Plain),
            ("token ring", token_ring::<6, 5>, &[], Mixed(12), 3, Crowded),
            ("accumulators, staged", accumulators::<3, 16>, &[9, 24], Apart(26), 3, Gaps),
            ("random enables, 300 gates", random_enables::<300>, &[], Apart(40), 2, Crowded),
            ("random enables, staged", random_enables::<700>, &[6, 14], Mixed(60), 4, Gaps),
        ],
        SEED + 2000,
    )
}

/// Counters, each with an enable input. The lowest bit's data is its own output, inverted.
fn enabled_counters<const COUNT: usize, const BITS: usize>(b: &mut Builder, _: &mut Random) {
    let clock = b.input();
    for _ in 0..COUNT {
        let enable = b.input();
        let gated = b.gated_clock(clock, enable);
        let counter = registers(b, gated, BITS);
        let next = increment(b, &counter.q);
        counter.set(b, &next);
        let carry = and_all(b, &counter.q);
        b.output(carry);
    }
}

/// The same, with a load beside the counting.
fn loaded_counters<const COUNT: usize, const BITS: usize>(b: &mut Builder, _: &mut Random) {
    let clock = b.input();
    let load = b.input();
    for _ in 0..COUNT {
        let enable = b.input();
        let gated = b.gated_clock(clock, enable);
        let counter = registers(b, gated, BITS);
        let more = increment(b, &counter.q);
        let next: Vec<Net> = more
            .iter()
            .map(|&more| {
                let loaded = b.input();
                choose(b, &[load], &[more, loaded])
            })
            .collect();
        counter.set(b, &next);
        outputs(b, &counter.q);
    }
}

/// Four words of eight bits. All words have the same data, each its own write enable: in one part, all bits but one
/// word's lie in duplicate words.
fn register_file(b: &mut Builder, _: &mut Random) {
    let clock = b.input();
    let write = b.input();
    let (to, from, data) = (inputs(b, 2), inputs(b, 2), inputs(b, 8));
    let lines = decode(b, &to);
    let words: Vec<Vec<Net>> = lines
        .iter()
        .map(|&line| {
            let enable = b.and(line, write);
            let gated = b.gated_clock(clock, enable);
            let word = registers(b, gated, 8);
            word.set(b, &data);
            word.q
        })
        .collect();
    for bit in 0..8 {
        let column: Vec<Net> = words.iter().map(|word| word[bit]).collect();
        let read = choose(b, &from, &column);
        b.output(read);
    }
}

/// Three of them, every other bit inverted on its way. The first one is held by an input, the second one shifts where
/// the first one's last bit is 1, the third one where a gate says so.
fn shift_registers<const BITS: usize>(b: &mut Builder, _: &mut Random) {
    let clock = b.input();
    let hold = b.input();
    let mut bit = b.input();
    let mut enable = b.not(hold);
    for round in 0..3 {
        let gated = b.gated_clock(clock, enable);
        let shift = registers(b, gated, BITS);
        let d: Vec<Net> = (0..BITS)
            .map(|place| {
                let before = if place == 0 { bit } else { shift.q[place - 1] };
                if place % 2 == 0 {
                    b.not(before)
                } else {
                    before
                }
            })
            .collect();
        shift.set(b, &d);
        let taps = xor_all(b, &[shift.q[BITS - 1], shift.q[BITS / 2], bit]);
        b.output(taps);
        bit = taps;
        enable = if round == 0 { shift.q[BITS - 1] } else { taps };
    }
}

/// Clock gates behind clock gates, on both edges of two clocks, some enables inverted. A register of each toggles, one
/// takes a bit as it is, one takes it inverted.
fn nested_gates(b: &mut Builder, _: &mut Random) {
    let clocks = [b.input(), b.input()];
    let enables = inputs(b, 3);
    let mut gated = Vec::new();
    for clock in clocks {
        let falling = b.not(clock);
        let not_first = b.not(enables[0]);
        let one = b.gated_clock(clock, enables[0]);
        let two = b.gated_clock(one, enables[1]);
        let three = b.gated_clock(two, enables[2]);
        let inverted = b.gated_clock(falling, not_first);
        let falling_again = b.not(one);
        gated.extend([one, two, three, inverted, falling_again, falling, clock]);
    }
    for clock in gated {
        let three = registers(b, clock, 3);
        let (x, y) = (b.input(), b.input());
        let toggled = b.xor(three.q[0], x);
        let inverted = b.not(y);
        let both = b.and(x, three.q[2]);
        three.set(b, &[toggled, inverted, both]);
        let parity = xor_all(b, &three.q);
        b.output(parity);
    }
}

/// Registers that are set and reset where nets are 0. Without a clock these are their only enables: an input or its
/// inversion, the output of another register or its inversion, a gate; with a gated clock the enable is an inverted gate.
fn set_and_reset(b: &mut Builder, _: &mut Random) {
    let clock = b.input();
    let enable = b.input();
    let gated = b.gated_clock(clock, enable);
    let (zero, one) = (b.zero(), b.one());
    let free = registers(b, gated, 4);
    let d = inputs(b, 4);
    free.set(b, &d);
    let x = inputs(b, 3);
    let not_x = b.not(x[0]);
    let not_q = b.not(free.q[0]);
    let both = b.and(x[1], free.q[1]);
    let mut q = Vec::new();
    for net in [x[0], not_x, free.q[0], not_q, both] {
        for (set, reset) in [(net, one), (one, net)].repeat(5) {
            let register = b.register_with(zero, set, reset);
            let data = b.input();
            b.set_register(register.0, data);
            q.push(register.1);
        }
    }
    for (set, reset) in [(x[1], x[2]), (free.q[3], x[2]), (not_q, both)] {
        for clock in [zero, gated, clock] {
            let register = b.register_with(clock, set, reset);
            let data = b.input();
            let toggled = b.xor(register.1, data);
            b.set_register(register.0, toggled);
            q.push(register.1);
        }
    }
    for nets in q.chunks(4) {
        let parity = xor_all(b, nets);
        b.output(parity);
    }
}

/// Registers of ORs, of inverted inputs and of inverted ANDs, under four enables that are inputs, inverted, ORs and
/// registers' outputs. The same nets are put out too.
fn inverted_data<const COUNT: usize>(b: &mut Builder, _: &mut Random) {
    let clock = b.input();
    let e = inputs(b, 2);
    let flag = registers(b, clock, 1);
    let either = b.or(e[0], e[1]);
    flag.set(b, &[either]);
    let not_e = b.not(e[1]);
    let gated = [e[0], not_e, either, flag.q[0]].map(|enable| b.gated_clock(clock, enable));
    for index in 0..COUNT {
        let register = registers(b, gated[index / 3 % 4], 1);
        let x = b.input();
        let d = match index % 3 {
            0 => b.or(x, register.q[0]),
            1 => b.not(x),
            _ => {
                let and = b.and(x, register.q[0]);
                b.not(and)
            }
        };
        register.set(b, &[d]);
        let other = b.input();
        let out = b.or(register.q[0], other);
        b.output(out);
    }
}

/// A token goes round; who has it takes its neighbour's word and some input: the enables are registers' outputs.
fn token_ring<const COUNT: usize, const BITS: usize>(b: &mut Builder, _: &mut Random) {
    let clock = b.input();
    let add = b.input();
    let token = registers(b, clock, COUNT);
    let none = or_all(b, &token.q);
    let new = b.not(none);
    let mut next = vec![b.or(token.q[COUNT - 1], new)];
    next[0] = b.and(next[0], add);
    next.extend(&token.q[..COUNT - 1]);
    token.set(b, &next);
    let words: Vec<Registers> = token
        .q
        .iter()
        .map(|&token| {
            let gated = b.gated_clock(clock, token);
            registers(b, gated, BITS)
        })
        .collect();
    let x = inputs(b, BITS);
    for (index, word) in words.iter().enumerate() {
        let before = &words[(index + COUNT - 1) % COUNT];
        let d: Vec<Net> = before.q.iter().zip(&x).map(|(&q, &x)| b.xor(q, x)).collect();
        word.set(b, &d);
    }
    let parity = xor_all(b, &words[COUNT - 1].q);
    b.output(parity);
}

/// Sums that are taken where they do not pass a limit: data and enables are deep, and lie in several major stages.
fn accumulators<const COUNT: usize, const BITS: usize>(b: &mut Builder, _: &mut Random) {
    let clock = b.input();
    let clear = b.input();
    let keep = b.not(clear);
    for _ in 0..COUNT {
        let (x, limit) = (inputs(b, BITS), inputs(b, BITS));
        let sum = registers(b, clock, BITS);
        let zero = b.zero();
        let (next, over) = add(b, &sum.q, &x, zero);
        let not_limit: Vec<Net> = limit.iter().map(|&net| b.not(net)).collect();
        let (_, passes) = add(b, &next, &not_limit, zero);
        let stays = b.or(passes, over);
        let taken = b.not(stays);
        let enable = b.or(taken, clear);
        let gated = b.gated_clock(clock, enable);
        let held = registers(b, gated, BITS);
        let d: Vec<Net> = next.iter().map(|&net| b.and(net, keep)).collect();
        held.set(b, &d);
        sum.set(b, &held.q);
        b.output(taken);
        b.output(over);
    }
}

/// Random logic whose registers, in groups of one to four, have clock gates of their own: inputs, gates, registers'
/// outputs, inverted or not.
fn random_enables<const GATES: usize>(b: &mut Builder, random: &mut Random) {
    let clock = b.input();
    let mut from = inputs(b, GATES / 12);
    let groups = GATES / 30;
    // Enables are worked out before there are registers under them: of inputs and of registers of the clock alone.
    let free = registers(b, clock, GATES / 60);
    from.extend(&free.q);
    let reach = random.pick(&[20, 60]);
    let early = random_logic(b, random, &from, GATES / 3, reach);
    let mut held = Vec::new();
    for _ in 0..groups {
        let enable = if random.chance(3) { random.pick(&from) } else { random.pick(&early) };
        let enable = if random.chance(3) { b.not(enable) } else { enable };
        let gated = b.gated_clock(clock, enable);
        let count = random.between(1, 4);
        held.push(registers(b, gated, count));
    }
    for group in &held {
        from.extend(&group.q);
    }
    from.extend(&early);
    let late = random_logic(b, random, &from, GATES - GATES / 3, reach);
    for group in held.iter().chain([&free]) {
        let d: Vec<Net> = group
            .q
            .iter()
            .map(|_| {
                let net = random.pick(&late);
                if random.chance(2) {
                    b.not(net)
                } else {
                    net
                }
            })
            .collect();
        group.set(b, &d);
    }
    for _ in 0..GATES / 20 {
        let net = random.pick(&late);
        b.output(net);
    }
}
