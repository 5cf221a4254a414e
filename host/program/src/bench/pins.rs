//! Times of `build` for one part that reads 8192 pins, among more positions: pins at several distances, and pins that are chosen to
//! collide in the pin map.

use super::inputs::Input;
use super::{build, Table};
use crate::Outcome;
use ::compare::marked::plain_part;
use ::compare::plan_checker::Expected;
use plan::{Edition, Plan, Position, EMPTY};
use std::time::Duration;

/// Pins that the part reads.
const READ: usize = 8192;
/// A pin is at most this.
const MOST_PIN: u64 = 1 << 30;

pub fn rows(table: &mut Table, time: Duration) -> Outcome {
    let chosen = [
        ("pins of one first home", of_one_home(|pin| scattered(pin) >> HIGH)),
        ("pins whose homes are taken", crowded()),
        ("pins scattered to equal low bits", of_one_home(|pin| scattered(pin) % SLOTS)),
    ];
    let mut inputs = Vec::new();
    for (positions, name) in [(1 << 14, "2^14"), (1 << 20, "2^20")] {
        let told = |pins: &str| format!("8192 pins, {} positions, {}", name, pins);
        for distance in [1, 64, 4096, 16384] {
            inputs.push(input(
                told(&format!("pins {} apart", distance)),
                &apart(positions, distance),
                positions,
            ));
        }
        for (how, pins) in &chosen {
            inputs.push(input(told(how), pins, positions));
        }
    }
    build::rows(table, &inputs, time)
}

/// So many pins, each so far from the next; past the largest they go on from 1, 2 ..
fn apart(count: usize, distance: u64) -> Vec<u32> {
    (0..count as u64)
        .map(|index| (index * distance % MOST_PIN + index * distance / MOST_PIN) as u32)
        .collect()
}

/// Slots of the pin map in a build, and by how much a scattered pin is shifted to be one of them.
const SLOTS: u32 = 16384;
const HIGH: u32 = 18;

/// The first number that crates/pinmap scatters a pin to.
fn scattered(pin: u32) -> u32 {
    pin.wrapping_mul(2_654_435_769)
}

/// The homes of a pin in that map, in their order.
fn homes(pin: u32) -> impl Iterator<Item = usize> {
    let next = |&number: &u32| Some(scattered(number.rotate_left(16).wrapping_add(1)));
    std::iter::successors(Some(scattered(pin)), next).take(32).map(|number| (number >> HIGH) as usize)
}

/// Pins among which each of `crowded` is chosen.
const AMONG: u32 = 1 << 13;

/// Twice as many pins as are read: each of many the one that finds most of its homes taken, in their order, by those before it. Those
/// that are not read are looked for too.
fn crowded() -> Vec<u32> {
    let mut taken = vec![false; SLOTS as usize];
    let mut pins = Vec::new();
    for from in (1..).step_by(AMONG as usize).take(2 * READ) {
        let tried = |pin: u32| homes(pin).take_while(|&home| taken[home]).count();
        let pin = (from..from + AMONG).max_by_key(|&pin| tried(pin)).expect("there are some");
        if pins.len() < READ {
            if let Some(home) = homes(pin).find(|&home| !taken[home]) {
                taken[home] = true;
            }
        }
        pins.push(pin);
    }
    pins
}

/// As many, all of one home.
fn of_one_home(home: fn(u32) -> u32) -> Vec<u32> {
    let pins: Vec<u32> = (1..=MOST_PIN as u32).filter(|&pin| home(pin) == home(1)).take(2 * READ).collect();
    assert!(pins.len() >= READ, "only {} pins are of one home", pins.len());
    pins
}

/// A plan whose part reads the first of these pins, each at a bit of its own; the list of positions goes on with the others, and
/// where it is longer with all of them again.
fn input(name: String, pins: &[u32], positions: usize) -> Input {
    let mut part = plain_part(Edition::Full, &[&[]]);
    part.stages[0].slots.fill(EMPTY);
    part.stages[0].slots[Edition::Full.slots()..][..READ].copy_from_slice(&pins[..READ]);
    let position = |index: usize| {
        let place = index % pins.len();
        Position { pin: pins[place], position: (place % READ) as u32, staged: 0 }
    };
    let plan = Plan {
        blocks: 1,
        layout: vec![EMPTY; READ],
        positions: (0..positions).map(position).collect(),
        stages: vec![vec![part]],
        ..Plan::default()
    };
    let script = Expected::of(&plan.record()).answer.expect("a plan in order");
    Input { name, plan, script }
}
