//! Random plans that are in order: any legal placement, any tables.

use crate::marked::plain_part;
use model::blocks::Blocks;
use model::plan::Counts;
use plan::{Edition, Endpoint, Gate, Part, Plan, Position, Stage, Tables, EMPTY};
use random::Random;
use std::collections::{HashMap, HashSet};

/// How large a plan is made, each number at most.
#[derive(Debug, Clone, Copy)]
pub struct Size {
    pub edition: Edition,
    pub majors: usize,
    pub parts: usize,
    pub stages: usize,
    pub inputs: usize,
    /// Pins up to 2^30, which GEM cannot be given.
    pub wide: bool,
}

/// Where the state bit of a pin is to be.
#[derive(Debug, Clone, Copy, PartialEq, Eq)]
enum Home {
    Layout,
    Unstaged,
    /// In a normal word of this major stage or an earlier one.
    Staged(usize),
    /// Nowhere: no part may read it.
    None,
}

/// A plan being made. Pins are small numbers here, gates above their fan-ins; they are spread at the end.
struct Maker<'a> {
    random: &'a mut Random,
    edition: Edition,
    homes: Vec<Home>,
    /// By pin; `None` for a pin that is no gate.
    gates: Vec<Option<(u32, u32)>>,
    /// Gates by the pins of their fan-ins.
    by_fan_ins: HashMap<(u32, u32), Vec<u32>>,
    /// Whether every slot of level 0 is filled, and half of the words stored that may be, or more.
    full: bool,
}

pub fn any(random: &mut Random, size: Size) -> Plan {
    made(random, size, false)
}

/// A plan of which a run stores many bits that carry a pin.
pub fn full(random: &mut Random, size: Size) -> Plan {
    made(random, size, true)
}

fn made(random: &mut Random, size: Size, full: bool) -> Plan {
    let majors = random.between(1, size.majors);
    let blocks = random.pick(&[1, 1, 2, 3, 5, 17, 1024]);
    let inputs = if random.chance(3) { random.between(1, size.inputs) } else { random.between(1, 60) };
    let homes = (0..inputs).map(|_| random.pick(&[Home::Layout, Home::Layout, Home::Unstaged])).collect();
    let (edition, gates) = (size.edition, vec![None; inputs]);
    let mut maker = Maker { random, edition, homes, gates, by_fan_ins: HashMap::new(), full };
    let mut stages = Vec::new();
    for major in 0..majors {
        let parts = maker.random.between(if major == 0 { 1 } else { 0 }, size.parts);
        stages.push((0..parts).map(|_| maker.part(major, size.stages)).collect());
    }
    let layout = maker.layout();
    let gates = maker.gate_list();
    let mut plan = Plan { edition, blocks, gates, layout, positions: Vec::new(), stages };
    plan.positions = maker.positions(&plan);
    let pins = maker.homes.len();
    spread(random, &mut plan, pins, size.wide);
    plan
}

impl Maker<'_> {
    fn part(&mut self, major: usize, most_stages: usize) -> Part {
        let readable: Vec<u32> = (0..self.homes.len() as u32)
            .filter(|&pin| match self.homes[pin as usize] {
                Home::Layout | Home::Unstaged => true,
                Home::Staged(from) => from < major,
                Home::None => false,
            })
            .collect();
        let mut from = readable;
        if self.random.chance(2) {
            // A few pins that stand in many slots.
            self.random.shuffle(&mut from);
            from.truncate(30);
        }
        let gates_before = self.gates.len();
        let mut read = HashSet::new();
        let mut stages: Vec<Stage> = Vec::new();
        for s in 0..self.random.between(1, most_stages) {
            let stage = self.stage(&from, &mut read, s == 0);
            from = stage.slots[1..self.edition.slots()].iter().copied().filter(|&pin| pin != EMPTY).collect();
            from.sort_unstable();
            from.dedup();
            stages.push(stage);
        }
        for pin in gates_before..self.gates.len() {
            self.homes[pin] =
                self.random.pick(&[Home::None, Home::Unstaged, Home::Staged(major), Home::Staged(major)]);
        }
        let mut part =
            Part { endpoints: self.endpoints(), stages, tables: tables(self.random, self.edition) };
        self.locations(&mut part);
        part
    }

    /// A stage over these pins. In stage 0 what is read is noted.
    fn stage(&mut self, from: &[u32], read: &mut HashSet<u32>, first: bool) -> Stage {
        let mut stage = Stage::empty_of(self.edition);
        let slots = self.edition.slots();
        let filled = if self.full { slots } else { self.random.pick(&[3, 40, 400, slots]) };
        for index in slots..2 * slots {
            if !from.is_empty() && self.random.below(slots) < filled {
                stage.slots[index] = self.random.pick(from);
            }
        }
        if first && stage.slots.iter().all(|&pin| pin == EMPTY) {
            stage.slots[slots + self.random.below(slots)] = self.random.pick(from);
        }
        if first {
            read.extend(stage.slots.iter().filter(|&&pin| pin != EMPTY));
        }
        for position in (1..slots).rev() {
            let (a, b) = model::record::below(position);
            let (a, b) = (stage.slots[a], stage.slots[b]);
            stage.slots[position] = match self.random.below(8) {
                _ if a == EMPTY => EMPTY,
                0 => EMPTY,
                1 | 2 => a,
                _ if b == EMPTY => a,
                _ => self.gate(a, b, read).unwrap_or(a),
            };
        }
        stage
    }

    /// A gate of these fan-in pins that the part does not read: one that is there or a new one.
    fn gate(&mut self, a: u32, b: u32, read: &HashSet<u32>) -> Option<u32> {
        let known = self.by_fan_ins.entry((a, b)).or_default();
        if !known.is_empty() && !self.random.chance(4) {
            let pin = self.random.pick(known);
            return if read.contains(&pin) { None } else { Some(pin) };
        }
        if self.gates.len() > 12_000 {
            return None;
        }
        let pin = self.gates.len() as u32;
        known.push(pin);
        self.gates.push(Some((2 * a + self.random.below(2) as u32, 2 * b + self.random.below(2) as u32)));
        self.homes.push(Home::None);
        Some(pin)
    }

    fn endpoints(&mut self) -> Vec<Endpoint> {
        let count = self.random.pick(&[0, 1, 5, 40, 400]);
        let pins = self.random.pick(&[5, 60, 5000]).min(self.gates.len());
        (0..count)
            .map(|_| {
                let pin = self.random.below(pins) as u32;
                let inverted = 2 * pin + self.random.below(2) as u32;
                match self.random.below(16) {
                    0..=5 => Endpoint::output(inverted),
                    6..=9 => Endpoint::staged(pin),
                    10..=14 => Endpoint::register(inverted, self.random.below(6) as u32),
                    _ => Endpoint::sram(),
                }
            })
            .collect()
    }

    /// Locations of the stages, as many as the write-out words allow.
    fn locations(&mut self, part: &mut Part) {
        let lanes = self.edition.lanes();
        let other = model_counts(part).write_outs() as usize;
        let most = lanes.saturating_sub(other);
        let count = if self.full {
            self.random.between(most / 2, most)
        } else {
            self.random.pick(&[0, 1, 2, 7, most]).min(most)
        };
        for _ in 0..count {
            let stage = self.random.below(part.stages.len());
            part.stages[stage].locations.push(self.random.below(lanes) as u32);
        }
    }

    fn gate_list(&self) -> Vec<Gate> {
        let gate = |(pin, fan_ins): (usize, &Option<(u32, u32)>)| {
            fan_ins.map(|(first, second)| Gate { pin: pin as u32, first, second })
        };
        self.gates.iter().enumerate().filter_map(gate).collect()
    }

    /// The pins whose home it is, some of them twice, some of other homes (which are beaten), and gaps.
    fn layout(&mut self) -> Vec<u32> {
        let mut layout: Vec<u32> = Vec::new();
        for (pin, &home) in self.homes.iter().enumerate() {
            let times = match home {
                Home::Layout => self.random.pick(&[1, 1, 1, 2]),
                Home::Unstaged => self.random.pick(&[0, 0, 0, 1]),
                _ => 0,
            };
            layout.extend(vec![pin as u32; times]);
        }
        for _ in 0..self.random.below(layout.len() + 40) {
            layout.push(EMPTY);
        }
        self.random.shuffle(&mut layout);
        layout
    }

    fn positions(&mut self, plan: &Plan) -> Vec<Position> {
        let state = State::of(plan);
        let mut beaten = Vec::new();
        let mut positions = Vec::new();
        for (pin, &home) in self.homes.iter().enumerate() {
            let pin = pin as u32;
            let staged = match home {
                Home::Layout => {
                    // A staged entry is not looked at where the layout has the pin.
                    if self.random.chance(8) {
                        beaten.push(Position { pin, position: self.random.word(), staged: 1 });
                    }
                    continue;
                }
                Home::None => {
                    if self.random.chance(8) {
                        let (position, staged) = (self.random.word(), self.random.below(2) as u32);
                        beaten.push(Position { pin, position, staged });
                    }
                    continue;
                }
                Home::Unstaged => None,
                Home::Staged(major) => state.normal_bit(self.random, |of| of <= major),
            };
            if self.random.chance(6) {
                let position =
                    Position { pin, position: self.random.word(), staged: staged.is_some() as u32 };
                beaten.push(position);
            }
            positions.push(match staged {
                Some(position) => Position { pin, position, staged: 1 },
                None => Position { pin, position: self.random.below(32 * state.words) as u32, staged: 0 },
            });
        }
        self.random.shuffle(&mut beaten);
        self.random.shuffle(&mut positions);
        [beaten, positions].concat()
    }
}

pub fn tables(random: &mut Random, edition: Edition) -> Tables {
    let slots = edition.slots();
    let mut entries = || -> Vec<u32> { (0..slots).map(|_| random.below(slots) as u32).collect() };
    let (sram, enable) = (entries(), entries());
    let mut lanes = || -> Vec<u32> { (0..edition.lanes()).map(|_| random.word()).collect() };
    Tables {
        sram,
        sram_inv: lanes(),
        sram_set0: lanes(),
        enable,
        enable_inv: lanes(),
        enable_set0: lanes(),
        data_inv: lanes(),
    }
}

/// Gives every part an enable table of any kind: bits that are taken from captured bits, from past them and from around
/// their end, cleared and inverted here and there, in some lanes throughout.
pub fn any_enables(random: &mut Random, plan: &mut Plan) {
    let slots = plan.edition.slots();
    for part in plan.stages.iter_mut().flatten() {
        let captured = 32 * model_counts(part).normal as usize;
        let Tables { enable, enable_inv, enable_set0, data_inv, .. } = &mut part.tables;
        for entry in enable {
            *entry = match random.below(8) {
                0 => random.pick(&[0, captured.saturating_sub(1), captured.min(slots - 1), slots - 1]),
                1..=5 if captured > 0 => random.below(captured),
                _ => random.below(slots),
            } as u32;
        }
        for word in enable_inv.iter_mut().chain(enable_set0).chain(data_inv) {
            let (one, other) = (random.word(), random.word());
            *word = random.pick(&[0, u32::MAX, one, one & other, one | other]);
        }
    }
}

/// The counts of a part by the model.
pub fn model_counts(part: &Part) -> Counts {
    let endpoints: Vec<u32> = part.endpoints.iter().flat_map(|e| [e.kind, e.x, e.y, 0]).collect();
    let locations: usize = part.stages.iter().map(|stage| stage.locations.len()).sum();
    model::plan::counts_of(&endpoints, locations as u64)
}

/// The state of a plan by the model.
pub struct State {
    pub words: usize,
    pub input_words: usize,
    /// Major stage, state start and counts of each part.
    pub parts: Vec<(usize, u64, Counts)>,
}

impl State {
    /// Of a plan in form.
    pub fn of(plan: &Plan) -> Self {
        let words = plan.words();
        let read = model::record::plan(4 * words.len(), &words).expect("a plan in form");
        let counts: Vec<Counts> = read.parts.iter().map(model::plan::counts).collect();
        let blocks = Blocks::of(&read, &counts);
        let parts = read
            .parts
            .iter()
            .zip(&blocks.state_starts)
            .zip(&counts)
            .map(|((part, &start), &counts)| (part.major, start, counts))
            .collect();
        State { words: blocks.state_words as usize, input_words: (plan.layout.len() + 31) / 32, parts }
    }

    /// A bit of a normal word of the major stages that are asked for, if there is one.
    pub fn normal_bit(&self, random: &mut Random, of_major: impl Fn(usize) -> bool) -> Option<u32> {
        self.bit(random, |major, counts| if of_major(major) { 0..counts.normal } else { 0..0 })
    }

    /// A bit of the words that are asked for of each part, counted from its start.
    pub fn bit(
        &self,
        random: &mut Random,
        words: impl Fn(usize, &Counts) -> std::ops::Range<u64>,
    ) -> Option<u32> {
        let of_part = |(major, start, counts): &(usize, u64, Counts)| {
            let range = words(*major, counts);
            start + range.start..start + range.end
        };
        let ranges: Vec<_> = self.parts.iter().map(of_part).filter(|range| range.start < range.end).collect();
        if ranges.is_empty() {
            return None;
        }
        let range = ranges[random.below(ranges.len())].clone();
        Some((32 * random.between(range.start as usize, range.end as usize - 1) + random.below(32)) as u32)
    }
}

/// Gives the pins other numbers, in the same order.
fn spread(random: &mut Random, plan: &mut Plan, pins: usize, wide: bool) {
    let last = if wide { 1 << 30 } else { 60_000 };
    let gap = (last / pins).max(1);
    let first_free = random.chance(2);
    let mut numbers: Vec<u32> = (0..pins).map(|pin| (gap * pin + random.below(gap)) as u32).collect();
    if first_free {
        numbers[0] = 0;
    }
    if wide {
        numbers[pins - 1] = 1 << 30;
    }
    relabel(plan, |pin| numbers[pin as usize]);
}

/// Gives every pin of a plan another number.
pub fn relabel(plan: &mut Plan, number: impl Fn(u32) -> u32) {
    let inverted = |pin: u32| 2 * number(pin >> 1) + (pin & 1);
    for gate in &mut plan.gates {
        *gate = Gate { pin: number(gate.pin), first: inverted(gate.first), second: inverted(gate.second) };
    }
    for pin in plan.layout.iter_mut().filter(|pin| **pin != EMPTY) {
        *pin = number(*pin);
    }
    for entry in &mut plan.positions {
        entry.pin = number(entry.pin);
    }
    for part in plan.stages.iter_mut().flatten() {
        for endpoint in &mut part.endpoints {
            match endpoint.kind {
                0 => endpoint.x = inverted(endpoint.x),
                1 => endpoint.x = number(endpoint.x),
                // Enables are small numbers and stay.
                2 => endpoint.x = inverted(endpoint.x),
                _ => {}
            }
        }
        for stage in &mut part.stages {
            for pin in stage.slots.iter_mut().filter(|pin| **pin != EMPTY) {
                *pin = number(*pin);
            }
        }
    }
}

/// What a part is to read: the bits of each unstaged word, and of each staged one.
#[derive(Debug, Clone, Default)]
pub struct Reads {
    pub unstaged: Vec<u32>,
    pub staged: Vec<u32>,
}

impl Reads {
    /// All of them, the first staged word being this one.
    fn words(&self, staged_from: usize) -> impl Iterator<Item = (usize, u32)> + '_ {
        let staged = self.staged.iter().enumerate().map(move |(word, &bits)| (staged_from + word, bits));
        self.unstaged.iter().copied().enumerate().chain(staged)
    }
}

/// A plan with a part for each of these, in its last major stage. Unstaged words are the state's first; staged ones are normal words
/// that the parts of an earlier major stage store, where there are any.
pub fn reading(random: &mut Random, edition: Edition, parts: &[Reads]) -> Plan {
    let most = |words: fn(&Reads) -> &Vec<u32>| parts.iter().map(|part| words(part).len()).max().unwrap_or(0);
    // The state begins with the layout's words, and goes on with those that are stored.
    let (unstaged, staged) = (most(|part| &part.unstaged).max(1), most(|part| &part.staged));
    let mut bits = vec![0; unstaged + staged];
    bits[0] = 1;
    for (word, count) in parts.iter().flat_map(|part| part.words(unstaged)) {
        bits[word] = bits[word].max(count);
    }
    let mut positions = Vec::new();
    let mut first_pins = Vec::new();
    for (word, &bits) in bits.iter().enumerate() {
        let first = 1 + positions.len() as u32;
        first_pins.push(first);
        let staged = (word >= unstaged) as u32;
        positions.extend((0..bits).map(|bit| Position {
            pin: first + bit,
            position: 32 * word as u32 + bit,
            staged,
        }));
    }
    let mut part = |part: &Reads| {
        let pins: Vec<u32> =
            part.words(unstaged).flat_map(|(word, bits)| first_pins[word]..first_pins[word] + bits).collect();
        let stage = anywhere(random, edition, &pins);
        Part { endpoints: Vec::new(), stages: vec![stage], tables: tables(random, edition) }
    };
    let last: Vec<Part> = parts.iter().map(&mut part).collect();
    let lanes = edition.lanes();
    let storing: Vec<Part> =
        (0..staged).step_by(lanes).map(|_| plain_part(edition, &[&vec![0; lanes]])).collect();
    let stages = if storing.is_empty() { vec![last] } else { vec![storing, last] };
    Plan { edition, blocks: 1, layout: vec![EMPTY; 32 * unstaged], positions, stages, ..Plan::default() }
}

/// A stage that reads these pins, in slots of no order.
fn anywhere(random: &mut Random, edition: Edition, pins: &[u32]) -> Stage {
    let mut slots: Vec<usize> = (edition.slots()..2 * edition.slots()).collect();
    random.shuffle(&mut slots);
    let mut stage = Stage::empty_of(edition);
    for (&slot, &pin) in slots.iter().zip(pins) {
        stage.slots[slot] = pin;
    }
    stage
}

/// One part that reads so many words of 17 bits: where they are more than the lanes they have no packing.
pub fn words_of_17(random: &mut Random, edition: Edition, words: usize) -> Plan {
    let layout: Vec<u32> =
        (0..32 * words as u32).map(|index| if index % 32 < 17 { index } else { EMPTY }).collect();
    let pins: Vec<u32> = layout.iter().copied().filter(|&pin| pin != EMPTY).collect();
    let stage = anywhere(random, edition, &pins);
    let part = Part { endpoints: Vec::new(), stages: vec![stage], tables: tables(random, edition) };
    Plan { edition, blocks: 1, layout, stages: vec![vec![part]], ..Plan::default() }
}
