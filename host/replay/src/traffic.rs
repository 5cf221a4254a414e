//! Traffic: what is asked of the filter, and how it falls into cycles.
//!
//! ```text
//! insert KEY [COUNT [STEP]]    puts KEY, KEY + STEP, .. in, COUNT of them (1), STEP apart (1)
//! lookup KEY [COUNT [STEP]]    looks them up
//! clear                        empties the filter
//! # ..                         a comment
//! ```
//!
//! Numbers are decimal, or hex behind 0x; keys wrap at 2^32.

use filter::{Cycle, PORTS};
use std::collections::VecDeque;

#[derive(Debug, Clone, Copy, PartialEq, Eq)]
pub enum Event {
    Insert(u32),
    LookUp(u32),
    Clear,
}

/// Events that one line may stand for.
const MOST_OF_A_LINE: u32 = 100_000_000;

/// A line: its first event, and those that follow it.
#[derive(Debug, Clone, Copy)]
struct Line {
    event: fn(u32) -> Event,
    key: u32,
    count: u32,
    step: u32,
}

impl Line {
    fn events(self) -> impl Iterator<Item = Event> {
        (0..self.count).map(move |index| (self.event)(self.key.wrapping_add(index.wrapping_mul(self.step))))
    }
}

#[derive(Debug, Clone)]
pub struct Traffic {
    lines: Vec<Line>,
}

impl Traffic {
    /// The traffic of a text, or the first line that has not the form.
    pub fn read(text: &str) -> Result<Self, String> {
        let mut lines = Vec::new();
        for (number, line) in text.lines().enumerate() {
            let words: Vec<&str> = line.split('#').next().unwrap_or("").split_whitespace().collect();
            if !words.is_empty() {
                lines.push(read_line(&words).map_err(|what| format!("line {}: {}", number + 1, what))?);
            }
        }
        Ok(Traffic { lines })
    }

    pub fn look_ups(&self) -> u64 {
        let is_look_up = |line: &&Line| matches!((line.event)(0), Event::LookUp(_));
        self.lines.iter().filter(is_look_up).map(|line| u64::from(line.count)).sum()
    }

    /// The cycles that do this traffic.
    pub fn cycles(&self) -> impl Iterator<Item = Cycle> + '_ {
        Cycles {
            events: self.lines.iter().flat_map(|line| line.events()),
            waiting: Vec::new(),
            ready: VecDeque::new(),
        }
    }
}

fn read_line(words: &[&str]) -> Result<Line, String> {
    let event: fn(u32) -> Event = match words {
        ["clear"] => return Ok(Line { event: |_| Event::Clear, key: 0, count: 1, step: 0 }),
        ["insert", ..] => Event::Insert,
        ["lookup", ..] => Event::LookUp,
        _ => return Err(format!("'{}' is no event: insert, lookup or clear", words.join(" "))),
    };
    let numbers = words[1..].iter().map(|word| number(word)).collect::<Result<Vec<u32>, String>>()?;
    let (key, count, step) = match numbers[..] {
        [key] => (key, 1, 1),
        [key, count] => (key, count, 1),
        [key, count, step] => (key, count, step),
        _ => {
            return Err(format!(
                "'{}' takes a key, a count and a step, not {} numbers",
                words[0],
                numbers.len()
            ))
        }
    };
    if count > MOST_OF_A_LINE {
        return Err(format!("the count is a number from 0 to {}, not {}", MOST_OF_A_LINE, count));
    }
    Ok(Line { event, key, count, step })
}

/// A number below 2^32, in decimal or behind 0x in hex.
pub fn number(word: &str) -> Result<u32, String> {
    let number = match word.strip_prefix("0x") {
        Some(digits) => u32::from_str_radix(digits, 16),
        None => word.parse(),
    };
    number.map_err(|_| format!("'{}' is no number below 2^32", word))
}

/// The cycles that do some events in their order. Look-ups share a cycle, up to one a port; a cycle's insert or clear
/// comes after its look-ups, and an insert takes port 0. Before each insert and clear the same is put on the ports
/// without an edge of the clock: nothing may come of it.
struct Cycles<E> {
    events: E,
    waiting: Vec<u32>,
    ready: VecDeque<Cycle>,
}

impl<E: Iterator<Item = Event>> Cycles<E> {
    fn add(&mut self, event: Event) {
        match event {
            Event::LookUp(key) => self.waiting.push(key),
            Event::Insert(key) => {
                let mut cycle = look_ups(&mut self.waiting, 1);
                cycle.insert = true;
                cycle.ports[0].0 = key;
                self.ready.extend([without_edge(&cycle), cycle]);
            }
            Event::Clear => {
                let mut cycle = look_ups(&mut self.waiting, 0);
                cycle.clear = true;
                self.ready.extend([without_edge(&cycle), cycle]);
            }
        }
        if self.waiting.len() == PORTS {
            self.ready.push_back(look_ups(&mut self.waiting, 0));
        }
    }
}

impl<E: Iterator<Item = Event>> Iterator for Cycles<E> {
    type Item = Cycle;

    fn next(&mut self) -> Option<Cycle> {
        while self.ready.is_empty() {
            match self.events.next() {
                Some(event) => self.add(event),
                None if self.waiting.is_empty() => return None,
                None => self.ready.push_back(look_ups(&mut self.waiting, 0)),
            }
        }
        self.ready.pop_front()
    }
}

/// The same insert or clear with no edge, and nothing looked up.
fn without_edge(cycle: &Cycle) -> Cycle {
    Cycle { clock: false, ports: cycle.ports.map(|(key, _)| (key, false)), ..cycle.clone() }
}

/// A cycle of the waiting look-ups, from a port on.
fn look_ups(waiting: &mut Vec<u32>, first_port: usize) -> Cycle {
    let mut cycle = Cycle::idle();
    for (port, key) in waiting.drain(..).enumerate() {
        cycle.ports[first_port + port] = (key, true);
    }
    cycle
}
