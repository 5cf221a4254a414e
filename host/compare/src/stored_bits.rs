//! Demand 3, as 5/13 says it, of the bits that a finished run stored: from the plan's gates and enable tables, and not
//! from its script. "Of a stored bit that carries a pin: where its enable bit is 1 it is that pin's value by the gates
//! xor data inv, where 0 the old state's bit; and an enable bit gathered from a captured bit that carries a pin is that
//! pin's value by the gates, cleared and inverted."

use crate::run_damage;
use model::build::Accepted;
use model::edition::Edition;
use model::record::{Part, EMPTY};
use model::run::{caught, Caught};
use model::value::Values;
use std::ops::AddAssign;

/// Bits that were held to it.
#[derive(Debug, Clone, Copy, Default)]
pub struct StoredBits {
    /// Stored bits that carry a pin; of these:
    pub carried: u64,
    pub enabled: u64,
    pub inverted: u64,
    pub held: u64,
    /// Held, where an enable would have changed the bit.
    pub held_apart: u64,
    /// By where their enables come from, set0 being 0: a pin; past the normal words; and the others.
    pub by_pin: u64,
    pub past: u64,
    pub by_no_pin: u64,
    /// Cleared by set0, and of these always enabled by inv.
    pub cleared: u64,
    pub always: u64,
}

impl AddAssign for StoredBits {
    fn add_assign(&mut self, more: Self) {
        self.carried += more.carried;
        self.enabled += more.enabled;
        self.inverted += more.inverted;
        self.held += more.held;
        self.held_apart += more.held_apart;
        self.by_pin += more.by_pin;
        self.past += more.past;
        self.by_no_pin += more.by_no_pin;
        self.cleared += more.cleared;
        self.always += more.always;
    }
}

impl StoredBits {
    pub fn print(&self, of: &str) {
        let StoredBits { carried, enabled, inverted, held, held_apart, .. } = self;
        println!("{}: {} stored bits carry a pin, and are as the gates and the enables say:", of, carried);
        println!(
            "  {} enabled ({} inverted), {} held ({} against the pin)",
            enabled, inverted, held, held_apart
        );
        let StoredBits { by_pin, past, by_no_pin, cleared, always, .. } = self;
        println!(
            "  enables: {} by a pin, {} past the normal words, {} by a bit of no pin, {} cleared ({} of them always)",
            by_pin, past, by_no_pin, cleared, always
        );
    }

    /// Ends the program where a kind of bit came less often.
    pub fn assert_each(&self, least: u64) {
        let StoredBits { enabled, inverted, held, held_apart, .. } = *self;
        let StoredBits { by_pin, past, by_no_pin, cleared, always, .. } = *self;
        for count in [enabled, inverted, held, held_apart, by_pin, past, by_no_pin, cleared, always] {
            assert!(count >= least, "a kind of stored bit came less than {} times: {:?}", least, self);
        }
    }
}

/// Holds what a run of all major stages of a plan stored to the plan. `words` is its script.
pub fn check(plan: &Accepted<'_>, words: &[u32], old: &[u32], new: &[u32]) -> StoredBits {
    let starts = plan.starts();
    let mut seen = StoredBits::default();
    let numbers = plan.blocks.parts.iter().flatten().flatten();
    for (&number, place) in numbers.zip(run_damage::parts(plan.plan.edition, words, &starts)) {
        let block = &words[place.at..starts[place.block + 1] as usize];
        let caught = caught(plan.plan.edition, block, old, new).expect("the script is in form");
        let stored = Stored::of(plan, number, old, new);
        stored.check_enables(number, &caught);
        seen += stored.check_bits(number, &caught, old, new);
    }
    seen
}

/// What is stored of a part.
struct Stored<'a> {
    edition: Edition,
    part: &'a Part<'a>,
    /// The bits' pins' values by the gates, of those that carry one.
    values: Vec<Option<bool>>,
    first_word: usize,
}

impl<'a> Stored<'a> {
    fn of(plan: &'a Accepted<'_>, number: usize, old: &[u32], new: &[u32]) -> Self {
        let part = &plan.plan.parts[number];
        let by_gates = Values::of(&plan.plan, Some(part), &plan.found, old, new);
        let mut values = Vec::new();
        for stage in &part.stages {
            for &location in stage.locations {
                let positions = 32 * location as usize..32 * location as usize + 32;
                let pins = positions.map(|position| if position == 0 { EMPTY } else { stage.at(position) });
                values.extend(pins.map(|pin| if pin == EMPTY { None } else { Some(by_gates.value(pin)) }));
            }
        }
        Stored {
            edition: plan.plan.edition,
            part,
            values,
            first_word: plan.blocks.state_starts[number] as usize,
        }
    }

    fn entry(&self, place: usize) -> usize {
        self.part.enable_table[place] as usize
    }

    /// Of a list of the enable table: 0 inv, 1 set0, 2 data inv.
    fn flag(&self, list: usize, place: usize) -> bool {
        bit(&self.part.enable_table[self.edition.slots() + self.edition.lanes() * list..], place)
    }

    /// All enable bits, but those that are gathered from captured bits without a pin.
    fn check_enables(&self, part: usize, caught: &Caught) {
        for place in 0..self.edition.slots() {
            let (inv, set0) = (self.flag(0, place), self.flag(1, place));
            let gathered = match self.values.get(self.entry(place)) {
                None => Some(false),
                Some(&of_pin) => of_pin,
            };
            let enable = if set0 { Some(inv) } else { gathered.map(|bit| bit != inv) };
            if let Some(enable) = enable {
                assert_eq!(caught.enables[place], enable, "part {}, enable bit {}", part, place);
            }
        }
    }

    fn check_bits(&self, part: usize, caught: &Caught, old: &[u32], new: &[u32]) -> StoredBits {
        let mut seen = StoredBits::default();
        for (place, value) in self.values.iter().enumerate() {
            let value = match *value {
                None => continue,
                Some(value) => value,
            };
            let at = 32 * self.first_word + place;
            let (enabled, data_inv) = (caught.enables[place], self.flag(2, place));
            let (if_enabled, if_held) = (value != data_inv, bit(old, at));
            assert_eq!(bit(&caught.words, place), value, "part {}, captured bit {}", part, place);
            let expected = if enabled { if_enabled } else { if_held };
            assert_eq!(bit(new, at), expected, "part {}, stored bit {}", part, place);
            seen.carried += 1;
            seen.enabled += enabled as u64;
            seen.inverted += (enabled && data_inv) as u64;
            seen.held += !enabled as u64;
            seen.held_apart += (!enabled && if_enabled != if_held) as u64;
            self.count_enable(&mut seen, place);
        }
        seen
    }

    fn count_enable(&self, seen: &mut StoredBits, place: usize) {
        if self.flag(1, place) {
            seen.cleared += 1;
            seen.always += self.flag(0, place) as u64;
            return;
        }
        match self.values.get(self.entry(place)) {
            None => seen.past += 1,
            Some(None) => seen.by_no_pin += 1,
            Some(Some(_)) => seen.by_pin += 1,
        }
    }
}

/// Bit `place` of some words, from the first word's bit 0 on.
fn bit(words: &[u32], place: usize) -> bool {
    words[place / 32] >> (place % 32) & 1 == 1
}
