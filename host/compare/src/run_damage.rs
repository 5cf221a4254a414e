//! Scripts to run, and damaged copies of them for every clause of refusal 15. What a call is then to answer, the model
//! says; each damage names the refusal that it is meant to bring about, and the program sees that it comes.

use crate::{other, UNKNOWN};
use model::build::accept;
use model::edition::Edition;
use model::record;
use random::Random;

/// What a run is given.
#[derive(Debug, Clone, PartialEq, Eq)]
pub struct Case {
    /// The edition of the words.
    pub edition: Edition,
    /// The number of the edition that the run is told.
    pub told: u32,
    pub words: Vec<u32>,
    pub starts: Vec<u64>,
    pub turns: Vec<u32>,
    pub old: Vec<u32>,
    pub new: Vec<u32>,
}

/// A part of a script.
#[derive(Debug, Clone, Copy)]
pub struct PartPlace {
    edition: Edition,
    pub block: usize,
    pub at: usize,
    pub stages: usize,
    pub rounds: usize,
    pub last: bool,
}

impl PartPlace {
    fn rounds_at(&self) -> usize {
        self.at + self.edition.head_words()
    }

    fn locations_at(&self) -> usize {
        self.at + self.edition.head_numbers()
    }

    fn section_at(&self, section: usize) -> usize {
        self.rounds_at() + self.edition.round_words() * self.rounds + self.edition.section_words() * section
    }

    pub fn words(&self) -> usize {
        self.edition.part_words(self.rounds as u64, self.stages as u64) as usize
    }

    /// Where word and mask of a lane in a round are.
    fn read_at(&self, round: usize, lane: usize) -> usize {
        self.rounds_at() + self.edition.round_words() * round + 2 * lane
    }

    fn lanes(&self) -> usize {
        self.edition.lanes()
    }

    fn slots(&self) -> usize {
        self.edition.slots()
    }
}

/// The parts of a script in form.
pub fn parts(edition: Edition, words: &[u32], starts: &[u64]) -> Vec<PartPlace> {
    let mut parts = Vec::new();
    for (block, range) in starts.windows(2).enumerate() {
        let mut at = range[0] as usize;
        while at < range[1] as usize && words[at] != 0 {
            let (stages, rounds) = (words[at] as usize, words[at + 6] as usize);
            let mut part = PartPlace { edition, block, at, stages, rounds, last: false };
            at += part.words();
            part.last = at == range[1] as usize;
            parts.push(part);
        }
    }
    parts
}

fn normal_words(words: &[u32], part: &PartPlace) -> usize {
    (words[part.at + 2] - words[part.at + 4] - words[part.at + 7]) as usize
}

/// A random state of so many words.
pub fn state(random: &mut Random, words: usize) -> Vec<u32> {
    (0..words).map(|_| random.word()).collect()
}

/// Turns that finish every block, in any order.
pub fn all_turns(random: &mut Random, parts: &[PartPlace]) -> Vec<u32> {
    let mut turns = Vec::new();
    for part in parts {
        turns.extend(vec![part.block as u32; part.stages + 2]);
    }
    random.shuffle(&mut turns);
    turns
}

/// The first major stage of a plan that is in order, with random states and turns that finish it.
pub fn case_of(random: &mut Random, plan: &plan::Plan) -> Option<Case> {
    let record_bytes = plan.record();
    let words = record::words(&record_bytes);
    let accepted = accept(record_bytes.len(), &words).ok()?;
    let starts: Vec<u64> = accepted.starts()[..=plan.blocks as usize].to_vec();
    let words = accepted.words();
    let (state_words, edition) = (accepted.sizes().state_words as usize, accepted.plan.edition);
    let turns = all_turns(random, &parts(edition, &words, &starts));
    let (old, new) = (state(random, state_words), state(random, state_words));
    Some(Case { edition, told: edition.number(), words, starts, turns, old, new })
}

/// Damage of a case whose parts are given. None where there is no place for it.
pub type Change = fn(&mut Random, &mut Case, &[PartPlace]) -> Option<()>;

pub fn damages(edition: Edition) -> Vec<(u32, &'static str, Change)> {
    let of_small = if edition == Edition::SMALL { of_small_heads() } else { Vec::new() };
    let groups = [
        of_small,
        of_editions(),
        of_starts(),
        of_heads(),
        of_sections(),
        of_states(),
        of_turns(),
        of_harmless(),
    ];
    groups.into_iter().flatten().collect()
}

/// Refusal 29, which is before 15 and 16; and words of one edition run as the other's.
fn of_editions() -> Vec<(u32, &'static str, Change)> {
    vec![
        (29, "unknown edition", |random, case, _| {
            case.told = random.pick(&UNKNOWN);
            Some(())
        }),
        (29, "unknown edition, and a turn of no block", |random, case, _| {
            case.told = random.pick(&UNKNOWN);
            case.turns.push(u32::MAX);
            Some(())
        }),
        (29, "unknown edition, and words out of form", |random, case, parts| {
            case.told = random.pick(&UNKNOWN);
            case.words[any(random, parts)?.at] = 0;
            Some(())
        }),
        (29, "unknown edition, and no start", |random, case, _| {
            case.told = random.pick(&UNKNOWN);
            truncated(&mut case.starts, random.below(2))
        }),
        (15, "words of the other edition", |_, case, _| {
            case.told = other(case.edition).number();
            Some(())
        }),
    ]
}

/// Refusal 15 by starts and lengths, and by empty blocks.
fn of_starts() -> Vec<(u32, &'static str, Change)> {
    vec![
        (15, "no start", |_, case, _| truncated(&mut case.starts, 0)),
        (15, "one start", |_, case, _| truncated(&mut case.starts, 1)),
        (15, "starts equal", |random, case, _| {
            let block = random.below(case.starts.len() - 1);
            case.starts[block + 1] = case.starts[block];
            Some(())
        }),
        (15, "starts descend", |random, case, _| {
            let block = random.below(case.starts.len() - 1);
            case.starts.swap(block, block + 1);
            Some(())
        }),
        (15, "start behind the words", |random, case, _| {
            let start = random.below(case.starts.len());
            case.starts[start] = random.pick(&[case.words.len() as u64 + 1, 1 << 32, u64::MAX]);
            Some(())
        }),
        (15, "end behind the words", |random, case, _| {
            let end = *case.starts.last()? as usize;
            truncated(&mut case.words, end - random.between(1, 300))
        }),
        (15, "end in a part", |random, case, _| {
            let end = case.starts.last_mut()?;
            let n = case.edition.lanes() as u64;
            *end -= random.pick(&[1, n - 1, n, 20 * n]);
            Some(())
        }),
        (15, "end behind the last part", |random, case, _| {
            let end = case.starts.last_mut()?;
            let n = case.edition.lanes() as u64;
            *end += random.pick(&[1, n, 2 * n - 1, 8 * n]);
            Some(())
        }),
        (15, "start in a part", |random, case, parts| {
            let part = any(random, parts)?;
            let n = part.lanes() as u64;
            case.starts[part.block] += random.pick(&[1, n, 2 * n]);
            Some(())
        }),
        (15, "empty block with another word", |random, case, parts| {
            let at = empty_block(random, case, parts)?;
            let n = case.edition.lanes();
            let word = random.pick(&[0, 2, 3, 6, n / 2 - 1, n / 2, n - 1]);
            case.words[at + word] = random.pick(&[1, 5, u32::MAX]);
            Some(())
        }),
        (15, "empty block with another word 1", |random, case, parts| {
            let at = empty_block(random, case, parts)?;
            case.words[at + 1] = random.pick(&[0, 2, u32::MAX]);
            Some(())
        }),
        (15, "empty block of another length", |random, case, parts| {
            let at = empty_block(random, case, parts)?;
            let block = case.starts.iter().position(|&start| start == at as u64)?;
            let shift = random.pick(&[1, 100, case.edition.lanes() as u64 - 1]);
            case.starts[block] += shift;
            Some(())
        }),
    ]
}

/// Refusal 15 by the head of a part.
fn of_heads() -> Vec<(u32, &'static str, Change)> {
    vec![
        (15, "stages 0", |random, case, parts| {
            case.words[any(random, parts)?.at] = 0;
            Some(())
        }),
        (15, "stages 256 or more", |random, case, parts| {
            case.words[any(random, parts)?.at] = random.pick(&[256, 257, 65536, u32::MAX]);
            Some(())
        }),
        (15, "a stage more or less", |random, case, parts| {
            let at = any(random, parts)?.at;
            case.words[at] = if random.chance(2) { case.words[at] + 1 } else { case.words[at] - 1 };
            Some(())
        }),
        (15, "a round more or less", |random, case, parts| {
            let at = any(random, parts)?.at + 6;
            case.words[at] = if random.chance(2) { case.words[at] + 1 } else { case.words[at] - 1 };
            Some(())
        }),
        (15, "rounds that wrap", |random, case, parts| {
            let at = any(random, parts)?.at + 6;
            case.words[at] = random.pick(&[case.words[at] + (1 << 23), case.words[at] + (1 << 31), u32::MAX]);
            Some(())
        }),
        (15, "word 1 of the last part", |random, case, parts| {
            let last: Vec<PartPlace> = parts.iter().copied().filter(|part| part.last).collect();
            case.words[any(random, &last)?.at + 1] = random.pick(&[0, 2, u32::MAX]);
            Some(())
        }),
        (15, "word 1 of a part that is not the last", |random, case, parts| {
            let others: Vec<PartPlace> = parts.iter().copied().filter(|part| !part.last).collect();
            case.words[any(random, &others)?.at + 1] = random.pick(&[1, 2, u32::MAX]);
            Some(())
        }),
        (15, "normal words below 0", |random, case, parts| {
            let at = any(random, parts)?.at;
            case.words[at + 4] = case.words[at + 2] - case.words[at + 7] + random.pick(&[1, 2, 5]);
            Some(())
        }),
        (15, "normal words far below 0", |random, case, parts| {
            let at = any(random, parts)?.at;
            let word = random.pick(&[4, 7]);
            case.words[at + word] = random.pick(&[u32::MAX, 1 << 31, 300]);
            Some(())
        }),
        (15, "normal words that wrap to some", |random, case, parts| {
            // Words 4 and 7 add up to 2^32 and a little.
            let at = any(random, parts)?.at;
            case.words[at + 4] = u32::MAX;
            case.words[at + 7] = random.pick(&[1, 2]);
            Some(())
        }),
        (15, "more normal words than lanes", |random, case, parts| {
            let at = any(random, parts)?.at;
            let more = random.pick(&[case.edition.number() + 1, 300, 1 << 20]);
            case.words[at + 2] = case.words[at + 4] + case.words[at + 7] + more;
            let enough = case.old.len().max(1000);
            case.old.resize(enough, 0);
            case.new.resize(enough, 0);
            Some(())
        }),
        (15, "location of no stage", |random, case, parts| {
            let part = any(random, parts)?;
            let normal = normal_words(&case.words, part);
            let index = random.below(Some(normal).filter(|&normal| normal > 0)?);
            let stage = random.pick(&[part.stages, part.stages + 1, 255]) as u32;
            let location = 256 * stage + random.below(part.lanes()) as u32;
            set_half(&mut case.words, part.locations_at(), index, location);
            Some(())
        }),
        (0, "the last location", |random, case, parts| {
            let part = any(random, parts)?;
            let normal = normal_words(&case.words, part);
            let index = random.below(Some(normal).filter(|&normal| normal > 0)?);
            let last = part.lanes() - 1 + 256 * random.below(part.stages);
            set_half(&mut case.words, part.locations_at(), index, last as u32);
            Some(())
        }),
    ]
}

/// Refusal 15 by a location that the small edition has not: "a script's location with w above 127 is 15". The full one has none.
fn of_small_heads() -> Vec<(u32, &'static str, Change)> {
    vec![(15, "location above 127", |random, case, parts| {
        let part = any(random, parts)?;
        let normal = normal_words(&case.words, part);
        let index = random.below(Some(normal).filter(|&normal| normal > 0)?);
        let location = 256 * random.below(part.stages) as u32 + random.pick(&[128, 129, 200, 255]);
        set_half(&mut case.words, part.locations_at(), index, location);
        Some(())
    })]
}

/// Refusal 15 by entries and masks.
fn of_sections() -> Vec<(u32, &'static str, Change)> {
    vec![
        (15, "entry of a stage", |random, case, parts| {
            let part = any(random, parts)?;
            let section = random.below(part.stages);
            bad_entry(random, case, part, section)
        }),
        (15, "entry of SRAM and duplicates", |random, case, parts| {
            let part = any(random, parts)?;
            bad_entry(random, case, part, part.stages)
        }),
        (15, "entry of clock enables", |random, case, parts| {
            let part = any(random, parts)?;
            bad_entry(random, case, part, part.stages + 1)
        }),
        (15, "33 bits in a lane", |random, case, parts| {
            let several: Vec<PartPlace> = parts.iter().copied().filter(|part| part.rounds > 1).collect();
            let part = any(random, &several)?;
            let lane = random.below(part.lanes());
            let (first, last) = (part.read_at(0, lane), part.read_at(part.rounds - 1, lane));
            case.words[first] = 0;
            case.words[first + 1] = u32::MAX;
            case.words[last] = 0;
            case.words[last + 1] |= 1 << random.below(32);
            Some(())
        }),
        (15, "17 and 16 bits in a lane", |random, case, parts| {
            let part = *any(random, parts)?;
            let (at, lane) = (more_rounds(case, &part, 2), random.below(part.lanes()));
            for (round, mask) in [0x0001_FFFF, 0xFFFF_0000].iter().enumerate() {
                case.words[at + 2 * part.lanes() * round + 2 * lane + 1] = *mask;
            }
            Some(())
        }),
        (15, "33 rounds of one bit in a lane", |random, case, parts| {
            let part = *any(random, parts)?;
            let (at, lane) = (more_rounds(case, &part, 33), random.below(part.lanes()));
            for round in 0..33 {
                case.words[at + 2 * part.lanes() * round + 2 * lane + 1] = 1 << random.below(32);
            }
            Some(())
        }),
    ]
}

/// Refusal 15 by words outside the states.
fn of_states() -> Vec<(u32, &'static str, Change)> {
    vec![
        (15, "word read outside the states", |random, case, parts| {
            let at = any_read(random, case, parts)?;
            let flag = random.pick(&[0, 1 << 31]);
            let shorter = case.old.len().min(case.new.len()) as u32;
            case.words[at] = random.pick(&[shorter, shorter + 1, 0x7FFF_FFFF]) | flag;
            Some(())
        }),
        (15, "word read outside the old state", |random, case, parts| {
            let at = any_read(random, case, parts)?;
            let word = (case.words[at] & 0x7FFF_FFFF) as usize;
            truncated(&mut case.old, word)
        }),
        (15, "word read outside the new state", |random, case, parts| {
            let at = any_read(random, case, parts)?;
            let word = (case.words[at] & 0x7FFF_FFFF) as usize;
            truncated(&mut case.new, word)
        }),
        (15, "word stored outside the states", |random, case, parts| {
            let part = any_storing(random, case, parts)?;
            let normal = normal_words(&case.words, &part);
            let shorter = case.old.len().min(case.new.len());
            case.words[part.at + 3] = random.pick(&[(shorter - normal + 1) as u32, shorter as u32, u32::MAX]);
            Some(())
        }),
        (15, "word stored outside the old state", |random, case, parts| {
            let part = any_storing(random, case, parts)?;
            let end = case.words[part.at + 3] as usize + normal_words(&case.words, &part);
            truncated(&mut case.old, end - 1)
        }),
        (15, "word stored outside the new state", |random, case, parts| {
            let part = any_storing(random, case, parts)?;
            let end = case.words[part.at + 3] as usize + normal_words(&case.words, &part);
            truncated(&mut case.new, end - 1)
        }),
    ]
}

/// Refusal 16, and turns that are fine.
fn of_turns() -> Vec<(u32, &'static str, Change)> {
    vec![
        (16, "turn of no block", |random, case, _| {
            let blocks = case.starts.len() as u32 - 1;
            let turn = random.below(case.turns.len());
            case.turns[turn] = random.pick(&[blocks, blocks + 1, u32::MAX]);
            Some(())
        }),
        (16, "last turn of no block", |_, case, _| {
            case.turns.push(case.starts.len() as u32 - 1);
            Some(())
        }),
        (16, "two turns of no block", |random, case, _| {
            for _ in 0..2 {
                let turn = random.below(case.turns.len());
                case.turns[turn] = random.pick(&[1 << 20, u32::MAX]);
            }
            Some(())
        }),
        (0, "too few turns", |random, case, _| {
            let turns = random.below(case.turns.len());
            truncated(&mut case.turns, turns)
        }),
        (0, "turns of finished blocks", |random, case, _| {
            let blocks = case.starts.len() - 1;
            case.turns.extend((0..random.between(1, 20)).map(|_| random.below(blocks) as u32));
            Some(())
        }),
        (0, "any turns", |random, case, _| {
            let blocks = case.starts.len() - 1;
            case.turns = (0..random.below(60)).map(|_| random.below(blocks) as u32).collect();
            Some(())
        }),
    ]
}

/// Changes that are no fault.
fn of_harmless() -> Vec<(u32, &'static str, Change)> {
    vec![
        (0, "words that nobody looks at", |random, case, parts| {
            for part in parts {
                for word in (8..part.lanes() / 2).chain([5]) {
                    case.words[part.at + word] = random.word();
                }
                for section in 0..part.stages + 2 {
                    for lane in 0..part.lanes() {
                        let lane_at = part.section_at(section) + part.slots() / 2 + 4 * lane;
                        case.words[lane_at + 3] = random.word();
                        if section == part.stages {
                            case.words[lane_at + random.below(3)] = random.word();
                        }
                    }
                }
            }
            Some(())
        }),
        (0, "locations past the normal ones", |random, case, parts| {
            for part in parts {
                for index in normal_words(&case.words, part)..part.lanes() {
                    set_half(&mut case.words, part.locations_at(), index, random.word() & 0xFFFF);
                }
            }
            Some(())
        }),
        (0, "words of empty masks", |random, case, parts| {
            for part in parts {
                for round in 0..part.rounds {
                    for at in (0..part.lanes()).map(|lane| part.read_at(round, lane)) {
                        if case.words[at + 1] == 0 {
                            case.words[at] = random.word();
                        }
                    }
                }
            }
            Some(())
        }),
        (0, "rounds of empty masks", |random, case, parts| {
            let part = any(random, parts)?;
            more_rounds(case, part, random.pick(&[1, 2, 40]));
            Some(())
        }),
        (0, "no normal words, any state start", |random, case, parts| {
            for part in parts {
                case.words[part.at + 2] = case.words[part.at + 4] + case.words[part.at + 7];
                case.words[part.at + 3] = random.word();
            }
            Some(())
        }),
        (0, "more SRAMs and duplicates", |random, case, parts| {
            let at = any(random, parts)?.at;
            for word in [4, 7] {
                let more = random.below(100_000) as u32;
                case.words[at + word] += more;
                case.words[at + 2] += more;
            }
            Some(())
        }),
        (0, "stores over one another", |random, case, parts| {
            for part in parts {
                let room = case.new.len() - normal_words(&case.words, part);
                case.words[part.at + 3] = random.below(room.min(3) + 1) as u32;
            }
            Some(())
        }),
        (0, "any locations", any_locations),
        (0, "any gates and permutations", any_gates),
        (0, "any enables", any_enables),
        (0, "any reads", any_reads),
        (0, "longer states", |random, case, _| {
            let (old, new) = (random.below(50), random.below(50));
            case.old.extend(state(random, old));
            case.new.extend(state(random, new));
            Some(())
        }),
    ]
}

/// A word anywhere in a part changed.
pub fn any_word(random: &mut Random, case: &mut Case, parts: &[PartPlace]) -> Option<()> {
    let part = any(random, parts)?;
    let at = part.at
        + match random.below(5) {
            0 => random.below(8),
            1 => part.lanes() / 2 + random.below(part.lanes() / 2),
            2 => part.lanes() + random.below(2 * part.lanes() * part.rounds),
            _ => random.below(part.words()),
        };
    case.words[at] = match random.below(5) {
        0 => case.words[at].wrapping_add(1),
        1 => case.words[at].wrapping_sub(1),
        2 => case.words[at] ^ 1 << random.below(32),
        3 => random.pick(&[0, 1, 128, 256, 4096, 8192, 1 << 31, u32::MAX]),
        _ => random.word(),
    };
    Some(())
}

fn any<'a, T>(random: &mut Random, items: &'a [T]) -> Option<&'a T> {
    if items.is_empty() {
        None
    } else {
        Some(&items[random.below(items.len())])
    }
}

fn truncated<T>(list: &mut Vec<T>, length: usize) -> Option<()> {
    if length > list.len() {
        return None;
    }
    list.truncate(length);
    Some(())
}

/// Gives a part so many rounds more, all masks empty; they begin at the word given back.
fn more_rounds(case: &mut Case, part: &PartPlace, rounds: usize) -> usize {
    let (at, more) = (part.section_at(0), part.edition.round_words() * rounds);
    case.words.splice(at..at, vec![0; more]);
    case.words[part.at + 6] += rounds as u32;
    for start in case.starts.iter_mut().filter(|start| **start > part.at as u64) {
        *start += more as u64;
    }
    at
}

/// Where the words of an empty block begin.
fn empty_block(random: &mut Random, case: &Case, parts: &[PartPlace]) -> Option<usize> {
    let empty: Vec<usize> =
        (0..case.starts.len() - 1).filter(|&block| parts.iter().all(|part| part.block != block)).collect();
    any(random, &empty).map(|&block| case.starts[block] as usize)
}

fn set_half(words: &mut [u32], at: usize, index: usize, value: u32) {
    let word = &mut words[at + index / 2];
    let shift = 16 * (index % 2);
    *word = *word & !(0xFFFF << shift) | value << shift;
}

fn bad_entry(random: &mut Random, case: &mut Case, part: &PartPlace, section: usize) -> Option<()> {
    let (at, slots) = (part.section_at(section), part.slots());
    let value = random.pick(&[slots as u32, slots as u32 + 1, 0x8000, 0xFFFF]);
    let anywhere = random.below(slots);
    let index = random.pick(&[0, 1, slots - 2, slots - 1, anywhere]);
    set_half(&mut case.words, at, index, value);
    Some(())
}

/// Where a read with a mask is.
fn any_read(random: &mut Random, case: &Case, parts: &[PartPlace]) -> Option<usize> {
    let part = any(random, parts)?;
    let reads: Vec<usize> = (0..part.rounds)
        .flat_map(|round| (0..part.lanes()).map(move |lane| part.read_at(round, lane)))
        .filter(|&at| case.words[at + 1] != 0)
        .collect();
    any(random, &reads).copied()
}

fn any_storing(random: &mut Random, case: &Case, parts: &[PartPlace]) -> Option<PartPlace> {
    let storing: Vec<PartPlace> =
        parts.iter().copied().filter(|part| normal_words(&case.words, part) > 0).collect();
    any(random, &storing).copied()
}

/// Any reads, gates, locations and enables: all that a part does.
pub fn scrambled(random: &mut Random, case: &mut Case, parts: &[PartPlace]) -> Option<()> {
    any_reads(random, case, parts)?;
    any_gates(random, case, parts)?;
    any_locations(random, case, parts)?;
    any_enables(random, case, parts)
}

fn any_locations(random: &mut Random, case: &mut Case, parts: &[PartPlace]) -> Option<()> {
    for part in parts {
        for index in 0..normal_words(&case.words, part) {
            let location = 256 * random.below(part.stages) + random.below(part.lanes());
            set_half(&mut case.words, part.locations_at(), index, location as u32);
        }
    }
    Some(())
}

fn any_gates(random: &mut Random, case: &mut Case, parts: &[PartPlace]) -> Option<()> {
    for part in parts {
        for section in 0..part.stages {
            any_section(random, case, part, section);
        }
    }
    Some(())
}

/// Other enables. Of some parts they are taken from captured words alone.
pub fn any_enables(random: &mut Random, case: &mut Case, parts: &[PartPlace]) -> Option<()> {
    for part in parts {
        any_section(random, case, part, part.stages + 1);
        let captured = 32 * normal_words(&case.words, part);
        if captured > 0 && random.chance(2) {
            let at = part.section_at(part.stages + 1);
            for index in 0..part.slots() {
                set_half(&mut case.words, at, index, random.below(captured) as u32);
            }
        }
    }
    Some(())
}

/// Another permutation, and other words for the lanes.
fn any_section(random: &mut Random, case: &mut Case, part: &PartPlace, section: usize) {
    let (at, entries) = (part.section_at(section), part.slots() / 2);
    let entry = (part.slots() as u32 - 1) * 0x1_0001;
    for (index, word) in case.words[at..at + part.edition.section_words()].iter_mut().enumerate() {
        *word = random.word() & if index < entries { entry } else { u32::MAX };
    }
}

/// Other reads everywhere: words inside the states, masks of 32 bits in a lane at most.
fn any_reads(random: &mut Random, case: &mut Case, parts: &[PartPlace]) -> Option<()> {
    let state_words = case.old.len().min(case.new.len());
    if state_words == 0 {
        return None;
    }
    for part in parts {
        for lane in 0..part.lanes() {
            let mut free = u32::MAX;
            for round in 0..part.rounds {
                let at = part.read_at(round, lane);
                let mask = random.word() & random.word() & free;
                // Bits of masks are disjoint, so that they are 32 in all.
                free &= !mask;
                case.words[at] = random.below(state_words) as u32 | random.pick(&[0, 1 << 31]);
                case.words[at + 1] = if random.chance(4) { 0 } else { mask };
            }
        }
    }
    Some(())
}
