//! Stored plans and what the reference builds of them, for programs that run where GEM's sources, or Rust, are missing.
//!
//! The file is little-endian u32 words. A list is its number of runs, then a count and a word for each run.
//!
//! ```text
//! C                     number of cases
//! then C cases, end to end:
//!   list                the words of the plan record
//!   q                   0 where the plan is built, else the refusal's number
//!   q = 0:   4 words    sizes: starts, words, state words, SRAM words
//!            list       the starts, low word then high word
//!            list       the words
//!   q not 0: 2 words    part and item of the refusal
//! ```

use crate::{marked, plan_checker, plans};
use model::build::accept;
use model::Refused;
use plan::{Edition, Plan, Script, Tables, EMPTY};
use random::Random;
use reference::Flattened;

/// What the program `stored_plans` has place for.
const MOST_PLAN: usize = 120_000;
const MOST_WORDS: usize = 65_536;
const MOST_STARTS: usize = 64;
const MOST_BYTES: usize = 262_144;
/// A plan that was drawn is taken where its list has at most so many words.
const MOST_LIST: usize = 5_000;

pub struct Case {
    pub name: &'static str,
    words: Vec<u32>,
    pub answer: Result<Script, Refused>,
}

impl Case {
    /// What the reference builds of a plan; refusals are the model's: GEM has no numbers.
    fn ask(name: &'static str, plan: &Plan) -> Case {
        let words = plan.words();
        let by_model = accept(4 * words.len(), &words).map(plan_checker::script);
        let answer = by_model.map(|by_model| match reference::flatten(plan) {
            Flattened::Script(script) => {
                assert!(script == by_model, "{}: the reference and the model differ", name);
                script
            }
            Flattened::Panicked(_) => panic!("{}: the reference panicked", name),
            Flattened::NotAsked => by_model,
        });
        assert!(words.len() <= MOST_PLAN, "{}: a plan of {} words", name, words.len());
        if let Ok(script) = &answer {
            assert!(script.words.len() <= MOST_WORDS, "{}: {} words", name, script.words.len());
            assert!(script.starts.len() <= MOST_STARTS, "{}: {} starts", name, script.starts.len());
        }
        Case { name, words, answer }
    }

    fn refused(self, number: u32) -> Case {
        assert_eq!(self.answer.as_ref().err().map(|refused| refused.number), Some(number), "{}", self.name);
        self
    }

    fn built(self) -> Case {
        assert!(self.answer.is_ok(), "{}: {:?}", self.name, self.answer.err());
        self
    }

    fn file_words(&self) -> Vec<u32> {
        let mut words = list(&self.words);
        match &self.answer {
            Ok(script) => {
                let (starts, length) = (script.starts.len() as u64, script.words.len() as u64);
                words.push(0);
                words.extend([starts, length, script.state_words, script.sram_words].map(low));
                words
                    .extend(list(&script.starts.iter().flat_map(|&start| halves(start)).collect::<Vec<_>>()));
                words.extend(list(&script.words));
            }
            Err(refused) => words.extend([refused.number, low(refused.part), low(refused.item)]),
        }
        words
    }
}

/// A number that one word has place for.
fn low(number: u64) -> u32 {
    number.try_into().expect("below 2^32")
}

fn halves(number: u64) -> [u32; 2] {
    [number as u32, (number >> 32) as u32]
}

/// The words as runs.
fn list(words: &[u32]) -> Vec<u32> {
    let mut runs: Vec<(u32, u32)> = Vec::new();
    for &word in words {
        match runs.last_mut() {
            Some((count, last)) if *last == word => *count += 1,
            _ => runs.push((1, word)),
        }
    }
    let mut list = vec![runs.len() as u32];
    list.extend(runs.iter().flat_map(|&(count, word)| [count, word]));
    list
}

pub fn write(cases: &[Case]) -> Vec<u8> {
    let mut words = vec![cases.len() as u32];
    words.extend(cases.iter().flat_map(Case::file_words));
    assert!(4 * words.len() <= MOST_BYTES, "a file of {} bytes", 4 * words.len());
    plan::bytes(&words)
}

/// The plans that are stored, fixed by the seed.
pub fn cases(seed: u64) -> Vec<Case> {
    let random = &mut Random::new(seed);
    let parts = |plan: &Plan| -> Vec<usize> { plan.stages.iter().map(Vec::len).collect() };
    let two_stages = drawn(random, Edition::Full, (1, 1, 2), |plan| {
        plan.blocks == 1 && plan.parts().all(|part| part.stages.len() == 2)
    });
    let staged =
        drawn(random, Edition::Full, (2, 1, 1), |plan| plan.blocks == 1 && reads_staged(plan).is_some());
    let three_parts = drawn(random, Edition::Full, (1, 3, 1), |plan| plan.blocks == 2 && parts(plan) == [3]);
    let empty_block =
        drawn(random, Edition::Full, (2, 1, 1), |plan| plan.blocks == 3 && parts(plan) == [1, 0]);
    let odd = drawn(random, Edition::Full, (1, 1, 1), |plan| plan.blocks == 1 && odd_and_duplicates(plan));

    let mut no_gate = three_parts.clone();
    wrong_pin(&mut no_gate.stages[0][2]);
    let mut too_late = staged.clone();
    let entry = reads_staged(&staged).expect("it reads one");
    too_late.positions[entry].position = u32::MAX;
    vec![
        Case::ask("M10", &marked::m10(Edition::Full)).built(),
        Case::ask("a part of two stages", &two_stages).built(),
        Case::ask("a staged pin", &staged).built(),
        Case::ask("three parts in two blocks", &three_parts).built(),
        Case::ask("empty blocks", &empty_block).built(),
        Case::ask("an odd number of locations, duplicate and SRAM words", &odd).built(),
        Case::ask("a pin in a slot where it is not computed", &no_gate).refused(9),
        Case::ask("a staged pin where no word is stored", &too_late).refused(12),
    ]
    .into_iter()
    .chain(small_cases(random))
    .collect()
}

/// Plans of the small edition, and one of none. GEM has no small edition: the answers are the model's.
fn small_cases(random: &mut Random) -> [Case; 6] {
    const SMALL: Edition = Edition::Small;
    let staged = drawn(random, SMALL, (2, 1, 1), |plan| plan.blocks == 2 && reads_staged(plan).is_some());
    let odd = drawn(random, SMALL, (1, 1, 1), |plan| plan.blocks == 1 && odd_and_duplicates(plan));
    let mut location = marked::m10(SMALL);
    location.stages[0][0].stages[0].locations[0] = 128;
    let mut entry = marked::m10(SMALL);
    entry.stages[0][0].tables.enable[7] = 4096;
    let mut unknown = Case::ask("", &marked::m10(SMALL));
    unknown.words[plan::EDITION_WORD] = 127;
    let answer = accept(4 * unknown.words.len(), &unknown.words).map(plan_checker::script);
    [
        Case::ask("M10, small edition", &marked::m10(SMALL)).built(),
        Case::ask("a staged pin, small edition", &staged).built(),
        Case::ask("an odd number of locations, duplicate and SRAM words, small edition", &odd).built(),
        Case::ask("location 128, small edition", &location).refused(7),
        Case::ask("entry 4096, small edition", &entry).refused(13),
        Case { name: "an edition of 127 lanes", answer, ..unknown }.refused(29),
    ]
}

/// A plan of this kind whose list is short: its tables are mostly zero. It has at most so many major stages, parts in
/// each, and stages a part.
fn drawn(
    random: &mut Random,
    edition: Edition,
    most: (usize, usize, usize),
    kind: impl Fn(&Plan) -> bool,
) -> Plan {
    let (majors, parts, stages) = most;
    loop {
        let size = plans::Size { edition, majors, parts, stages, inputs: 60, wide: false };
        let mut plan = plans::any(random, size);
        for part in plan.stages.iter_mut().flatten() {
            part.tables = few_entries(random, edition);
        }
        if kind(&plan) && list(&plan.words()).len() <= MOST_LIST {
            return plan;
        }
    }
}

fn few_entries(random: &mut Random, edition: Edition) -> Tables {
    let mut tables = Tables::zeros(edition);
    for list in [&mut tables.sram, &mut tables.enable] {
        for _ in 0..60 {
            list[random.below(edition.slots())] = random.below(edition.slots()) as u32;
        }
    }
    let Tables { sram_inv, sram_set0, enable_inv, enable_set0, data_inv, .. } = &mut tables;
    for list in [sram_inv, sram_set0, enable_inv, enable_set0, data_inv] {
        for _ in 0..20 {
            list[random.below(edition.lanes())] = random.word();
        }
    }
    tables
}

/// The last staged entry of a pin that a part reads by it.
fn reads_staged(plan: &Plan) -> Option<usize> {
    let unstaged = |pin: u32| {
        plan.layout.contains(&pin) || plan.positions.iter().any(|entry| entry.pin == pin && entry.staged == 0)
    };
    let read =
        |pin: u32| plan.parts().any(|part| part.stages[0].slots[plan.edition.slots()..].contains(&pin));
    plan.positions.iter().rposition(|entry| entry.staged == 1 && !unstaged(entry.pin) && read(entry.pin))
}

fn odd_and_duplicates(plan: &Plan) -> bool {
    plan.parts().all(|part| {
        let counts = plans::model_counts(part);
        counts.normal % 2 == 1 && counts.normal > 1 && counts.duplicates > 0 && counts.srams > 0
    })
}

/// Puts a pin that the part reads where nothing lies below.
fn wrong_pin(part: &mut plan::Part) {
    let level_0 = part.stages[0].edition().slots();
    let slots = &mut part.stages[0].slots;
    let pin = *slots[level_0..].iter().find(|&&pin| pin != EMPTY).expect("a part reads something");
    let at =
        (1..level_0).rev().find(|&at| slots[model::record::below(at).0] == EMPTY).expect("an empty slot");
    slots[at] = pin;
}
