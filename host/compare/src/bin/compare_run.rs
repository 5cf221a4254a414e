//! Compares the library's run with the model's, and the model's with the values of the gates and the enables.
//!
//! compare_run [PLANS] [SEED]    PLANS is what make_plans wrote; stops at the first difference

use compare::came::Came;
use compare::comparison::Comparison;
use compare::marked::{m10, m10_with, m6};
use compare::plans::{self, Size};
use compare::run_checker::RunChecker;
use compare::run_damage::{self, all_turns, case_of, parts, state, Case, PartPlace};
use compare::stored_bits::{self, StoredBits};
use compare::{host, Dose, UNKNOWN};
use model::build::{accept, Accepted};
use model::record;
use plan::stored;
use random::Random;

const SEED: u64 = 20_240_615;
/// How often each damage is to bring about its refusal, and the scripts that are tried for it.
const TIMES: u32 = 12;
const MOST_SCRIPTS: usize = 200;

fn main() {
    let mut comparison = Comparison::begin("compare_run", "host/model", SEED);
    let path = comparison.words.first().cloned();
    let checkers = Dose::BOTH.map(|dose| {
        let (mut checker, random) = (RunChecker::new(), &mut comparison.random);
        if let (Some(path), true) = (&path, dose.is_full()) {
            netlists(&mut checker, random, path);
        }
        println!("the {} edition:", dose.name());
        marked(&mut checker, dose);
        normal_words(&mut checker, dose);
        random_scripts(&mut checker, random, dose);
        scrambled_scripts(&mut checker, random, dose);
        damaged_scripts(&mut checker, random, dose);
        short_rooms(&mut checker, random, dose);
        checker.answers.sort();
        checker
    });
    let told: Vec<_> =
        Dose::BOTH.into_iter().zip(&checkers).map(|(dose, c)| (dose, vec![&c.kinds, &c.answers])).collect();
    comparison.finish_both("runs", &told);
}

/// The scripts that GEM made.
fn netlists(checker: &mut RunChecker, random: &mut Random, path: &str) {
    let cases = stored::read(&std::fs::read(path).expect("the plans can be read")).expect("a file of plans");
    let mut seen = StoredBits::default();
    for case in cases.iter().filter(|case| !case.staged_duplicate) {
        let held = record::words(&case.record);
        let accepted = accept(case.record.len(), &held).expect("a plan in order");
        seen += full_run(checker, random, "netlists through GEM", &accepted, &case.script.words);
    }
    seen.print("netlists");
}

/// Runs a script's major stages one after another, each to its end and before that in other orders and with other
/// turns; then holds what they stored to the gates and the enables. Gives the number of bits.
fn full_run(
    checker: &mut RunChecker,
    random: &mut Random,
    kind: &str,
    plan: &Accepted<'_>,
    words: &[u32],
) -> StoredBits {
    let (starts, edition) = (plan.starts(), plan.plan.edition);
    let state_words = plan.sizes().state_words as usize;
    let old = state(random, state_words);
    let mut new = state(random, state_words);
    let mut words = words.to_vec();
    for major in 0..plan.plan.major_parts.len() {
        let range = major * plan.plan.blocks..(major + 1) * plan.plan.blocks + 1;
        let starts = starts[range].to_vec();
        let places = parts(edition, &words, &starts);
        let turns = all_turns(random, &places);
        let (told, old, new_before) = (edition.number(), old.clone(), new.clone());
        let mut case = Case { edition, told, words, starts, turns, old, new: new_before };
        let ran = checker.check(kind, &case, 0, true).expect("the script is in form");
        assert_eq!(ran.turns_left, 0, "turns for every block");
        new = ran.new;
        if random.chance(8) || plan.plan.major_parts.len() == 1 {
            let turns = case.turns.clone();
            case.turns.truncate(random.below(turns.len() + 1));
            let _ = checker.check("too few turns", &case, 0, true);
            case.turns = turns;
            case.turns.extend((0..30).map(|_| random.below(plan.plan.blocks) as u32));
            random.shuffle(&mut case.turns);
            let again =
                checker.check("turns of finished blocks", &case, 0, true).expect("the script is in form");
            assert!(again.new == new && again.turns_left == 0, "the order of turns decides nothing");
        }
        words = case.words;
    }
    stored_bits::check(plan, &words, &old, &new)
}

/// M10: old word 1 stores 1, old word 3 stores 0xFFFFFFFE. With other enables it holds, or stores the inverse.
fn marked(checker: &mut RunChecker, dose: Dose) {
    let edition = host(dose.edition);
    const HELD: u32 = 0x1234_5678;
    let never = m10_with(edition, u32::MAX, 0, 0);
    let inverted = m10_with(edition, u32::MAX, u32::MAX, u32::MAX);
    // Entries are 0: every bit is enabled by captured bit 0, that of gate 3.
    let by_gate = m10_with(edition, 0, 0, 0);
    let unless_gate = m10_with(edition, 0, u32::MAX, 0);
    for (name, plan, stored) in [
        ("M10", m10(edition), [1, 0xFFFF_FFFE]),
        ("M10, never enabled", never, [HELD, HELD]),
        ("M10, inverted", inverted, [0xFFFF_FFFE, 1]),
        ("M10, enabled by its gate", by_gate, [1, HELD]),
        ("M10, enabled but by its gate", unless_gate, [HELD, 0xFFFF_FFFE]),
    ] {
        for (old, stored) in [1, 3].into_iter().zip(stored) {
            let mut case = case_of(&mut Random::new(1), &plan).expect("M10 is in order");
            case.old = vec![old, HELD];
            let ran = checker.check(name, &case, 0, true).expect("M10 is in form");
            assert_eq!((ran.new[1], ran.turns_left), (stored, 0), "{}", name);
        }
    }
}

/// As many normal words as lanes, the last location among them, and one more.
fn normal_words(checker: &mut RunChecker, dose: Dose) {
    let (mut plan, lanes) = (m6(host(dose.edition)), dose.edition.lanes());
    plan.stages[0][0].stages[0].locations = vec![lanes as u32 - 1; lanes - 1];
    let mut case = case_of(&mut Random::new(1), &plan).expect("a plan in order");
    // Nothing else is at fault then.
    case.old.resize(1000, 7);
    case.new.resize(1000, 7);
    let ran = checker.check("as many normal words as lanes", &case, 0, true);
    assert_eq!(ran.ok().map(|ran| ran.turns_left), Some(0));
    case.words[2] += 1;
    let refused = checker.check("a normal word too many", &case, 0, true).err();
    assert_eq!(refused.map(|refused| refused.number), Some(15));
}

fn size(dose: Dose) -> Size {
    let edition = host(dose.edition);
    Size { edition, majors: 2, parts: 3, stages: 3, inputs: 32 * edition.lanes() * 9 / 8, wide: false }
}

/// Stored bits of random plans that carry a pin, at least, and those of each kind.
const STORED_BITS: u64 = 1_000_000;
const BITS_OF_A_KIND: u64 = 20_000;
/// Random plans, at most.
const MOST_PLANS: usize = 1000;

/// Placements and enables of every kind.
fn random_scripts(checker: &mut RunChecker, random: &mut Random, dose: Dose) {
    let mut seen = StoredBits::default();
    let stored_bits = dose.least(STORED_BITS);
    for index in 0..MOST_PLANS {
        if index >= dose.times(40) && seen.carried >= stored_bits {
            break;
        }
        let size = size(dose);
        let mut plan = if index % 4 == 0 { plans::any(random, size) } else { plans::full(random, size) };
        plans::any_enables(random, &mut plan);
        let record = plan.record();
        let held = record::words(&record);
        if let Ok(accepted) = accept(record.len(), &held) {
            let words = accepted.words();
            seen += full_run(checker, random, "random placements and enables", &accepted, &words);
        }
    }
    seen.print("random plans");
    assert!(seen.carried >= stored_bits, "too few stored bits: {:?}", seen);
    seen.assert_each(dose.least(BITS_OF_A_KIND));
}

/// Scripts that no plan made: any reads, gates, locations and enables.
fn scrambled_scripts(checker: &mut RunChecker, random: &mut Random, dose: Dose) {
    for _ in 0..dose.times(60) {
        let (mut case, places) = small_case(random, dose);
        if run_damage::scrambled(random, &mut case, &places).is_some() {
            checker.check("random scripts of no plan", &case, 0, true).expect("the script is in form");
        }
    }
}

/// A script of a block of several parts, one of one part, and an empty one, some of them with several rounds.
fn small_case(random: &mut Random, dose: Dose) -> (Case, Vec<PartPlace>) {
    loop {
        let mut plan = plans::any(random, Size { majors: 1, parts: 5, ..size(dose) });
        plans::any_enables(random, &mut plan);
        plan.blocks = random.between(1, plan.stages[0].len() + 2) as u32;
        if let Some(case) = case_of(random, &plan) {
            let places = parts(case.edition, &case.words, &case.starts);
            return (case, places);
        }
    }
}

/// Each damage until its refusal has come so many times, and then damages at random.
fn damaged_scripts(checker: &mut RunChecker, random: &mut Random, dose: Dose) {
    let damages = run_damage::damages(dose.edition);
    let mut came = Came::new(TIMES);
    for _ in 0..MOST_SCRIPTS {
        let (case, places) = small_case(random, dose);
        for (number, name, change) in &damages {
            let mut damaged = case.clone();
            if came.wants(*number, name) && change(random, &mut damaged, &places).is_some() {
                let answer = checker.check("damaged", &damaged, 0, random.chance(2));
                came.count(*number, name, answer.err().map_or(0, |refused| refused.number));
            }
        }
        if damages.iter().all(|(number, name, _)| !came.wants(*number, name)) {
            break;
        }
    }
    came.print();
    for _ in 0..dose.times(50) {
        let (case, places) = small_case(random, dose);
        for _ in 0..8 {
            let mut damaged = case.clone();
            let changed = run_damage::any_word(random, &mut damaged, &places);
            if changed.is_some() {
                let _ = checker.check("any word changed", &damaged, 0, random.chance(2));
            }
            let second = random.below(damages.len());
            // The second damage reads counts that the first may have changed: only after a harmless one.
            let mut damaged = case.clone();
            damaged.turns.push(u32::MAX);
            if damages[second].2(random, &mut damaged, &places).is_some() {
                let _ = checker.check("damaged, and a turn of no block", &damaged, 0, random.chance(2));
            }
        }
    }
}

fn short_rooms(checker: &mut RunChecker, random: &mut Random, dose: Dose) {
    for index in 0..dose.times(32).min(8) {
        let (mut case, places) = small_case(random, dose);
        match index % 4 {
            1 => case.turns.push(u32::MAX),
            2 => case.words[places[0].at] = 0,
            3 => case.starts.truncate(index / 4),
            _ => {}
        }
        // 32 is before 29.
        if random.chance(2) {
            case.told = random.pick(&UNKNOWN);
        }
        for room in [-1, -1024, -1_000_000, 0, 1, 1024] {
            let _ = checker.check("room around what is needed", &case, room, random.chance(2));
        }
    }
}
