//! Compares the library's placing and clearing of one node with the model's, and the model's with GEM's own functions.
//!
//! compare_repair [PLANS] [all] [SEED]    PLANS is what make_plans wrote; stops at the first difference

use compare::came::Came;
use compare::comparison::Comparison;
use compare::repair_checker::{More, RepairChecker, Work};
use compare::repair_damage::{self, Damaged};
use compare::repairs::{self, place_of, Case};
use compare::{host, Dose};
use juolgesot::{levels, stage_counts, Pin};
use model::edition::Edition;
use model::record::{self, EMPTY};
use model::repair::{Place, Repaired};
use plan::stored;
use random::Random;
use reference::{Placer, PlacerStage};

const SEED: u64 = 20_240_702;
/// How often each damage is to bring about its refusal, and the stages that are tried for it.
const TIMES: u32 = 6;
const MOST_STAGES: usize = 300;

fn main() {
    let mut comparison = Comparison::begin("compare_repair", reference::NAME, SEED);
    let all = comparison.words.iter().any(|word| word == "all");
    let path = comparison.words.first().filter(|word| *word != "all").cloned();
    let checkers = Dose::BOTH.map(|dose| {
        let (mut checker, random) = (RepairChecker::new(), &mut comparison.random);
        println!("the {} edition:", dose.name());
        examples(&mut checker, dose);
        limits(&mut checker, dose);
        every_place(&mut checker, random, dose, all);
        random_stages(&mut checker, random, dose);
        chains(&mut checker, random, dose);
        damaged_stages(&mut checker, random, dose);
        if let (Some(path), true) = (&path, dose.is_full()) {
            netlists(&mut checker, random, path, all);
        }
        checker.answers.sort();
        checker.gem.sort();
        checker
    });
    let told: Vec<_> = Dose::BOTH
        .into_iter()
        .zip(&checkers)
        .map(|(dose, c)| (dose, vec![&c.kinds, &c.answers, &c.gem]))
        .collect();
    comparison.finish_both("repairs", &told);
    for checker in &checkers {
        for number in [5, 6, 14, 24, 25, 26, 29, 32] {
            assert!(checker.answers.times(&format!("not placed: {}", number)) >= 3, "seldom: {}", number);
        }
        for number in [5, 14, 29, 32, 34] {
            assert!(checker.answers.times(&format!("not cleared: {}", number)) >= 3, "seldom: {}", number);
        }
    }
}

/// GEM's functions, which are of the full edition.
fn placer(case: &Case) -> Option<Placer> {
    (case.edition == Edition::FULL).then(|| Placer::of(&case.gates, &case.levels)).flatten()
}

/// A stage that GEM's functions take.
fn placer_stage(case: &Case) -> Option<PlacerStage> {
    (case.edition == Edition::FULL).then(|| PlacerStage::of(&case.slots, &case.counts))
}

/// Compares a call, and the model with GEM where GEM can be asked.
fn check(
    checker: &mut RepairChecker,
    placer: Option<&Placer>,
    kind: &str,
    work: Work,
    case: &Case,
) -> Result<Repaired, u32> {
    let done = checker.check(kind, work, case, More::default());
    if let (Some(placer), Some(mut stage)) = (placer, placer_stage(case)) {
        checker.check_gem((placer, &mut stage), work, case, &done, true);
    }
    done
}

/// Places the case's node, then clears its place again: slots and counts are then as before.
fn there_and_back(
    checker: &mut RepairChecker,
    placer: Option<&Placer>,
    kind: &str,
    case: &Case,
) -> Option<Case> {
    let placed = check(checker, placer, kind, Work::Place, case).ok()?;
    let after = Case { slots: placed.slots, counts: placed.counts, ..case.clone() };
    let cleared = check(checker, placer, kind, Work::Clear, &after).expect("what was placed is cleared");
    assert_eq!(cleared.slots, case.slots, "placed and cleared, the slots are others");
    assert_eq!(cleared.counts, case.counts, "placed and cleared, the counts are others");
    Some(after)
}

/// A gate of two inputs, word by word; then the full tree.
fn examples(checker: &mut RepairChecker, dose: Dose) {
    // Gate 3 of pins 1 and 2, at level 2: carried to level 1, slot 5, and split to slots 5 and 5 + 4096 of level 0.
    let (edition, slots) = (dose.edition, dose.edition.slots());
    let case = Case {
        counts: vec![9, 4],
        place: Place { level: 2, slot: 5 },
        node: 3,
        ..Case::empty(edition, vec![3, 2, 5], vec![0, 0, 0, 1])
    };
    let mut expected = case.slots.clone();
    for (index, pin) in [(slots / 4 + 5, 3), (slots / 2 + 5, 3), (slots + 5, 1), (slots + slots / 2 + 5, 2)] {
        expected[index - 1] = pin;
    }
    let gem = placer(&case);
    let after = there_and_back(checker, gem.as_ref(), "a gate carried and split", &case);
    let after = after.expect("it can be placed");
    assert!(after.slots == expected && after.counts == [9, 4, 3, 2], "a gate carried and split");

    let tree = repairs::full_tree(edition);
    let gem = placer(&tree);
    let after = there_and_back(checker, gem.as_ref(), "the full tree of the highest level", &tree);
    let after = after.expect("it can be placed");
    assert!(after.slots.iter().all(|&pin| pin != EMPTY), "every slot of the full tree is taken");
}

/// Levels and slots at their limits and one past, and a stage that is one slot too short: an input placed, and its place cleared.
fn limits(checker: &mut RepairChecker, dose: Dose) {
    let (levels, slots) = (dose.edition.levels(), dose.edition.slots() as u32);
    let within = [(levels, 0), (levels - 1, 1), (1, slots / 2 - 1), (0, slots - 1)];
    let past = [(levels + 1, 0), (levels, 1), (levels - 1, 2), (1, slots / 2), (0, slots)];
    let mut check = |(level, slot), less, number| {
        let mut case = Case::empty(dose.edition, Vec::new(), vec![0, 0]);
        (case.place, case.node) = (Place { level, slot }, 1);
        case.slots.truncate(dose.edition.stage_slots() - less);
        for work in [Work::Place, Work::Clear] {
            let done = checker.check("levels and slots at their limits", work, &case, More::default());
            assert_eq!(done.err(), number, "level {}, slot {}", level, slot);
        }
    };
    for place in within {
        check(place, 0, None);
        check(place, 1, Some(14));
    }
    for place in past {
        check(place, 0, Some(5));
    }
}

/// Every place of an empty stage, with nodes of every level up to it. Of the lowest levels some places, or all.
fn every_place(checker: &mut RepairChecker, random: &mut Random, dose: Dose, all: bool) {
    let mut case = repairs::any(random, dose.edition, 0);
    let gem = placer(&case);
    for word in 0..dose.edition.stage_slots() {
        case.place = place_of(dose.edition, word);
        if case.place.level >= 4 || all || random.chance(20) {
            let level = random.below(case.place.level as usize + 1) as u32;
            // A pin of a gap may have a level, and is no gate.
            let is_node = |pin: u32| pin == 0 || case.gates.iter().step_by(3).any(|&gate| gate == pin);
            let fits = |pin: &u32| case.levels[*pin as usize] == level && (level == 0 || is_node(*pin));
            case.node = (0..case.levels.len() as u32).find(fits).unwrap_or(0);
            let done = there_and_back(checker, gem.as_ref(), "every place of a stage", &case);
            assert!(done.is_some() || case.gates.is_empty(), "it can be placed");
        }
    }
}

/// Random gates, a stage that is taken in part, and a place of it.
fn random_stages(checker: &mut RepairChecker, random: &mut Random, dose: Dose) {
    for _ in 0..dose.times(60) {
        let nodes = random.pick(&[0, 3, 12, 40]);
        let mut case = repairs::any(random, dose.edition, nodes);
        let gem = placer(&case);
        for _ in 0..6 {
            case.aim(random);
            let _ = there_and_back(checker, gem.as_ref(), "random stages", &case);
            case.aim_at_held(random);
            let _ = check(checker, gem.as_ref(), "random stages", Work::Clear, &case);
        }
    }
}

/// Nodes placed and places cleared on one stage, one after another; GEM's own stage goes along.
fn chains(checker: &mut RepairChecker, random: &mut Random, dose: Dose) {
    for _ in 0..dose.times(25) {
        let mut case = repairs::any(random, dose.edition, 0);
        let gem = placer(&case);
        let mut stage = placer_stage(&case);
        for _ in 0..30 {
            let work = if random.chance(3) { Work::Clear } else { Work::Place };
            case.aim(random);
            if work == Work::Clear {
                case.aim_at_held(random);
            }
            let done = checker.check("chains", work, &case, More::default());
            // A refused one would leave GEM's stage changed.
            if let (Some(placer), Some(stage), true) = (&gem, &mut stage, done.is_ok()) {
                checker.check_gem((placer, stage), work, &case, &done, false);
            }
            if let Ok(repaired) = done {
                case.slots = repaired.slots;
                case.counts = repaired.counts;
            }
        }
    }
}

/// A case whose work can be done, on a stage that is taken in part.
fn good_case(random: &mut Random, edition: Edition, work: Work) -> Case {
    loop {
        let nodes = random.pick(&[1, 6, 20]);
        let mut case = repairs::any(random, edition, nodes);
        if work == Work::Clear {
            case.aim_at_held(random);
        }
        if work.expected(&case).is_ok() {
            return case;
        }
    }
}

/// Each damage until its refusal has come so many times; then two at once.
fn damaged_stages(checker: &mut RepairChecker, random: &mut Random, dose: Dose) {
    for work in [Work::Place, Work::Clear] {
        println!("{:?}:", work);
        let damages = repair_damage::damages(work);
        let mut came = Came::new(TIMES);
        for (meant, name, change) in &damages {
            for _ in 0..MOST_STAGES {
                let mut damaged =
                    Damaged { case: good_case(random, dose.edition, work), more: More::default() };
                if change(random, &mut damaged).is_some() {
                    let done = checker.check("damaged", work, &damaged.case, damaged.more);
                    came.count(*meant, name, done.as_ref().err().copied().unwrap_or(0));
                    if matches!(meant, 0 | 25 | 26 | 34)
                        && damaged.case.slots.len() == dose.edition.stage_slots()
                    {
                        gem_damaged(checker, work, &damaged.case, &done);
                    }
                }
                if !came.wants(*meant, name) {
                    break;
                }
            }
        }
        came.print();
        for _ in 0..dose.times(400) {
            let mut damaged = Damaged { case: good_case(random, dose.edition, work), more: More::default() };
            for _ in 0..2 {
                let (_, _, change) = damages[random.below(damages.len())];
                // Damages find their places on a stage that is whole.
                let is_whole = damaged.case.slots.len() >= dose.edition.stage_slots();
                if is_whole && damaged.case.place.is_in_form(dose.edition) {
                    let _ = change(random, &mut damaged);
                }
            }
            let _ = checker.check("damaged twice", work, &damaged.case, damaged.more);
        }
    }
}

fn gem_damaged(checker: &mut RepairChecker, work: Work, case: &Case, done: &Result<Repaired, u32>) {
    if let (Some(placer), Some(mut stage)) = (placer(case), placer_stage(case)) {
        checker.check_gem((&placer, &mut stage), work, case, done, true);
    }
}

/// Roots of a stage that are taken, where not all are.
const ROOTS: usize = 2;

/// Stages that GEM placed: each root of a tree, or some, cleared and placed again. Below a node that was carried there may
/// be trees of other roots. Clearing takes those that it reaches; as it stops at an empty slot, others may be left, and then
/// there is no placing it again.
fn netlists(checker: &mut RepairChecker, random: &mut Random, path: &str, all: bool) {
    let cases = stored::read(&std::fs::read(path).expect("the plans can be read")).expect("a file of plans");
    let (mut stages, mut roots, mut same, mut changed, mut left) = (0, 0, 0, 0, 0);
    for stored in &cases {
        let words = record::words(&stored.record);
        let plan = record::plan(stored.record.len(), &words).expect("a plan in form");
        for stage in plan.parts.iter().flat_map(|part| &part.stages) {
            let mut case = case_of(plan.gates, stage.slots());
            let mut of_stage = roots_of(&case);
            if !all {
                random.shuffle(&mut of_stage);
                of_stage.truncate(ROOTS);
            }
            let gem = placer(&case);
            for place in of_stage {
                (case.place, case.node) = (place, case.slots[place.word(case.edition)]);
                match again(checker, gem.as_ref(), &case) {
                    Some(slots) if slots == case.slots => same += 1,
                    Some(_) => changed += 1,
                    None => left += 1,
                }
                roots += 1;
            }
            stages += 1;
        }
    }
    println!(
        "netlists: {} stages, {} roots cleared; {} placed again gave the same stage",
        stages, roots, same
    );
    println!(
        "  {} were placed again without others that stood below them, {} not, as others were left",
        changed, left
    );
    assert!(same > 3 * roots / 4, "most roots give the same stage");
}

/// Clears the case's place and places its node there again. Gives the slots, or none where the placing is refused by 24.
fn again(checker: &mut RepairChecker, placer: Option<&Placer>, case: &Case) -> Option<Vec<u32>> {
    let kind = "netlists through GEM";
    let cleared = check(checker, placer, kind, Work::Clear, case).expect("every slot is counted");
    let case = Case { slots: cleared.slots, counts: cleared.counts, ..case.clone() };
    match check(checker, placer, kind, Work::Place, &case) {
        Ok(placed) => Some(placed.slots),
        Err(number) => {
            assert_eq!(number, 24, "GEM placed it");
            None
        }
    }
}

/// A stage of a plan of the full edition, with counts and levels worked from it.
fn case_of(gates: &[u32], slots: &[u32]) -> Case {
    let pins =
        |slots: &[u32]| slots.iter().copied().filter(|&pin| pin != EMPTY).map(Pin).collect::<Vec<Pin>>();
    let level_0 = &slots[Edition::FULL.slots() - 1..];
    let levels = levels(gates, &pins(level_0), Pin(1 << 30));
    Case {
        counts: stage_counts(slots, host(Edition::FULL)),
        slots: slots.to_vec(),
        ..Case::empty(Edition::FULL, gates.to_vec(), levels)
    }
}

/// Places of levels 1 and up that hold something which nothing above them placed: the slot above is empty, or carries
/// another slot's pin.
fn roots_of(case: &Case) -> Vec<Place> {
    let is_root = |place: &Place| {
        if place.level == 0 || case.slots[place.word(case.edition)] == EMPTY {
            return false;
        }
        if place.level == case.edition.levels() {
            return true;
        }
        let slots_above = case.edition.level_slots(place.level + 1) as u32;
        let above = Place { level: place.level + 1, slot: place.slot % slots_above };
        let pin = case.slots[above.word(case.edition)];
        pin == EMPTY || place.slot >= slots_above && case.levels[pin as usize] < above.level
    };
    (0..case.edition.stage_slots()).map(|word| place_of(case.edition, word)).filter(is_root).collect()
}
