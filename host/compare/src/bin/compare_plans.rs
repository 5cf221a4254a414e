//! Compares the library's builder with the reference's on whole plans.
//!
//! compare_plans [SEED]    stops at the first difference. The designs are compared by `juolgesot compare`.

use compare::came::Came;
use compare::comparison::Comparison;
use compare::marked::{m10, m2, m6, m8, missed_reads, plain_part, reads_in_second_part, wide_reads};
use compare::plan_checker::{Expected, More, PlanChecker, FELL_BACK};
use compare::plan_damage::{self, Change};
use compare::plans::{self, Reads, Size};
use compare::sets;
use compare::{host, Dose};
use model::Refused;
use plan::{Edition, Endpoint, Part, Plan, Position, Stage, EMPTY};
use random::Random;
use std::time::Instant;

const SEED: u64 = 20_240_614;
/// How often each damage is to bring about its refusal, and the plans that are tried for it.
const TIMES: u32 = 3;
const MOST_PLANS: usize = 200;

fn main() {
    let mut comparison = Comparison::begin("compare_plans", reference::NAME, SEED);
    let checkers = Dose::BOTH.map(|dose| {
        let (mut checker, random) = (PlanChecker::new(), &mut comparison.random);
        println!("the {} edition:", dose.name());
        marked(&mut checker, dose);
        random_plans(&mut checker, random, dose);
        unpackable(&mut checker, random, dose);
        missed(&mut checker, random, dose);
        late_sizes(&mut checker, random, dose);
        boundaries(&mut checker, dose);
        short_results(&mut checker, random, dose);
        short_rooms(&mut checker, random, dose);
        damaged_plans(&mut checker, random, dose);
        large_sums(&mut checker, dose);
        checker.answers.sort();
        checker
    });
    let told: Vec<_> = Dose::BOTH
        .into_iter()
        .zip(&checkers)
        .map(|(dose, c)| (dose, vec![&c.kinds, &c.answers, &c.gem, &c.parts]))
        .collect();
    comparison.finish_both("plans", &told);
    for (dose, checker) in Dose::BOTH.into_iter().zip(&checkers) {
        for number in [3, 4, 22, 29] {
            let times = checker.answers.times(&format!("refused {:2}", number));
            assert!(times >= TIMES.into(), "refusal {} came {} times", number, times);
        }
        let fell_back = checker.parts.times(FELL_BACK);
        assert!(fell_back >= dose.least(10), "{} parts fell back", fell_back);
    }
}

/// Plans of M2's set, M6, M8 and M10.
fn marked(checker: &mut PlanChecker, dose: Dose) {
    let edition = host(dose.edition);
    for plan in [m2(edition), m6(edition), m8(edition), m10(edition)] {
        assert_eq!(check_both(checker, "M2's set, M6, M8, M10", &plan), 0);
    }
    // "M2's set as one part of one stage": 16128 words, and 5248 + 256 + 2560 of the small edition.
    let script = Expected::of(&m2(edition).record()).answer.expect("it is built");
    let words = if dose.is_full() { 16128 } else { 8064 };
    assert_eq!((script.starts[2] - script.starts[1], &script.pieces[..]), (words, &[1, 3][..]));
}

fn check_both(checker: &mut PlanChecker, kind: &str, plan: &Plan) -> u32 {
    let start = Instant::now();
    let record = plan.record();
    let expected = Expected::of(&record);
    if plan.edition == Edition::Full {
        checker.check_gem(kind, plan, &expected);
    }
    let number = checker.check_expected(kind, &record, &expected, More::default());
    checker.kinds.count_timed(kind, start.elapsed());
    number
}

/// A plan of few parts.
fn few(dose: Dose) -> Size {
    Size { edition: host(dose.edition), majors: 3, parts: 2, stages: 3, inputs: 300, wide: false }
}

fn random_plans(checker: &mut PlanChecker, random: &mut Random, dose: Dose) {
    for _ in 0..dose.times(30) {
        let plan = plans::any(random, Size { majors: 5, parts: 5, inputs: 9000, ..few(dose) });
        check_both(checker, "random placements and tables", &plan);
    }
    for _ in 0..dose.times(10) {
        let plan = plans::any(random, Size { wide: true, ..few(dose) });
        check_both(checker, "random, pins up to 2^30", &plan);
    }
    for _ in 0..dose.times(4) {
        let plan = plans::any(random, Size { majors: 2, parts: 12, stages: 1, inputs: 60, ..few(dose) });
        check_both(checker, "random, many parts", &plan);
    }
}

fn unpackable(checker: &mut PlanChecker, random: &mut Random, dose: Dose) {
    let (edition, lanes, slots) = (host(dose.edition), dose.edition.lanes(), dose.edition.slots());
    for words in [lanes, lanes + 1, lanes + 2, lanes + 44, slots / 17] {
        let plan = plans::words_of_17(random, edition, words);
        let number = check_both(checker, "words of 17 bits", &plan);
        assert_eq!(number, if words == lanes { 0 } else { 22 });
    }
    // The second part has no packing; then the third reads nothing, which comes first.
    let mut plan = plans::words_of_17(random, edition, lanes + 1);
    let mut good = plan.stages[0][0].clone();
    for slot in slots + 100..2 * slots {
        good.stages[0].slots[slot] = EMPTY;
    }
    plan.stages[0].insert(0, good.clone());
    assert_eq!(check_both(checker, "second part without packing", &plan), 22);
    good.stages[0] = Stage::empty_of(edition);
    plan.stages.push(vec![good]);
    assert_eq!(check_both(checker, "second without packing, third reads nothing", &plan), 3);
}

/// Refusal 4 with its word; 3 and 22 come before it, whatever the part.
fn missed(checker: &mut PlanChecker, random: &mut Random, dose: Dose) {
    const STAGED: u64 = 1 << 31;
    let (edition, lanes) = (host(dose.edition), dose.edition.lanes() as u64);
    let mut refused_at = |kind: &str, parts: &[Reads], place: (u32, usize, u64)| {
        refused_at(checker, random, edition, kind, parts, place)
    };
    let sets = missed_reads(edition);
    let [of_first, of_second, of_third] = [lanes - 2, STAGED + lanes + 2, STAGED + 1 + lanes - 3];
    for (set, word) in sets.iter().zip([of_first, of_second, of_third]) {
        // The parts that store the staged words come first.
        let storing = (set.staged.len() + edition.lanes() - 1) / edition.lanes();
        refused_at("a part that the search misses", &[set.clone()], (4, storing, word));
    }
    let [missed, staged, _] = sets;
    let good = Reads { unstaged: vec![3; 40], staged: Vec::new() };
    let wide = wide_reads(edition);
    let nothing = Reads::default();
    let cases = [
        (vec![good.clone(), missed.clone(), missed.clone()], (4, 1, of_first)),
        // The last part's unstaged words are one more, and the staged one comes behind them.
        (vec![good.clone(), staged.clone(), missed.clone()], (4, 2, of_second + 1)),
        (vec![missed.clone(), wide.clone()], (22, 1, 0)),
        (vec![wide.clone(), missed.clone()], (22, 0, 0)),
        (vec![good.clone(), missed.clone(), wide.clone(), wide.clone()], (22, 2, 0)),
        (vec![missed.clone(), wide, nothing.clone()], (3, 2, 0)),
        (vec![good, missed, nothing], (3, 2, 0)),
    ];
    for (parts, place) in cases {
        refused_at("parts of which one is missed", &parts, place);
    }
}

/// A plan of these parts is refused by this number, at this part and item.
fn refused_at(
    checker: &mut PlanChecker,
    random: &mut Random,
    edition: Edition,
    kind: &str,
    parts: &[Reads],
    place: (u32, usize, u64),
) {
    let plan = plans::reading(random, edition, parts);
    let (number, part, item) = place;
    let refused = Refused { number, part: part as u64, item };
    assert_eq!(Expected::of(&plan.record()).answer.err(), Some(refused), "{}", kind);
    check_both(checker, kind, &plan);
}

/// Parts whose search falls back, beside parts whose search does not; M5's set among them.
fn late_sizes(checker: &mut PlanChecker, random: &mut Random, dose: Dose) {
    let edition = host(dose.edition);
    let [(_, plan), ..] = reads_in_second_part(edition);
    let script = Expected::of(&plan.record()).answer.expect("both are placed");
    assert_eq!(script.pieces, [9, 16]);
    let told: Vec<String> = script.fell_back().iter().map(|told| told.to_string()).collect();
    assert_eq!(told, [format!("part 1: {} pairs, size 16 won", edition.lanes() + 1)]);
    check_both(checker, "M5's set in a part", &plan);
    for _ in 0..dose.times(12) {
        let parts: Vec<Reads> = (0..random.between(1, 4)).map(|_| late_reads(random, dose)).collect();
        let mut plan = plans::reading(random, edition, &parts);
        plan.blocks = random.pick(&[1, 2, 3]);
        check_both(checker, "parts that fall back", &plan);
    }
}

/// The bits of a set that mostly takes several tries.
fn late_reads(random: &mut Random, dose: Dose) -> Reads {
    let edition = dose.edition;
    let set =
        if random.chance(2) { sets::few_then_many(random, edition) } else { sets::runs(random, edition) };
    Reads { unstaged: set.chunks(2).map(|pair| pair[1].count_ones()).collect(), staged: Vec::new() }
}

/// Lists as long as they may be, and one longer.
fn boundaries(checker: &mut PlanChecker, dose: Dose) {
    let (edition, lanes) = (host(dose.edition), dose.edition.lanes());
    let (m6, m10, plain_part) = (|| m6(edition), || m10(edition), |at: &[&[u32]]| plain_part(edition, at));
    let mut check = |kind: &str, plan: &Plan, number: u32| {
        assert_eq!(checker.check(kind, &plan.record(), More::default()), number, "{}", kind);
    };
    let mut plan = m10();
    plan.layout.resize(1 << 20, EMPTY);
    check("layout of 2^20", &plan, 0);
    plan.layout.push(EMPTY);
    check("layout of 2^20 + 1", &plan, 5);
    let mut plan = m10();
    plan.positions = vec![Position { pin: 9, position: 1, staged: 1 }; 1 << 20];
    check("2^20 positions", &plan, 0);
    plan.positions.push(plan.positions[0]);
    check("2^20 + 1 positions", &plan, 5);
    let mut plan = m10();
    plan.stages[0][0].endpoints = vec![Endpoint::output(6); 8192];
    check("8192 endpoints", &plan, 0);
    plan.stages[0][0].endpoints.push(Endpoint::output(6));
    check("8193 endpoints", &plan, 5);
    let mut plan = m6();
    plan.stages[0] = vec![plain_part(&vec![&[][..]; 255])];
    check("255 stages", &plan, 0);
    plan.stages[0] = vec![plain_part(&vec![&[][..]; 256])];
    check("256 stages", &plan, 5);
    let mut plan = m6();
    plan.stages.resize(64, Vec::new());
    plan.blocks = 1024;
    check("64 major stages, 1024 blocks", &plan, 0);
    plan.stages.push(Vec::new());
    check("65 major stages", &plan, 5);
    let mut plan = m6();
    let last = lanes as u32 - 1;
    plan.stages[0][0].stages[0].locations = vec![last; lanes - 1];
    check("as many locations as lanes", &plan, 0);
    plan.stages[0][0].stages[1].locations = vec![last; 2];
    check("a location too many", &plan, 7);
    let mut plan = m6();
    plan.stages[0][0].stages[0].locations = vec![last + 1];
    check("a location past the lanes", &plan, 7);
    let mut plan = m6();
    plan.stages[0][0].endpoints = vec![Endpoint::sram(); lanes - 3];
    check("SRAMs up to the lanes", &plan, 0);
    plan.stages[0][0].endpoints.push(Endpoint::sram());
    check("an SRAM too many", &plan, 7);
    for entry in [edition.slots() as u32 - 1, edition.slots() as u32] {
        let mut plan = m10();
        let number = if (entry as usize) < edition.slots() { 0 } else { 13 };
        plan.stages[0][0].tables.enable[0] = entry;
        check("an enable entry at its limit", &plan, number);
        plan.stages[0][0].tables.enable[0] = 0;
        plan.stages[0][0].tables.sram[edition.slots() - 1] = entry;
        check("an SRAM entry at its limit", &plan, number);
    }
    check("no parts", &Plan { edition, blocks: 3, stages: vec![Vec::new(); 2], ..Plan::default() }, 0);
    let no_inputs =
        Plan { layout: Vec::new(), positions: vec![Position { pin: 1, position: 0, staged: 0 }], ..m6() };
    check("no input layout", &no_inputs, 0);
}

fn short_results(checker: &mut PlanChecker, random: &mut Random, dose: Dose) {
    for _ in 0..dose.times(6) {
        let plan = plans::any(random, few(dose));
        let record = plan.record();
        let expected = Expected::of(&record);
        for (starts, words, pieces) in [
            (0, 0, 0),
            (-1, 0, 0),
            (0, -1, 0),
            (0, 0, -1),
            (-1, -1, -1),
            (-1, 5000, 7),
            (5, -8 * dose.edition.lanes() as i64, 7),
            (5, 5000, -1),
            (-1_000_000, 0, 0),
            (0, -100_000_000, 0),
            (0, 0, -1_000),
        ] {
            let more = More { starts, words, pieces, room_is_zero: random.chance(2), ..More::default() };
            checker.check_expected("result room around what is needed", &record, &expected, more);
            checker.kinds.count("result room around what is needed");
        }
    }
}

fn short_rooms(checker: &mut PlanChecker, random: &mut Random, dose: Dose) {
    let mut records = vec![counts_of_majors(dose, 64), counts_of_majors(dose, 65)];
    for index in 0..dose.times(10).max(7) {
        let plan = plans::any(random, few(dose));
        let mut record = plan.record();
        match index % 7 {
            // The counts of major stages that are missing, too many, or too large.
            1 => record.truncate(random.below(40)),
            2 => record[4] = 200,
            3 => {
                let count = plan::HEAD_WORDS + random.below(plan.stages.len());
                record[4 * count..][..4].copy_from_slice(&[1, 2, 0, 0])
            }
            4 => record[4 * plan::HEAD_WORDS..][..4].copy_from_slice(&[255; 4]),
            // "32 looks at words 1 and 9 .. alone": no edition, and words that are not 0.
            5 => record[4 * plan::EDITION_WORD..][..4].copy_from_slice(&random.word().to_le_bytes()),
            6 => record[24..36].copy_from_slice(&[255; 12]),
            _ => {}
        }
        records.push(record);
    }
    for record in &records {
        let expected = Expected::of(record);
        for room in [-1, -16, -17, -100_000, 0, 1, 1000] {
            let more = More { room, room_is_zero: random.chance(2), ..More::default() };
            checker.check_expected("room around what is needed", record, &expected, more);
            checker.kinds.count("room around what is needed");
        }
    }
}

/// A record of so many major stages, the last of them with a part: the first 64 counts say what room is needed.
fn counts_of_majors(dose: Dose, majors: usize) -> Vec<u8> {
    let mut plan = m6(host(dose.edition));
    let parts = plan.stages.remove(0);
    plan.stages.resize(majors - 1, Vec::new());
    plan.stages.push(parts);
    plan.record()
}

/// Each damage until its refusal has come three times, and then damages at random.
fn damaged_plans(checker: &mut PlanChecker, random: &mut Random, dose: Dose) {
    let damages = plan_damage::damages();
    let mut came = Came::new(TIMES);
    for _ in 0..MOST_PLANS {
        let wide = random.chance(4);
        let plan = plans::any(random, Size { wide, ..few(dose) });
        for (number, name, change) in &damages {
            if came.wants(*number, name) {
                if let Some(found) = damaged(checker, random, &plan, change, *number) {
                    came.count(*number, name, found);
                }
            }
        }
        if damages.iter().all(|(number, name, _)| !came.wants(*number, name)) {
            break;
        }
    }
    came.print();
    for _ in 0..dose.times(40) {
        let plan = plans::any(random, Size { majors: 2, parts: 2, stages: 2, ..few(dose) });
        for _ in 0..6 {
            let mut words = plan.words();
            plan_damage::any_word(random, &plan, &mut words);
            if random.chance(4) {
                plan_damage::any_word(random, &plan, &mut words);
            }
            checker.check("any word changed", &plan::bytes(&words), More::default());
        }
        let (first, second) = (random.below(damages.len()), random.below(damages.len()));
        if let Some((_, Some(once))) = plan_damage::apply(random, &plan, &damages[first].2) {
            // State is asked of plans in form only.
            let in_form = !matches!(damages[first].0, 5 | 29) || !matches!(damages[second].0, 7 | 12);
            if let Some((twice, _)) =
                in_form.then(|| plan_damage::apply(random, &once, &damages[second].2)).flatten()
            {
                checker.check("two damages", &twice, More::default());
            }
        }
    }
}

fn damaged(
    checker: &mut PlanChecker,
    random: &mut Random,
    plan: &Plan,
    change: &Change,
    number: u32,
) -> Option<u32> {
    let start = Instant::now();
    let (record, damaged_plan) = plan_damage::apply(random, plan, change)?;
    let expected = Expected::of(&record);
    if let (Some(plan), 0 | 3 | 4 | 9 | 10 | 12) = (damaged_plan, number) {
        if plan.edition == Edition::Full {
            checker.check_gem("damaged", &plan, &expected);
        }
    }
    let more = More { room_is_zero: random.chance(2), ..More::default() };
    let found = checker.check_expected("damaged", &record, &expected, more);
    checker.kinds.count_timed("damaged", start.elapsed());
    Some(found)
}

/// 2^19 SRAMs, and one fewer: 2048 parts of 256, or 4096 of 128.
fn large_sums(checker: &mut PlanChecker, dose: Dose) {
    let (edition, lanes) = (host(dose.edition), dose.edition.lanes());
    let mut part = plain_part(edition, &[&[]]);
    part.endpoints = vec![Endpoint::sram(); lanes];
    let parts = (1 << 19) / lanes;
    let record = many_parts(edition, &[(parts, &part)]);
    assert_eq!(checker.check("2^19 SRAMs", &record, More::default()), 8);
    drop(record);
    // The sums are the same in both editions.
    if !dose.is_full() {
        return;
    }
    let mut last = part.clone();
    last.endpoints.pop();
    last.stages[0].slots[1] = 77;
    let record = many_parts(edition, &[(parts - 1, &part), (1, &last)]);
    assert_eq!(checker.check("2^19 - 1 SRAMs, and a bad slot", &record, More::default()), 9);
}

/// The record of a plan of one major stage, each part so many times.
fn many_parts(edition: Edition, parts: &[(usize, &Part)]) -> Vec<u8> {
    let one = |part: &Part| Plan {
        edition,
        blocks: 3,
        layout: vec![1],
        stages: vec![vec![part.clone()]],
        ..Plan::default()
    };
    let mut words = one(parts[0].1).words();
    words.truncate(one(parts[0].1).heads_at());
    words[plan::HEAD_WORDS] = parts.iter().map(|&(times, _)| times as u32).sum();
    for &(times, part) in parts {
        for _ in 0..times {
            words.extend(part.head());
        }
    }
    let mut record = plan::bytes(&words);
    for &(times, part) in parts {
        let body = plan::bytes(&one(part).words()[one(part).body_at(0)..]);
        for _ in 0..times {
            record.extend_from_slice(&body);
        }
    }
    record
}
