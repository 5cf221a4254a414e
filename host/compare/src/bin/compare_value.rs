//! Compares the library's values by the gates with the model's: the asked pin's, and every gate's.
//!
//! compare_value [PLANS] [SEED]    PLANS is what make_plans wrote; stops at the first difference

use compare::clock;
use compare::comparison::Comparison;
use compare::deep::{self, Multiplier};
use compare::marked::m10;
use compare::plan_damage;
use compare::plans::{self, Size};
use compare::run_damage::state;
use compare::value_checker::{Question, ValueChecker, ValueRoom};
use compare::{host, Dose};
use juolgesot::{Pin, PinIv};
use model::value;
use plan::{stored, Edition, Plan, EMPTY};
use random::Random;
use std::time::Duration;

const SEED: u64 = 20_240_616;
const SIZE: Size = Size { edition: Edition::Full, majors: 3, parts: 3, stages: 3, inputs: 300, wide: false };
/// Gates' bits of 0 and of 1 that are to be compared in random and damaged plans, at least.
const BITS_OF_A_KIND: u64 = 100_000;

fn main() {
    let mut comparison = Comparison::begin("compare_value", "host/model", SEED);
    let random = &mut comparison.random;
    let mut checker = ValueChecker::new();
    for dose in Dose::BOTH {
        let (edition, kind) = (host(dose.edition), format!("random plans, {} edition", dose.name()));
        marked(&mut checker, edition);
        for index in 0..dose.times(24) {
            let plan = plans::any(random, Size { edition, wide: index % 4 == 0, ..SIZE });
            values_of(&mut checker, random, &kind, &plan, &plan.record());
        }
        damaged(&mut checker, random, edition);
    }
    checker.print_gates(BITS_OF_A_KIND);
    around_words(&mut checker, random);
    if let Some(path) = comparison.words.first() {
        netlists(&mut checker, random, path);
    }
    multipliers(&mut checker, random);
    with_stack(STACK, || deep_ones(&mut checker, random));
    comparison.finish("values", &[&checker.kinds, &checker.answers]);
}

/// M10's pins, for every old word of two bits.
fn marked(checker: &mut ValueChecker, edition: Edition) {
    let record = m10(edition).record();
    for old in 0..4 {
        for pin in [0, 1, 2, 3, 4, EMPTY] {
            for part in [0, 1, u32::MAX] {
                let question =
                    Question { record: &record, part, pin, old: &[old], new: &[], lent: ValueRoom::EXACT };
                let gate_3 = (part == 0 && old == 1) as u32;
                let answer = checker.check("M10", question).expect("M10 is in order");
                assert_eq!(answer.gate_words, [gate_3], "M10's gate");
                check_owned(&question, &answer);
            }
        }
    }
}

/// What the crate hands out in memory of its own is the same.
fn check_owned(question: &Question<'_>, answer: &value::Answer) {
    let Question { record, part, pin, old, new, .. } = *question;
    let values = juolgesot::value(record, part, Pin(pin), old, new).expect("answered before");
    let gate = |gate: usize| Some(answer.gate_words[gate / 32] >> (gate % 32) & 1 == 1);
    assert_eq!(values.pin(), answer.bit);
    assert_eq!((values.gates() + 31) / 32, answer.gate_words.len());
    assert!((0..values.gates()).all(|index| values.gate(index) == gate(index)), "a gate's bit");
    assert_eq!(values.gate(values.gates()), None);
}

/// Room of any length around what is needed.
fn any_room(random: &mut Random) -> ValueRoom {
    let more = |random: &mut Random, short: &[i64], long: &[i64]| {
        if random.chance(12) {
            random.pick(short)
        } else {
            random.pick(long)
        }
    };
    ValueRoom {
        more_room: more(random, &[-1, -16, -1_000_000], &[0, 0, 1, 99]),
        room_is_zero: random.chance(2),
        more_bits: more(random, &[-1, -2, -1_000_000], &[0, 0, 1, 40]),
    }
}

/// Pins of every kind in parts of the plan, and past it.
fn values_of(checker: &mut ValueChecker, random: &mut Random, kind: &str, plan: &Plan, record: &[u8]) {
    let parts = plan.parts().count() as u32;
    let words = model::record::words(record);
    let state_words =
        model::build::accept(record.len(), &words).map_or(20, |plan| plan.sizes().state_words as usize);
    for part in [random.below(parts as usize + 1) as u32, random.pick(&[0, parts, u32::MAX])] {
        let (old_words, new_words) = if random.chance(4) {
            (random.below(state_words + 1), random.below(state_words + 1))
        } else {
            (state_words, state_words)
        };
        let (old, new) = (state(random, old_words), state(random, new_words));
        let mut pins: Vec<u32> = vec![0, 1 << 30, (1 << 30) + 1, EMPTY - 1, EMPTY];
        for _ in 0..6 {
            if !plan.gates.is_empty() {
                pins.push(plan.gates[random.below(plan.gates.len())].pin);
            }
            if !plan.layout.is_empty() {
                pins.push(random.pick(&plan.layout));
            }
            pins.push(random.below(1 << 30) as u32);
        }
        for pin in pins {
            let question = Question { record, part, pin, old: &old, new: &new, lent: any_room(random) };
            let answer = checker.check(kind, question);
            if let (Ok(answer), true) = (answer, random.chance(8)) {
                check_owned(&question, &answer);
            }
        }
    }
}

/// Refusals 29, 5 and 6, and plans whose other faults change nothing here. Too few words for the gates' bits come last.
fn damaged(checker: &mut ValueChecker, random: &mut Random, edition: Edition) {
    for (number, name, change) in &plan_damage::damages() {
        let mut came = 0;
        for _ in 0..60 {
            let plan =
                plans::any(random, Size { edition, majors: 2, parts: 1, stages: 1, inputs: 60, ..SIZE });
            if let Some((record, _)) = plan_damage::apply(random, &plan, change) {
                let old = state(random, 20);
                let part = random.below(2) as u32;
                for pin in [random.below(400) as u32, plan.gates.last().map_or(1, |gate| gate.pin)] {
                    for more_bits in [0, -1, -1_000_000] {
                        let lent = ValueRoom { more_room: 0, room_is_zero: false, more_bits };
                        let question = Question { record: &record, part, pin, old: &old, new: &old, lent };
                        let answer = checker.check("damaged", question);
                        came += (answer.err().map_or(0, |refused| refused.number) == *number) as u32;
                    }
                }
                if came > 0 || !matches!(number, 5 | 6 | 29) {
                    break;
                }
            }
        }
        assert!(came > 0 || !matches!(number, 5 | 6 | 29), "{} did not come by: {}", number, name);
    }
}

/// Numbers of gates around whole words, and words for their bits around what they need.
fn around_words(checker: &mut ValueChecker, random: &mut Random) {
    for gates in [0, 1, 2, 31, 32, 33, 63, 64, 65, 1023, 1024, 1025] {
        let plan = deep::chain(random, gates);
        let record = plan.record();
        for more_bits in [-1_000_000, -2, -1, 0, 1, 2, 31, 32, 1000] {
            for more_room in [-1, 0, 1] {
                let old = state(random, 2);
                let lent = ValueRoom { more_room, room_is_zero: random.chance(2), more_bits };
                let pin = random.pick(&[1, 40, 40 + gates as u32, EMPTY]);
                let question = Question { record: &record, part: 0, pin, old: &old, new: &[], lent };
                let number = match checker.check("lengths around what is needed", question) {
                    Ok(_) => 0,
                    Err(refused) => refused.number,
                };
                let short = if more_bits < 0 && gates > 0 { 14 } else { 0 };
                assert_eq!(number, if more_room < 0 { 32 } else { short }, "{} gates, {:?}", gates, lent);
            }
        }
    }
}

/// The netlists that GEM placed: some pins of each, and of the multipliers every output's and register's in its part.
fn netlists(checker: &mut ValueChecker, random: &mut Random, path: &str) {
    let cases = stored::read(&std::fs::read(path).expect("the plans can be read")).expect("a file of plans");
    let mut outputs = 0;
    for case in &cases {
        let words = model::record::words(&case.record);
        let plan = model::record::plan(case.record.len(), &words).expect("a plan in form");
        let state_words = case.script.state_words as usize;
        let (old, new) = (state(random, state_words), state(random, state_words));
        let mut ask = |kind: &str, part: usize, pin: u32| {
            let question = Question {
                record: &case.record,
                part: part as u32,
                pin,
                old: &old,
                new: &new,
                lent: ValueRoom::EXACT,
            };
            checker.check(kind, question).expect("GEM's plans are in order");
        };
        let is_multiplier = case.name.starts_with("multiplier");
        for (number, part) in plan.parts.iter().enumerate().filter(|_| is_multiplier) {
            // Outputs and registers: pins of theirs are inverted or not.
            for endpoint in
                part.endpoints.chunks(model::record::ENDPOINT).filter(|endpoint| matches!(endpoint[0], 0 | 2))
            {
                ask("multipliers through GEM", number, endpoint[1] >> 1);
                outputs += 1;
            }
        }
        for _ in 0..2 {
            let pin = plan.gates.chunks(3).last().map_or(1, |gate| gate[0]);
            ask("netlists through GEM", random.below(plan.parts.len()), pin);
        }
    }
    println!("multipliers through GEM: {} outputs and registers, each in its part", outputs);
    assert!(outputs > 50, "no multipliers");
}

/// Multipliers, held to the product of numbers too.
fn multipliers(checker: &mut ValueChecker, random: &mut Random) {
    for bits in [2, 7, 16, 24] {
        let Multiplier { plan, product } = Multiplier::of(bits);
        let record = plan.record();
        for _ in 0..4 {
            let (x, y) = (random.next() % (1 << bits), random.next() % (1 << bits));
            let inputs = x | y << bits;
            let old = [inputs as u32, (inputs >> 32) as u32];
            let mut found = 0;
            for (bit, output) in product.iter().map(|&output| PinIv(output)).enumerate() {
                let (pin, lent) = (output.pin().0, ValueRoom { room_is_zero: false, ..ValueRoom::EXACT });
                let question = Question { record: &record, part: 0, pin, old: &old, new: &[], lent };
                let answer = checker.check("multipliers", question).expect("a plan in order");
                found |= u64::from(output.of_value(answer.bit)) << bit;
            }
            assert_eq!(found, x * y, "{} times {}, of {} bits", x, y, bits);
        }
    }
}

/// The stack that the deep ones have: that of a main thread on Linux.
const STACK: usize = 8 << 20;
/// Gates of the longest.
const LONG: usize = 1_000_000;
/// Processor time that it may take.
const MOST_TIME: Duration = Duration::from_secs(2);

fn with_stack(bytes: usize, work: impl FnOnce() + Send) {
    std::thread::scope(|scope| {
        let thread = std::thread::Builder::new().stack_size(bytes).spawn_scoped(scope, work);
        if let Err(panic) = thread.expect("a thread").join() {
            std::panic::resume_unwind(panic);
        }
    });
}

fn deep_ones(checker: &mut ValueChecker, random: &mut Random) {
    for gates in [1, 2, 24, 63, 64, 65] {
        let plan = deep::doubling(random, gates);
        let record = plan.record();
        for gate in &plan.gates {
            let old = state(random, 2);
            let question = Question {
                record: &record,
                part: 0,
                pin: gate.pin,
                old: &old,
                new: &[],
                lent: ValueRoom::EXACT,
            };
            checker.check("cones that double", question).expect("a plan in order");
        }
    }
    grows(checker, "inverters", deep::inverters);
    grows(checker, "a chain", |gates| deep::chain(&mut Random::new(SEED), gates));
    grows(checker, "a cone that doubles", |gates| deep::doubling(&mut Random::new(SEED), gates));
}

/// Longer and longer ones: four times the gates take about four times the time, and not sixteen.
fn grows(checker: &mut ValueChecker, kind: &str, mut make: impl FnMut(usize) -> Plan) {
    let mut before: Option<Duration> = None;
    for gates in [LONG / 16, LONG / 4, LONG] {
        let plan = make(gates);
        let (record, pin) = (plan.record(), plan.gates[gates - 1].pin);
        for (part, old) in [(0, [1, 0]), (1, [1, 0])] {
            let question =
                Question { record: &record, part, pin, old: &old, new: &[], lent: ValueRoom::EXACT };
            checker.check(kind, question).expect("a plan in order");
        }
        let time = least_time(&record, pin);
        println!("{} of {} gates: {:.3} s, on a stack of {} bytes", kind, gates, time.as_secs_f64(), STACK);
        assert!(time < MOST_TIME, "{} of {} gates takes too long", kind, gates);
        let most = before.map_or(MOST_TIME, |before| 8 * before + Duration::from_millis(50));
        assert!(time < most, "{}: the time does not grow with the gates", kind);
        before = Some(time);
    }
}

/// The processor time of a call: what else the machine does only adds to it.
fn least_time(record: &[u8], pin: u32) -> Duration {
    let mut room = vec![0; juolgesot::plan_room(record) as usize];
    let mut bits = vec![0; juolgesot::gate_words(record)];
    let call = |_| {
        let (answer, time) =
            clock::timed(|| juolgesot::value_into(record, 0, Pin(pin), &[1, 0], &[], &mut room, &mut bits));
        answer.expect("a plan in order");
        time
    };
    (0..2).map(call).min().expect("two calls")
}
