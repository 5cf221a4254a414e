//! A machine with a register, an inverted output and several parts, beside what they mean.

use juolgesot::{Edition, Machine, Part, Pin, Plan, Stage, StatePosition, Trouble};

/// Slot j of level 1 carries or computes a pin of two slots below.
fn place(stage: &mut Stage, slot: u32, pin: Pin, a: Pin, b: Option<Pin>) {
    stage.put(0, slot, a);
    if let Some(b) = b {
        stage.put(0, slot + stage.edition().slots() as u32 / 2, b);
    }
    stage.put(1, slot, pin);
}

/// The location that captures slots 0 to 31 of level 1.
fn level_1(edition: Edition) -> u32 {
    edition.lanes() as u32 / 2
}

/// Pin 1 is an input, pin 2 a register that toggles where it is 1: d = not (2 and 1) and not (not 2 and not 1). Gates 3 and 4 are
/// made first, gate 5 in a second stage. Outputs: the register's data, and pin 1 inverted.
fn toggle(edition: Edition, copies: usize, blocks: u32) -> Plan {
    let mut first = Stage::empty_of(edition);
    place(&mut first, 0, Pin(3), Pin(2), Some(Pin(1)));
    place(&mut first, 1, Pin(4), Pin(2), Some(Pin(1)));
    place(&mut first, 2, Pin(1), Pin(1), None);
    first.store(level_1(edition));
    let mut second = Stage::empty_of(edition);
    place(&mut second, 0, Pin(5), Pin(3), Some(Pin(4)));
    second.store(level_1(edition));
    let mut part = Part::new(vec![first, second]);
    part.output(Pin(5).plain());
    part.output(Pin(1).inverted());
    part.register(Pin(5).plain(), Pin(0).inverted());
    part.tables.always(0, 2);
    part.tables.invert(0, 2);
    part.tables.always(1, 0);
    let mut plan = Plan::of_edition(edition, blocks);
    plan.input(Pin(1));
    plan.gate(Pin(3), Pin(2).plain(), Pin(1).plain());
    plan.gate(Pin(4), Pin(2).inverted(), Pin(1).inverted());
    plan.gate(Pin(5), Pin(3).inverted(), Pin(4).inverted());
    // The second word that part 0 stores: words 0 (inputs), 1 and 2.
    plan.position(Pin(2), StatePosition(64));
    plan.major_stage(vec![part; copies]);
    plan
}

#[test]
fn a_register_toggles() {
    for (copies, blocks) in [(1, 1), (3, 1), (5, 2)] {
        for edition in Edition::BOTH {
            toggles(&toggle(edition, copies, blocks));
        }
    }
}

fn toggles(plan: &Plan) {
    let mut machine = Machine::new(plan).unwrap();
    let mut register = false;
    for input in [true, true, false, true, false, false, true] {
        machine.put(Pin(1), input).unwrap();
        machine.cycle().unwrap();
        register ^= input;
        assert_eq!(machine.get(Pin(2)), Some(register));
        assert_eq!(machine.output(Pin(5).plain()), Some(register));
        assert_eq!(machine.output(Pin(1).inverted()), Some(!input));
        // What no part stores stays as it was put.
        assert_eq!(machine.get(Pin(1)), Some(input));
    }
}

/// Each part of a plan of several blocks is found where it stores: an output that only that part has.
#[test]
fn outputs_of_all_parts() {
    for edition in Edition::BOTH {
        outputs_of(edition);
    }
}

fn outputs_of(edition: Edition) {
    let mut plan = Plan::of_edition(edition, 3);
    let pins: Vec<Pin> = (1..=9).map(Pin).collect();
    for &pin in &pins {
        plan.input(pin);
    }
    let part = |(number, &pin): (usize, &Pin)| {
        let mut stage = Stage::empty_of(edition);
        place(&mut stage, number as u32, pin, pin, None);
        stage.store(level_1(edition));
        // Parts of one to three stages: they cost differently, and so go to different blocks.
        let mut stages = vec![stage.clone()];
        for _ in 0..number % 3 {
            let mut next = Stage::empty_of(edition);
            place(&mut next, number as u32, pin, pin, None);
            stages.push(next);
        }
        let mut part = Part::new(stages);
        part.output(pin.plain());
        part.tables.always(0, number as u32);
        part
    };
    plan.major_stage(pins.iter().enumerate().map(part).collect());
    let mut machine = Machine::new(&plan).unwrap();
    for &chosen in &pins {
        for &pin in &pins {
            machine.put(pin, pin == chosen).unwrap();
        }
        machine.cycle().unwrap();
        for &pin in &pins {
            assert_eq!(machine.output(pin.plain()), Some(pin == chosen), "{}", pin);
        }
    }
}

#[test]
fn pins_that_have_no_place() {
    let mut machine = Machine::new(&toggle(Edition::Small, 1, 1)).unwrap();
    assert_eq!(machine.put(Pin(3), true), Err(Trouble::NoPlace(Pin(3))));
    assert_eq!(machine.get(Pin(3)), None);
    assert_eq!(machine.output(Pin(3).plain()), None);
}
