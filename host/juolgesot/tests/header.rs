//! The numbers of juolgesot.h are those of this crate.

use juolgesot::*;

const HEADER: &str = include_str!("../../juolgesot.h");

fn defined(name: &str) -> Option<usize> {
    let line = format!("#define JUOLGESOT_{} ", name);
    HEADER.lines().find_map(|text| text.strip_prefix(&line)).map(|number| number.trim().parse().unwrap())
}

#[test]
fn rooms_and_results() {
    let pairs = [
        ("SET_ROOM", SET_ROOM),
        ("SET_ROOM", LIST_ROOM),
        ("NO_POSITION", NO_POSITION as usize),
        ("BLOCK_ROOM", BLOCK_ROOM),
        ("PLAN_ROOM", plan_room(&[]) as usize),
        ("REPAIR_ROOM", repair_room(0)),
        ("ENTRY_ROOM", repair_room(2) - repair_room(0)),
        ("FULL", Edition::Full.number() as usize),
        ("SMALL", Edition::Small.number() as usize),
        ("STAGE_SLOTS", Edition::Full.stage_slots()),
        ("COUNTED_SLOTS", Edition::Full.counted_slots()),
        ("ROUND_WORDS", Edition::Full.round_words()),
        ("SMALL_STAGE_SLOTS", Edition::Small.stage_slots()),
        ("SMALL_COUNTED_SLOTS", Edition::Small.counted_slots()),
        ("SMALL_ROUND_WORDS", Edition::Small.round_words()),
        ("AIGER_HEADER", AIGER_HEADER),
        ("AIGER_GATE", AIGER_GATE),
        ("MOST_ROUNDS", MOST_ROUNDS),
        ("LIST_TEXT", LIST_TEXT),
    ];
    for (name, number) in pairs {
        assert_eq!(defined(name), Some(number), "{}", name);
    }
    // A plan of one major stage with three parts.
    let words = [1u32, 1, 0, 0, 0, 256, 0, 0, 0, 3];
    let record: Vec<u8> = words.iter().flat_map(|word| word.to_le_bytes()).collect();
    assert_eq!((plan_room(&record) - plan_room(&[])) as usize, 3 * defined("PART_ROOM").unwrap());
}

#[test]
fn stacks() {
    assert_eq!(stack::ALL.len(), HEADER.matches("_STACK ").count());
    for &(name, bytes) in stack::ALL {
        assert_eq!(defined(&format!("{}_STACK", name.to_uppercase())), Some(bytes), "{}", name);
    }
}
