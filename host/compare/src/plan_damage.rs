//! Damaged copies of plans, for every clause of every refusal. What a call is then to answer, the model says; each
//! damage names the refusal that it is meant to bring about, and the program sees that it comes.

use crate::plan_changes::*;
use crate::plans::tables;
use crate::UNKNOWN;
use plan::{
    Part, Plan, Position, Stage, EDITION_WORD, EMPTY, ENDPOINT_WORDS, GATE_WORDS, HEAD_WORDS,
    PART_HEAD_WORDS, POSITION_WORDS,
};
use random::Random;
use Change::*;

const OVER_PIN: u32 = (1 << 30) + 1;
const OVER_INVERTED: u32 = (1 << 31) + 2;
const NO_PINS: [u32; 2] = [OVER_PIN, EMPTY];
const NOT_INVERTED: [u32; 2] = [OVER_INVERTED, EMPTY];
/// For words that are 0.
const NOT_ZERO: [u32; 4] = [1, 2, 256, u32::MAX];
const NO_SLOTS: [u32; 3] = [OVER_PIN, EMPTY - 1, 1 << 31];
/// Endpoints with the largest numbers that they may have.
const LARGEST: [[u32; 3]; 3] =
    [[0, OVER_INVERTED - 1, 0], [1, OVER_PIN - 1, 0], [2, OVER_INVERTED - 1, OVER_INVERTED - 1]];

type PlanChange = fn(&mut Random, &mut Plan) -> Option<()>;
type RecordChange = fn(&mut Random, &Plan, &mut Vec<u32>) -> Option<()>;

/// What is damaged: the plan, or its record. None of them where the plan has no place for it.
pub enum Change {
    OfPlan(PlanChange),
    OfRecord(RecordChange),
    OfBytes(fn(&mut Random, &mut Vec<u8>)),
}

/// The refusal meant (0: none), a name, and the change.
pub type Damage = (u32, &'static str, Change);

/// The damaged record; and the damaged plan where there is one.
pub fn apply(random: &mut Random, plan: &Plan, change: &Change) -> Option<(Vec<u8>, Option<Plan>)> {
    match change {
        OfPlan(change) => {
            let mut plan = plan.clone();
            change(random, &mut plan)?;
            Some((plan.record(), Some(plan)))
        }
        OfRecord(change) => {
            let mut words = plan.words();
            change(random, plan, &mut words)?;
            Some((plan::bytes(&words), None))
        }
        OfBytes(change) => {
            let mut bytes = plan.record();
            change(random, &mut bytes);
            Some((bytes, None))
        }
    }
}

pub fn damages() -> Vec<Damage> {
    let groups = [
        of_editions(),
        of_lengths(),
        of_later_requests(),
        of_numbers(),
        of_gates(),
        of_locations(),
        of_slots(),
        of_later_slots(),
        of_positions(),
        of_tables_and_reads(),
    ];
    groups.into_iter().flatten().collect()
}

fn on_plan(number: u32, name: &'static str, change: PlanChange) -> Damage {
    (number, name, OfPlan(change))
}

fn on_record(number: u32, name: &'static str, change: RecordChange) -> Damage {
    (number, name, OfRecord(change))
}

fn on_bytes(number: u32, name: &'static str, change: fn(&mut Random, &mut Vec<u8>)) -> Damage {
    (number, name, OfBytes(change))
}

/// Entries that are none of an edition.
fn no_entries(plan: &Plan) -> [u32; 6] {
    let slots = plan.edition.slots() as u32;
    [slots, slots + 1, 16383, 65535, 65536, u32::MAX]
}

/// Refusal 29, which is before 5; and the other edition's number.
fn of_editions() -> Vec<Damage> {
    vec![
        on_record(29, "edition", |r, _, words| set(words, EDITION_WORD, r.pick(&UNKNOWN))),
        on_record(29, "edition, and a number out of range", |r, _, words| {
            set(words, r.pick(&[0, 1, 6, 7, 8]), u32::MAX)?;
            set(words, EDITION_WORD, r.pick(&UNKNOWN))
        }),
        on_record(29, "edition, and words cut", |r, _, words| {
            set(words, EDITION_WORD, r.pick(&UNKNOWN))?;
            words.truncate(r.between(EDITION_WORD + 1, words.len() - 1));
            Some(())
        }),
        on_bytes(29, "cut before the edition", |r, bytes| bytes.truncate(r.below(4 * EDITION_WORD + 4))),
        on_record(5, "the other edition", |_, plan, words| {
            set(words, EDITION_WORD, 384 - plan.edition.number())
        }),
    ]
}

/// Refusal 5 by words that are 0 until their requests land; and one that is not looked at.
fn of_later_requests() -> Vec<Damage> {
    vec![
        on_record(5, "gates of a second design", |r, _, words| set(words, 6, r.pick(&NOT_ZERO))),
        on_record(5, "layout of a second design", |r, _, words| set(words, 7, r.pick(&NOT_ZERO))),
        on_record(5, "kind of check", |r, _, words| set(words, 8, r.pick(&NOT_ZERO))),
        on_record(5, "design of a position", |r, plan, words| {
            let entry = any_index(r, &plan.positions)?;
            let at = plan.heads_at() - POSITION_WORDS * (plan.positions.len() - entry);
            set(words, at + 3, r.pick(&NOT_ZERO))
        }),
        on_record(5, "design of a part", |r, plan, words| {
            let part = r.below(plan.parts().count());
            set(words, plan.heads_at() + PART_HEAD_WORDS * part + 2, r.pick(&NOT_ZERO))
        }),
        on_record(5, "words of lanes handed in", |r, plan, words| {
            let part = r.below(plan.parts().count());
            set(words, plan.heads_at() + PART_HEAD_WORDS * part + 3, r.pick(&NOT_ZERO))
        }),
        on_record(0, "fourth words of endpoints", |r, plan, words| {
            for (number, part) in plan.parts().enumerate() {
                for endpoint in 0..part.endpoints.len() {
                    words[plan.body_at(number) + ENDPOINT_WORDS * endpoint + 3] = r.word();
                }
            }
            Some(())
        }),
    ]
}

/// Refusal 5 by lengths and counts.
fn of_lengths() -> Vec<Damage> {
    vec![
        on_bytes(5, "bytes cut", |r, bytes| bytes.truncate(bytes.len() - r.between(1, 3))),
        on_bytes(5, "words cut", |r, bytes| bytes.truncate(bytes.len() - 4 * r.between(1, 40))),
        on_bytes(5, "cut anywhere", |r, bytes| bytes.truncate(r.between(4 * HEAD_WORDS, bytes.len() - 1))),
        on_bytes(5, "cut in the head", |r, bytes| {
            bytes.truncate(r.between(4 * EDITION_WORD + 4, 4 * HEAD_WORDS + 8))
        }),
        on_bytes(5, "bytes more", |r, bytes| bytes.resize(bytes.len() + r.between(1, 3), 0)),
        on_bytes(5, "words more", |r, bytes| bytes.resize(bytes.len() + 4 * r.between(1, 40), 0)),
        on_record(5, "blocks", |r, _, words| set(words, 0, r.pick(&[0, 1025, 1026, u32::MAX]))),
        on_record(5, "major stages", |r, _, words| set(words, 1, r.pick(&[0, 65, 1000, u32::MAX]))),
        on_record(5, "gate count", |r, _, words| bump(r, words, 2)),
        on_record(5, "layout count", |r, _, words| bump(r, words, 3)),
        on_record(5, "position count", |r, _, words| bump(r, words, 4)),
        on_record(5, "layout count out of range", |_, _, words| set(words, 3, (1 << 20) + 1)),
        on_record(5, "position count out of range", |_, _, words| set(words, 4, (1 << 20) + 1)),
        on_record(5, "part count", part_count),
        on_record(5, "part count out of range", part_count_out_of_range),
        on_record(5, "stage count", |r, plan, words| head_count(r, plan, words, 0, &[0, 256, u32::MAX])),
        on_record(5, "endpoint count", |r, plan, words| head_count(r, plan, words, 1, &[8193, u32::MAX])),
        on_record(5, "location count", location_count),
    ]
}

/// Refusal 5 by numbers out of range.
fn of_numbers() -> Vec<Damage> {
    vec![
        on_plan(5, "gate pin out of range", |r, plan| {
            put(r, &mut plan.gates, |gate| &mut gate.pin, &NO_PINS)
        }),
        on_plan(5, "first fan-in out of range", |r, plan| {
            put(r, &mut plan.gates, |gate| &mut gate.first, &NOT_INVERTED)
        }),
        on_plan(5, "second fan-in out of range", |r, plan| {
            put(r, &mut plan.gates, |gate| &mut gate.second, &NOT_INVERTED)
        }),
        on_plan(5, "layout pin out of range", |r, plan| {
            put(r, &mut plan.layout, |pin| pin, &[OVER_PIN, EMPTY - 1])
        }),
        on_plan(5, "position pin out of range", |r, plan| {
            put(r, &mut plan.positions, |entry| &mut entry.pin, &NO_PINS)
        }),
        on_plan(5, "position mark", |r, plan| {
            put(r, &mut plan.positions, |entry| &mut entry.staged, &[2, 3, u32::MAX])
        }),
        on_plan(5, "unknown kind", |r, plan| endpoint(r, plan, &[[4, 0, 0], [5, 0, 0], [u32::MAX, 0, 0]])),
        on_plan(5, "output out of range", |r, plan| {
            endpoint(r, plan, &[[0, OVER_INVERTED, 0], [0, EMPTY, 0]])
        }),
        on_plan(5, "staged pin out of range", |r, plan| {
            endpoint(r, plan, &[[1, OVER_PIN, 0], [1, EMPTY, 0]])
        }),
        on_plan(5, "register input out of range", |r, plan| {
            endpoint(r, plan, &[[2, OVER_INVERTED, 0], [2, EMPTY, 0]])
        }),
        on_plan(5, "register enable out of range", |r, plan| {
            endpoint(r, plan, &[[2, 5, OVER_INVERTED], [2, 5, EMPTY]])
        }),
        on_plan(0, "largest pins", |r, plan| endpoint(r, plan, &LARGEST)),
        on_plan(0, "words that a kind has no use for", |r, plan| {
            endpoint(r, plan, &[[0, 3, EMPTY], [1, 3, EMPTY], [3, EMPTY, 7]])
        }),
    ]
}

/// Refusal 6.
fn of_gates() -> Vec<Damage> {
    vec![
        on_plan(6, "gate of pin 0", |_, plan| plan.gates.first_mut().map(|gate| gate.pin = 0)),
        on_plan(6, "gate twice", |r, plan| {
            let index = any_index(r, &plan.gates)?;
            plan.gates.insert(index, plan.gates[index]);
            Some(())
        }),
        on_plan(6, "gates swapped", |r, plan| {
            let index = r.below(plan.gates.len().checked_sub(1).filter(|&n| n > 0)?);
            plan.gates.swap(index, index + 1);
            Some(())
        }),
        on_plan(6, "gate behind the last", |r, plan| {
            let gate = *any(r, &mut plan.gates)?;
            plan.gates.push(gate);
            Some(())
        }),
        on_plan(6, "first fan-in its gate", |r, plan| {
            any(r, &mut plan.gates).map(|gate| gate.first = 2 * gate.pin)
        }),
        on_plan(6, "second fan-in its gate", |r, plan| {
            any(r, &mut plan.gates).map(|gate| gate.second = 2 * gate.pin + 1)
        }),
        on_plan(6, "fan-in above its gate", fan_in_above),
    ]
}

/// Refusal 7.
fn of_locations() -> Vec<Damage> {
    vec![
        on_plan(7, "location past the lanes", |r, plan| {
            let lanes = plan.edition.number();
            location(r, plan, &[lanes, lanes + 1, 2 * lanes - 1, 2 * lanes, 65536, u32::MAX])
        }),
        on_plan(0, "the last location", |r, plan| {
            let last = plan.edition.number() - 1;
            location(r, plan, &[last])
        }),
        on_plan(7, "a write-out word too many by locations", |r, plan| {
            one_too_many(r, plan, More::Locations)
        }),
        on_plan(7, "2000 locations", |r, plan| write_outs(r, plan, 2000, More::Locations)),
        on_plan(7, "a write-out word too many by SRAMs", |r, plan| one_too_many(r, plan, More::Srams)),
        on_plan(7, "a write-out word too many by duplicates", |r, plan| {
            one_too_many(r, plan, More::Duplicates)
        }),
        on_plan(0, "as many write-out words as lanes", |r, plan| {
            let lanes = plan.edition.lanes();
            write_outs(r, plan, lanes, More::Srams)
        }),
        on_plan(7, "location and sum", |r, plan| {
            let lanes = plan.edition.number();
            write_outs(r, plan, 300, More::Srams).and_then(|_| location(r, plan, &[lanes]))
        }),
    ]
}

/// Refusal 9.
fn of_slots() -> Vec<Damage> {
    vec![
        on_plan(9, "slot out of range in level 0", |r, plan| slot(r, plan, Level::Zero, &NO_SLOTS)),
        on_plan(9, "position's pin out of range", |r, plan| slot(r, plan, Level::Positions, &NO_SLOTS)),
        on_plan(9, "slot of no gate", |r, plan| {
            let pin = free_pin(plan)?;
            slot(r, plan, Level::Positions, &[pin])
        }),
        on_plan(9, "slot of another gate", |r, plan| {
            let pin = any(r, &mut plan.gates)?.pin;
            at_gate(r, plan, |_, _| pin, |q, _, _| q)
        }),
        on_plan(9, "slot of pin b", |r, plan| at_gate(r, plan, |_, b| b, |q, _, _| q)),
        on_plan(9, "a is b", |r, plan| at_gate(r, plan, |_, b| b, |_, a, _| a)),
        on_plan(9, "b is a", |r, plan| at_gate(r, plan, |a, _| a, |_, _, b| b)),
        on_plan(9, "a empty", |r, plan| at_gate(r, plan, |_, _| EMPTY, |_, a, _| a)),
        on_plan(9, "b empty", |r, plan| at_gate(r, plan, |_, _| EMPTY, |_, _, b| b)),
        on_plan(9, "fan-ins in the other order", fan_ins_swapped),
        on_plan(9, "gate taken away", gate_removed),
        on_plan(0, "fan-ins inverted", fan_ins_inverted),
    ]
}

/// Refusals 10 and 11.
fn of_later_slots() -> Vec<Damage> {
    vec![
        on_plan(10, "later pin nowhere", |r, plan| {
            let pin = free_pin(plan)?;
            let (stages, slot) = later_slot(r, plan)?;
            stages[1].slots[slot] = pin;
            Some(())
        }),
        on_plan(10, "later pin only in level 0 before", later_pin_from_level_0),
        on_plan(10, "later pin only two stages before", later_pin_two_before),
        on_plan(11, "computed pin read", |r, plan| computed_read(r, plan, 0)),
        on_plan(11, "pin read that a later stage computes", |r, plan| computed_read(r, plan, 1)),
        on_plan(11, "many computed pins read", |r, plan| (0..5).try_for_each(|_| computed_read(r, plan, 0))),
    ]
}

/// Refusal 12.
fn of_positions() -> Vec<Damage> {
    vec![
        on_plan(12, "pin with no position", |r, plan| {
            place_new(r, plan, 0, |_, _, _| Some(0)).map(|_| {
                plan.positions.remove(0);
            })
        }),
        on_plan(12, "position taken away", |r, plan| read_pin(r, plan).map(|(_, pin)| forget(plan, pin))),
        on_plan(12, "word just outside the state", |r, plan| place_read(r, plan, 0, just_outside)),
        on_plan(12, "word far outside the state", |r, plan| {
            place_read(r, plan, 0, |r, _, _| Some(r.word() | 1 << 31))
        }),
        on_plan(0, "last word of the state", |r, plan| {
            place_read(r, plan, 0, |_, state, _| Some(32 * state.words as u32 - 1))
        }),
        on_plan(12, "staged word of its own major stage", |r, plan| {
            place_new(r, plan, 1, |r, state, major| state.normal_bit(r, |of| of == major))
        }),
        on_plan(12, "staged word of a later major stage", |r, plan| {
            place_new(r, plan, 1, |r, state, major| state.normal_bit(r, |of| of > major))
        }),
        on_plan(12, "staged word of an SRAM", |r, plan| place_new(r, plan, 1, of_an_sram)),
        on_plan(12, "staged word of duplicates", |r, plan| place_new(r, plan, 1, of_duplicates)),
        on_plan(12, "staged word of the inputs", |r, plan| place_new(r, plan, 1, of_inputs)),
        on_plan(12, "staged word outside the state", |r, plan| place_new(r, plan, 1, just_outside)),
        on_plan(0, "staged word of an earlier major stage", |r, plan| {
            place_new(r, plan, 1, |r, state, major| state.normal_bit(r, |of| of < major))
        }),
        on_plan(12, "bad entry wins", |r, plan| {
            let pin = read_pin(r, plan)?.1;
            plan.positions.push(Position { pin, position: u32::MAX, staged: 0 });
            Some(())
        }),
        on_plan(0, "bad entry beaten", bad_beaten),
        on_plan(0, "staged entry of an unstaged pin", staged_entry),
    ]
}

/// Refusals 13 and 3.
fn of_tables_and_reads() -> Vec<Damage> {
    vec![
        on_plan(13, "SRAM table entry", |r, plan| {
            let none = no_entries(plan);
            let part = any_part(r, plan)?;
            put(r, &mut part.tables.sram, |entry| entry, &none)
        }),
        on_plan(13, "enable table entry", |r, plan| {
            let none = no_entries(plan);
            let part = any_part(r, plan)?;
            put(r, &mut part.tables.enable, |entry| entry, &none)
        }),
        on_plan(13, "last entries", |r, plan| {
            let slots = plan.edition.slots();
            let part = any_part(r, plan)?;
            part.tables.enable[slots - 1] = slots as u32;
            part.tables.sram[slots - 1] = r.pick(&[slots as u32 - 1, slots as u32]);
            Some(())
        }),
        on_plan(0, "the last entry", |r, plan| {
            let last = plan.edition.slots() as u32 - 1;
            let part = any_part(r, plan)?;
            put(r, &mut part.tables.sram, |entry| entry, &[last])?;
            put(r, &mut part.tables.enable, |entry| entry, &[last])
        }),
        on_plan(3, "part that reads nothing", |r, plan| {
            let none = Stage::empty_of(plan.edition).slots;
            let part = any_part(r, plan)?;
            part.stages.iter_mut().for_each(|stage| stage.slots = none.clone());
            Some(())
        }),
        on_plan(3, "part more that reads nothing", |r, plan| {
            let part = reads_nothing(r, plan, 1);
            plan.stages.last_mut()?.push(part);
            Some(())
        }),
        on_plan(3, "two parts more that read nothing", |r, plan| {
            let part = reads_nothing(r, plan, 2);
            plan.stages.push(vec![part.clone(), part]);
            Some(())
        }),
    ]
}

/// A part of so many stages without a pin.
fn reads_nothing(random: &mut Random, plan: &Plan, stages: usize) -> Part {
    let stages = vec![Stage::empty_of(plan.edition); stages];
    Part { endpoints: Vec::new(), stages, tables: tables(random, plan.edition) }
}

/// One write-out word more than there are lanes.
fn one_too_many(random: &mut Random, plan: &mut Plan, by: More) -> Option<()> {
    let lanes = plan.edition.lanes();
    write_outs(random, plan, lanes + 1, by)
}

/// A word anywhere in the record changed: the regions are equally likely.
pub fn any_word(random: &mut Random, plan: &Plan, words: &mut Vec<u32>) {
    let parts = plan.parts().count();
    let mut starts = vec![0, HEAD_WORDS, HEAD_WORDS + plan.stages.len()];
    starts.push(starts[2] + GATE_WORDS * plan.gates.len());
    starts.push(starts[3] + plan.layout.len());
    starts.push(plan.heads_at());
    starts.push(plan.heads_at() + PART_HEAD_WORDS * parts);
    if parts > 0 {
        let number = random.below(parts);
        let part = plan.parts().nth(number).expect("a part");
        let mut at = plan.body_at(number);
        for length in [
            ENDPOINT_WORDS * part.endpoints.len(),
            part.stages.len(),
            plan.edition.stage_slots() * part.stages.len(),
        ] {
            at += length;
            starts.push(at);
        }
        starts.push(plan.body_at(number) + part.body_words());
    }
    let region = random.below(starts.len() - 1);
    let (start, end) = (starts[region], starts[region + 1]);
    let at = if start < end { random.between(start, end - 1) } else { random.below(words.len()) };
    words[at] = match random.below(6) {
        0 => words[at].wrapping_add(1),
        1 => words[at].wrapping_sub(1),
        2 => words[at] ^ 1 << random.below(32),
        3 => random.pick(&[0, 1, EMPTY, 128, 256, 4095, 4096, 8191, 8192, 1 << 30]),
        4 => random.pick(words),
        _ => random.word(),
    };
}
