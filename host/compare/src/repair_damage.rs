//! Damage to stages, each for one clause of refusals 5, 6, 14, 24, 25, 26, 29, 32 and 34; and changes that are none (0). A
//! damage gives none where it cannot be done.

use crate::repair_checker::{More, Work};
use crate::repairs::{place_of, Case, NO_LEVEL};
use crate::UNKNOWN;
use model::record::EMPTY;
use model::repair::{clearing, Place, Reached};
use random::Random;

/// A case, and what is lent.
pub struct Damaged {
    pub case: Case,
    pub more: More,
}

type Change = fn(&mut Random, &mut Damaged) -> Option<()>;

const OVER_PIN: u32 = (1 << 30) + 1;
const NO_PINS: [u32; 3] = [OVER_PIN, 1 << 31, EMPTY - 1];

/// The refusal that is meant, a name, and the change.
pub type Damage = (u32, &'static str, Change);

/// Of cases whose work can be done.
pub fn damages(work: Work) -> Vec<Damage> {
    let of_work = match work {
        Work::Place => of_placing(),
        Work::Clear => of_clearing(),
    };
    of_both().into_iter().chain(of_work).collect()
}

fn of_both() -> Vec<Damage> {
    vec![
        (0, "as it is", |_, _| Some(())),
        (0, "a longer room, more words of slots", |random, damaged| {
            damaged.more.room = random.between(1, 99) as i64;
            Some(damaged.case.slots.extend([7, EMPTY, 1 << 31]))
        }),
        (0, "a result just long enough", |_, damaged| Some(damaged.more.after = 0)),
        (29, "unknown edition", |random, damaged| Some(damaged.case.told = random.pick(&UNKNOWN))),
        (29, "unknown edition, and all else wrong", |random, damaged| {
            damaged.more.after = -1;
            damaged.case.gates.push(1);
            damaged.case.slots.truncate(100);
            damaged.case.place.level = 14;
            Some(damaged.case.told = random.pick(&UNKNOWN))
        }),
        (5, "a level too high", |random, damaged| {
            let high = damaged.case.edition.levels() + 1;
            damaged.case.place.level =
                random.pick(&[high, high + 1, 31, 32, 33, 45, 64, 1 << 16, 1 << 31, u32::MAX]);
            Some(damaged.case.place.slot = random.pick(&[0, 0, 1, u32::MAX]))
        }),
        (5, "a slot past its level", |random, damaged| {
            let (levels, place) = (damaged.case.edition.levels(), &mut damaged.case.place);
            let past = 1 << (levels - place.level);
            Some(place.slot = random.pick(&[past, past + 1, past | place.slot, 1 << 31, u32::MAX]))
        }),
        (5, "half an entry of the counts", |random, damaged| {
            Some(damaged.case.counts.push(random.pick(&[0, 1, 5, EMPTY])))
        }),
        (5, "a counted node that is no pin", |random, damaged| {
            let entry = any_entry(random, &mut damaged.case)?;
            Some(entry[0] = random.pick(&[OVER_PIN, 1 << 31, EMPTY - 1, EMPTY]))
        }),
        (5, "a node listed twice", |random, damaged| {
            let counts = &mut damaged.case.counts;
            let entries = counts.len() / 2;
            let again = random.below(entries.max(1));
            let node = *counts.get(2 * again)?;
            let place = 2 * random.below(entries + 1);
            Some(drop(counts.splice(place..place, [node, random.pick(&[1, 2, u32::MAX])])))
        }),
        (5, "a count of 0", |random, damaged| Some(any_entry(random, &mut damaged.case)?[1] = 0)),
        (14, "a new count list that is too short", |random, damaged| {
            Some(damaged.more.after = random.pick(&[-1, -1, -2, -3, -100_000]))
        }),
        (14, "too few slots", |random, damaged| {
            let (all, slots) = (damaged.case.edition.stage_slots(), damaged.case.edition.slots());
            let length = random.pick(&[all - 1, all - 1, slots, slots - 1, slots * 5 / 8, 1, 0]);
            Some(damaged.case.slots.truncate(length))
        }),
        (32, "a room that is too short", |random, damaged| {
            Some(damaged.more.room = random.pick(&[-1, -1, -4, -65536, -1_000_000]))
        }),
        (32, "a room without that for half an entry", |random, damaged| {
            damaged.case.counts.push(random.pick(&[0, 9]));
            Some(damaged.more.room = -random.pick(&[1, 4]))
        }),
        (32, "a room too short, and all else too", |_, damaged| {
            damaged.more.room = -1;
            damaged.more.after = -1;
            damaged.case.gates.push(1);
            damaged.case.slots.truncate(100);
            damaged.case.told = 1;
            Some(damaged.case.place.level = 14)
        }),
    ]
}

fn of_placing() -> Vec<Damage> {
    vec![
        (0, "something beside the subtree", |random, damaged| {
            let case = &mut damaged.case;
            let word = random.below(case.edition.stage_slots());
            (!is_under(case, place_of(case.edition, word)))
                .then(|| case.slots[word] = random.pick(&[3, 1 << 30, EMPTY - 1]))
        }),
        (0, "something above the place", |_, damaged| {
            let (place, edition) = (damaged.case.place, damaged.case.edition);
            let above = Place {
                level: (place.level + 1).min(edition.levels()),
                slot: place.slot & (edition.level_slots(place.level) as u32 / 2).max(1) - 1,
            };
            (above.level > place.level).then(|| damaged.case.slots[above.word(edition)] = 5)
        }),
        (0, "gates and levels past what is reached", |random, damaged| {
            let most = damaged.case.gates.iter().step_by(3).copied().max().unwrap_or(1);
            damaged.case.gates.extend([
                most + 1,
                0,
                1,
                OVER_PIN + most,
                1 << 31,
                5,
                EMPTY,
                EMPTY - 2,
                EMPTY - 3,
            ]);
            Some(damaged.case.levels.extend((0..40).map(|_| random.word())))
        }),
        (5, "a node that is no pin", |random, damaged| {
            Some(damaged.case.node = random.pick(&[OVER_PIN, 1 << 31, EMPTY - 1, EMPTY]))
        }),
        (6, "a gate that is cut", |random, damaged| {
            damaged.case.gates.push(1 << 30);
            Some(if random.chance(2) {
                damaged.case.gates.push(0)
            })
        }),
        (6, "a gate of pin 0", |_, damaged| Some(drop(damaged.case.gates.splice(..0, [0, 0, 0])))),
        (6, "a gate twice", |random, damaged| {
            let gate = 3 * any_gate(random, &damaged.case)?;
            let again =
                [damaged.case.gates[gate], damaged.case.gates[gate + 1], damaged.case.gates[gate + 2]];
            Some(drop(damaged.case.gates.splice(gate..gate, again)))
        }),
        (6, "gates not ascending", |random, damaged| {
            let gates = &mut damaged.case.gates;
            let gate = 3 * random.below((gates.len() / 3).checked_sub(1).filter(|&last| last > 0)?);
            (0..3).try_for_each(|word| Some(gates.swap(gate + word, gate + 3 + word)))
        }),
        (6, "a fan-in not below its gate", |random, damaged| {
            let gate = 3 * any_gate(random, &damaged.case)?;
            let pin = damaged.case.gates[gate];
            let fan_in = random.pick(&[2 * pin, 2 * pin + 1, 2 * pin + 2, EMPTY]);
            Some(damaged.case.gates[gate + random.between(1, 2)] = fan_in)
        }),
        (24, "something at the place", |random, damaged| {
            let word = damaged.case.place.word(damaged.case.edition);
            Some(damaged.case.slots[word] = random.pick(&[0, 1, 1 << 30, OVER_PIN, EMPTY - 1]))
        }),
        (24, "something in the subtree", |random, damaged| {
            let case = &mut damaged.case;
            let under: Vec<usize> = (0..case.edition.stage_slots())
                .filter(|&word| is_under(case, place_of(case.edition, word)))
                .collect();
            let word = under[random.below(under.len())];
            Some(case.slots[word] = random.pick(&[0, 1, 1 << 30, OVER_PIN, EMPTY - 1]))
        }),
        (24, "something in the subtree at level 0", |random, damaged| {
            let case = &mut damaged.case;
            let step = case.edition.level_slots(case.place.level) as u32;
            let slot = case.place.slot + step * random.below(1 << case.place.level) as u32;
            let place = Place { level: 0, slot };
            Some(case.slots[place.word(case.edition)] = random.pick(&[0, 1, 1 << 30, OVER_PIN, EMPTY - 1]))
        }),
        (24, "something in a part of the stage", |random, damaged| {
            let case = &mut damaged.case;
            let word = case.place.word(case.edition);
            case.slots[word] = 3;
            // What is behind is not there, and reads as empty.
            Some(case.slots.truncate(random.between(word + 1, case.edition.stage_slots())))
        }),
        (25, "a node without a level", |_, damaged| {
            let node = damaged.case.node as usize;
            Some(damaged.case.levels.truncate(node))
        }),
        (25, "a node past all levels", |random, damaged| {
            Some(damaged.case.node = random.pick(&[1 << 30, damaged.case.levels.len() as u32, 1 << 29]))
        }),
        (25, "a level above the place", |random, damaged| {
            let (node, level) = (damaged.case.node as usize, damaged.case.place.level);
            Some(*damaged.case.levels.get_mut(node)? = random.pick(&[level + 1, 14, 1 << 31, NO_LEVEL]))
        }),
        (25, "a fan-in's level not below its gate's", |random, damaged| {
            let (place, node) =
                any_reached(random, &damaged.case, |place| place.level < damaged.case.place.level)?;
            let levels = damaged.case.edition.levels();
            let level = random.pick(&[place.level + 1, place.level + 1, levels, NO_LEVEL]);
            Some(*damaged.case.levels.get_mut(node as usize)? = level)
        }),
        (25, "a level at level 0", |random, damaged| {
            let case = &mut damaged.case;
            let (_, node) = any_reached(random, case, |place| place.level == 0)?;
            // Above it GEM would look, too.
            (times_reached(case, node) == 0).then(|| set_level(case, node, 1))?
        }),
        (25, "a bad level, and no gate elsewhere", |random, damaged| {
            let case = &mut damaged.case;
            let gate = any_split(random, case)?;
            drop_gate(case, gate);
            let (_, other) = any_reached(random, case, |_| true)?;
            set_level(case, other, NO_LEVEL)?;
            let reached = Reached::of(case.edition, case.netlist(), case.place, case.node);
            (!reached.bad_levels.is_empty() && !reached.no_gates.is_empty()).then(|| ())
        }),
        (26, "a node of its level without a gate", |random, damaged| {
            let gate = any_split(random, &damaged.case)?;
            Some(drop_gate(&mut damaged.case, gate))
        }),
        (26, "an input with a level", |random, damaged| {
            let case = &mut damaged.case;
            let (place, node) = any_reached(random, case, |place| place.level > 0)?;
            (case.levels.get(node as usize) == Some(&0)).then(|| set_level(case, node, place.level))?
        }),
        (14, "a count that would pass 2^32 - 1", |random, damaged| {
            let case = &mut damaged.case;
            let (_, node) = any_reached(random, case, |place| place.level > 0)?;
            let times = times_reached(case, node);
            set_count(case, node, u32::MAX - random.below(times) as u32);
            Some(damaged.more.after = 0)
        }),
        (0, "a count that comes to 2^32 - 1", |random, damaged| {
            let case = &mut damaged.case;
            let (_, node) = any_reached(random, case, |place| place.level > 0)?;
            let times = times_reached(case, node);
            Some(set_count(case, node, u32::MAX - times as u32))
        }),
    ]
}

fn of_clearing() -> Vec<Damage> {
    vec![
        (0, "an empty place", |random, damaged| {
            let case = &mut damaged.case;
            let empty: Vec<usize> =
                (0..case.edition.stage_slots()).filter(|&word| case.slots[word] == EMPTY).collect();
            Some(case.place = place_of(case.edition, *empty.get(random.below(empty.len().max(1)))?))
        }),
        (0, "a slot of level 0 that is no pin", |random, damaged| {
            let case = &mut damaged.case;
            let (place, _) = any_cleared(random, case, |place| place.level == 0)?;
            Some(case.slots[place.word(case.edition)] = random.pick(&NO_PINS))
        }),
        (0, "larger counts", |_, damaged| {
            damaged
                .case
                .counts
                .chunks_exact_mut(2)
                .try_for_each(|entry| Some(entry[1] = entry[1].checked_add(3)?))
        }),
        (0, "nodes that stand nowhere", |_, damaged| {
            Some(damaged.case.counts.extend([1 << 30, 1, (1 << 30) - 1, u32::MAX]))
        }),
        (34, "a count that is one too small", |random, damaged| {
            let case = &mut damaged.case;
            let (_, node) = any_cleared(random, case, |place| place.level > 0)?;
            let cleared = clearing(case.edition, &case.slots, case.place);
            let times = cleared.iter().filter(|(place, other)| place.level > 0 && *other == node).count();
            (times > 1).then(|| set_count(case, node, times as u32 - 1))
        }),
        (34, "a node that is not listed", |random, damaged| {
            let case = &mut damaged.case;
            let (_, node) = any_cleared(random, case, |place| place.level > 0)?;
            let entry = case.counts.chunks_exact(2).position(|entry| entry[0] == node)?;
            Some(drop(case.counts.drain(2 * entry..2 * entry + 2)))
        }),
        (34, "no counts", |random, damaged| {
            any_cleared(random, &damaged.case, |place| place.level > 0)?;
            Some(damaged.case.counts.clear())
        }),
        (34, "a slot of level 1 or up that is no pin", |random, damaged| {
            let case = &mut damaged.case;
            let (place, _) = any_cleared(random, case, |place| place.level > 0)?;
            Some(case.slots[place.word(case.edition)] = random.pick(&NO_PINS))
        }),
        (34, "a count too small, and too few slots", |random, damaged| {
            let case = &mut damaged.case;
            any_cleared(random, case, |place| place.level > 0)?;
            case.counts.clear();
            let (first, all) = (case.place.word(case.edition) + 1, case.edition.stage_slots());
            Some(case.slots.truncate(random.between(first, all - 1)))
        }),
    ]
}

/// The place is in the subtree of the case's: at a level not above, and its slot leaves the other's.
fn is_under(case: &Case, place: Place) -> bool {
    let top = case.place;
    place.level <= top.level && place.slot % case.edition.level_slots(top.level) as u32 == top.slot
}

fn any_entry<'a>(random: &mut Random, case: &'a mut Case) -> Option<&'a mut [u32]> {
    let entry = 2 * random.below((case.counts.len() / 2).max(1));
    case.counts.get_mut(entry..entry + 2)
}

fn any_gate(random: &mut Random, case: &Case) -> Option<usize> {
    let gates = case.gates.len() / 3;
    (gates > 0).then(|| random.below(gates))
}

/// A slot that placing reaches, and its node.
fn any_reached(random: &mut Random, case: &Case, wanted: impl Fn(Place) -> bool) -> Option<(Place, u32)> {
    let reached = Reached::of(case.edition, case.netlist(), case.place, case.node).slots;
    any_of(random, &reached, wanted)
}

/// A slot that clearing reaches, and its node.
fn any_cleared(random: &mut Random, case: &Case, wanted: impl Fn(Place) -> bool) -> Option<(Place, u32)> {
    any_of(random, &clearing(case.edition, &case.slots, case.place), wanted)
}

fn any_of(
    random: &mut Random,
    slots: &[(Place, u32)],
    wanted: impl Fn(Place) -> bool,
) -> Option<(Place, u32)> {
    let slots: Vec<(Place, u32)> = slots.iter().copied().filter(|(place, _)| wanted(*place)).collect();
    (!slots.is_empty()).then(|| random.pick(&slots))
}

/// How often placing reaches a node at levels 1 and up.
fn times_reached(case: &Case, node: u32) -> usize {
    let reached = Reached::of(case.edition, case.netlist(), case.place, case.node).slots;
    reached.iter().filter(|(place, other)| place.level > 0 && *other == node).count()
}

/// A node that placing reaches at its own level, 1 or up.
fn any_split(random: &mut Random, case: &Case) -> Option<u32> {
    let mut reached = Reached::of(case.edition, case.netlist(), case.place, case.node).slots;
    reached.retain(|(place, node)| case.levels.get(*node as usize) == Some(&place.level));
    any_of(random, &reached, |place| place.level > 0).map(|(_, node)| node)
}

fn set_level(case: &mut Case, pin: u32, level: u32) -> Option<()> {
    *case.levels.get_mut(pin as usize)? = level;
    Some(())
}

fn drop_gate(case: &mut Case, pin: u32) {
    if let Some(gate) = case.gates.chunks_exact(3).position(|gate| gate[0] == pin) {
        case.gates.drain(3 * gate..3 * gate + 3);
    }
}

fn set_count(case: &mut Case, node: u32, count: u32) {
    match case.counts.chunks_exact_mut(2).find(|entry| entry[0] == node) {
        Some(entry) => entry[1] = count,
        None => case.counts.extend([node, count]),
    }
}
