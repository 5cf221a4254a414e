//! The model behind the archive's C ABI: what the crate juolgesot links in the place of the archive with its feature
//! `model` (`host/check --model`), to try the host with no Rattle at hand.

#![deny(unsafe_op_in_unsafe_fn)]

use model::build::{accept, Accepted, Sizes};
use model::repair::{self, Netlist, Place, Repaired};
use model::{aiger, joins, listing, record, rounds, run, value, Refused};
use std::slice::{from_raw_parts, from_raw_parts_mut};

/// Writes the result, or a refusal's place, and gives the code.
fn tell(answer: Result<u64, Refused>, first: &mut u64, second: &mut u64) -> u32 {
    tell_two(answer.map(|result| (result, 0)), first, second)
}

/// The same for two results.
fn tell_two(answer: Result<(u64, u64), Refused>, first: &mut u64, second: &mut u64) -> u32 {
    let (code, results) = match answer {
        Ok(results) => (0, results),
        Err(refused) => (refused.number, (refused.part, refused.item)),
    };
    *first = results.0;
    *second = results.1;
    code
}

/// # Safety
/// Each pointer is to its length of words, none of them shared.
#[no_mangle]
pub unsafe extern "C" fn juolgesot_read_rounds(
    set: *const u32,
    set_len: usize,
    room: *mut u32,
    room_len: usize,
    out: *mut u32,
    out_len: usize,
    edition: u32,
    first: &mut u64,
    second: &mut u64,
) -> u32 {
    let (set, room, out) = unsafe {
        (from_raw_parts(set, set_len), from_raw_parts_mut(room, room_len), from_raw_parts_mut(out, out_len))
    };
    let answer = rounds::answer(set, room_len, out_len, edition, rounds::pack);
    if !matches!(answer, Err((32, _))) {
        room.fill(0);
    }
    let answer = answer.map_err(|(number, item)| Refused { number, part: 0, item }).map(|answer| {
        out[..answer.words.len()].copy_from_slice(&answer.words);
        (answer.rounds as u64, answer.size as u64)
    });
    tell_two(answer, first, second)
}

/// # Safety
/// Each pointer is to its length of words, none of them shared.
#[no_mangle]
pub unsafe extern "C" fn juolgesot_local_position(
    set: *const u32,
    set_len: usize,
    room: *mut u32,
    room_len: usize,
    word: u32,
    bit: u32,
    edition: u32,
    first: &mut u64,
    second: &mut u64,
) -> u32 {
    let (set, room) = unsafe { (from_raw_parts(set, set_len), from_raw_parts_mut(room, room_len)) };
    let answer = rounds::local_answer(set, room_len, word, bit, edition, rounds::pack);
    if !matches!(answer, Err((32, _))) {
        room.fill(0);
    }
    let answer = answer.map_err(|(number, item)| Refused { number, part: 0, item });
    tell(answer.map(|position| position.map_or(0xFFFF_FFFF, u64::from)), first, second)
}

/// # Safety
/// Each pointer is to its length of words or bytes, none of them shared.
#[no_mangle]
pub unsafe extern "C" fn juolgesot_list(
    records: *const u8,
    records_len: usize,
    room: *mut u32,
    room_len: usize,
    out: *mut u8,
    out_len: usize,
    edition: u32,
    first: &mut u64,
    second: &mut u64,
) -> u32 {
    let (records, room, out) = unsafe {
        (
            from_raw_parts(records, records_len),
            from_raw_parts_mut(room, room_len),
            from_raw_parts_mut(out, out_len),
        )
    };
    let answer = listing::answer(records, room_len, out_len, edition, rounds::pack);
    if !matches!(answer, Err(Refused { number: 32, .. })) {
        room.fill(0);
    }
    let answer = answer.map(|text| {
        out[..text.len()].copy_from_slice(text.as_bytes());
        text.len() as u64
    });
    tell(answer, first, second)
}

/// Writes sizes, or a refusal's place, and gives the code.
fn tell_sizes(answer: Result<Sizes, Refused>, results: [&mut u64; 4]) -> u32 {
    let numbers = |sizes: Sizes| [sizes.starts, sizes.words, sizes.state_words, sizes.sram_words];
    tell_four(answer.map(numbers), results)
}

/// Writes four results, or a refusal's place, and gives the code.
fn tell_four(answer: Result<[u64; 4], Refused>, results: [&mut u64; 4]) -> u32 {
    let (code, values) = match answer {
        Ok(values) => (0, values),
        Err(refused) => (refused.number, [refused.part, refused.item, 0, 0]),
    };
    for (result, value) in results.into_iter().zip(values) {
        *result = value;
    }
    code
}

/// Refusal 32, or what the plan is, the room then holding zeros.
fn accepted<'a>(plan: &[u8], words: &'a [u32], room: &mut [u32]) -> Result<Accepted<'a>, Refused> {
    if (room.len() as u64) < record::room_words(words) {
        return Err(Refused::plain(32));
    }
    room.fill(0);
    accept(plan.len(), words)
}

/// # Safety
/// Each pointer is to its length of words or bytes, none of them shared.
#[no_mangle]
pub unsafe extern "C" fn juolgesot_plan_sizes(
    plan: *const u8,
    plan_len: usize,
    room: *mut u32,
    room_len: usize,
    first: &mut u64,
    second: &mut u64,
    third: &mut u64,
    fourth: &mut u64,
) -> u32 {
    let (plan, room) = unsafe { (from_raw_parts(plan, plan_len), from_raw_parts_mut(room, room_len)) };
    let words = record::words(plan);
    let answer = accepted(plan, &words, room).map(|accepted| accepted.sizes());
    tell_sizes(answer, [first, second, third, fourth])
}

/// # Safety
/// Each pointer is to its length of words or bytes, none of them shared.
#[no_mangle]
pub unsafe extern "C" fn juolgesot_build(
    plan: *const u8,
    plan_len: usize,
    room: *mut u32,
    room_len: usize,
    starts: *mut u64,
    starts_len: usize,
    words: *mut u32,
    words_len: usize,
    pieces: *mut u32,
    pieces_len: usize,
    first: &mut u64,
    second: &mut u64,
    third: &mut u64,
    fourth: &mut u64,
) -> u32 {
    let (plan, room) = unsafe { (from_raw_parts(plan, plan_len), from_raw_parts_mut(room, room_len)) };
    let (out_starts, out_words, out_pieces) = unsafe {
        (
            from_raw_parts_mut(starts, starts_len),
            from_raw_parts_mut(words, words_len),
            from_raw_parts_mut(pieces, pieces_len),
        )
    };
    let words = record::words(plan);
    let answer = accepted(plan, &words, room).and_then(|accepted| {
        let (sizes, parts) = (accepted.sizes(), accepted.pieces.len());
        let starts_and_words = (out_starts.len() as u64, out_words.len() as u64);
        if starts_and_words.0 < sizes.starts || starts_and_words.1 < sizes.words || out_pieces.len() < parts {
            return Err(Refused::plain(14));
        }
        out_pieces[..parts].copy_from_slice(&accepted.pieces);
        out_starts[..sizes.starts as usize].copy_from_slice(&accepted.starts());
        out_words[..sizes.words as usize].copy_from_slice(&accepted.words());
        Ok(sizes)
    });
    tell_sizes(answer, [first, second, third, fourth])
}

/// # Safety
/// Each pointer is to its length of words, none of them shared.
#[no_mangle]
pub unsafe extern "C" fn juolgesot_run(
    words: *const u32,
    words_len: usize,
    starts: *const u64,
    starts_len: usize,
    turns: *const u32,
    turns_len: usize,
    old: *const u32,
    old_len: usize,
    new: *mut u32,
    new_len: usize,
    room: *mut u32,
    room_len: usize,
    edition: u32,
    first: &mut u64,
    second: &mut u64,
) -> u32 {
    let (words, starts, turns, old) = unsafe {
        (
            from_raw_parts(words, words_len),
            from_raw_parts(starts, starts_len),
            from_raw_parts(turns, turns_len),
            from_raw_parts(old, old_len),
        )
    };
    let (new, room) = unsafe { (from_raw_parts_mut(new, new_len), from_raw_parts_mut(room, room_len)) };
    let answer = run::answer(words, starts, turns, old, new, room.len(), edition);
    if !matches!(answer, Err(Refused { number: 32, .. })) {
        room.fill(0);
    }
    let answer = answer.map(|ran| {
        new.copy_from_slice(&ran.new);
        ran.turns_left
    });
    tell(answer, first, second)
}

/// # Safety
/// Each pointer is to its length of words or bytes, none of them shared.
#[no_mangle]
pub unsafe extern "C" fn juolgesot_value(
    plan: *const u8,
    plan_len: usize,
    room: *mut u32,
    room_len: usize,
    old: *const u32,
    old_len: usize,
    new: *const u32,
    new_len: usize,
    bits: *mut u32,
    bits_len: usize,
    part: u32,
    pin: u32,
    first: &mut u64,
    second: &mut u64,
) -> u32 {
    let (plan, room) = unsafe { (from_raw_parts(plan, plan_len), from_raw_parts_mut(room, room_len)) };
    let (old, new) = unsafe { (from_raw_parts(old, old_len), from_raw_parts(new, new_len)) };
    let bits = unsafe { from_raw_parts_mut(bits, bits_len) };
    let words = record::words(plan);
    let answer = if (room.len() as u64) < record::room_words(&words) {
        Err(Refused::plain(32))
    } else {
        room.fill(0);
        value::answer(plan.len(), &words, part, pin, old, new, bits.len())
    };
    let answer = answer.map(|value::Answer { bit, gate_words }| {
        bits[..gate_words.len()].copy_from_slice(&gate_words);
        bit as u64
    });
    tell(answer, first, second)
}

/// # Safety
/// Each pointer is to its length of words or bytes, none of them shared.
#[no_mangle]
pub unsafe extern "C" fn juolgesot_read_aiger(
    bytes: *const u8,
    bytes_len: usize,
    out: *mut u32,
    out_len: usize,
    first: &mut u64,
    second: &mut u64,
    third: &mut u64,
    fourth: &mut u64,
) -> u32 {
    let (bytes, out) = unsafe { (from_raw_parts(bytes, bytes_len), from_raw_parts_mut(out, out_len)) };
    let mut list = Vec::new();
    let answer = aiger::read(bytes, &mut list).and_then(|header| match out.get_mut(..list.len()) {
        Some(out) => {
            out.copy_from_slice(&list);
            Ok([header.gates, header.inputs, header.latches, header.outputs])
        }
        None => Err(Refused::plain(14)),
    });
    tell_four(answer, [first, second, third, fourth])
}

/// # Safety
/// Each pointer is to its length of words or bytes, none of them shared.
#[no_mangle]
pub unsafe extern "C" fn juolgesot_write_aiger(
    gates: *const u32,
    gates_len: usize,
    out: *mut u8,
    out_len: usize,
    first: &mut u64,
    second: &mut u64,
) -> u32 {
    let (gates, out) = unsafe { (from_raw_parts(gates, gates_len), from_raw_parts_mut(out, out_len)) };
    let mut bytes = Vec::new();
    let answer = aiger::write(gates, &mut bytes).and_then(|()| match out.get_mut(..bytes.len()) {
        Some(out) => {
            out.copy_from_slice(&bytes);
            Ok(bytes.len() as u64)
        }
        None => Err(Refused::plain(14)),
    });
    tell(answer, first, second)
}

/// # Safety
/// Each pointer is to its length of words. `a` and `b`, which are only read, may be shared.
#[no_mangle]
pub unsafe extern "C" fn juolgesot_join(
    a: *const u32,
    a_len: usize,
    b: *const u32,
    b_len: usize,
    out: *mut u32,
    out_len: usize,
    first: &mut u64,
    second: &mut u64,
) -> u32 {
    let (a, b) = unsafe { (from_raw_parts(a, a_len), from_raw_parts(b, b_len)) };
    let out = unsafe { from_raw_parts_mut(out, out_len) };
    let answer = joins::answer(a, b, out_len).map(|joined| {
        out[..joined.len()].copy_from_slice(&joined);
        joined.len() as u64 / 2
    });
    tell(answer, first, second)
}

/// Fills the lent results, clears the room, and gives the code; `*first` is the number of entries.
fn tell_repaired(
    answer: Result<Repaired, Refused>,
    slots: &mut [u32],
    after: &mut [u32],
    room: &mut [u32],
    first: &mut u64,
    second: &mut u64,
) -> u32 {
    if !matches!(answer, Err(Refused { number: 32, .. })) {
        room.fill(0);
    }
    let answer = answer.map(|repaired| {
        slots[..repaired.slots.len()].copy_from_slice(&repaired.slots);
        after[..repaired.counts.len()].copy_from_slice(&repaired.counts);
        repaired.counts.len() as u64 / 2
    });
    tell(answer, first, second)
}

/// # Safety
/// Each pointer is to its length of words, none of them shared.
#[no_mangle]
pub unsafe extern "C" fn juolgesot_place_bit(
    gates: *const u32,
    gates_len: usize,
    levels: *const u32,
    levels_len: usize,
    counts: *const u32,
    counts_len: usize,
    slots: *mut u32,
    slots_len: usize,
    after: *mut u32,
    after_len: usize,
    room: *mut u32,
    room_len: usize,
    level: u32,
    slot: u32,
    node: u32,
    edition: u32,
    first: &mut u64,
    second: &mut u64,
) -> u32 {
    let (gates, levels, counts) = unsafe {
        (
            from_raw_parts(gates, gates_len),
            from_raw_parts(levels, levels_len),
            from_raw_parts(counts, counts_len),
        )
    };
    let (slots, after, room) = unsafe {
        (
            from_raw_parts_mut(slots, slots_len),
            from_raw_parts_mut(after, after_len),
            from_raw_parts_mut(room, room_len),
        )
    };
    let netlist = Netlist { gates, levels };
    let place = Place { level, slot };
    let answer = repair::place(netlist, counts, slots, after_len, room_len, place, node, edition);
    tell_repaired(answer, slots, after, room, first, second)
}

/// # Safety
/// Each pointer is to its length of words, none of them shared.
#[no_mangle]
pub unsafe extern "C" fn juolgesot_purge_bit(
    counts: *const u32,
    counts_len: usize,
    slots: *mut u32,
    slots_len: usize,
    after: *mut u32,
    after_len: usize,
    room: *mut u32,
    room_len: usize,
    level: u32,
    slot: u32,
    edition: u32,
    first: &mut u64,
    second: &mut u64,
) -> u32 {
    let counts = unsafe { from_raw_parts(counts, counts_len) };
    let (slots, after, room) = unsafe {
        (
            from_raw_parts_mut(slots, slots_len),
            from_raw_parts_mut(after, after_len),
            from_raw_parts_mut(room, room_len),
        )
    };
    let answer = repair::clear(counts, slots, after_len, room_len, Place { level, slot }, edition);
    tell_repaired(answer, slots, after, room, first, second)
}
