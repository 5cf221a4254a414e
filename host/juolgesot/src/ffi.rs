//! The C ABI, and the only unsafe code of this crate.
//!
//! A Rattle slice passes as a pointer and a length, a `&mut u64` as a pointer. The archive's
//! functions are proved for all arguments (no `requires`), keep to the slices that they are
//! lent and keep no pointer, so calling them on Rust's slices is safe.
//!
//! An edition is named by its lanes, 256 or 128 (`Edition::number`); any other number is refused by 29.

#[cfg(feature = "model")]
extern crate model_c as _;

extern "C" {
    fn juolgesot_read_rounds(
        set: *const u32,
        set_len: usize,
        room: *mut u32,
        room_len: usize,
        out: *mut u32,
        out_len: usize,
        edition: u32,
        first: *mut u64,
        second: *mut u64,
    ) -> u32;

    fn juolgesot_local_position(
        set: *const u32,
        set_len: usize,
        room: *mut u32,
        room_len: usize,
        word: u32,
        bit: u32,
        edition: u32,
        first: *mut u64,
        second: *mut u64,
    ) -> u32;

    fn juolgesot_list(
        records: *const u8,
        records_len: usize,
        room: *mut u32,
        room_len: usize,
        out: *mut u8,
        out_len: usize,
        edition: u32,
        first: *mut u64,
        second: *mut u64,
    ) -> u32;

    fn juolgesot_plan_sizes(
        plan: *const u8,
        plan_len: usize,
        room: *mut u32,
        room_len: usize,
        first: *mut u64,
        second: *mut u64,
        third: *mut u64,
        fourth: *mut u64,
    ) -> u32;

    fn juolgesot_build(
        plan: *const u8,
        plan_len: usize,
        room: *mut u32,
        room_len: usize,
        starts: *mut u64,
        starts_len: usize,
        words: *mut u32,
        words_len: usize,
        pieces: *mut u32,
        pieces_len: usize,
        first: *mut u64,
        second: *mut u64,
        third: *mut u64,
        fourth: *mut u64,
    ) -> u32;

    fn juolgesot_run(
        words: *const u32,
        words_len: usize,
        starts: *const u64,
        starts_len: usize,
        turns: *const u32,
        turns_len: usize,
        old: *const u32,
        old_len: usize,
        new: *mut u32,
        new_len: usize,
        room: *mut u32,
        room_len: usize,
        edition: u32,
        first: *mut u64,
        second: *mut u64,
    ) -> u32;

    fn juolgesot_value(
        plan: *const u8,
        plan_len: usize,
        room: *mut u32,
        room_len: usize,
        old: *const u32,
        old_len: usize,
        new: *const u32,
        new_len: usize,
        bits: *mut u32,
        bits_len: usize,
        part: u32,
        pin: u32,
        first: *mut u64,
        second: *mut u64,
    ) -> u32;

    fn juolgesot_read_aiger(
        bytes: *const u8,
        bytes_len: usize,
        out: *mut u32,
        out_len: usize,
        first: *mut u64,
        second: *mut u64,
        third: *mut u64,
        fourth: *mut u64,
    ) -> u32;

    fn juolgesot_write_aiger(
        gates: *const u32,
        gates_len: usize,
        out: *mut u8,
        out_len: usize,
        first: *mut u64,
        second: *mut u64,
    ) -> u32;

    fn juolgesot_place_bit(
        gates: *const u32,
        gates_len: usize,
        levels: *const u32,
        levels_len: usize,
        counts: *const u32,
        counts_len: usize,
        slots: *mut u32,
        slots_len: usize,
        after: *mut u32,
        after_len: usize,
        room: *mut u32,
        room_len: usize,
        level: u32,
        slot: u32,
        node: u32,
        edition: u32,
        first: *mut u64,
        second: *mut u64,
    ) -> u32;

    fn juolgesot_purge_bit(
        counts: *const u32,
        counts_len: usize,
        slots: *mut u32,
        slots_len: usize,
        after: *mut u32,
        after_len: usize,
        room: *mut u32,
        room_len: usize,
        level: u32,
        slot: u32,
        edition: u32,
        first: *mut u64,
        second: *mut u64,
    ) -> u32;

    fn juolgesot_join(
        a: *const u32,
        a_len: usize,
        b: *const u32,
        b_len: usize,
        out: *mut u32,
        out_len: usize,
        first: *mut u64,
        second: *mut u64,
    ) -> u32;
}

/// What a call gives back: 0 and two results, or a refusal's number and its place (part, item).
#[derive(Debug, Clone, Copy, PartialEq, Eq)]
#[must_use]
pub struct Answer {
    /// 0, or the refusal's number.
    pub code: u32,
    /// The first result, or the refusal's part.
    pub first: u64,
    /// The second result, or the refusal's item.
    pub second: u64,
}

impl Answer {
    fn of(call: impl FnOnce(&mut u64, &mut u64) -> u32) -> Self {
        let (mut first, mut second) = (0, 0);
        let code = call(&mut first, &mut second);
        Answer { code, first, second }
    }
}

/// What a call on a plan gives back: 0 with the number of starts and of words, the state's words and SRAM's words; or
/// a refusal's number, its place in the first two and 0 in the others. Of an AIGER file the four are other numbers.
#[derive(Debug, Clone, Copy, PartialEq, Eq)]
#[must_use]
pub struct PlanAnswer {
    /// 0, or the refusal's number.
    pub code: u32,
    /// The results, or the refusal's part, its item, 0 and 0.
    pub values: [u64; 4],
}

impl PlanAnswer {
    fn of(call: impl FnOnce([&mut u64; 4]) -> u32) -> Self {
        let mut values = [0; 4];
        let [first, second, third, fourth] = &mut values;
        let code = call([first, second, third, fourth]);
        PlanAnswer { code, values }
    }
}

/// Calls a function of the archive: each slice passes as its pointer and its length.
macro_rules! call {
    ($function:ident, [$($slice:ident.$pointer:ident),*], $($other:expr),*) => {
        unsafe { $function($($slice.$pointer(), $slice.len(),)* $($other),*) }
    };
}

/// Code 0: `first` is the number of rounds, `second` the piece size that won.
pub fn read_rounds(set: &[u32], room: &mut [u32], out: &mut [u32], edition: u32) -> Answer {
    Answer::of(|first, second| {
        call!(juolgesot_read_rounds, [set.as_ptr, room.as_mut_ptr, out.as_mut_ptr], edition, first, second)
    })
}

/// Code 0: `first` is the local position, or 0xFFFFFFFF where the set does not ask for the bit; `second` is 0.
pub fn local_position(set: &[u32], room: &mut [u32], word: u32, bit: u32, edition: u32) -> Answer {
    Answer::of(|first, second| {
        call!(juolgesot_local_position, [set.as_ptr, room.as_mut_ptr], word, bit, edition, first, second)
    })
}

/// Code 0: `first` is the number of bytes written to `out`, `second` 0.
pub fn list(records: &[u8], room: &mut [u32], out: &mut [u8], edition: u32) -> Answer {
    Answer::of(|first, second| {
        call!(juolgesot_list, [records.as_ptr, room.as_mut_ptr, out.as_mut_ptr], edition, first, second)
    })
}

/// Code 0: the sizes.
pub fn plan_sizes(plan: &[u8], room: &mut [u32]) -> PlanAnswer {
    PlanAnswer::of(|[first, second, third, fourth]| {
        call!(juolgesot_plan_sizes, [plan.as_ptr, room.as_mut_ptr], first, second, third, fourth)
    })
}

/// Code 0: the first starts and the first words of the lent slices are the script's; `pieces` begins with a piece size for each part.
pub fn build(
    plan: &[u8],
    room: &mut [u32],
    starts: &mut [u64],
    words: &mut [u32],
    pieces: &mut [u32],
) -> PlanAnswer {
    PlanAnswer::of(|[first, second, third, fourth]| {
        call!(
            juolgesot_build,
            [plan.as_ptr, room.as_mut_ptr, starts.as_mut_ptr, words.as_mut_ptr, pieces.as_mut_ptr],
            first,
            second,
            third,
            fourth
        )
    })
}

/// Code 0: `first` is the number of turns left, `second` 0.
pub fn run(
    words: &[u32],
    starts: &[u64],
    turns: &[u32],
    old: &[u32],
    new: &mut [u32],
    room: &mut [u32],
    edition: u32,
) -> Answer {
    Answer::of(|first, second| {
        call!(
            juolgesot_run,
            [words.as_ptr, starts.as_ptr, turns.as_ptr, old.as_ptr, new.as_mut_ptr, room.as_mut_ptr],
            edition,
            first,
            second
        )
    })
}

/// Code 0: `first` is the pin's bit, `second` 0, and `bits` begins with a bit for each gate.
pub fn value(
    plan: &[u8],
    room: &mut [u32],
    old: &[u32],
    new: &[u32],
    bits: &mut [u32],
    part: u32,
    pin: u32,
) -> Answer {
    Answer::of(|first, second| {
        call!(
            juolgesot_value,
            [plan.as_ptr, room.as_mut_ptr, old.as_ptr, new.as_ptr, bits.as_mut_ptr],
            part,
            pin,
            first,
            second
        )
    })
}

/// Code 0: the numbers of gates, inputs, latches and outputs; `out` begins with three words a gate.
pub fn read_aiger(bytes: &[u8], out: &mut [u32]) -> PlanAnswer {
    PlanAnswer::of(|[first, second, third, fourth]| {
        call!(juolgesot_read_aiger, [bytes.as_ptr, out.as_mut_ptr], first, second, third, fourth)
    })
}

/// Code 0: `first` is the number of bytes written to `out`, `second` 0.
pub fn write_aiger(gates: &[u32], out: &mut [u8]) -> Answer {
    Answer::of(|first, second| call!(juolgesot_write_aiger, [gates.as_ptr, out.as_mut_ptr], first, second))
}

/// Code 0: `first` is the number of entries (node, count) that `after` begins with, `second` 0.
pub fn place_bit(
    gates: &[u32],
    levels: &[u32],
    counts: &[u32],
    slots: &mut [u32],
    after: &mut [u32],
    room: &mut [u32],
    level: u32,
    slot: u32,
    node: u32,
    edition: u32,
) -> Answer {
    Answer::of(|first, second| {
        call!(
            juolgesot_place_bit,
            [gates.as_ptr, levels.as_ptr, counts.as_ptr, slots.as_mut_ptr, after.as_mut_ptr, room.as_mut_ptr],
            level,
            slot,
            node,
            edition,
            first,
            second
        )
    })
}

/// Code 0: as above.
pub fn purge_bit(
    counts: &[u32],
    slots: &mut [u32],
    after: &mut [u32],
    room: &mut [u32],
    level: u32,
    slot: u32,
    edition: u32,
) -> Answer {
    Answer::of(|first, second| {
        call!(
            juolgesot_purge_bit,
            [counts.as_ptr, slots.as_mut_ptr, after.as_mut_ptr, room.as_mut_ptr],
            level,
            slot,
            edition,
            first,
            second
        )
    })
}

/// Code 0: `first` is the number of pairs that `out` begins with, `second` 0. `a` and `b` may be the same slice.
pub fn join(a: &[u32], b: &[u32], out: &mut [u32]) -> Answer {
    Answer::of(|first, second| call!(juolgesot_join, [a.as_ptr, b.as_ptr, out.as_mut_ptr], first, second))
}
