//! One comparison of the values by the gates, held to the model in its answer, every gate's bit and every lent word.

use crate::lent::{Lent, LentRead, Room};
use crate::tally::Tally;
use juolgesot::ffi::{self, Answer};
use model::record;
use model::value;
use model::Refused;
use std::time::Instant;

/// Room is lent up to this many words; a plan that asks for more meets refusal 32.
const MOST_ROOM: i64 = 70_000 + 16 * 8192;

/// What is asked.
#[derive(Debug, Clone, Copy)]
pub struct Question<'a> {
    pub record: &'a [u8],
    pub part: u32,
    pub pin: u32,
    pub old: &'a [u32],
    pub new: &'a [u32],
    pub lent: ValueRoom,
}

/// How much room is lent.
#[derive(Debug, Clone, Copy)]
pub struct ValueRoom {
    /// Words of working room more than are needed.
    pub more_room: i64,
    pub room_is_zero: bool,
    /// Words for the gates' bits more than are needed.
    pub more_bits: i64,
}

impl ValueRoom {
    pub const EXACT: ValueRoom = ValueRoom { more_room: 0, room_is_zero: true, more_bits: 0 };
}

pub struct ValueChecker {
    pub kinds: Tally,
    pub answers: Tally,
    /// Gates whose bits were compared, and those of them that were 1.
    pub gates: u64,
    pub ones: u64,
}

impl ValueChecker {
    pub fn new() -> Self {
        ValueChecker {
            kinds: Tally::new("values by kind"),
            answers: Tally::new("values by answer"),
            gates: 0,
            ones: 0,
        }
    }

    /// Compares one call and counts it, or stops the program at a difference. Gives what it is to answer.
    pub fn check(&mut self, kind: &str, question: Question<'_>) -> Result<value::Answer, Refused> {
        let start = Instant::now();
        let words = record::words(question.record);
        let lengths = Lengths::of(question.lent, &words);
        let expected = expected(&question, &lengths, &words);
        if let Err(what) = difference(&question, &lengths, &expected) {
            println!("DIFFERENCE ({}): {}", kind, what);
            println!("part {}, pin {}, {:?}", question.part, question.pin, question.lent);
            println!("states of {} and {} words", question.old.len(), question.new.len());
            crate::stop_at_record(question.record);
        }
        self.kinds.count_timed(kind, start.elapsed());
        self.answers.count(&match &expected {
            Ok(answer) => format!("the bit {}", answer.bit as u32),
            Err(refused) => format!("refused {}", refused.number),
        });
        if let Ok(answer) = &expected {
            self.gates += gates(&words) as u64;
            self.ones += answer.gate_words.iter().map(|word| u64::from(word.count_ones())).sum::<u64>();
        }
        expected
    }

    /// Prints the gates, and ends the program where less of them than these were compared, or less were 1 or 0.
    pub fn print_gates(&self, least: u64) {
        println!("gates' bits compared: {}, of which {} are 1", self.gates, self.ones);
        assert!(self.ones.min(self.gates - self.ones) >= least, "too few gates' bits of a kind");
    }
}

/// The lengths that are lent.
struct Lengths {
    room_needed: u64,
    room: usize,
    bits: usize,
}

impl Lengths {
    fn of(lent: ValueRoom, words: &[u32]) -> Self {
        let room_needed = record::room_words(words);
        let bits_needed = (gates(words) + 31) / 32;
        Lengths {
            room_needed,
            room: (room_needed as i64 + lent.more_room).clamp(0, MOST_ROOM) as usize,
            bits: (bits_needed as i64 + lent.more_bits).max(0) as usize,
        }
    }
}

/// The gates of a record, as its count says, but no more than it has place for.
fn gates(words: &[u32]) -> usize {
    words.get(2).map_or(0, |&count| count as usize).min(words.len() / 3)
}

/// What the call is to answer.
fn expected(question: &Question<'_>, lengths: &Lengths, words: &[u32]) -> Result<value::Answer, Refused> {
    let Question { record, part, pin, old, new, .. } = *question;
    if (lengths.room as u64) < lengths.room_needed {
        return Err(Refused::plain(32));
    }
    value::answer(record.len(), words, part, pin, old, new, lengths.bits)
}

/// What a word for the gates' bits holds before the call.
fn bits_before(index: usize) -> u32 {
    0xB175_0000 ^ index as u32
}

fn difference(
    question: &Question<'_>,
    lengths: &Lengths,
    expected: &Result<value::Answer, Refused>,
) -> Result<(), String> {
    let Question { record, part, pin, old, new, lent } = *question;
    let (record, old, new) = (LentRead::new(record), LentRead::new(old), LentRead::new(new));
    let mut room = Room::new(lengths.room, lent.room_is_zero);
    let mut bits = Lent::new(lengths.bits, bits_before, 0xC0DE_D00D);
    let answer = ffi::value(record.slice(), room.slice(), old.slice(), new.slice(), bits.slice(), part, pin);
    let (wanted, gate_words) = match expected {
        Ok(value) => (Answer { code: 0, first: value.bit as u64, second: 0 }, &value.gate_words[..]),
        Err(refused) => (Answer { code: refused.number, first: refused.part, second: refused.item }, &[][..]),
    };
    if answer != wanted {
        return Err(format!("answered {:?}, expected {:?}", answer, wanted));
    }
    bits.check("word of the gates' bits", gate_words, bits_before)?;
    room.check(answer.code)
}
