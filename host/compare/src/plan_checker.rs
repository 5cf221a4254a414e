//! One comparison of a plan: `plan_sizes` and `build`, held to the model (and the model to GEM) in every answer and
//! every lent word.

use crate::explain::word_place;
use crate::lent::{Lent, LentRead, Room};
use crate::tally::Tally;
use juolgesot::ffi::{self, PlanAnswer};
use model::build::{accept, Accepted, Sizes};
use model::{record, Refused};
use plan::{Plan, Script};
use reference::Flattened;
use std::time::Instant;

/// What a call is lent, each as so many words more than are needed.
#[derive(Debug, Clone, Copy)]
pub struct More {
    pub room: i64,
    pub room_is_zero: bool,
    pub starts: i64,
    pub words: i64,
    pub pieces: i64,
}

impl Default for More {
    fn default() -> Self {
        More { room: 0, room_is_zero: true, starts: 3, words: 37, pieces: 2 }
    }
}

/// Room is lent up to this many words; a plan that asks for more meets refusal 32.
const MOST_ROOM: u64 = 70_000 + 16 * 8192;

/// What a plan is to give, whatever is lent.
pub struct Expected {
    pub answer: Result<Script, Refused>,
    room_words: u64,
}

impl Expected {
    pub fn of(record_bytes: &[u8]) -> Self {
        let words = record::words(record_bytes);
        let answer = accept(record_bytes.len(), &words).map(script);
        Expected { answer, room_words: record::room_words(&words) }
    }

    /// The refusal's number, or 0.
    pub fn number(&self) -> u32 {
        self.answer.as_ref().map_or_else(|refused| refused.number, |_| 0)
    }
}

/// The script that the model makes of a plan.
pub fn script(accepted: Accepted<'_>) -> Script {
    let Sizes { state_words, sram_words, .. } = accepted.sizes();
    let (starts, words, blocks) = (accepted.starts(), accepted.words(), accepted.plan.blocks);
    let edition = crate::host(accepted.plan.edition);
    Script { edition, blocks, starts, words, state_words, sram_words, pieces: accepted.pieces }
}

pub struct PlanChecker {
    pub kinds: Tally,
    pub answers: Tally,
    pub gem: Tally,
    pub parts: Tally,
}

/// Kinds of `PlanChecker::parts`.
pub const FELL_BACK: &str = "a smaller piece size won";
const AT_ONCE: &str = "placed as one piece";

impl PlanChecker {
    pub fn new() -> Self {
        PlanChecker {
            kinds: Tally::new("plans by kind"),
            answers: Tally::new("plans by answer"),
            gem: Tally::new("plans given to GEM's Rust too"),
            parts: Tally::new("parts that were built"),
        }
    }

    /// Compares the calls on one record and counts them, or stops the program at a difference. Gives the answer's
    /// number.
    pub fn check(&mut self, kind: &str, record: &[u8], more: More) -> u32 {
        let start = Instant::now();
        let number = self.check_expected(kind, record, &Expected::of(record), more);
        self.kinds.count_timed(kind, start.elapsed());
        number
    }

    /// The same where what is expected is known already. (Kinds are not counted.)
    pub fn check_expected(&mut self, kind: &str, record: &[u8], expected: &Expected, more: More) -> u32 {
        match difference(record, expected, more) {
            Ok(number) => self.count_answer(number),
            Err(what) => stop(kind, record, &format!("{:?}", more), &what),
        }
        if let Ok(script) = &expected.answer {
            let fell_back = script.fell_back().len();
            self.parts.count_many(FELL_BACK, fell_back as u64);
            self.parts.count_many(AT_ONCE, (script.pieces.len() - fell_back) as u64);
        }
        expected.number()
    }

    pub fn count_answer(&mut self, number: u32) {
        match number {
            0 => self.answers.count("built"),
            number => self.answers.count(&format!("refused {:2}", number)),
        }
    }

    /// Holds the model to GEM's Rust.
    pub fn check_gem(&mut self, kind: &str, plan: &Plan, expected: &Expected) {
        let found = match (reference::flatten(plan), &expected.answer) {
            (Flattened::NotAsked, _) => return,
            (Flattened::Script(script), Ok(expected)) => {
                let record = plan.record();
                let same =
                    same_script(&script, expected, &record).and_then(|()| same_pieces(&script, expected));
                same.map(|()| "the same script and piece sizes".to_string())
            }
            (Flattened::Panicked(_), Ok(_)) => Err("GEM panicked".to_string()),
            (Flattened::Panicked(word), Err(Refused { number: 4, item, .. }))
                if word.map(u64::from) != Some(*item) =>
            {
                Err(format!("GEM stopped at {:?}, the model at word {}", word, item))
            }
            (Flattened::Panicked(_), Err(refused)) => {
                Ok(format!("refused {:2}, and GEM panicked", refused.number))
            }
            (Flattened::Script(_), Err(refused)) if matches!(refused.number, 3 | 4 | 9 | 10 | 21 | 22) => {
                Err(format!("GEM went on where the model refuses by {}", refused.number))
            }
            (Flattened::Script(_), Err(refused)) => {
                Ok(format!("refused {:2}, and GEM went on", refused.number))
            }
        };
        match found {
            Ok(answer) => self.gem.count(&answer),
            Err(what) => stop(kind, &plan.record(), "", &format!("host/model and GEM: {}", what)),
        }
    }
}

/// The scripts word by word: how many differences there are, and the first with its place.
pub fn same_script(found: &Script, expected: &Script, record: &[u8]) -> Result<(), String> {
    let mut differences = Vec::new();
    let sizes = [
        ("lanes", found.edition.lanes() as u64, expected.edition.lanes() as u64),
        ("blocks", found.blocks as u64, expected.blocks as u64),
        ("starts", found.starts.len() as u64, expected.starts.len() as u64),
        ("words", found.words.len() as u64, expected.words.len() as u64),
        ("state words", found.state_words, expected.state_words),
        ("SRAM words", found.sram_words, expected.sram_words),
    ];
    for (name, one, other) in sizes.iter().filter(|(_, one, other)| one != other) {
        differences.push(format!("{} {}, expected {}", one, name, other));
    }
    let starts: Vec<usize> = differing(&found.starts, &expected.starts);
    differences.extend(
        starts
            .iter()
            .map(|&at| format!("start {} is {}, expected {}", at, found.starts[at], expected.starts[at])),
    );
    let words: Vec<usize> = differing(&found.words, &expected.words);
    if let (Some(&at), true) = (words.first(), differences.is_empty()) {
        differences.push(word_difference(record, at as isize, found.words[at], expected.words[at]));
    }
    let sizes = sizes.iter().filter(|(_, one, other)| one != other).count();
    match differences.first() {
        None => Ok(()),
        Some(first) => Err(format!(
            "sizes that differ: {}, starts: {}, words: {}; the first: {}",
            sizes,
            starts.len(),
            words.len(),
            first
        )),
    }
}

/// The piece sizes of the parts.
pub fn same_pieces(found: &Script, expected: &Script) -> Result<(), String> {
    if found.pieces == expected.pieces {
        return Ok(());
    }
    Err(format!("piece sizes {:?}, expected {:?}", found.pieces, expected.pieces))
}

/// Where two lists differ, as far as both go.
fn differing<T: PartialEq>(found: &[T], expected: &[T]) -> Vec<usize> {
    (0..found.len().min(expected.len())).filter(|&at| found[at] != expected[at]).collect()
}

fn word_difference(record: &[u8], at: isize, found: u32, expected: u32) -> String {
    let words = record::words(record);
    let place = match accept(record.len(), &words) {
        Ok(accepted) if at >= 0 => word_place(&accepted, at as u64),
        _ => "outside the script".to_string(),
    };
    format!("word {} is {:#010x}, expected {:#010x} ({})", at, found, expected, place)
}

/// Compares both calls; gives the number that `build` answers, or the first difference.
pub fn difference(record: &[u8], expected: &Expected, more: More) -> Result<u32, String> {
    let room_length = (expected.room_words as i64 + more.room).clamp(0, MOST_ROOM as i64) as usize;
    let refused = if (room_length as u64) < expected.room_words {
        Some(Refused::plain(32))
    } else {
        expected.answer.as_ref().err().copied()
    };
    let lent_record = LentRead::new(record);
    let mut room = Room::new(room_length, more.room_is_zero);
    let answer = ffi::plan_sizes(lent_record.slice(), room.slice());
    same_answer("plan_sizes", answer, wanted(expected, refused))?;
    room.check(answer.code).map_err(|what| format!("plan_sizes: {}", what))?;
    build_difference(record, expected, refused, Room::new(room_length, more.room_is_zero), more)
}

/// The same for `build`, where the plan or the room is refused already, or not.
fn build_difference(
    record: &[u8],
    expected: &Expected,
    refused: Option<Refused>,
    mut room: Room,
    more: More,
) -> Result<u32, String> {
    let made = expected.answer.as_ref().ok().filter(|_| refused.is_none());
    let needed =
        made.map_or([8, 300, 4], |script| [script.starts.len(), script.words.len(), script.pieces.len()]);
    let length = |needed: usize, more: i64| (needed as i64 + more).max(0) as usize;
    let [starts_length, words_length, pieces_length] =
        [length(needed[0], more.starts), length(needed[1], more.words), length(needed[2], more.pieces)];
    let is_short = starts_length < needed[0] || words_length < needed[1] || pieces_length < needed[2];
    let refused = if made.is_some() && is_short { Some(Refused::plain(14)) } else { refused };
    let start_before = |index: usize| 0x9000_0000_0000_0000 + index as u64;
    let word_before = |index: usize| 0xA000_0000 + index as u32;
    let mut starts = Lent::new(starts_length, start_before, 0xC0DE_D00D);
    let piece_before = |index: usize| 0xB000_0000 + index as u32;
    let mut words = Lent::new(words_length, word_before, 0xC0DE_D00D);
    let mut pieces = Lent::new(pieces_length, piece_before, 0xC0DE_D00D);
    let record_slice = LentRead::new(record);
    let answer =
        ffi::build(record_slice.slice(), room.slice(), starts.slice(), words.slice(), pieces.slice());
    same_answer("build", answer, wanted(expected, refused))?;
    room.check(answer.code)?;
    let written = made.filter(|_| refused.is_none());
    starts.check("start", written.map_or(&[], |script| &script.starts), start_before)?;
    pieces.check("piece size", written.map_or(&[], |script| &script.pieces), piece_before)?;
    match words.difference(written.map_or(&[], |script| &script.words), word_before) {
        Some((at, found, expected)) => Err(word_difference(record, at, found, expected)),
        None => Ok(refused.map_or(0, |refused| refused.number)),
    }
}

fn wanted(expected: &Expected, refused: Option<Refused>) -> PlanAnswer {
    match (&expected.answer, refused.or(expected.answer.as_ref().err().copied())) {
        (_, Some(refused)) => PlanAnswer { code: refused.number, values: [refused.part, refused.item, 0, 0] },
        (Ok(script), None) => {
            let (starts, words) = (script.starts.len() as u64, script.words.len() as u64);
            PlanAnswer { code: 0, values: [starts, words, script.state_words, script.sram_words] }
        }
        (Err(_), None) => unreachable!("the error is in the second"),
    }
}

fn same_answer(name: &str, found: PlanAnswer, wanted: PlanAnswer) -> Result<(), String> {
    if found == wanted {
        return Ok(());
    }
    Err(format!("{} answered {:?}, expected {:?}", name, found, wanted))
}

/// Says what differs, writes the record to a file, and ends the program.
pub fn stop(kind: &str, record: &[u8], lent: &str, what: &str) -> ! {
    println!("DIFFERENCE ({}): {}", kind, what);
    println!("lent: {}", lent);
    crate::stop_at_record(record)
}
