//! One comparison: a call of our library, held to the reference in every answer and every lent word.

use crate::lent::{self, LentRead, Room};
use crate::tally::Tally;
use juolgesot::ffi::{self, Answer};
use model::edition::Edition;
use model::rounds::{self, Packing, Pair, SET_ROOM};
use std::time::Instant;

/// What working room and result room a call is lent.
#[derive(Debug, Clone, Copy)]
pub struct Lent {
    /// The number of the edition that the call is told.
    pub edition: u32,
    pub room: usize,
    /// What the room holds before the call: zeros, or words that are not.
    pub room_is_zero: bool,
    pub out: OutLength,
}

#[derive(Debug, Clone, Copy)]
pub enum OutLength {
    /// The words that the answer needs, and so many more.
    Spare(usize),
    /// So many words fewer than needed (at least 0 are lent).
    Short(usize),
    Exactly(usize),
}

impl Lent {
    pub fn of(edition: Edition) -> Self {
        Lent { edition: edition.number(), room: SET_ROOM, room_is_zero: true, out: OutLength::Spare(37) }
    }
}

pub struct Checker {
    pub kinds: Tally,
    pub answers: Tally,
    pub tries: Tally,
    pub rounds: Tally,
    /// Sets that refusal 4 met.
    pub ended: Tally,
}

/// Kinds of `Checker::ended`.
pub const FULL: &str = "as many bits as the lanes hold";
pub const STAGED_STOP: &str = "stopped at a staged word";
pub const UNSTAGED_STOP: &str = "stopped at an unstaged word";

impl Checker {
    pub fn new() -> Self {
        Checker {
            kinds: Tally::new("read sets by kind"),
            answers: Tally::new("read sets by answer"),
            tries: Tally::new("packings by the try that won"),
            rounds: Tally::new("packings by number of rounds"),
            ended: Tally::new("searches that ended"),
        }
    }

    /// Compares one call and counts it, or stops the program at a difference.
    pub fn check(&mut self, kind: &str, set: &[u32], lent: Lent) {
        let start = Instant::now();
        if let Err(what) = self.compare(set, lent) {
            report(kind, set, lent, &what);
            std::process::exit(1);
        }
        self.kinds.count_timed(kind, start.elapsed());
    }

    fn compare(&mut self, set: &[u32], lent: Lent) -> Result<(), String> {
        let mut trouble = Ok(());
        let expected = rounds::answer(set, lent.room, usize::MAX, lent.edition, |edition, pairs| {
            self.packing(edition, pairs).unwrap_or_else(|what| {
                trouble = Err(what);
                Err((0, 0))
            })
        });
        trouble?;
        let needed = expected.as_ref().map_or(Edition::FULL.round_words(), |answer| answer.words.len());
        let out_length = match lent.out {
            OutLength::Spare(more) => needed + more,
            OutLength::Short(fewer) => needed.saturating_sub(fewer),
            OutLength::Exactly(length) => length,
        };
        let expected = match expected {
            Ok(answer) if answer.words.len() > out_length => Err((14, 0)),
            other => other,
        };
        self.count_answer(&expected);

        let lent_set = LentRead::new(set);
        let mut room = Room::new(lent.room, lent.room_is_zero);
        let before = |index: usize| 0x9000_0000 + index as u32;
        let mut out = lent::Lent::new(out_length, before, 0xC0DE_D00D);
        let answer = ffi::read_rounds(lent_set.slice(), room.slice(), out.slice(), lent.edition);
        check_answer(answer, &expected)?;
        out.check("result word", expected.as_ref().map_or(&[], |answer| &answer.words), before)?;
        room.check(answer.code)
    }

    /// What the model and the reference's search say of a set. The reference is asked of every set: what is refused by 21 or 22 no
    /// search may place.
    fn packing(&mut self, edition: Edition, pairs: &[Pair]) -> Result<Result<Packing, (u32, u64)>, String> {
        let found = crate::search(edition, pairs);
        let modelled = rounds::search(edition, pairs);
        if modelled != found {
            let what = format!("host/model differs from {}", reference::NAME);
            return Err(format!("{}: {}, expected {}", what, told(&modelled), told(&found)));
        }
        let outcome = rounds::outcome(edition, pairs, |_| found.clone());
        match (&outcome, &found) {
            (Err((number, _)), Ok(_)) => return Err(format!("a set that {} refuses was placed", number)),
            (Ok(packing), _) => {
                self.tries.count(&format!("try {:2}", packing.tries()));
                self.rounds.count(&format!("{:2} rounds", rounds::rounds(&packing.lanes)));
            }
            (Err((4, word)), _) => self.count_ended(edition, pairs, *word),
            (Err(_), Err(_)) => {}
        }
        Ok(outcome)
    }

    /// By the bits of the set, and by the word that the search stopped at.
    fn count_ended(&mut self, edition: Edition, pairs: &[Pair], word: u64) {
        let bits: u32 = pairs.iter().map(|(_, mask)| mask.count_ones()).sum();
        self.ended.count(if bits as usize == edition.slots() { FULL } else { "fewer bits" });
        self.ended.count(if word >> 31 == 1 { STAGED_STOP } else { UNSTAGED_STOP });
    }

    fn count_answer(&mut self, expected: &Result<rounds::Answer, (u32, u64)>) {
        match expected {
            Ok(_) => self.answers.count("packed"),
            Err((number, _)) => self.answers.count(&format!("refused {}", number)),
        }
    }
}

fn told(found: &Result<Packing, Option<u32>>) -> String {
    match found {
        Ok(packing) => format!("size {} won, lane 0 {:x?}", packing.size, packing.lanes[0]),
        Err(word) => format!("ended at {:x?}", word),
    }
}

fn check_answer(answer: Answer, expected: &Result<rounds::Answer, (u32, u64)>) -> Result<(), String> {
    let wanted = match expected {
        Ok(rounds::Answer { rounds, size, .. }) => {
            Answer { code: 0, first: *rounds as u64, second: *size as u64 }
        }
        Err((number, item)) => Answer { code: *number, first: 0, second: *item },
    };
    if answer == wanted {
        return Ok(());
    }
    Err(format!("answered {:?}, expected {:?}", answer, wanted))
}

fn report(kind: &str, set: &[u32], lent: Lent, what: &str) {
    println!("DIFFERENCE ({}): {}", kind, what);
    println!("lent: {:?}", lent);
    println!("set of {} words (word, mask ..), in hex:", set.len());
    for line in set.chunks(16).take(64) {
        let words: Vec<String> = line.iter().map(|word| format!("{:x}", word)).collect();
        println!("  {}", words.join(" "));
    }
    if set.len() > 1024 {
        println!("  ..");
    }
}
