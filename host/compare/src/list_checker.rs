//! One comparison of a listing, held to the lines made from the reference's lanes.

use crate::lent::{Lent, LentRead, Room};
use crate::tally::Tally;
use juolgesot::ffi::{self, Answer};
use juolgesot::LIST_TEXT;
use model::edition::Edition;
use model::{listing, rounds};

pub struct ListChecker {
    pub kinds: Tally,
    pub answers: Tally,
}

impl ListChecker {
    pub fn new() -> Self {
        ListChecker { kinds: Tally::new("listings by kind"), answers: Tally::new("listings by answer") }
    }

    /// Compares one call, which is told this edition, and counts it, or stops the program at a difference. The result has so many bytes
    /// more than the text.
    pub fn check(&mut self, kind: &str, records: &[u8], edition: u32, room_length: usize, spare: isize) {
        match difference(records, edition, room_length, spare) {
            Ok(answer) => self.answers.count(&answer),
            Err(what) => {
                println!("DIFFERENCE ({}): {}", kind, what);
                println!("edition {}, records: {:?}", edition, &records[..records.len().min(400)]);
                std::process::exit(1);
            }
        }
        self.kinds.count(kind);
    }
}

/// One call: answer, text, room, and what lies behind the text. Gives the answer's name, or the first difference.
fn difference(records: &[u8], edition: u32, room_length: usize, spare: isize) -> Result<String, String> {
    let known = Edition::numbered(edition);
    let pack = |edition, set: &[_]| rounds::outcome(edition, set, |pairs| crate::search(edition, pairs));
    let text = listing::text(records, |set| pack(known.unwrap_or(Edition::FULL), set));
    if text.len() > LIST_TEXT {
        return Err("the text is longer than LIST_TEXT".to_string());
    }
    let out_length = (text.len() as isize + spare).max(0) as usize;
    let answer = listing::answer(records, room_length, out_length, edition, pack);
    let (expected, written) = match answer {
        Err(refused) => (Answer { code: refused.number, first: refused.part, second: refused.item }, 0),
        Ok(text) => (Answer { code: 0, first: text.len() as u64, second: 0 }, text.len()),
    };

    let lent_records = LentRead::new(records);
    let mut room = Room::new(room_length, false);
    let mut out = Lent::new(out_length, |_| 0xEE, 0xAB);
    let answer = ffi::list(lent_records.slice(), room.slice(), out.slice(), edition);
    if answer != expected {
        return Err(format!("answered {:?}, expected {:?}", answer, expected));
    }
    out.check("byte of the text", &text.as_bytes()[..written], |_| 0xEE)?;
    room.check(answer.code)?;
    Ok(match answer.code {
        0 if text.starts_with("refused") => text.split(" at").next().unwrap_or("").trim().to_string(),
        0 => "listed".to_string(),
        code => format!("not written: {}", code),
    })
}
