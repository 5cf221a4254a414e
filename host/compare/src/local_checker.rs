//! One comparison of local positions: what is told of a bit of a read set, held to the words that the library writes for its rounds.

use crate::lent::{LentRead, Room};
use crate::tally::Tally;
use juolgesot::ffi::{self, Answer};
use juolgesot::{MOST_ROUNDS, NO_POSITION, SET_ROOM};
use model::edition::Edition;
use model::rounds;
use std::collections::HashMap;

/// A bit of a word, as it stands in a read set.
pub type Bit = (u32, u32);

/// The place of each bit after the read turn, gathered as GEM's kernel does it: a round takes the bits of its mask, the lowest first, and each is put at the
/// low end of its lane, above which all that came before it moves up by one. (Document 01 says the same by counting.)
pub fn gathered(edition: Edition, section: &[u32]) -> HashMap<Bit, u64> {
    let mut places = HashMap::new();
    for lane in 0..edition.lanes() {
        let mut held: Vec<Bit> = Vec::new();
        for round in section.chunks(edition.round_words()) {
            let (word, mask) = (round[2 * lane], round[2 * lane + 1]);
            held.extend((0..32).filter(|k| mask >> k & 1 == 1).map(|k| (word, k)));
        }
        // The last one that was put is at bit 0.
        for (bit, &from) in held.iter().rev().enumerate() {
            let twice = places.insert(from, (32 * lane + bit) as u64);
            assert_eq!(twice, None, "bit {:x?} is gathered twice", from);
        }
    }
    places
}

pub struct LocalChecker {
    pub kinds: Tally,
    pub answers: Tally,
}

/// Kinds of `LocalChecker::answers` beside the refusals.
pub const ASKED: &str = "a position";
pub const UNASKED: &str = "not asked for";

impl LocalChecker {
    pub fn new() -> Self {
        LocalChecker { kinds: Tally::new("bits by kind"), answers: Tally::new("bits by answer") }
    }

    /// Asks for each of the bits, the calls being told this edition, or stops the program at a difference.
    pub fn check(
        &mut self,
        kind: &str,
        set: &[u32],
        edition: u32,
        room: usize,
        room_is_zero: bool,
        bits: &[Bit],
    ) {
        if let Err(what) = self.compare(kind, set, edition, room, room_is_zero, bits) {
            println!("DIFFERENCE ({}): {}", kind, what);
            println!("edition {}, room of {} words, zero: {}", edition, room, room_is_zero);
            println!("set ({} words): {:x?}", set.len(), &set[..set.len().min(400)]);
            std::process::exit(1);
        }
    }

    fn compare(
        &mut self,
        kind: &str,
        set: &[u32],
        edition: u32,
        room: usize,
        room_is_zero: bool,
        bits: &[Bit],
    ) -> Result<(), String> {
        let lent = LentRead::new(set);
        let (told, places) = packing(lent.slice(), edition, room)?;
        for &(word, bit) in bits {
            let wanted = match told.code {
                0 => {
                    let first = places.get(&(word, bit)).copied().unwrap_or(NO_POSITION);
                    Answer { code: 0, first, second: 0 }
                }
                _ => told,
            };
            let mut lent_room = Room::new(room, room_is_zero);
            let answer = ffi::local_position(lent.slice(), lent_room.slice(), word, bit, edition);
            if answer != wanted {
                return Err(format!("word {:x}, bit {}: {:?}, expected {:?}", word, bit, answer, wanted));
            }
            lent_room.check(answer.code)?;
            self.kinds.count(kind);
            match (answer.code, answer.first) {
                (0, NO_POSITION) => self.answers.count(UNASKED),
                (0, _) => self.answers.count(ASKED),
                (code, _) => self.answers.count(&format!("refused {}", code)),
            }
        }
        Ok(())
    }
}

/// What the library answers for the rounds of a set, with more room for the result than any has, and where its words bring each bit. So do the
/// reference's.
fn packing(set: &[u32], edition: u32, room: usize) -> Result<(Answer, HashMap<Bit, u64>), String> {
    let known = Edition::numbered(edition);
    let round_words = known.unwrap_or(Edition::FULL).round_words();
    let mut out = vec![0; round_words * MOST_ROUNDS];
    let told = ffi::read_rounds(set, &mut vec![0; room], &mut out, edition);
    if told.code != 0 {
        return Ok((told, HashMap::new()));
    }
    assert!(room >= SET_ROOM, "32 comes first");
    let edition = known.ok_or("an edition that there is none of")?;
    let places = gathered(edition, &out[..round_words * told.first as usize]);
    let pairs = rounds::pairs_of(set);
    let found =
        crate::search(edition, &pairs).map_err(|_| format!("{} does not place it", reference::NAME))?;
    if gathered(edition, &rounds::section(edition, &found.lanes)) != places {
        return Err(format!("{} gathers bits to other places", reference::NAME));
    }
    let asked: u32 = pairs.iter().map(|(_, mask)| mask.count_ones()).sum();
    if places.len() != asked as usize || places.values().any(|&place| place >= edition.slots() as u64) {
        return Err(format!("{} bits are asked for, {} have a place", asked, places.len()));
    }
    Ok((told, places))
}
