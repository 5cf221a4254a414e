//! The numbered refusals of documents 01 and 02.

use crate::ffi::Answer;
use plan::Edition;
use std::fmt;

/// Why a call was refused, and where. Parts are counted on through the major stages. Where several things are wrong, documents 01
/// and 02 say which is told; of one kind it is the first.
#[derive(Debug, Clone, Copy, PartialEq, Eq, Hash)]
#[non_exhaustive]
pub enum Refusal {
    /// 1: a read set, or the join of two, has more than 8192 pairs.
    TooManyPairs,
    /// 2: a pair of the read set is out of form.
    BadPair {
        /// Which pair, from 0.
        pair: u64,
    },
    /// 3: there is nothing to read.
    NothingToRead {
        /// The part of the plan; 0 for a read set.
        part: u64,
    },
    /// 4: every piece size ended without room in the lanes. There may be a packing.
    NoLane {
        /// The part of the plan; 0 for a read set.
        part: u64,
        /// The word that the try of size 1 stopped at, as a read set has it (bit 31: staged).
        word: u64,
    },
    /// 5: a number of a plan, a gate list, a count list or a place is outside its range, or a list is not as long as its count.
    OutOfRange,
    /// 6: a gate of the gate list is out of order.
    BadGate {
        /// Which gate, from 0.
        gate: u64,
    },
    /// 7: a write-out location is above 255, or there are more than 256 write-out words; 127 and 128 in the small edition.
    BadLocation {
        /// The part.
        part: u64,
        /// Which location of the part, from 0; the number of its locations where only their sum is too large.
        location: u64,
    },
    /// 8: the state would have more than 2^27 words, or SRAM more than 2^32 - 1.
    TooLarge,
    /// 9: a slot's pin is not what the slots below it make, or is out of range.
    BadSlot {
        /// The edition of the plan.
        edition: Edition,
        /// The part.
        part: u64,
        /// The boomerang stage.
        stage: u64,
        /// The position, or the slot where it is of level 0.
        position: u64,
    },
    /// 10: a pin of a later stage stands nowhere in the stage before.
    AbsentPin {
        /// The edition of the plan.
        edition: Edition,
        /// The part.
        part: u64,
        /// The boomerang stage.
        stage: u64,
        /// The slot of level 0.
        slot: u64,
    },
    /// 11: a part computes a pin by its gate that it also reads.
    ReadAndComputed {
        /// The edition of the plan.
        edition: Edition,
        /// The part.
        part: u64,
        /// The boomerang stage.
        stage: u64,
        /// The position.
        position: u64,
    },
    /// 12: a pin that is read has no position in the state, or a wrong one.
    BadPosition {
        /// The edition of the plan.
        edition: Edition,
        /// The part.
        part: u64,
        /// The boomerang stage.
        stage: u64,
        /// The slot of level 0.
        slot: u64,
    },
    /// 13: an entry of a slot table is above 8191; 4095 in the small edition.
    BadEntry {
        /// The edition of the plan.
        edition: Edition,
        /// The part.
        part: u64,
        /// The entry of the SRAM table; from 8192 on, or 4096, of the enable table.
        entry: u64,
    },
    /// 14: the lent result room is shorter than needed.
    ShortResult,
    /// 15: script words are not well formed for the run.
    BadWords {
        /// The block.
        block: u64,
    },
    /// 16: a turn names no block.
    NoBlock {
        /// Which turn, from 0.
        turn: u64,
    },
    /// 17: a bad record. The listing says it in its text; no function answers it.
    BadRecord {
        /// Where the record begins.
        byte: u64,
    },
    /// 18: something is wrong before the gates of an AIGER file.
    AigerHead,
    /// 19: a difference of an AIGER file is wrong.
    AigerDifference,
    /// 20: an AIGER file ends within its gates.
    AigerEnd,
    /// 21: more than 8192 bits are to be read, or 4096 in the small edition: there is no packing.
    TooManyBits {
        /// The part of the plan; 0 for a read set.
        part: u64,
    },
    /// 22: more than 256 words of 17 bits or more are to be read, or 128 in the small edition: there is no packing.
    TooManyWideWords {
        /// The part of the plan; 0 for a read set.
        part: u64,
    },
    /// 24: a slot where a node would be placed is not empty.
    Occupied,
    /// 25: a node that would be placed has no level that fits.
    BadLevel,
    /// 26: a node that would be placed is no gate.
    NoGate,
    /// 29: there is no such edition.
    UnknownEdition,
    /// 32: the working room is too short.
    ShortRoom,
    /// 33: a gate list cannot be written as AIGER.
    NotForAiger,
    /// 34: a node's count is less than its slots that would be cleared.
    LowCount,
    /// A number that this crate does not know: the archive is newer.
    Unknown {
        /// The number.
        number: u32,
        /// The place's part.
        part: u64,
        /// The place's item.
        item: u64,
    },
}

impl Refusal {
    /// The refusal of a number and a place, as the C functions give them for this edition.
    #[must_use]
    pub fn of(number: u32, part: u64, item: u64, edition: Edition) -> Self {
        let slots = edition.slots() as u64;
        let (stage, within) = (item / slots, item % slots);
        match number {
            1 => Refusal::TooManyPairs,
            2 => Refusal::BadPair { pair: item },
            3 => Refusal::NothingToRead { part },
            4 => Refusal::NoLane { part, word: item },
            5 => Refusal::OutOfRange,
            6 => Refusal::BadGate { gate: item },
            7 => Refusal::BadLocation { part, location: item },
            8 => Refusal::TooLarge,
            9 => Refusal::BadSlot { edition, part, stage, position: within },
            10 => Refusal::AbsentPin { edition, part, stage, slot: within },
            11 => Refusal::ReadAndComputed { edition, part, stage, position: within },
            12 => Refusal::BadPosition { edition, part, stage, slot: within },
            13 => Refusal::BadEntry { edition, part, entry: item },
            14 => Refusal::ShortResult,
            15 => Refusal::BadWords { block: item },
            16 => Refusal::NoBlock { turn: item },
            17 => Refusal::BadRecord { byte: item },
            18 => Refusal::AigerHead,
            19 => Refusal::AigerDifference,
            20 => Refusal::AigerEnd,
            21 => Refusal::TooManyBits { part },
            22 => Refusal::TooManyWideWords { part },
            24 => Refusal::Occupied,
            25 => Refusal::BadLevel,
            26 => Refusal::NoGate,
            29 => Refusal::UnknownEdition,
            32 => Refusal::ShortRoom,
            33 => Refusal::NotForAiger,
            34 => Refusal::LowCount,
            number => Refusal::Unknown { number, part, item },
        }
    }

    /// Its number in documents 01 and 02.
    #[must_use]
    pub fn number(&self) -> u32 {
        match *self {
            Refusal::TooManyPairs => 1,
            Refusal::BadPair { .. } => 2,
            Refusal::NothingToRead { .. } => 3,
            Refusal::NoLane { .. } => 4,
            Refusal::OutOfRange => 5,
            Refusal::BadGate { .. } => 6,
            Refusal::BadLocation { .. } => 7,
            Refusal::TooLarge => 8,
            Refusal::BadSlot { .. } => 9,
            Refusal::AbsentPin { .. } => 10,
            Refusal::ReadAndComputed { .. } => 11,
            Refusal::BadPosition { .. } => 12,
            Refusal::BadEntry { .. } => 13,
            Refusal::ShortResult => 14,
            Refusal::BadWords { .. } => 15,
            Refusal::NoBlock { .. } => 16,
            Refusal::BadRecord { .. } => 17,
            Refusal::AigerHead => 18,
            Refusal::AigerDifference => 19,
            Refusal::AigerEnd => 20,
            Refusal::TooManyBits { .. } => 21,
            Refusal::TooManyWideWords { .. } => 22,
            Refusal::Occupied => 24,
            Refusal::BadLevel => 25,
            Refusal::NoGate => 26,
            Refusal::UnknownEdition => 29,
            Refusal::ShortRoom => 32,
            Refusal::NotForAiger => 33,
            Refusal::LowCount => 34,
            Refusal::Unknown { number, .. } => number,
        }
    }

    /// Its place as documents 01 and 02 number it: part and item.
    #[must_use]
    pub fn numbers(&self) -> (u64, u64) {
        match *self {
            Refusal::BadPair { pair: item }
            | Refusal::BadGate { gate: item }
            | Refusal::BadWords { block: item }
            | Refusal::NoBlock { turn: item }
            | Refusal::BadRecord { byte: item } => (0, item),
            Refusal::NothingToRead { part }
            | Refusal::TooManyBits { part }
            | Refusal::TooManyWideWords { part } => (part, 0),
            Refusal::NoLane { part, word: item }
            | Refusal::BadLocation { part, location: item }
            | Refusal::BadEntry { part, entry: item, .. } => (part, item),
            Refusal::BadSlot { edition, part, stage, position: within }
            | Refusal::ReadAndComputed { edition, part, stage, position: within }
            | Refusal::AbsentPin { edition, part, stage, slot: within }
            | Refusal::BadPosition { edition, part, stage, slot: within } => {
                (part, edition.slots() as u64 * stage + within)
            }
            Refusal::Unknown { part, item, .. } => (part, item),
            _ => (0, 0),
        }
    }

    /// The first result, or the refusal of a call that no place of a plan belongs to.
    pub(crate) fn check(answer: Answer) -> Result<u64, Refusal> {
        match answer.code {
            0 => Ok(answer.first),
            number => Err(Refusal::of(number, answer.first, answer.second, Edition::Full)),
        }
    }

    /// What is wrong, whatever the place.
    #[must_use]
    pub fn meaning(&self) -> &'static str {
        match self {
            Refusal::TooManyPairs => "there are more than 8192 pairs",
            Refusal::BadPair { .. } => "its word is not above the one before, its word is 2^27 or more without the staged flag, or its mask is 0 or missing",
            Refusal::NothingToRead { .. } => "there is nothing to read",
            Refusal::NoLane { .. } => "every piece size ended without room in the lanes, that of single words here; there may be a packing",
            Refusal::TooManyBits { .. } => "more than 8192 bits are to be read (4096 in the small edition): there is no packing",
            Refusal::TooManyWideWords { .. } => "more than 256 words of 17 bits or more are to be read (128 in the small edition): there is no packing",
            Refusal::OutOfRange => "a number is outside its range, a kind is unknown, or a list is out of form or not as long as its count",
            Refusal::BadGate { .. } => "its pin is 0 or not above the gate before, or a fan-in pin is not below it",
            Refusal::BadLocation { .. } => "a write-out location is above 255, or the part has more than 256 write-out words (127 and 128 in the small edition)",
            Refusal::TooLarge => "the state would have more than 2^27 words, or SRAM more than 2^32 - 1",
            Refusal::BadSlot { .. } => "its pin is out of range, or is neither empty, carried from the slot below, nor the gate of the two slots below",
            Refusal::AbsentPin { .. } => "its pin stands nowhere in the stage before",
            Refusal::ReadAndComputed { .. } => "a pin is computed by its gate that the part also reads in stage 0",
            Refusal::BadPosition { .. } => "its pin has no position, one outside the state, or a staged one that no earlier major stage stores as a normal word",
            Refusal::BadEntry { .. } => "the entry is above 8191 (4095 in the small edition)",
            Refusal::ShortResult => "the lent result room is shorter than needed, or a count would pass 2^32 - 1",
            Refusal::BadWords { .. } => "its script words are not well formed for the run",
            Refusal::NoBlock { .. } => "it names no block",
            Refusal::BadRecord { .. } => "a bad record",
            Refusal::AigerHead => "something is wrong before the gates of the AIGER file: its header, a latch or output line, or an early end",
            Refusal::AigerDifference => "a difference of the AIGER file is out of range, not in its shortest form, or over five bytes",
            Refusal::AigerEnd => "the AIGER file ends within its gates",
            Refusal::Occupied => "a slot of the subtree is not empty",
            Refusal::BadLevel => "a node that would be placed has no level, one above its place, or one not below its gate's",
            Refusal::NoGate => "a node that would be placed at its level, 1 or up, is no gate",
            Refusal::UnknownEdition => "there is no such edition: they are 256, the full one, and 128, the small one",
            Refusal::ShortRoom => "the working room is too short",
            Refusal::NotForAiger => "the gate list cannot be written as AIGER: its pins have a gap, a second fan-in is larger than the first, or it is no gate list",
            Refusal::LowCount => "a node's count is less than its slots that would be cleared",
            Refusal::Unknown { .. } => "an unknown refusal",
        }
    }

    /// Where it is, in a person's terms; nothing for a refusal of the whole.
    #[must_use]
    pub fn place(&self) -> Option<String> {
        Some(match *self {
            Refusal::BadPair { pair } => format!("pair {}", pair),
            Refusal::NothingToRead { part }
            | Refusal::TooManyBits { part }
            | Refusal::TooManyWideWords { part }
                if part > 0 =>
            {
                format!("part {}", part)
            }
            Refusal::NoLane { part: 0, word } => read_word(word),
            Refusal::NoLane { part, word } => format!("part {}, {}", part, read_word(word)),
            Refusal::BadGate { gate } => format!("gate {} of the gate list", gate),
            Refusal::BadLocation { part, location } => format!("part {}, location {}", part, location),
            Refusal::BadSlot { edition, part, stage, position: at } => {
                format!("part {}, stage {}, {} or slot {} of level 0", part, stage, position(edition, at), at)
            }
            Refusal::ReadAndComputed { edition, part, stage, position: at } => {
                format!("part {}, stage {}, {}", part, stage, position(edition, at))
            }
            Refusal::AbsentPin { part, stage, slot, .. } | Refusal::BadPosition { part, stage, slot, .. } => {
                format!("part {}, stage {}, slot {} of level 0", part, stage, slot)
            }
            Refusal::BadEntry { edition, part, entry } => match entry.checked_sub(edition.slots() as u64) {
                None => format!("part {}, entry {} of the SRAM table", part, entry),
                Some(entry) => format!("part {}, entry {} of the enable table", part, entry),
            },
            Refusal::BadWords { block } => format!("block {}", block),
            Refusal::NoBlock { turn } => format!("turn {}", turn),
            Refusal::BadRecord { byte } => format!("byte {}", byte),
            _ => return None,
        })
    }

    /// The whole in one sentence.
    #[must_use]
    pub fn sentence(&self) -> String {
        match self.place() {
            Some(place) => format!("{}: {}", place, self.meaning()),
            None => self.meaning().to_string(),
        }
    }
}

/// A word of a read set: bit 31 is its staged flag.
fn read_word(word: u64) -> String {
    let staged = if word >> 31 & 1 == 1 { ", staged" } else { "" };
    format!("word {}{}", word & !(1 << 31), staged)
}

/// Position 2^(13-h) + j is slot j of level h, and 2^(12-h) + j in the small edition.
fn position(edition: Edition, position: u64) -> String {
    if position == 0 {
        return "position 0".to_string();
    }
    let level = position.leading_zeros() - (edition.slots() as u64).leading_zeros();
    let first = 1 << (63 - position.leading_zeros());
    format!("position {} (slot {} of level {})", position, position - first, level)
}

impl fmt::Display for Refusal {
    fn fmt(&self, f: &mut fmt::Formatter<'_>) -> fmt::Result {
        write!(f, "refused {}: {}", self.number(), self.sentence())
    }
}

impl std::error::Error for Refusal {}

#[cfg(test)]
mod tests {
    use super::*;

    const NUMBERS: [u32; 29] = [
        1, 2, 3, 4, 5, 6, 7, 8, 9, 10, 11, 12, 13, 14, 15, 16, 17, 18, 19, 20, 21, 22, 24, 25, 26, 29, 32,
        33, 34,
    ];

    fn full(number: u32, part: u64, item: u64) -> Refusal {
        Refusal::of(number, part, item, Edition::Full)
    }

    #[test]
    fn every_number_of_the_documents_is_known() {
        for number in NUMBERS {
            let refusal = full(number, 0, 0);
            assert_eq!(refusal.number(), number);
            assert!(!matches!(refusal, Refusal::Unknown { .. }), "{}", number);
        }
        assert!(matches!(full(35, 1, 2), Refusal::Unknown { number: 35, part: 1, item: 2 }));
    }

    /// A refusal with a place gives the numbers back that it was made of.
    #[test]
    fn places_are_kept() {
        for number in [4, 7, 9, 10, 11, 12, 13] {
            for edition in Edition::BOTH {
                assert_eq!(Refusal::of(number, 3, 8195, edition).numbers(), (3, 8195), "{}", number);
            }
        }
        for number in [2, 6, 15, 16, 17] {
            assert_eq!(full(number, 0, 8195).numbers(), (0, 8195), "{}", number);
        }
        for number in [3, 21, 22] {
            assert_eq!(full(number, 5, 0).numbers(), (5, 0), "{}", number);
        }
    }

    #[test]
    fn told_in_words() {
        assert_eq!(
            full(10, 2, 8192 + 7).to_string(),
            "refused 10: part 2, stage 1, slot 7 of level 0: its pin stands nowhere in the stage before"
        );
        assert_eq!(full(11, 0, 4097).place().unwrap(), "part 0, stage 0, position 4097 (slot 1 of level 1)");
        assert_eq!(full(4, 0, 254).place().unwrap(), "word 254");
        assert_eq!(full(4, 0, (1 << 31) + 17).place().unwrap(), "word 17, staged");
        assert_eq!(full(4, 3, (1 << 31) + 17).place().unwrap(), "part 3, word 17, staged");
        assert_eq!(full(22, 0, 0).place(), None);
        assert_eq!(
            full(22, 3, 0).to_string(),
            "refused 22: part 3: more than 256 words of 17 bits or more are to be read (128 in the small edition): there is no packing"
        );
    }

    /// Items of 9 to 12 count 4096 a stage in the small edition, and enables are from 4096 on.
    #[test]
    fn places_of_the_small_edition() {
        let place = |number, item| Refusal::of(number, 2, item, Edition::Small).place().unwrap();
        assert_eq!(place(10, 4096 + 7), "part 2, stage 1, slot 7 of level 0");
        assert_eq!(place(11, 2049), "part 2, stage 0, position 2049 (slot 1 of level 1)");
        assert_eq!(place(11, 4096 + 1), "part 2, stage 1, position 1 (slot 0 of level 12)");
        assert_eq!(place(13, 4095), "part 2, entry 4095 of the SRAM table");
        assert_eq!(place(13, 4096), "part 2, entry 0 of the enable table");
        assert_eq!(full(13, 2, 4096).place().unwrap(), "part 2, entry 4096 of the SRAM table");
    }
}
