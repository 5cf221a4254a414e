//! The working room of a plan, and the room for its results.

use crate::rounds::MOST_ROUNDS;
use plan::{Edition, EDITION_WORD, ENDPOINT_WORDS, GATE_WORDS, HEAD_WORDS, PART_HEAD_WORDS, POSITION_WORDS};

/// Words of working room for a plan, without those of its parts.
const PLAN_ROOM: u64 = 65536;
/// Words of working room for each part.
const PART_ROOM: u64 = 16;
/// Parts of a plan, at most: 64 major stages of 4096.
const MOST_PARTS: u64 = 64 * 4096;

/// A word of a record, 0 behind its end.
fn word(plan: &[u8], index: usize) -> u32 {
    match plan.get(4 * index..4 * index + 4) {
        Some(bytes) => u32::from_le_bytes([bytes[0], bytes[1], bytes[2], bytes[3]]),
        None => 0,
    }
}

/// Words of working room for a plan, as the counts of its record say.
#[must_use]
pub fn plan_room(plan: &[u8]) -> u64 {
    let stages = word(plan, 1).min(64) as usize;
    let parts: u64 = (0..stages).map(|stage| u64::from(word(plan, HEAD_WORDS + stage))).sum();
    PLAN_ROOM + PART_ROOM * parts
}

/// The gates of a plan, as the count of its record says, but not more than the record has place for: it is refused by 5
/// then.
pub(crate) fn gates(plan: &[u8]) -> usize {
    (word(plan, 2) as usize).min(plan.len() / (4 * GATE_WORDS))
}

/// Words that have a bit for each gate of a plan.
#[must_use]
pub fn gate_words(plan: &[u8]) -> usize {
    (gates(plan) + 31) / 32
}

/// The room that a plan asks for, but not more than a plan in range can: such a record is refused by 32.
pub(crate) fn room_for(plan: &[u8]) -> Vec<u32> {
    vec![0; plan_room(plan).min(PLAN_ROOM + PART_ROOM * MOST_PARTS) as usize]
}

/// Words of a part's body at least, by its stages and endpoints: as a record has them without locations.
fn body_words(edition: Edition, stages: u64, endpoints: u64) -> u64 {
    let [slots, lanes] = [edition.slots() as u64, edition.lanes() as u64];
    ENDPOINT_WORDS as u64 * endpoints + 2 * slots * stages + 2 * slots + 5 * lanes
}

/// The edition that a plan's record names.
pub(crate) fn edition(plan: &[u8]) -> Option<Edition> {
    Edition::numbered(word(plan, EDITION_WORD))
}

/// The blocks of a plan.
pub(crate) fn blocks(plan: &[u8]) -> usize {
    word(plan, 0) as usize
}

/// How long the results of a plan are.
#[derive(Default)]
pub(crate) struct Most {
    pub starts: usize,
    /// Words of the script, at most.
    pub words: usize,
    pub parts: usize,
}

/// The lengths of a plan's results. Nothing for a record that is refused by its counts alone.
pub(crate) fn most_results(plan: &[u8]) -> Most {
    let [blocks, stages, gates, layout, positions] =
        [0, 1, 2, 3, 4].map(|index| u64::from(word(plan, index)));
    let edition = match edition(plan) {
        Some(edition) => edition,
        None => return Most::default(),
    };
    if !(1..=1024).contains(&blocks) || !(1..=64).contains(&stages) {
        return Most::default();
    }
    let parts: Vec<u64> =
        (0..stages).map(|stage| u64::from(word(plan, HEAD_WORDS + stage as usize))).collect();
    let lists = GATE_WORDS as u64 * gates + layout + POSITION_WORDS as u64 * positions;
    let heads_at = HEAD_WORDS as u64 + stages + lists;
    let all_parts = parts.iter().sum::<u64>();
    let bodies_at = heads_at + PART_HEAD_WORDS as u64 * all_parts;
    let record_words = plan.len() as u64 / 4;
    if bodies_at > record_words {
        return Most::default();
    }
    let (mut read, mut made) = (bodies_at, edition.closing_words() as u64);
    for head in (heads_at..bodies_at).step_by(PART_HEAD_WORDS) {
        let [stages, endpoints] = [head, head + 1].map(|index| u64::from(word(plan, index as usize)));
        if stages > 255 || endpoints > 8192 {
            return Most::default();
        }
        read += body_words(edition, stages, endpoints);
        made += edition.part_words(stages, MOST_ROUNDS as u64);
    }
    let empty = edition.empty_block_words() as u64;
    made += parts.iter().map(|&parts| empty * blocks.saturating_sub(parts)).sum::<u64>();
    if read > record_words {
        return Most::default();
    }
    Most { starts: (blocks * stages + 1) as usize, words: made as usize, parts: all_parts as usize }
}
