//! "The run", with 5/13's store turn, and refusals 15 and 16.

use crate::edition::Edition;
use crate::record::below;
use crate::Refused;

/// Words of a run's room for each block.
pub const BLOCK_ROOM: usize = 1024;

/// A part of the script, in form.
#[derive(Debug, Clone, Copy)]
struct Part<'a> {
    edition: Edition,
    words: &'a [u32],
    stages: usize,
    rounds: usize,
    normal: usize,
    state_start: usize,
}

/// Half `index` of some words, the low half of a word first.
fn half(words: &[u32], index: usize) -> usize {
    (words[index / 2] >> (16 * (index % 2)) & 0xFFFF) as usize
}

/// A permutation, and four words a lane.
#[derive(Clone, Copy)]
struct Section<'a> {
    edition: Edition,
    words: &'a [u32],
}

impl Section<'_> {
    /// Entry 32t+8k+2h+e of the permutation is in word 1024k+4t+h, low half for e=0.
    fn entry(&self, index: usize) -> usize {
        let (word, is_high) = self.edition.entry_place(index);
        half(self.words, 2 * word + is_high as usize)
    }

    /// Bit `place` of one of the four words a lane.
    fn lane_bit(&self, word: usize, place: usize) -> bool {
        bit(&self.words[self.edition.permutation_words() + 4 * (place / 32) + word..], place % 32)
    }
}

impl<'a> Part<'a> {
    /// The part that begins the words of a block, or why it is not in form.
    fn first_of(edition: Edition, block: &'a [u32], states: (usize, usize)) -> Result<Self, String> {
        if block.len() < edition.head_words() {
            return Err(format!("{} words are too few for a head", block.len()));
        }
        let word = |index: usize| block[index] as u64;
        if !(1..=255).contains(&word(0)) {
            return Err(format!("its stages are 1 to 255, not {}", word(0)));
        }
        let length = edition.part_words(word(6), word(0));
        if length > block.len() as u64 {
            return Err(format!(
                "by its stages and rounds it has {} words, and {} are left",
                length,
                block.len()
            ));
        }
        if word(1) != (length == block.len() as u64) as u64 {
            return Err(format!("its mark of the last part is {}", word(1)));
        }
        let normal = word(2).checked_sub(word(4) + word(7)).ok_or_else(|| {
            format!("of {} write-out words {} are SRAM's and {} duplicate", word(2), word(4), word(7))
        })?;
        let most = edition.lanes();
        if normal > most as u64 {
            return Err(format!("it has {} normal words, and {} are the most", normal, most));
        }
        let part = Part {
            edition,
            words: &block[..length as usize],
            stages: word(0) as usize,
            rounds: word(6) as usize,
            normal: normal as usize,
            state_start: word(3) as usize,
        };
        if let Some((stage, _)) = part.locations().find(|&(stage, _)| stage >= part.stages) {
            return Err(format!("it has a location in stage {}, and {} stages", stage, part.stages));
        }
        if let Some((_, location)) = part.locations().find(|&(_, location)| location >= most) {
            return Err(format!("it has location {}, and the last is {}", location, most - 1));
        }
        part.lanes_in_form(states)?;
        for section in 0..part.stages + 2 {
            let (words, slots) = (part.section(section).words, edition.slots());
            if let Some(index) = (0..slots).find(|&index| half(words, index) >= slots) {
                let name = part.section_name(section);
                let last = slots - 1;
                return Err(format!("{}: half {} of the permutation is above {}", name, index, last));
            }
        }
        let (first, end) = (word(3), word(3) + normal);
        if normal > 0 && end > states.0.min(states.1) as u64 {
            let last = end - 1;
            return Err(format!("it stores state words {} to {}: {}", first, last, of_states(states)));
        }
        Ok(part)
    }

    fn section_name(&self, section: usize) -> String {
        match section.checked_sub(self.stages) {
            None => format!("stage {}", section),
            Some(0) => "SRAM and duplicates".to_string(),
            Some(_) => "clock enables".to_string(),
        }
    }

    /// Lane bits are at most 32, and words read are inside both states.
    fn lanes_in_form(&self, states: (usize, usize)) -> Result<(), String> {
        for lane in 0..self.edition.lanes() {
            let mut bits = 0;
            for round in 0..self.rounds {
                let (word, mask) = self.read(round, lane);
                let word = (word & 0x7FFF_FFFF) as usize;
                if mask != 0 && word >= states.0.min(states.1) {
                    let states = of_states(states);
                    return Err(format!(
                        "lane {}, round {} reads state word {}: {}",
                        lane, round, word, states
                    ));
                }
                bits += mask.count_ones() as u64;
            }
            if bits > 32 {
                return Err(format!("lane {} reads {} bits, and 32 are the most", lane, bits));
            }
        }
        Ok(())
    }

    /// Word and mask of a lane in a round.
    fn read(&self, round: usize, lane: usize) -> (u32, u32) {
        let at = self.edition.head_words() + self.edition.round_words() * round + 2 * lane;
        (self.words[at], self.words[at + 1])
    }

    /// The sections of the stages, then that of SRAM and duplicates, then that of enables.
    fn section(&self, index: usize) -> Section<'a> {
        let edition = self.edition;
        let at = edition.head_words() + edition.round_words() * self.rounds + edition.section_words() * index;
        Section { edition, words: &self.words[at..][..edition.section_words()] }
    }

    /// Stage and location of each normal word.
    fn locations(&self) -> impl Iterator<Item = (usize, usize)> + '_ {
        (0..self.normal).map(move |index| {
            let location = half(&self.words[self.edition.head_numbers()..], index);
            (location >> 8, location & 255)
        })
    }

    fn turns(&self) -> u64 {
        self.stages as u64 + 2
    }
}

fn of_states(states: (usize, usize)) -> String {
    format!("the old state has {}, the new one {}", states.0, states.1)
}

/// The parts of a block, none for the empty block, or why its words are not in form.
fn parts(
    edition: Edition,
    words: &[u32],
    start: u64,
    end: u64,
    states: (usize, usize),
) -> Result<Vec<Part<'_>>, String> {
    if start >= end || end > words.len() as u64 {
        return Err(format!("it begins at word {} and ends at {} of {} words", start, end, words.len()));
    }
    let mut rest = &words[start as usize..end as usize];
    let is_empty = || rest.iter().enumerate().all(|(index, &word)| word == (index == 1) as u32);
    if rest.len() == edition.empty_block_words() && is_empty() {
        return Ok(Vec::new());
    }
    let mut parts = Vec::new();
    while !rest.is_empty() {
        let part = Part::first_of(edition, rest, states);
        let part = part.map_err(|what| format!("its part {}: {}", parts.len(), what))?;
        rest = &rest[part.words.len()..];
        parts.push(part);
    }
    Ok(parts)
}

/// The first block of a major stage that is refused by 15, and by what of it.
pub fn fault(
    edition: Edition,
    words: &[u32],
    starts: &[u64],
    states: (usize, usize),
) -> Option<(usize, String)> {
    let of_block = |(index, range): (usize, &[u64])| {
        parts(edition, words, range[0], range[1], states).err().map(|what| (index, what))
    };
    starts.windows(2).enumerate().find_map(of_block)
}

/// What a block is about to do.
enum Phase {
    Read,
    Stage(usize),
    Store,
}

/// A block between two turns.
struct Block<'a> {
    parts: Vec<Part<'a>>,
    part: usize,
    phase: Phase,
    /// Bits that the next stage gathers: the lanes' after the read turn, then the positions of the stage just done.
    bits: Vec<bool>,
    captured: Vec<u32>,
}

impl<'a> Block<'a> {
    fn new(parts: Vec<Part<'a>>) -> Self {
        Block { parts, part: 0, phase: Phase::Read, bits: Vec::new(), captured: Vec::new() }
    }

    /// One turn; says whether there was one to do.
    fn turn(&mut self, old: &[u32], new: &mut [u32]) -> bool {
        let part = match self.parts.get(self.part) {
            None => return false,
            Some(&part) => part,
        };
        self.phase = match self.phase {
            Phase::Read => {
                self.bits = read(part, old, new);
                self.captured = vec![0; part.normal];
                Phase::Stage(0)
            }
            Phase::Stage(stage) => {
                self.bits = evaluate(part.section(stage), &self.bits);
                for (index, (of_stage, location)) in part.locations().enumerate() {
                    if of_stage == stage {
                        let bits = &self.bits[32 * location..32 * location + 32];
                        let word = bits.iter().rev().fold(0, |word, &bit| word << 1 | bit as u32);
                        self.captured[index] = word;
                    }
                }
                if stage + 1 == part.stages {
                    Phase::Store
                } else {
                    Phase::Stage(stage + 1)
                }
            }
            Phase::Store => {
                store(part, &self.captured, old, new);
                self.part += 1;
                Phase::Read
            }
        };
        true
    }
}

/// The read turn: "local position of bit k of a pair: 32·lane, plus all mask bits of later rounds in that lane, plus
/// mask bits above k in the same pair". Unused bits are 0.
fn read(part: Part<'_>, old: &[u32], new: &[u32]) -> Vec<bool> {
    let mut bits = vec![false; part.edition.slots()];
    for lane in 0..part.edition.lanes() {
        let mut local = 32 * lane;
        for round in (0..part.rounds).rev() {
            let (word, mask) = part.read(round, lane);
            if mask == 0 {
                continue;
            }
            let state = if word >> 31 == 0 { old } else { new };
            let held = state[(word & 0x7FFF_FFFF) as usize];
            for k in (0..32).rev().filter(|k| mask >> k & 1 == 1) {
                bits[local] = held >> k & 1 == 1;
                local += 1;
            }
        }
    }
    bits
}

/// One stage: gathered by the permutation, then level by level. Gives the bits of all positions.
fn evaluate(section: Section<'_>, before: &[bool]) -> Vec<bool> {
    let slots = section.edition.slots();
    let mut bits = vec![false; 2 * slots];
    for index in 0..slots {
        bits[slots + index] = before[section.entry(index)];
    }
    for position in (1..slots).rev() {
        let (a, b) = below(position);
        let flag = |word: usize| section.lane_bit(word, position);
        let (xora, xorb, orb) = (flag(0), flag(1), flag(2));
        bits[position] = (bits[a] ^ xora) && ((bits[b] ^ xorb) || orb);
    }
    bits.truncate(slots);
    bits
}

/// Bit `place` of some words, from the first word's bit 0 on.
fn bit(words: &[u32], place: usize) -> bool {
    words[place / 32] >> (place % 32) & 1 == 1
}

/// "Gather 8192 bits from the captured words (0 beyond the normal ones) by the enable permutation, clear where set0 is
/// 1, then invert where inv is 1."
fn enables(part: Part<'_>, captured: &[u32]) -> Vec<bool> {
    let section = part.section(part.stages + 1);
    let mut enables = Vec::new();
    for place in 0..part.edition.slots() {
        let from = section.entry(place);
        let mut enable = from / 32 < part.normal && bit(captured, from);
        if section.lane_bit(1, place) {
            enable = false;
        }
        if section.lane_bit(0, place) {
            enable = !enable;
        }
        enables.push(enable);
    }
    enables
}

/// The store turn: "Where that gives 1, store the captured bit xor data inv; where 0, store the old state's bit at the
/// same place."
fn store(part: Part<'_>, captured: &[u32], old: &[u32], new: &mut [u32]) {
    let section = part.section(part.stages + 1);
    let enables = enables(part, captured);
    for place in 0..32 * part.normal {
        let at = 32 * part.state_start + place;
        let stored =
            if enables[place] { bit(captured, place) ^ section.lane_bit(2, place) } else { bit(old, at) };
        let word = &mut new[at / 32];
        *word = *word & !(1 << (at % 32)) | (stored as u32) << (at % 32);
    }
}

/// What a part captures, and its enable bits.
pub struct Caught {
    pub words: Vec<u32>,
    pub enables: Vec<bool>,
}

/// Of the first part of a block, if its words are in form: what its store turn finds.
pub fn caught(edition: Edition, block: &[u32], old: &[u32], new: &[u32]) -> Option<Caught> {
    let part = Part::first_of(edition, block, (old.len(), new.len())).ok()?;
    let mut alone = Block::new(vec![part]);
    for _ in 1..part.turns() {
        alone.turn(old, &mut new.to_vec());
    }
    Some(Caught { enables: enables(part, &alone.captured), words: alone.captured })
}

pub struct Ran {
    pub new: Vec<u32>,
    pub turns_left: u64,
}

/// What a run answers; `new` is the state as it was lent. Refusals: 32, 29, 15, 16.
pub fn answer(
    words: &[u32],
    starts: &[u64],
    turns: &[u32],
    old: &[u32],
    new: &[u32],
    room: usize,
    edition: u32,
) -> Result<Ran, Refused> {
    let count = starts.len().saturating_sub(1);
    if room < BLOCK_ROOM * count {
        return Err(Refused::plain(32));
    }
    let edition = Edition::numbered(edition).ok_or(Refused::plain(29))?;
    if count == 0 {
        return Err(Refused::at(15, 0, 0));
    }
    let states = (old.len(), new.len());
    let mut blocks = Vec::new();
    for (index, range) in starts.windows(2).enumerate() {
        let parts = parts(edition, words, range[0], range[1], states);
        let parts = parts.map_err(|_| Refused::at(15, 0, index))?;
        blocks.push(Block::new(parts));
    }
    if let Some(turn) = turns.iter().position(|&block| block as usize >= count) {
        return Err(Refused::at(16, 0, turn));
    }
    let mut left: u64 = blocks.iter().flat_map(|block| &block.parts).map(Part::turns).sum();
    let mut new = new.to_vec();
    for &block in turns {
        if blocks[block as usize].turn(old, &mut new) {
            left -= 1;
        }
    }
    Ok(Ran { new, turns_left: left })
}

#[cfg(test)]
mod tests {
    use super::*;

    /// A part of one stage and one round that reads nothing and stores nothing, all entries 0.
    fn part(edition: Edition) -> Vec<u32> {
        let mut words = vec![0; edition.part_words(1, 1) as usize];
        (words[0], words[1], words[6]) = (1, 1, 1);
        words
    }

    /// What the run of one block, with states of so many words, is refused by.
    fn refusal(edition: u32, words: &[u32], state: usize) -> Option<Refused> {
        let states = vec![0; state];
        answer(words, &[0, words.len() as u64], &[], &states, &states, BLOCK_ROOM, edition).err()
    }

    const GOOD: Option<Refused> = None;
    const BAD: Option<Refused> = Some(Refused { number: 15, part: 0, item: 0 });

    /// "Every entry below 4096": of the stage, of SRAM and duplicates, of enables.
    #[test]
    fn entries_at_their_limit() {
        for edition in [Edition::FULL, Edition::SMALL] {
            let last = edition.slots() as u32 - 1;
            let sections = edition.head_words() + edition.round_words();
            for section in 0..3 {
                for (word, shift) in [(0, 0), (0, 16), (edition.permutation_words() - 1, 16)] {
                    let mut words = part(edition);
                    let at = sections + edition.section_words() * section + word;
                    words[at] = last << shift;
                    assert_eq!(refusal(edition.number(), &words, 0), GOOD);
                    words[at] = (last + 1) << shift;
                    assert_eq!(refusal(edition.number(), &words, 0), BAD);
                }
                // Behind the permutation any words stand.
                let mut words = part(edition);
                let at = sections + edition.section_words() * section + edition.permutation_words();
                words[at..at + 4 * edition.lanes()].fill(u32::MAX);
                assert_eq!(refusal(edition.number(), &words, 0), GOOD);
            }
        }
    }

    /// "128 locations and write-out words at most (a script's location with w above 127 is 15)".
    #[test]
    fn normal_words_and_locations_at_their_limit() {
        for edition in [Edition::FULL, Edition::SMALL] {
            let (number, lanes) = (edition.number(), edition.lanes());
            let mut words = part(edition);
            words[2] = lanes as u32;
            assert_eq!(refusal(number, &words, lanes), GOOD);
            assert_eq!(refusal(number, &words, lanes - 1), BAD);
            words[2] = lanes as u32 + 1;
            assert_eq!(refusal(number, &words, 4 * lanes), BAD);
            // SRAMs and duplicates are not normal words.
            (words[2], words[4], words[7]) = (lanes as u32 + 7, 4, 3);
            assert_eq!(refusal(number, &words, lanes), GOOD);
            (words[4], words[7]) = (4, 2);
            assert_eq!(refusal(number, &words, 4 * lanes), BAD);
            // The last location, in the high half of the header's last word.
            (words[2], words[4], words[7]) = (lanes as u32, 0, 0);
            for (w, expected) in [
                (127, GOOD),
                (128, [GOOD, BAD][(lanes == 128) as usize]),
                (255, [GOOD, BAD][(lanes == 128) as usize]),
            ] {
                words[lanes - 1] = w << 16;
                assert_eq!(refusal(number, &words, lanes), expected, "{} lanes, location {}", lanes, w);
            }
            // Of stage 1, where there is only stage 0; past the normal words it isn't looked at.
            words[lanes - 1] = 256 << 16;
            assert_eq!(refusal(number, &words, lanes), BAD);
            words[2] -= 1;
            assert_eq!(refusal(number, &words, lanes), GOOD);
        }
    }

    /// The last lane of a round, and its bits.
    #[test]
    fn lanes_of_a_round() {
        for edition in [Edition::FULL, Edition::SMALL] {
            let number = edition.number();
            let mut words = vec![0; edition.part_words(2, 1) as usize];
            (words[0], words[1], words[6]) = (1, 1, 2);
            let last = |round: usize| edition.head_words() + edition.round_words() * (round + 1) - 2;
            (words[last(0)], words[last(0) + 1]) = (4, u32::MAX);
            assert_eq!((refusal(number, &words, 5), refusal(number, &words, 4)), (GOOD, BAD));
            words[last(1) + 1] = 1;
            assert_eq!(refusal(number, &words, 5), BAD);
            // One lane round the corner, it is another's.
            (words[last(1) + 1], words[last(0) + 3]) = (0, 1);
            assert_eq!(refusal(number, &words, 5), GOOD);
        }
    }

    /// The empty block has 128 words; that of the other edition is none.
    #[test]
    fn empty_blocks() {
        for (length, edition, expected) in
            [(256, 256, GOOD), (128, 128, GOOD), (128, 256, BAD), (256, 128, BAD)]
        {
            let mut words = vec![0; length];
            words[1] = 1;
            assert_eq!(refusal(edition, &words, 0), expected, "{} words of edition {}", length, edition);
            words[length - 1] = 1;
            assert_eq!(refusal(edition, &words, 0), BAD);
        }
    }

    /// Words of the other edition are 15; 29 is after 32 and "before 15"; 16 is last.
    #[test]
    fn the_edition_is_judged_after_the_room() {
        for edition in [Edition::FULL, Edition::SMALL] {
            let words = part(edition);
            assert_eq!(refusal(edition.number(), &words, 0), GOOD);
            assert_eq!(refusal(384 - edition.number(), &words, 0), BAD);
        }
        for edition in [0, 1, 127, 255, 257] {
            let ask = |room| answer(&[], &[0, 0], &[9], &[], &[], room, edition).err();
            assert_eq!(ask(BLOCK_ROOM), Some(Refused::plain(29)));
            assert_eq!(ask(BLOCK_ROOM - 1), Some(Refused::plain(32)));
        }
        let ask =
            |starts: &[u64]| answer(&part(Edition::SMALL), starts, &[0, 1], &[], &[], BLOCK_ROOM, 128).err();
        assert_eq!(ask(&[0, 8064]), Some(Refused::at(16, 0, 1)));
        assert_eq!(ask(&[0, 8063]), BAD);
        assert_eq!(ask(&[0]), BAD);
    }

    /// "Gather 4096 bits": a place of the last captured word is enabled by the last captured bit, through the last entry.
    #[test]
    fn enables_of_the_small_edition() {
        for edition in [Edition::FULL, Edition::SMALL] {
            let (lanes, slots) = (edition.lanes(), edition.slots());
            let mut words = part(edition);
            words[2] = lanes as u32;
            let locations: Vec<u32> = (0..lanes as u32).collect();
            for (word, pair) in locations.chunks(2).enumerate() {
                words[lanes / 2 + word] = pair[0] | pair[1] << 16;
            }
            // The last position of the stage gathers lane 0's bit and a slot that is made 1.
            (words[lanes], words[lanes + 1]) = (0, 1);
            let (stage, enables) = (3 * lanes, 3 * lanes + 2 * edition.section_words());
            let (a, b) = below(slots - 1);
            assert_eq!((a, b), (slots + slots / 2 - 1, 2 * slots - 1));
            let set = |words: &mut [u32], section: usize, index: usize, entry: u32| {
                let (word, is_high) = edition.entry_place(index);
                words[section + word] |= entry << (16 * is_high as u32);
            };
            // Local position 0 is the bit that is read; 1 is none.
            for index in 0..slots {
                let entry = if index == a - slots { 0 } else { 1 };
                set(&mut words, stage, index, entry);
                set(&mut words, enables, index, if index == slots - 1 { slots as u32 - 1 } else { 0 });
            }
            words[stage + edition.permutation_words() + 4 * (lanes - 1) + 2] = 1 << 31;
            let old = vec![1; lanes];
            let starts = [0, words.len() as u64];
            let ran = answer(&words, &starts, &[0; 3], &old, &vec![0; lanes], BLOCK_ROOM, edition.number());
            let ran = ran.ok().expect("a run");
            // The last bit is enabled and stored; all others hold.
            let mut expected = old.clone();
            expected[lanes - 1] |= 1 << 31;
            assert_eq!((ran.turns_left, ran.new), (0, expected));
        }
    }
}
