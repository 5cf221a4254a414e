//! A whole build: the order of refusals, and the script's assembly.

use crate::blocks::Blocks;
use crate::plan::{self, Counts, Found, Gates};
use crate::record::{self, Plan};
use crate::rounds::{self, Lanes, Packing, Pair};
use crate::script::{self, Facts};
use crate::Refused;

#[derive(Debug, Clone, Copy, PartialEq, Eq)]
pub struct Sizes {
    pub starts: u64,
    pub words: u64,
    pub state_words: u64,
    pub sram_words: u64,
}

/// A plan that no refusal but 14 and 32 can meet.
pub struct Accepted<'a> {
    pub plan: Plan<'a>,
    pub gates: Gates,
    pub found: Found,
    pub counts: Vec<Counts>,
    pub blocks: Blocks,
    /// Each part's read set.
    pub sets: Vec<Vec<Pair>>,
    /// Its packing.
    pub lanes: Vec<Lanes>,
    /// The piece size that won for it.
    pub pieces: Vec<u32>,
}

/// Refusals 29 and 5 to 13, each over the whole plan before the next, then 3, 21, 22 and 4 likewise.
pub fn accept(record_bytes: usize, words: &[u32]) -> Result<Accepted<'_>, Refused> {
    let plan = record::plan(record_bytes, words)?;
    let refuse = |fault: Option<Refused>| fault.map_or(Ok(()), Err);
    refuse(plan::gate_fault(&plan))?;
    let counts: Vec<Counts> = plan.parts.iter().map(plan::counts).collect();
    refuse(plan::location_fault(&plan, &counts))?;
    let blocks = Blocks::of(&plan, &counts);
    refuse(blocks.fault())?;
    let gates = Gates::of(&plan);
    refuse(plan::slot_fault(&plan, &gates))?;
    refuse(plan::absent_fault(&plan))?;
    refuse(plan::computed_fault(&plan))?;
    let found = Found::of(&plan);
    refuse(plan::position_fault(&plan, &found, &counts, &blocks))?;
    refuse(plan::table_fault(&plan))?;
    let sets: Vec<_> = plan.parts.iter().map(|part| script::read_set(part, &found)).collect();
    let packed: Vec<_> = sets.iter().map(|set| rounds::pack(plan.edition, set)).collect();
    for number in [3, 21, 22, 4] {
        refuse(first_part(&packed, number))?;
    }
    let (mut lanes, mut pieces) = (Vec::new(), Vec::new());
    for packing in packed.into_iter().flatten() {
        lanes.push(packing.lanes);
        pieces.push(packing.size as u32);
    }
    Ok(Accepted { plan, gates, found, counts, blocks, sets, lanes, pieces })
}

/// The first part whose read set is refused by this number.
fn first_part(packed: &[Result<Packing, (u32, u64)>], number: u32) -> Option<Refused> {
    packed.iter().enumerate().find_map(|(part, packing)| match packing {
        Err((found, item)) if *found == number => Some(Refused { number, part: part as u64, item: *item }),
        _ => None,
    })
}

impl Accepted<'_> {
    fn part_words(&self, part: usize) -> u64 {
        self.plan
            .edition
            .part_words(rounds::rounds(&self.lanes[part]) as u64, self.plan.parts[part].stages.len() as u64)
    }

    /// The starts of the blocks, and the end.
    pub fn starts(&self) -> Vec<u64> {
        let mut starts = vec![0];
        for parts in self.blocks.parts.iter().flatten() {
            let words: u64 = parts.iter().map(|&part| self.part_words(part)).sum();
            let block = if parts.is_empty() { self.plan.edition.empty_block_words() as u64 } else { words };
            starts.push(starts[starts.len() - 1] + block);
        }
        starts
    }

    pub fn sizes(&self) -> Sizes {
        let starts = self.starts();
        Sizes {
            starts: starts.len() as u64,
            words: starts[starts.len() - 1] + self.plan.edition.closing_words() as u64,
            state_words: self.blocks.state_words,
            sram_words: self.blocks.sram_words,
        }
    }

    /// "Data is laid stage by stage, block by block".
    pub fn words(&self) -> Vec<u32> {
        let edition = self.plan.edition;
        let mut words = Vec::new();
        for parts in self.blocks.parts.iter().flatten() {
            if parts.is_empty() {
                let start = words.len();
                words.resize(start + edition.empty_block_words(), 0);
                words[start + 1] = 1;
            }
            for (index, &part) in parts.iter().enumerate() {
                let facts = Facts {
                    edition,
                    counts: self.counts[part],
                    last_of_block: index + 1 == parts.len(),
                    state_start: self.blocks.state_starts[part],
                    sram_start: self.blocks.sram_starts[part],
                    lanes: &self.lanes[part],
                };
                words.extend(script::words(&self.plan.parts[part], &facts, &self.found, &self.gates));
            }
        }
        words.resize(words.len() + edition.closing_words(), 0);
        words
    }
}

#[cfg(test)]
mod tests {
    use super::*;
    use crate::edition::Edition;
    use crate::made::{m10, Made};
    use crate::record::EMPTY;
    use crate::run;

    const BOTH: [Edition; 2] = [Edition::FULL, Edition::SMALL];

    /// What a plan of its edition is refused by; none where it is accepted.
    fn refusal(made: &Made) -> Option<Refused> {
        let words = made.words();
        accept(4 * words.len(), &words).err()
    }

    /// "29 unknown edition, before 1, 5 and 15". A record that ends before word 5 is of none.
    #[test]
    fn a_record_names_its_edition() {
        for edition in BOTH {
            let mut words = m10(edition).words();
            let of = |words: &[u32], bytes: usize| accept(bytes, words).map(|plan| plan.plan.edition);
            assert_eq!(of(&words, 4 * words.len()).ok(), Some(edition));
            // A record of the other edition has not the length that its counts give.
            words[5] = 384 - edition.number();
            assert_eq!(of(&words, 4 * words.len()).err(), Some(Refused::plain(5)));
            for number in [0, 1, 127, 129, 255, 257, 1 << 16, 256 + (1 << 31), u32::MAX] {
                words[5] = number;
                assert_eq!(of(&words, 4 * words.len()).err(), Some(Refused::plain(29)));
                // Whatever else is wrong.
                assert_eq!(of(&words[..7], 30).err(), Some(Refused::plain(29)));
            }
            words[5] = edition.number();
            for length in 0..6 {
                assert_eq!(of(&words[..length], 4 * length + 3).err(), Some(Refused::plain(29)));
            }
            assert_eq!(of(&words[..6], 24).err(), Some(Refused::plain(5)));
        }
    }

    /// "A word whose request has not landed must be 0, else 5 (an endpoint's fourth word is not looked at)."
    #[test]
    fn words_of_later_requests() {
        for edition in BOTH {
            let mut made = m10(edition);
            made.positions = vec![[9, 4, 1, 0]];
            made.parts[0].endpoints = vec![[0, 6, 0, 0], [2, 6, 1, 0], [3, 0, 0, 0]];
            let words = made.words();
            // Head, count, gate, layout, position, part head.
            let (position, head) = (9 + 1 + 3 + 2, 9 + 1 + 3 + 2 + 4);
            assert_eq!(words[position..head + 4], [9, 4, 1, 0, 1, 3, 0, 0]);
            assert_eq!(refusal(&made), None);
            for at in [6, 7, 8, position + 3, head + 2, head + 3] {
                for value in [1, 2, 256, u32::MAX] {
                    let mut words = words.clone();
                    words[at] = value;
                    let refused = accept(4 * words.len(), &words).err();
                    assert_eq!(refused, Some(Refused::plain(5)), "word {} is {}", at, value);
                }
            }
            for endpoint in &mut made.parts[0].endpoints {
                endpoint[3] = u32::MAX;
            }
            assert_eq!(refusal(&made), None);
        }
    }

    /// 32 looks at words 1 and 9 .. alone, "whatever the edition word says".
    #[test]
    fn room_of_a_record() {
        assert_eq!(record::room_words(&[]), 65536);
        assert_eq!(record::room_words(&[0, 2, 9, 9, 9, 7, 9, 9, 9, 3, 4, 100]), 65536 + 16 * 7);
        assert_eq!(record::room_words(&[0, 3, 9, 9, 9, 7, 9, 9, 9, 3, 4]), 65536 + 16 * 7);
        let long: Vec<u32> = [vec![5, u32::MAX], vec![0; 7], vec![1; 100]].concat();
        assert_eq!(record::room_words(&long), 65536 + 16 * 64);
    }

    /// M10 in both editions: lengths and layout of its words, and what they store (empty slots gather local position 0).
    #[test]
    fn m10_is_built_and_run() {
        for (edition, part_words, tail) in [(Edition::FULL, 16128, 2048), (Edition::SMALL, 8064, 1024)] {
            let made = Made { blocks: 2, ..m10(edition) };
            let record = made.words();
            let accepted = accept(4 * record.len(), &record).ok().expect("a plan in order");
            let (words, starts) = (accepted.words(), accepted.starts());
            let lanes = edition.lanes();
            assert_eq!(starts, [0, part_words, part_words + lanes as u64]);
            assert_eq!(words.len() as u64, part_words + lanes as u64 + tail);
            assert_eq!(accepted.sizes().words, words.len() as u64);
            // The empty block, and the zeros.
            let behind = &words[part_words as usize..];
            assert!(behind.iter().enumerate().all(|(index, &word)| word == (index == 1) as u32));
            // Header: one location, level 1's first word; then none.
            let location = edition.level_slots(1) as u32 / 32;
            assert_eq!(words[..8], [1, 1, 1, 1, 0, 0, 1, 0]);
            assert!(words[8..lanes / 2].iter().all(|&word| word == 0));
            assert_eq!(words[lanes / 2], 0xFFFF_0000 | location);
            assert!(words[lanes / 2 + 1..lanes].iter().all(|&word| word == u32::MAX));
            // The round: word 0, bits 0 and 1. Bit 0 has local position 1, as bit 1 is above it.
            assert_eq!(words[lanes..lanes + 4], [0, 3, 0, 0]);
            assert_eq!(words[3 * lanes], 1);
            for (old, stored) in [(1, 1), (3, 0xFFFF_FFFEu32)] {
                let room = 2 * run::BLOCK_ROOM;
                let ran =
                    run::answer(&words, &starts, &[0, 0, 0], &[old, 0], &[0, 0], room, edition.number());
                let ran = ran.ok().expect("a run");
                assert_eq!((ran.turns_left, ran.new), (0, vec![0, stored]));
            }
        }
    }

    /// 7: "128 locations and write-out words at most".
    #[test]
    fn locations_at_their_limit() {
        for edition in BOTH {
            let lanes = edition.lanes() as u32;
            let with = |locations: Vec<u32>| {
                let mut made = m10(edition);
                made.parts[0].stages[0].1 = locations;
                refusal(&made)
            };
            assert_eq!(with(vec![0, lanes - 1]), None);
            assert_eq!(with(vec![0, lanes]), Some(Refused::at(7, 0, 1)));
            assert_eq!(with(vec![1; lanes as usize]), None);
            assert_eq!(with(vec![1; lanes as usize + 1]), Some(Refused::at(7, 0, lanes as usize + 1)));
            // An SRAM takes a write-out word too.
            let mut made = m10(edition);
            made.parts[0].endpoints = vec![[3, 0, 0, 0]];
            made.parts[0].stages[0].1 = vec![1; lanes as usize - 1];
            assert_eq!(refusal(&made), None);
            made.parts[0].stages[0].1.push(1);
            assert_eq!(refusal(&made), Some(Refused::at(7, 0, lanes as usize)));
        }
    }

    /// "stage·4096 + position" for 9 and 11, "stage·4096 + slot" for 10; 12 is of stage 0.
    #[test]
    fn items_count_the_slots_of_a_stage() {
        for edition in BOTH {
            let (slots, half) = (edition.slots(), edition.level_slots(1));
            // A second stage that carries pin 3 from position `half` of the first.
            let two_stages = || {
                let mut made = m10(edition);
                let mut second = vec![EMPTY; 2 * slots];
                second[slots + 5] = 3;
                made.parts[0].stages.push((second, vec![]));
                made
            };
            assert_eq!(refusal(&two_stages()), None);
            let mut nine = two_stages();
            nine.parts[0].stages[1].0[slots - 1] = 1;
            assert_eq!(refusal(&nine), Some(Refused::at(9, 0, slots + slots - 1)));
            let mut ten = two_stages();
            ten.parts[0].stages[1].0[2 * slots - 1] = 2;
            assert_eq!(refusal(&ten), Some(Refused::at(10, 0, slots + slots - 1)));
            let mut eleven = m10(edition);
            eleven.parts[0].stages[0].0[2 * slots - 1] = 3;
            assert_eq!(refusal(&eleven), Some(Refused::at(11, 0, half)));
            // Pins 1 and 2 are carried, and the second stage computes 3, which the first reads.
            let mut later = m10(edition);
            let mut first = vec![EMPTY; 2 * slots];
            (first[slots], first[slots + 1], first[slots + 2]) = (1, 2, 3);
            (first[half], first[half + 1]) = (1, 2);
            later.parts[0].stages.insert(0, (first, vec![]));
            assert_eq!(refusal(&later), Some(Refused::at(11, 0, slots + half)));
            let mut twelve = m10(edition);
            twelve.parts[0].stages[0].0[2 * slots - 1] = 7;
            assert_eq!(refusal(&twelve), Some(Refused::at(12, 0, slots - 1)));
        }
    }

    /// 13: an entry above 4095; enables from 4096.
    #[test]
    fn entries_at_their_limit() {
        for edition in BOTH {
            let slots = edition.slots();
            let mut made = m10(edition);
            made.parts[0].sram_table[slots - 1] = slots as u32 - 1;
            made.parts[0].enable_table[slots - 1] = slots as u32 - 1;
            assert_eq!(refusal(&made), None);
            made.parts[0].enable_table[slots - 1] = slots as u32;
            assert_eq!(refusal(&made), Some(Refused::at(13, 0, 2 * slots - 1)));
            made.parts[0].sram_table[slots - 1] = slots as u32;
            assert_eq!(refusal(&made), Some(Refused::at(13, 0, slots - 1)));
        }
    }

    /// A plan reads as many wide words as there are lanes, and no more: 22. It reads at most one bit a slot.
    #[test]
    fn wide_words_of_a_plan() {
        for edition in BOTH {
            let (slots, lanes) = (edition.slots(), edition.lanes());
            let with = |words: usize| {
                let mut made = m10(edition);
                let read: Vec<u32> = (0..words as u32).flat_map(|word| 32 * word..32 * word + 17).collect();
                made.layout = (0..32 * words as u32).map(|bit| 10 + bit).collect();
                let stage = &mut made.parts[0].stages[0].0;
                stage.fill(EMPTY);
                for (slot, bit) in read.iter().enumerate() {
                    stage[slots + slot] = 10 + bit;
                }
                refusal(&made)
            };
            assert_eq!(with(lanes), None);
            assert_eq!(with(lanes + 1), Some(Refused::at(22, 0, 0)));
        }
    }
}
