//! Where a word of a script stands, in words.

use model::build::Accepted;
use model::edition::Edition;
use model::rounds;

/// Major stage, block, part, section and lane of a word.
pub fn word_place(plan: &Accepted<'_>, index: u64) -> String {
    let edition = plan.plan.edition;
    let starts = plan.starts();
    let end = starts[starts.len() - 1];
    if index >= end {
        return format!("zero word {} behind the end", index - end);
    }
    let place =
        starts.windows(2).position(|range| (range[0]..range[1]).contains(&index)).expect("below the end");
    let (major, block) = (place / plan.plan.blocks, place % plan.plan.blocks);
    let mut offset = index - starts[place];
    for &part in &plan.blocks.parts[major][block] {
        let (stages, rounds) = (plan.plan.parts[part].stages.len(), rounds::rounds(&plan.lanes[part]));
        let length = edition.part_words(rounds as u64, stages as u64);
        if offset < length {
            let section = section_place(edition, offset as usize, rounds, stages);
            return format!("major stage {}, block {}, part {}: {}", major, block, part, section);
        }
        offset -= length;
    }
    format!("major stage {}, block {}, empty: word {}", major, block, offset)
}

const HEAD: [&str; 8] = [
    "boomerang stages",
    "last part of its block",
    "write-out words",
    "state start",
    "SRAMs",
    "SRAM start",
    "rounds",
    "duplicate words",
];

fn section_place(edition: Edition, offset: usize, rounds: usize, stages: usize) -> String {
    if offset < edition.head_words() {
        return match offset.checked_sub(edition.head_numbers()) {
            Some(word) => format!("head, locations {} and {}", 2 * word, 2 * word + 1),
            None if offset < HEAD.len() => format!("head, word {} ({})", offset, HEAD[offset]),
            None => format!("head, zero word {}", offset),
        };
    }
    let (offset, round_words) = (offset - edition.head_words(), edition.round_words());
    if offset < round_words * rounds {
        let (round, word) = (offset / round_words, offset % round_words);
        return format!("reads, round {}, lane {}, {}", round, word / 2, ["word", "mask"][word % 2]);
    }
    let offset = offset - round_words * rounds;
    let (section, word) = (offset / edition.section_words(), offset % edition.section_words());
    let (name, lists) = match section.checked_sub(stages) {
        None => (format!("stage {}", section), ["xora", "xorb", "orb", "fourth word"]),
        Some(0) => ("SRAM and duplicates".to_string(), ["inv", "set0", "third word", "fourth word"]),
        Some(_) => ("clock enables".to_string(), ["inv", "set0", "data inv", "fourth word"]),
    };
    if word < edition.permutation_words() {
        let lanes = edition.lanes();
        let entry = 32 * (word / 4 % lanes) + 8 * (word / (4 * lanes)) + 2 * (word % 4);
        return format!("{}, permutation, lane {}, entries {} and {}", name, entry / 32, entry, entry + 1);
    }
    format!("{}, lane {}, {}", name, (word - edition.permutation_words()) / 4, lists[word % 4])
}
