//! Plans of either edition for the tests: M10 of document 01, and what is made of it.

use crate::edition::Edition;
use crate::record::EMPTY;

/// A part in plain lists.
#[derive(Clone)]
pub struct Part {
    /// For each stage its slots by index, the first one unused, and its locations.
    pub stages: Vec<(Vec<u32>, Vec<u32>)>,
    pub sram_table: Vec<u32>,
    pub enable_table: Vec<u32>,
    pub endpoints: Vec<[u32; 4]>,
}

/// A plan of one major stage, with pins 1 and 2 at state bits 0 and 1 and the gate 3 = 1 and not 2.
pub struct Made {
    pub edition: Edition,
    pub blocks: u32,
    pub layout: Vec<u32>,
    pub positions: Vec<[u32; 4]>,
    pub parts: Vec<Part>,
}

/// "M10 pins 1, 2 at state 0, 1; gate 3 = 1 and not 2 at level 1 slot 0", captured where level 1 begins; every bit is enabled.
pub fn m10(edition: Edition) -> Made {
    let (slots, lanes) = (edition.slots(), edition.lanes());
    let half = edition.level_slots(1);
    let mut stage = vec![EMPTY; 2 * slots];
    (stage[slots], stage[slots + half], stage[half]) = (1, 2, 3);
    let mut enable_table = vec![0; edition.enable_table_words()];
    enable_table[slots..slots + 2 * lanes].fill(u32::MAX);
    let part = Part {
        stages: vec![(stage, vec![half as u32 / 32])],
        sram_table: vec![0; edition.sram_table_words()],
        enable_table,
        endpoints: Vec::new(),
    };
    Made { edition, blocks: 1, layout: vec![1, 2], positions: Vec::new(), parts: vec![part] }
}

impl Made {
    /// The words of its record.
    pub fn words(&self) -> Vec<u32> {
        let (layout, positions) = (self.layout.len() as u32, self.positions.len() as u32);
        let mut words = vec![self.blocks, 1, 1, layout, positions, self.edition.number(), 0, 0, 0];
        words.push(self.parts.len() as u32);
        words.extend([3, 2, 5]);
        words.extend(&self.layout);
        words.extend(self.positions.iter().flatten());
        for part in &self.parts {
            words.extend([part.stages.len() as u32, part.endpoints.len() as u32, 0, 0]);
        }
        for part in &self.parts {
            words.extend(part.endpoints.iter().flatten());
            words.extend(part.stages.iter().map(|(_, locations)| locations.len() as u32));
            words.extend(part.stages.iter().flat_map(|(slots, _)| &slots[1..]));
            words.extend(part.stages.iter().flat_map(|(_, locations)| locations));
            words.extend(part.sram_table.iter().chain(&part.enable_table));
        }
        words
    }
}
