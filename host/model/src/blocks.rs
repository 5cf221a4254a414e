//! "Blocks and offsets", and refusal 8.

use crate::plan::Counts;
use crate::record::Plan;
use crate::Refused;

const PART_COST: u64 = 3;
const SRAM_WORDS: u64 = 8192;

pub struct Blocks {
    /// For each major stage, for each block, its parts (counted on through the major stages) in their order.
    pub parts: Vec<Vec<Vec<usize>>>,
    /// By part.
    pub state_starts: Vec<u64>,
    pub sram_starts: Vec<u64>,
    pub state_words: u64,
    pub sram_words: u64,
}

impl Blocks {
    pub fn of(plan: &Plan<'_>, counts: &[Counts]) -> Self {
        let mut blocks = Blocks {
            parts: Vec::new(),
            state_starts: vec![0; plan.parts.len()],
            sram_starts: vec![0; plan.parts.len()],
            state_words: (plan.layout.len() as u64 + 31) / 32,
            sram_words: 0,
        };
        let mut first = 0;
        for &count in &plan.major_parts {
            let of_major = place(plan, first..first + count);
            for &part in of_major.iter().flatten() {
                blocks.state_starts[part] = blocks.state_words;
                blocks.sram_starts[part] = blocks.sram_words;
                blocks.state_words += counts[part].write_outs();
                blocks.sram_words += SRAM_WORDS * counts[part].srams;
            }
            blocks.parts.push(of_major);
            first += count;
        }
        blocks
    }

    pub fn fault(&self) -> Option<Refused> {
        if self.state_words > 1 << 27 || self.sram_words > u32::MAX.into() {
            return Some(Refused::plain(8));
        }
        None
    }
}

/// The parts of one major stage on blocks.
fn place(plan: &Plan<'_>, parts: std::ops::Range<usize>) -> Vec<Vec<usize>> {
    let mut of_blocks = vec![Vec::new(); plan.blocks];
    let mut costs = vec![0; plan.blocks];
    for (index, part) in parts.enumerate() {
        let block = if index < plan.blocks {
            index
        } else {
            (0..plan.blocks).min_by_key(|&block| (costs[block], block)).expect("a block")
        };
        of_blocks[block].push(part);
        costs[block] += plan.parts[part].stages.len() as u64 + PART_COST;
    }
    of_blocks
}
