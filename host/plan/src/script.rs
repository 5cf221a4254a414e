//! A script in plain form, and how its words are followed.

use crate::Edition;
use std::fmt;

/// A script: what is run.
#[derive(Debug, Clone, PartialEq, Eq)]
pub struct Script {
    /// Its edition.
    pub edition: Edition,
    /// Blocks of each major stage.
    pub blocks: usize,
    /// Where each block of each major stage begins, and the end.
    pub starts: Vec<u64>,
    /// All words.
    pub words: Vec<u32>,
    /// Words of a state that it runs on.
    pub state_words: u64,
    /// Words of SRAM.
    pub sram_words: u64,
    /// The piece size that won for each part's read set, parts counted on through the major stages. A script that was read from a
    /// file has none: it is no part of the script.
    pub pieces: Vec<u32>,
}

/// A part whose read set no piece of all its pairs placed: a smaller size won.
#[derive(Debug, Clone, Copy, PartialEq, Eq)]
pub struct FellBack {
    /// Which part, counted on through the major stages.
    pub part: usize,
    /// Pairs of its read section.
    pub pairs: usize,
    /// The piece size that won.
    pub size: u32,
}

impl fmt::Display for FellBack {
    fn fmt(&self, f: &mut fmt::Formatter<'_>) -> fmt::Result {
        write!(f, "part {}: {} pairs, size {} won", self.part, self.pairs, self.size)
    }
}

impl Script {
    /// How many major stages it has.
    #[must_use]
    pub fn major_stages(&self) -> usize {
        self.starts.len().saturating_sub(1).checked_div(self.blocks).unwrap_or(0)
    }

    /// The starts of a major stage's blocks and their end, as a run takes them. Panics where there is no such stage.
    #[must_use]
    pub fn stage_starts(&self, stage: usize) -> &[u64] {
        &self.starts[stage * self.blocks..=(stage + 1) * self.blocks]
    }

    /// The same for each major stage in turn.
    pub fn stages(&self) -> impl Iterator<Item = &[u64]> {
        (0..self.major_stages()).map(move |stage| self.stage_starts(stage))
    }

    /// The heads of the parts in the plan's order, through the major stages.
    #[must_use]
    pub fn parts(&self) -> Vec<PartHead> {
        self.stages().flat_map(|starts| stage_parts(&self.words, starts, self.edition)).collect()
    }

    /// The parts that fell back to a smaller piece size.
    #[must_use]
    pub fn fell_back(&self) -> Vec<FellBack> {
        let parts = self.parts().into_iter().zip(&self.pieces).enumerate();
        let told = parts.map(|(part, (head, &size))| FellBack { part, pairs: head.pairs(&self.words), size });
        told.filter(|told| (told.size as usize) < told.pairs).collect()
    }
}

/// The parts of a major stage in the plan's order. One each is in the first blocks, then the next is in the block of least cost so
/// far, the lowest on a tie; a part costs its stages and 3. A block's parts are in their order.
fn stage_parts(words: &[u32], starts: &[u64], edition: Edition) -> Vec<PartHead> {
    let mut blocks: Vec<_> =
        starts.windows(2).map(|range| part_heads(words, range[0], range[1], edition).peekable()).collect();
    let mut costs = vec![0; blocks.len()];
    let mut parts = Vec::new();
    while blocks.iter_mut().any(|block| block.peek().is_some()) {
        let next = parts.len();
        let block = if next < blocks.len() {
            Some(next)
        } else {
            (0..blocks.len()).min_by_key(|&block| costs[block])
        };
        // Of words that no plan made, only what can be followed.
        match block.and_then(|block| Some((block, blocks[block].next()?))) {
            Some((block, head)) => {
                costs[block] += u64::from(head.stages) + 3;
                parts.push(head);
            }
            None => break,
        }
    }
    parts
}

/// What the first words of a part say.
#[derive(Debug, Clone, Copy, PartialEq, Eq)]
pub struct PartHead {
    /// The edition of the script.
    pub edition: Edition,
    /// Where the part begins in the script's words.
    pub at: u64,
    /// Boomerang stages.
    pub stages: u32,
    /// Words that are written out: normal ones, those of SRAMs, and duplicates.
    pub write_outs: u32,
    /// The state's word from which on it stores.
    pub state_start: u32,
    /// SRAMs.
    pub srams: u32,
    /// Rounds of its read section.
    pub rounds: u32,
    /// Duplicate words.
    pub duplicates: u32,
}

impl PartHead {
    /// Words of the part.
    #[must_use]
    pub fn words(&self) -> u64 {
        self.edition.part_words(self.stages.into(), self.rounds.into())
    }

    /// Pairs of its read section.
    #[must_use]
    pub fn pairs(&self, words: &[u32]) -> usize {
        let [head, round] = [self.edition.head_words(), self.edition.round_words()];
        let section = words.iter().skip(self.at as usize + head).take(round * self.rounds as usize);
        section.skip(1).step_by(2).filter(|&&mask| mask != 0).count()
    }

    /// Words that the run stores, from the state start on.
    #[must_use]
    pub fn normal_words(&self) -> u32 {
        self.write_outs.wrapping_sub(self.srams).wrapping_sub(self.duplicates)
    }
}

/// The parts of a block, from its start to its end; an empty block has none. Where the words cannot be followed it ends: a run
/// refuses such words.
pub fn part_heads(
    words: &[u32],
    start: u64,
    end: u64,
    edition: Edition,
) -> impl Iterator<Item = PartHead> + '_ {
    let mut at = start;
    std::iter::from_fn(move || {
        let head = words.get(usize::try_from(at).ok()?..)?.get(..8)?;
        if at >= end || !(1..=255).contains(&head[0]) {
            return None;
        }
        let [stages, write_outs, state_start, srams, rounds, duplicates] =
            [0, 2, 3, 4, 6, 7].map(|word| head[word]);
        let head = PartHead { edition, at, stages, write_outs, state_start, srams, rounds, duplicates };
        at += head.words();
        Some(head)
    })
}
