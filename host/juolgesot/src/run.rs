//! Runs of a script.

use crate::ffi;
use crate::refusal::Refusal;
use plan::{part_heads, Edition};

/// Words of working room for each block of a run.
pub const BLOCK_ROOM: usize = 1024;

/// Runs one major stage: `starts` are those of its blocks and their end, `turns` names a block for each turn. Bits are
/// read from the old state, or (staged) from the new one, and stored into the new one: where a bit is enabled, with its
/// data inversion; where not, as the old state has it. The words are of this edition. Gives the turns left.
///
#[doc = "```"]
#[doc = include_str!("../examples/run.rs")]
#[doc = "```"]
pub fn run(
    words: &[u32],
    starts: &[u64],
    turns: &[u32],
    old: &[u32],
    new: &mut [u32],
    edition: Edition,
) -> Result<u64, Refusal> {
    let mut room = vec![0; BLOCK_ROOM * starts.len().saturating_sub(1)];
    run_into(words, starts, turns, old, new, &mut room, edition)
}

/// The same with a lent room of `BLOCK_ROOM` words a block. It holds zeros afterwards, but for refusal 32, which
/// changes nothing.
pub fn run_into(
    words: &[u32],
    starts: &[u64],
    turns: &[u32],
    old: &[u32],
    new: &mut [u32],
    room: &mut [u32],
    edition: Edition,
) -> Result<u64, Refusal> {
    Refusal::check(ffi::run(words, starts, turns, old, new, room, edition.number()))
}

/// Turns that finish these blocks, block after block, round and round: a part takes its stages and two more. Where the
/// words cannot be followed the turns of that block end; a run refuses such words anyway.
#[must_use]
pub fn finishing_turns(words: &[u32], starts: &[u64], edition: Edition) -> Vec<u32> {
    let counts: Vec<usize> = starts.windows(2).map(|range| block_turns(words, range, edition)).collect();
    let most = counts.iter().copied().max().unwrap_or(0);
    let mut turns = Vec::new();
    for turn in 0..most {
        turns.extend((0..counts.len() as u32).filter(|&block| turn < counts[block as usize]));
    }
    turns
}

fn block_turns(words: &[u32], range: &[u64], edition: Edition) -> usize {
    part_heads(words, range[0], range[1], edition).map(|head| head.stages as usize + 2).sum()
}
