//! Plans to scripts.

use crate::ffi::{self, PlanAnswer};
use crate::plan_room::{blocks, edition, most_results, room_for, Most};
use crate::refusal::Refusal;
use plan::Script;

/// How much result room a plan needs, and how large its state and SRAM are.
#[derive(Debug, Clone, Copy, PartialEq, Eq)]
pub struct Sizes {
    /// Starts of blocks, and the end.
    pub starts: usize,
    /// Words of the script.
    pub words: usize,
    /// Words of a state that it runs on.
    pub state_words: u64,
    /// Words of SRAM.
    pub sram_words: u64,
}

fn sizes(plan: &[u8], answer: PlanAnswer) -> Result<Sizes, Refusal> {
    let [first, second, third, fourth] = answer.values;
    match answer.code {
        0 => Ok(Sizes {
            starts: first as usize,
            words: second as usize,
            state_words: third,
            sram_words: fourth,
        }),
        number => Err(Refusal::of(number, first, second, edition(plan).unwrap_or_default())),
    }
}

/// The sizes of a plan's script, or what refuses the plan.
///
#[doc = "```"]
#[doc = include_str!("../examples/plan_sizes.rs")]
#[doc = "```"]
pub fn plan_sizes(plan: &[u8]) -> Result<Sizes, Refusal> {
    plan_sizes_into(plan, &mut room_for(plan))
}

/// Builds the script of a plan record (`Plan::record`).
///
#[doc = "```"]
#[doc = include_str!("../examples/build.rs")]
#[doc = "```"]
pub fn build(plan: &[u8]) -> Result<Script, Refusal> {
    // Only the rounds are not known before: room for the most of them is asked for, and given back.
    let Most { starts, words, parts } = most_results(plan);
    let (mut starts, mut words, mut pieces) = (vec![0; starts], vec![0; words], vec![0; parts]);
    let sizes = build_into(plan, &mut room_for(plan), &mut starts, &mut words, &mut pieces)?;
    starts.truncate(sizes.starts);
    words.truncate(sizes.words);
    words.shrink_to_fit();
    let Sizes { state_words, sram_words, .. } = sizes;
    Ok(Script {
        edition: edition(plan).expect("29 is excluded"),
        blocks: blocks(plan),
        starts,
        words,
        state_words,
        sram_words,
        pieces,
    })
}

/// `plan_sizes` with a lent room of `plan_room` words or more. It holds zeros afterwards, but for refusal 32, which
/// changes nothing.
pub fn plan_sizes_into(plan: &[u8], room: &mut [u32]) -> Result<Sizes, Refusal> {
    sizes(plan, ffi::plan_sizes(plan, room))
}

/// `build` with lent slices: starts, words and pieces (the piece size that won, one a part) are filled from their beginning, the
/// rest is left as it is.
pub fn build_into(
    plan: &[u8],
    room: &mut [u32],
    starts: &mut [u64],
    words: &mut [u32],
    pieces: &mut [u32],
) -> Result<Sizes, Refusal> {
    sizes(plan, ffi::build(plan, room, starts, words, pieces))
}
