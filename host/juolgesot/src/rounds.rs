//! Read rounds: which lane reads which word of the state in which round.

use crate::ffi;
use crate::refusal::Refusal;
use plan::{Edition, LocalPosition};

/// Words of working room for a read set.
pub const SET_ROOM: usize = 16384;
/// Rounds of a packing, at most: 32 pairs of one bit fill a lane.
pub const MOST_ROUNDS: usize = 32;

/// A packing of a read set into lanes and rounds.
#[derive(Debug, Clone, PartialEq, Eq)]
pub struct Rounds {
    /// The edition that it is packed for.
    pub edition: Edition,
    /// How many rounds there are, at most `MOST_ROUNDS`.
    pub rounds: usize,
    /// The piece size of the try that won: the number of pairs, or less where the search fell back.
    pub size: usize,
    /// The read section of a script: two words a lane in each round, word and mask of lane i at 2i and 2i + 1.
    pub words: Vec<u32>,
}

impl Rounds {
    /// The word and mask that a lane reads in a round.
    #[must_use]
    pub fn read(&self, lane: usize, round: usize) -> Option<(u32, u32)> {
        if lane >= self.edition.lanes() || round >= self.rounds {
            return None;
        }
        let at = self.edition.round_words() * round + 2 * lane;
        match self.words[at + 1] {
            0 => None,
            mask => Some((self.words[at], mask)),
        }
    }
}

/// What is told of a packing whose words are in a lent slice.
#[derive(Debug, Clone, Copy, PartialEq, Eq)]
pub struct Placed {
    /// How many rounds there are.
    pub rounds: usize,
    /// The piece size of the try that won.
    pub size: usize,
}

/// Packs a read set: pairs (word, mask), strictly ascending by word, masks nonzero.
/// Bit 31 of a word means staged; the rest is below 2^27.
///
#[doc = "```"]
#[doc = include_str!("../examples/read_rounds.rs")]
#[doc = "```"]
pub fn read_rounds(pairs: &[(u32, u32)], edition: Edition) -> Result<Rounds, Refusal> {
    let mut room = vec![0; SET_ROOM];
    let mut words = vec![0; edition.round_words() * MOST_ROUNDS];
    let Placed { rounds, size } = read_rounds_into(&set_words(pairs), &mut room, &mut words, edition)?;
    words.truncate(edition.round_words() * rounds);
    Ok(Rounds { edition, rounds, size, words })
}

/// A read set as it is lent: word, mask, word, mask ..
pub(crate) fn set_words(pairs: &[(u32, u32)]) -> Vec<u32> {
    pairs.iter().flat_map(|&(word, mask)| [word, mask]).collect()
}

/// The same over lent slices: word, mask, word, mask .. in, the read section out.
/// The room holds zeros afterwards, but for refusal 32, which changes nothing.
pub fn read_rounds_into(
    set: &[u32],
    room: &mut [u32],
    out: &mut [u32],
    edition: Edition,
) -> Result<Placed, Refusal> {
    let answer = ffi::read_rounds(set, room, out, edition.number());
    let size = answer.second as usize;
    Refusal::check(answer).map(|rounds| Placed { rounds: rounds as usize, size })
}

/// What is told for the position of a bit that a set does not ask for.
pub const NO_POSITION: u64 = 0xFFFF_FFFF;

/// Where the packing of a read set brings a bit: `bit` (0 to 31) of a word as it stands in the set. `None` where the set does not
/// ask for it. The set is packed anew at each call, in the time of [`read_rounds`].
///
#[doc = "```"]
#[doc = include_str!("../examples/local_position.rs")]
#[doc = "```"]
pub fn local_position(
    pairs: &[(u32, u32)],
    word: u32,
    bit: u32,
    edition: Edition,
) -> Result<Option<LocalPosition>, Refusal> {
    local_position_into(&set_words(pairs), &mut vec![0; SET_ROOM], word, bit, edition)
}

/// The same over lent slices. The room holds zeros afterwards, but for refusal 32, which changes nothing.
pub fn local_position_into(
    set: &[u32],
    room: &mut [u32],
    word: u32,
    bit: u32,
    edition: Edition,
) -> Result<Option<LocalPosition>, Refusal> {
    let told = Refusal::check(ffi::local_position(set, room, word, bit, edition.number()))?;
    Ok(if told == NO_POSITION { None } else { Some(LocalPosition(told as u32)) })
}
