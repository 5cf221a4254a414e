//! Read sets joined.

use crate::ffi;
use crate::refusal::Refusal;
use crate::rounds::set_words;
use std::fmt;

/// Pairs of a read set, at most.
pub const MOST_PAIRS: usize = 8192;

/// Which set a refused join tells of.
#[derive(Debug, Clone, Copy, PartialEq, Eq, Hash)]
pub enum JoinSet {
    /// The first.
    First,
    /// The second.
    Second,
    /// The join of both.
    Both,
}

/// Why two read sets were not joined.
#[derive(Debug, Clone, Copy, PartialEq, Eq, Hash)]
pub struct JoinRefusal {
    /// Which set is wrong.
    pub set: JoinSet,
    /// What is wrong with it.
    pub refusal: Refusal,
}

/// Joins two read sets: the words of either, each with the bits that either asks for. The empty set is one too.
///
#[doc = "```"]
#[doc = include_str!("../examples/join.rs")]
#[doc = "```"]
pub fn join(a: &[(u32, u32)], b: &[(u32, u32)]) -> Result<Vec<(u32, u32)>, JoinRefusal> {
    join_words(&set_words(a), &set_words(b))
        .map(|joined| joined.chunks(2).map(|pair| (pair[0], pair[1])).collect())
}

/// The same for sets as they are lent: word, mask, word, mask ..
pub fn join_words(a: &[u32], b: &[u32]) -> Result<Vec<u32>, JoinRefusal> {
    let mut out = vec![0; (a.len() + b.len()).min(2 * MOST_PAIRS)];
    let pairs = join_into(a, b, &mut out).map_err(|refusal| JoinRefusal { set: wrong(a, b), refusal })?;
    out.truncate(2 * pairs);
    Ok(out)
}

/// The same into a lent slice. Gives the number of pairs that it then begins with. A refusal says nothing of the set: the first
/// is tested before the second.
pub fn join_into(a: &[u32], b: &[u32], out: &mut [u32]) -> Result<usize, Refusal> {
    Refusal::check(ffi::join(a, b, out)).map(|pairs| pairs as usize)
}

/// The set that a refused join tells of: each is joined with the empty one, into no words, which 14 alone refuses where it is
/// right.
fn wrong(a: &[u32], b: &[u32]) -> JoinSet {
    let is_wrong = |set: &[u32]| !matches!(join_into(set, &[], &mut []), Ok(_) | Err(Refusal::ShortResult));
    match (is_wrong(a), is_wrong(b)) {
        (true, _) => JoinSet::First,
        (false, true) => JoinSet::Second,
        (false, false) => JoinSet::Both,
    }
}

impl fmt::Display for JoinRefusal {
    fn fmt(&self, f: &mut fmt::Formatter<'_>) -> fmt::Result {
        let set = match self.set {
            JoinSet::First => "the first set",
            JoinSet::Second => "the second set",
            JoinSet::Both => "the join",
        };
        write!(f, "refused {}: {}: {}", self.refusal.number(), set, self.refusal.sentence())
    }
}

impl std::error::Error for JoinRefusal {}
