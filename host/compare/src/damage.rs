//! Damaged copies of read sets. What a call is then to answer, the checker finds by itself.

use crate::sets::STAGED;
use random::Random;

pub const KINDS: [&str; 8] = [
    "a mask of 0",
    "a word as the one before",
    "two words swapped",
    "a word of 2^27 or more",
    "a staged flag turned over",
    "cut inside a pair",
    "a half pair more",
    "two damages",
];

/// The set (of a pair or more) with damage of one kind at a random pair.
pub fn damaged(random: &mut Random, set: &[u32], kind: &str) -> Vec<u32> {
    let mut set = set.to_vec();
    let pairs = set.len() / 2;
    let pair = 2 * random.below(pairs);
    let before = if pair == 0 { 2 * (pairs - 1) } else { pair - 2 };
    match kind {
        "a mask of 0" => set[pair + 1] = 0,
        "a word as the one before" => set[pair] = set[before],
        "two words swapped" => set.swap(pair, before),
        "a word of 2^27 or more" => set[pair] |= 1 << random.between(27, 30),
        "a staged flag turned over" => set[pair] ^= STAGED,
        "cut inside a pair" => set.truncate(pair + 1),
        "a half pair more" => set.push(random.word()),
        "two damages" => {
            let first = random.pick(&KINDS[..5]);
            let second = random.pick(&KINDS[..7]);
            set = damaged(random, &set, first);
            set = damaged(random, &set, second);
        }
        _ => panic!("unknown damage: {}", kind),
    }
    set
}
