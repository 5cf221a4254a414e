//! "Accept a packing from our optimiser" (8/13).

use crate::edition::Edition;
use crate::rounds::{self, Answer, Lanes, Pair, SET_ROOM};
use std::collections::HashSet;

/// The piece size of lanes that are handed in.
pub const SIZE: usize = 0;

/// The lanes that words say, two a pair: a pair with mask 0 ends its lane, and so does a last half pair; pairs behind the last end are
/// a lane too. Every list of words is so a list of lanes.
pub fn lanes_in(words: &[u32]) -> Lanes {
    let mut lanes = Vec::new();
    let mut lane = Vec::new();
    for pair in words.chunks(2) {
        match *pair {
            [word, mask] if mask != 0 => lane.push((word, mask)),
            _ => lanes.push(std::mem::take(&mut lane)),
        }
    }
    if !lane.is_empty() {
        lanes.push(lane);
    }
    lanes
}

/// Words that say these lanes, each with its end.
pub fn words_of(lanes: &[Vec<Pair>]) -> Vec<u32> {
    let ended = |lane: &Vec<Pair>| {
        let mut words: Vec<u32> = lane.iter().flat_map(|&(word, mask)| [word, mask]).collect();
        words.extend([0, 0]);
        words
    };
    lanes.iter().flat_map(ended).collect()
}

/// 27's item, where the lanes are no packing of the set: "lane·64 + place of the first foreign, repeated or overfilling pair, else lane
/// count·64". They are one "exactly when it has 256 lanes, empty ones counted, every pair of the read set stands in exactly one lane
/// once, nothing else stands there, and no lane has more than 32 bits".
pub fn fault(edition: Edition, pairs: &[Pair], lanes: &[Vec<Pair>]) -> Option<u64> {
    let of_set: HashSet<Pair> = pairs.iter().copied().collect();
    let mut stood = HashSet::new();
    for (lane, handed) in lanes.iter().enumerate() {
        let mut bits = 0;
        for (place, pair) in handed.iter().enumerate() {
            bits += pair.1.count_ones();
            let is_foreign = !of_set.contains(pair);
            let is_repeated = !stood.insert(*pair);
            if is_foreign || is_repeated || bits > 32 {
                return Some(64 * lane as u64 + place as u64);
            }
        }
    }
    let is_packing = lanes.len() == edition.lanes() && stood.len() == of_set.len();
    (!is_packing).then_some(64 * lanes.len() as u64)
}

/// What a set in form and lanes for it come to: the lanes, or the number and item of 3 or 27. 4, 21 and 22 are not asked.
pub fn outcome(edition: Edition, pairs: &[Pair], words: &[u32]) -> Result<Lanes, (u32, u64)> {
    if pairs.is_empty() {
        return Err((3, 0));
    }
    let lanes = lanes_in(words);
    fault(edition, pairs, &lanes).map_or(Ok(lanes), |item| Err((27, item)))
}

/// What a call is to answer, or a refusal's number and item (the part is 0): 32, 29, 1, 2, 3, 27, 14.
pub fn lane_rounds(
    set: &[u32],
    lanes: &[u32],
    room: usize,
    out: usize,
    edition: u32,
) -> Result<Answer, (u32, u64)> {
    if room < SET_ROOM {
        return Err((32, 0));
    }
    let edition = Edition::numbered(edition).ok_or((29, 0))?;
    rounds::check_form(set)?;
    let lanes = outcome(edition, &rounds::pairs_of(set), lanes)?;
    let words = rounds::section(edition, &lanes);
    if out < words.len() {
        return Err((14, 0));
    }
    Ok(Answer { rounds: rounds::rounds(&lanes), words, size: SIZE })
}

#[cfg(test)]
mod tests {
    use super::*;
    use crate::rounds::pack;

    const FULL: Edition = Edition::FULL;

    /// M2's set, and its lanes: each pair in one of its own.
    const SET: [u32; 6] = [0, 3, 1, 0x20, 1 << 31, 1];

    fn lanes(first: &[&[Pair]], count: usize) -> Lanes {
        let mut lanes: Lanes = first.iter().map(|lane| lane.to_vec()).collect();
        lanes.resize(count, Vec::new());
        lanes
    }

    /// What lanes of M2's set come to: the words of the section, or a refusal.
    fn ask(lanes: &[Vec<Pair>]) -> Result<Answer, (u32, u64)> {
        lane_rounds(&SET, &words_of(lanes), SET_ROOM, 1 << 14, 256)
    }

    #[test]
    fn words_are_lanes() {
        assert_eq!(lanes_in(&[]), Lanes::new());
        assert_eq!(lanes_in(&[7, 0]), [vec![]]);
        assert_eq!(lanes_in(&[7]), [vec![]]);
        assert_eq!(lanes_in(&[7, 1]), [vec![(7, 1)]]);
        assert_eq!(lanes_in(&[7, 1, 0, 0]), [vec![(7, 1)]]);
        assert_eq!(lanes_in(&[7, 1, 9]), [vec![(7, 1)]]);
        assert_eq!(lanes_in(&[7, 1, 8, 2, 3, 0, 5, 0, 6, 4]), [vec![(7, 1), (8, 2)], vec![], vec![(6, 4)]]);
        let some = lanes(&[&[(7, 1), (8, 2)], &[], &[(6, 4)]], 256);
        assert_eq!(words_of(&some).len(), 2 * (256 + 3));
        assert_eq!(lanes_in(&words_of(&some)), some);
        // 255 ends and a pair behind them are 256 lanes; the last lane's end may be left out only where it has pairs.
        let words = words_of(&lanes(&[], 255));
        assert_eq!(lanes_in(&words).len(), 255);
        assert_eq!(lanes_in(&[words, vec![7, 1]].concat()).len(), 256);
    }

    #[test]
    fn other_lanes_are_accepted() {
        let (a, b, c) = ((0, 3), (1, 0x20), (1 << 31, 1));
        let in_one = ask(&lanes(&[&[c, a, b]], 256)).unwrap();
        assert_eq!((in_one.words.len(), in_one.size), (3 * 512, 0));
        assert_eq!(
            (&in_one.words[..2], &in_one.words[512..514], &in_one.words[1024..1026]),
            (&[1 << 31, 1][..], &[0, 3][..], &[1, 0x20][..])
        );
        let mut last = lanes(&[&[a], &[b]], 256);
        last[255] = vec![c];
        let apart = ask(&last).unwrap();
        assert_eq!((apart.words.len(), apart.words[510], apart.words[511]), (512, 1 << 31, 1));
        // The last end, and the words of ends, are not looked at.
        let mut words = words_of(&last);
        words[2] = 0xABCD;
        assert_eq!((words[3], words[2]), (0, 0xABCD));
        let cut = [&words[..words.len() - 2], &words[..words.len() - 1]];
        for words in [&words[..], cut[0], cut[1]] {
            assert_eq!(lane_rounds(&SET, words, SET_ROOM, 512, 256), Ok(apart.clone()));
        }
    }

    /// "item lane·64 + place of the first foreign, repeated or overfilling pair, else lane count·64".
    #[test]
    fn each_clause_of_27() {
        let (a, b, c) = ((0, 3), (1, 0x20), (1 << 31, 1));
        let item = |first: &[&[Pair]], count: usize| ask(&lanes(first, count)).map(|_| ());
        // Foreign: another word, another mask, a part of the mask, the other state.
        for foreign in [(2, 3), (0, 7), (0, 1), (1 << 31, 3), (1, 1)] {
            assert_eq!(item(&[&[b], &[], &[c, foreign]], 256), Err((27, 2 * 64 + 1)));
            assert_eq!(item(&[&[foreign], &[a], &[b], &[c]], 256), Err((27, 0)));
            assert_eq!(item(&[&[a], &[b], &[c, foreign]], 256), Err((27, 2 * 64 + 1)));
        }
        // Repeated: in its lane, in a later one; the second is told.
        assert_eq!(item(&[&[a, b, a], &[c]], 256), Err((27, 2)));
        assert_eq!(item(&[&[a, b], &[c], &[], &[b]], 256), Err((27, 3 * 64)));
        // Missing, and all missing.
        assert_eq!(item(&[&[a], &[b]], 256), Err((27, 256 * 64)));
        assert_eq!(item(&[], 256), Err((27, 256 * 64)));
        // Too few and too many lanes; with a pair missing too.
        for count in [3, 255, 257, 300] {
            assert_eq!(item(&[&[a], &[b], &[c]], count), Err((27, 64 * count as u64)));
            assert_eq!(item(&[&[a], &[b]], count), Err((27, 64 * count as u64)));
        }
        // No words at all: no lanes.
        assert_eq!(lane_rounds(&SET, &[], SET_ROOM, 512, 256), Err((27, 0)));
        // Lanes past the 256th are judged too.
        let mut far = lanes(&[&[a], &[b], &[c]], 301);
        far[300] = vec![b];
        assert_eq!(ask(&far), Err((27, 300 * 64)));
        far[0] = vec![(9, 9)];
        assert_eq!(ask(&far), Err((27, 0)));
    }

    /// "No lane has more than 32 bits": the pair that overfills, foreign or not, is at place 32 at most.
    #[test]
    fn a_lane_of_33_bits() {
        let set: Vec<u32> = (0..34).flat_map(|word| [word, 1]).collect();
        let pairs = rounds::pairs_of(&set);
        let ask = |lanes: &[Vec<Pair>]| {
            lane_rounds(&set, &words_of(lanes), SET_ROOM, 1 << 14, 256).map(|answer| answer.words.len())
        };
        assert_eq!(ask(&lanes(&[&pairs[..32], &pairs[32..]], 256)), Ok(32 * 512));
        assert_eq!(ask(&lanes(&[&pairs[33..], &pairs[..33]], 256)), Err((27, 64 + 32)));
        assert_eq!(ask(&lanes(&[&[], &pairs], 256)), Err((27, 64 + 32)));
        let wide = [(0, u32::MAX), (1, 0xFFFF), (2, 0x1_FFFF), (3, 0xFFFF)];
        let of = |first: &[&[Pair]]| fault(FULL, &wide, &lanes(first, 256));
        assert_eq!(of(&[&wide[..1], &[wide[1], wide[3]], &[wide[2]]]), None);
        assert_eq!(of(&[&wide[..1], &[wide[1], wide[2]], &[wide[3]]]), Some(64 + 1));
        assert_eq!(of(&[&[wide[1], wide[0]], &[wide[2]], &[wide[3]]]), Some(1));
        // What is behind an overfilling pair in another lane isn't told.
        assert_eq!(of(&[&[wide[1], wide[0]], &[(8, 8)]]), Some(1));
        assert_eq!(of(&[&[(8, 8)], &[wide[1], wide[0]]]), Some(0));
    }

    /// "Where 4, 21 and 22 stood": these are not asked, 1, 2 and 3 are. 27 is before 14.
    #[test]
    fn the_order_of_refusals() {
        let good = words_of(&pack(FULL, &rounds::pairs_of(&SET)).unwrap().lanes);
        let bad = words_of(&lanes(&[&[(9, 9)]], 256));
        let long: Vec<u32> = (0..8193).flat_map(|word| [word, 1]).collect();
        for lanes in [&good[..], &bad, &[]] {
            assert_eq!(lane_rounds(&SET, lanes, SET_ROOM - 1, 0, 0), Err((32, 0)));
            assert_eq!(lane_rounds(&long, lanes, SET_ROOM, 0, 255), Err((29, 0)));
            assert_eq!(lane_rounds(&long, lanes, SET_ROOM, 0, 256), Err((1, 0)));
            assert_eq!(lane_rounds(&[4, 1, 4, 1], lanes, SET_ROOM, 0, 256), Err((2, 1)));
            assert_eq!(lane_rounds(&[], lanes, SET_ROOM, 0, 256), Err((3, 0)));
        }
        assert_eq!(lane_rounds(&SET, &bad, SET_ROOM, 0, 256), Err((27, 0)));
        assert_eq!(lane_rounds(&SET, &good, SET_ROOM, 511, 256), Err((14, 0)));
        assert!(lane_rounds(&SET, &good, SET_ROOM, 512, 256).is_ok());
        // Sets that 21 and 22 refuse have no packing, and what is handed in for them is 27 all the same.
        for bits in [17, 32] {
            let set: Vec<u32> =
                (0..257).flat_map(|word| [word, (u64::from(u32::MAX) >> (32 - bits)) as u32]).collect();
            let pairs = rounds::pairs_of(&set);
            let mut one_each: Lanes = pairs.iter().map(|&pair| vec![pair]).collect();
            assert_eq!(lane_rounds(&set, &words_of(&one_each), SET_ROOM, 1 << 14, 256), Err((27, 257 * 64)));
            let last = one_each.pop().expect("a lane");
            one_each[0].extend(last);
            assert_eq!(lane_rounds(&set, &words_of(&one_each), SET_ROOM, 1 << 14, 256), Err((27, 1)));
        }
    }

    /// "Accept it exactly when it has 256 lanes": 128 in the small edition.
    #[test]
    fn lanes_of_the_small_edition() {
        let each: [&[Pair]; 3] = [&[(0, 3)], &[(1, 0x20)], &[(1 << 31, 1)]];
        for (edition, count, expected) in
            [(128, 128, Ok(256)), (128, 127, Err((27, 127 * 64))), (128, 129, Err((27, 129 * 64)))]
        {
            let words = words_of(&lanes(&each, count));
            assert_eq!(
                lane_rounds(&SET, &words, SET_ROOM, 256, edition).map(|answer| answer.words.len()),
                expected
            );
        }
        assert_eq!(lane_rounds(&SET, &words_of(&lanes(&each, 256)), SET_ROOM, 512, 128), Err((27, 256 * 64)));
        assert_eq!(lane_rounds(&SET, &words_of(&lanes(&each, 128)), SET_ROOM, 512, 256), Err((27, 128 * 64)));
    }

    /// "Our own search's result must always pass."
    #[test]
    fn our_own_passes() {
        let full_words =
            |count: u32, mask: u32| -> Vec<Pair> { (0..count).map(|word| (word, mask)).collect() };
        let m5 = [full_words(256, 1), vec![(256, u32::MAX)]].concat();
        for pairs in [
            vec![(0, 3), (1, 0x20), (1 << 31, 1)],
            full_words(256, 0x1_FFFF),
            m5,
            full_words(8192, 1),
            full_words(256, u32::MAX),
        ] {
            let own = pack(FULL, &pairs).unwrap();
            let set: Vec<u32> = pairs.iter().flat_map(|&(word, mask)| [word, mask]).collect();
            let ours = rounds::answer(&set, SET_ROOM, 1 << 14, 256, pack).unwrap();
            let handed = lane_rounds(&set, &words_of(&own.lanes), SET_ROOM, 1 << 14, 256).unwrap();
            assert_eq!((handed.words, handed.size, own.size), (ours.words, 0, ours.size));
        }
    }
}
