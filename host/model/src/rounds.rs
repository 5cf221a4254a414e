//! "Read rounds".

use crate::edition::Edition;

pub const MOST_PAIRS: usize = 8192;
pub const SET_ROOM: usize = 16384;

/// A word (bit 31: staged) and the mask of the bits that are asked of it.
pub type Pair = (u32, u32);
/// For each lane its pairs, in the order of their rounds.
pub type Lanes = Vec<Vec<Pair>>;

#[derive(Debug, Clone, PartialEq, Eq)]
pub struct Packing {
    pub lanes: Lanes,
    /// The piece size of the winning try.
    pub size: usize,
}

impl Packing {
    /// Piece sizes tried, the winning one included: the pairs, half of them, and so on.
    pub fn tries(&self) -> usize {
        let mut size = self.lanes.iter().map(Vec::len).sum::<usize>();
        let mut tries = 1;
        while size > self.size {
            size /= 2;
            tries += 1;
        }
        tries
    }
}

/// Whole pairs, a last half pair left out.
pub fn pairs_of(set: &[u32]) -> Vec<Pair> {
    set.chunks_exact(2).map(|pair| (pair[0], pair[1])).collect()
}

/// The index of the first pair that breaks the form of a read set.
pub fn first_fault(set: &[u32]) -> Option<usize> {
    let mut before = None;
    for (index, pair) in set.chunks(2).enumerate() {
        let good = pair.len() == 2
            && pair[0] & 0x7FFF_FFFF < 1 << 27
            && pair[1] != 0
            && before.map_or(true, |word| word < pair[0]);
        if !good {
            return Some(index);
        }
        before = Some(pair[0]);
    }
    None
}

pub fn bits(pairs: &[Pair]) -> u32 {
    pairs.iter().map(|(_, mask)| mask.count_ones()).sum()
}

fn wide_words(pairs: &[Pair]) -> usize {
    pairs.iter().filter(|(_, mask)| mask.count_ones() >= 17).count()
}

/// The refusal of a set that has no packing, whatever the search does: 3, 21 or 22. "With more than 8192 bits, or more than 256 words
/// of 17 bits or more, no packing exists."
pub fn hopeless(edition: Edition, pairs: &[Pair]) -> Option<u32> {
    if pairs.is_empty() {
        Some(3)
    } else if bits(pairs) as usize > edition.slots() {
        Some(21)
    } else if wide_words(pairs) > edition.lanes() {
        Some(22)
    } else {
        None
    }
}

/// One try: every pair in the given order, or the word of the first that no lane has room for.
fn place(edition: Edition, order: &[Pair]) -> Result<Lanes, u32> {
    let all = edition.lanes();
    let mut lanes: Lanes = vec![Vec::new(); all];
    let mut used = vec![0; all];
    let mut current = 0;
    for &pair in order {
        let need = pair.1.count_ones();
        let lane = (0..all).map(|step| (current + step) % all).find(|&lane| used[lane] + need <= 32);
        let lane = lane.ok_or(pair.0)?;
        lanes[lane].push(pair);
        used[lane] += need;
        current = (lane + 1) % all;
    }
    Ok(lanes)
}

/// The first piece size whose try places all; or the word that the try of size 1 stopped at. (A set of no pairs has no try.)
pub fn search(edition: Edition, pairs: &[Pair]) -> Result<Packing, Option<u32>> {
    let mut size = pairs.len();
    let mut stopped = None;
    while size >= 1 {
        match try_size(edition, pairs, size) {
            Ok(lanes) => return Ok(Packing { lanes, size }),
            Err(word) => stopped = Some(word),
        }
        size /= 2;
    }
    Err(stopped)
}

/// Pieces of so many pairs, those of more bits first.
fn try_size(edition: Edition, pairs: &[Pair], size: usize) -> Result<Lanes, u32> {
    let mut pieces: Vec<&[Pair]> = pairs.chunks(size).collect();
    pieces.sort_by(|a, b| bits(b).cmp(&bits(a)));
    place(edition, &pieces.concat())
}

/// The search's packing; or the number and the item of 3, 21, 22 or 4.
pub fn pack(edition: Edition, pairs: &[Pair]) -> Result<Packing, (u32, u64)> {
    outcome(edition, pairs, |pairs| search(edition, pairs))
}

/// The same, the search being that of another.
pub fn outcome(
    edition: Edition,
    pairs: &[Pair],
    search: impl FnOnce(&[Pair]) -> Result<Packing, Option<u32>>,
) -> Result<Packing, (u32, u64)> {
    match hopeless(edition, pairs) {
        Some(number) => Err((number, 0)),
        None => search(pairs).map_err(|word| (4, word.expect("a pair has a try of size 1").into())),
    }
}

/// The longest lane.
pub fn rounds(lanes: &Lanes) -> usize {
    lanes.iter().map(Vec::len).max().unwrap_or(0)
}

/// The read section: per round word and mask of lane i at 2i and 2i + 1.
pub fn section(edition: Edition, lanes: &Lanes) -> Vec<u32> {
    let round_words = edition.round_words();
    let mut words = vec![0; round_words * rounds(lanes)];
    for (lane, pairs) in lanes.iter().enumerate() {
        for (round, &(word, mask)) in pairs.iter().enumerate() {
            words[round_words * round + 2 * lane] = word;
            words[round_words * round + 2 * lane + 1] = mask;
        }
    }
    words
}

/// What a call is to hand out: the rounds, their section, and the piece size that won.
#[derive(Debug, Clone, PartialEq, Eq)]
pub struct Answer {
    pub rounds: usize,
    pub words: Vec<u32>,
    pub size: usize,
}

/// What a call is to answer, or a refusal's number and item (the part is 0): 32, 29, 1, 2, then those of `pack`, then 14.
/// `pack` is asked for a packing only where the set has the form.
pub fn answer(
    set: &[u32],
    room: usize,
    out: usize,
    edition: u32,
    pack: impl FnOnce(Edition, &[Pair]) -> Result<Packing, (u32, u64)>,
) -> Result<Answer, (u32, u64)> {
    if room < SET_ROOM {
        return Err((32, 0));
    }
    let edition = Edition::numbered(edition).ok_or((29, 0))?;
    check_form(set)?;
    let Packing { lanes, size } = pack(edition, &pairs_of(set))?;
    let words = section(edition, &lanes);
    if out < words.len() {
        return Err((14, 0));
    }
    Ok(Answer { rounds: rounds(&lanes), words, size })
}

/// Where the packing brings a bit of a word, or a refusal's number and item: none where no pair asks for the bit.
pub fn local_answer(
    set: &[u32],
    room: usize,
    word: u32,
    bit: u32,
    edition: u32,
    pack: impl FnOnce(Edition, &[Pair]) -> Result<Packing, (u32, u64)>,
) -> Result<Option<u32>, (u32, u64)> {
    if room < SET_ROOM {
        return Err((32, 0));
    }
    let edition = Edition::numbered(edition).ok_or((29, 0))?;
    check_form(set)?;
    let Packing { lanes, .. } = pack(edition, &pairs_of(set))?;
    Ok(crate::script::local_positions(&lanes).get(&(word, bit)).map(|&position| position.into()))
}

/// Refusals 1 and 2.
pub fn check_form(set: &[u32]) -> Result<(), (u32, u64)> {
    if (set.len() + 1) / 2 > MOST_PAIRS {
        return Err((1, 0));
    }
    first_fault(set).map_or(Ok(()), |pair| Err((2, pair as u64)))
}

#[cfg(test)]
mod tests {
    use super::*;

    const FULL: Edition = Edition::FULL;
    const SMALL: Edition = Edition::SMALL;

    fn bits_of(counts: &[u32]) -> Vec<Pair> {
        let mask = |&bits: &u32| (u64::from(u32::MAX) >> (32 - bits)) as u32;
        counts.iter().enumerate().map(|(word, bits)| (word as u32, mask(bits))).collect()
    }

    fn refused(pairs: &[Pair]) -> (u32, u64) {
        pack(FULL, pairs).expect_err("it is refused")
    }

    /// M2, M3 and M5 of document 01, with the sizes of 2/13.
    #[test]
    fn sizes_of_the_marked_sets() {
        let size = |pairs: &[Pair]| pack(FULL, pairs).unwrap().size;
        assert_eq!(size(&[(0, 3), (1, 0x20), (1 << 31, 1)]), 3);
        assert_eq!(size(&bits_of(&[17; 256])), 256);
        let m5 = bits_of(&[vec![1; 256], vec![32]].concat());
        assert_eq!(size(&m5), 16);
        assert_eq!(pack(FULL, &m5).unwrap().tries(), 5);
    }

    /// "M4 now reads 22"; more bits than lanes hold come first.
    #[test]
    fn no_packing_exists() {
        assert_eq!(refused(&[]), (3, 0));
        assert_eq!(refused(&bits_of(&[17; 257])), (22, 0));
        assert_eq!(refused(&bits_of(&[vec![32; 256], vec![1]].concat())), (21, 0));
        assert_eq!(refused(&bits_of(&[32; 257])), (21, 0));
        assert_eq!(refused(&bits_of(&[1; 8193])), (21, 0));
        assert!(pack(FULL, &bits_of(&[32; 256])).is_ok());
        // 16 bits are not wide.
        assert!(pack(FULL, &bits_of(&[16; 512])).is_ok());
    }

    /// 8192 bits with a packing (255 with 256; 254, 257 and 258 together) that no size finds: sizes 259 to 2 stop at word 258, size
    /// 1 at word 254.
    #[test]
    fn the_search_ended() {
        let set = bits_of(&[vec![32; 254], vec![10, 16, 16, 11, 11]].concat());
        assert_eq!((set.len(), bits(&set), wide_words(&set)), (259, 8192, 254));
        assert_eq!(refused(&set), (4, 254));
        for size in [259, 129, 64, 32, 16, 8, 4, 2] {
            assert_eq!(try_size(FULL, &set, size), Err(258), "size {}", size);
        }
        assert_eq!(try_size(FULL, &set, 1), Err(254));
    }

    /// 10/13's numbers in the place of 01's and 4/13's, at their limits and one past.
    #[test]
    fn the_small_edition_has_half_the_lanes() {
        let outcome = |counts: &[u32]| pack(SMALL, &bits_of(counts)).map(|packing| packing.lanes);
        assert_eq!(
            outcome(&[17; 128]).unwrap(),
            bits_of(&[17; 128]).iter().map(|&pair| vec![pair]).collect::<Lanes>()
        );
        assert_eq!(outcome(&[17; 129]), Err((22, 0)));
        assert!(outcome(&[32; 128]).is_ok());
        assert_eq!(outcome(&[vec![32; 128], vec![1]].concat()), Err((21, 0)));
        assert_eq!(outcome(&[32; 129]), Err((21, 0)));
        assert_eq!(outcome(&[1; 4096]).unwrap().iter().map(Vec::len).collect::<Vec<_>>(), [32; 128]);
        assert_eq!(outcome(&[1; 4097]), Err((21, 0)));
        assert_eq!(outcome(&[]), Err((3, 0)));
        // The full edition takes them all.
        assert!([&[17; 129][..], &[32; 129], &[1; 4097]]
            .iter()
            .all(|counts| pack(FULL, &bits_of(counts)).is_ok()));
    }

    /// "If all 128 lanes lack room the try ends": pair 128 is in lane 0 again, round 1.
    #[test]
    fn lanes_go_round_at_128() {
        let lanes = search(SMALL, &bits_of(&[1; 129])).unwrap().lanes;
        assert_eq!(
            (lanes.len(), &lanes[0][..], &lanes[127][..]),
            (128, &[(0, 1), (128, 1)][..], &[(127, 1)][..])
        );
        let words = section(SMALL, &lanes);
        assert_eq!(
            (words.len(), &words[..2], &words[254..260]),
            (512, &[0, 1][..], &[127, 1, 128, 1, 0, 0][..])
        );
        // M5 with half of its words: sizes 129, 64, 32 end, 16 wins.
        let m5 = pack(SMALL, &bits_of(&[vec![1; 128], vec![32]].concat())).unwrap();
        assert_eq!((m5.size, m5.tries(), rounds(&m5.lanes)), (16, 4, 2));
        assert_eq!((&m5.lanes[0][..], m5.lanes[1][1]), (&[(128, u32::MAX)][..], (127, 1)));
    }

    /// The set for 4 at 128 lanes: "words 0..125 of 32 bits, 126 of 10, 127 and 128 of 16, 129 and 130 of 11 bits: 4 at word 126".
    #[test]
    fn the_search_ended_at_128_lanes() {
        let set = bits_of(&[vec![32; 126], vec![10, 16, 16, 11, 11]].concat());
        assert_eq!((set.len(), bits(&set), wide_words(&set)), (131, 4096, 126));
        assert_eq!(pack(SMALL, &set), Err((4, 126)));
        assert!(pack(FULL, &set).is_ok());
    }

    /// 32, then 29 "before 1", then the rest. The pair limit stays.
    #[test]
    fn the_edition_is_judged_after_the_room() {
        let m2 = [0, 3, 1, 0x20, 1 << 31, 1];
        let ask = |set: &[u32], room, out, edition| {
            answer(set, room, out, edition, pack).map(|answer| answer.words.len())
        };
        let long: Vec<u32> = (0..8193).flat_map(|word| [word, 1]).collect();
        for edition in [0, 1, 127, 129, 255, 257, 1 << 16, u32::MAX] {
            assert_eq!(ask(&long, SET_ROOM, 0, edition), Err((29, 0)));
            assert_eq!(ask(&m2, SET_ROOM - 1, 512, edition), Err((32, 0)));
        }
        for (edition, words) in [(256, 512), (128, 256)] {
            assert_eq!(ask(&m2, SET_ROOM, words, edition), Ok(words));
            assert_eq!(ask(&m2, SET_ROOM, words - 1, edition), Err((14, 0)));
            assert_eq!(ask(&long, SET_ROOM, 1 << 20, edition), Err((1, 0)));
            assert_eq!(
                ask(&long[..16384], SET_ROOM, 1 << 20, edition).err(),
                [None, Some((21, 0))][(edition == 128) as usize]
            );
        }
    }
}
