//! "Monthly occupancy report" (9/13): a batch of parts fed one at a time, and its text.

use crate::edition::Edition;
use crate::rounds::{self, Lanes, SET_ROOM};
use crate::{handed, Refused};

/// Words of a batch. Zeros are the empty one.
pub const BATCH_WORDS: usize = 48;
pub const MOST_PARTS: u64 = 100_000;

const FED: usize = 0;
const PARTS: usize = 1;
const BITS: usize = 2;
const LANES: usize = 3;
const ROUNDS: usize = 4;
const EMPTY: usize = 5;
const WORDS: usize = 6;
const EDITION: usize = 7;
/// Word REFUSED + N: parts refused with N.
const REFUSED: usize = 8;

type Batch = [u64; BATCH_WORDS];

/// A word that is not there reads 0.
fn read(words: &[u64]) -> Batch {
    let mut batch = [0; BATCH_WORDS];
    for (word, &lent) in batch.iter_mut().zip(words) {
        *word = lent;
    }
    batch
}

/// Refusal 5 of a batch: "w0 ≤ 100000; w0 = w1 + w8 + .. + w47; w7 is 0 where w0 is 0, else 256 or 128; and with L = w7: w2 ≤ 32L·w1,
/// w3 ≤ L·w1, w4 ≤ 32·w1, w5 ≤ 32L·w1, w6 ≤ (41L + 64L + 5100L)·w1. Nothing else is asked."
fn is_in_form(batch: &Batch) -> bool {
    let word = |index: usize| u128::from(batch[index]);
    let (parts, lanes) = (word(PARTS), word(EDITION));
    let refused: u128 = (REFUSED..BATCH_WORDS).map(word).sum();
    let edition_is_good = if batch[FED] == 0 { lanes == 0 } else { lanes == 256 || lanes == 128 };
    batch[FED] <= MOST_PARTS
        && word(FED) == parts + refused
        && edition_is_good
        && word(BITS) <= 32 * lanes * parts
        && word(LANES) <= lanes * parts
        && word(ROUNDS) <= 32 * parts
        && word(EMPTY) <= 32 * lanes * parts
        && word(WORDS) <= (41 + 64 + 5100) * lanes * parts
}

/// What a part adds: requested bits, lanes in use, rounds, empty rounds, script words.
fn gains(edition: Edition, set: &[u32], lanes: &Lanes, stages: u32) -> [(usize, u64); 5] {
    let rounds = rounds::rounds(lanes);
    let in_use = lanes.iter().filter(|lane| !lane.is_empty()).count();
    // "Lane and round with no pair".
    let empty: usize = lanes.iter().map(|lane| rounds - lane.len()).sum();
    [
        (BITS, rounds::bits(&rounds::pairs_of(set)).into()),
        (LANES, in_use as u64),
        (ROUNDS, rounds as u64),
        (EMPTY, empty as u64),
        (WORDS, edition.part_words(rounds as u64, stages.into())),
    ]
}

/// A part's lanes, those handed in or, where no words are, our search's; or the number and item of its own refusal: 5 where its stages
/// are none of 1 to 255, then 1, 2, 3, and 27, or 21, 22 and 4.
fn outcome(edition: Edition, set: &[u32], lanes: &[u32], stages: u32) -> Result<Lanes, (u32, u64)> {
    if !(1..=255).contains(&stages) {
        return Err((5, 0));
    }
    rounds::check_form(set)?;
    let pairs = rounds::pairs_of(set);
    if lanes.is_empty() {
        return rounds::pack(edition, &pairs).map(|packing| packing.lanes);
    }
    handed::outcome(edition, &pairs, lanes)
}

/// What a call leaves behind where it is not refused: the part was fed, refused or not.
#[derive(Debug, Clone, PartialEq, Eq)]
pub struct Fed {
    pub batch: Vec<u64>,
    /// The part's own refusal, or 0, and its item.
    pub number: u32,
    pub item: u64,
}

/// What feeding a part to a batch answers, with so many words of room. Refusals of the call: 32, 29, 5, 28, 14.
pub fn feed(
    set: &[u32],
    lanes: &[u32],
    room: usize,
    batch: &[u64],
    stages: u32,
    edition: u32,
) -> Result<Fed, Refused> {
    if room < SET_ROOM {
        return Err(Refused::plain(32));
    }
    let edition = Edition::numbered(edition).ok_or(Refused::plain(29))?;
    let mut words = read(batch);
    let is_of_another = words[FED] > 0 && words[EDITION] != u64::from(edition.number());
    if !is_in_form(&words) || is_of_another {
        return Err(Refused::plain(5));
    }
    if words[FED] == MOST_PARTS {
        return Err(Refused::plain(28));
    }
    if batch.len() < BATCH_WORDS {
        return Err(Refused::plain(14));
    }
    words[FED] += 1;
    words[EDITION] = edition.number().into();
    let (number, item) = match outcome(edition, set, lanes, stages) {
        Ok(lanes) => {
            words[PARTS] += 1;
            for (word, gain) in gains(edition, set, &lanes, stages) {
                words[word] += gain;
            }
            (0, 0)
        }
        Err((number, item)) => {
            words[REFUSED + number as usize] += 1;
            (number, item)
        }
    };
    // What lies behind a batch's words stays as it was.
    Ok(Fed { batch: [&words[..], &batch[BATCH_WORDS..]].concat(), number, item })
}

fn lines(batch: &Batch) -> String {
    let mut text = String::new();
    let names = [
        (PARTS, "parts"),
        (BITS, "bits"),
        (LANES, "lanes"),
        (ROUNDS, "rounds"),
        (EMPTY, "empty"),
        (WORDS, "words"),
    ];
    for (word, name) in names {
        text += &format!("{} {}\n", name, batch[word]);
    }
    // "Bits over 32·256·parts, not reduced."
    text += &format!("occupancy {} {}\n", batch[BITS], 32 * batch[EDITION] * batch[PARTS]);
    for (number, &count) in batch[REFUSED..].iter().enumerate().filter(|&(_, &count)| count > 0) {
        text += &format!("refused {} {}\n", number, count);
    }
    text
}

/// The report of a batch, with so many bytes for it. Refusals: 5, 14. A batch is no result here, so a short one is not refused by 14:
/// what is missing reads 0.
pub fn text(batch: &[u64], out: usize) -> Result<String, Refused> {
    let batch = read(batch);
    if !is_in_form(&batch) {
        return Err(Refused::plain(5));
    }
    let text = lines(&batch);
    if out < text.len() {
        return Err(Refused::plain(14));
    }
    Ok(text)
}

#[cfg(test)]
mod tests {
    use super::*;
    use crate::rounds::Pair;

    const M2: [u32; 6] = [0, 3, 1, 0x20, 1 << 31, 1];
    const NONE: [u64; BATCH_WORDS] = [0; BATCH_WORDS];

    /// A part of the full edition, lanes by our search.
    fn fed(batch: &[u64], set: &[u32], stages: u32) -> Fed {
        feed(set, &[], SET_ROOM, batch, stages, 256).expect("it is fed")
    }

    fn told(batch: &[u64]) -> String {
        text(batch, usize::MAX).expect("a batch in form")
    }

    fn set_of(counts: &[u32]) -> Vec<u32> {
        let mask = |bits: u32| (u64::from(u32::MAX) >> (32 - bits)) as u32;
        counts.iter().enumerate().flat_map(|(word, &bits)| [word as u32, mask(bits)]).collect()
    }

    /// "M2's set as one part of one stage gives the lines".
    #[test]
    fn m2_to_the_byte() {
        let batch = fed(&NONE, &M2, 1).batch;
        let lines = "parts 1\nbits 4\nlanes 3\nrounds 1\nempty 253\nwords 16128\noccupancy 4 8192\n";
        assert_eq!(told(&batch), lines);
        assert_eq!(text(&batch, lines.len()).unwrap(), lines);
        for out in [0, 1, lines.len() - 1] {
            assert_eq!(text(&batch, out), Err(Refused::plain(14)));
        }
        // "9/13's 32·256 reads 32·128".
        let small = feed(&M2, &[], SET_ROOM, &NONE, 1, 128).unwrap().batch;
        let lines = "parts 1\nbits 4\nlanes 3\nrounds 1\nempty 125\nwords 8064\noccupancy 4 4096\n";
        assert_eq!((told(&small), small[EDITION]), (lines.to_string(), 128));
    }

    /// "A batch of none prints zeros."
    #[test]
    fn a_batch_of_none() {
        let lines = "parts 0\nbits 0\nlanes 0\nrounds 0\nempty 0\nwords 0\noccupancy 0 0\n";
        for words in [0, 1, 47, 48, 60] {
            assert_eq!(told(&vec![0; words]), lines);
        }
    }

    /// Totals are sums; lanes that are handed in count as they are.
    #[test]
    fn totals_are_sums() {
        let mut batch = fed(&NONE, &M2, 3).batch;
        batch = fed(&batch, &set_of(&[vec![1; 256], vec![32]].concat()), 255).batch;
        // M5: lane 0 has word 256 alone, 255 lanes have one or two pairs, 2 rounds.
        let empty = 253 + (2 * 256 - 257);
        let words = (10496 + 512 + 5120 * 3) + (10496 + 512 * 2 + 5120 * 255);
        assert_eq!(batch[..8], [2, 2, 4 + 288, 3 + 256, 1 + 2, empty, words, 256]);
        // M2 in one lane: three rounds, two of each other lane and none of its own empty.
        let mut lanes: Lanes = vec![rounds::pairs_of(&M2)];
        lanes.resize(256, Vec::new());
        let handed = feed(&M2, &handed::words_of(&lanes), SET_ROOM, &batch, 1, 256).unwrap();
        assert_eq!((handed.number, handed.item), (0, 0));
        let words = words + 10496 + 512 * 3 + 5120;
        assert_eq!(
            handed.batch[..8],
            [3, 3, 4 + 288 + 4, 3 + 256 + 1, 1 + 2 + 3, empty + 3 * 255, words, 256]
        );
        assert!(handed.batch[8..].iter().all(|&count| count == 0));
        assert!(told(&handed.batch).ends_with("\noccupancy 296 24576\n"));
    }

    /// "Requested bits equal the sum of lane contents"; empty rounds are lanes·rounds less the pairs.
    #[test]
    fn bits_are_the_contents_of_lanes() {
        for edition in [Edition::FULL, Edition::SMALL] {
            let lanes_bits =
                |lanes: &[Vec<Pair>]| lanes.iter().map(|lane| u64::from(rounds::bits(lane))).sum::<u64>();
            for counts in
                [vec![1; 4096], vec![32; 128], vec![9; 300], vec![17; 100], (1..=32).collect::<Vec<u32>>()]
            {
                let set = set_of(&counts);
                let lanes = outcome(edition, &set, &[], 1).unwrap();
                let batch = feed(&set, &[], SET_ROOM, &NONE, 1, edition.number()).unwrap().batch;
                assert_eq!(batch[BITS], lanes_bits(&lanes));
                let pairs = counts.len() as u64;
                assert_eq!(batch[EMPTY], edition.lanes() as u64 * batch[ROUNDS] - pairs);
                assert!(is_in_form(&read(&batch)));
            }
        }
    }

    /// "A refused part adds only to its line; these follow in number order, where they occurred."
    #[test]
    fn refused_parts_have_their_lines() {
        let full: Vec<u32> = [vec![32; 254], vec![10, 16, 16, 11, 11]].concat();
        let (m4, many, missed) = (set_of(&[17; 257]), set_of(&[32; 257]), set_of(&full));
        let long: Vec<u32> = (0..8193).flat_map(|word| [word, 1]).collect();
        let no_lanes = [7, 0];
        let cases: [(&[u32], &[u32], u32, u32, u64); 13] = [
            (&missed, &[], 1, 4, 254),
            (&m4, &[], 255, 22, 0),
            (&many, &[], 1, 21, 0),
            (&M2, &no_lanes, 1, 27, 64),
            (&M2, &[7], 1, 27, 64),
            (&m4, &no_lanes, 1, 27, 64),
            (&[], &[], 1, 3, 0),
            (&[], &no_lanes, 1, 3, 0),
            (&[5, 1, 5, 1], &no_lanes, 1, 2, 1),
            (&long, &[], 1, 1, 0),
            (&long, &[], 0, 5, 0),
            (&M2, &[], 256, 5, 0),
            (&M2, &[], u32::MAX, 5, 0),
        ];
        let mut batch = fed(&NONE, &M2, 1).batch;
        for (set, lanes, stages, number, item) in cases {
            let after = feed(set, lanes, SET_ROOM, &batch, stages, 256).expect("it is fed");
            assert_eq!((after.number, after.item), (number, item));
            let mut expected = batch.clone();
            expected[FED] += 1;
            expected[8 + number as usize] += 1;
            assert_eq!(after.batch, expected);
            batch = after.batch;
        }
        let totals = "parts 1\nbits 4\nlanes 3\nrounds 1\nempty 253\nwords 16128\noccupancy 4 8192\n";
        let refused = "refused 1 1\nrefused 2 1\nrefused 3 2\nrefused 4 1\nrefused 5 3\n";
        let more = "refused 21 1\nrefused 22 1\nrefused 27 3\n";
        assert_eq!(told(&batch), [totals, refused, more].concat());
        // The first part sets the edition, refused or not.
        let first = fed(&NONE, &[], 1).batch;
        assert_eq!((first[FED], first[PARTS], first[EDITION], first[8 + 3]), (1, 0, 256, 1));
        assert!(told(&first).ends_with("\noccupancy 0 0\nrefused 3 1\n"));
        assert_eq!((fed(&NONE, &M2, 1).number, fed(&NONE, &M2, 255).number), (0, 0));
    }

    /// "At most 100,000 parts, refused ones included, fed one at a time. Refusals: 28 batch full, nothing added."
    #[test]
    fn a_batch_is_full_at_100_000() {
        let mut batch = NONE.to_vec();
        for part in 0..99_999 {
            batch = if part % 50 == 0 { fed(&batch, &M2, 1).batch } else { fed(&batch, &[], 1).batch };
        }
        let report =
            |fed: u64, parts: u64| {
                let (bits, lanes, empty, words, all) =
                    (4 * parts, 3 * parts, 253 * parts, 16128 * parts, 8192 * parts);
                format!(
                "parts {}\nbits {}\nlanes {}\nrounds {}\nempty {}\nwords {}\noccupancy {} {}\nrefused 3 {}\n",
                parts, bits, lanes, parts, empty, words, bits, all, fed - parts
            )
            };
        assert_eq!((batch[FED], told(&batch)), (99_999, report(99_999, 2000)));
        batch = fed(&batch, &M2, 1).batch;
        assert_eq!((batch[FED], told(&batch)), (100_000, report(100_000, 2001)));
        // The 100,001st, whatever it is; the part is not looked at.
        for (set, stages) in [(&M2[..], 1), (&[], 1), (&M2, 0)] {
            assert_eq!(feed(set, &[], SET_ROOM, &batch, stages, 256), Err(Refused::plain(28)));
        }
        assert_eq!((batch[FED], told(&batch)), (100_000, report(100_000, 2001)));
    }

    /// 100,000 parts of the most that a part can have are in form, and one of each more is not.
    #[test]
    fn the_form_at_its_limits() {
        for lanes in [256, 128] {
            for (parts, refused) in [(100_000, 0), (60_000, 40_000), (1, 0), (0, 1)] {
                let mut most = NONE;
                most[..8].copy_from_slice(&[
                    parts + refused,
                    parts,
                    32 * lanes * parts,
                    lanes * parts,
                    32 * parts,
                    32 * lanes * parts,
                    5205 * lanes * parts,
                    lanes,
                ]);
                most[47] = refused;
                assert!(is_in_form(&most));
                for word in 0..BATCH_WORDS {
                    for more in [1, u64::MAX - most[word]] {
                        let mut past = most;
                        past[word] += more;
                        assert_eq!(text(&past, usize::MAX), Err(Refused::plain(5)), "word {}", word);
                    }
                }
                // Fewer of a total are asked for nowhere.
                for word in BITS..=WORDS {
                    let mut fewer = most;
                    fewer[word] = 0;
                    assert!(is_in_form(&fewer));
                }
            }
        }
        // 100,001 fed; an edition of none fed, and none of some; sums that wrap.
        let with = |words: &[(usize, u64)]| {
            let mut batch = NONE;
            words.iter().for_each(|&(index, word)| batch[index] = word);
            is_in_form(&batch)
        };
        assert!(with(&[(0, 100_000), (1, 100_000), (7, 256)]));
        assert!(!with(&[(0, 100_001), (1, 100_001), (7, 256)]));
        assert!(!with(&[(0, 0), (7, 256)]) && !with(&[(0, 1), (1, 1)]) && !with(&[(0, 1), (1, 1), (7, 1)]));
        assert!(!with(&[(0, 1), (1, 2), (8, u64::MAX), (7, 256)]));
        assert!(!with(&[(0, 0), (8, 1 << 63), (9, 1 << 63)]));
    }

    /// 32, 29, 5 (the form, or a part of another edition), 28, 14.
    #[test]
    fn the_order_of_refusals() {
        let number = |room, batch: &[u64], edition| {
            feed(&M2, &[], room, batch, 1, edition).map_err(|refused| refused.number)
        };
        let good = fed(&NONE, &M2, 1).batch;
        let mut bad = good.clone();
        bad[0] = 7;
        let mut full = vec![0; BATCH_WORDS];
        (full[0], full[7], full[8 + 3]) = (MOST_PARTS, 256, MOST_PARTS);
        assert_eq!(number(SET_ROOM - 1, &bad, 0), Err(32));
        assert_eq!(number(SET_ROOM, &bad, 0), Err(29));
        assert_eq!(number(SET_ROOM, &bad, 256), Err(5));
        for edition in [0, 1, 127, 255, 257] {
            assert_eq!(number(SET_ROOM, &good, edition), Err(29));
        }
        assert_eq!((number(SET_ROOM, &good, 128), number(SET_ROOM, &full, 128)), (Err(5), Err(5)));
        assert_eq!(number(SET_ROOM, &full, 256), Err(28));
        // Fewer words than 48: missing ones read 0, 14 is last.
        assert_eq!((number(SET_ROOM, &good[..47], 256), number(SET_ROOM, &[], 256)), (Err(14), Err(14)));
        assert_eq!(number(SET_ROOM, &full[..12], 256), Err(28));
        assert_eq!((number(SET_ROOM, &full[..11], 256), number(SET_ROOM, &good[..7], 256)), (Err(5), Err(5)));
        assert_eq!(feed(&[], &[], SET_ROOM, &[], 0, 256), Err(Refused::plain(14)));
        // More: they stay as they are.
        let longer = [&good[..], &[77, 78]].concat();
        assert_eq!(fed(&longer, &M2, 1).batch[46..], [0, 0, 77, 78]);
        assert_eq!(told(&longer), told(&good));
        // The text: 5, then 14.
        assert_eq!((text(&bad, 0), text(&good, 0)), (Err(Refused::plain(5)), Err(Refused::plain(14))));
    }
}
