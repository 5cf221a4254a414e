//! Compares the library's join of read sets with the model's (GEM has none), and holds it to its laws.
//!
//! compare_join [SEED]    stops at the first difference

use compare::comparison::Comparison;
use compare::damage;
use compare::join_checker::JoinChecker;
use compare::sets::{self, STAGED, WORDS};
use compare::tally::Tally;
use juolgesot::{join_words, Edition, Rounds};
use random::Random;
use std::collections::BTreeMap;

const SEED: u64 = 20_240_820;
const MOST_PAIRS: usize = juolgesot::MOST_PAIRS;
/// Times that each refusal is to come.
const REFUSED: u64 = 50;

fn main() {
    let mut comparison = Comparison::begin("compare_join", "host/model", SEED);
    let random = &mut comparison.random;
    let mut checker = JoinChecker::new();
    let mut laws = Tally::new("laws, through the library");
    all_small(&mut checker);
    random_sets(&mut checker, random);
    boundaries(&mut checker, random);
    damaged(&mut checker, random);
    lengths(&mut checker, random);
    for _ in 0..3_000 {
        hold_laws(random, &mut laws);
    }
    for _ in 0..300 {
        positions(random, &mut laws);
    }
    for refused in ["refused 1", "refused 2", "refused 14"] {
        let times = checker.answers.times(refused);
        assert!(times >= REFUSED, "{} came {} times", refused, times);
    }
    comparison.finish("joins", &[&checker.kinds, &checker.answers, &laws]);
}

/// All pairs of sets of up to two words of a small family, each with every mask of another.
fn all_small(checker: &mut JoinChecker) {
    const SOME_WORDS: [u32; 5] = [0, 1, WORDS - 1, STAGED, STAGED + WORDS - 1];
    const SOME_MASKS: [u32; 4] = [1, 2, 0x8000_0001, u32::MAX];
    let one = |word: u32| SOME_MASKS.iter().map(move |&mask| vec![word, mask]);
    let mut small: Vec<Vec<u32>> = vec![Vec::new()];
    for (index, &word) in SOME_WORDS.iter().enumerate() {
        small.extend(one(word));
        for &other in &SOME_WORDS[index + 1..] {
            small.extend(
                one(word).flat_map(|first| one(other).map(move |second| [&first[..], &second].concat())),
            );
        }
    }
    for a in &small {
        checker.check_with_itself("every small set with itself", a, 0);
        for b in &small {
            checker.check("all pairs of sets of up to 2 words", a, b, 0);
        }
    }
}

/// A set of up to so many pairs whose words are mostly those of another: the other's, some taken away, some changed, some new.
fn near(random: &mut Random, set: &[u32], most: usize) -> Vec<u32> {
    let mut pairs: BTreeMap<u32, u32> = set.chunks(2).map(|pair| (pair[0], pair[1])).collect();
    pairs.retain(|_, _| !random.chance(3));
    for mask in pairs.values_mut() {
        if random.chance(2) {
            *mask = random.word() | 1;
        }
    }
    for _ in 0..random.below(1 + set.len() / 4) {
        let (word, mask) =
            (random.below(WORDS as usize) as u32 | random.pick(&[0, STAGED]), random.word() | 1);
        pairs.insert(word, mask);
    }
    pairs.into_iter().take(most).flat_map(|(word, mask)| [word, mask]).collect()
}

fn random_sets(checker: &mut JoinChecker, random: &mut Random) {
    for round in 0..20_000 {
        let pairs = if round % 100 == 0 { random.between(100, 3000) } else { random.between(0, 40) };
        let a = sets::any(random, pairs);
        let b = match random.below(4) {
            0 => sets::any(random, pairs / 2),
            1 => Vec::new(),
            _ => near(random, &a, MOST_PAIRS),
        };
        let more = random.pick(&[0, 0, 1, 37]);
        checker.check("random", &a, &b, more);
        checker.check("random, the other way round", &b, &a, more);
        checker.check_with_itself("random, with itself", &a, more);
    }
}

/// So many words from one on, each so far from the next.
fn row(random: &mut Random, from: u32, apart: u32, pairs: usize) -> Vec<u32> {
    (0..pairs as u32).flat_map(|index| [from + apart * index, random.word() | 1]).collect()
}

/// Joins of 8191 to 8194 pairs, words of both counted once.
fn boundaries(checker: &mut JoinChecker, random: &mut Random) {
    for joined in [8191, 8192, 8193, 8194] {
        let kind = format!("{} pairs in all", joined);
        for _ in 0..30 {
            let of_first =
                random.between((joined.max(MOST_PAIRS) - MOST_PAIRS).max(1), joined.min(MOST_PAIRS) - 1);
            // Side by side, or behind each other, staged or not.
            let (start, staged) = (random.below(1000) as u32, random.pick(&[0, STAGED]));
            let a = row(random, start, 1, of_first);
            let mut b = row(random, staged + start + of_first as u32, 1, joined - of_first);
            if random.chance(2) {
                let both = words_of(random, &a, MOST_PAIRS + of_first - joined);
                b = model::joins::join(&b, &both);
            }
            checker.check(&kind, &a, &b, 0);
            checker.check(&kind, &b, &a, random.pick(&[0, 5, -1, -2]));
        }
    }
    for _ in 0..10 {
        let apart = random.pick(&[1, 2, 1000]);
        let full = row(random, 0, apart, MOST_PAIRS);
        let some = near(random, &full, 50);
        let inside = words_of(random, &full, MOST_PAIRS);
        checker.check_with_itself("8192 pairs with themselves", &full, 0);
        checker.check("8192 pairs and none", &full, &[], 0);
        checker.check("none and 8192 pairs", &[], &full, 0);
        checker.check("8192 pairs and words of theirs", &full, &inside, 0);
        checker.check("words of theirs and 8192 pairs", &inside, &full, 0);
        checker.check("8192 pairs and others", &full, &some, 0);
    }
    checker.check("none and none", &[], &[], 0);
}

/// Up to so many of the set's words, with other masks.
fn words_of(random: &mut Random, set: &[u32], most: usize) -> Vec<u32> {
    let some: Vec<u32> = set.chunks(2).map(|pair| pair[0]).filter(|_| random.chance(3)).take(most).collect();
    some.into_iter().flat_map(|word| [word, random.word() | 1]).collect()
}

/// Damage in the first set, in the second, and in both: the first is told.
fn damaged(checker: &mut JoinChecker, random: &mut Random) {
    for kind in damage::KINDS {
        for round in 0..300 {
            let pairs = if round % 50 == 0 { random.between(200, 8192) } else { random.between(1, 20) };
            let (a, b) = (sets::any(random, pairs), sets::any(random, pairs.min(60)));
            let (bad_a, bad_b) = (damage::damaged(random, &a, kind), damage::damaged(random, &b, kind));
            let other_kind = random.pick(&damage::KINDS);
            let other = damage::damaged(random, &b, other_kind);
            let more = random.pick(&[0, 5, -1, -1000]);
            checker.check(&format!("first damaged: {}", kind), &bad_a, &b, more);
            checker.check(&format!("second damaged: {}", kind), &a, &bad_b, more);
            checker.check("both damaged", &bad_a, &other, more);
            checker.check("both damaged", &other, &bad_a, more);
            checker.check("damaged, and the empty set", &bad_a, &[], more);
            checker.check("the empty set, and damaged", &[], &bad_b, more);
        }
    }
    // 1 comes before 2 in each set, the first before the second, and a half pair counts.
    for _ in 0..20 {
        let pairs = 8193 + random.pick(&[0, 1, 800]);
        let long = sets::any(random, pairs);
        let bad_long = damage::damaged(random, &long, "two words swapped");
        let pairs = random.between(1, 30);
        let good = sets::any(random, pairs);
        let bad = damage::damaged(random, &good, "a mask of 0");
        for set in [&long, &bad_long, &long[..2 * MOST_PAIRS + 1].to_vec()] {
            for other in [&good, &bad, &bad_long, &Vec::new()] {
                checker.check("over 8192 pairs in a set", set, other, 0);
                checker.check("over 8192 pairs in a set", other, set, 0);
            }
        }
        let half = long[..2 * MOST_PAIRS - 1].to_vec();
        checker.check("8192 pairs, the last a half", &half, &good, 0);
        checker.check("8192 pairs, the last a half", &good, &half, 0);
    }
}

/// Results around the length that is needed; every refusal but 14 comes before.
fn lengths(checker: &mut JoinChecker, random: &mut Random) {
    for _ in 0..4_000 {
        let pairs = random.between(0, 30);
        let a = sets::any(random, pairs);
        let b = near(random, &a, MOST_PAIRS);
        let more = random.pick(&[0, 1, 2, 100, -1, -2, -3, -1000]);
        checker.check("result around what is needed", &a, &b, more);
    }
}

fn joined(a: &[u32], b: &[u32]) -> Vec<u32> {
    join_words(a, b).unwrap_or_else(|refusal| {
        println!("DIFFERENCE: a join of sets in form: {}", refusal);
        std::process::exit(1);
    })
}

fn hold(law: &str, laws: &mut Tally, found: &[u32], expected: &[u32]) {
    if found != expected {
        println!("DIFFERENCE ({}): {:x?}, expected {:x?}", law, found, expected);
        std::process::exit(1);
    }
    laws.count(law);
}

/// "Order and grouping don't change the set, joining a set with itself or the empty one changes nothing."
fn hold_laws(random: &mut Random, laws: &mut Tally) {
    let pairs = random.between(0, 60);
    let a = sets::any(random, pairs);
    let (b, c) = (near(random, &a, 100), near(random, &a, 100));
    hold("order", laws, &joined(&a, &b), &joined(&b, &a));
    hold("grouping", laws, &joined(&joined(&a, &b), &c), &joined(&a, &joined(&b, &c)));
    hold("with itself", laws, &joined(&a, &a), &a);
    hold("with the empty set", laws, &joined(&a, &[]), &a);
    hold("the empty set with it", laws, &joined(&[], &a), &a);
    hold("with what it was joined of", laws, &joined(&joined(&a, &b), &b), &joined(&a, &b));
}

/// A position: unstaged (1) or staged (2).
type Position = (u8, u32);

fn listing(edition: Edition, positions: &[Position]) -> Vec<u8> {
    let mut records = Vec::new();
    for (kind, position) in positions {
        records.push(*kind);
        records.extend(position.to_le_bytes());
    }
    records.push(0);
    juolgesot::list(&records, edition).unwrap_or_else(|refusal| {
        println!("DIFFERENCE: a listing: {}", refusal);
        std::process::exit(1);
    })
}

/// "Positions taken in any order give the same pairs": the listing's text is the same in any order and with repeats. And the join of
/// the sets of single positions, in yet another order, is packed into the very lanes that the listing prints.
fn positions(random: &mut Random, laws: &mut Tally) {
    let end = random.pick(&[300, 20_000, u32::MAX as usize]);
    let count = random.between(1, 60);
    let mut positions: Vec<Position> =
        (0..count).map(|_| (random.pick(&[1, 2]), random.below(end) as u32)).collect();
    let edition = random.pick(&Edition::BOTH);
    let text = listing(edition, &positions);
    let repeated = random.pick(&positions);
    positions.push(repeated);
    random.shuffle(&mut positions);
    same_text(laws, "positions in another order", &listing(edition, &positions), &text);

    random.shuffle(&mut positions);
    let one =
        |&(kind, position): &Position| vec![position >> 5 | u32::from(kind - 1) << 31, 1 << (position & 31)];
    let set = positions.iter().map(one).fold(Vec::new(), |set, one| joined(&set, &one));
    let pairs: Vec<(u32, u32)> = set.chunks(2).map(|pair| (pair[0], pair[1])).collect();
    let packed = juolgesot::read_rounds(&pairs, edition).expect("so few positions are packed");
    same_text(laws, "single positions joined, and packed", lines(&packed).as_bytes(), &text);
}

fn same_text(laws: &mut Tally, law: &str, found: &[u8], expected: &[u8]) {
    if found != expected {
        println!("DIFFERENCE ({}):", law);
        println!("{}expected:\n{}", String::from_utf8_lossy(found), String::from_utf8_lossy(expected));
        std::process::exit(1);
    }
    laws.count(law);
}

/// The listing's lines of a packing.
fn lines(packed: &Rounds) -> String {
    let mut text = format!("rounds {}\n", packed.rounds);
    for lane in 0..packed.edition.lanes() {
        for (round, (word, mask)) in
            (0..packed.rounds).filter_map(|round| Some((round, packed.read(lane, round)?)))
        {
            let kind = if word >> 31 == 0 { 'n' } else { 's' };
            text += &format!("{} {} {} {} {:08x}\n", lane, round, kind, word & !STAGED, mask);
        }
    }
    text
}
