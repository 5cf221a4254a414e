//! Compares the local positions that the library tells with the places to which the words of its rounds, and the reference's, bring each bit.
//!
//! compare_local [SEED]    stops at the first difference

use compare::comparison::Comparison;
use compare::damage;
use compare::local_checker::{Bit, LocalChecker, ASKED, UNASKED};
use compare::sets::{self, STAGED};
use compare::{Dose, UNKNOWN};
use juolgesot::SET_ROOM;
use random::Random;

const SEED: u64 = 20_240_903;
/// Times that each refusal is to come, and bits of either kind.
const REFUSED: u64 = 50;
const BITS: u64 = 10_000;

fn main() {
    let mut comparison = Comparison::begin("compare_local", reference::NAME, SEED);
    let checkers = Dose::BOTH.map(|dose| {
        let mut checker = LocalChecker::new();
        let random = &mut comparison.random;
        marked(&mut checker, random, dose);
        random_sets(&mut checker, random, dose);
        large_sets(&mut checker, random, dose);
        refused_sets(&mut checker, random, dose);
        for number in [32, 29, 1, 2, 3, 21, 22, 4] {
            let times = checker.answers.times(&format!("refused {}", number));
            assert!(times >= dose.least(REFUSED), "refusal {} came {} times", number, times);
        }
        for kind in [ASKED, UNASKED] {
            let times = checker.answers.times(kind);
            assert!(times >= dose.least(BITS), "{}: {} times", kind, times);
        }
        checker
    });
    let told: Vec<_> =
        Dose::BOTH.into_iter().zip(&checkers).map(|(dose, c)| (dose, vec![&c.kinds, &c.answers])).collect();
    comparison.finish_both("bits", &told);
}

/// The bits that a set asks for.
fn asked(set: &[u32]) -> Vec<Bit> {
    let bits = |pair: &[u32]| {
        let (word, mask) = (pair[0], pair[1]);
        (0..32).filter(move |k| mask >> k & 1 == 1).map(move |k| (word, k))
    };
    set.chunks_exact(2).flat_map(bits).collect()
}

/// So many of the set's words with bits that it does not ask for: others of the word, those above 31, the same in the word beside it and in the other state.
fn unasked(random: &mut Random, set: &[u32], most: usize) -> Vec<Bit> {
    let words: Vec<u32> = set.chunks_exact(2).map(|pair| pair[0]).collect();
    let asked: std::collections::HashSet<Bit> = asked(set).into_iter().collect();
    let mut bits = Vec::new();
    for _ in 0..most {
        let word = random.pick(&words);
        let k = random.below(32) as u32;
        bits.push(match random.below(8) {
            0 => (word, random.pick(&[32, 33, 63, 64, 32 + k, 1 << 31, u32::MAX])),
            1 => (word ^ STAGED, k),
            2 => (word.wrapping_add(1), k),
            3 => (word.wrapping_sub(1), k),
            4 => (random.word(), k),
            _ => (word, k),
        });
    }
    bits.retain(|bit| !asked.contains(bit));
    bits
}

/// Up to so many of them, drawn.
fn some(random: &mut Random, mut bits: Vec<Bit>, most: usize) -> Vec<Bit> {
    random.shuffle(&mut bits);
    bits.truncate(most);
    bits
}

fn any_room(random: &mut Random) -> usize {
    SET_ROOM + random.pick(&[0, 0, 0, 1, 77])
}

/// M2, M3 and M5 of document 01, each bit of M2 and M5; and M1 and M4, which are refused.
fn marked(checker: &mut LocalChecker, random: &mut Random, dose: Dose) {
    let edition = dose.edition.number();
    for set in sets::marked(dose.edition) {
        let bits = [asked(&set), vec![(0, 31), (1, 4), (2, 0), (STAGED, 1)]].concat();
        let bits = some(random, bits, 300);
        checker.check("M1 to M5", &set, edition, SET_ROOM, true, &bits);
    }
}

fn check_set(
    checker: &mut LocalChecker,
    random: &mut Random,
    kind: &str,
    set: &[u32],
    edition: u32,
    most: usize,
) {
    let (room, is_zero) = (any_room(random), !random.chance(4));
    let bits = some(random, asked(set), most);
    checker.check(kind, set, edition, room, is_zero, &bits);
    let bits = unasked(random, set, most);
    checker.check(&format!("{}: bits not asked for", kind), set, edition, room, is_zero, &bits);
}

fn random_sets(checker: &mut LocalChecker, random: &mut Random, dose: Dose) {
    for round in 0..dose.times(1_000) {
        let pairs = random.between(1, 40);
        let set = if random.chance(2) { sets::any(random, pairs) } else { sets::wide(random, pairs) };
        // Each bit of some sets, some bits of the others.
        let most = if round % 50 == 0 { 640 } else { 16 };
        check_set(checker, random, "1 to 40 pairs", &set, dose.edition.number(), most);
    }
}

/// Lanes of several rounds, and searches that fall back.
fn large_sets(checker: &mut LocalChecker, random: &mut Random, dose: Dose) {
    let (lanes, slots) = (dose.edition.lanes(), dose.edition.slots());
    for round in 0..dose.times(180) {
        let set = match round % 6 {
            0 => {
                let pairs = random.between(lanes + 1, lanes * 2 - 12);
                sets::wide(random, pairs)
            }
            1 => sets::few_then_many(random, dose.edition),
            2 => sets::runs(random, dose.edition),
            3 => sets::of_total(random, slots * 7 / 8),
            4 => sets::with_bits(random, &vec![1; slots]),
            _ => {
                let bits: Vec<u32> = (0..random.between(slots / 8, slots * 3 / 8))
                    .map(|_| random.between(1, 4) as u32)
                    .collect();
                sets::with_bits(random, &bits)
            }
        };
        check_set(checker, random, "large sets", &set, dose.edition.number(), 24);
    }
}

/// Every refusal, 32 before all others and 29 before all but it.
fn refused_sets(checker: &mut LocalChecker, random: &mut Random, dose: Dose) {
    let missed = sets::missed(dose.edition);
    for round in 0..dose.times(210) {
        let set = match round % 7 {
            0 => Vec::new(),
            1 => sets::any(random, 8193),
            2 => sets::of_total(random, dose.edition.slots() + 1),
            3 => sets::so_many_wide(random, dose.edition, dose.edition.lanes() + 1),
            4 => missed.clone(),
            5 => {
                let pairs = random.between(1, 20);
                let set = sets::any(random, pairs);
                let kind = random.pick(&damage::KINDS);
                damage::damaged(random, &set, kind)
            }
            _ => sets::any(random, 10),
        };
        let bits =
            [some(random, asked(&set), 3), vec![(0, 0), (random.word(), random.below(40) as u32)]].concat();
        let room = if round % 7 == 6 { random.pick(&[0, 1, 8192, SET_ROOM - 1]) } else { any_room(random) };
        let edition = dose.edition.number();
        checker.check("refused", &set, edition, room, random.chance(2), &bits);
        let (room, unknown) = (random.below(SET_ROOM), random.pick(&UNKNOWN));
        checker.check("room too short", &set, random.pick(&[edition, unknown]), room, true, &bits[..1]);
        checker.check("unknown edition", &set, unknown, any_room(random), random.chance(2), &bits[..1]);
    }
}
