//! Read sets to compare on. A set is flat words: word, mask, word, mask ..

use model::edition::Edition;
use random::Random;

pub const STAGED: u32 = 1 << 31;
/// A word without its flag is below this.
pub const WORDS: u32 = 1 << 27;

/// A mask of so many bits, 1 to 32.
pub fn mask(random: &mut Random, bits: u32) -> u32 {
    if bits > 16 {
        return if bits == 32 { u32::MAX } else { !mask(random, 32 - bits) };
    }
    let mut mask = 0u32;
    while mask.count_ones() < bits {
        mask |= 1 << random.below(32);
    }
    mask
}

/// So many ascending words below 2^27: from 0 on, up to the last, or with gaps.
fn plain_words(random: &mut Random, count: usize) -> Vec<u32> {
    let (start, gap) = match random.below(4) {
        0 => (0, 1),
        1 => (WORDS - count as u32, 1),
        _ => {
            let scale = 1 << random.between(1, 20);
            let gap = random.between(1, (WORDS as usize / (count + 1)).min(scale));
            (random.below(WORDS as usize - gap * count) as u32, gap)
        }
    };
    let word = |index: usize| start + (index * gap) as u32;
    if gap == 1 {
        return (0..count).map(word).collect();
    }
    (0..count).map(|index| word(index) + random.below(gap) as u32).collect()
}

/// So many ascending words: unstaged, staged, or first some unstaged and then staged ones.
pub fn words(random: &mut Random, count: usize) -> Vec<u32> {
    let unstaged = match random.below(4) {
        0 => count,
        1 => 0,
        _ => random.between(0, count),
    };
    let mut words = plain_words(random, unstaged);
    words.extend(plain_words(random, count - unstaged).iter().map(|word| word | STAGED));
    words
}

/// A set whose i-th pair asks for `bits[i]` bits.
pub fn with_bits(random: &mut Random, bits: &[u32]) -> Vec<u32> {
    let words = words(random, bits.len());
    words.iter().zip(bits).flat_map(|(&word, &count)| [word, mask(random, count)]).collect()
}

pub fn total_bits(set: &[u32]) -> usize {
    set.chunks(2).map(|pair| pair[1].count_ones() as usize).sum()
}

/// M1 to M5 of document 01, with the lanes of an edition in the place of 256.
pub fn marked(edition: Edition) -> Vec<Vec<u32>> {
    let lanes = edition.number();
    let even = |count: u32, mask: u32| -> Vec<u32> { (0..count).flat_map(|word| [word, mask]).collect() };
    let mut m5 = even(lanes, 1);
    m5.extend([lanes, u32::MAX]);
    vec![vec![], vec![0, 3, 1, 1 << 5, STAGED, 1], even(lanes, 0x1_FFFF), even(lanes + 1, 0x1_FFFF), m5]
}

/// 8192 bits with a packing (words 255 and 256 share a lane; 254, 257 and 258 another) that no piece size finds: the try of size 1
/// stops at word 254. Of the small edition 128 words fewer.
pub fn missed(edition: Edition) -> Vec<u32> {
    let bits = [vec![32; edition.lanes() - 2], vec![10, 16, 16, 11, 11]].concat();
    (0..).zip(bits).flat_map(|(word, bits)| [word, u32::MAX >> (32 - bits)]).collect()
}

/// Every set of up to three words of a small family, each with every mask of another.
pub fn every_small_set(mut see: impl FnMut(&[u32])) {
    const SOME_WORDS: [u32; 6] = [0, 1, WORDS - 1, STAGED, STAGED + 1, STAGED + WORDS - 1];
    const SOME_MASKS: [u32; 8] = [1, 1 << 31, 3, 0xFFFF, 0x1_FFFF, 0xAAAA_AAAA, u32::MAX >> 1, u32::MAX];
    fn extend(set: &mut Vec<u32>, from: usize, see: &mut dyn FnMut(&[u32])) {
        see(set);
        if set.len() == 6 {
            return;
        }
        for index in from..SOME_WORDS.len() {
            for mask in SOME_MASKS {
                set.extend([SOME_WORDS[index], mask]);
                extend(set, index + 1, see);
                set.truncate(set.len() - 2);
            }
        }
    }
    extend(&mut Vec::new(), 0, &mut see);
}

/// Bit counts that sum to the total, each drawn until it is used up.
pub fn bits_summing_to(
    random: &mut Random,
    total: usize,
    mut draw: impl FnMut(&mut Random) -> u32,
) -> Vec<u32> {
    let mut left = total as u32;
    let mut bits = Vec::new();
    while left > 0 {
        let next = draw(random).min(left);
        bits.push(next);
        left -= next;
    }
    bits
}

/// Any set of so many pairs.
pub fn any(random: &mut Random, pairs: usize) -> Vec<u32> {
    let bits: Vec<u32> = (0..pairs).map(|_| random.between(1, 32) as u32).collect();
    with_bits(random, &bits)
}

/// So many pairs, each of one of a few bit counts: those at which lanes just do or don't hold two.
pub fn wide(random: &mut Random, pairs: usize) -> Vec<u32> {
    let family: &[u32] = random.pick(&[
        &[16, 17][..],
        &[17],
        &[31, 32],
        &[16],
        &[32],
        &[1, 31],
        &[16, 17, 31, 32],
        &[1, 15, 16, 17, 31, 32],
    ]);
    let bits: Vec<u32> = (0..pairs).map(|_| random.pick(family)).collect();
    with_bits(random, &bits)
}

/// A set of so many bits in all, in one of several shapes.
pub fn of_total(random: &mut Random, total: usize) -> Vec<u32> {
    let most = random.pick(&[1, 2, 3, 4, 8, 16, 17, 31, 32]);
    let bits = match random.below(3) {
        0 => bits_summing_to(random, total, |_| most),
        1 => bits_summing_to(random, total, |random| random.between(1, most as usize) as u32),
        _ => {
            let mut bits = bits_summing_to(random, total, |random| if random.chance(4) { most } else { 1 });
            let cut = random.below(bits.len());
            bits.rotate_left(cut);
            bits
        }
    };
    if bits.len() > 8192 {
        return of_total(random, total);
    }
    with_bits(random, &bits)
}

/// Runs of equal bit counts, small ones tending to come first: the large piece sizes put the small
/// ones everywhere and then lack room for the large, while smaller sizes may win.
pub fn runs(random: &mut Random, edition: Edition) -> Vec<u32> {
    let mut lanes_left = random.between(edition.lanes() - 16, edition.lanes());
    let mut bits: Vec<u32> = Vec::new();
    while lanes_left > 0 {
        let count = random.pick(&[1, 1, 2, 3, 4, 5, 8, 10, 15, 16, 17, 20, 31, 32, 32]);
        let scale = 1 << random.between(0, 8);
        let lanes = random.between(1, lanes_left.min(scale));
        for _ in 0..lanes * (32 / count as usize) {
            bits.push(count);
        }
        lanes_left -= lanes;
    }
    match random.below(4) {
        0 => bits.sort_unstable(),
        1 => bits.reverse(),
        _ => {}
    }
    with_bits(random, &bits)
}

/// Words of few bits, then some of many (the shape of M5).
pub fn few_then_many(random: &mut Random, edition: Edition) -> Vec<u32> {
    let lanes = edition.lanes();
    let few = random.between(1, 4) as u32;
    let many = random.between(20, 32) as u32;
    let many_count = random.between(1, lanes * 25 / 32);
    let few_most = (lanes - many_count) * (32 / few as usize) + many_count * ((32 - many) / few) as usize;
    let few_count = random.between(few_most / 2, few_most);
    let mut bits = vec![few; few_count];
    bits.extend(vec![many; many_count]);
    with_bits(random, &bits)
}

/// As many bits as fill the lanes exactly, so that there is a packing: lanes of one word, of two halves, and of 11, 11 and 10 bits. The
/// search misses many of them.
pub fn exactly_full(random: &mut Random, edition: Edition) -> Vec<u32> {
    let (halves, thirds) = (random.between(1, 6), random.between(1, 6));
    let mut bits = vec![32; edition.lanes() - halves - thirds];
    bits.extend([16, 16].repeat(halves));
    bits.extend([11, 11, 10].repeat(thirds));
    random.shuffle(&mut bits);
    with_bits(random, &bits)
}

/// So many words of 17 bits or more, and words of fewer bits beside them: at most as many in all as the lanes hold.
pub fn so_many_wide(random: &mut Random, edition: Edition, wide: usize) -> Vec<u32> {
    let mut left = (edition.slots() - 17 * wide) as u32;
    let mut bits: Vec<u32> = Vec::new();
    for _ in 0..wide {
        let any = random.below(16) as u32;
        let more = random.pick(&[0, 0, 1, any]).min(left);
        bits.push(17 + more);
        left -= more;
    }
    for _ in 0..random.below(200) {
        let few = (random.between(1, 16) as u32).min(left);
        if few > 0 {
            bits.push(few);
            left -= few;
        }
    }
    random.shuffle(&mut bits);
    with_bits(random, &bits)
}
