//! Words in fewer bytes, for plan records that are stored in the repository.
//!
//! Each word is written as the difference d from the word before (0 before the first; sums wrap at 2^32). A file is
//! stretches, end to end. One that begins with the number 2n has one d, which holds for the next n words; one that
//! begins with 2n + 1 has n of them, one for each word. d is written as 2d where it is not below 0, else as -2d - 1. A
//! number is written in groups of seven bits, least first, each but the last with bit 7 set.

/// Words of equal difference from which on a stretch of their own is shorter.
const EQUAL: usize = 3;

/// The words, packed.
#[must_use]
pub fn pack(words: &[u32]) -> Vec<u8> {
    let before = [0].into_iter().chain(words.iter().copied());
    let differences: Vec<u32> =
        words.iter().zip(before).map(|(word, before)| word.wrapping_sub(before)).collect();
    let equal = |at: usize| differences[at..].iter().take_while(|&&d| d == differences[at]).count();
    let mut bytes = Vec::new();
    let mut at = 0;
    while at < differences.len() {
        let start = at;
        while at < differences.len() && equal(at) < EQUAL {
            at += 1;
        }
        if at > start {
            push_number(&mut bytes, 2 * (at - start) as u64 + 1);
            for &difference in &differences[start..at] {
                push_difference(&mut bytes, difference);
            }
        }
        if at < differences.len() {
            let length = equal(at);
            push_number(&mut bytes, 2 * length as u64);
            push_difference(&mut bytes, differences[at]);
            at += length;
        }
    }
    bytes
}

/// The words of packed bytes; none where the bytes have not the form, or are more than `most` words.
#[must_use]
pub fn unpack(mut bytes: &[u8], most: usize) -> Option<Vec<u32>> {
    let mut words = Vec::new();
    let mut before = 0u32;
    while !bytes.is_empty() {
        let begin = number(&mut bytes)?;
        let (length, one_each) = (begin / 2, begin % 2 == 1);
        if length > (most - words.len()) as u64 {
            return None;
        }
        let mut step = if one_each { 0 } else { difference(&mut bytes)? };
        for _ in 0..length {
            if one_each {
                step = difference(&mut bytes)?;
            }
            before = before.wrapping_add(step);
            words.push(before);
        }
    }
    Some(words)
}

fn push_difference(bytes: &mut Vec<u8>, difference: u32) {
    let signed = difference as i32;
    push_number(bytes, ((signed << 1) ^ (signed >> 31)) as u32 as u64);
}

fn difference(bytes: &mut &[u8]) -> Option<u32> {
    let written = number(bytes)? as u32;
    Some((written >> 1) ^ (written & 1).wrapping_neg())
}

fn push_number(bytes: &mut Vec<u8>, mut number: u64) {
    while number >= 128 {
        bytes.push(number as u8 | 128);
        number >>= 7;
    }
    bytes.push(number as u8);
}

fn number(bytes: &mut &[u8]) -> Option<u64> {
    let mut number = 0;
    for shift in 0..5 {
        let (&byte, rest) = bytes.split_first()?;
        *bytes = rest;
        number |= u64::from(byte & 127) << (7 * shift);
        if byte < 128 {
            return Some(number);
        }
    }
    None
}
