//! A script in a file: 8 bytes `JUOLGES2`; u64 edition (its lanes), blocks, starts, words, state words, SRAM words; then the starts
//! (u64 each), then the words (u32 each). All little-endian.

use crate::{Edition, Script};
use std::convert::TryInto;

const MARK: &[u8; 8] = b"JUOLGES2";
/// The mark and six numbers.
const HEAD: usize = 56;

/// The file of a script.
#[must_use]
pub fn bytes(script: &Script) -> Vec<u8> {
    let mut bytes = MARK.to_vec();
    let [blocks, starts, words] =
        [script.blocks, script.starts.len(), script.words.len()].map(|count| count as u64);
    let edition = script.edition.number().into();
    for number in [edition, blocks, starts, words, script.state_words, script.sram_words] {
        bytes.extend(number.to_le_bytes());
    }
    bytes.extend(script.starts.iter().flat_map(|start| start.to_le_bytes()));
    bytes.extend(crate::bytes(&script.words));
    bytes
}

/// Whether a file says that it is a script.
#[must_use]
pub fn begins(bytes: &[u8]) -> bool {
    bytes.starts_with(MARK)
}

/// "Plan ranges": blocks and major stages of a plan, and words of a state.
const MOST_BLOCKS: u64 = 1024;
const MOST_STAGES: u64 = 64;
const MOST_STATE_WORDS: u64 = 1 << 27;

/// The script of a file, or what is wrong with it. There is a block or more, and the starts are those of whole major
/// stages and the end.
pub fn read(bytes: &[u8]) -> Result<Script, String> {
    if !bytes.starts_with(MARK) {
        return Err("it does not begin with JUOLGES2".to_string());
    }
    let head = bytes.get(8..HEAD).ok_or("it ends within its numbers")?;
    let numbers: Vec<u64> = head.chunks(8).map(number).collect();
    let [edition, blocks, starts, words, state_words, sram_words] = [0, 1, 2, 3, 4, 5].map(|at| numbers[at]);
    let lists = &bytes[HEAD..];
    let length =
        starts.checked_mul(8).zip(words.checked_mul(4)).and_then(|(one, other)| one.checked_add(other));
    if length != Some(lists.len() as u64) {
        return Err(format!("{} starts and {} words are not {} bytes", starts, words, lists.len()));
    }
    let known = u32::try_from(edition).ok().and_then(Edition::numbered);
    let edition = known.ok_or_else(|| format!("its edition is 256 or 128, not {}", edition))?;
    if !(1..=MOST_BLOCKS).contains(&blocks) {
        return Err(format!("its blocks are 1 to {}, not {}", MOST_BLOCKS, blocks));
    }
    if starts <= blocks || (starts - 1) % blocks != 0 || (starts - 1) / blocks > MOST_STAGES {
        return Err(format!(
            "{} starts are none of 1 to {} major stages of {} blocks",
            starts, MOST_STAGES, blocks
        ));
    }
    if state_words > MOST_STATE_WORDS {
        return Err(format!("its state words are 0 to {}, not {}", MOST_STATE_WORDS, state_words));
    }
    let (starts, words) = lists.split_at(8 * starts as usize);
    Ok(Script {
        edition,
        blocks: blocks as usize,
        starts: starts.chunks(8).map(number).collect(),
        words: words_of(words),
        state_words,
        sram_words,
        pieces: Vec::new(),
    })
}

fn number(bytes: &[u8]) -> u64 {
    u64::from_le_bytes(bytes.try_into().expect("eight bytes"))
}

/// Whole words; what is left over is left out.
#[must_use]
pub fn words_of(bytes: &[u8]) -> Vec<u32> {
    bytes.chunks_exact(4).map(|word| u32::from_le_bytes([word[0], word[1], word[2], word[3]])).collect()
}
