//! Stored answers of the reference, which are of the full edition, for programs that run where GEM's sources, or Rust, are missing.
//!
//! The file is little-endian u32 words:
//!
//! ```text
//! C                   number of cases
//! then C cases, end to end:
//!   n                 number of pairs, 0..=8192
//!   n times           word, mask
//!   r                 number of rounds, 1..=32; or 0 where the set is refused
//!   r not 0: n times  32·lane + round of the pair, in the set's order (lane 0..=255, round 0..=31)
//!   r = 0:   once     the refusal's number, 3 or 4
//! ```

use model::edition::Edition;
use model::rounds::{self, Lanes, Packing, Pair};

pub enum Stored {
    Packed { rounds: u32, places: Vec<u32> },
    Refused(u32),
}

pub struct Case {
    pub pairs: Vec<Pair>,
    pub answer: Stored,
}

impl Case {
    /// What the reference answers for these pairs.
    pub fn ask(pairs: Vec<Pair>) -> Case {
        let answer = match rounds::outcome(Edition::FULL, &pairs, reference::search) {
            Ok(Packing { lanes, .. }) => {
                Stored::Packed { rounds: rounds::rounds(&lanes) as u32, places: places(&pairs, &lanes) }
            }
            Err((number, _)) => Stored::Refused(number),
        };
        Case { pairs, answer }
    }

    fn words(&self) -> Vec<u32> {
        let mut words = vec![self.pairs.len() as u32];
        words.extend(self.pairs.iter().flat_map(|&(word, mask)| [word, mask]));
        match &self.answer {
            Stored::Packed { rounds, places } => {
                words.push(*rounds);
                words.extend(places);
            }
            Stored::Refused(number) => words.extend([0, *number]),
        }
        words
    }
}

/// 32·lane + round of each pair.
fn places(pairs: &[Pair], lanes: &Lanes) -> Vec<u32> {
    let mut places = vec![0; pairs.len()];
    for (lane, reads) in lanes.iter().enumerate() {
        for (round, (word, _)) in reads.iter().enumerate() {
            let pair = pairs.binary_search_by_key(word, |&(word, _)| word).expect("a word of the set");
            places[pair] = (32 * lane + round) as u32;
        }
    }
    places
}

pub fn write(cases: &[Case]) -> Vec<u8> {
    let mut words = vec![cases.len() as u32];
    words.extend(cases.iter().flat_map(Case::words));
    words.iter().flat_map(|word| word.to_le_bytes()).collect()
}

/// Reads words one after another.
struct Reader<'a> {
    bytes: &'a [u8],
}

impl Reader<'_> {
    fn word(&mut self) -> Option<u32> {
        let bytes = self.bytes;
        let word = bytes.get(..4)?;
        self.bytes = &bytes[4..];
        Some(u32::from_le_bytes([word[0], word[1], word[2], word[3]]))
    }

    fn case(&mut self) -> Option<Case> {
        let count = self.word()?;
        let mut pairs = Vec::new();
        for _ in 0..count {
            pairs.push((self.word()?, self.word()?));
        }
        let answer = match self.word()? {
            0 => Stored::Refused(self.word()?),
            rounds => {
                let mut places = Vec::new();
                for _ in 0..count {
                    places.push(self.word()?);
                }
                Stored::Packed { rounds, places }
            }
        };
        Some(Case { pairs, answer })
    }
}

/// The cases of a file, or none where it has not the form.
pub fn read(bytes: &[u8]) -> Option<Vec<Case>> {
    let mut reader = Reader { bytes };
    let mut cases = Vec::new();
    for _ in 0..reader.word()? {
        cases.push(reader.case()?);
    }
    if reader.bytes.is_empty() {
        Some(cases)
    } else {
        None
    }
}
