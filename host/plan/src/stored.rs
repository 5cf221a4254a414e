//! Plans and the scripts that GEM made of them, in a file between two programs of one `host/check`.

use crate::{Edition, Script};
use std::convert::TryInto;

/// A plan and its script.
pub struct Case {
    /// What the design is called.
    pub name: String,
    /// A staged pin lies in a duplicate word: document 01 refuses the plan by 12.
    pub staged_duplicate: bool,
    /// The plan record.
    pub record: Vec<u8>,
    /// What GEM made of it.
    pub script: Script,
}

/// The file of these cases.
#[must_use]
pub fn write(cases: &[Case]) -> Vec<u8> {
    let mut bytes = Vec::new();
    push_number(&mut bytes, cases.len() as u64);
    for case in cases {
        push_list(&mut bytes, case.name.as_bytes());
        push_number(&mut bytes, case.staged_duplicate as u64);
        push_list(&mut bytes, &case.record);
        push_number(&mut bytes, case.script.state_words);
        push_number(&mut bytes, case.script.sram_words);
        let starts: Vec<u8> = case.script.starts.iter().flat_map(|start| start.to_le_bytes()).collect();
        push_list(&mut bytes, &starts);
        push_list(&mut bytes, &crate::bytes(&case.script.words));
    }
    bytes
}

fn push_number(bytes: &mut Vec<u8>, number: u64) {
    bytes.extend(number.to_le_bytes());
}

fn push_list(bytes: &mut Vec<u8>, list: &[u8]) {
    push_number(bytes, list.len() as u64);
    bytes.extend(list);
}

/// The cases of a file, or what is wrong with it.
pub fn read(file: &[u8]) -> Result<Vec<Case>, String> {
    let mut bytes = file;
    let count = number(&mut bytes).ok_or("it ends within its number of plans")?;
    let mut cases = Vec::new();
    for index in 0..count {
        cases.push(case(&mut bytes).map_err(|what| format!("plan {} of {}: {}", index, count, what))?);
    }
    match bytes.len() {
        0 => Ok(cases),
        more => Err(format!("its plans are {} bytes, and it has {}", file.len() - more, file.len())),
    }
}

fn case(bytes: &mut &[u8]) -> Result<Case, String> {
    let ends = |what: &'static str| move || format!("it ends within {}", what);
    let name = list(bytes).ok_or_else(ends("its name"))?;
    let name = String::from_utf8(name.to_vec()).map_err(|_| "its name is no text")?;
    let staged_duplicate = match number(bytes).ok_or_else(ends("its mark"))? {
        mark @ 0..=1 => mark == 1,
        mark => return Err(format!("its mark is 0 or 1, not {}", mark)),
    };
    let record = list(bytes).ok_or_else(ends("its record"))?.to_vec();
    let state_words = number(bytes).ok_or_else(ends("its state words"))?;
    let sram_words = number(bytes).ok_or_else(ends("its SRAM words"))?;
    let starts = whole(list(bytes).ok_or_else(ends("its starts"))?, 8, "starts")?;
    let words = whole(list(bytes).ok_or_else(ends("its words"))?, 4, "words")?;
    let start = |bytes: &[u8]| u64::from_le_bytes(bytes.try_into().expect("eight bytes"));
    // What is no whole word of the record is refused with the plan.
    let blocks = record.get(..4).map_or(0, |word| u32::from_le_bytes(word.try_into().expect("four bytes")));
    let script = Script {
        // GEM's is the full one.
        edition: Edition::Full,
        blocks: blocks as usize,
        starts: starts.chunks(8).map(start).collect(),
        words: crate::script_file::words_of(words),
        state_words,
        sram_words,
        pieces: Vec::new(),
    };
    Ok(Case { name, staged_duplicate, record, script })
}

fn whole<'a>(list: &'a [u8], size: usize, what: &str) -> Result<&'a [u8], String> {
    match list.len() % size {
        0 => Ok(list),
        _ => Err(format!("{} bytes are no {}", list.len(), what)),
    }
}

fn number(bytes: &mut &[u8]) -> Option<u64> {
    let number = bytes.get(..8)?;
    *bytes = &bytes[8..];
    Some(u64::from_le_bytes(number.try_into().expect("eight bytes")))
}

fn list<'a>(bytes: &mut &'a [u8]) -> Option<&'a [u8]> {
    let length = usize::try_from(number(bytes)?).ok()?;
    let list = bytes.get(..length)?;
    *bytes = &bytes[length..];
    Some(list)
}
