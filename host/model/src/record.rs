//! The plan record; refusal 29, and 5: "a number outside 'Plan ranges', slots excepted; unknown kind; a list not as
//! long as its count". Words of requests that have not landed are 0, else 5.

use crate::edition::Edition;
use crate::Refused;

pub const EMPTY: u32 = u32::MAX;
pub const MOST_PIN: u32 = 1 << 30;
/// An inverted pin number is 2·pin plus 0 or 1.
pub const MOST_INVERTED_PIN: u32 = 2 * MOST_PIN + 1;
/// Words of a plan's room without those of its parts.
pub const PLAN_ROOM: u64 = 65536;
pub const PART_ROOM: u64 = 16;
/// Words of the head, of a gate, of a position, of a part's head and of an endpoint.
const HEAD: usize = 9;
pub const GATE: usize = 3;
pub const POSITION: usize = 4;
const PART_HEAD: usize = 4;
pub const ENDPOINT: usize = 4;
/// The word of the head that names the edition.
const EDITION: usize = 5;

/// A plan in form, over the words of its record.
pub struct Plan<'a> {
    pub edition: Edition,
    pub blocks: usize,
    /// Parts of each major stage.
    pub major_parts: Vec<usize>,
    /// Pin, first fan-in, second fan-in.
    pub gates: &'a [u32],
    pub layout: &'a [u32],
    /// Pin, state position, mark, 0.
    pub positions: &'a [u32],
    /// Counted on through the major stages.
    pub parts: Vec<Part<'a>>,
}

pub struct Part<'a> {
    pub major: usize,
    /// Kind, x, y, and a word that is not looked at.
    pub endpoints: &'a [u32],
    pub stages: Vec<Stage<'a>>,
    pub sram_table: &'a [u32],
    pub enable_table: &'a [u32],
}

pub struct Stage<'a> {
    edition: Edition,
    slots: &'a [u32],
    pub locations: &'a [u32],
}

impl Stage<'_> {
    /// The pin at a position from 1 on, or at the number of slots + j for slot j of level 0.
    pub fn at(&self, index: usize) -> u32 {
        self.slots[index - 1]
    }

    /// All of them, from position 1 on.
    pub fn slots(&self) -> &[u32] {
        self.slots
    }

    pub fn level_0(&self) -> &[u32] {
        &self.slots[self.edition.slots() - 1..]
    }

    /// Positions from 1 on, and their pins.
    pub fn positions(&self) -> impl Iterator<Item = (usize, u32)> + '_ {
        self.slots[..self.edition.slots() - 1].iter().enumerate().map(|(index, &pin)| (index + 1, pin))
    }
}

/// Where a and b of a position stand: slot j of level h is position 2^(13-h) + j, and its a and b are the slots j and
/// j + 2^(13-h) of the level below.
pub fn below(position: usize) -> (usize, usize) {
    let level_slots = (position + 1).next_power_of_two() / 2;
    (position + level_slots, position + 2 * level_slots)
}

pub fn words(record: &[u8]) -> Vec<u32> {
    record.chunks_exact(4).map(|word| u32::from_le_bytes([word[0], word[1], word[2], word[3]])).collect()
}

/// "65536 plus 16 a part (as its counts say) for a plan".
pub fn room_words(words: &[u32]) -> u64 {
    let word = |index: usize| words.get(index).copied().unwrap_or(0) as u64;
    let majors = word(1).min(64) as usize;
    let parts: u64 = (0..majors).map(|major| word(HEAD + major)).sum();
    PLAN_ROOM + PART_ROOM * parts
}

/// Takes lists off the front of the record's words.
struct Cursor<'a> {
    words: &'a [u32],
    at: usize,
}

impl<'a> Cursor<'a> {
    /// The next words, which are called so.
    fn take(&mut self, count: u64, name: &str) -> Result<&'a [u32], String> {
        let (rest, from) = (&self.words[self.at..], self.at as u64);
        if count > rest.len() as u64 {
            let last = from + count - 1;
            let words = self.words.len();
            return Err(format!("{} would be words {} to {}, and there are {}", name, from, last, words));
        }
        self.at += count as usize;
        Ok(&rest[..count as usize])
    }

    /// What is wrong with the word that is so many behind the next one.
    fn fault(&self, behind: usize, name: &str, range: &str) -> String {
        let at = self.at + behind;
        format!("word {}, {}, is {}, not {}", at, name, range, self.words[at])
    }
}

/// What refuses a record: 29 or 5, and why.
#[derive(Debug, Clone, PartialEq, Eq)]
pub struct Fault {
    pub number: u32,
    pub what: String,
}

impl From<Fault> for String {
    fn from(fault: Fault) -> String {
        fault.what
    }
}

/// The plan, where it is refused by neither 29 nor 5.
pub fn plan(record_bytes: usize, words: &[u32]) -> Result<Plan<'_>, Refused> {
    read(record_bytes, words).map_err(|fault| Refused::plain(fault.number))
}

const PIN: &str = "a pin, 0 to 2^30";
const INVERTED_PIN: &str = "twice a pin or 1 more, 0 to 2^31 + 1";
const ZERO: &str = "0";

/// The plan, or what it is refused for. 29 comes first; a record that has not the whole of its word has none of the editions.
pub fn read(record_bytes: usize, words: &[u32]) -> Result<Plan<'_>, Fault> {
    let number = words.get(EDITION).copied().unwrap_or(0);
    let edition = Edition::numbered(number).ok_or_else(|| {
        let what = match words.len() > EDITION {
            true => format!("word {}, its edition, is 256 or 128, not {}", EDITION, number),
            false => format!("its edition would be word {}, and there are {}", EDITION, words.len()),
        };
        Fault { number: 29, what }
    })?;
    read_as(edition, record_bytes, words).map_err(|what| Fault { number: 5, what })
}

/// The plan, whose edition is known, or what it is refused for by 5.
fn read_as(edition: Edition, record_bytes: usize, words: &[u32]) -> Result<Plan<'_>, String> {
    if record_bytes % 4 != 0 {
        return Err(format!("its {} bytes are no whole words", record_bytes));
    }
    let mut cursor = Cursor { words, at: 0 };
    if words.len() < HEAD {
        return Err(format!("its first nine numbers would be words 0 to 8, and there are {}", words.len()));
    }
    for (index, name, low, high) in [
        (0, "the number of blocks", 1, 1024),
        (1, "the number of major stages", 1, 64),
        (3, "the length of the input layout", 0, 1 << 20),
        (4, "the number of positions", 0, 1 << 20),
        (6, "the number of gates of a second design", 0, 0),
        (7, "the length of its input layout", 0, 0),
        (8, "the kind of check", 0, 0),
    ] {
        if !(low..=high).contains(&words[index]) {
            let range = if high == 0 { ZERO.to_string() } else { format!("{} to {}", low, high) };
            return Err(cursor.fault(index, name, &range));
        }
    }
    let head = cursor.take(HEAD as u64, "the head")?;
    let counts = part_counts(&mut cursor, head[1])?;
    let gates = gates(&mut cursor, head[2])?;
    let layout = layout(&mut cursor, head[3])?;
    let positions = positions(&mut cursor, head[4])?;
    let all: u64 = counts.iter().map(|&count| count as u64).sum();
    let heads_at = cursor.at;
    let heads = cursor.take(PART_HEAD as u64 * all, "the heads of the parts")?;
    let majors_of_parts =
        counts.iter().enumerate().flat_map(|(major, &count)| (0..count).map(move |_| major));
    let mut parts = Vec::new();
    for (part, (head, major)) in heads.chunks(PART_HEAD).zip(majors_of_parts).enumerate() {
        let head_at = Cursor { words, at: heads_at + PART_HEAD * part };
        if !(1..=255).contains(&head[0]) {
            return Err(head_at.fault(0, &format!("the boomerang stages of part {}", part), "1 to 255"));
        }
        if head[1] > 8192 {
            return Err(head_at.fault(1, &format!("the endpoints of part {}", part), "0 to 8192"));
        }
        for (word, name) in [(2, "design"), (3, "number of words of lanes handed in")] {
            if head[word] != 0 {
                return Err(head_at.fault(word, &format!("the {} of part {}", name, part), ZERO));
            }
        }
        parts.push(self::part(edition, &mut cursor, part, head[0], head[1], major)?);
    }
    if cursor.at < words.len() {
        return Err(format!("its lists are {} words, and there are {}", cursor.at, words.len()));
    }
    let major_parts = counts.iter().map(|&count| count as usize).collect();
    Ok(Plan { edition, blocks: head[0] as usize, major_parts, gates, layout, positions, parts })
}

fn part_counts<'a>(cursor: &mut Cursor<'a>, majors: u32) -> Result<&'a [u32], String> {
    let before = cursor.at;
    let counts = cursor.take(majors.into(), "the parts of the major stages")?;
    match counts.iter().position(|&count| count > 4096) {
        None => Ok(counts),
        Some(major) => Err(Cursor { at: before, ..*cursor }.fault(
            major,
            &format!("the parts of major stage {}", major),
            "0 to 4096",
        )),
    }
}

fn gates<'a>(cursor: &mut Cursor<'a>, count: u32) -> Result<&'a [u32], String> {
    let before = cursor.at;
    let gates = cursor.take(GATE as u64 * count as u64, &format!("the list of {} gates", count))?;
    let is_good = |(index, &number): (usize, &u32)| match index % 3 {
        0 => is_pin(number),
        _ => is_inverted(number),
    };
    match gates.iter().enumerate().position(|word| !is_good(word)) {
        None => Ok(gates),
        Some(at) => {
            let name = ["pin", "first fan-in", "second fan-in"][at % 3];
            let range = if at % 3 == 0 { PIN } else { INVERTED_PIN };
            Err(Cursor { at: before, ..*cursor }.fault(
                at,
                &format!("the {} of gate {}", name, at / 3),
                range,
            ))
        }
    }
}

fn layout<'a>(cursor: &mut Cursor<'a>, count: u32) -> Result<&'a [u32], String> {
    let before = cursor.at;
    let layout = cursor.take(count.into(), &format!("the input layout of {} pins", count))?;
    match layout.iter().position(|&pin| !is_pin(pin) && pin != EMPTY) {
        None => Ok(layout),
        Some(at) => {
            let name = format!("entry {} of the input layout", at);
            Err(Cursor { at: before, ..*cursor }.fault(at, &name, "a pin, 0 to 2^30, or 2^32 - 1"))
        }
    }
}

fn positions<'a>(cursor: &mut Cursor<'a>, count: u32) -> Result<&'a [u32], String> {
    let before = cursor.at;
    let length = POSITION as u64 * count as u64;
    let positions = cursor.take(length, &format!("the list of {} positions", count))?;
    let is_good = |(index, &number): (usize, &u32)| match index % POSITION {
        0 => is_pin(number),
        1 => true,
        2 => number <= 1,
        _ => number == 0,
    };
    match positions.iter().enumerate().position(|word| !is_good(word)) {
        None => Ok(positions),
        Some(at) => {
            let (name, range) = match at % POSITION {
                0 => ("pin", PIN),
                2 => ("mark", "0 or 1"),
                _ => ("design", ZERO),
            };
            let name = format!("the {} of position {}", name, at / POSITION);
            Err(Cursor { at: before, ..*cursor }.fault(at, &name, range))
        }
    }
}

fn part<'a>(
    edition: Edition,
    cursor: &mut Cursor<'a>,
    part: usize,
    stages: u32,
    endpoints: u32,
    major: usize,
) -> Result<Part<'a>, String> {
    let of_part = |what: &str| format!("the {} of part {}", what, part);
    let before = cursor.at;
    let endpoints = cursor.take(ENDPOINT as u64 * endpoints as u64, &of_part("endpoints"))?;
    for (index, endpoint) in endpoints.chunks(ENDPOINT).enumerate() {
        if let Some((word, name, range)) = endpoint_fault(endpoint[0], endpoint[1], endpoint[2]) {
            let name = format!("the {} of endpoint {} of part {}", name, index, part);
            return Err(Cursor { at: before, ..*cursor }.fault(ENDPOINT * index + word, &name, range));
        }
    }
    let counts = cursor.take(stages.into(), &of_part("numbers of locations"))?;
    let stage_slots = edition.stage_slots();
    let slots = cursor.take(stages as u64 * stage_slots as u64, &of_part("slots"))?;
    let mut stages = Vec::new();
    for (stage, (slots, &count)) in slots.chunks(stage_slots).zip(counts).enumerate() {
        let locations = cursor.take(count.into(), &of_part(&format!("locations of stage {}", stage)))?;
        stages.push(Stage { edition, slots, locations });
    }
    let sram_table = cursor.take(edition.sram_table_words() as u64, &of_part("SRAM table"))?;
    let enable_table = cursor.take(edition.enable_table_words() as u64, &of_part("enable table"))?;
    Ok(Part { major, endpoints, stages, sram_table, enable_table })
}

pub fn is_pin(number: u32) -> bool {
    number <= MOST_PIN
}

fn is_inverted(number: u32) -> bool {
    number <= MOST_INVERTED_PIN
}

/// Which of an endpoint's first three words is at fault, what it is called and what it is.
fn endpoint_fault(kind: u32, x: u32, y: u32) -> Option<(usize, &'static str, &'static str)> {
    match kind {
        0 if !is_inverted(x) => Some((1, "output", INVERTED_PIN)),
        1 if !is_pin(x) => Some((1, "staged pin", PIN)),
        2 if !is_inverted(x) => Some((1, "data", INVERTED_PIN)),
        2 if !is_inverted(y) => Some((2, "enable", INVERTED_PIN)),
        0..=3 => None,
        _ => Some((0, "kind", "0 to 3")),
    }
}
