//! One comparison of an AIGER file that is read, or of a gate list that is written, held to the model in the answer and
//! every lent word or byte.

use crate::lent::{Lent, LentRead};
use crate::tally::Tally;
use juolgesot::ffi::{self, Answer, PlanAnswer};
use model::aiger::{self, Header};
use model::Refused;

/// Words that a result is lent with, at most, where the file is refused.
const MOST_OUT: usize = 6_000;
/// Gates of the files that `every_string` makes, at most.
const MOST_GATES: usize = 4;
/// What a result holds before a call.
const WORD: u32 = 0xEEEE_EEEE;
const BYTE: u8 = 0xEE;

pub struct AigerChecker {
    pub kinds: Tally,
    pub answers: Tally,
}

impl AigerChecker {
    pub fn new() -> Self {
        AigerChecker { kinds: Tally::new("AIGER by kind"), answers: Tally::new("AIGER by answer") }
    }

    /// Reads a file, lent so many words more than are needed, and counts it, or stops the program at a difference. Gives
    /// the answer's number.
    pub fn read(&mut self, kind: &str, bytes: &[u8], more: i64) -> u32 {
        match read_difference(bytes, more) {
            Ok(code) => self.count(kind, "read", code),
            Err(what) => stop(kind, &what, bytes),
        }
    }

    /// Writes a gate list, likewise.
    pub fn write(&mut self, kind: &str, gates: &[u32], more: i64) -> u32 {
        match write_difference(gates, more) {
            Ok(code) => self.count(kind, "written", code),
            Err(what) => stop(kind, &what, &plan::bytes(gates)),
        }
    }

    fn count(&mut self, kind: &str, done: &str, code: u32) -> u32 {
        self.kinds.count(kind);
        self.answers.count(&answer_name(done, code));
        code
    }

    /// What a file's gates are when written is a header of no latches and no outputs, then the file's own bytes. For a
    /// file that is not refused.
    pub fn there_and_back(&mut self, kind: &str, bytes: &[u8]) {
        let read = juolgesot::read_aiger(bytes).expect("a good file");
        let numbers = read.header;
        let inputs = numbers.inputs + numbers.latches;
        let header = match numbers.gates {
            0 => "aig 0 0 0 0 0\n".to_string(),
            gates => format!("aig {} {} 0 0 {}\n", inputs + gates, inputs, gates),
        };
        let lines = 1 + numbers.latches + numbers.outputs;
        let mut expected = header.into_bytes();
        expected.extend(gate_bytes(bytes, lines as usize, numbers.gates as usize));
        if juolgesot::write_aiger(&read.list).as_ref() != Ok(&expected) {
            stop(kind, "read and written, the gates are not the file's bytes", bytes);
        }
        self.kinds.count(kind);
    }

    /// What is read of a list that was written is the list, with the pins below it as inputs. For a list that is not
    /// refused.
    pub fn back_and_there(&mut self, kind: &str, gates: &[u32]) {
        let bytes = juolgesot::write_aiger(gates).expect("a good list");
        let read = juolgesot::read_aiger(&bytes).expect("what was written");
        let numbers = read.header;
        let inputs = gates.first().map_or(0, |pin| u64::from(pin - 1));
        let wanted = (inputs, 0, 0, gates.len() as u64 / 3);
        if (numbers.inputs, numbers.latches, numbers.outputs, numbers.gates) != wanted || read.list != gates {
            stop(kind, "written and read, the list is another", &plan::bytes(gates));
        }
        self.kinds.count(kind);
    }

    /// Reads a front with every string behind it whose bytes are each one of these. The same slices are lent again and
    /// again.
    pub fn every_string(&mut self, kind: &str, front: &[u8], choices: &[&[u8]]) {
        let mut bytes = front.to_vec();
        bytes.resize(front.len() + choices.len(), 0);
        let mut file = Lent::new(bytes.len(), |index| bytes[index], BYTE);
        // The strings are too short for more gates.
        let mut out = Lent::new(3 * MOST_GATES, |_| WORD, !WORD);
        let mut list = Vec::new();
        let mut codes = [0; 34];
        for number in 0..choices.iter().map(|choice| choice.len()).product() {
            let mut rest = number;
            for (byte, choice) in bytes[front.len()..].iter_mut().zip(choices) {
                *byte = choice[rest % choice.len()];
                rest /= choice.len();
            }
            file.slice().copy_from_slice(&bytes);
            let expected = aiger::read(&bytes, &mut list);
            let answer = ffi::read_aiger(file.slice(), out.slice());
            let mut held = [WORD; 3 * MOST_GATES];
            if expected.is_ok() {
                held[..list.len()].copy_from_slice(&list);
            }
            if answer != read_answer(&expected) || out.slice() != held || file.slice() != bytes {
                let what = format!(
                    "answered {:?} with {:?}, expected {:?} with {:?}",
                    answer,
                    out.slice(),
                    expected,
                    held
                );
                stop(kind, &what, &bytes);
            }
            out.slice().fill(WORD);
            codes[answer.code as usize] += 1;
        }
        for guards in [file.check("file byte", &bytes, |_| 0), out.check("result word", &[], |_| WORD)] {
            if let Err(what) = guards {
                stop(kind, &what, &bytes);
            }
        }
        self.kinds.count_many(kind, codes.iter().sum());
        for (code, &count) in codes.iter().enumerate().filter(|(_, &count)| count > 0) {
            self.answers.count_many(&answer_name("read", code as u32), count);
        }
    }
}

fn answer_name(done: &str, code: u32) -> String {
    match code {
        0 => done.to_string(),
        number => format!("not {}: {}", done, number),
    }
}

/// The bytes of so many gates behind so many lines: two differences each, a difference ending at a byte below 128.
fn gate_bytes(bytes: &[u8], lines: usize, gates: usize) -> &[u8] {
    let behind = |bytes: &[u8], is_end: fn(u8) -> bool, count: usize| match count {
        0 => 0,
        count => {
            let ends = bytes.iter().enumerate().filter(|(_, &byte)| is_end(byte));
            ends.map(|(index, _)| index + 1).nth(count - 1).expect("the file has them")
        }
    };
    let from = &bytes[behind(bytes, |byte| byte == b'\n', lines)..];
    &from[..behind(from, |byte| byte < 128, 2 * gates)]
}

/// What a reading answers where the result is long enough.
fn read_answer(expected: &Result<Header, Refused>) -> PlanAnswer {
    match expected {
        Ok(header) => {
            PlanAnswer { code: 0, values: [header.gates, header.inputs, header.latches, header.outputs] }
        }
        Err(refused) => PlanAnswer { code: refused.number, values: [refused.part, refused.item, 0, 0] },
    }
}

/// One reading: answer and result. Gives the answer's number, or the first difference.
fn read_difference(bytes: &[u8], more: i64) -> Result<u32, String> {
    let mut list = Vec::new();
    let mut expected = aiger::read(bytes, &mut list);
    let needed = if expected.is_ok() { list.len() } else { MOST_OUT.min(3 * (bytes.len() / 2)) };
    let out_length = (needed as i64 + more).max(0) as usize;
    if expected.is_ok() && out_length < needed {
        expected = Err(Refused::plain(14));
    }
    let file = LentRead::new(bytes);
    let mut out = Lent::new(out_length, |_| WORD, !WORD);
    let answer = ffi::read_aiger(file.slice(), out.slice());
    if answer != read_answer(&expected) {
        return Err(format!("answered {:?}, expected {:?}", answer, expected));
    }
    out.check("result word", if expected.is_ok() { &list } else { &[] }, |_| WORD)?;
    Ok(answer.code)
}

/// One writing, likewise.
fn write_difference(gates: &[u32], more: i64) -> Result<u32, String> {
    let mut text = Vec::new();
    let expected = aiger::write(gates, &mut text);
    let needed = if expected.is_ok() { text.len() } else { 64 + 10 * gates.len() / 3 };
    let out_length = (needed as i64 + more).max(0) as usize;
    let wanted = match expected {
        Err(refused) => Answer { code: refused.number, first: refused.part, second: refused.item },
        Ok(()) if out_length < needed => Answer { code: 14, first: 0, second: 0 },
        Ok(()) => Answer { code: 0, first: needed as u64, second: 0 },
    };
    let lent_gates = LentRead::new(gates);
    let mut out = Lent::new(out_length, |_| BYTE, !BYTE);
    let answer = ffi::write_aiger(lent_gates.slice(), out.slice());
    if answer != wanted {
        return Err(format!("answered {:?}, expected {:?}", answer, wanted));
    }
    out.check("result byte", if wanted.code == 0 { &text } else { &[] }, |_| BYTE)?;
    Ok(answer.code)
}

fn stop(kind: &str, what: &str, bytes: &[u8]) -> ! {
    println!("DIFFERENCE ({}): {}", kind, what);
    println!("bytes: {:?}", &bytes[..bytes.len().min(400)]);
    std::process::exit(1);
}
