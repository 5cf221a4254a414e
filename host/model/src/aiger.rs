//! Change request 1/13: gates from binary AIGER, and back. Refusals 18, 19, 20 and 33 name no place.

use crate::record::MOST_PIN;
use crate::Refused;

/// The numbers of a header; its M is I + L + A.
#[derive(Debug, Clone, Copy, PartialEq, Eq)]
pub struct Header {
    pub inputs: u64,
    pub latches: u64,
    pub outputs: u64,
    pub gates: u64,
}

impl Header {
    /// M, the last variable.
    pub fn variables(&self) -> u64 {
        self.inputs + self.latches + self.gates
    }
}

/// Reads the header and the AND gates; `list` then holds pin, first and second fan-in of each gate.
pub fn read(bytes: &[u8], list: &mut Vec<u32>) -> Result<Header, Refused> {
    let mut reader = Reader { rest: bytes };
    let header = reader.before_the_gates().ok_or(Refused::plain(18))?;
    list.clear();
    // A gate has two bytes or more.
    list.reserve(3 * header.gates.min(reader.rest.len() as u64 / 2) as usize);
    for variable in header.inputs + header.latches + 1..=header.variables() {
        let literal = 2 * variable;
        let first = literal - reader.difference(1, literal)?;
        let second = first - reader.difference(0, first)?;
        list.extend_from_slice(&[variable as u32, first as u32, second as u32]);
    }
    Ok(header)
}

struct Reader<'a> {
    rest: &'a [u8],
}

impl Reader<'_> {
    /// The header's numbers, all lines being as they should.
    fn before_the_gates(&mut self) -> Option<Header> {
        let most = self.number_behind(b"aig ")?;
        let inputs = self.number_behind(b" ")?;
        let latches = self.number_behind(b" ")?;
        let outputs = self.number_behind(b" ")?;
        let gates = self.number_behind(b" ")?;
        self.take(b"\n")?;
        let sum = inputs.checked_add(latches)?.checked_add(gates)?;
        if most != sum || most > MOST_PIN.into() {
            return None;
        }
        for _ in 0..latches.saturating_add(outputs) {
            let literal = self.number_behind(b"")?;
            self.take(b"\n")?;
            if literal > 2 * most + 1 {
                return None;
            }
        }
        Some(Header { inputs, latches, outputs, gates })
    }

    /// These very bytes come next.
    fn take(&mut self, bytes: &[u8]) -> Option<()> {
        for &byte in bytes {
            let (&next, rest) = self.rest.split_first()?;
            if next != byte {
                return None;
            }
            self.rest = rest;
        }
        Some(())
    }

    /// These bytes, then decimal digits, no 0 leading others. A number past 2^64 - 1 is told as that one: no bytes have so
    /// many lines.
    fn number_behind(&mut self, bytes: &[u8]) -> Option<u64> {
        self.take(bytes)?;
        let length = self.rest.iter().take_while(|byte| byte.is_ascii_digit()).count();
        let (digits, rest) = self.rest.split_at(length);
        if length == 0 || length > 1 && digits[0] == b'0' {
            return None;
        }
        self.rest = rest;
        let put = |number: u64, digit: &u8| number.saturating_mul(10).saturating_add((digit - b'0').into());
        Some(digits.iter().fold(0, put))
    }

    /// A difference of seven-bit groups, least first; a byte of 128 or more is not the last. 20 where the end comes
    /// before the last; 19 where the fifth is not the last, where the last adds nothing, or out of range.
    fn difference(&mut self, least: u64, most: u64) -> Result<u64, Refused> {
        let mut number = 0;
        for group in 0..5 {
            let byte = *self.rest.get(group).ok_or(Refused::plain(20))?;
            number |= u64::from(byte & 127) << (7 * group);
            if byte < 128 {
                let is_shortest = group == 0 || byte != 0;
                if !is_shortest || number < least || number > most {
                    return Err(Refused::plain(19));
                }
                self.rest = &self.rest[group + 1..];
                return Ok(number);
            }
        }
        Err(Refused::plain(19))
    }
}

/// The file of a gate list; `bytes` then holds it. 33 where the list is not one that reading gives.
pub fn write(list: &[u32], bytes: &mut Vec<u8>) -> Result<(), Refused> {
    if !is_writable(list) {
        return Err(Refused::plain(33));
    }
    let gates = list.len() / 3;
    let inputs = list.first().map_or(0, |pin| pin - 1);
    bytes.clear();
    bytes.extend(format!("aig {} {} 0 0 {}\n", inputs as usize + gates, inputs, gates).as_bytes());
    for gate in list.chunks_exact(3) {
        push_difference(bytes, 2 * gate[0] - gate[1]);
        push_difference(bytes, gate[1] - gate[2]);
    }
    Ok(())
}

/// Whole gates in 01's form, their pins without a gap, no second fan-in larger than the first.
fn is_writable(list: &[u32]) -> bool {
    if list.len() % 3 != 0 {
        return false;
    }
    let mut pin = list.first().copied().unwrap_or(0);
    list.chunks_exact(3).all(|gate| {
        let is_next = gate[0] == pin && (1..=MOST_PIN).contains(&pin);
        pin = pin.wrapping_add(1);
        is_next && gate[1] >> 1 < gate[0] && gate[2] <= gate[1]
    })
}

fn push_difference(bytes: &mut Vec<u8>, mut number: u32) {
    while number >= 128 {
        bytes.push(number as u8 | 128);
        number >>= 7;
    }
    bytes.push(number as u8);
}
