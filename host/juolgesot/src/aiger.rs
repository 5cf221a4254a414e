//! Gate lists from binary AIGER, and back.

use crate::ffi;
use crate::refusal::Refusal;
use plan::Edition;
use plan::{Pin, PinIv};

/// The numbers of an AIGER file's header; pins 1 to inputs + latches are no gates.
#[derive(Debug, Clone, Copy, PartialEq, Eq)]
pub struct AigerHeader {
    /// Inputs: pins from 1 on.
    pub inputs: u64,
    /// Latches: the pins behind them.
    pub latches: u64,
    /// Outputs.
    pub outputs: u64,
    /// AND gates: the pins behind the latches.
    pub gates: u64,
}

/// What was read of an AIGER file.
#[derive(Debug, Clone, PartialEq, Eq)]
pub struct Aiger {
    /// The numbers of its header.
    pub header: AigerHeader,
    /// The gate list as a plan record has it: pin, first and second fan-in of each gate.
    pub list: Vec<u32>,
}

impl Aiger {
    /// Each gate's pin and its fan-ins.
    pub fn gates(&self) -> impl Iterator<Item = (Pin, PinIv, PinIv)> + '_ {
        self.list.chunks_exact(3).map(|gate| (Pin(gate[0]), PinIv(gate[1]), PinIv(gate[2])))
    }
}

/// Bytes of a file that is written before its gates, at most: `aig `, five numbers of at most ten digits with a blank or LF behind
/// them.
pub const AIGER_HEADER: usize = 64;
/// Bytes of a gate, at most: two differences of five.
pub const AIGER_GATE: usize = 10;

/// Reads the header and the AND gates of a binary AIGER file.
///
#[doc = "```"]
#[doc = include_str!("../examples/read_aiger.rs")]
#[doc = "```"]
pub fn read_aiger(bytes: &[u8]) -> Result<Aiger, Refusal> {
    // A gate has two bytes or more.
    let mut list = vec![0; 3 * (bytes.len() / 2)];
    let header = read_aiger_into(bytes, &mut list)?;
    list.truncate(3 * header.gates as usize);
    Ok(Aiger { header, list })
}

/// The same over a lent slice, which is filled from its beginning with three words a gate; the rest is left as it is.
pub fn read_aiger_into(bytes: &[u8], out: &mut [u32]) -> Result<AigerHeader, Refusal> {
    let answer = ffi::read_aiger(bytes, out);
    let [first, second, third, fourth] = answer.values;
    match answer.code {
        0 => Ok(AigerHeader { gates: first, inputs: second, latches: third, outputs: fourth }),
        number => Err(Refusal::of(number, first, second, Edition::Full)),
    }
}

/// The binary AIGER file of a gate list (pin, first and second fan-in of each gate) whose pins have no gap and in which
/// no second fan-in is larger than the first. It has no latches and no outputs.
///
#[doc = "```"]
#[doc = include_str!("../examples/write_aiger.rs")]
#[doc = "```"]
pub fn write_aiger(gates: &[u32]) -> Result<Vec<u8>, Refusal> {
    let mut bytes = vec![0; AIGER_HEADER + AIGER_GATE * (gates.len() / 3)];
    let length = write_aiger_into(gates, &mut bytes)?;
    bytes.truncate(length);
    Ok(bytes)
}

/// The same over a lent slice, which is filled from its beginning. Gives the number of bytes. `AIGER_HEADER` bytes, and
/// `AIGER_GATE` a gate, always are enough.
pub fn write_aiger_into(gates: &[u32], out: &mut [u8]) -> Result<usize, Refusal> {
    Refusal::check(ffi::write_aiger(gates, out)).map(|length| length as usize)
}
