//! Values by the gates.

use crate::ffi;
use crate::plan_room::{gate_words, gates, room_for};
use crate::refusal::Refusal;
use plan::Pin;

/// What the gates say in a part: the value of the pin that was asked for, and of each gate.
#[derive(Debug, Clone, PartialEq, Eq)]
pub struct Values {
    pin: bool,
    gates: usize,
    words: Vec<u32>,
}

impl Values {
    /// The value of the pin that was asked for.
    #[must_use]
    pub fn pin(&self) -> bool {
        self.pin
    }

    /// How many gates the plan has.
    #[must_use]
    pub fn gates(&self) -> usize {
        self.gates
    }

    /// The value of a gate's pin, by the gate's place in the plan's list.
    #[must_use]
    pub fn gate(&self, gate: usize) -> Option<bool> {
        if gate < self.gates {
            Some(self.words[gate / 32] >> (gate % 32) & 1 == 1)
        } else {
            None
        }
    }
}

/// The values of a pin and of all gates in a part (counted on through the major stages), between the old state and the
/// new one. A part past the plan reads nothing; what lies behind a state is 0.
///
#[doc = "```"]
#[doc = include_str!("../examples/value.rs")]
#[doc = "```"]
pub fn value(plan: &[u8], part: u32, pin: Pin, old: &[u32], new: &[u32]) -> Result<Values, Refusal> {
    let mut words = vec![0; gate_words(plan)];
    let pin = value_into(plan, part, pin, old, new, &mut room_for(plan), &mut words)?;
    Ok(Values { pin, gates: gates(plan), words })
}

/// The same with a lent room of `plan_room` words or more, which holds zeros afterwards, but for refusal 32, which
/// changes nothing; and `gate_words` words or more for the gates' bits, which are filled from their beginning, the
/// rest being left as it is. Gives the pin's value.
pub fn value_into(
    plan: &[u8],
    part: u32,
    pin: Pin,
    old: &[u32],
    new: &[u32],
    room: &mut [u32],
    bits: &mut [u32],
) -> Result<bool, Refusal> {
    Refusal::check(ffi::value(plan, room, old, new, bits, part, pin.0)).map(|bit| bit == 1)
}
