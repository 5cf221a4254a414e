//! Units of document 01, apart from each other: a number of one is no number of another.

use std::fmt;

/// A pin of the netlist: 0..=2^30.
#[derive(Debug, Clone, Copy, PartialEq, Eq, PartialOrd, Ord, Hash)]
pub struct Pin(pub u32);

/// An inverted pin number: twice the pin, plus 1 where it is inverted.
#[derive(Debug, Clone, Copy, PartialEq, Eq, PartialOrd, Ord, Hash)]
pub struct PinIv(pub u32);

/// A bit of a state: bit `position % 32` of word `position / 32`.
#[derive(Debug, Clone, Copy, PartialEq, Eq, PartialOrd, Ord, Hash)]
pub struct StatePosition(pub u32);

/// A bit of a part's own lanes: bit `position % 32` of lane `position / 32`. The library alone makes one.
#[derive(Debug, Clone, Copy, PartialEq, Eq, PartialOrd, Ord, Hash)]
pub struct LocalPosition(pub u32);

impl LocalPosition {
    /// The lane that has it.
    #[must_use]
    pub fn lane(self) -> usize {
        (self.0 >> 5) as usize
    }

    /// Which bit of the lane it is.
    #[must_use]
    pub fn bit(self) -> u32 {
        self.0 & 31
    }
}

impl Pin {
    /// The pin as it is.
    #[must_use]
    pub fn plain(self) -> PinIv {
        PinIv(2 * self.0)
    }

    /// The pin inverted.
    #[must_use]
    pub fn inverted(self) -> PinIv {
        PinIv(2 * self.0 + 1)
    }
}

impl PinIv {
    /// The pin.
    #[must_use]
    pub fn pin(self) -> Pin {
        Pin(self.0 >> 1)
    }

    /// Whether it is inverted.
    #[must_use]
    pub fn is_inverted(self) -> bool {
        self.0 & 1 == 1
    }

    /// What this number stands for where the pin has a value.
    #[must_use]
    pub fn of_value(self, value: bool) -> bool {
        value != self.is_inverted()
    }
}

impl StatePosition {
    /// The state's word that has it.
    #[must_use]
    pub fn word(self) -> usize {
        (self.0 >> 5) as usize
    }

    /// Which bit of the word it is.
    #[must_use]
    pub fn bit(self) -> u32 {
        self.0 & 31
    }

    /// The bit here; 0 behind the state's end.
    #[must_use]
    pub fn get(self, state: &[u32]) -> bool {
        state.get(self.word()).map_or(false, |word| word >> self.bit() & 1 == 1)
    }

    /// Puts a bit here. Panics behind the state's end.
    pub fn set(self, state: &mut [u32], value: bool) {
        let word = &mut state[self.word()];
        *word = *word & !(1 << self.bit()) | (value as u32) << self.bit();
    }
}

impl fmt::Display for Pin {
    fn fmt(&self, f: &mut fmt::Formatter<'_>) -> fmt::Result {
        write!(f, "pin {}", self.0)
    }
}

impl fmt::Display for PinIv {
    fn fmt(&self, f: &mut fmt::Formatter<'_>) -> fmt::Result {
        write!(f, "{}{}", if self.is_inverted() { "not " } else { "" }, self.pin())
    }
}

impl fmt::Display for LocalPosition {
    fn fmt(&self, f: &mut fmt::Formatter<'_>) -> fmt::Result {
        write!(f, "bit {} of lane {}", self.bit(), self.lane())
    }
}

impl fmt::Display for StatePosition {
    fn fmt(&self, f: &mut fmt::Formatter<'_>) -> fmt::Result {
        write!(f, "bit {} of state word {}", self.bit(), self.word())
    }
}
