//! The editions of a script: the numbers in which they differ.

use std::fmt;

/// An edition. In C and in a plan record it is named by its lanes: 256 or 128.
#[derive(Debug, Clone, Copy, PartialEq, Eq, Hash)]
pub enum Edition {
    /// 256 lanes, 13 levels, 8192 slots.
    Full,
    /// 128 lanes, 12 levels, 4096 slots: that of the lab cards.
    Small,
}

impl Default for Edition {
    fn default() -> Self {
        Edition::Full
    }
}

impl Edition {
    /// Both of them.
    pub const BOTH: [Edition; 2] = [Edition::Full, Edition::Small];

    /// The edition of a number. There is none for a number that is refused by 29.
    #[must_use]
    pub fn numbered(number: u32) -> Option<Self> {
        Edition::BOTH.into_iter().find(|edition| edition.number() == number)
    }

    /// The edition of a name: `full` or `small`.
    #[must_use]
    pub fn named(name: &str) -> Option<Self> {
        Edition::BOTH.into_iter().find(|edition| edition.name() == name)
    }

    /// `full` or `small`.
    #[must_use]
    pub const fn name(self) -> &'static str {
        match self {
            Edition::Full => "full",
            Edition::Small => "small",
        }
    }

    /// What names it in C and in a plan record.
    #[must_use]
    pub const fn number(self) -> u32 {
        self.lanes() as u32
    }

    /// Lanes of 32 bits. So many write-out words has a part at most, and a location is below.
    #[must_use]
    pub const fn lanes(self) -> usize {
        match self {
            Edition::Full => 256,
            Edition::Small => 128,
        }
    }

    /// Slots of level 0, and entries of a slot table. So many bits are to a read, at most; slot 0 of level 0 has this index.
    #[must_use]
    pub const fn slots(self) -> usize {
        32 * self.lanes()
    }

    /// Levels above level 0.
    #[must_use]
    pub const fn levels(self) -> u32 {
        self.slots().trailing_zeros()
    }

    /// Slots of a stage, as a plan record has them: slot j of level h is word `index(h, j)` - 1.
    #[must_use]
    pub const fn stage_slots(self) -> usize {
        2 * self.slots() - 1
    }

    /// Slots of levels 1 and up: a placing lists so many entries more than it was given, at most.
    #[must_use]
    pub const fn counted_slots(self) -> usize {
        self.slots() - 1
    }

    /// The index of a slot of a level: position 2^(levels-h) + j for slot j of level h, level 0 behind them. None where there is no
    /// such slot.
    #[must_use]
    pub fn index(self, level: u32, slot: u32) -> Option<usize> {
        let slots = 1u32.checked_shl(self.levels().checked_sub(level)?)?;
        (slot < slots).then(|| (slots + slot) as usize)
    }

    /// Words of a part's head: numbers, and from the middle on locations.
    #[must_use]
    pub const fn head_words(self) -> usize {
        self.lanes()
    }

    /// Words of the read section for one round: a word and a mask for each lane.
    #[must_use]
    pub const fn round_words(self) -> usize {
        2 * self.lanes()
    }

    /// Words of a section: a permutation, and four words a lane.
    #[must_use]
    pub const fn section_words(self) -> usize {
        20 * self.lanes()
    }

    /// Words of a part of so many boomerang stages and rounds.
    #[must_use]
    pub const fn part_words(self, stages: u64, rounds: u64) -> u64 {
        let [head, round, section] =
            [self.head_words() as u64, self.round_words() as u64, self.section_words() as u64];
        head + round * rounds + section * (stages + 2)
    }

    /// Words of an empty block.
    #[must_use]
    pub const fn empty_block_words(self) -> usize {
        self.lanes()
    }

    /// Zeros behind the last block.
    #[must_use]
    pub const fn closing_words(self) -> usize {
        8 * self.lanes()
    }
}

impl fmt::Display for Edition {
    fn fmt(&self, f: &mut fmt::Formatter<'_>) -> fmt::Result {
        f.write_str(self.name())
    }
}
