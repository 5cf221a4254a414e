//! The script's editions: 01's numbers, and those of 10/13's small edition in their place.

/// An edition, named by its lanes. What 01 says in numbers of 256 lanes is worked out from them here.
#[derive(Debug, Clone, Copy, PartialEq, Eq)]
pub struct Edition {
    lanes: usize,
}

impl Edition {
    pub const FULL: Edition = Edition { lanes: 256 };
    pub const SMALL: Edition = Edition { lanes: 128 };

    /// The edition of a number; none is refused by 29.
    pub fn numbered(number: u32) -> Option<Self> {
        [Edition::FULL, Edition::SMALL].into_iter().find(|edition| edition.number() == number)
    }

    pub const fn number(self) -> u32 {
        self.lanes as u32
    }

    /// Lanes of 32 bits. So many are also the write-out words of a part at most, and a location is below.
    pub const fn lanes(self) -> usize {
        self.lanes
    }

    /// Slots of level 0. So many are also the bits to a read; local positions and entries are below.
    pub const fn slots(self) -> usize {
        32 * self.lanes
    }

    /// Levels above level 0.
    pub const fn levels(self) -> u32 {
        self.slots().trailing_zeros()
    }

    /// Level h has so many, and its slot j stands at position level_slots(h) + j.
    pub const fn level_slots(self, level: u32) -> usize {
        1 << (self.levels() - level)
    }

    /// Slots of a stage in a plan: positions from 1 on, then those of level 0.
    pub const fn stage_slots(self) -> usize {
        2 * self.slots() - 1
    }

    /// Words of a part's header: numbers, then locations.
    pub const fn head_words(self) -> usize {
        self.lanes
    }

    /// Where the header's locations begin.
    pub const fn head_numbers(self) -> usize {
        self.lanes / 2
    }

    /// Word and mask of each lane.
    pub const fn round_words(self) -> usize {
        2 * self.lanes
    }

    /// A half word for each slot.
    pub const fn permutation_words(self) -> usize {
        self.slots() / 2
    }

    /// The word of a permutation that has entry 32t+8k+2h+e, and whether it is the high half: word 1024k+4t+h in the full edition.
    pub const fn entry_place(self, index: usize) -> (usize, bool) {
        let (t, k, h, e) = (index / 32, index / 8 % 4, index / 2 % 4, index % 2);
        (4 * self.lanes * k + 4 * t + h, e == 1)
    }

    /// A permutation, and four words a lane.
    pub const fn section_words(self) -> usize {
        self.permutation_words() + 4 * self.lanes
    }

    /// A part's header, rounds, and the sections of its stages, of SRAM and duplicates, and of enables.
    pub const fn part_words(self, rounds: u64, stages: u64) -> u64 {
        self.head_words() as u64
            + self.round_words() as u64 * rounds
            + self.section_words() as u64 * (stages + 2)
    }

    pub const fn empty_block_words(self) -> usize {
        self.lanes
    }

    /// Zero words behind the final start.
    pub const fn closing_words(self) -> usize {
        8 * self.lanes
    }

    /// A plan's SRAM table: an entry a slot, two words a lane.
    pub const fn sram_table_words(self) -> usize {
        self.slots() + 2 * self.lanes
    }

    /// Its enable table has three.
    pub const fn enable_table_words(self) -> usize {
        self.slots() + 3 * self.lanes
    }
}

#[cfg(test)]
mod tests {
    use super::*;

    const BOTH: [Edition; 2] = [Edition::FULL, Edition::SMALL];

    fn both<T>(of: impl Fn(Edition) -> T) -> [T; 2] {
        BOTH.map(of)
    }

    #[test]
    fn only_two_are_known() {
        assert_eq!(BOTH.map(|edition| Edition::numbered(edition.number())), BOTH.map(Some));
        assert_eq!((Edition::FULL.number(), Edition::SMALL.number()), (256, 128));
        for number in [0, 1, 12, 13, 64, 127, 129, 255, 257, 512, 128 + (1 << 31), u32::MAX] {
            assert_eq!(Edition::numbered(number), None, "{}", number);
        }
    }

    /// "128 lanes, 12 levels, 4096 slots, header 64 words of numbers and 64 of locations, .. 1024 closing zeros. A round is 256 words,
    /// a section 2560".
    #[test]
    fn the_numbers_are_those_of_the_text() {
        assert_eq!(both(Edition::lanes), [256, 128]);
        assert_eq!(both(Edition::slots), [8192, 4096]);
        assert_eq!(both(Edition::levels), [13, 12]);
        assert_eq!(both(|edition| edition.level_slots(0)), [8192, 4096]);
        assert_eq!(both(|edition| edition.level_slots(1)), [4096, 2048]);
        assert_eq!(both(|edition| edition.level_slots(edition.levels())), [1, 1]);
        assert_eq!(both(|edition| (edition.head_numbers(), edition.head_words())), [(128, 256), (64, 128)]);
        assert_eq!(both(Edition::round_words), [512, 256]);
        assert_eq!(both(Edition::section_words), [5120, 2560]);
        assert_eq!(both(Edition::permutation_words), [4096, 2048]);
        assert_eq!(both(Edition::empty_block_words), [256, 128]);
        assert_eq!(both(Edition::closing_words), [2048, 1024]);
        assert_eq!(both(Edition::stage_slots), [16383, 8191]);
        assert_eq!(both(Edition::sram_table_words), [8704, 4352]);
        assert_eq!(both(Edition::enable_table_words), [8960, 4480]);
    }

    /// "A part has 5248 + 256·rounds + 2560·stages"; M2's set as a part of one stage.
    #[test]
    fn the_length_of_a_part() {
        for (rounds, stages) in [(0, 1), (1, 1), (2, 3), (32, 255)] {
            assert_eq!(Edition::FULL.part_words(rounds, stages), 10496 + 512 * rounds + 5120 * stages);
            assert_eq!(Edition::SMALL.part_words(rounds, stages), 5248 + 256 * rounds + 2560 * stages);
        }
        assert_eq!(both(|edition| edition.part_words(1, 1)), [16128, 8064]);
    }

    /// M9: "entry 33: word 4, high half". "1024k reads 512k". Every half word has one entry.
    #[test]
    fn an_entry_has_its_place() {
        assert_eq!(both(|edition| edition.entry_place(33)), [(4, true); 2]);
        assert_eq!(both(|edition| edition.entry_place(8)), [(1024, false), (512, false)]);
        assert_eq!(both(|edition| edition.entry_place(32 + 24 + 6)), [(3072 + 7, false), (1536 + 7, false)]);
        for edition in BOTH {
            let mut places: Vec<_> = (0..edition.slots()).map(|index| edition.entry_place(index)).collect();
            places.sort_unstable();
            let all = (0..edition.permutation_words()).flat_map(|word| [(word, false), (word, true)]);
            assert!(places.into_iter().eq(all));
        }
    }
}
