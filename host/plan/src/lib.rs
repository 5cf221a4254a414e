//! A plan in plain form, and its record: little-endian u32 words (docs/LAYOUT.md, "The plan record"). A script in plain form,
//! and its file.

#![deny(missing_docs)]

mod edition;
pub mod packed;
mod parts;
mod script;
pub mod script_file;
pub mod stored;
mod units;

pub use edition::Edition;
pub use script::{part_heads, FellBack, PartHead, Script};
pub use units::{LocalPosition, Pin, PinIv, StatePosition};

/// No pin.
pub const EMPTY: u32 = u32::MAX;

/// Words of a record before the counts of the major stages.
pub const HEAD_WORDS: usize = 9;
/// The word that names the edition.
pub const EDITION_WORD: usize = 5;
/// Words of a gate.
pub const GATE_WORDS: usize = 3;
/// Words of a position: pin, state position, 0 or 1 staged, and one that is 0.
pub const POSITION_WORDS: usize = 4;
/// Words of a part's head: boomerang stages, endpoints, and two that are 0.
pub const PART_HEAD_WORDS: usize = 4;
/// Words of an endpoint: kind, x, y, and one that is not looked at.
pub const ENDPOINT_WORDS: usize = 4;

/// A plan: where the netlist's pins stand. Its parts are made by `Part::new`, its lists piece by piece by the methods of their
/// names (`input`, `gate`, `position` ..).
#[derive(Debug, Clone, Default)]
pub struct Plan {
    /// Its edition. All of its stages and tables are of this one.
    pub edition: Edition,
    /// Blocks of the machine, 1 to 1024.
    pub blocks: u32,
    /// The gate list, ascending by pin.
    pub gates: Vec<Gate>,
    /// The input layout: what stands at each bit of the state from its beginning, a pin or `EMPTY`.
    pub layout: Vec<u32>,
    /// Where other pins are in the state.
    pub positions: Vec<Position>,
    /// The parts of each major stage.
    pub stages: Vec<Vec<Part>>,
}

/// An AND gate. Fan-ins are inverted pin numbers: 2·pin, plus 1 where inverted.
#[derive(Debug, Clone, Copy, PartialEq, Eq)]
pub struct Gate {
    /// Its own pin.
    pub pin: u32,
    /// The fan-in at slot a.
    pub first: u32,
    /// The fan-in at slot b.
    pub second: u32,
}

/// Where a pin is in the state.
#[derive(Debug, Clone, Copy, PartialEq, Eq)]
pub struct Position {
    /// The pin.
    pub pin: u32,
    /// Its state position.
    pub position: u32,
    /// 0 unstaged, 1 staged.
    pub staged: u32,
}

/// A part of a major stage.
#[derive(Debug, Clone)]
pub struct Part {
    /// What it is for: outputs, staged pins, registers, SRAMs.
    pub endpoints: Vec<Endpoint>,
    /// Its boomerang stages, 1 to 255.
    pub stages: Vec<Stage>,
    /// Its SRAM and enable tables.
    pub tables: Tables,
}

/// A kind and the two words that follow it.
#[derive(Debug, Clone, Copy, PartialEq, Eq)]
pub struct Endpoint {
    /// 0 output, 1 staged, 2 register, 3 SRAM.
    pub kind: u32,
    /// An output's inverted pin number, a staged pin, a register's d (an inverted pin number).
    pub x: u32,
    /// A register's enable, an inverted pin number.
    pub y: u32,
}

impl Endpoint {
    /// A primary output, by its inverted pin number.
    #[must_use]
    pub fn output(inverted_pin: u32) -> Self {
        Endpoint { kind: 0, x: inverted_pin, y: 0 }
    }

    /// A pin that a later major stage reads.
    #[must_use]
    pub fn staged(pin: u32) -> Self {
        Endpoint { kind: 1, x: pin, y: 0 }
    }

    /// A register, by the inverted pin numbers of its data and its enable.
    #[must_use]
    pub fn register(d: u32, en: u32) -> Self {
        Endpoint { kind: 2, x: d, y: en }
    }

    /// An SRAM.
    #[must_use]
    pub fn sram() -> Self {
        Endpoint { kind: 3, x: 0, y: 0 }
    }
}

/// A boomerang stage.
#[derive(Debug, Clone)]
pub struct Stage {
    /// A pin or `EMPTY` at each index (`Edition::index`), the first one unused: twice the slots of level 0.
    pub slots: Vec<u32>,
    /// Write-out locations: w captures positions 32w to 32w + 31.
    pub locations: Vec<u32>,
}

impl Stage {
    /// A stage of the full edition, without a pin and without locations.
    #[must_use]
    pub fn empty() -> Self {
        Stage::empty_of(Edition::Full)
    }

    /// The same of an edition.
    #[must_use]
    pub fn empty_of(edition: Edition) -> Self {
        Stage { slots: vec![EMPTY; 2 * edition.slots()], locations: Vec::new() }
    }

    /// The edition whose slots it has.
    #[must_use]
    pub fn edition(&self) -> Edition {
        let small = self.slots.len() == 2 * Edition::Small.slots();
        if small {
            Edition::Small
        } else {
            Edition::Full
        }
    }
}

/// What GEM's `make_inputs_outputs` made for a part.
#[derive(Debug, Clone)]
pub struct Tables {
    /// Where each bit of the SRAM and duplicate words is taken from, likewise.
    pub sram: Vec<u32>,
    /// Which of them are inverted, a word a lane.
    pub sram_inv: Vec<u32>,
    /// Which of them are 0 before that.
    pub sram_set0: Vec<u32>,
    /// Where the enable of each bit that is stored is taken from: entry 32k + b is for bit b of the part's word k, and says
    /// 32k' + b' for a bit that the part captures.
    pub enable: Vec<u32>,
    /// Which enables are inverted, a word for each stored word.
    pub enable_inv: Vec<u32>,
    /// Which enables are 0 before that.
    pub enable_set0: Vec<u32>,
    /// Which bits are stored inverted.
    pub data_inv: Vec<u32>,
}

impl Tables {
    /// Tables of zeros: every bit is enabled where the first one that the part captures is 1.
    #[must_use]
    pub fn zeros(edition: Edition) -> Self {
        let (entries, lanes) = (vec![0; edition.slots()], vec![0; edition.lanes()]);
        Tables {
            sram: entries.clone(),
            sram_inv: lanes.clone(),
            sram_set0: lanes.clone(),
            enable: entries,
            enable_inv: lanes.clone(),
            enable_set0: lanes.clone(),
            data_inv: lanes,
        }
    }
}

impl Tables {
    /// Words of both in a record.
    fn words(&self) -> usize {
        let Tables { sram, sram_inv, sram_set0, enable, enable_inv, enable_set0, data_inv } = self;
        [sram, sram_inv, sram_set0, enable, enable_inv, enable_set0, data_inv].into_iter().map(Vec::len).sum()
    }
}

impl Plan {
    /// All parts, counted on through the major stages.
    pub fn parts(&self) -> impl Iterator<Item = &Part> {
        self.stages.iter().flatten()
    }

    /// The plan's words.
    #[must_use]
    pub fn words(&self) -> Vec<u32> {
        let mut words = vec![
            self.blocks,
            self.stages.len() as u32,
            self.gates.len() as u32,
            self.layout.len() as u32,
            self.positions.len() as u32,
            self.edition.number(),
            0,
            0,
            0,
        ];
        words.extend(self.stages.iter().map(|parts| parts.len() as u32));
        words.extend(self.gates.iter().flat_map(|gate| [gate.pin, gate.first, gate.second]));
        words.extend(&self.layout);
        words.extend(self.positions.iter().flat_map(|entry| [entry.pin, entry.position, entry.staged, 0]));
        words.extend(self.parts().flat_map(Part::head));
        for part in self.parts() {
            part.push_words(&mut words);
        }
        words
    }

    /// The plan record: what `build` takes.
    #[must_use]
    pub fn record(&self) -> Vec<u8> {
        bytes(&self.words())
    }

    /// The word where the part heads begin.
    #[must_use]
    pub fn heads_at(&self) -> usize {
        let lists = GATE_WORDS * self.gates.len() + self.layout.len() + POSITION_WORDS * self.positions.len();
        HEAD_WORDS + self.stages.len() + lists
    }

    /// The word where the body of a part begins.
    #[must_use]
    pub fn body_at(&self, part: usize) -> usize {
        let bodies: usize = self.parts().take(part).map(Part::body_words).sum();
        self.heads_at() + PART_HEAD_WORDS * self.parts().count() + bodies
    }
}

impl Part {
    /// The words of the part's head in a record.
    #[must_use]
    pub fn head(&self) -> [u32; PART_HEAD_WORDS] {
        [self.stages.len() as u32, self.endpoints.len() as u32, 0, 0]
    }

    fn push_words(&self, words: &mut Vec<u32>) {
        words.extend(self.endpoints.iter().flat_map(|endpoint| [endpoint.kind, endpoint.x, endpoint.y, 0]));
        words.extend(self.stages.iter().map(|stage| stage.locations.len() as u32));
        for stage in &self.stages {
            words.extend(&stage.slots[1..]);
        }
        for stage in &self.stages {
            words.extend(&stage.locations);
        }
        let tables = &self.tables;
        for list in [&tables.sram, &tables.sram_inv, &tables.sram_set0] {
            words.extend(list);
        }
        for list in [&tables.enable, &tables.enable_inv, &tables.enable_set0, &tables.data_inv] {
            words.extend(list);
        }
    }

    /// Words of the part's body.
    #[must_use]
    pub fn body_words(&self) -> usize {
        let of_stages: usize =
            self.stages.iter().map(|stage| stage.slots.len() + stage.locations.len()).sum();
        ENDPOINT_WORDS * self.endpoints.len() + of_stages + self.tables.words()
    }
}

/// Words as bytes.
#[must_use]
pub fn bytes(words: &[u32]) -> Vec<u8> {
    let mut bytes = Vec::with_capacity(4 * words.len());
    for word in words {
        bytes.extend_from_slice(&word.to_le_bytes());
    }
    bytes
}
