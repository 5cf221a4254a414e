//! Plans built by their parts' names, slots by level and slot.

use crate::{Edition, Endpoint, Gate, Part, Pin, PinIv, Plan, Position, Stage, StatePosition, Tables, EMPTY};

impl Plan {
    /// A plan of the full edition for so many blocks, with nothing in it.
    #[must_use]
    pub fn on_blocks(blocks: u32) -> Self {
        Plan::of_edition(Edition::Full, blocks)
    }

    /// The same of an edition.
    #[must_use]
    pub fn of_edition(edition: Edition, blocks: u32) -> Self {
        Plan { edition, blocks, ..Plan::default() }
    }

    /// The next bit of the input layout is this pin's. Gives its state position.
    pub fn input(&mut self, pin: Pin) -> StatePosition {
        self.layout.push(pin.0);
        StatePosition(self.layout.len() as u32 - 1)
    }

    /// The next gate of the gate list: its pin is above all before, and its fan-ins' pins are below it.
    pub fn gate(&mut self, pin: Pin, first: PinIv, second: PinIv) {
        self.gates.push(Gate { pin: pin.0, first: first.0, second: second.0 });
    }

    /// A pin is read from the old state here: a register, as a rule. It is looked for after the input layout, and wins.
    pub fn position(&mut self, pin: Pin, position: StatePosition) {
        self.positions.push(Position { pin: pin.0, position: position.0, staged: 0 });
    }

    /// A pin that an earlier major stage stores is read from the new state here.
    pub fn staged_position(&mut self, pin: Pin, position: StatePosition) {
        self.positions.push(Position { pin: pin.0, position: position.0, staged: 1 });
    }

    /// The next major stage, of these parts.
    pub fn major_stage(&mut self, parts: Vec<Part>) {
        self.stages.push(parts);
    }
}

impl Part {
    /// A part of these boomerang stages, which are of one edition, without endpoints; none of its bits is ever enabled.
    #[must_use]
    pub fn new(stages: Vec<Stage>) -> Self {
        let edition = stages.first().map_or(Edition::Full, Stage::edition);
        Part { endpoints: Vec::new(), stages, tables: Tables::never(edition) }
    }

    /// A primary output is among its endpoints.
    pub fn output(&mut self, pin: PinIv) {
        self.endpoints.push(Endpoint::output(pin.0));
    }

    /// A pin that later major stages read is.
    pub fn staged(&mut self, pin: Pin) {
        self.endpoints.push(Endpoint::staged(pin.0));
    }

    /// A register is, by its data and its enable.
    pub fn register(&mut self, data: PinIv, enable: PinIv) {
        self.endpoints.push(Endpoint::register(data.0, enable.0));
    }

    /// An SRAM is.
    pub fn sram(&mut self) {
        self.endpoints.push(Endpoint::sram());
    }

    /// The words that it stores: stage and location of each, in the order in which they are stored.
    pub fn stored(&self) -> impl Iterator<Item = (&Stage, u32)> {
        self.stages.iter().flat_map(|stage| stage.locations.iter().map(move |&location| (stage, location)))
    }
}

impl Stage {
    /// Puts a pin to a slot of a level. Panics where there is no such slot.
    pub fn put(&mut self, level: u32, slot: u32, pin: Pin) {
        let index = self.edition().index(level, slot);
        self.slots[index.expect("a slot of a level")] = pin.0;
    }

    /// The pin at a slot of a level; none where it is empty or there is no such slot.
    #[must_use]
    pub fn at(&self, level: u32, slot: u32) -> Option<Pin> {
        let pin = *self.slots.get(self.edition().index(level, slot)?)?;
        (pin != EMPTY).then(|| Pin(pin))
    }

    /// Its next write-out location: w captures positions 32w to 32w + 31.
    pub fn store(&mut self, location: u32) {
        self.locations.push(location);
    }

    /// The pin at a bit of a location.
    #[must_use]
    pub fn captured(&self, location: u32, bit: u32) -> Option<Pin> {
        let position = 32 * location as usize + bit as usize;
        let positions = &self.slots[..self.edition().slots()];
        positions.get(position).filter(|&&pin| position > 0 && pin != EMPTY).map(|&pin| Pin(pin))
    }
}

impl Tables {
    /// Tables of zeros but that no bit is ever enabled.
    #[must_use]
    pub fn never(edition: Edition) -> Self {
        let mut tables = Tables::zeros(edition);
        tables.enable_set0.fill(u32::MAX);
        tables
    }

    /// Bit `bit` of the part's stored word `word` is always enabled.
    pub fn always(&mut self, word: usize, bit: u32) {
        self.enable_set0[word] |= 1 << bit;
        self.enable_inv[word] |= 1 << bit;
    }

    /// It is enabled where another bit that the part captures, 32·word + bit, is 1; where `inverted`, where it is 0.
    pub fn enabled_by(&mut self, word: usize, bit: u32, by: u32, inverted: bool) {
        let mask = 1 << bit;
        self.enable[32 * word + bit as usize] = by;
        self.enable_set0[word] &= !mask;
        self.enable_inv[word] = self.enable_inv[word] & !mask | u32::from(inverted) << bit;
    }

    /// It is stored inverted.
    pub fn invert(&mut self, word: usize, bit: u32) {
        self.data_inv[word] |= 1 << bit;
    }
}
