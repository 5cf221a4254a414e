//! The reference of the comparisons where GEM's sources are missing: the model of document 01.

use model::edition::Edition;
use model::rounds::{Packing, Pair};
use plan::{Plan, Script};
use std::collections::BTreeMap;
use std::time::{Duration, Instant};

pub const NAME: &str = "host/model";

pub fn search(pairs: &[Pair]) -> Result<Packing, Option<u32>> {
    model::rounds::search(Edition::FULL, pairs)
}

pub fn lanes_of_map(set: &BTreeMap<u32, u32>) -> Option<Vec<Vec<(u32, u32)>>> {
    let pairs: Vec<(u32, u32)> = set.iter().map(|(&word, &mask)| (word, mask)).collect();
    search(&pairs).ok().map(|packing| packing.lanes)
}

/// What GEM makes of a plan, which is not known here: the comparisons use the model itself.
pub enum Flattened {
    Script(Script),
    Panicked(Option<u32>),
    NotAsked,
}

pub fn flatten(_: &Plan) -> Flattened {
    Flattened::NotAsked
}

/// The model's script of a plan in order, and how long it took.
pub fn flatten_timed(plan: &Plan) -> (Script, Duration) {
    let record = plan.record();
    let start = Instant::now();
    let words = model::record::words(&record);
    let accepted = model::build::accept(record.len(), &words).expect("a plan in order");
    let model::build::Sizes { state_words, sram_words, .. } = accepted.sizes();
    let blocks = plan.blocks as usize;
    let (starts, words, pieces) = (accepted.starts(), accepted.words(), accepted.pieces);
    let edition = plan.edition;
    (Script { edition, blocks, starts, words, state_words, sram_words, pieces }, start.elapsed())
}

/// GEM's `place_bit` and `purge_bit`, which are not known here.
pub enum Placer {}

/// A stage that GEM places on.
pub struct PlacerStage;

impl Placer {
    pub fn of(_: &[u32], _: &[u32]) -> Option<Self> {
        None
    }

    pub fn place(&self, _: &mut PlacerStage, _: u32, _: u32, _: u32) -> bool {
        match *self {}
    }

    pub fn purge(&self, _: &mut PlacerStage, _: u32, _: u32) -> bool {
        match *self {}
    }
}

impl PlacerStage {
    pub fn of(_: &[u32], _: &[u32]) -> Self {
        PlacerStage
    }

    pub fn slots(&self) -> Vec<u32> {
        Vec::new()
    }

    pub fn counts(&self) -> Vec<(u32, u64)> {
        Vec::new()
    }
}
