
// Accessor tail: put after GEM's `place_bit` and `purge_bit`, which stand inside another function of pe.rs. See build.sh.
use crate::aig::{DriverType, AIG};
use indexmap::IndexMap;

/// What both are lent: a stage's slots by level, and how often each node stands at levels 1 and up.
pub struct OracleStage {
    pub hier: Vec<Vec<usize>>,
    pub counts: IndexMap<usize, usize>,
}

/// Gates, and levels by a number that each node has.
pub struct OracleLevels {
    pub aig: AIG,
    pub level: Vec<usize>,
    pub id2order: IndexMap<usize, usize>,
}

/// The private functions themselves.
pub fn oracle_place_bit(levels: &OracleLevels, stage: &mut OracleStage, hi: usize, j: usize, nd: usize) {
    let OracleLevels { aig, level, id2order } = levels;
    place_bit(aig, &mut stage.hier, &mut stage.counts, level, id2order, hi, j, nd);
}

pub fn oracle_purge_bit(levels: &OracleLevels, stage: &mut OracleStage, hi: usize, j: usize) {
    let OracleLevels { aig, level, id2order } = levels;
    purge_bit(aig, &mut stage.hier, &mut stage.counts, level, id2order, hi, j);
}
