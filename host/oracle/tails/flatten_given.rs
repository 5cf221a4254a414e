
// Accessor tail of flatten_given.rs: GEM's flatten.rs again, its one call of `make_inputs_outputs` renamed to
// `oracle_given` at build time. So tables and positions are what a plan gives, and all else is GEM's. Where
// `map_global_read_to_rounds` returns and where a try fails, it notes the piece size and the word; nothing else is changed.
use std::cell::RefCell;

/// What the searches of a build, or of one call, noted.
#[derive(Debug, Clone, Default, PartialEq, Eq)]
pub struct OracleNotes {
    /// The piece size that won, search by search.
    pub won: Vec<usize>,
    /// Piece size and word of the last try that stopped.
    pub stopped: Option<(usize, u32)>,
}

thread_local! {
    static ORACLE_NOTES: RefCell<OracleNotes> = RefCell::new(OracleNotes::default());
}

/// Notes the size, and passes on what is returned.
fn oracle_won<T>(chunk_size: usize, returned: T) -> T {
    ORACLE_NOTES.with(|notes| notes.borrow_mut().won.push(chunk_size));
    returned
}

fn oracle_stopped(chunk_size: usize, offset: u32) {
    ORACLE_NOTES.with(|notes| notes.borrow_mut().stopped = Some((chunk_size, offset)));
}

/// What was noted since this was called last.
pub fn oracle_notes() -> OracleNotes {
    ORACLE_NOTES.with(|notes| notes.take())
}

/// The private function itself.
pub fn oracle_map_global_read_to_rounds(
    inputs_taken: &BTreeMap<u32, u32>
) -> Vec<Vec<(u32, u32)>> {
    map_global_read_to_rounds(inputs_taken)
}

pub struct OracleGiven {
    pub unstaged: Vec<(usize, u32)>,
    pub staged: Vec<(usize, u32)>,
    /// The parts' tables, the last part first.
    pub tables: Vec<crate::flatten::OracleTables>,
}

thread_local! {
    static ORACLE_GIVEN: RefCell<Option<OracleGiven>> = RefCell::new(None);
}

impl FlatteningPart {
    /// In the place of `make_inputs_outputs`. (Later entries win, so putting them in again does no harm.)
    fn oracle_given(
        &mut self, _: &AIG, _: &StagedAIG, _: &Partition,
        input_map: &mut IndexMap<usize, u32>,
        staged_io_map: &mut IndexMap<usize, u32>,
        _: &mut IndexMap<usize, u32>,
    ) {
        ORACLE_GIVEN.with(|given| {
            let mut given = given.borrow_mut();
            let given = given.as_mut().expect("given for this build");
            for (pin, position) in given.unstaged.drain(..) {
                input_map.insert(pin, position);
            }
            for (pin, position) in given.staged.drain(..) {
                staged_io_map.insert(pin, position);
            }
            let tables = given.tables.pop().expect("tables for every part");
            self.sram_duplicate_permute = tables.sram;
            self.sram_duplicate_inv = tables.sram_inv;
            self.sram_duplicate_set0 = tables.sram_set0;
            self.clken_permute = tables.enable;
            self.clken_inv = tables.enable_inv;
            self.clken_set0 = tables.enable_set0;
            self.data_inv = tables.data_inv;
        })
    }
}

/// `build_flattened_script_v1` with what is given in the place of what `make_inputs_outputs` makes.
pub fn oracle_build_given(
    aig: &AIG, stageds: &[&StagedAIG],
    parts_in_stages: &[&[Partition]],
    num_blocks: usize,
    input_layout: Vec<usize>,
    given: OracleGiven
) -> FlattenedScriptV1 {
    ORACLE_GIVEN.with(|slot| *slot.borrow_mut() = Some(given));
    build_flattened_script_v1(aig, stageds, parts_in_stages, num_blocks, input_layout)
}
