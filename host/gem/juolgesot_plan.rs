//! Juolgesot's file for GEM: writes the plan that GEM flattened, and GEM's own script of it, for `juolgesot compare`.
//!
//! Put this file into GEM's src/, beside flatten.rs, and these two lines at the end of flatten.rs:
//!
//!     #[path = "juolgesot_plan.rs"]
//!     pub mod juolgesot_plan;
//!
//! Nothing else of GEM is changed: a module within flatten.rs sees its private parts. Then, where a script is made,
//!
//!     let script = FlattenedScriptV1::from(&aig, &stageds, &parts_in_stages, num_blocks, input_layout);
//!     gem::flatten::juolgesot_plan::write("out/NAME", &aig, &stageds, &parts_in_stages, &script)?;
//!
//! writes out/NAME.plan, the plan record, and out/NAME.script; and
//!
//!     juolgesot compare out/NAME.plan out/NAME.script ..
//!
//! says whether Juolgesot builds the same script of the plan, word by word. It needs std and GEM's own crates alone.

use super::{FlattenedScriptV1, FlatteningPart};
use crate::aig::{DriverType, EndpointGroup, AIG};
use crate::pe::Partition;
use crate::staging::StagedAIG;
use indexmap::IndexMap;
use std::fs::File;
use std::io::{self, BufWriter, Write};

/// GEM's lanes, which name the edition.
const LANES: u32 = 256;

/// Writes BASE.plan and BASE.script.
pub fn write(
    base: &str,
    aig: &AIG,
    stageds: &[&StagedAIG],
    parts_in_stages: &[&[Partition]],
    script: &FlattenedScriptV1,
) -> io::Result<()> {
    let words = record(aig, stageds, parts_in_stages, script);
    let mut file = BufWriter::new(File::create(format!("{}.plan", base))?);
    for word in words {
        file.write_all(&word.to_le_bytes())?;
    }
    file.flush()?;
    write_script(&format!("{}.script", base), script)
}

/// 8 bytes `JUOLGES2`; u64 edition (its lanes), blocks, starts, words, state words, SRAM words; the starts (u64), the words (u32).
fn write_script(path: &str, script: &FlattenedScriptV1) -> io::Result<()> {
    let mut file = BufWriter::new(File::create(path)?);
    file.write_all(b"JUOLGES2")?;
    for number in [
        LANES.into(),
        script.num_blocks as u64,
        script.blocks_start.len() as u64,
        script.blocks_data.len() as u64,
        script.reg_io_state_size.into(),
        script.sram_storage_size.into(),
    ] {
        file.write_all(&number.to_le_bytes())?;
    }
    for &start in script.blocks_start.iter() {
        file.write_all(&(start as u64).to_le_bytes())?;
    }
    for &word in script.blocks_data.iter() {
        file.write_all(&word.to_le_bytes())?;
    }
    file.flush()
}

/// The words of the plan record (Juolgesot's docs/LAYOUT.md).
pub fn record(
    aig: &AIG,
    stageds: &[&StagedAIG],
    parts_in_stages: &[&[Partition]],
    script: &FlattenedScriptV1,
) -> Vec<u32> {
    let (tables, staged_io_map) = tables_of(aig, stageds, parts_in_stages, script);
    let gates = gates(aig);
    let mut words = vec![
        script.num_blocks as u32,
        parts_in_stages.len() as u32,
        gates.len() as u32,
        script.input_layout.len() as u32,
        (script.input_map.len() + staged_io_map.len()) as u32,
        LANES,
        0,
        0,
        0,
    ];
    words.extend(parts_in_stages.iter().map(|parts| parts.len() as u32));
    words.extend(gates.iter().flatten());
    words.extend(script.input_layout.iter().map(|&pin| pin_word(pin)));
    for (map, staged) in [(&script.input_map, 0), (&staged_io_map, 1)] {
        words.extend(map.iter().flat_map(|(&pin, &position)| [pin as u32, position, staged, 0]));
    }
    let mut parts: Vec<(&Partition, &StagedAIG)> = Vec::new();
    for (of_stage, staged) in parts_in_stages.iter().zip(stageds) {
        parts.extend(of_stage.iter().map(|part| (part, *staged)));
    }
    let head = |part: &Partition| [part.stages.len() as u32, part.endpoints.len() as u32, 0, 0];
    words.extend(parts.iter().flat_map(|(part, _)| head(part)));
    for ((part, staged), tables) in parts.iter().zip(&tables) {
        push_part(&mut words, aig, staged, part, tables);
    }
    words
}

/// Pin, first and second fan-in of each gate.
fn gates(aig: &AIG) -> Vec<[u32; 3]> {
    let gate = |pin: usize| match aig.drivers[pin] {
        DriverType::AndGate(first, second) => Some([pin as u32, first as u32, second as u32]),
        _ => None,
    };
    (0..=aig.num_aigpins).filter_map(gate).collect()
}

/// The endpoints, the stages and the tables of a part.
fn push_part(words: &mut Vec<u32>, aig: &AIG, staged: &StagedAIG, part: &Partition, tables: &FlatteningPart) {
    for &endpoint in &part.endpoints {
        words.extend(match staged.get_endpoint_group(aig, endpoint) {
            EndpointGroup::PrimaryOutput(pin) => [0, pin as u32, 0, 0],
            EndpointGroup::StagedIOPin(pin) => [1, pin as u32, 0, 0],
            EndpointGroup::DFF(dff) => [2, dff.d_iv as u32, dff.en_iv as u32, 0],
            EndpointGroup::RAMBlock(_) => [3, 0, 0, 0],
        });
    }
    words.extend(part.stages.iter().map(|stage| stage.write_outs.len() as u32));
    for stage in &part.stages {
        words.extend(stage.hier.iter().rev().flatten().map(|&pin| pin_word(pin)));
    }
    words.extend(part.stages.iter().flat_map(|stage| &stage.write_outs).map(|&location| location as u32));
    words.extend(tables.sram_duplicate_permute.iter().map(|&entry| entry as u32));
    words.extend(tables.sram_duplicate_inv.iter().chain(&tables.sram_duplicate_set0));
    words.extend(tables.clken_permute.iter().map(|&entry| entry as u32));
    words.extend(tables.clken_inv.iter().chain(&tables.clken_set0).chain(&tables.data_inv));
}

/// A pin, or 2^32 - 1 for none.
fn pin_word(pin: usize) -> u32 {
    if pin == usize::MAX {
        u32::MAX
    } else {
        pin as u32
    }
}

/// Each part's tables, and where the staged pins are: by GEM's own functions, asked again for each part, its starts being read
/// from GEM's script.
fn tables_of(
    aig: &AIG,
    stageds: &[&StagedAIG],
    parts_in_stages: &[&[Partition]],
    script: &FlattenedScriptV1,
) -> (Vec<FlatteningPart>, IndexMap<usize, u32>) {
    let (mut input_map, mut staged_io_map) = (IndexMap::new(), IndexMap::new());
    let mut tables = Vec::new();
    for (stage, (parts, staged)) in parts_in_stages.iter().zip(stageds).enumerate() {
        for (part, (state_start, sram_start)) in parts.iter().zip(starts_of(script, stage, parts.len())) {
            let mut flattening = FlatteningPart { state_start, sram_start, ..Default::default() };
            flattening.init_afters_writeouts(aig, staged, part);
            flattening.make_inputs_outputs(
                aig,
                staged,
                part,
                &mut input_map,
                &mut staged_io_map,
                &mut IndexMap::new(),
            );
            tables.push(flattening);
        }
    }
    (tables, staged_io_map)
}

/// State start and SRAM start of each part of a major stage: words 3 and 5 of its head. Words 0 and 6 are its stages and rounds.
fn starts_of(script: &FlattenedScriptV1, stage: usize, parts: usize) -> Vec<(u32, u32)> {
    let mut starts = vec![(0, 0); parts];
    for (block, of_block) in script.stages_blocks_parts[stage].iter().enumerate() {
        let mut at = script.blocks_start[stage * script.num_blocks + block];
        for &part in of_block {
            let head = &script.blocks_data[at..];
            starts[part] = (head[3], head[5]);
            at += 10496 + 512 * head[6] as usize + 5120 * head[0] as usize;
        }
    }
    starts
}
