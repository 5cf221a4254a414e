
// Accessor tail: put after GEM's text at build time. See host/oracle/src/lib.rs.
/// The private function itself.
pub fn oracle_map_global_read_to_rounds(
    inputs_taken: &BTreeMap<u32, u32>
) -> Vec<Vec<(u32, u32)>> {
    map_global_read_to_rounds(inputs_taken)
}

/// What `make_inputs_outputs` made for one part.
pub struct OracleTables {
    pub sram: Vec<u16>,
    pub sram_inv: Vec<u32>,
    pub sram_set0: Vec<u32>,
    pub enable: Vec<u16>,
    pub enable_inv: Vec<u32>,
    pub enable_set0: Vec<u32>,
    pub data_inv: Vec<u32>,
    /// Staged pins of the part that lie in its duplicate words.
    pub staged_duplicates: usize,
}

/// Where the bits of a part lie, as `make_inputs_outputs` placed them.
pub struct OraclePlaces {
    pub state_start: u32,
    pub normal_words: u32,
    /// For each endpoint of the part, the place of its bit in the part's state. An SRAM has none, nor has a register
    /// of 0.
    pub endpoints: Vec<Option<u16>>,
}

/// State start and SRAM start of each part of a major stage, as the heads of the parts in the script have them.
fn oracle_starts(script: &FlattenedScriptV1, stage: usize, parts: usize) -> Vec<(u32, u32)> {
    let mut starts = vec![(0, 0); parts];
    for (block, block_parts) in script.stages_blocks_parts[stage].iter().enumerate() {
        let mut at = script.blocks_start[stage * script.num_blocks + block];
        for &part in block_parts {
            let words = &script.blocks_data[at..];
            starts[part] = (words[3], words[5]);
            at += plan::Edition::Full.part_words(words[0].into(), words[6].into()) as usize;
        }
    }
    starts
}

/// The place of an endpoint's activation.
fn oracle_place(flattening: &FlatteningPart, endpoint: EndpointGroup) -> Option<u16> {
    let (pin, key) = match endpoint {
        EndpointGroup::RAMBlock(_) => return None,
        EndpointGroup::DFF(dff) if dff.d_iv == 0 => return None,
        EndpointGroup::DFF(dff) => (dff.d_iv >> 1, dff.en_iv << 1 | (dff.d_iv & 1)),
        EndpointGroup::PrimaryOutput(idx) => (idx >> 1, 2 | (idx & 1)),
        EndpointGroup::StagedIOPin(idx) => (idx, 2),
    };
    *flattening.comb_outputs_activations.get(&pin).unwrap().get(&key).unwrap()
}

/// What `make_inputs_outputs` makes: positions (registers and SRAM outputs; staged pins), each part's tables and places.
/// It is asked again for each part in turn, the part's starts being read from the script that GEM made.
pub fn oracle_inputs_outputs(
    aig: &AIG, stageds: &[&StagedAIG],
    parts_in_stages: &[&[Partition]],
    script: &FlattenedScriptV1
) -> (IndexMap<usize, u32>, IndexMap<usize, u32>, Vec<OracleTables>, Vec<OraclePlaces>) {
    let mut input_map = IndexMap::new();
    let mut staged_io_map = IndexMap::new();
    let mut tables = Vec::new();
    let mut places = Vec::new();
    for (stage, (parts, staged)) in parts_in_stages.iter().zip(stageds).enumerate() {
        let starts = oracle_starts(script, stage, parts.len());
        for (part, &(state_start, sram_start)) in parts.iter().zip(&starts) {
            let mut flattening = FlatteningPart { state_start, sram_start, ..Default::default() };
            flattening.init_afters_writeouts(aig, staged, part);
            flattening.make_inputs_outputs(
                aig, staged, part,
                &mut input_map, &mut staged_io_map, &mut IndexMap::new()
            );
            let normal = (flattening.num_normal_writeouts * 32) as usize;
            let staged_duplicates = part.endpoints.iter().filter(|&&endpoint| {
                match staged.get_endpoint_group(aig, endpoint) {
                    EndpointGroup::StagedIOPin(pin) =>
                        (*staged_io_map.get(&pin).unwrap() - state_start * 32) as usize >= normal,
                    _ => false
                }
            }).count();
            places.push(OraclePlaces {
                state_start,
                normal_words: flattening.num_normal_writeouts,
                endpoints: part.endpoints.iter().map(|&endpoint| {
                    oracle_place(&flattening, staged.get_endpoint_group(aig, endpoint))
                }).collect()
            });
            tables.push(OracleTables {
                sram: flattening.sram_duplicate_permute,
                sram_inv: flattening.sram_duplicate_inv,
                sram_set0: flattening.sram_duplicate_set0,
                enable: flattening.clken_permute,
                enable_inv: flattening.clken_inv,
                enable_set0: flattening.clken_set0,
                data_inv: flattening.data_inv,
                staged_duplicates
            });
        }
    }
    (input_map, staged_io_map, tables, places)
}
