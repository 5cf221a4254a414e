//! Times of AIGER files read and written, beside host/model's plain Rust.

use super::{in_two_places, in_words, time_both, timed, Row, Table, Times};
use crate::{Failure, Outcome};
use random::Random;
use std::time::Duration;

const GATES: u32 = 1_000_000;
/// Pins below the first gate.
const INPUTS: u32 = 1_000;

pub fn rows(table: &mut Table, random: &mut Random, time: Duration) -> Outcome {
    table.begin(&["AIGER", "bytes", "ours", "host/model", "ratio"]);
    let list = list(random);
    let mut file = Vec::new();
    model::aiger::write(&list, &mut file).map_err(|_| Failure::Failed("the list is refused".to_string()))?;
    for (name, times) in [("read", times_read(&file, time)?), ("write", times_write(&list, time)?)] {
        let cells = [
            file.len().to_string(),
            in_words(times.ours),
            in_words(times.theirs),
            in_two_places(times.ratio()),
        ];
        table.add(Row { group: "AIGER", name: format!("{} {} gates", name, GATES), times }, &cells);
    }
    Ok(())
}

/// Fan-ins near and far: differences of one to three bytes.
fn list(random: &mut Random) -> Vec<u32> {
    let mut list = Vec::new();
    for pin in INPUTS + 1..=INPUTS + GATES {
        let far = random.pick(&[40, 2_000, 2 * pin as usize]).min(2 * pin as usize);
        let fan_ins = [(); 2].map(|()| 2 * pin - random.between(1, far) as u32);
        list.extend([pin, fan_ins[0].max(fan_ins[1]), fan_ins[0].min(fan_ins[1])]);
    }
    list
}

/// Both with memory that is there already.
fn times_read(file: &[u8], time: Duration) -> Result<Times, Failure> {
    let (mut out, mut list) = (vec![0; 3 * GATES as usize], Vec::new());
    let ours = || {
        out.fill(0);
        let (header, took) = timed(|| juolgesot::read_aiger_into(file, &mut out));
        (header.ok().map(|header| (header.gates, header.inputs, out.clone())), took)
    };
    let theirs = || {
        let (header, took) = timed(|| model::aiger::read(file, &mut list));
        (header.ok().map(|header| (header.gates, header.inputs, list.clone())), took)
    };
    time_both(time, ours, theirs)
}

fn times_write(list: &[u32], time: Duration) -> Result<Times, Failure> {
    let (mut out, mut bytes) = (vec![0; 64 + 10 * GATES as usize], Vec::new());
    let ours = || {
        let (length, took) = timed(|| juolgesot::write_aiger_into(list, &mut out));
        (length.ok().map(|length| out[..length].to_vec()), took)
    };
    let theirs = || {
        let (written, took) = timed(|| model::aiger::write(list, &mut bytes));
        (written.ok().map(|()| bytes.clone()), took)
    };
    time_both(time, ours, theirs)
}
