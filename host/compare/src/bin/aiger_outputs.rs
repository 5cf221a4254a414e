//! Makes what abc is to compare: aiger_outputs FILE WRITTEN GATES DIR.
//!
//! FILE is an AIGER file, GATES the list that was read of it and WRITTEN what that was written as. DIR/file.aig and
//! DIR/written.aig are the first two without latches (their variables are inputs), with every gate as an output: abc drops
//! gates that no output needs. DIR/list.blif is the list, and DIR/wrong.blif is the list with one fan-in inverted.

use plan::script_file::words_of;
use std::fmt::Write;

fn main() {
    let paths: Vec<String> = std::env::args().skip(1).collect();
    let [file, written, gates, dir] = match &paths[..] {
        [file, written, gates, dir] => [file, written, gates, dir],
        _ => panic!("usage: aiger_outputs FILE WRITTEN GATES DIR"),
    };
    let read = |path: &str| std::fs::read(path).expect("the file can be read");
    let write = |name: &str, bytes: &[u8]| {
        std::fs::write(format!("{}/{}", dir, name), bytes).expect("the file can be written")
    };
    write("file.aig", &with_outputs(&read(file)));
    write("written.aig", &with_outputs(&read(written)));
    let list = words_of(&read(gates));
    write("list.blif", blif(&list).as_bytes());
    let mut wrong = list;
    wrong[1] ^= 1;
    write("wrong.blif", blif(&wrong).as_bytes());
}

/// The gates as they stand in the file, behind a header and output lines of their own.
fn with_outputs(file: &[u8]) -> Vec<u8> {
    let header = file.split(|&byte| byte == b'\n').next().expect("a header");
    let header = String::from_utf8(header.to_vec()).expect("text");
    let numbers: Vec<usize> = header.split(' ').skip(1).map(|word| word.parse().expect("a number")).collect();
    let [all, inputs, latches, outputs, gates] = match numbers[..] {
        [all, inputs, latches, outputs, gates] => [all, inputs, latches, outputs, gates],
        _ => panic!("not five numbers: {}", header),
    };
    let mut bytes = format!("aig {} {} 0 {} {}\n", all, inputs + latches, gates, gates).into_bytes();
    bytes.extend((all - gates + 1..=all).flat_map(|variable| format!("{}\n", 2 * variable).into_bytes()));
    let lines = file.iter().enumerate().filter(|(_, &byte)| byte == b'\n').nth(latches + outputs);
    let mut rest = &file[lines.expect("its lines").0 + 1..];
    for _ in 0..2 * gates {
        let length = rest.iter().position(|&byte| byte < 128).expect("its gates") + 1;
        bytes.extend(&rest[..length]);
        rest = &rest[length..];
    }
    bytes
}

/// The pins below the first gate are the inputs, every gate is an output. Pin 0 is 0.
fn blif(list: &[u32]) -> String {
    let first = list.first().copied().expect("a gate");
    let mut text = ".model list\n.inputs".to_string();
    for pin in 1..first {
        write!(text, " p{}", pin).expect("text");
    }
    text += "\n.outputs";
    for gate in list.chunks_exact(3) {
        write!(text, " p{}", gate[0]).expect("text");
    }
    text += "\n.names p0\n";
    for gate in list.chunks_exact(3) {
        let row = format!("{}{} 1", 1 - (gate[1] & 1), 1 - (gate[2] & 1));
        write!(text, ".names p{} p{} p{}\n{}\n", gate[1] >> 1, gate[2] >> 1, gate[0], row).expect("text");
    }
    text + ".end\n"
}
