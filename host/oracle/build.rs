//! Copies GEM's files, from GEM_SRC or from ../shared/docs/src beside the repository, to where cargo builds, as they are, and
//! puts the tails behind them. `flatten_given.rs` is flatten.rs once more with one call renamed, so that tables can be given, and
//! two lines that also note what they know: the piece size that won and the word that a try stopped at (tails/flatten_given.rs).
//! `one_bit.rs` is cut out of pe.rs. host/gem's file for GEM is put beside flatten.rs, as it says itself.

use std::path::{Path, PathBuf};
use std::{env, fs, process};

const FILES: [&str; 5] = ["aig", "aigpdk", "flatten", "pe", "staging"];
/// Files that a tail is put behind, so that private functions can be called.
const WITH_TAILS: [&str; 3] = ["flatten", "flatten_given", "one_bit"];
/// What is changed for flatten_given.rs: each stands in flatten.rs exactly once.
const CHANGES: [[&str; 2]; 3] = [
    ["flattening_parts[part_id].make_inputs_outputs(", "flattening_parts[part_id].oracle_given("],
    ["return rounds_idx_masks\n", "return oracle_won(chunk_size, rounds_idx_masks)\n"],
    ["fail = true;\n", "oracle_stopped(chunk_size, offset); fail = true;\n"],
];

/// What host/gem/juolgesot_plan.rs asks for at the end of flatten.rs.
const CREW: &str = "\n#[path = \"juolgesot_plan.rs\"]\npub mod juolgesot_plan;\n";

fn main() {
    let here = PathBuf::from(env::var_os("CARGO_MANIFEST_DIR").expect("cargo sets it"));
    let out = PathBuf::from(env::var_os("OUT_DIR").expect("cargo sets it"));
    let from = env::var_os("GEM_SRC").map_or_else(|| here.join("../../../shared/docs/src"), PathBuf::from);
    println!("cargo:rerun-if-env-changed=GEM_SRC");
    println!("cargo:rerun-if-changed={}", from.join("src").display());
    println!("cargo:rerun-if-changed={}", here.join("tails").display());

    for name in FILES {
        write(&out, name, read(&from.join("src").join(name).with_extension("rs")));
    }
    let mut given = read(&out.join("flatten.rs"));
    for [text, changed] in CHANGES {
        if given.matches(text).count() != 1 {
            stop(&format!("flatten.rs does not have `{}` once", text.trim()));
        }
        given = given.replace(text, changed);
    }
    write(&out, "flatten_given", given);
    write(&out, "one_bit", one_bit(&read(&out.join("pe.rs"))));
    for name in WITH_TAILS {
        let tail = read(&here.join("tails").join(name).with_extension("rs"));
        write(&out, name, read(&out.join(name).with_extension("rs")) + &tail);
    }
    let crew = here.join("../gem/juolgesot_plan.rs");
    println!("cargo:rerun-if-changed={}", crew.display());
    write(&out, "juolgesot_plan", read(&crew));
    write(&out, "flatten", read(&out.join("flatten.rs")) + CREW);
    write(&out, "modules", modules(&out));
}

/// The modules, each by its whole path: an included file's own place is not looked at.
fn modules(out: &Path) -> String {
    let module = |name: &&str| {
        format!(
            "#[path = {:?}]\npub mod {};\n",
            out.join(name).with_extension("rs").display().to_string(),
            name
        )
    };
    FILES.iter().chain(&WITH_TAILS[1..]).map(module).collect()
}

/// GEM's `place_bit` and `purge_bit` stand inside another function of pe.rs: the lines from where the one begins to where the
/// other ends.
fn one_bit(pe: &str) -> String {
    let begins = |name: &str| {
        let line = format!("    fn {}(", name);
        let found: Vec<usize> =
            pe.lines().enumerate().filter(|(_, text)| *text == line).map(|(at, _)| at).collect();
        match found[..] {
            [at] => at,
            _ => stop(&format!("pe.rs has not one function {}", name)),
        }
    };
    let (first, last) = (begins("place_bit"), begins("purge_bit"));
    let length = pe.lines().skip(last).take_while(|line| *line != "    }").count();
    pe.lines().take(last + length + 1).skip(first).map(|line| format!("{}\n", line)).collect()
}

fn read(path: &Path) -> String {
    fs::read_to_string(path).unwrap_or_else(|error| {
        stop(&format!("{}: {}: GEM_SRC says where GEM's sources are (its folder src)", path.display(), error))
    })
}

fn write(out: &Path, name: &str, text: String) {
    fs::write(out.join(name).with_extension("rs"), text).expect("cargo's own folder can be written");
}

fn stop(what: &str) -> ! {
    eprintln!("host: {}", what);
    process::exit(1)
}
