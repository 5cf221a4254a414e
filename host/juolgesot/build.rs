//! Finds the archive that the crate links, unless host/model stands in for it.

use std::path::{Path, PathBuf};
use std::process::{self, Command};
use std::{env, fs};

/// Where it is looked for, from here: where `rt lib` in the tree's crates/capi puts it, where the scripts put a copy, and where
/// host/install-lib does.
const PLACES: [&str; 3] = ["../../crates/capi/out/libcapi.a", "../../target/staticlib/libcapi.a", "../../lib/libjuolgesot.a"];

fn main() {
    println!("cargo:rerun-if-env-changed=JUOLGESOT_ARCHIVE");
    if env::var_os("CARGO_FEATURE_MODEL").is_some() {
        println!("cargo:rerun-if-changed=build.rs");
        return;
    }
    if env::var("CARGO_CFG_TARGET_ARCH").as_deref() != Ok("x86_64") {
        stop("the archive is for x86-64 alone: build with `--target x86_64-unknown-linux-gnu`, or with `--features model`, which puts a plain Rust model in its place");
    }
    let archive = archive();
    println!("cargo:rerun-if-changed={}", archive.display());
    let name = archive.file_stem().and_then(|stem| stem.to_str()).and_then(|stem| stem.strip_prefix("lib"));
    match (archive.parent(), name) {
        (Some(folder), Some(name)) => {
            println!("cargo:rustc-link-search=native={}", folder.display());
            println!("cargo:rustc-link-lib=static={}", name);
        }
        _ => stop(&format!("{} has not the name of an archive, libNAME.a", archive.display())),
    }
}

fn archive() -> PathBuf {
    let here = PathBuf::from(env::var_os("CARGO_MANIFEST_DIR").expect("cargo sets it"));
    let given = env::var_os("JUOLGESOT_ARCHIVE").map(PathBuf::from);
    match given {
        Some(word) if word == Path::new("build") => build(&here.join("../..")),
        Some(path) if path.is_file() => return whole(&path),
        Some(path) => stop(&format!("JUOLGESOT_ARCHIVE names {}, which is no file", path.display())),
        None => {}
    }
    match PLACES.iter().map(|place| here.join(place)).find(|path| path.is_file()) {
        Some(path) => whole(&path),
        None => stop(
            "the archive is not there: `rt lib` in the repository's crates/capi makes crates/capi/out/libcapi.a (it proves all crates below first; JUOLGESOT_ARCHIVE=build does it from here), JUOLGESOT_ARCHIVE=FILE names one, and `--features model` does without",
        ),
    }
}

/// Proves and builds it, if that is not done.
fn build(root: &Path) {
    let done = Command::new("rt").arg("lib").current_dir(root.join("crates/capi")).status();
    if !done.map_or(false, |status| status.success()) {
        stop(
            "`rt lib` failed in the repository's crates/capi (above is what it said; `rt` is Rattle's own tool)",
        );
    }
}

fn whole(path: &Path) -> PathBuf {
    fs::canonicalize(path).unwrap_or_else(|_| path.to_path_buf())
}

fn stop(what: &str) -> ! {
    eprintln!("juolgesot: {}", what);
    process::exit(1)
}
