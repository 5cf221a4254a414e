//! Writes plans of document 01's marked set: `m10 [small] FILE` M10's; `m10 [small] reads DIR` three that read M5's set, one that the
//! search misses and one that has no packing, in their second part.

use compare::marked;
use plan::{Edition, Plan};
use std::path::Path;

fn main() {
    let words: Vec<String> = std::env::args().skip(1).collect();
    let (edition, words) = match &words[..] {
        [first, rest @ ..] if first == "small" => (Edition::Small, rest),
        words => (Edition::Full, words),
    };
    match words {
        [path] => write(Path::new(path), &marked::m10(edition)),
        [reads, dir] if reads == "reads" => {
            for (name, plan) in marked::reads_in_second_part(edition) {
                write(&Path::new(dir).join(name), &plan);
            }
        }
        _ => panic!("usage: m10 [small] [reads DIR | FILE]"),
    }
}

fn write(path: &Path, plan: &Plan) {
    std::fs::write(path, plan.record()).expect("the file can be written");
}
