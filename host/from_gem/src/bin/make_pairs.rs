//! Takes every design through GEM and lets host/gem's file write its plan and GEM's script: make_pairs DIR. So the file is tried on
//! GEM's sources as they are, with stand-ins for the crates that they name.

use netlists::designs;

fn main() {
    let folder = std::env::args().nth(1).expect("usage: make_pairs DIR");
    std::fs::create_dir_all(&folder).expect("the folder can be made");
    let all: Vec<_> = designs::forty().into_iter().chain(designs::staged_duplicates()).collect();
    for (number, design) in all.iter().enumerate() {
        from_gem::write_pair(design, &format!("{}/{:02}", folder, number)).expect("both can be written");
    }
    println!("make_pairs: {} designs, a plan and a script of each", all.len());
}
