//! Takes every design through GEM and writes its plan and script: make_plans FILE.

use netlists::designs;
use plan::stored::{self, Case};
use std::time::Instant;

fn main() {
    let path = std::env::args().nth(1).expect("usage: make_plans FILE");
    let start = Instant::now();
    let mut cases = Vec::new();
    let mut parts = 0;
    for (design, refused) in designs::forty()
        .iter()
        .map(|design| (design, false))
        .chain(designs::staged_duplicates().iter().map(|design| (design, true)))
    {
        let made = from_gem::make(design);
        let staged_duplicate = made.staged_duplicates > 0;
        assert_eq!(staged_duplicate, refused, "{}: staged pins in duplicate words", design.name);
        parts += made.plan.parts().count();
        let (record, script) = (made.plan.record(), made.script);
        cases.push(Case { name: design.name.clone(), staged_duplicate, record, script });
    }
    let bytes = stored::write(&cases);
    std::fs::write(&path, &bytes).expect("the file can be written");
    println!(
        "make_plans: {} designs, {} of them with staged pins in duplicate words, {} parts, {} bytes, {:.1} s",
        cases.len(),
        cases.iter().filter(|case| case.staged_duplicate).count(),
        parts,
        bytes.len(),
        start.elapsed().as_secs_f64()
    );
}
