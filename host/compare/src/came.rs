//! Which answers came by each kind of damage.

use std::collections::BTreeMap;

pub struct Came {
    times: u32,
    /// By the refusal that is meant (0: none) and the damage's name: how often each answer came.
    answers: BTreeMap<(u32, &'static str), BTreeMap<u32, u32>>,
}

impl Came {
    /// The refusal that is meant is to come so many times.
    pub fn new(times: u32) -> Self {
        Came { times, answers: BTreeMap::new() }
    }

    pub fn count(&mut self, meant: u32, name: &'static str, found: u32) {
        *self.answers.entry((meant, name)).or_default().entry(found).or_insert(0) += 1;
    }

    fn meant_times(&self, meant: u32, name: &'static str) -> u32 {
        self.answers.get(&(meant, name)).and_then(|answers| answers.get(&meant)).copied().unwrap_or(0)
    }

    /// It did not come often enough yet.
    pub fn wants(&self, meant: u32, name: &'static str) -> bool {
        self.meant_times(meant, name) < self.times
    }

    /// A line for each damage; ends the program where one did not bring about its refusal three times.
    pub fn print(&self) {
        for (&(meant, name), answers) in &self.answers {
            let others: Vec<String> = answers
                .iter()
                .filter(|(&found, _)| found != meant)
                .map(|(found, times)| format!(", {} by {}", times, found))
                .collect();
            println!("  {:2}  {:40} {} times{}", meant, name, self.meant_times(meant, name), others.concat());
        }
        for &(meant, name) in self.answers.keys() {
            assert!(self.meant_times(meant, name) >= 3, "{} did not come three times by: {}", meant, name);
        }
    }
}
