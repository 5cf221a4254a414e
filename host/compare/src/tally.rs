//! Counts by kind, printed in the order in which the kinds first came.

use std::time::Duration;

pub struct Tally {
    title: &'static str,
    lines: Vec<Line>,
}

struct Line {
    kind: String,
    count: u64,
    time: Duration,
}

impl Tally {
    pub fn new(title: &'static str) -> Self {
        Tally { title, lines: Vec::new() }
    }

    pub fn count(&mut self, kind: &str) {
        self.count_timed(kind, Duration::ZERO);
    }

    pub fn count_many(&mut self, kind: &str, count: u64) {
        self.line(kind).count += count;
    }

    pub fn count_timed(&mut self, kind: &str, time: Duration) {
        let line = self.line(kind);
        line.count += 1;
        line.time += time;
    }

    fn line(&mut self, kind: &str) -> &mut Line {
        match self.lines.iter().position(|line| line.kind == kind) {
            Some(place) => &mut self.lines[place],
            None => {
                self.lines.push(Line { kind: kind.to_string(), count: 0, time: Duration::ZERO });
                self.lines.last_mut().expect("just pushed")
            }
        }
    }

    /// How often this kind came.
    pub fn times(&self, kind: &str) -> u64 {
        self.lines.iter().find(|line| line.kind == kind).map_or(0, |line| line.count)
    }

    pub fn total(&self) -> u64 {
        self.lines.iter().map(|line| line.count).sum()
    }

    pub fn sort(&mut self) {
        self.lines.sort_by(|a, b| a.kind.cmp(&b.kind));
    }

    pub fn print(&self) {
        println!("{}:", self.title);
        for Line { kind, count, time } in &self.lines {
            if time.is_zero() {
                println!("  {:>7}  {}", count, kind);
            } else {
                println!("  {:>7}  {} ({:.1} s)", count, kind, time.as_secs_f64());
            }
        }
    }
}
