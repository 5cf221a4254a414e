//! A report of replays: one HTML file with its charts in it, and nothing that a browser would have to fetch.
//!
//! Beside what was seen stands what a Bloom filter of M bits and K hashes is expected to show once n keys are in it, were its
//! hashes drawn at random: a bit is set with p = 1 - (1 - 1/M)^(K n), and a key that is not in it gets a maybe with p^K.

use crate::Counts;
use crate::Looked;
use filter::{Answer, HASHES, REGISTERS};
use std::fmt::Write;

/// Cycles that lie together in the charts.
#[derive(Debug, Default, Clone, Copy)]
struct Bin {
    cycles: u64,
    /// Sums over the cycles: registers set, and how many are expected to be.
    fill: u64,
    expected_fill: f64,
    looked_up: u64,
    maybe: u64,
    expected_maybe: f64,
    /// Look-ups of keys that flash does not hold, and how many of them got a maybe.
    absent: u64,
    false_maybe: u64,
    expected_false: f64,
}

impl Bin {
    fn add(&mut self, other: &Bin) {
        self.cycles += other.cycles;
        self.fill += other.fill;
        self.expected_fill += other.expected_fill;
        self.looked_up += other.looked_up;
        self.maybe += other.maybe;
        self.expected_maybe += other.expected_maybe;
        self.absent += other.absent;
        self.false_maybe += other.false_maybe;
        self.expected_false += other.expected_false;
    }
}

/// Bins at most; where there would be more, each two become one.
const BINS: usize = 256;

/// What is gathered of one replay.
#[derive(Debug)]
pub struct Gathered {
    name: String,
    bins: Vec<Bin>,
    /// Cycles of a whole bin.
    width: u64,
    counts: Counts,
}

impl Gathered {
    pub fn of(name: &str) -> Self {
        Gathered { name: name.to_string(), bins: Vec::new(), width: 1, counts: Counts::default() }
    }

    /// A cycle: registers set and keys in flash before it, and what was looked up in it.
    pub fn add(&mut self, (fill, keys): (usize, usize), looked: &[Option<Looked>]) {
        let set = expected_set(keys);
        let chance = set.powi(HASHES as i32);
        let mut bin =
            Bin { cycles: 1, fill: fill as u64, expected_fill: set * REGISTERS as f64, ..Bin::default() };
        for looked in looked.iter().flatten() {
            let maybe = (looked.answer == Answer::Maybe) as u64;
            bin.looked_up += 1;
            bin.maybe += maybe;
            bin.expected_maybe += if looked.in_flash { 1.0 } else { chance };
            if !looked.in_flash {
                bin.absent += 1;
                bin.false_maybe += maybe;
                bin.expected_false += chance;
            }
        }
        match self.bins.last_mut() {
            Some(last) if last.cycles < self.width => last.add(&bin),
            _ => self.push(bin),
        }
    }

    fn push(&mut self, bin: Bin) {
        self.bins.push(bin);
        if self.bins.len() == BINS {
            self.width *= 2;
            self.bins = self.bins.chunks(2).map(two_in_one).collect();
        }
    }

    pub fn finish(&mut self, counts: Counts) {
        self.counts = counts;
    }
}

fn two_in_one(bins: &[Bin]) -> Bin {
    let mut sum = bins[0];
    bins[1..].iter().for_each(|bin| sum.add(bin));
    sum
}

/// The share of bits that are expected to be set with so many keys.
fn expected_set(keys: usize) -> f64 {
    1.0 - (1.0 - 1.0 / REGISTERS as f64).powi((HASHES * keys) as i32)
}

/// The whole report.
pub fn html(gathered: &[Gathered], traffic: &str) -> String {
    let mut text = format!(
        "<!DOCTYPE html>\n<html lang=\"en\">\n<head>\n<meta charset=\"utf-8\">\n<title>juolgesot replay</title>\n\
         <style>\n{}</style>\n</head>\n<body>\n<h1>Replay of a Bloom filter's gates</h1>\n",
        STYLE
    );
    write!(
        text,
        "<p>Traffic: {}. A filter of {} registers and {} hashes; each answer of its gates and each register was held to a \
         software model, cycle by cycle, with no difference. A <b>no</b> is final: flash does not hold the key. A <b>maybe</b> \
         goes on to flash, which alone says yes; a <b>false maybe</b> is one whose key flash does not hold.</p>\n",
        escaped(traffic),
        REGISTERS,
        HASHES
    )
    .expect("text");
    for one in gathered {
        section(&mut text, one);
    }
    text + "</body>\n</html>\n"
}

const STYLE: &str = "body { font: 15px/1.45 sans-serif; color: #222; max-width: 960px; margin: 24px auto; padding: 0 16px; }\n\
    h1 { font-size: 24px; }\nh2 { font-size: 19px; margin-top: 36px; }\n\
    table { border-collapse: collapse; margin: 12px 0; }\n\
    td { padding: 3px 14px 3px 0; border-bottom: 1px solid #ddd; }\ntd.n { text-align: right; font-variant-numeric: tabular-nums; }\n\
    svg { display: block; margin: 14px 0; width: 100%; height: auto; }\n";

fn section(text: &mut String, one: &Gathered) {
    let per_cent = |count: f64, of: u64| if of == 0 { 0.0 } else { 100.0 * count / of as f64 };
    let Counts { cycles, without_edge, inserts, emptied, looked_up, no, maybe, false_maybe, .. } = one.counts;
    let mut all = Bin::default();
    one.bins.iter().for_each(|bin| all.add(bin));
    writeln!(text, "<h2>{}</h2>\n<table>", escaped(&one.name)).expect("text");
    let mut row = |name: &str, count: u64, more: String| {
        writeln!(text, "<tr><td>{}</td><td class=\"n\">{}</td><td>{}</td></tr>", name, count, more)
            .expect("text")
    };
    row("cycles", cycles, format!("{} of them without an edge of the clock", without_edge));
    row("keys put in", inserts, format!("times that the filter was emptied: {}", emptied));
    row("looked up", looked_up, String::new());
    row("no", no, "none of them is in flash".to_string());
    let rates = |count: u64, expected: f64, of: u64, what: &str| {
        format!("{:.2} % of {}; {:.2} % expected", per_cent(count as f64, of), what, per_cent(expected, of))
    };
    row("maybe", maybe, rates(maybe, all.expected_maybe, looked_up, "all look-ups"));
    let of_absent =
        rates(false_maybe, all.expected_false, all.absent, "the look-ups of keys that flash does not hold");
    row("false maybe", false_maybe, of_absent);
    row(
        "bits held",
        one.counts.held,
        "registers that were not enabled, while their data differed".to_string(),
    );
    row("bits inverted", one.counts.inverted, "stored inverted".to_string());
    text.push_str("</table>\n");
    let fill = Chart {
        title: "Registers set",
        most: REGISTERS as f64,
        unit: "",
        lines: vec![
            line("seen", SEEN, false, &one.bins, |bin| Some(bin.fill as f64 / bin.cycles as f64)),
            line("expected", EXPECTED, true, &one.bins, |bin| Some(bin.expected_fill / bin.cycles as f64)),
        ],
    };
    text.push_str(&fill.svg(&one.bins));
    let rate = |count: f64, of: u64| if of == 0 { None } else { Some(per_cent(count, of)) };
    let lines = vec![
        line("maybe, of all look-ups", MAYBE, false, &one.bins, |bin| rate(bin.maybe as f64, bin.looked_up)),
        line("false maybe, of look-ups that flash does not hold", SEEN, false, &one.bins, |bin| {
            rate(bin.false_maybe as f64, bin.absent)
        }),
        line("false maybe expected", EXPECTED, true, &one.bins, |bin| rate(bin.expected_false, bin.absent)),
    ];
    let points = lines.iter().flat_map(|line| line.points.iter().flatten());
    let highest = points.fold(0.0f64, |most, &point| most.max(point));
    let most = [1.0, 2.0, 5.0, 10.0, 20.0, 40.0, 60.0, 80.0].into_iter().find(|&most| highest <= most);
    let rates =
        Chart { title: "Maybe and false maybe, in per cent", most: most.unwrap_or(100.0), unit: " %", lines };
    text.push_str(&rates.svg(&one.bins));
}

const SEEN: &str = "#0b66c3";
const EXPECTED: &str = "#d1495b";
const MAYBE: &str = "#8a8f98";

struct Line {
    name: &'static str,
    colour: &'static str,
    is_dashed: bool,
    /// A value for each bin that has one.
    points: Vec<Option<f64>>,
}

fn line(
    name: &'static str,
    colour: &'static str,
    is_dashed: bool,
    bins: &[Bin],
    point: impl Fn(&Bin) -> Option<f64>,
) -> Line {
    Line { name, colour, is_dashed, points: bins.iter().map(point).collect() }
}

struct Chart {
    title: &'static str,
    /// The highest value; the lowest is 0.
    most: f64,
    unit: &'static str,
    lines: Vec<Line>,
}

const LEFT: f64 = 56.0;
const TOP: f64 = 52.0;
const WIDTH: f64 = 880.0;
const HEIGHT: f64 = 200.0;

impl Chart {
    fn svg(&self, bins: &[Bin]) -> String {
        let cycles: u64 = bins.iter().map(|bin| bin.cycles).sum();
        let mut svg = format!(
            "<svg viewBox=\"0 0 {:.0} {:.0}\" font-family=\"sans-serif\" font-size=\"12\" role=\"img\">\n",
            LEFT + WIDTH + 14.0,
            TOP + HEIGHT + 40.0
        );
        label(&mut svg, 0.0, 14.0, "start", &format!("<tspan font-weight=\"bold\">{}</tspan>", self.title));
        self.legend(&mut svg);
        for step in 0..=4 {
            let share = f64::from(step) / 4.0;
            let y = TOP + HEIGHT * (1.0 - share);
            rule(&mut svg, (LEFT, y), (LEFT + WIDTH, y), if step == 0 { "#444" } else { "#e2e2e2" });
            label(&mut svg, LEFT - 6.0, y + 4.0, "end", &format!("{}{}", self.most * share, self.unit));
            let x = LEFT + WIDTH * share;
            rule(&mut svg, (x, TOP + HEIGHT), (x, TOP + HEIGHT + 5.0), "#444");
            let anchor = ["start", "middle", "middle", "middle", "end"][step as usize];
            label(&mut svg, x, TOP + HEIGHT + 18.0, anchor, &format!("{:.0}", cycles as f64 * share));
        }
        label(&mut svg, LEFT + WIDTH / 2.0, TOP + HEIGHT + 34.0, "middle", "cycle");
        for line in &self.lines {
            self.path(&mut svg, line, bins, cycles);
        }
        svg + "</svg>\n"
    }

    fn legend(&self, svg: &mut String) {
        let mut x = LEFT;
        for line in &self.lines {
            stroke(svg, &format!("M{:.0} 32h26", x), line);
            label(svg, x + 32.0, 36.0, "start", line.name);
            x += 60.0 + 6.4 * line.name.len() as f64;
        }
    }

    /// The line through the middles of the bins; where one has no value it is broken.
    fn path(&self, svg: &mut String, line: &Line, bins: &[Bin], cycles: u64) {
        let (mut path, mut before, mut is_open) = (String::new(), 0, false);
        for (bin, point) in bins.iter().zip(&line.points) {
            let x = LEFT + WIDTH * (before as f64 + bin.cycles as f64 / 2.0) / cycles as f64;
            if let Some(point) = point {
                let y = TOP + HEIGHT * (1.0 - point / self.most);
                write!(path, "{}{:.1} {:.1}", if is_open { "L" } else { "M" }, x, y).expect("text");
            }
            is_open = point.is_some();
            before += bin.cycles;
        }
        stroke(svg, &path, line);
    }
}

fn stroke(svg: &mut String, path: &str, line: &Line) {
    let dashes = if line.is_dashed { " stroke-dasharray=\"6 4\"" } else { "" };
    writeln!(
        svg,
        "<path d=\"{}\" fill=\"none\" stroke=\"{}\" stroke-width=\"1.6\"{}/>",
        path, line.colour, dashes
    )
    .expect("text");
}

fn rule(svg: &mut String, from: (f64, f64), to: (f64, f64), colour: &str) {
    writeln!(svg, "<path d=\"M{:.1} {:.1}L{:.1} {:.1}\" stroke=\"{}\"/>", from.0, from.1, to.0, to.1, colour)
        .expect("text");
}

fn label(svg: &mut String, x: f64, y: f64, anchor: &str, words: &str) {
    writeln!(
        svg,
        "<text x=\"{:.1}\" y=\"{:.1}\" text-anchor=\"{}\" fill=\"#222\">{}</text>",
        x, y, anchor, words
    )
    .expect("text");
}

fn escaped(words: &str) -> String {
    words.replace('&', "&amp;").replace('<', "&lt;").replace('>', "&gt;")
}
