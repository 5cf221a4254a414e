//! A chart of ratios, as SVG: a bar for each row, on a scale of powers of two.

use crate::bench::Row;

const LEFT: f64 = 500.0;
const WIDTH: f64 = 420.0;
const TOP: f64 = 40.0;
const BAR: f64 = 22.0;

/// The powers of two between which the bars lie.
struct Scale {
    low: i32,
    high: i32,
}

impl Scale {
    fn of(rows: &[Row]) -> Self {
        let powers = || rows.iter().map(|row| row.times.ratio().log2());
        let low = powers().map(f64::floor).fold(-1.0, f64::min);
        let high = powers().map(f64::ceil).fold(1.0, f64::max);
        Scale { low: low as i32, high: high as i32 }
    }

    fn x(&self, ratio: f64) -> f64 {
        LEFT + (ratio.log2() - f64::from(self.low)) / f64::from(self.high - self.low) * WIDTH
    }
}

pub fn ratios(rows: &[Row]) -> String {
    let scale = Scale::of(rows);
    let (width, height) = (LEFT + WIDTH + 70.0, TOP + BAR * rows.len() as f64 + 20.0);
    let head = format!(
        "<svg xmlns=\"http://www.w3.org/2000/svg\" viewBox=\"0 0 {} {}\" font-family=\"sans-serif\" font-size=\"13\">",
        width, height
    );
    let mut lines = vec![
        head,
        "<rect width=\"100%\" height=\"100%\" fill=\"white\"/>".to_string(),
        text(10.0, 20.0, "start", "Our time / plain Rust's on the same inputs (below 1: ours is faster)"),
    ];
    for exponent in scale.low..=scale.high {
        lines.extend(rule(&scale, exponent, height));
    }
    for (index, row) in rows.iter().enumerate() {
        lines.extend(bar(&scale, row, TOP + BAR * index as f64));
    }
    lines.push("</svg>\n".to_string());
    lines.join("\n")
}

fn text(x: f64, y: f64, anchor: &str, words: &str) -> String {
    format!("<text x=\"{:.0}\" y=\"{:.0}\" text-anchor=\"{}\">{}</text>", x, y, anchor, words)
}

/// The line of a power of two, and its number below.
fn rule(scale: &Scale, exponent: i32, height: f64) -> [String; 2] {
    let x = scale.x(2f64.powi(exponent));
    let stroke = if exponent == 0 { "black" } else { "#ccc" };
    let label = if exponent < 0 { format!("1/{}", 1 << -exponent) } else { (1 << exponent).to_string() };
    let line = format!(
        "<line x1=\"{:.0}\" y1=\"34\" x2=\"{:.0}\" y2=\"{:.0}\" stroke=\"{}\"/>",
        x,
        x,
        height - 20.0,
        stroke
    );
    [line, text(x, height - 5.0, "middle", &label)]
}

/// The name of a row, its bar from 1 to its ratio, and the ratio.
fn bar(scale: &Scale, row: &Row, y: f64) -> [String; 3] {
    let ratio = row.times.ratio();
    let (one, end) = (scale.x(1.0), scale.x(ratio));
    let (from, to) = (one.min(end), one.max(end));
    let fill = if ratio <= 1.0 { "#3a7" } else { "#c75" };
    let bar = format!(
        "<rect x=\"{:.1}\" y=\"{:.0}\" width=\"{:.1}\" height=\"{:.0}\" fill=\"{}\"/>",
        from,
        y,
        to - from,
        BAR - 6.0,
        fill
    );
    let name = text(LEFT - 8.0, y + 13.0, "end", &format!("{}: {}", row.group, row.name));
    [name, bar, text(to + 5.0, y + 13.0, "start", &format!("{:.2}", ratio))]
}
