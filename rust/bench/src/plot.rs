//! The plot docs/speed.svg: each mix a row, each setting a mark, the time of a call over the crate's.

use crate::measure::{CHECKED, CORE, CRATE, Measured, TREE};
use crate::mixes::MIXES;
use std::fmt::Write;

const TOP: f64 = 84.0;
const LANE: f64 = 7.0;
const GAP: f64 = 12.0;
const WIDTH: f64 = 960.0;

const STYLE: &str = "
  .paper { fill: #ffffff }
  text { font: 13px sans-serif; fill: #24292f }
  .small { font-size: 11px }
  .grid { stroke: #d0d7de; stroke-width: 1 }
  .one { stroke: #24292f; stroke-width: 1.5 }
  .ours { fill: #0969da; stroke: #0969da }
  .tree { fill: none; stroke: #bc4c00; stroke-width: 1.5 }
  @media (prefers-color-scheme: dark) {
    .paper { fill: #0d1117 }
    text { fill: #e6edf3 }
    .grid { stroke: #30363d }
    .one { stroke: #e6edf3 }
    .ours { fill: #58a6ff; stroke: #58a6ff }
    .tree { stroke: #f0883e }
  }
";

/// A part of the plot with an axis of its own, which goes by factors.
struct Panel {
    left: f64,
    right: f64,
    low: f64,
    high: f64,
    factor: f64,
}

impl Panel {
    /// An axis from one whole power of `factor` to another, wide enough for all values.
    fn around(left: f64, right: f64, factor: f64, values: impl Iterator<Item = f64>) -> Self {
        let (mut low, mut high) = (1.0_f64, 1.0_f64);
        for value in values {
            low = low.min(value);
            high = high.max(value);
        }
        let power = |x: f64| x.ln() / factor.ln();
        Self {
            left,
            right,
            low: factor.powf(power(low).floor()),
            high: factor.powf(power(high).ceil()),
            factor,
        }
    }

    fn x(&self, value: f64) -> f64 {
        let part = (value / self.low).ln() / (self.high / self.low).ln();
        self.left + part * (self.right - self.left)
    }

    /// The title, the lines with their numbers, and the line at 1.
    fn draw(&self, out: &mut String, title: &str, bottom: f64) {
        let middle = (self.left + self.right) / 2.0;
        let _ = writeln!(out, "<text x='{middle}' y='52' text-anchor='middle'>{title}</text>");
        let mut value = self.low;
        while value < self.high * 1.01 {
            let (x, class) =
                (self.x(value), if (value - 1.0).abs() < 0.01 { "one" } else { "grid" });
            let _ = writeln!(
                out,
                "<line class='{class}' x1='{x:.1}' x2='{x:.1}' y1='{}' y2='{bottom}'/>",
                TOP - 6.0
            );
            let _ = writeln!(
                out,
                "<text class='small' x='{x:.1}' y='{}' text-anchor='middle'>{value}</text>",
                TOP - 12.0
            );
            value *= self.factor;
        }
        let _ = writeln!(
            out,
            "<text class='small' x='{middle}' y='{}' text-anchor='middle'>time of a call / time of the crate's, by factors</text>",
            bottom + 18.0
        );
    }
}

/// Where the lane of a setting lies in the row of a mix.
fn lane(row: usize, setting: usize, settings: usize) -> f64 {
    TOP + GAP / 2.0 + row as f64 * (settings as f64 * LANE + GAP) + (setting as f64 + 0.5) * LANE
}

/// The ratios of a side to the crate: row, setting, value.
fn ratios(all: &[Measured], side: usize) -> Vec<(usize, usize, f64)> {
    let of = |row: usize| {
        all.iter()
            .enumerate()
            .map(move |(at, m)| (row, at, m.mixes[row].least[side] / m.mixes[row].least[CRATE]))
    };
    (0..MIXES.len()).flat_map(of).collect()
}

fn dots(out: &mut String, panel: &Panel, all: &[Measured], side: usize) {
    for (row, at, value) in ratios(all, side) {
        let _ = writeln!(
            out,
            "<circle class='ours' cx='{:.1}' cy='{:.1}' r='3'/>",
            panel.x(value),
            lane(row, at, all.len())
        );
    }
}

fn squares(out: &mut String, panel: &Panel, all: &[Measured], side: usize) {
    for (row, at, value) in ratios(all, side) {
        let (x, y) = (panel.x(value) - 2.5, lane(row, at, all.len()) - 2.5);
        let _ = writeln!(out, "<rect class='tree' x='{x:.1}' y='{y:.1}' width='5' height='5'/>");
    }
}

/// The whole plot, as SVG.
pub fn plot(all: &[Measured]) -> String {
    let values = |side| ratios(all, side).into_iter().map(|ratio| ratio.2);
    let near = Panel::around(180.0, 640.0, 2.0, values(CORE).chain(values(TREE)));
    let far = Panel::around(680.0, WIDTH - 20.0, 10.0, values(CHECKED));
    let bottom = lane(MIXES.len(), 0, all.len());
    let height = bottom + 58.0;
    let mut out = format!(
        "<svg xmlns='http://www.w3.org/2000/svg' viewBox='0 0 {WIDTH} {height}'>\n<style>{STYLE}</style>\n"
    );
    let _ = writeln!(out, "<rect class='paper' width='{WIDTH}' height='{height}'/>");
    let _ = writeln!(
        out,
        "<text x='20' y='24'>Calls beside the crate's: at 1 a call takes as long as the crate's, left of it less</text>"
    );
    near.draw(&mut out, "cores (dots) and BTreeMap (squares)", bottom);
    far.draw(&mut out, "checked calls", bottom);
    for (row, mix) in MIXES.iter().enumerate() {
        let y = lane(row, all.len() / 2, all.len());
        let _ = writeln!(out, "<text x='168' y='{y:.1}' text-anchor='end'>{}</text>", mix.name());
        let y = lane(row, 0, all.len()) - LANE / 2.0 - GAP / 2.0;
        let _ = writeln!(
            out,
            "<line class='grid' x1='20' x2='{}' y1='{y:.1}' y2='{y:.1}'/>",
            WIDTH - 20.0
        );
    }
    squares(&mut out, &near, all, TREE);
    dots(&mut out, &near, all, CORE);
    dots(&mut out, &far, all, CHECKED);
    let names: Vec<String> =
        all.iter().map(|m| format!("{} x {}", m.setting.trees, m.setting.pairs)).collect();
    let _ = writeln!(
        out,
        "<text class='small' x='20' y='{}'>In each row from the top, trees x pairs of each: {}</text>\n</svg>",
        height - 14.0,
        names.join(", ")
    );
    out
}
