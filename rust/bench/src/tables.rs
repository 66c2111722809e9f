//! The tables, as docs/SPEED.md has them.

use crate::measure::{CHECKED, CORE, CRATE, Measured, SIDES, TREE};
use crate::mixes::{MIXES, Mix};
use crate::work::NOTES;
use std::fmt::Write;

/// A ratio of two sides by mix and setting.
fn ratios(out: &mut String, all: &[Measured], title: &str, over: usize, under: usize) {
    heading(out, all, title, "mix");
    for (row, mix) in MIXES.iter().enumerate() {
        let _ = write!(out, "| {} |", mix.name());
        for measured in all {
            let least = measured.mixes[row].least;
            let _ = write!(out, " {} |", short(least[over] / least[under]));
        }
        out.push('\n');
    }
}

/// A title, and a column for each setting.
fn heading(out: &mut String, all: &[Measured], title: &str, first: &str) {
    let _ = write!(out, "\n{title}\n\n| {first} |");
    for measured in all {
        let _ = write!(out, " {} x {} |", measured.setting.trees, measured.setting.pairs);
    }
    let _ = writeln!(out, "\n|---|{}", "---|".repeat(all.len()));
}

/// Two digits that count, or none after the point.
fn short(x: f64) -> String {
    if x < 10.0 { format!("{x:.2}") } else { format!("{x:.0}") }
}

/// A row of times or ratios.
fn row(out: &mut String, name: &str, cells: impl Iterator<Item = f64>) {
    let _ = write!(out, "| {name} |");
    for cell in cells {
        let _ = write!(out, " {} |", short(cell));
    }
    out.push('\n');
}

/// What a call of each mix takes on the cores.
fn calls(out: &mut String, all: &[Measured]) {
    heading(out, all, "**Cores, nanoseconds a call**", "mix");
    for (at, mix) in MIXES.iter().enumerate() {
        row(out, mix.name(), all.iter().map(|m| m.mixes[at].least[CORE]));
    }
}

/// What the notes of a round take, half of them puts and half removes.
fn notes(out: &mut String, all: &[Measured]) {
    let title = format!("**{NOTES} notes, half puts and half removes, microseconds**");
    heading(out, all, &title, "side");
    let at = MIXES.iter().position(|mix| *mix == Mix::Half).unwrap_or_default();
    for (side, name) in SIDES.iter().enumerate() {
        row(out, name, all.iter().map(|m| m.mixes[at].least[side] * NOTES as f64 / 1000.0));
    }
}

/// The check beside the sums of the same words.
fn checks(out: &mut String, all: &[Measured]) {
    heading(out, all, "**The check beside a sum of the same words**", "");
    row(out, "check, microseconds", all.iter().map(|m| m.check.check / 1000.0));
    row(out, "check / sum", all.iter().map(|m| m.check.check / m.check.sum));
    row(out, "check / sum, a load a word", all.iter().map(|m| m.check.check / m.check.by_word));
}

/// How far the middle time lies above the least, over all that was timed: the machine's unrest.
fn unrest(out: &mut String, all: &[Measured]) {
    let over = |m: &Measured| -> Vec<f64> {
        m.mixes
            .iter()
            .flat_map(|t| (0..SIDES.len()).map(move |s| t.middle[s] / t.least[s]))
            .collect()
    };
    let mut all: Vec<f64> = all.iter().flat_map(over).collect();
    all.sort_by(f64::total_cmp);
    let at = |part: usize| all[(all.len() - 1) * part / 10];
    let _ = writeln!(
        out,
        "\nThe middle time of a mix is {:.2} times its least; in one case of ten it is {:.2} times or more.",
        at(5),
        at(9)
    );
}

/// All tables.
pub fn tables(all: &[Measured]) -> String {
    let mut out = String::new();
    ratios(&mut out, all, "**Cores / crate**", CORE, CRATE);
    ratios(&mut out, all, "**Checked calls / crate**", CHECKED, CRATE);
    ratios(&mut out, all, "**Crate / BTreeMap**", CRATE, TREE);
    ratios(&mut out, all, "**Cores / BTreeMap**", CORE, TREE);
    calls(&mut out, all);
    notes(&mut out, all);
    checks(&mut out, all);
    unrest(&mut out, all);
    out
}
