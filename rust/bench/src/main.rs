//! Times the recorder's calls beside the crate's and BTreeMap's. `run` beside this package builds it and says how to use it.

#[path = "../../exports.rs"]
mod exports;
mod measure;
mod mixes;
mod plot;
mod sides;
mod tables;
mod work;

use measure::{Rounds, measure_all, runner};
use mixes::{MIXES, clock_cost};
use std::path::{Path, PathBuf};
use std::process::exit;
use work::{Setting, Work};

const FULL: Rounds = Rounds { all: 200, checked_every: 10 };
const QUICK: Rounds = Rounds { all: 20, checked_every: 5 };

/// Where the tables stand in docs/SPEED.md.
const BEGIN: &str = "<!-- tables: written by rust/bench/run --docs -->\n";
const END: &str = "<!-- end of tables -->\n";

/// Bad use.
fn stop(why: &str) -> ! {
    eprintln!("bench: {why}");
    exit(2);
}

/// A finding: a side refuses a call, or answers otherwise.
#[cold]
fn finding(what: &str) -> ! {
    eprintln!("bench: {what}");
    exit(1);
}

fn main() {
    let words: Vec<String> = std::env::args().skip(1).collect();
    if words.first().is_some_and(|word| word == "--one") {
        return one(&words[1..]);
    }
    let mut rounds = FULL;
    let mut svg = None;
    let mut docs = None;
    let mut rest = words.iter();
    while let Some(word) = rest.next() {
        match word.as_str() {
            "--quick" => rounds = QUICK,
            "--plot" => svg = rest.next().map(PathBuf::from),
            "--docs" => docs = rest.next().map(PathBuf::from),
            _ => stop(&format!("unknown word: {word}")),
        }
    }
    let measured = measure_all(rounds);
    let tables = tables::tables(&measured);
    print!("{tables}");
    let plot = plot::plot(&measured);
    if let Some(svg) = svg {
        write(&svg, &plot);
    }
    if let Some(docs) = docs {
        write(&docs.join("speed.svg"), &plot);
        replace_tables(&docs.join("SPEED.md"), &tables);
    }
}

fn write(path: &Path, text: &str) {
    std::fs::write(path, text).unwrap_or_else(|why| stop(&format!("{}: {why}", path.display())));
    eprintln!("bench: {} written", path.display());
}

/// Puts the tables between the two lines that mark their place.
fn replace_tables(path: &Path, tables: &str) {
    let old = std::fs::read_to_string(path)
        .unwrap_or_else(|why| stop(&format!("{}: {why}", path.display())));
    let places = old.find(BEGIN).zip(old.find(END));
    let Some((begin, end)) = places else {
        stop(&format!("{} has no place marked for the tables", path.display()));
    };
    write(path, &format!("{}{tables}{}", &old[..begin + BEGIN.len()], &old[end..]));
}

/// One mix on one side, some times over, for a profiler: SIDE MIX TREES PAIRS TIMES.
fn one(words: &[String]) {
    let [side, mix, trees, pairs, times] = words else {
        stop("--one takes SIDE MIX TREES PAIRS TIMES");
    };
    let number =
        |word: &str| word.parse::<u32>().unwrap_or_else(|_| stop(&format!("{word} is no number")));
    let run = runner(side).unwrap_or_else(|| stop(&format!("there is no side {side}")));
    let mix = MIXES
        .into_iter()
        .find(|m| m.word() == mix)
        .unwrap_or_else(|| stop(&format!("there is no mix {mix}")));
    let setting = Setting { trees: number(trees), pairs: number(pairs) };
    let fits = (1..=32).contains(&setting.trees) && (1..=1800).contains(&setting.pairs);
    if !fits || setting.total() > 1800 {
        stop("TREES is 1 to 32, PAIRS at least 1, and 1800 pairs in all at most");
    }
    let work = Work::new(setting);
    let clock = clock_cost();
    for _ in 0..number(times) {
        let run = run(mix, &work, clock);
        let nanos = run.parts.iter().sum::<f64>() / run.calls as f64;
        println!("{nanos:.2} ns a call, {} calls, answers {:016x}", run.calls, run.fold);
    }
}
