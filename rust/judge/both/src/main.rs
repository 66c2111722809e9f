//! Runs lists of calls on cranelift-bforest and on the proved library side by side.

mod caught;
mod compare;
mod cut;
mod differences;
mod faults;
mod made;
mod mixes;
mod ours;
mod play;
mod refusals;
mod sides;
mod stands;
mod tally;

use judge::lists::{self, List};
use judge::{short, text};
use play::{EACH_CALL, Found, NOW_AND_THEN, Often, play};
use sides::Difference;
use std::path::PathBuf;
use std::process::ExitCode;
use std::time::{Duration, Instant};
use tally::Tally;

/// What the command line asks for.
struct Wish {
    what: String,
    name: String,
    at_least: u64,
    seed: u64,
    out: PathBuf,
    /// `--source` and `--mode` of the command, to be told with a difference.
    source: String,
    mode: String,
}

fn main() -> ExitCode {
    let (wish, lists) = match wish().and_then(|wish| Ok((lists(&wish)?, wish))) {
        Ok((lists, wish)) => (wish, lists),
        Err(why) => {
            eprintln!("judge: {why}");
            return ExitCode::from(2);
        }
    };
    caught::keep_words();
    let done = caught::caught(|| match wish.what.as_str() {
        "--both" => both(&wish),
        "--faults" => faults::all(),
        _ => file(&wish, &lists),
    });
    match done {
        Ok(Ok(())) => ExitCode::SUCCESS,
        Ok(Err(why)) | Err(why) => {
            eprintln!("judge: {why}");
            ExitCode::FAILURE
        }
    }
}

/// Reads the command line.
fn wish() -> Result<Wish, String> {
    let mut out = Wish {
        what: "--both".to_string(),
        name: String::new(),
        at_least: 1_000_000,
        seed: 1,
        out: "target/judge".into(),
        source: String::new(),
        mode: String::new(),
    };
    let mut words = std::env::args().skip(1);
    while let Some(word) = words.next() {
        let mut next = || words.next().ok_or_else(|| format!("{word} needs a word after it"));
        let number = |w: String| w.parse().map_err(|_| format!("{w} is no number"));
        match word.as_str() {
            "--both" | "--faults" => out.what = word,
            "--both-calls" => (out.name, out.what) = (next()?, word),
            "--calls-at-least" => out.at_least = number(next()?)?,
            "--seed" => out.seed = number(next()?)?,
            "--out" => out.out = next()?.into(),
            "--source" => out.source = next()?,
            "--mode" => out.mode = next()?,
            _ => return Err(format!("unknown word: {word}")),
        }
    }
    Ok(out)
}

/// The lists of the file that is named, if one is.
fn lists(wish: &Wish) -> Result<Vec<List>, String> {
    if wish.what == "--both-calls" { text::read_file(&wish.name) } else { Ok(Vec::new()) }
}

/// The intended differences, the faults that must be found, then lists and mixes until there are
/// calls enough.
fn both(wish: &Wish) -> Result<(), String> {
    differences::all()?;
    faults::all()?;
    let mut run = Run::new(wish);
    for list in short::lists().chain(lists::all()) {
        run.list(&list, NOW_AND_THEN)?;
        run.tally.lists += 1;
    }
    for list in mixes::made(wish.seed) {
        run.list(&list, NOW_AND_THEN)?;
    }
    run.goal = wish.at_least.max(run.tally.done() + wish.at_least / 2);
    for index in 0.. {
        if run.tally.done() >= run.goal {
            break;
        }
        run.list(&mixes::mix(wish.seed, index), NOW_AND_THEN)?;
        run.tally.mixes += 1;
    }
    run.tally.print();
    let missing = run.tally.missing();
    if !missing.is_empty() {
        return Err(format!("not reached: {}", missing.join("; ")));
    }
    println!(
        "both sides: {} calls, {} of them done by both and the rest refused by ours, seed {}: 0 differences",
        run.tally.all(),
        run.tally.done(),
        wish.seed
    );
    Ok(())
}

/// The lists of a file, each call printed with what was due.
fn file(wish: &Wish, lists: &[List]) -> Result<(), String> {
    let mut run = Run::new(wish);
    for list in lists {
        println!("run {}\ntrees {}\nnodes {}", list.name, list.trees, list.nodes);
        let print = |call: &_, due: &sides::Due| println!("{call} -> {due}");
        let played = play(list, EACH_CALL, &mut run.tally, print);
        played.map_err(|found| said(list, &found))?;
    }
    println!("both sides: {} calls: 0 differences", run.tally.all());
    Ok(())
}

/// A run over lists.
struct Run<'a> {
    wish: &'a Wish,
    /// Calls that both sides are to do.
    goal: u64,
    tally: Tally,
    told: Instant,
}

impl Run<'_> {
    fn new(wish: &Wish) -> Run<'_> {
        Run { wish, goal: wish.at_least, tally: Tally::default(), told: Instant::now() }
    }

    /// Plays a list. A difference is reported, and the calls that lead to it are written out.
    fn list(&mut self, list: &List, often: Often) -> Result<(), String> {
        if self.told.elapsed() > Duration::from_secs(5) {
            let (done, goal) = (self.tally.done(), self.goal);
            eprintln!("judge: {done} of {goal} calls done by both sides, now {}", list.name);
            self.told = Instant::now();
        }
        let played = play(list, often, &mut self.tally, |_, _| {});
        played.map_err(|found| self.report(list, &found))
    }

    /// What is said of a difference.
    fn report(&self, list: &List, found: &Found) -> String {
        let folder = &self.wish.out;
        let whole = cut::until(list, found.at);
        let kept = cut::write(folder, "difference-whole.txt", &whole);
        eprintln!("judge: a difference; cutting its calls down");
        let short = cut::write(folder, "difference.txt", &cut::cut(&whole));
        format!(
            "{}\n  the seed: {}\n  the calls up to it: {kept}\n  cut down: {short}\n  \
             again: rust/judge/run --source {} --mode {} --both --calls {}",
            said(list, found),
            self.wish.seed,
            self.wish.source,
            self.wish.mode,
            folder.join("difference.txt").display()
        )
    }
}

/// A difference in words: the list, the call, and what both sides say.
fn said(list: &List, found: &Found) -> String {
    let Difference { kind, text } = &found.difference;
    let call = list.calls.get(found.at).map_or("format".to_string(), |c| c.to_string());
    format!(
        "a difference in {kind:?}, list `{}` (T {}, N {}), call {}: {call}\n  {text}",
        list.name,
        list.trees,
        list.nodes,
        found.at + 1
    )
}
