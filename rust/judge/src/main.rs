//! The judge: runs lists of calls on cranelift-bforest and records its answers.

use judge::cases::CASES;
use judge::lists::{self, List};
use judge::text::{self, Show};
use judge::{facts, record, run, short};
use std::path::{Path, PathBuf};
use std::process::ExitCode;

/// What the command line asks for.
struct Wish {
    what: String,
    name: String,
    show: Show,
    data: PathBuf,
}

fn main() -> ExitCode {
    let wish = wish();
    let lists = if wish.what == "--calls" { text::read_file(&wish.name) } else { Ok(Vec::new()) };
    let lists = match lists {
        Ok(lists) => lists,
        Err(why) => {
            eprintln!("judge: {why}");
            return ExitCode::from(2);
        }
    };
    let done = match wish.what.as_str() {
        "--selftest" => selftest(),
        "--cases" => cases_table(),
        "--check" => selftest().and_then(|()| cases_table()).and_then(|()| check(&wish.data)),
        "--record" => write(&wish.data),
        "--lists" => names(),
        "--list" => one_list(&wish),
        "--calls" => text::run_lists(&lists, wish.show),
        other => Err(format!("unknown word: {other}")),
    };
    match done {
        Ok(()) => ExitCode::SUCCESS,
        Err(why) => {
            eprintln!("judge: {why}");
            ExitCode::FAILURE
        }
    }
}

/// Reads the command line.
fn wish() -> Wish {
    let mut out = Wish {
        what: String::new(),
        name: String::new(),
        show: Show::default(),
        data: "data".into(),
    };
    let mut words = std::env::args().skip(1);
    while let Some(word) = words.next() {
        match word.as_str() {
            "--tree" => out.show.tree = true,
            "--words" => out.show.words = true,
            "--data" => out.data = words.next().unwrap_or_default().into(),
            _ if out.what.is_empty() => out.what = word,
            _ => out.name = word,
        }
    }
    out
}

/// The stated facts.
fn selftest() -> Result<(), String> {
    for (name, fact) in facts::FACTS {
        fact();
        println!("fact: {name}");
    }
    Ok(())
}

/// Runs all lists and the short runs, and tells which case was reached how often.
fn cases_table() -> Result<(), String> {
    let short: Vec<List> = short::lists().collect();
    let (kept, long): (Vec<List>, Vec<List>) = lists::all().into_iter().partition(|l| l.recorded);
    let columns = [count(&short), count(&kept), count(&long)];
    println!("{:42} {:>8} {:>9} {:>9}", "calls that reach a case", "short", "recorded", "long");
    let mut missing = Vec::new();
    for (i, (name, must)) in CASES.iter().enumerate() {
        let row = [columns[0].1[i], columns[1].1[i], columns[2].1[i]];
        println!("{name:42} {:>8} {:>9} {:>9}", row[0], row[1], row[2]);
        if row[1] == 0 || row[2] == 0 || (*must && row[0] == 0) {
            missing.push(*name);
        }
    }
    println!("{:42} {:>8} {:>9} {:>9}", "calls in all", columns[0].0, columns[1].0, columns[2].0);
    if missing.is_empty() { Ok(()) } else { Err(format!("not reached: {}", missing.join("; "))) }
}

/// The number of calls made, and for each case the number of calls that reach it.
fn count(lists: &[List]) -> (usize, Vec<usize>) {
    let mut calls = 0;
    let mut counts = vec![0; CASES.len()];
    for list in lists {
        let (steps, _) = run(list);
        calls += steps.len();
        for (i, count) in counts.iter_mut().enumerate() {
            *count += steps.iter().filter(|s| s.cases >> i & 1 == 1).count();
        }
    }
    (calls, counts)
}

/// The recorded files, by name.
fn files() -> [(&'static str, Vec<u8>); 3] {
    let (words, sample) = record::recorded();
    let bytes = words.iter().flat_map(|w| w.to_le_bytes()).collect();
    let short = short::text().into_bytes();
    [("recorded.bin", bytes), ("recorded.txt", sample.into_bytes()), ("short-runs.txt", short)]
}

/// Writes the recorded files.
fn write(data: &Path) -> Result<(), String> {
    std::fs::create_dir_all(data).map_err(|e| format!("{}: {e}", data.display()))?;
    for (name, bytes) in files() {
        let path = data.join(name);
        std::fs::write(&path, &bytes).map_err(|e| format!("{}: {e}", path.display()))?;
        println!("written: {name}, {} bytes", bytes.len());
    }
    Ok(())
}

/// Compares the recorded files with what the crate answers now.
fn check(data: &Path) -> Result<(), String> {
    for (name, bytes) in files() {
        let path = data.join(name);
        let held = std::fs::read(&path).map_err(|e| format!("{}: {e}", path.display()))?;
        if held != bytes {
            let at = held.iter().zip(&bytes).take_while(|(a, b)| a == b).count();
            return Err(format!("{name} differs from byte {at} on; --record writes it anew"));
        }
        println!("same: {name}, {} bytes", bytes.len());
    }
    Ok(())
}

/// Names all lists.
fn names() -> Result<(), String> {
    for list in short::lists().chain(lists::all()) {
        println!(
            "{:40} T {:2}  N {:3}  {:5} calls",
            list.name,
            list.trees,
            list.nodes,
            list.calls.len()
        );
    }
    Ok(())
}

/// Runs one list by name and prints every call.
fn one_list(wish: &Wish) -> Result<(), String> {
    let mut all = short::lists().chain(lists::all());
    let list = all.find(|l| l.name == wish.name);
    let list = list.ok_or_else(|| format!("no list `{}`; --lists names them", wish.name))?;
    text::run_calls(&list, wish.show)
}
