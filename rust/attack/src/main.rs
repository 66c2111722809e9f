//! The plain driver. The calls are made in a process of their own, so that a crash can be told.

use attack::attempt;
use attack::counts::{Kind, Notes};
use attack::facts;
use attack::faults::{FAULTS, Fault};
use attack::guard::shared_page;
use attack::raw::Call;
use attack::source::Source;
use attack::trial::{Finding, Trial};
use attack::worst;
use std::env;
use std::fs::{self, File};
use std::os::unix::process::ExitStatusExt;
use std::path::PathBuf;
use std::process::{Command, Stdio, exit};
use std::time::{Duration, Instant};

unsafe extern "C" {
    fn alarm(seconds: u32) -> u32;
}

const SIGALRM: i32 = 14;

/// What is to be run.
struct Words {
    seed: u64,
    calls: u64,
    seconds: Option<u64>,
    input: Option<u64>,
    patience: u32,
    fault: Option<&'static Fault>,
    notes: PathBuf,
    what: What,
}

#[derive(Clone, Copy)]
enum What {
    Attack,
    Calls,
    Faults,
    Worst,
}

fn stop(text: &str) -> ! {
    eprintln!("attack: {text}");
    exit(2);
}

fn words() -> Words {
    let mut words = Words {
        seed: 1,
        calls: 600_000,
        seconds: None,
        input: None,
        patience: 20,
        fault: None,
        notes: env::temp_dir(),
        what: What::Attack,
    };
    let mut args = env::args().skip(1);
    while let Some(word) = args.next() {
        let mut number = || match args.next().map(|text| text.parse::<u64>()) {
            Some(Ok(number)) => number,
            _ => stop(&format!("{word} needs a number")),
        };
        match word.as_str() {
            "--seed" => words.seed = number(),
            "--calls" => words.calls = number(),
            "--seconds" => words.seconds = Some(number()),
            "--input" => words.input = Some(number()),
            "--patience" => words.patience = number() as u32,
            "--fault" => words.fault = FAULTS.get(number() as usize),
            "--notes" => words.notes = args.next().unwrap_or_default().into(),
            "--child" => words.what = What::Calls,
            "--faults" => words.what = What::Faults,
            "--worst" => words.what = What::Worst,
            _ => stop(&format!("unknown word: {word}")),
        }
    }
    words
}

/// Tells a finding and ends with 1.
fn report(finding: Finding, repeat: String) -> ! {
    println!("FINDING: {finding}");
    println!("to repeat: rust/attack/run {repeat}");
    exit(1);
}

/// The calls, in this process. Exit status 1 on a finding.
fn calls(words: &Words) -> ! {
    let file =
        File::options().read(true).write(true).open(&words.notes).expect("the notes are there");
    let mut trial = Trial::new(words.fault, Notes::on(shared_page(&file)));
    let (begun, mut told) = (Instant::now(), Instant::now());
    // SAFETY: only sets the clock that ends this process if an input does not end.
    let wait = || unsafe { alarm(words.patience) };
    wait();
    if let Err(finding) = facts::run(&mut trial) {
        report(format!("in document 01's own trials, {finding}"), format!("--seed {}", words.seed));
    }
    let inputs = match words.input {
        Some(input) => input..input + 1,
        None => 1..u64::MAX,
    };
    for input in inputs {
        let over = match words.seconds {
            Some(seconds) => begun.elapsed() >= Duration::from_secs(seconds),
            None => trial.counts.calls >= words.calls,
        };
        if over {
            break;
        }
        trial.notes.input(input);
        wait();
        if let Err(finding) = attempt::run(&mut Source::drawn(words.seed, input), &mut trial) {
            report(finding, format!("--seed {} --input {input}", words.seed));
        }
        if told.elapsed() >= Duration::from_secs(5) {
            told = Instant::now();
            eprintln!(
                "attack: {} s, {input} inputs, {} calls",
                begun.elapsed().as_secs(),
                trial.counts.calls
            );
        }
    }
    trial.counts.print();
    exit(0);
}

/// How the calls ended.
enum End {
    Well,
    Finding,
    Signal(i32),
}

/// Runs the calls in a process of their own, and says what it died of.
fn attack(words: &Words, more: &[String], quiet: bool) -> End {
    let path = words.notes.join(format!("notes-{}", std::process::id()));
    fs::write(&path, [0; 4096])
        .unwrap_or_else(|error| stop(&format!("{}: {error}", path.display())));
    let own = env::current_exe().expect("this program has a path");
    let mut command = Command::new(own);
    command.args([
        "--child",
        "--seed",
        &words.seed.to_string(),
        "--calls",
        &words.calls.to_string(),
    ]);
    command.args(["--notes".as_ref(), path.as_os_str()]);
    command.args(more);
    if quiet {
        command.stdout(Stdio::null());
    }
    let status = command
        .status()
        .unwrap_or_else(|error| stop(&format!("no process for the calls: {error}")));
    let notes = fs::read(&path).expect("the notes were written");
    fs::remove_file(&path).expect("the notes can be removed");
    if let Some(signal) = status.signal() {
        let note =
            |at: usize| u64::from_le_bytes(notes[8 * at..8 * at + 8].try_into().expect("8 bytes"));
        let what = if signal == SIGALRM { "did not end in time" } else { "died" };
        let (name, way) =
            (Call::NAMES[note(2) as usize], if note(3) == 1 { "core" } else { "public" });
        if !quiet {
            println!(
                "FINDING: {name} ({way}) {what}, signal {signal}, at call {} of its input",
                note(1)
            );
            println!("to repeat: rust/attack/run --seed {} --input {}", words.seed, note(0));
        }
        return End::Signal(signal);
    }
    match status.code() {
        Some(0) => End::Well,
        Some(1) => End::Finding,
        _ => stop("the attack itself failed; its words stand above"),
    }
}

/// Plants each fault in turn. True if each was found.
fn faults(words: &Words) -> bool {
    let mut missed = 0;
    for (i, fault) in FAULTS.iter().enumerate() {
        let more = ["--fault", &i.to_string(), "--patience", "3"].map(String::from);
        let how = match attack(words, &more, true) {
            End::Well => "MISSED".into(),
            End::Finding => "found".into(),
            End::Signal(signal) => format!("found, signal {signal}"),
        };
        missed += usize::from(how == "MISSED");
        println!("{how:<18}{}", fault.name);
    }
    println!("{} faults planted, {missed} missed", FAULTS.len());
    missed == 0
}

fn main() {
    let words = words();
    let well = match words.what {
        What::Calls => calls(&words),
        What::Faults => faults(&words),
        What::Worst => {
            worst::run();
            true
        }
        What::Attack => {
            let mut more = Vec::new();
            for (name, number) in [("--seconds", words.seconds), ("--input", words.input)] {
                more.extend(
                    number.into_iter().flat_map(|number| [name.to_string(), number.to_string()]),
                );
            }
            println!("seed {}, {} kinds of input", words.seed, Kind::DRAWN);
            matches!(attack(&words, &more, false), End::Well)
        }
    };
    exit(i32::from(!well));
}
