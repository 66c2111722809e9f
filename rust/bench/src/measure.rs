//! The measuring: all sides in turn, many rounds, the least time of each; and the check beside a sum of the same words.

use crate::exports::recorder_check;
use crate::finding;
use crate::mixes::{MIXES, Mix, Run, clock_cost, filled, run};
use crate::sides::{Checked, Core, Crate, Side, Tree};
use crate::work::{SETTINGS, Setting, Work};
use std::hint::black_box;
use std::time::Instant;

/// How often a mix is run on a side. Checked calls are dear, so they are run in every so-many-th round only.
#[derive(Clone, Copy)]
pub struct Rounds {
    pub all: usize,
    pub checked_every: usize,
}

/// The sides, in the order of `Times`.
pub const SIDES: [&str; 4] = [Core::NAME, Checked::NAME, Crate::NAME, Tree::NAME];
pub const CORE: usize = 0;
pub const CHECKED: usize = 1;
pub const CRATE: usize = 2;
pub const TREE: usize = 3;

type Runner = fn(Mix, &Work, f64) -> Run;
const RUNNERS: [Runner; 4] = [run::<Core>, run::<Checked>, run::<Crate>, run::<Tree>];

/// Nanoseconds a call of one mix in one setting, by side: the sum of its parts' least times, and the middle of its runs.
#[derive(Clone, Copy)]
pub struct Times {
    pub least: [f64; 4],
    pub middle: [f64; 4],
}

/// Nanoseconds of a check, of a sum of the same words, and of one that takes a load a word.
#[derive(Clone, Copy)]
pub struct CheckTimes {
    pub check: f64,
    pub sum: f64,
    pub by_word: f64,
}

/// All that is measured in a setting: the mixes in the order of `MIXES`, and the check.
pub struct Measured {
    pub setting: Setting,
    pub mixes: Vec<Times>,
    pub check: CheckTimes,
}

/// A side by the name that the tables give it, in lower case.
pub fn runner(name: &str) -> Option<Runner> {
    let at = SIDES.iter().position(|side| side.to_lowercase() == name)?;
    Some(RUNNERS[at])
}

/// Every setting, and a word on standard error as it goes on.
pub fn measure_all(rounds: Rounds) -> Vec<Measured> {
    let clock = clock_cost();
    eprintln!("bench: clock {clock} ns, {} rounds", rounds.all);
    SETTINGS
        .iter()
        .map(|&setting| {
            let work = Work::new(setting);
            let mixes = MIXES.iter().map(|&mix| measure(mix, &work, rounds, clock)).collect();
            let check = measure_check(&work, rounds);
            eprintln!("bench: {} trees of {} pairs measured", setting.trees, setting.pairs);
            Measured { setting, mixes, check }
        })
        .collect()
}

/// What the rounds of one side were: of each part the least time, and the time of each whole run.
#[derive(Default)]
struct Seen {
    parts: Vec<f64>,
    runs: Vec<f64>,
}

impl Seen {
    fn take(&mut self, run: &Run) {
        if self.runs.is_empty() {
            self.parts.clone_from(&run.parts);
        }
        for (least, part) in self.parts.iter_mut().zip(&run.parts) {
            *least = least.min(*part);
        }
        self.runs.push(run.parts.iter().sum::<f64>() / run.calls as f64);
    }

    fn middle(&mut self) -> f64 {
        self.runs.sort_by(f64::total_cmp);
        self.runs[self.runs.len() / 2]
    }
}

/// One mix on all sides, in turn; who begins changes from round to round.
fn measure(mix: Mix, work: &Work, rounds: Rounds, clock: f64) -> Times {
    let mut seen: [Seen; 4] = Default::default();
    let mut first: Option<Run> = None;
    for round in 0..rounds.all {
        for turn in 0..RUNNERS.len() {
            let side = (turn + round) % RUNNERS.len();
            if side == CHECKED && round % rounds.checked_every != 0 {
                continue;
            }
            let run = RUNNERS[side](mix, work, clock);
            let fold = run.fold;
            seen[side].take(&run);
            if first.get_or_insert(run).fold != fold {
                finding(&format!(
                    "{} answers otherwise than the side before: {}",
                    SIDES[side],
                    mix.name()
                ));
            }
        }
    }
    let calls = first.map_or(1, |run| run.calls) as f64;
    Times {
        least: std::array::from_fn(|side| seen[side].parts.iter().sum::<f64>() / calls),
        middle: std::array::from_fn(|side| seen[side].middle()),
    }
}

/// The sum of some words, which the compiler spreads over vector lanes.
fn sum(words: &[u32]) -> u32 {
    words.iter().fold(0, |sum, word| sum.wrapping_add(*word))
}

/// The sum with one load a word.
fn sum_by_word(words: &[u32]) -> u32 {
    // SAFETY: the word is lent for the read.
    let load = |word: &u32| unsafe { std::ptr::read_volatile(word) };
    words.iter().fold(0, |sum, word| sum.wrapping_add(load(word)))
}

fn check(words: &[u32]) -> u32 {
    // SAFETY: pointer and length are the slice's, lent for the call; any words will do.
    u32::from(unsafe { recorder_check(words.as_ptr(), words.len()) })
}

/// The time of one call, out of a few.
fn once(f: fn(&[u32]) -> u32, words: &[u32]) -> f64 {
    const CALLS: u32 = 10;
    let start = Instant::now();
    for _ in 0..CALLS {
        black_box(f(black_box(words)));
    }
    start.elapsed().as_nanos() as f64 / f64::from(CALLS)
}

/// The check beside the sums, over the words of the full trees.
fn measure_check(work: &Work, rounds: Rounds) -> CheckTimes {
    let side: Core = filled(work);
    let words = side.words();
    if check(words) != 1 {
        finding("the check takes a pool that calls have made for unsound");
    }
    let mut least = [f64::MAX; 3];
    for _ in 0..10 * rounds.all {
        for (least, f) in least.iter_mut().zip([check, sum, sum_by_word]) {
            *least = least.min(once(f, words));
        }
    }
    CheckTimes { check: least[0], sum: least[1], by_word: least[2] }
}
