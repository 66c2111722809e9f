//! The mixes: what is timed of a side, and a fold of what it answered.

use crate::finding;
use crate::sides::Side;
use crate::work::{Change, Note, Work};
use std::hint::black_box;
use std::time::Instant;

/// What is timed.
#[derive(Clone, Copy, PartialEq)]
pub enum Mix {
    Get,
    GetAbsent,
    PutNew,
    PutAgain,
    Remove,
    Next,
    Half,
}

/// All mixes, as the tables show them.
pub const MIXES: [Mix; 7] =
    [Mix::Get, Mix::GetAbsent, Mix::PutNew, Mix::PutAgain, Mix::Remove, Mix::Next, Mix::Half];

impl Mix {
    /// What the tables call it.
    pub fn name(self) -> &'static str {
        match self {
            Mix::Get => "get, present",
            Mix::GetAbsent => "get, absent",
            Mix::PutNew => "put, new key",
            Mix::PutAgain => "put again",
            Mix::Remove => "remove",
            Mix::Next => "next",
            Mix::Half => "half puts, half removes",
        }
    }

    /// What the command line calls it.
    pub fn word(self) -> &'static str {
        match self {
            Mix::Get => "get",
            Mix::GetAbsent => "absent",
            Mix::PutNew => "put",
            Mix::PutAgain => "again",
            Mix::Remove => "remove",
            Mix::Next => "next",
            Mix::Half => "half",
        }
    }
}

/// Calls of a part at least: short, so that a part is often over before other work of the machine comes between.
const PART: usize = 100;

/// Times of the parts of a run, its calls and its answers.
pub struct Run {
    pub parts: Vec<f64>,
    pub calls: usize,
    pub fold: u64,
}

/// Answers folded to a number. The factor is odd, so that no two numbers fold to one; it makes what comes again count anew.
struct Fold(u64);

impl Fold {
    fn number(&mut self, number: u64) {
        self.0 = (self.0.rotate_left(5) ^ number).wrapping_mul(0x9e37_79b9_7f4a_7c15);
    }

    fn word(&mut self, word: u32) {
        self.number(u64::from(word));
    }

    fn answer(&mut self, answer: Option<u32>) {
        self.number(answer.map_or(1 << 32, u64::from));
    }
}

/// Times in parts; what the clock itself takes is taken off.
struct Watch {
    clock: f64,
    parts: Vec<f64>,
    calls: usize,
    in_part: usize,
}

impl Watch {
    fn new(clock: f64) -> Self {
        Self { clock, parts: vec![0.0], calls: 0, in_part: 0 }
    }

    /// Times some calls.
    fn time(&mut self, calls: usize, what: impl FnOnce()) {
        if self.in_part >= PART {
            self.parts.push(0.0);
            self.in_part = 0;
        }
        let start = Instant::now();
        what();
        let nanos = start.elapsed().as_nanos() as f64 - self.clock;
        *self.parts.last_mut().expect("a part is there") += nanos;
        self.calls += calls;
        self.in_part += calls;
    }
}

/// What starting and stopping the clock takes, in nanoseconds.
pub fn clock_cost() -> f64 {
    let once = |_| {
        let start = Instant::now();
        black_box(());
        start.elapsed().as_nanos() as f64
    };
    (0..10_000).map(once).fold(f64::MAX, f64::min)
}

/// A side with all pairs in.
pub fn filled<S: Side>(work: &Work) -> S {
    let mut side = S::new(work.setting.trees);
    put_all(&mut side, &work.fill, &mut Fold(0));
    side
}

fn put_all<S: Side>(side: &mut S, notes: &[Note], fold: &mut Fold) {
    for n in black_box(notes) {
        fold.answer(side.put(n.tree, n.key, n.value));
    }
}

fn get_all<S: Side>(side: &S, notes: &[Note], fold: &mut Fold) {
    for n in black_box(notes) {
        fold.answer(side.get(n.tree, n.key));
    }
}

fn remove_all<S: Side>(side: &mut S, notes: &[Note], fold: &mut Fold) {
    for n in black_box(notes) {
        fold.answer(side.remove(n.tree, n.key));
    }
}

fn change_all<S: Side>(side: &mut S, changes: &[Change], fold: &mut Fold) {
    for c in black_box(changes) {
        let n = c.note;
        fold.answer(if c.put {
            side.put(n.tree, n.key, n.value)
        } else {
            side.remove(n.tree, n.key)
        });
    }
}

/// Goes over a tree.
fn walk<S: Side>(side: &S, tree: u32, pairs: usize, watch: &mut Watch, fold: &mut Fold) {
    let mut walk = side.pairs(tree);
    for from in (0..pairs).step_by(PART) {
        let count = PART.min(pairs - from);
        watch.time(count, || {
            for (key, value) in walk.by_ref().take(count) {
                fold.word(key);
                fold.word(value);
            }
        });
    }
    if walk.next().is_some() {
        finding(&format!("{} has more pairs than were put", S::NAME));
    }
}

/// Fills the trees and empties them, as often as makes the notes full, and times each. The first time is not counted: it
/// is when the crate's list of nodes grows.
fn fill_and_empty<S: Side>(work: &Work, up: &mut Watch, down: &mut Watch, fold: &mut Fold) {
    let mut side: S = filled(work);
    remove_all(&mut side, &work.fill, fold);
    for (puts, removes) in &work.rounds {
        for notes in puts.chunks(PART) {
            up.time(notes.len(), || put_all(&mut side, notes, fold));
        }
        for notes in removes.chunks(PART) {
            down.time(notes.len(), || remove_all(&mut side, notes, fold));
        }
    }
}

/// One mix on one side, from the same beginning each time.
pub fn run<S: Side>(mix: Mix, work: &Work, clock: f64) -> Run {
    let mut fold = Fold(0);
    let mut watch = Watch::new(clock);
    match mix {
        Mix::PutNew => fill_and_empty::<S>(work, &mut watch, &mut Watch::new(clock), &mut fold),
        Mix::Remove => fill_and_empty::<S>(work, &mut Watch::new(clock), &mut watch, &mut fold),
        Mix::Next => {
            let side: S = filled(work);
            for _ in 0..work.rounds.len() {
                for tree in 0..work.setting.trees {
                    walk(&side, tree, work.setting.pairs as usize, &mut watch, &mut fold);
                }
            }
        }
        Mix::Get | Mix::GetAbsent => {
            let side: S = filled(work);
            let all = if mix == Mix::Get { &work.present } else { &work.absent };
            for notes in all.chunks(PART) {
                watch.time(notes.len(), || get_all(&side, notes, &mut fold));
            }
        }
        Mix::PutAgain => {
            let mut side: S = filled(work);
            for notes in work.present.chunks(PART) {
                watch.time(notes.len(), || put_all(&mut side, notes, &mut fold));
            }
        }
        Mix::Half => {
            let mut side: S = filled(work);
            for changes in work.changes.chunks(PART) {
                watch.time(changes.len(), || change_all(&mut side, changes, &mut fold));
            }
        }
    }
    Run { parts: watch.parts, calls: watch.calls, fold: fold.0 }
}
