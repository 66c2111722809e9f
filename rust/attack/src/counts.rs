//! What was run, counted; and the notes by which a crash is told.

use crate::raw::{Answer, Call};
use crate::sound::Broken;
use crate::trial::{State, Way};

/// Kinds of input. The first is not drawn: what document 01 writes out, which comes before all others.
#[derive(Clone, Copy, PartialEq, Eq)]
pub enum Kind {
    Written,
    Random,
    Lookalike,
    Damaged,
    Bent,
    Made,
    Grown,
}

impl Kind {
    pub const NAMES: [&str; 7] = [
        "document 01's trials",
        "random words",
        "lookalikes",
        "damaged copies",
        "bent in one rule",
        "made sound pools",
        "grown sound pools",
    ];

    /// How many kinds are drawn.
    pub const DRAWN: usize = Kind::NAMES.len() - 1;
}

/// Numbers that a call can answer.
const NUMBERS: usize = 6;

#[derive(Default)]
pub struct Counts {
    kind: usize,
    pub calls: u64,
    pub cores: u64,
    pub grown: u64,
    inputs: [u64; Kind::NAMES.len()],
    sound: [u64; Kind::NAMES.len()],
    by_kind: [[u64; NUMBERS]; Kind::NAMES.len()],
    by_call: [[u64; NUMBERS]; 12],
    found: [u64; 12],
    broken: [u64; Broken::ALL.len()],
    levels: [u64; 7],
    taken: [u64; 8],
    freed: [u64; 8],
}

impl Counts {
    /// Notes an input of a kind.
    pub fn input(&mut self, kind: Kind, state: &State) {
        self.kind = kind as usize;
        self.inputs[self.kind] += 1;
        match &state.pool {
            Ok(pool) => {
                self.sound[self.kind] += 1;
                let levels = pool.trees.iter().map(|tree| tree.rows.len()).max().unwrap_or(0);
                self.levels[levels] += 1;
            }
            Err(rule) => self.broken[*rule as usize] += 1,
        }
    }

    /// Notes a call and what it has to answer.
    pub fn call(&mut self, call: &Call, answer: &Answer) {
        let number = answer.number as usize;
        self.calls += 1;
        self.by_kind[self.kind][number] += 1;
        self.by_call[call.index()][number] += 1;
        self.found[call.index()] += u64::from(answer.found);
    }

    /// Notes how many nodes a call took or freed.
    pub fn nodes(&mut self, before: usize, after: usize) {
        if after < before {
            self.taken[before - after] += 1;
        } else {
            self.freed[(after - before).min(7)] += 1;
        }
    }

    pub fn all_inputs(&self) -> u64 {
        self.inputs.iter().sum()
    }

    /// The counts as tables, of a run without a finding.
    pub fn print(&self) {
        println!("\n{:<22}{:>9}{:>9}   answered 0, 1, 2, 3, 4, 5", "inputs", "count", "sound");
        for (i, name) in Kind::NAMES.iter().enumerate() {
            let drawn =
                |n: u64| if i == Kind::Written as usize { "-".into() } else { n.to_string() };
            let (count, sound) = (drawn(self.inputs[i]), drawn(self.sound[i]));
            println!("{name:<22}{count:>9}{sound:>9}  {}", row(&self.by_kind[i]));
        }
        println!("\n{:<22}{:>9}{:>9}   answered 0, 1, 2, 3, 4, 5", "calls", "count", "found");
        for (i, name) in Call::NAMES.iter().enumerate() {
            let all: u64 = self.by_call[i].iter().sum();
            println!("{name:<22}{all:>9}{:>9}  {}", self.found[i], row(&self.by_call[i]));
        }
        println!("\nsound inputs by levels of the tallest tree, 0 to 6: {}", row(&self.levels));
        println!("calls that changed words, by nodes taken, 1 to 7:     {}", row(&self.taken[1..]));
        println!("calls that changed words, by nodes freed, 0 to 7:     {}", row(&self.freed));
        println!("inputs that are not sound, by the first rule that is broken:");
        for rule in Broken::ALL {
            println!("{:>9}  {}", self.broken[rule as usize], rule.text());
        }
        println!(
            "\nno finding in {} inputs and {} calls (each at both ends of the pages, and {} of them as core too), and {} more to grow pools",
            self.all_inputs(),
            self.calls,
            self.cores,
            self.grown
        );
    }
}

/// Numbers in a line.
fn row(numbers: &[u64]) -> String {
    numbers.iter().map(|n| format!("{n:>9}")).collect()
}

/// Where the run is, on a page that outlives the process: the input, how many calls it made, the call and its way.
pub struct Notes {
    page: *mut u64,
}

impl Notes {
    pub fn on(page: *mut u64) -> Notes {
        Notes { page }
    }

    fn store(&self, at: usize, value: u64) {
        // SAFETY: the page has room for 512 numbers, and no one else writes it.
        unsafe { self.page.add(at).write_volatile(value) }
    }

    pub fn input(&self, input: u64) {
        self.store(0, input);
        self.store(1, 0);
    }

    pub fn call(&self, call: &Call, way: Way) {
        // SAFETY: as in `store`.
        let made = unsafe { self.page.add(1).read_volatile() };
        self.store(1, made + 1);
        self.store(2, call.index() as u64);
        self.store(3, u64::from(matches!(way, Way::Core(_))));
    }
}
