//! Counts over a run.

use judge::calls::{Answer, Call, OPS};
use judge::cases::CASES;

/// What was called, how it went, and which cases were reached.
#[derive(Default)]
pub struct Tally {
    /// For each call of `OPS` how often each number was answered.
    calls: [[u64; 5]; OPS.len()],
    /// For each call of `OPS` how often something was found.
    found: [u64; OPS.len()],
    cases: [u64; CASES.len()],
    levels: usize,
    pub lists: u64,
    pub mixes: u64,
    /// Pools made, and not formatted.
    pub made: u64,
    /// Calls on a cursor that was kept across a change of its tree: done, refused.
    pub kept: [u64; 2],
    /// Calls besides those of the lists, all on our side alone: with bent cursors, on damaged words,
    /// and formats out of range.
    pub bent: u64,
    pub damaged: u64,
    pub formats: u64,
    /// Damaged words that are sound all the same.
    pub harmless: u64,
}

impl Tally {
    /// Counts a call by its answer.
    pub fn count(&mut self, call: &Call, answer: &Answer) {
        let i = OPS.iter().position(|o| o.0 == call.op).expect("every call is in the table");
        self.calls[i][answer.number as usize] += 1;
        self.found[i] += u64::from(answer.found);
    }

    /// Counts what a call on the crate reached.
    pub fn reached(&mut self, cases: u32, levels: usize) {
        for (i, count) in self.cases.iter_mut().enumerate() {
            *count += u64::from(cases >> i & 1);
        }
        self.levels = self.levels.max(levels);
    }

    /// Calls with this number for an answer.
    fn answered(&self, number: usize) -> u64 {
        self.calls.iter().map(|c| c[number]).sum()
    }

    /// Calls made on both sides.
    pub fn done(&self) -> u64 {
        self.answered(0)
    }

    /// Calls in all: made on both sides, or refused on ours.
    pub fn all(&self) -> u64 {
        (0..5).map(|n| self.answered(n)).sum()
    }

    /// Cases that no call reached.
    pub fn missing(&self) -> Vec<&'static str> {
        let none = CASES.iter().zip(&self.cases).filter(|c| *c.1 == 0);
        none.map(|c| c.0.0).collect()
    }

    /// Prints the counts.
    pub fn print(&self) {
        println!("{:42} {:>9} {:>9} {:>7} {:>7} {:>7}", "", "done", "found", "2", "3", "4");
        for (i, (_, name, _)) in OPS.iter().enumerate() {
            let [done, _, two, three, four] = self.calls[i];
            println!("{name:42} {done:>9} {:>9} {two:>7} {three:>7} {four:>7}", self.found[i]);
        }
        let [two, three, four] = [2, 3, 4].map(|n| self.answered(n));
        let found: u64 = self.found.iter().sum();
        println!("{:42} {:>9} {found:>9} {two:>7} {three:>7} {four:>7}", "all", self.done());
        for ((name, _), count) in CASES.iter().zip(&self.cases) {
            println!("{name:42} {count:>9}");
        }
        println!("greatest number of levels: {}", self.levels);
        let [stood, stale] = self.kept;
        println!(
            "on a cursor kept across a change of its tree: {stood} done, {stale} refused by 3"
        );
        println!(
            "lists of the generator: {}, random mixes: {}, pools made and not formatted: {}",
            self.lists, self.mixes, self.made
        );
        println!(
            "on our side alone: {} calls with bent cursors refused by 3, {} calls on damaged words \
             refused by 1 ({} damages left them sound), {} formats refused by 5",
            self.bent, self.damaged, self.harmless, self.formats
        );
    }
}
