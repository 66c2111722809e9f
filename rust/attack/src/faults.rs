//! Faults planted in what the library hands back, one at a time, to see that each is found.

use crate::expect::Expected;
use crate::guard::{Pages, Side};
use crate::raw::{Call, Moved};
use crate::trial::{State, Way};

/// A call just made, before it is looked at.
pub struct Made<'a> {
    pub call: &'a Call,
    pub way: Way,
    pub state: &'a State,
    pub asked: &'a Expected,
    pub pages: &'a mut Pages,
    pub moved: &'a mut Moved,
}

pub struct Fault {
    pub name: &'static str,
    pub plant: fn(&mut Made),
}

impl Made<'_> {
    fn number(&self) -> u32 {
        self.moved.answer.number
    }

    fn found(&self) -> bool {
        self.moved.answer.found == 1
    }

    fn done(&self, call: &str) -> bool {
        self.call.name() == call && self.number() == 0
    }

    /// F of sound words.
    fn free(&self) -> usize {
        self.state.pool.as_ref().map_or(0, |pool| pool.free.len())
    }

    /// Has the call to change words?
    fn changes(&self) -> bool {
        self.asked.after.is_some()
    }

    /// The words, to write.
    fn words(&mut self) -> &mut [u32] {
        self.pages.lock(false);
        // SAFETY: the words are in pages of ours, which may be written now; no one else has them.
        unsafe { std::slice::from_raw_parts_mut(self.pages.pointer(), self.pages.count()) }
    }

    /// The first word from some place on that is 0 gets a number.
    fn fill_one(&mut self, from: usize) {
        if let Some(word) = self.words().iter_mut().skip(from).find(|word| **word == 0) {
            *word = 9;
        }
    }

    /// The first word from some place on that is not 0 loses its number.
    fn zero_one(&mut self, from: usize) {
        if let Some(word) = self.words().iter_mut().skip(from).find(|word| **word != 0) {
            *word = 0;
        }
    }
}

/// Each fault by its name.
#[rustfmt::skip]
pub const FAULTS: &[Fault] = &[
    Fault { name: "check says yes to all words of more than 60", plant: |m| {
        if m.call.name() == "check" && m.pages.count() > 60 { m.moved.answer.found = 1 }
    } },
    Fault { name: "check says no to a sound pool of six levels", plant: |m| {
        let tall = m.state.pool.as_ref().is_ok_and(|pool| pool.trees.iter().any(|tree| tree.rows.len() == 6));
        if m.call.name() == "check" && tall { m.moved.answer.found = 0 }
    } },
    Fault { name: "check answers another byte than 0 and 1", plant: |m| {
        if m.call.name() == "check" && m.found() { m.moved.answer.found = 255 }
    } },
    Fault { name: "a refusal with 1 changes the last word", plant: |m| {
        if m.number() == 1 && m.call.name() == "put" && let Some(word) = m.words().last_mut() { *word ^= 1 }
    } },
    Fault { name: "a refusal with 4 zeroes a word", plant: |m| {
        if m.number() == 4 { m.zero_one(20) }
    } },
    Fault { name: "a refusal stores a word as it was", plant: |m| {
        if m.number() == 2 && m.way == Way::Public(Side::Start) {
            let first = m.pages.pointer();
            // SAFETY: no matter: the page is locked, and the store has to end the process.
            unsafe { first.write_volatile(first.read_volatile()) }
        }
    } },
    Fault { name: "a refusal clears the cursor", plant: |m| {
        if m.number() == 3 { m.moved.cursor = Default::default() }
    } },
    Fault { name: "a refusal tells a key", plant: |m| if m.number() == 3 { m.moved.answer.key = 1 } },
    Fault { name: "an unknown tree is told before unsound words", plant: |m| {
        if let Call::Get(33.., _) = m.call && m.number() == 1 { m.moved.answer.number = 2 }
    } },
    Fault { name: "a cursor that stands nowhere is told before an unknown tree", plant: |m| {
        if m.number() == 2 && m.call.name() == "next" { m.moved.answer.number = 3 }
    } },
    Fault { name: "a cursor of size 0 with levels in use is taken", plant: |m| {
        if m.number() == 3 && m.moved.cursor.size == 0 { m.moved.answer.number = 0 }
    } },
    Fault { name: "a put that needs just what is free is refused", plant: |m| {
        let taken = m.asked.after.as_ref().is_some_and(|after| after.free.is_empty() && m.free() > 1);
        if m.call.name() == "put" && taken { m.moved.answer.number = 4 }
    } },
    Fault { name: "format takes 33 trees", plant: |m| {
        if let Call::Format(33, _) = m.call { m.moved.answer.number = 0 }
    } },
    Fault { name: "format leaves a word", plant: |m| {
        if m.done("format") && let Some(word) = m.words().last_mut() { *word = 7 }
    } },
    Fault { name: "get misses a key", plant: |m| {
        if m.done("get") && m.found() { m.moved.answer = Default::default() }
    } },
    Fault { name: "get tells another value", plant: |m| {
        if m.done("get") && m.found() { m.moved.answer.value ^= 1 << 31 }
    } },
    Fault { name: "put tells the new value", plant: |m| {
        if let (Call::Put(_, _, value), true) = (m.call, m.found()) { m.moved.answer.value = *value }
    } },
    Fault { name: "put does nothing", plant: |m| {
        if m.done("put") && m.changes() { let before = m.state.words.clone(); m.words().copy_from_slice(&before) }
    } },
    Fault { name: "put zeroes a word, where there are two trees", plant: |m| {
        if m.done("put") && m.state.pool.as_ref().is_ok_and(|pool| pool.trees.len() > 1) { m.zero_one(40) }
    } },
    Fault { name: "put that takes a node leaves a number in a place not in use", plant: |m| {
        let cut = m.asked.after.as_ref().is_some_and(|after| after.free.len() + 1 == m.free());
        if m.done("put") && cut { m.fill_one(12) }
    } },
    Fault { name: "remove turns the stack's top two round", plant: |m| {
        let freed = m.asked.after.as_ref().map_or(0, |after| after.free.len());
        if m.done("remove") && freed > m.free() + 1 {
            let base = m.pages.count() - m.state.pool.as_ref().map_or(0, |pool| pool.nodes);
            m.words().swap(base + freed - 1, base + freed - 2);
        }
    } },
    Fault { name: "remove that frees a node leaves a number in a place not in use", plant: |m| {
        let freed = m.asked.after.as_ref().is_some_and(|after| after.free.len() > m.free());
        if m.done("remove") && freed { m.fill_one(12) }
    } },
    Fault { name: "remove at a cursor hands back size 1 for size 0", plant: |m| {
        if m.done("remove_at") && m.found() && m.moved.cursor.size == 0 { m.moved.cursor.size = 1 }
    } },
    Fault { name: "first tells another key", plant: |m| {
        if m.done("first") && m.found() { m.moved.answer.key ^= 1 }
    } },
    Fault { name: "seek leaves a number in an unused level", plant: |m| {
        if m.done("seek") { m.moved.cursor.nodes[15] = m.call.cursor().nodes[15] }
    } },
    Fault { name: "settle moves from the last pair", plant: |m| {
        if m.done("settle") && m.moved.cursor.size == 1 { m.moved.cursor = Default::default() }
    } },
    Fault { name: "next stays on the last pair", plant: |m| {
        if m.done("next") && !m.found() { m.moved.cursor = m.call.cursor() }
    } },
    Fault { name: "prev from off the end tells none", plant: |m| {
        if m.done("prev") && m.call.cursor().size == 0 { *m.moved = Moved { cursor: m.call.cursor(), ..Moved::default() } }
    } },
    Fault { name: "stands looks past unused levels", plant: |m| {
        if m.call.name() == "stands" && m.call.cursor().size == 0 { m.moved.answer.found = 1 }
    } },
    Fault { name: "a core answers otherwise than the public call", plant: |m| {
        if matches!(m.way, Way::Core(_)) && m.call.name() == "get" { m.moved.answer.value ^= 1 }
    } },
    Fault { name: "a call that only reads stores a word", plant: |m| {
        if m.done("get") && m.way == Way::Public(Side::Start) {
            let first = m.pages.pointer();
            // SAFETY: no matter: the page is locked, and the store has to end the process.
            unsafe { first.write_volatile(first.read_volatile()) }
        }
    } },
    Fault { name: "the word after the last is read", plant: |m| {
        if m.way == Way::Public(Side::End) {
            // SAFETY: no matter: the read has to end the process.
            unsafe { m.pages.pointer().add(m.pages.count()).read_volatile() };
        }
    } },
    Fault { name: "the word before the first is read", plant: |m| {
        if m.way == Way::Public(Side::Start) {
            // SAFETY: no matter: the read has to end the process.
            unsafe { m.pages.pointer().sub(1).read_volatile() };
        }
    } },
    Fault { name: "a word some way after the last is written", plant: |m| {
        if m.way == Way::Public(Side::Start) && m.changes() {
            // SAFETY: inside the pages, which are longer than the words by more.
            unsafe { m.pages.pointer().add(m.pages.count() + 5).write(1) };
        }
    } },
    Fault { name: "a call does not end", plant: |m| {
        if m.call.name() == "remove_at" { loop { std::hint::spin_loop() } }
    } },
];
