//! Our side: a pool of words that is called through the exports of the proved library.

#[path = "../../../exports.rs"]
mod exports;

pub use exports::Cursor as Mark;
use exports::*;
use judge::calls::{self, Call, LEVELS, Op};
use std::fmt;

impl Mark {
    /// A cursor of a tree, off the end.
    pub fn off(tree: u32) -> Mark {
        Mark { tree, size: 0, nodes: [0; LEVELS], places: [0; LEVELS] }
    }

    /// A cursor of a tree with nothing sensible in it: only first and seek take it.
    pub fn junk(tree: u32) -> Mark {
        Mark { tree, size: 99, nodes: [7; LEVELS], places: [9; LEVELS] }
    }

    /// A cursor of the crate's side in our form.
    pub fn of(tree: u32, cursor: &calls::Cursor) -> Mark {
        Mark { tree, size: cursor.size as u32, nodes: cursor.nodes, places: cursor.places }
    }
}

impl fmt::Display for Mark {
    fn fmt(&self, f: &mut fmt::Formatter) -> fmt::Result {
        write!(f, "tree {} size {}", self.tree, self.size)?;
        let used = (self.size as usize).min(LEVELS);
        let old = (0..LEVELS).rev().find(|l| self.nodes[*l] != 0 || self.places[*l] != 0);
        for l in 0..used.max(old.map_or(0, |l| l + 1)) {
            write!(f, " {}.{}", self.nodes[l], self.places[l])?;
        }
        Ok(())
    }
}

impl Answer {
    /// The answer as the judge has it; nothing here may rest on found being 0 or 1.
    fn told(&self) -> calls::Answer {
        assert!(self.found <= 1, "found is {}, neither 0 nor 1", self.found);
        calls::Answer {
            number: self.number,
            found: self.found == 1,
            key: self.key,
            value: self.value,
        }
    }
}

/// Which of the two functions behind a call is used.
#[derive(Clone, Copy, Debug, PartialEq, Eq)]
pub enum Door {
    /// `recorder_*`: for any words, which it checks.
    Public,
    /// `recorder_sound_*`: for sound words, and where it reads a cursor for one that stands.
    Core,
}

/// Words on each side of the pool's, which no call may touch.
const GUARD: [u32; 8] = [0xfeed_cafe; 8];

/// A pool's words between guards, called through one door.
pub struct Ours {
    door: Door,
    block: Vec<u32>,
}

impl Ours {
    /// These words, whatever they are.
    pub fn of(door: Door, words: &[u32]) -> Ours {
        Ours { door, block: [&GUARD, words, &GUARD].concat() }
    }

    /// The words.
    pub fn words(&self) -> &[u32] {
        &self.block[GUARD.len()..self.block.len() - GUARD.len()]
    }

    /// The words, to be damaged.
    pub fn words_mut(&mut self) -> &mut [u32] {
        let end = self.block.len() - GUARD.len();
        &mut self.block[GUARD.len()..end]
    }

    /// Are the words around the pool untouched?
    pub fn kept_inside(&self) -> bool {
        self.block.starts_with(&GUARD) && self.block.ends_with(&GUARD)
    }

    /// `recorder_check`.
    pub fn check(&self) -> bool {
        let words = self.words();
        // SAFETY: pointer and length are the slice's, lent for the call; any words will do.
        unsafe { recorder_check(words.as_ptr(), words.len()) != 0 }
    }

    /// `recorder_format`.
    pub fn format(&mut self, trees: u32, nodes: u32) -> calls::Answer {
        let words = self.words_mut();
        // SAFETY: pointer and length are the slice's, lent for the call; any words will do.
        unsafe { recorder_format(words.as_mut_ptr(), words.len(), trees, nodes) }.told()
    }

    /// `recorder_sound_stands`; the words must be sound.
    pub fn stands(&self, at: Mark) -> bool {
        let words = self.words();
        // SAFETY: pointer and length are the slice's, lent for the call; the words are sound.
        unsafe { recorder_sound_stands(words.as_ptr(), words.len(), at) != 0 }
    }

    /// Makes a call with this cursor, which a call by key does not read. Through the core the words
    /// must be sound, and the cursor must stand where the call reads more than its tree number.
    pub fn call(&mut self, call: &Call, at: Mark) -> (calls::Answer, Mark) {
        if call.op.by_key() { (self.by_key(call), at) } else { self.by_cursor(call, at) }
    }

    /// A call by key.
    fn by_key(&mut self, call: &Call) -> calls::Answer {
        let (tree, key, value) = (call.tree as u32, call.key, call.value);
        let door = self.door;
        let words = self.words_mut();
        let (w, n) = (words.as_mut_ptr(), words.len());
        // SAFETY: pointer and length are the slice's, lent alone for the call; through the core
        // the words are sound.
        let answer = unsafe {
            match (door, call.op) {
                (Door::Public, Op::Put) => recorder_put(w, n, tree, key, value),
                (Door::Public, Op::Remove) => recorder_remove(w, n, tree, key),
                (Door::Public, _) => recorder_get(w, n, tree, key),
                (Door::Core, Op::Put) => recorder_sound_put(w, n, tree, key, value),
                (Door::Core, Op::Remove) => recorder_sound_remove(w, n, tree, key),
                (Door::Core, _) => recorder_sound_get(w, n, tree, key),
            }
        };
        answer.told()
    }

    /// A call with a cursor.
    fn by_cursor(&mut self, call: &Call, at: Mark) -> (calls::Answer, Mark) {
        let (key, door) = (call.key, self.door);
        let words = self.words_mut();
        let (w, n) = (words.as_mut_ptr(), words.len());
        // SAFETY: pointer and length are the slice's, lent alone for the call; through the core
        // the words are sound and the cursor stands, or only its tree number is read.
        let moved = unsafe {
            match (door, call.op) {
                (Door::Public, Op::Seek) => recorder_seek(w, n, at, key),
                (Door::Public, Op::Settle) => recorder_settle(w, n, at),
                (Door::Public, Op::First) => recorder_first(w, n, at),
                (Door::Public, Op::Next) => recorder_next(w, n, at),
                (Door::Public, Op::Prev) => recorder_prev(w, n, at),
                (Door::Public, _) => recorder_remove_at(w, n, at),
                (Door::Core, Op::Seek) => recorder_sound_seek(w, n, at, key),
                (Door::Core, Op::Settle) => recorder_sound_settle(w, n, at),
                (Door::Core, Op::First) => recorder_sound_first(w, n, at),
                (Door::Core, Op::Next) => recorder_sound_next(w, n, at),
                (Door::Core, Op::Prev) => recorder_sound_prev(w, n, at),
                (Door::Core, _) => recorder_sound_remove_at(w, n, at),
            }
        };
        (moved.answer.told(), moved.cursor)
    }
}
