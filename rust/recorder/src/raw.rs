//! The library's functions as `include/recorder.h` declares them.

use crate::{Cursor, Found, Met, Refusal};

/// An answer in document 01's numbers.
#[repr(C)]
pub struct Answer {
    number: u32,
    found: bool,
    key: u32,
    value: u32,
}

/// What a cursor call hands back.
#[repr(C)]
pub struct Moved {
    answer: Answer,
    cursor: Cursor,
}

const _: () = assert!(std::mem::size_of::<Answer>() == 16);
const _: () = assert!(std::mem::size_of::<Cursor>() == 136);
const _: () = assert!(std::mem::size_of::<Moved>() == 152);

impl Answer {
    /// Done, or the refusal.
    pub fn done(&self) -> Result<(), Refusal> {
        match self.number {
            0 => Ok(()),
            number => Err(Refusal::of(number)),
        }
    }

    /// The answer of a call that gives a value.
    pub fn found(&self) -> Result<Found, Refusal> {
        self.done()?;
        Ok(if self.found { Found::Value(self.value) } else { Found::Nothing })
    }

    /// The answer of a call that gives a pair.
    pub fn met(&self) -> Result<Met, Refusal> {
        self.done()?;
        Ok(if self.found { Met::Pair(self.key, self.value) } else { Met::Nothing })
    }
}

impl Moved {
    /// Moves the cursor (a refusal hands back the same one) and gives the answer.
    pub fn store(self, at: &mut Cursor) -> Answer {
        *at = self.cursor;
        self.answer
    }
}

#[rustfmt::skip]
extern "C" {
    // For any words.
    pub fn recorder_check(words: *const u32, len: usize) -> bool;
    pub fn recorder_format(words: *mut u32, len: usize, trees: u32, nodes: u32) -> Answer;
    pub fn recorder_get(words: *const u32, len: usize, tree: u32, key: u32) -> Answer;
    pub fn recorder_put(words: *mut u32, len: usize, tree: u32, key: u32, value: u32) -> Answer;
    pub fn recorder_remove(words: *mut u32, len: usize, tree: u32, key: u32) -> Answer;
    pub fn recorder_first(words: *const u32, len: usize, at: Cursor) -> Moved;
    pub fn recorder_seek(words: *const u32, len: usize, at: Cursor, key: u32) -> Moved;
    pub fn recorder_settle(words: *const u32, len: usize, at: Cursor) -> Moved;
    pub fn recorder_next(words: *const u32, len: usize, at: Cursor) -> Moved;
    pub fn recorder_prev(words: *const u32, len: usize, at: Cursor) -> Moved;
    pub fn recorder_remove_at(words: *mut u32, len: usize, at: Cursor) -> Moved;

    // For sound words. They test the tree number.
    pub fn recorder_sound_get(words: *const u32, len: usize, tree: u32, key: u32) -> Answer;
    pub fn recorder_sound_put(words: *mut u32, len: usize, tree: u32, key: u32, value: u32) -> Answer;
    pub fn recorder_sound_remove(words: *mut u32, len: usize, tree: u32, key: u32) -> Answer;
    pub fn recorder_sound_first(words: *const u32, len: usize, at: Cursor) -> Moved;
    pub fn recorder_sound_seek(words: *const u32, len: usize, at: Cursor, key: u32) -> Moved;
    pub fn recorder_sound_stands(words: *const u32, len: usize, at: Cursor) -> bool;

    // For sound words and a cursor that stands in its tree.
    pub fn recorder_sound_settle(words: *const u32, len: usize, at: Cursor) -> Moved;
    pub fn recorder_sound_next(words: *const u32, len: usize, at: Cursor) -> Moved;
    pub fn recorder_sound_prev(words: *const u32, len: usize, at: Cursor) -> Moved;
    pub fn recorder_sound_remove_at(words: *mut u32, len: usize, at: Cursor) -> Moved;
}
