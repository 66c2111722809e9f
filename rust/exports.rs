//! The library's functions as include/recorder.h declares them, for the judge, the attack and the bench. A C bool is read as
//! a byte, so that a byte other than 0 and 1 would be seen. The package rust/recorder has its own, since it stands alone.

// each of the three uses its part
#![allow(dead_code)]

/// An answer in document 01's numbers.
#[repr(C)]
#[derive(Clone, Copy, Debug, Default, PartialEq, Eq)]
pub struct Answer {
    pub number: u32,
    pub found: u8,
    pub key: u32,
    pub value: u32,
}

/// A cursor as the library takes it: any words.
#[repr(C)]
#[derive(Clone, Copy, Debug, Default, PartialEq, Eq)]
pub struct Cursor {
    pub tree: u32,
    pub size: u32,
    pub nodes: [u32; 16],
    pub places: [u32; 16],
}

/// What a cursor call hands back.
#[repr(C)]
#[derive(Clone, Copy, Debug, Default, PartialEq, Eq)]
pub struct Moved {
    pub answer: Answer,
    pub cursor: Cursor,
}

const _: () = assert!(size_of::<Answer>() == 16 && size_of::<Cursor>() == 136);
const _: () = assert!(size_of::<Moved>() == 152);

#[rustfmt::skip]
unsafe extern "C" {
    // For any words.
    pub fn recorder_check(words: *const u32, len: usize) -> u8;
    pub fn recorder_format(words: *mut u32, len: usize, trees: u32, nodes: u32) -> Answer;
    pub fn recorder_get(words: *const u32, len: usize, tree: u32, key: u32) -> Answer;
    pub fn recorder_put(words: *mut u32, len: usize, tree: u32, key: u32, value: u32) -> Answer;
    pub fn recorder_remove(words: *mut u32, len: usize, tree: u32, key: u32) -> Answer;
    pub fn recorder_first(words: *const u32, len: usize, at: Cursor) -> Moved;
    pub fn recorder_seek(words: *const u32, len: usize, at: Cursor, key: u32) -> Moved;
    pub fn recorder_settle(words: *const u32, len: usize, at: Cursor) -> Moved;
    pub fn recorder_next(words: *const u32, len: usize, at: Cursor) -> Moved;
    pub fn recorder_prev(words: *const u32, len: usize, at: Cursor) -> Moved;
    pub fn recorder_remove_at(words: *mut u32, len: usize, at: Cursor) -> Moved;

    // For sound words, and from `settle` on for a cursor that stands.
    pub fn recorder_sound_stands(words: *const u32, len: usize, at: Cursor) -> u8;
    pub fn recorder_sound_get(words: *const u32, len: usize, tree: u32, key: u32) -> Answer;
    pub fn recorder_sound_put(words: *mut u32, len: usize, tree: u32, key: u32, value: u32) -> Answer;
    pub fn recorder_sound_remove(words: *mut u32, len: usize, tree: u32, key: u32) -> Answer;
    pub fn recorder_sound_first(words: *const u32, len: usize, at: Cursor) -> Moved;
    pub fn recorder_sound_seek(words: *const u32, len: usize, at: Cursor, key: u32) -> Moved;
    pub fn recorder_sound_settle(words: *const u32, len: usize, at: Cursor) -> Moved;
    pub fn recorder_sound_next(words: *const u32, len: usize, at: Cursor) -> Moved;
    pub fn recorder_sound_prev(words: *const u32, len: usize, at: Cursor) -> Moved;
    pub fn recorder_sound_remove_at(words: *mut u32, len: usize, at: Cursor) -> Moved;
}
