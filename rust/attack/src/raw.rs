//! The library's calls: each with what is handed in, made by its public function or by its core.

#[path = "../../exports.rs"]
mod exports;

use exports::*;
pub use exports::{Answer, Cursor, Moved};
use std::hint::black_box;
use std::sync::atomic::{AtomicU32, Ordering};

/// A call with what is handed in beside the words.
#[derive(Clone, Copy, Debug)]
pub enum Call {
    Check,
    Format(u32, u32),
    Get(u32, u32),
    Put(u32, u32, u32),
    Remove(u32, u32),
    First(Cursor),
    Seek(Cursor, u32),
    Settle(Cursor),
    Next(Cursor),
    Prev(Cursor),
    RemoveAt(Cursor),
    /// A core without a public call.
    Stands(Cursor),
}

impl Call {
    pub const NAMES: [&str; 12] = [
        "check",
        "format",
        "get",
        "put",
        "remove",
        "first",
        "seek",
        "settle",
        "next",
        "prev",
        "remove_at",
        "stands",
    ];

    /// The call's place in NAMES.
    pub fn index(&self) -> usize {
        match self {
            Call::Check => 0,
            Call::Format(..) => 1,
            Call::Get(..) => 2,
            Call::Put(..) => 3,
            Call::Remove(..) => 4,
            Call::First(..) => 5,
            Call::Seek(..) => 6,
            Call::Settle(..) => 7,
            Call::Next(..) => 8,
            Call::Prev(..) => 9,
            Call::RemoveAt(..) => 10,
            Call::Stands(..) => 11,
        }
    }

    pub fn name(&self) -> &'static str {
        Call::NAMES[self.index()]
    }

    /// Does the call hand a cursor back?
    pub fn moves(&self) -> bool {
        (5..=10).contains(&self.index())
    }

    /// The cursor handed in; of a call without one, the cursor of zeros.
    pub fn cursor(&self) -> Cursor {
        match *self {
            Call::First(at)
            | Call::Seek(at, _)
            | Call::Settle(at)
            | Call::Next(at)
            | Call::Prev(at)
            | Call::RemoveAt(at)
            | Call::Stands(at) => at,
            _ => Cursor::default(),
        }
    }
}

/// The answer of a bool: found says it.
fn bool_answer(byte: u8) -> Moved {
    Moved { answer: Answer { found: byte, ..Answer::default() }, ..Moved::default() }
}

/// The answer of a call without a cursor.
fn plain(answer: Answer) -> Moved {
    Moved { answer, ..Moved::default() }
}

/// How many words of the stack are filled before a call: 20 KiB, where the deepest call was seen to take 16.5.
const FILLED: usize = 5120;

/// Leaves an odd number, another one each time, on the stack where the call that its caller makes next has its own: what that call does
/// not fill it would find there.
#[inline(never)]
fn fill_stack() {
    static NUMBER: AtomicU32 = AtomicU32::new(1);
    let number = NUMBER.fetch_add(0x9E37_79B8, Ordering::Relaxed);
    black_box(&mut [number; FILLED]);
}

/// Makes the public call, on a filled stack.
///
/// # Safety
/// `words` is not null and points to `len` words; they are writable if the call may change them.
#[inline(never)]
pub unsafe fn public(call: &Call, words: *mut u32, len: usize) -> Moved {
    fill_stack();
    unsafe {
        match *call {
            Call::Check => bool_answer(recorder_check(words, len)),
            Call::Format(trees, nodes) => plain(recorder_format(words, len, trees, nodes)),
            Call::Get(tree, key) => plain(recorder_get(words, len, tree, key)),
            Call::Put(tree, key, value) => plain(recorder_put(words, len, tree, key, value)),
            Call::Remove(tree, key) => plain(recorder_remove(words, len, tree, key)),
            Call::First(at) => recorder_first(words, len, at),
            Call::Seek(at, key) => recorder_seek(words, len, at, key),
            Call::Settle(at) => recorder_settle(words, len, at),
            Call::Next(at) => recorder_next(words, len, at),
            Call::Prev(at) => recorder_prev(words, len, at),
            Call::RemoveAt(at) => recorder_remove_at(words, len, at),
            Call::Stands(_) => panic!("stands has no public call"),
        }
    }
}

/// Makes the call's core, on a filled stack.
///
/// # Safety
/// As `public`; and the words are sound, and the cursor stands where the header asks for it.
#[inline(never)]
pub unsafe fn core(call: &Call, words: *mut u32, len: usize) -> Moved {
    fill_stack();
    unsafe {
        match *call {
            Call::Check | Call::Format(..) => panic!("check and format have no core"),
            Call::Get(tree, key) => plain(recorder_sound_get(words, len, tree, key)),
            Call::Put(tree, key, value) => plain(recorder_sound_put(words, len, tree, key, value)),
            Call::Remove(tree, key) => plain(recorder_sound_remove(words, len, tree, key)),
            Call::First(at) => recorder_sound_first(words, len, at),
            Call::Seek(at, key) => recorder_sound_seek(words, len, at, key),
            Call::Settle(at) => recorder_sound_settle(words, len, at),
            Call::Next(at) => recorder_sound_next(words, len, at),
            Call::Prev(at) => recorder_sound_prev(words, len, at),
            Call::RemoveAt(at) => recorder_sound_remove_at(words, len, at),
            Call::Stands(at) => bool_answer(recorder_sound_stands(words, len, at)),
        }
    }
}
