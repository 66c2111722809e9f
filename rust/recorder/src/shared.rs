//! Words that others may write between calls: every call checks them.

use crate::layout::Layout;
use crate::raw;
use crate::{Cursor, Found, Met, Refusal};
use std::cell::Cell;
use std::fmt;

/// Words that others may write between calls.
///
/// Every call looks at the words anew and answers [`Refusal::Unsound`] if they are not a sound pool
/// then. The words are cells, so that several holders in one thread can have them at once. Words
/// that another thread or process may write while a call runs are outside this: copy them first.
///
/// ```
/// use recorder::{Found, Refusal, Shared};
/// let mut words = [0; 38];
/// let shared = Shared::of(&mut words);
/// shared.format(1, 2)?;
/// shared.put(0, 9, 100)?;
/// assert_eq!(shared.get(0, 9), Ok(Found::Value(100)));
/// shared.cells()[1].set(7); // the root names no node
/// assert_eq!(shared.get(0, 9), Err(Refusal::Unsound));
/// # Ok::<(), Refusal>(())
/// ```
#[derive(Clone, Copy)]
pub struct Shared<'a> {
    words: &'a [Cell<u32>],
}

impl<'a> Shared<'a> {
    /// Over cells that others may hold too.
    pub fn new(words: &'a [Cell<u32>]) -> Shared<'a> {
        Shared { words }
    }

    /// Over a slice, which is lent as cells.
    pub fn of(words: &'a mut [u32]) -> Shared<'a> {
        Shared::new(Cell::from_mut(words).as_slice_of_cells())
    }

    /// The words.
    pub fn cells(&self) -> &'a [Cell<u32>] {
        self.words
    }

    /// Are the words a sound pool now?
    pub fn check(&self) -> bool {
        let (words, len) = self.lend();
        // SAFETY: the cells are lent for the call, which any words will do for.
        unsafe { raw::recorder_check(words, len) }
    }

    /// As [`Pool::format`](crate::Pool::format).
    pub fn format(&self, trees: u32, nodes: u32) -> Result<(), Refusal> {
        let (words, len) = self.lend();
        // SAFETY: the cells are lent for the call, which any words will do for.
        unsafe { raw::recorder_format(words, len, trees, nodes) }.done()
    }

    /// As [`Pool::get`](crate::Pool::get).
    pub fn get(&self, tree: u32, key: u32) -> Result<Found, Refusal> {
        let (words, len) = self.lend();
        // SAFETY: the cells are lent for the call, which any words will do for.
        unsafe { raw::recorder_get(words, len, tree, key) }.found()
    }

    /// As [`Pool::put`](crate::Pool::put).
    pub fn put(&self, tree: u32, key: u32, value: u32) -> Result<Found, Refusal> {
        let (words, len) = self.lend();
        // SAFETY: the cells are lent for the call, which any words will do for.
        unsafe { raw::recorder_put(words, len, tree, key, value) }.found()
    }

    /// As [`Pool::remove`](crate::Pool::remove).
    pub fn remove(&self, tree: u32, key: u32) -> Result<Found, Refusal> {
        let (words, len) = self.lend();
        // SAFETY: the cells are lent for the call, which any words will do for.
        unsafe { raw::recorder_remove(words, len, tree, key) }.found()
    }

    /// As [`Pool::first`](crate::Pool::first).
    pub fn first(&self, at: &mut Cursor) -> Result<Met, Refusal> {
        let (words, len) = self.lend();
        // SAFETY: the cells are lent for the call, which any words and cursor will do for.
        unsafe { raw::recorder_first(words, len, *at) }.store(at).met()
    }

    /// As [`Pool::seek`](crate::Pool::seek).
    pub fn seek(&self, at: &mut Cursor, key: u32) -> Result<Found, Refusal> {
        let (words, len) = self.lend();
        // SAFETY: the cells are lent for the call, which any words and cursor will do for.
        unsafe { raw::recorder_seek(words, len, *at, key) }.store(at).found()
    }

    /// As [`Pool::settle`](crate::Pool::settle).
    pub fn settle(&self, at: &mut Cursor) -> Result<(), Refusal> {
        let (words, len) = self.lend();
        // SAFETY: the cells are lent for the call, which any words and cursor will do for.
        unsafe { raw::recorder_settle(words, len, *at) }.store(at).done()
    }

    /// As [`Pool::next`](crate::Pool::next).
    pub fn next(&self, at: &mut Cursor) -> Result<Met, Refusal> {
        let (words, len) = self.lend();
        // SAFETY: the cells are lent for the call, which any words and cursor will do for.
        unsafe { raw::recorder_next(words, len, *at) }.store(at).met()
    }

    /// As [`Pool::prev`](crate::Pool::prev).
    pub fn prev(&self, at: &mut Cursor) -> Result<Met, Refusal> {
        let (words, len) = self.lend();
        // SAFETY: the cells are lent for the call, which any words and cursor will do for.
        unsafe { raw::recorder_prev(words, len, *at) }.store(at).met()
    }

    /// As [`Pool::remove_at`](crate::Pool::remove_at).
    pub fn remove_at(&self, at: &mut Cursor) -> Result<Found, Refusal> {
        let (words, len) = self.lend();
        // SAFETY: the cells are lent for the call, which any words and cursor will do for.
        unsafe { raw::recorder_remove_at(words, len, *at) }.store(at).found()
    }

    /// Pointer and length for a call, which may write through cells.
    fn lend(&self) -> (*mut u32, usize) {
        (self.words.as_ptr() as *mut u32, self.words.len())
    }
}

/// Prints as a [`Pool`](crate::Pool) does, or `not a sound pool`.
impl fmt::Debug for Shared<'_> {
    fn fmt(&self, f: &mut fmt::Formatter<'_>) -> fmt::Result {
        if !self.check() {
            return f.write_str("not a sound pool");
        }
        let words: Vec<u32> = self.words.iter().map(Cell::get).collect();
        Layout(&words).write_pool(f)
    }
}
