//! Words held alone: checked once, then called without a check.

use crate::layout::Layout;
use crate::raw;
use crate::{Cursor, Found, Met, NotSound, Refusal};
use std::fmt;
use std::iter::FusedIterator;

/// A sound pool over words that nobody else writes while it lives.
///
/// The words are checked when it is opened. Every call leaves a sound pool sound (that is proved of
/// the library), so no later call checks them again. A tree number and a cursor that come from
/// outside are tested by each call.
///
/// ```
/// use recorder::{Found, Pool};
/// let mut words = [0; 38];
/// let mut pool = Pool::format(&mut words, 1, 2)?;
/// assert_eq!(pool.put(0, 9, 100)?, Found::Nothing);
/// assert_eq!(pool.put(0, 9, 100)?, Found::Value(100));
/// assert_eq!(pool.get(0, 9)?, Found::Value(100));
/// # Ok::<(), recorder::Refusal>(())
/// ```
pub struct Pool<'a> {
    /// Sound at the start and the end of every method.
    words: &'a mut [u32],
}

impl<'a> Pool<'a> {
    /// Checks the words and holds them, if they are a sound pool.
    pub fn open(words: &'a mut [u32]) -> Result<Pool<'a>, NotSound> {
        if crate::check(words) {
            Ok(Pool { words })
        } else {
            Err(NotSound)
        }
    }

    /// Makes the words a fresh pool of empty trees, whatever they held. Refused with
    /// [`Refusal::NoFormat`] unless there are exactly [`words_for`](crate::words_for) of them.
    pub fn format(words: &'a mut [u32], trees: u32, nodes: u32) -> Result<Pool<'a>, Refusal> {
        // SAFETY: pointer and length are the slice's, lent for the call; any words will do.
        unsafe { raw::recorder_format(words.as_mut_ptr(), words.len(), trees, nodes) }.done()?;
        Ok(Pool { words })
    }

    /// The words.
    pub fn words(&self) -> &[u32] {
        self.words
    }

    /// Gives the words back.
    pub fn into_words(self) -> &'a mut [u32] {
        self.words
    }

    /// How many trees there are: T.
    pub fn trees(&self) -> u32 {
        Layout(self.words).trees()
    }

    /// How many nodes there are, free ones included: N.
    pub fn nodes(&self) -> u32 {
        Layout(self.words).nodes()
    }

    /// How many nodes are free: F.
    pub fn free(&self) -> u32 {
        Layout(self.words).stack().len() as u32
    }

    /// A tree, to be printed.
    pub fn tree(&self, tree: u32) -> Result<Tree<'_>, Refusal> {
        self.has(tree)?;
        Ok(Tree { words: self.words, tree })
    }

    /// The pairs of a tree, keys rising.
    pub fn iter(&self, tree: u32) -> Result<Pairs<'_>, Refusal> {
        self.has(tree)?;
        Ok(Pairs { words: self.words, at: Cursor::of_tree(tree), begun: false })
    }

    /// The value of a key.
    pub fn get(&self, tree: u32, key: u32) -> Result<Found, Refusal> {
        // SAFETY: the words are sound, and lent for the call, which tests the tree number.
        unsafe { raw::recorder_sound_get(self.words.as_ptr(), self.words.len(), tree, key) }.found()
    }

    /// Files a value under a key and gives the earlier one. Refused with [`Refusal::NoRoom`] if that
    /// needs more nodes than are free.
    pub fn put(&mut self, tree: u32, key: u32, value: u32) -> Result<Found, Refusal> {
        let (words, len) = self.lend();
        // SAFETY: the words are sound, and lent alone for the call, which tests the tree number.
        unsafe { raw::recorder_sound_put(words, len, tree, key, value) }.found()
    }

    /// Removes a key and gives the value it had.
    pub fn remove(&mut self, tree: u32, key: u32) -> Result<Found, Refusal> {
        let (words, len) = self.lend();
        // SAFETY: the words are sound, and lent alone for the call, which tests the tree number.
        unsafe { raw::recorder_sound_remove(words, len, tree, key) }.found()
    }

    /// Goes to the least pair of the cursor's tree; only the tree number is read.
    pub fn first(&self, at: &mut Cursor) -> Result<Met, Refusal> {
        // SAFETY: the words are sound, and lent for the call, which tests the tree number.
        unsafe { raw::recorder_sound_first(self.words.as_ptr(), self.words.len(), *at) }
            .store(at)
            .met()
    }

    /// Goes to a key of the cursor's tree, or to where it would be put, which may be one past a
    /// leaf's last entry; only the tree number is read.
    pub fn seek(&self, at: &mut Cursor, key: u32) -> Result<Found, Refusal> {
        // SAFETY: the words are sound, and lent for the call, which tests the tree number.
        unsafe { raw::recorder_sound_seek(self.words.as_ptr(), self.words.len(), *at, key) }
            .store(at)
            .found()
    }

    /// From one past a leaf's last entry goes to the pair after it, or off the end; otherwise the
    /// cursor stays.
    pub fn settle(&self, at: &mut Cursor) -> Result<(), Refusal> {
        self.stands(at)?;
        // SAFETY: the words are sound, lent for the call, and the cursor stands in them.
        unsafe { raw::recorder_sound_settle(self.words.as_ptr(), self.words.len(), *at) }
            .store(at)
            .done()
    }

    /// Goes to the next pair; off the end there is none.
    pub fn next(&self, at: &mut Cursor) -> Result<Met, Refusal> {
        self.stands(at)?;
        // SAFETY: the words are sound, lent for the call, and the cursor stands in them.
        unsafe { raw::recorder_sound_next(self.words.as_ptr(), self.words.len(), *at) }
            .store(at)
            .met()
    }

    /// Goes to the pair before; from off the end to the last one.
    pub fn prev(&self, at: &mut Cursor) -> Result<Met, Refusal> {
        self.stands(at)?;
        // SAFETY: the words are sound, lent for the call, and the cursor stands in them.
        unsafe { raw::recorder_sound_prev(self.words.as_ptr(), self.words.len(), *at) }
            .store(at)
            .met()
    }

    /// Removes the pair that the cursor is on, gives its value and goes to the next pair. On no
    /// pair nothing is found and nothing changes.
    pub fn remove_at(&mut self, at: &mut Cursor) -> Result<Found, Refusal> {
        self.stands(at)?;
        let (words, len) = self.lend();
        // SAFETY: the words are sound, lent alone for the call, and the cursor stands in them.
        unsafe { raw::recorder_sound_remove_at(words, len, *at) }.store(at).found()
    }

    /// Pointer and length for a call that may write.
    fn lend(&mut self) -> (*mut u32, usize) {
        (self.words.as_mut_ptr(), self.words.len())
    }

    /// Is there a tree of that number?
    fn has(&self, tree: u32) -> Result<(), Refusal> {
        if tree < self.trees() {
            Ok(())
        } else {
            Err(Refusal::NoTree)
        }
    }

    /// Is the cursor's tree there, and does it stand in it?
    fn stands(&self, at: &Cursor) -> Result<(), Refusal> {
        self.has(at.tree())?;
        // SAFETY: the words are sound, lent for the call, and the cursor's tree is there.
        if unsafe { raw::recorder_sound_stands(self.words.as_ptr(), self.words.len(), *at) } {
            Ok(())
        } else {
            Err(Refusal::NoPlace)
        }
    }
}

/// Prints each tree as document 01 writes it, and F; `{:#?}` prints a line each, and the stack.
impl fmt::Debug for Pool<'_> {
    fn fmt(&self, f: &mut fmt::Formatter<'_>) -> fmt::Result {
        Layout(self.words).write_pool(f)
    }
}

/// A tree of a [`Pool`], to be printed: `10,20,30,35 / 40,50,60,70, separator 40`.
///
/// The leaves come first, from left to right, then the separators of each level above them, the
/// lowest first.
#[derive(Clone, Copy)]
pub struct Tree<'p> {
    words: &'p [u32],
    tree: u32,
}

impl fmt::Debug for Tree<'_> {
    fn fmt(&self, f: &mut fmt::Formatter<'_>) -> fmt::Result {
        Layout(self.words).write_tree(self.tree, f)
    }
}

/// The pairs of a tree, keys rising: what [`Pool::iter`] gives.
///
/// It borrows the pool, so nothing changes under its cursor:
///
/// ```compile_fail,E0502
/// # let mut words = [0; 38];
/// # let mut pool = recorder::Pool::format(&mut words, 1, 2)?;
/// for (key, _) in pool.iter(0)? {
///     pool.remove(0, key)?; // the pool is borrowed
/// }
/// # Ok::<(), recorder::Refusal>(())
/// ```
#[derive(Clone)]
pub struct Pairs<'p> {
    /// Sound, with the cursor's tree in them.
    words: &'p [u32],
    /// Stands in the words: off the end at first, then where the library moved it.
    at: Cursor,
    begun: bool,
}

impl Iterator for Pairs<'_> {
    type Item = (u32, u32);

    fn next(&mut self) -> Option<(u32, u32)> {
        let step = if self.begun { raw::recorder_sound_next } else { raw::recorder_sound_first };
        self.begun = true;
        // SAFETY: the words are sound, borrowed from the pool, and the cursor stands in them.
        let moved = unsafe { step(self.words.as_ptr(), self.words.len(), self.at) };
        moved.store(&mut self.at).met().ok()?.pair()
    }
}

impl FusedIterator for Pairs<'_> {}

/// Prints `pairs of tree 0, not begun`, or where it is: `pairs of tree 0, node 3 place 0, node 1 place 4`.
impl fmt::Debug for Pairs<'_> {
    fn fmt(&self, f: &mut fmt::Formatter<'_>) -> fmt::Result {
        if self.begun {
            write!(f, "pairs of {:?}", self.at)
        } else {
            write!(f, "pairs of tree {}, not begun", self.at.tree())
        }
    }
}
