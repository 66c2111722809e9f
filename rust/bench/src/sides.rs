//! The four sides that are timed, behind one set of calls: the recorder's cores, its checked calls, the crate, BTreeMap.

use crate::exports::*;
use crate::finding;
use cranelift_bforest::{Map, MapForest};
use std::collections::BTreeMap;

/// Nodes of the recorder's pool.
pub const NODES: u32 = 512;

/// Ordered maps that are filled, asked and emptied.
pub trait Side {
    /// What the tables call it.
    const NAME: &'static str;
    /// As many empty trees.
    fn new(trees: u32) -> Self;
    /// The value of a key.
    fn get(&self, tree: u32, key: u32) -> Option<u32>;
    /// Files a value; the earlier one.
    fn put(&mut self, tree: u32, key: u32, value: u32) -> Option<u32>;
    /// Takes a key out; its value.
    fn remove(&mut self, tree: u32, key: u32) -> Option<u32>;
    /// The pairs of a tree in order.
    fn pairs(&self, tree: u32) -> impl Iterator<Item = (u32, u32)>;
}

/// The recorder's cores: for sound words, with no check.
pub struct Core(Vec<u32>);

/// The recorder's public calls: each checks the pool first.
pub struct Checked(Vec<u32>);

/// The crate: maps in one forest.
pub struct Crate {
    forest: MapForest<u32, u32>,
    maps: Vec<Map<u32, u32>>,
}

/// The standard library's map, one a tree.
pub struct Tree(Vec<BTreeMap<u32, u32>>);

impl Core {
    /// The pool's words.
    pub fn words(&self) -> &[u32] {
        &self.0
    }
}

/// Words of a fresh pool.
fn formatted(trees: u32) -> Vec<u32> {
    let mut words = vec![0; trees as usize + 17 * NODES as usize + 3];
    // SAFETY: pointer and length are the vector's, lent alone for the call; any words will do.
    let answer = unsafe { recorder_format(words.as_mut_ptr(), words.len(), trees, NODES) };
    if answer.number != 0 {
        refused(answer.number);
    }
    words
}

/// A cursor off the end of a tree.
fn off_end(tree: u32) -> Cursor {
    Cursor { tree, size: 0, nodes: [0; 16], places: [0; 16] }
}

/// The value found; no call here is to be refused.
#[inline(always)]
fn found(answer: Answer) -> Option<u32> {
    if answer.number != 0 {
        refused(answer.number);
    }
    (answer.found != 0).then_some(answer.value)
}

#[cold]
fn refused(number: u32) -> ! {
    finding(&format!("the recorder refuses a call with {number}"));
}

/// The recorder with or without the check: the same calls by other names. The words of a side are sound: they are formatted, and
/// only these calls write them.
macro_rules! recorder {
    ($side:ident, $name:expr, $get:ident, $put:ident, $remove:ident, $first:ident, $next:ident) => {
        impl Side for $side {
            const NAME: &'static str = $name;

            fn new(trees: u32) -> Self {
                Self(formatted(trees))
            }

            fn get(&self, tree: u32, key: u32) -> Option<u32> {
                // SAFETY: the words are sound, and lent for the call, which tests the tree number.
                found(unsafe { $get(self.0.as_ptr(), self.0.len(), tree, key) })
            }

            fn put(&mut self, tree: u32, key: u32, value: u32) -> Option<u32> {
                // SAFETY: the words are sound, and lent alone for the call, which tests the tree number.
                found(unsafe { $put(self.0.as_mut_ptr(), self.0.len(), tree, key, value) })
            }

            fn remove(&mut self, tree: u32, key: u32) -> Option<u32> {
                // SAFETY: as for put.
                found(unsafe { $remove(self.0.as_mut_ptr(), self.0.len(), tree, key) })
            }

            fn pairs(&self, tree: u32) -> impl Iterator<Item = (u32, u32)> {
                let (words, len) = (self.0.as_ptr(), self.0.len());
                // SAFETY: the words are sound, and borrowed as long as the iterator is; the call tests the tree number.
                let mut moved = unsafe { $first(words, len, off_end(tree)) };
                std::iter::from_fn(move || {
                    let pair = (moved.answer.found != 0)
                        .then_some((moved.answer.key, moved.answer.value))?;
                    // SAFETY: the same, and the cursor was just handed back, so it stands.
                    moved = unsafe { $next(words, len, moved.cursor) };
                    Some(pair)
                })
            }
        }
    };
}

recorder!(
    Core,
    "core",
    recorder_sound_get,
    recorder_sound_put,
    recorder_sound_remove,
    recorder_sound_first,
    recorder_sound_next
);
recorder!(
    Checked,
    "checked",
    recorder_get,
    recorder_put,
    recorder_remove,
    recorder_first,
    recorder_next
);

impl Side for Crate {
    const NAME: &'static str = "crate";

    fn new(trees: u32) -> Self {
        Self { forest: MapForest::new(), maps: (0..trees).map(|_| Map::new()).collect() }
    }

    fn get(&self, tree: u32, key: u32) -> Option<u32> {
        self.maps[tree as usize].get(key, &self.forest, &())
    }

    fn put(&mut self, tree: u32, key: u32, value: u32) -> Option<u32> {
        self.maps[tree as usize].insert(key, value, &mut self.forest, &())
    }

    fn remove(&mut self, tree: u32, key: u32) -> Option<u32> {
        self.maps[tree as usize].remove(key, &mut self.forest, &())
    }

    fn pairs(&self, tree: u32) -> impl Iterator<Item = (u32, u32)> {
        self.maps[tree as usize].iter(&self.forest)
    }
}

impl Side for Tree {
    const NAME: &'static str = "BTreeMap";

    fn new(trees: u32) -> Self {
        Self((0..trees).map(|_| BTreeMap::new()).collect())
    }

    fn get(&self, tree: u32, key: u32) -> Option<u32> {
        self.0[tree as usize].get(&key).copied()
    }

    fn put(&mut self, tree: u32, key: u32, value: u32) -> Option<u32> {
        self.0[tree as usize].insert(key, value)
    }

    fn remove(&mut self, tree: u32, key: u32) -> Option<u32> {
        self.0[tree as usize].remove(&key)
    }

    fn pairs(&self, tree: u32) -> impl Iterator<Item = (u32, u32)> {
        self.0[tree as usize].iter().map(|(key, value)| (*key, *value))
    }
}
