//! One pool held alone and one shared, called side by side.
#![allow(dead_code)]

use recorder::{check, words_for, Cursor, Found, Met, Pool, Refusal, Shared};
use std::fmt::Debug;

/// What tests file under a key.
pub fn value_of(key: u32) -> u32 {
    1000 + key
}

/// The same pool twice. Each call is made on both: the answers, the words and the cursors must
/// agree, the words stay sound, and a refusal changes nothing.
pub struct Bench {
    alone: Vec<u32>,
    shared: Vec<u32>,
}

impl Bench {
    /// A fresh pool.
    pub fn new(trees: u32, nodes: u32) -> Bench {
        let mut alone = vec![7; words_for(trees, nodes)];
        let mut shared = alone.clone();
        Pool::format(&mut alone, trees, nodes).expect("the format is done");
        Shared::of(&mut shared).format(trees, nodes).expect("the format is done");
        assert_eq!(alone, shared);
        Bench { alone, shared }
    }

    /// A pool of one tree with these keys put.
    pub fn with(nodes: u32, keys: impl IntoIterator<Item = u32>) -> Bench {
        let mut bench = Bench::new(1, nodes);
        for key in keys {
            assert_eq!(bench.put(0, key, value_of(key)), Ok(Found::Nothing), "put {key}");
        }
        bench
    }

    pub fn words(&self) -> &[u32] {
        &self.alone
    }

    pub fn root(&self) -> u32 {
        self.alone[1]
    }

    /// F and the stack words of a pool of one tree.
    pub fn stack(&self) -> &[u32] {
        let nodes = self.alone[2] as usize;
        &self.alone[3 + 16 * nodes..]
    }

    /// A tree in text.
    pub fn text(&mut self, tree: u32) -> String {
        let pool = Pool::open(&mut self.alone).expect("the words are sound");
        format!("{:?}", pool.tree(tree).expect("the tree is there"))
    }

    /// Seek, then remove at the cursor; gives the cursor.
    pub fn take(&mut self, key: u32) -> Cursor {
        let mut at = Cursor::of_tree(0);
        assert_eq!(self.seek(&mut at, key), Ok(Found::Value(value_of(key))));
        assert_eq!(self.remove_at(&mut at), Ok(Found::Value(value_of(key))));
        at
    }

    pub fn get(&mut self, tree: u32, key: u32) -> Result<Found, Refusal> {
        self.both(|pool| pool.get(tree, key), |shared| shared.get(tree, key))
    }

    pub fn put(&mut self, tree: u32, key: u32, value: u32) -> Result<Found, Refusal> {
        self.both(|pool| pool.put(tree, key, value), |shared| shared.put(tree, key, value))
    }

    pub fn remove(&mut self, tree: u32, key: u32) -> Result<Found, Refusal> {
        self.both(|pool| pool.remove(tree, key), |shared| shared.remove(tree, key))
    }

    pub fn first(&mut self, at: &mut Cursor) -> Result<Met, Refusal> {
        self.moved(at, |pool, at| pool.first(at), |shared, at| shared.first(at))
    }

    pub fn seek(&mut self, at: &mut Cursor, key: u32) -> Result<Found, Refusal> {
        self.moved(at, |pool, at| pool.seek(at, key), |shared, at| shared.seek(at, key))
    }

    pub fn settle(&mut self, at: &mut Cursor) -> Result<(), Refusal> {
        self.moved(at, |pool, at| pool.settle(at), |shared, at| shared.settle(at))
    }

    pub fn next(&mut self, at: &mut Cursor) -> Result<Met, Refusal> {
        self.moved(at, |pool, at| pool.next(at), |shared, at| shared.next(at))
    }

    pub fn prev(&mut self, at: &mut Cursor) -> Result<Met, Refusal> {
        self.moved(at, |pool, at| pool.prev(at), |shared, at| shared.prev(at))
    }

    pub fn remove_at(&mut self, at: &mut Cursor) -> Result<Found, Refusal> {
        self.moved(at, |pool, at| pool.remove_at(at), |shared, at| shared.remove_at(at))
    }

    fn both<R: Debug + PartialEq>(
        &mut self,
        alone: impl FnOnce(&mut Pool) -> Result<R, Refusal>,
        shared: impl FnOnce(Shared) -> Result<R, Refusal>,
    ) -> Result<R, Refusal> {
        let before = self.alone.clone();
        let answer = alone(&mut Pool::open(&mut self.alone).expect("the words are sound"));
        assert_eq!(shared(Shared::of(&mut self.shared)), answer);
        assert_eq!(self.shared, self.alone);
        assert!(check(&self.alone));
        assert!(answer.is_ok() || self.alone == before, "a refusal changed words");
        answer
    }

    fn moved<R: Debug + PartialEq>(
        &mut self,
        at: &mut Cursor,
        alone: impl FnOnce(&mut Pool, &mut Cursor) -> Result<R, Refusal>,
        shared: impl FnOnce(Shared, &mut Cursor) -> Result<R, Refusal>,
    ) -> Result<R, Refusal> {
        let (mut one, mut other) = (*at, *at);
        let answer = self.both(|pool| alone(pool, &mut one), |words| shared(words, &mut other));
        assert_eq!(one, other);
        assert!(answer.is_ok() || one == *at, "a refusal moved the cursor");
        *at = one;
        answer
    }
}

/// Tree A.
pub fn a(nodes: u32) -> Bench {
    Bench::with(nodes, (1..=7).map(|k| 10 * k))
}

/// Tree B: A after putting 35.
pub fn b(nodes: u32) -> Bench {
    let mut bench = a(nodes);
    assert_eq!(bench.put(0, 35, value_of(35)), Ok(Found::Nothing));
    bench
}

/// A cursor of tree 0 with these nodes and places.
pub fn cursor(levels: &[(u32, u32)]) -> Cursor {
    let (mut nodes, mut places) = ([0; 16], [0; 16]);
    for (i, (node, place)) in levels.iter().enumerate() {
        nodes[i] = *node;
        places[i] = *place;
    }
    Cursor::of_parts(0, levels.len() as u32, nodes, places)
}
