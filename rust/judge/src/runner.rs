//! Runs calls on the crate, one after the other, and looks at everything after each.

use crate::calls::{Answer, CURSORS, Call, Cursor, LEVELS, Op};
use crate::cases;
use crate::decode;
use crate::lists::List;
use crate::sound;
use crate::view::{self, Node, Tree};
use cranelift_bforest::probe::{Bench, Held, PathParts};
use std::collections::BTreeMap;
use std::ops::Bound;

/// A call, the cursor handed in, and what there was afterwards. A call by key has no cursor: its
/// two are off the end.
pub struct Step {
    pub call: Call,
    pub before: Cursor,
    pub answer: Answer,
    pub after: Cursor,
    pub fold: u32,
    pub shape: u32,
    pub cases: u32,
}

/// Why a call was not made, or not finished.
#[derive(Debug, PartialEq, Eq)]
pub enum Stop {
    /// There is no such tree.
    NoTree,
    /// The kept cursor does not stand in its tree any more; the crate is not called.
    NotStanding,
    /// The crate ran out of nodes; the tree may be damaged.
    NoRoom,
}

/// T maps in a pool of N nodes, with a plain sorted map beside each.
pub struct Runner {
    bench: Bench,
    room: usize,
    trees: Vec<Tree>,
    words: Vec<u32>,
    plain: Vec<BTreeMap<u32, u32>>,
    /// Was the pool made, and not formatted? It may then have what no calls lead to.
    made: bool,
}

impl Runner {
    /// A fresh pool. The bound on nodes holds for this thread until the next one is made.
    pub fn new(trees: usize, room: usize) -> Self {
        cranelift_entity::set_room(room);
        let bench = Bench::new(trees, CURSORS);
        let trees = vec![Tree::default(); trees];
        let words = view::words(&bench, &trees, room);
        let plain = vec![BTreeMap::new(); trees.len()];
        Self { bench, room, trees, words, plain, made: false }
    }

    /// The pool that a list begins with.
    pub fn of(list: &List) -> Self {
        match &list.start {
            Some(words) => Self::made(words),
            None => Self::new(list.trees, list.nodes),
        }
    }

    /// The pool of these words, which must be sound.
    pub fn made(words: &[u32]) -> Self {
        let (count, room, _) = decode::counts(words);
        cranelift_entity::set_room(room);
        let crates = |n: &u32| n.checked_sub(1);
        let roots: Vec<Option<u32>> = (0..count).map(|t| crates(&decode::root(words, t))).collect();
        let nodes: Vec<Held> = (1..=room as u32).map(|n| held(words, n)).collect();
        let free: Vec<u32> = decode::stack(words).iter().rev().filter_map(crates).collect();
        let mut out = Self::new(count, room);
        out.bench = Bench::made(&roots, &nodes, &free, CURSORS);
        out.look(count);
        out.plain = out.trees.iter().map(|t| t.pairs().into_iter().collect()).collect();
        out.made = true;
        assert_eq!(out.words, words, "the crate's nodes make other words");
        out
    }

    /// The pool's words now.
    pub fn words(&self) -> &[u32] {
        &self.words
    }

    /// A tree now.
    pub fn tree(&self, tree: usize) -> &Tree {
        &self.trees[tree]
    }

    /// One of a tree's cursors, cleaned.
    pub fn cursor(&self, tree: usize, which: usize) -> Cursor {
        clean(&self.bench.cursor(tree, which))
    }

    /// Are there the nodes that a call on one of the trees needs, by document 01?
    pub fn has_room(&self, call: &Call) -> bool {
        let absent = !self.plain[call.tree].contains_key(&call.key);
        let free = self.words[self.trees.len() + 2 + 16 * self.room] as usize;
        call.op != Op::Put || !absent || self.trees[call.tree].need(call.key) <= free
    }

    /// Does the crate, asked on a copy of its nodes, run out of them in this put?
    pub fn runs_out(&self, call: &Call) -> bool {
        self.bench.copy().put(call.tree, call.key, call.value).is_err()
    }

    /// Makes one call.
    pub fn call(&mut self, call: Call) -> Result<Step, Stop> {
        if call.tree >= self.trees.len() {
            return Err(Stop::NoTree);
        }
        let kept = self.cursor(call.tree, call.which);
        let by_key = call.op.by_key();
        if !by_key && !call.op.starts() && !self.trees[call.tree].holds(&kept) {
            return Err(Stop::NotStanding);
        }
        let from = self.spot(call.tree, &kept);
        let gone = match (call.op, from) {
            (Op::Remove, _) if self.plain[call.tree].contains_key(&call.key) => Some(call.key),
            (Op::RemoveAt, Spot::On(key)) => Some(key),
            _ => None,
        };
        let answer = self.ask(call)?;
        let before = std::mem::take(&mut self.trees);
        self.look(before.len());
        self.compare_answer(&call, from, gone, &answer);
        if !by_key {
            self.compare_cursor(&call, from, gone, &answer);
        }
        self.compare_pool(&call);
        let (old, new) = (&before[call.tree], &self.trees[call.tree]);
        let need = if call.op == Op::Put && !answer.found { old.need(call.key) } else { 0 };
        assert!(gone.is_some() || new.nodes() == old.nodes() + need, "{call}: other need");
        let cases = match (call.op, gone) {
            (Op::Put, _) if !answer.found => cases::of_put(&call, old, new),
            (_, Some(key)) => cases::of_remove(key, old, new),
            _ => 0,
        };
        let cursors =
            if by_key { Default::default() } else { (kept, self.cursor(call.tree, call.which)) };
        Ok(Step {
            call,
            before: if call.op.starts() { Cursor::default() } else { cursors.0 },
            answer,
            after: cursors.1,
            fold: view::fold(&self.words),
            shape: view::shape_fold(&self.trees),
            cases,
        })
    }

    /// Calls the crate.
    fn ask(&mut self, call: Call) -> Result<Answer, Stop> {
        let Call { op, tree, which, key, value } = call;
        let bench = &mut self.bench;
        Ok(match op {
            Op::Put => Answer::value(bench.put(tree, key, value).map_err(|_| Stop::NoRoom)?),
            Op::Remove => Answer::value(bench.remove(tree, key)),
            Op::Get => Answer::value(bench.get(tree, key)),
            Op::Seek => Answer::value(bench.seek(tree, which, key)),
            Op::Settle => {
                bench.settle(tree, which);
                Answer::value(None)
            }
            Op::First => Answer::pair(bench.first(tree, which)),
            Op::Next => Answer::pair(bench.next(tree, which)),
            Op::Prev => Answer::pair(bench.prev(tree, which)),
            Op::RemoveAt => Answer::value(bench.remove_at(tree, which)),
        })
    }

    /// Reads all trees and the words out of the crate.
    fn look(&mut self, trees: usize) {
        self.trees = (0..trees).map(|t| view::tree(&self.bench, self.bench.root(t))).collect();
        self.words = view::words(&self.bench, &self.trees, self.room);
    }

    /// Where a cursor that stands in its tree points.
    fn spot(&self, tree: usize, cursor: &Cursor) -> Spot {
        let Some(level) = cursor.size.checked_sub(1) else { return Spot::End };
        let mut leaves = self.trees[tree].height(0).iter();
        let Some(leaf) = leaves.find(|n| n.number == cursor.nodes[level]) else { return Spot::End };
        match leaf.keys.get(cursor.places[level] as usize) {
            Some(key) => Spot::On(*key),
            None => Spot::Past(leaf.keys[leaf.keys.len() - 1]),
        }
    }

    /// Holds the crate's answer against the plain map, which it changes likewise.
    fn compare_answer(&mut self, call: &Call, from: Spot, gone: Option<u32>, answer: &Answer) {
        let map = &mut self.plain[call.tree];
        let expected = match call.op {
            Op::Put => Answer::value(map.insert(call.key, call.value)),
            Op::Get | Op::Seek => Answer::value(map.get(&call.key).copied()),
            Op::Remove | Op::RemoveAt => Answer::value(gone.and_then(|k| map.remove(&k))),
            Op::Settle => Answer::value(None),
            Op::First => Answer::pair(map.iter().next().map(plain_pair)),
            Op::Next => Answer::pair(after(map, from)),
            Op::Prev => Answer::pair(match from {
                Spot::End => map.iter().next_back().map(plain_pair),
                Spot::On(k) => map.range(..k).next_back().map(plain_pair),
                Spot::Past(k) => map.get_key_value(&k).map(plain_pair),
            }),
        };
        assert_eq!(*answer, expected, "{call}: the plain map answers otherwise");
    }

    /// Holds the moved cursor against document 01.
    fn compare_cursor(&self, call: &Call, from: Spot, gone: Option<u32>, answer: &Answer) {
        let cursor = self.cursor(call.tree, call.which);
        assert!(self.trees[call.tree].holds(&cursor), "{call}: the cursor does not stand");
        let to = self.spot(call.tree, &cursor);
        let map = &self.plain[call.tree];
        let next = |k| after(map, k).map_or(Spot::End, |(key, _)| Spot::On(key));
        let fine = match call.op {
            Op::Seek if answer.found => to == Spot::On(call.key),
            Op::Seek => match to {
                Spot::End => map.is_empty(),
                Spot::On(k) => call.key < k && map.range(call.key..k).next().is_none(),
                Spot::Past(k) => k < call.key && map.range(k + 1..=call.key).next().is_none(),
            },
            Op::Settle => to == if matches!(from, Spot::Past(_)) { next(from) } else { from },
            Op::First | Op::Next if !answer.found => to == Spot::End,
            Op::Prev if !answer.found => to == from,
            Op::RemoveAt => to == gone.map_or(from, |k| next(Spot::On(k))),
            _ => to == Spot::On(answer.key),
        };
        assert!(fine, "{call}: the cursor stands at {to:?}");
    }

    /// Holds all pairs against the plain maps, and the words against document 01's sound pools. In
    /// trees that the crate builds from none a leaf that is not the last has 4 entries or more.
    fn compare_pool(&self, call: &Call) {
        for (tree, map) in self.trees.iter().zip(&self.plain) {
            assert!(tree.pairs().into_iter().eq(map.iter().map(plain_pair)), "{call}: other pairs");
            let small = tree.height(0).iter().rev().skip(1).any(|leaf| leaf.keys.len() < 4);
            assert!(!small || self.made, "{call}: a leaf of 3 off the right end");
        }
        if let Err(why) = sound::check(&self.words) {
            panic!("{call}: {why}");
        }
    }
}

/// Where a cursor points: off the end, on a key, or past a leaf's last key.
#[derive(Clone, Copy, Debug, PartialEq, Eq)]
enum Spot {
    End,
    On(u32),
    Past(u32),
}

/// A pair by value.
fn plain_pair((key, value): (&u32, &u32)) -> (u32, u32) {
    (*key, *value)
}

/// The least pair above a spot's key.
fn after(map: &BTreeMap<u32, u32>, spot: Spot) -> Option<(u32, u32)> {
    match spot {
        Spot::End => None,
        Spot::On(k) | Spot::Past(k) => {
            map.range((Bound::Excluded(k), Bound::Unbounded)).next().map(plain_pair)
        }
    }
}

/// A node of the words as the crate holds it.
fn held(words: &[u32], number: u32) -> Held {
    match decode::node(words, number) {
        Ok(Node { leaf: true, keys, items, .. }) => Held::Leaf(keys, items),
        Ok(Node { keys, items, .. }) => Held::Inner(keys, items.iter().map(|n| n - 1).collect()),
        Err(_) => Held::Free,
    }
}

/// A path in our numbers, unused levels 0.
fn clean(path: &PathParts) -> Cursor {
    let mut out = Cursor { size: path.size, ..Cursor::default() };
    assert!(path.size <= LEVELS);
    for l in 0..path.size {
        out.nodes[l] = path.nodes[l] + 1;
        out.places[l] = path.places[l].into();
    }
    out
}
