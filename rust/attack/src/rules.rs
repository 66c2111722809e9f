//! The steps of document 01 on rows of nodes: put, remove, need, and the words of a pool. A second telling of the rules,
//! written for the comparison; inner keys are not kept but found again from the leaves.

use crate::sound::{Node, Pool, Tree};

/// So many entries or children are healthy.
const HEALTHY: usize = 4;

/// What a node can hold: 8 children, 7 entries.
fn capacity(leaf: bool) -> usize {
    if leaf { 7 } else { 8 }
}

/// Where a pair is, or would be put: the leaf, and the place in it.
#[derive(Clone, Copy, Debug, PartialEq, Eq)]
pub struct Spot {
    pub leaf: usize,
    pub place: usize,
    pub held: Option<u32>,
}

impl Tree {
    pub fn leaves(&self) -> &[Node] {
        self.rows.last().map_or(&[], |row| row)
    }

    /// The sorted list of pairs.
    pub fn pairs(&self) -> Vec<(u32, u32)> {
        self.leaves().iter().flat_map(|leaf| leaf.items.clone()).collect()
    }

    /// Where a key is or belongs, in a tree that is not empty: the last leaf that starts at or below it, else the first.
    pub fn spot(&self, key: u32) -> Spot {
        let leaf = self.leaves().iter().rposition(|leaf| leaf.items[0].0 <= key).unwrap_or(0);
        let items = &self.leaves()[leaf].items;
        let place = items.iter().filter(|pair| pair.0 < key).count();
        let held = items.get(place).filter(|pair| pair.0 == key).map(|pair| pair.1);
        Spot { leaf, place, held }
    }

    /// The parent of a row's node, and its place among that parent's children.
    pub fn parent(&self, level: usize, index: usize) -> (usize, usize) {
        let mut before = 0;
        for (parent, node) in self.rows[level - 1].iter().enumerate() {
            if index < before + node.items.len() {
                return (parent, index - before);
            }
            before += node.items.len();
        }
        panic!("a node below the root has a parent");
    }

    /// Takes the smallest keys of inner items anew from the rows below.
    pub fn refresh(&mut self) {
        for level in (1..self.rows.len()).rev() {
            let (above, below) = self.rows.split_at_mut(level);
            let mut smallest = below[0].iter().map(|node| node.items[0].0);
            for item in above[level - 1].iter_mut().flat_map(|node| &mut node.items) {
                item.0 = smallest.next().expect("each child has its node in the row below");
            }
        }
    }

    /// How many nodes a put of this key takes.
    pub fn need(&self, key: u32) -> usize {
        let Some(top) = self.rows.len().checked_sub(1) else { return 1 };
        let spot = self.spot(key);
        if spot.held.is_some() {
            return 0;
        }
        let (mut need, mut index) = (0, spot.leaf);
        for level in (0..=top).rev() {
            if self.rows[level][index].items.len() < capacity(level == top) {
                return need;
            }
            need += 1;
            if level > 0 {
                index = self.parent(level, index).0;
            }
        }
        need + 1
    }

    /// Files a pair; `take` hands out nodes.
    fn put(&mut self, key: u32, value: u32, mut take: impl FnMut() -> u32) {
        if self.rows.is_empty() {
            self.rows.push(vec![Node { number: take(), items: vec![(key, value)] }]);
            return;
        }
        let Spot { leaf, place, held } = self.spot(key);
        let bottom = self.rows.len() - 1;
        if held.is_some() {
            self.rows[bottom][leaf].items[place].1 = value;
            return;
        }
        let (mut level, mut index, mut place, mut item) = (bottom, leaf, place, (key, value));
        loop {
            let items = &mut self.rows[level][index].items;
            if items.len() < capacity(level == bottom) {
                items.insert(place, item);
                return self.refresh();
            }
            // Of an inner node `place` is right of the child that was cut, and the new one goes where that child goes.
            let (left, goes_left) = if level == bottom {
                if place <= 3 { (3, true) } else { (4, false) }
            } else {
                (4, place <= 4)
            };
            let mut right = items.split_off(left);
            if goes_left {
                items.insert(place, item)
            } else {
                right.insert(place - left, item)
            }
            let number = take();
            let old = self.rows[level][index].number;
            let parent = (level > 0).then(|| self.parent(level, index));
            self.rows[level].insert(index + 1, Node { number, items: right });
            let Some((above, child)) = parent else {
                let root = Node { number: take(), items: vec![(0, old), (0, number)] };
                self.rows.insert(0, vec![root]);
                return self.refresh();
            };
            (level, index, place, item) = (level - 1, above, child + 1, (0, number));
        }
    }

    /// Takes out the pair at a place; answers the freed nodes in their order.
    fn remove(&mut self, leaf: usize, place: usize) -> Vec<u32> {
        let bottom = self.rows.len() - 1;
        let mut freed = Vec::new();
        self.rows[bottom][leaf].items.remove(place);
        let (mut level, mut index) = (bottom, leaf);
        loop {
            let row = &mut self.rows[level];
            let size = row[index].items.len();
            let right = row.get(index + 1).map(|node| node.items.len());
            if size >= HEALTHY || (size > 0 && right.is_none()) {
                break;
            }
            if let Some(right) = right {
                let mut all = row[index].items.clone();
                all.append(&mut row[index + 1].items);
                let stays = if size + right <= capacity(level == bottom) {
                    0
                } else {
                    (size + right).div_ceil(2)
                };
                row[index + 1].items = all.split_off(stays);
                row[index].items = all;
                if stays > 0 {
                    break;
                }
            }
            freed.push(row[index].number);
            if level == 0 {
                self.rows.clear();
                break;
            }
            let (parent, child) = self.parent(level, index);
            self.rows[level].remove(index);
            self.rows[level - 1][parent].items.remove(child);
            (level, index) = (level - 1, parent);
        }
        while self.rows.len() > 1 && self.rows[0][0].items.len() == 1 {
            freed.push(self.rows[0][0].number);
            self.rows.remove(0);
        }
        self.refresh();
        freed
    }
}

impl Pool {
    /// A pool of empty trees.
    pub fn fresh(trees: usize, nodes: usize) -> Pool {
        Pool {
            nodes,
            trees: vec![Tree::default(); trees],
            free: (1..=nodes as u32).rev().collect(),
        }
    }

    /// The pool after a put that has the nodes it needs.
    pub fn put(&self, tree: usize, key: u32, value: u32) -> Pool {
        let mut next = self.clone();
        let Pool { trees, free, .. } = &mut next;
        trees[tree].put(key, value, || free.pop().expect("the need was counted"));
        next
    }

    /// The pool without the pair at a place of a tree.
    pub fn remove(&self, tree: usize, leaf: usize, place: usize) -> Pool {
        let mut next = self.clone();
        let freed = next.trees[tree].remove(leaf, place);
        next.free.extend(freed);
        next
    }

    /// The words of the pool.
    pub fn words(&self) -> Vec<u32> {
        let trees = self.trees.len();
        let mut words = vec![0; trees + 17 * self.nodes + 3];
        words[0] = trees as u32;
        words[trees + 1] = self.nodes as u32;
        for (t, tree) in self.trees.iter().enumerate() {
            words[1 + t] = tree.rows.first().map_or(0, |row| row[0].number);
            for (level, row) in tree.rows.iter().enumerate() {
                let leaf = level + 1 == tree.rows.len();
                for node in row {
                    let from = trees + 2 + 16 * (node.number as usize - 1);
                    node_words(node, leaf, &mut words[from..from + 16]);
                }
            }
        }
        let stack = trees + 2 + 16 * self.nodes;
        words[stack] = self.free.len() as u32;
        words[stack + 1..stack + 1 + self.free.len()].copy_from_slice(&self.free);
        words
    }
}

/// Writes a node into its 16 words, which hold 0.
fn node_words(node: &Node, leaf: bool, w: &mut [u32]) {
    let size = node.items.len() as u32;
    w[0] = if leaf { 32 + size } else { 15 + size };
    for (i, &(key, other)) in node.items.iter().enumerate() {
        if leaf {
            w[1 + i] = key;
        } else if i > 0 {
            w[i] = key;
        }
        w[8 + i] = other;
    }
}
