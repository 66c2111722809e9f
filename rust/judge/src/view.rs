//! Trees as rows, the pool's words as document 01 lays them out, and folds over them.

use crate::calls::Cursor;
use cranelift_bforest::probe::{Bench, Held};

/// A node of a tree: its items are child numbers or values.
#[derive(Clone, Debug, PartialEq, Eq)]
pub struct Node {
    pub number: u32,
    pub leaf: bool,
    pub keys: Vec<u32>,
    pub items: Vec<u32>,
}

impl Node {
    /// Word 0 of the node.
    fn head(&self) -> u32 {
        (if self.leaf { 32 } else { 16 }) + self.keys.len() as u32
    }
}

/// A tree as its levels, the root's first, each from left to right.
#[derive(Clone, Debug, Default, PartialEq, Eq)]
pub struct Tree {
    pub rows: Vec<Vec<Node>>,
}

impl Tree {
    /// The root's number, 0 in an empty tree.
    pub fn root(&self) -> u32 {
        self.rows.first().map_or(0, |row| row[0].number)
    }

    /// The leaf row, joined.
    pub fn pairs(&self) -> Vec<(u32, u32)> {
        let leaves = self.rows.last().map_or(&[][..], |row| row);
        let pairs = leaves.iter().flat_map(|n| n.keys.iter().zip(&n.items));
        pairs.map(|(k, v)| (*k, *v)).collect()
    }

    /// The row at a height, leaves at 0.
    pub fn height(&self, h: usize) -> &[Node] {
        self.rows.len().checked_sub(h + 1).map_or(&[], |l| &self.rows[l])
    }

    /// For each height the index in its row of the node that a key leads to.
    pub fn way(&self, key: u32) -> Vec<usize> {
        let mut at = 0;
        let mut way = Vec::new();
        for (level, row) in self.rows.iter().enumerate() {
            way.push(at);
            if level + 1 < self.rows.len() {
                let before: usize = row[..at].iter().map(|n| n.items.len()).sum();
                at = before + row[at].keys.iter().filter(|k| **k <= key).count();
            }
        }
        way.reverse();
        way
    }

    /// Number of nodes.
    pub fn nodes(&self) -> usize {
        self.rows.iter().map(Vec::len).sum()
    }

    /// The nodes that a put of an absent key needs, by document 01.
    pub fn need(&self, key: u32) -> usize {
        let way = self.way(key);
        let full = |h: &usize| self.height(*h)[way[*h]].keys.len() == 7;
        let cut = (0..way.len()).take_while(full).count();
        if cut == self.rows.len() { cut + 1 } else { cut }
    }

    /// Does a cursor stand here, by document 01?
    pub fn holds(&self, cursor: &Cursor) -> bool {
        if cursor.size == 0 {
            return true;
        }
        if cursor.size != self.rows.len() {
            return false;
        }
        let mut wanted = self.root();
        for (level, row) in self.rows.iter().enumerate() {
            let place = cursor.places[level] as usize;
            let Some(node) = row.iter().find(|n| n.number == wanted) else { return false };
            if cursor.nodes[level] != wanted {
                return false;
            }
            if node.leaf {
                return place <= node.keys.len();
            }
            let Some(child) = node.items.get(place) else { return false };
            wanted = *child;
        }
        false
    }

    /// The new number of each node, counted from 1 in a walk by levels from the root.
    pub fn renamed(&self, number: u32) -> usize {
        let mut all = self.rows.iter().flatten();
        all.position(|n| n.number == number).map_or(0, |i| i + 1)
    }

    /// The levels in text, one line each, nodes renamed.
    pub fn text(&self) -> String {
        let mut out = String::new();
        for (level, row) in self.rows.iter().enumerate() {
            let nodes: Vec<String> = row.iter().map(|n| self.node_text(n)).collect();
            out.push_str(&format!("    level {level}: {}\n", nodes.join(" | ")));
        }
        out
    }

    /// One node in text: `#1 [#2 40 #3]` or `#2 10:1010 20:1020`.
    fn node_text(&self, node: &Node) -> String {
        let mut out = format!("#{}", self.renamed(node.number));
        if node.leaf {
            for (k, v) in node.keys.iter().zip(&node.items) {
                out.push_str(&format!(" {k}:{v}"));
            }
            return out;
        }
        out.push_str(&format!(" [#{}", self.renamed(node.items[0])));
        for (k, child) in node.keys.iter().zip(&node.items[1..]) {
            out.push_str(&format!(" {k} #{}", self.renamed(*child)));
        }
        out + "]"
    }
}

/// Reads a tree out of the crate.
pub fn tree(bench: &Bench, root: Option<u32>) -> Tree {
    let mut rows = Vec::new();
    let mut numbers: Vec<u32> = root.into_iter().map(|n| n + 1).collect();
    while !numbers.is_empty() {
        let row: Vec<Node> = numbers.iter().map(|n| node(bench, *n)).collect();
        assert!(row.iter().all(|n| n.leaf == row[0].leaf), "leaves at two depths");
        let below = row.iter().filter(|n| !n.leaf).flat_map(|n| n.items.clone());
        numbers = below.collect();
        rows.push(row);
    }
    Tree { rows }
}

/// Reads one node, by our number.
fn node(bench: &Bench, number: u32) -> Node {
    match bench.node(number - 1) {
        Held::Inner(keys, children) => {
            let items = children.iter().map(|n| n + 1).collect();
            Node { number, leaf: false, keys, items }
        }
        Held::Leaf(keys, items) => Node { number, leaf: true, keys, items },
        Held::Free => panic!("free node {number} in a tree"),
    }
}

/// The whole pool's words by document 01: T, roots, N, nodes, F, stack.
pub fn words(bench: &Bench, trees: &[Tree], room: usize) -> Vec<u32> {
    let mut out = vec![trees.len() as u32];
    out.extend(trees.iter().map(Tree::root));
    out.push(room as u32);
    let nodes_at = out.len();
    out.resize(nodes_at + 16 * room, 0);
    for n in trees.iter().flat_map(|t| &t.rows).flatten() {
        let at = nodes_at + 16 * (n.number as usize - 1);
        out[at] = n.head();
        out[at + 1..at + 1 + n.keys.len()].copy_from_slice(&n.keys);
        out[at + 8..at + 8 + n.items.len()].copy_from_slice(&n.items);
    }
    let free = stack(bench, room);
    out.push(free.len() as u32);
    out.extend(&free);
    out.resize(nodes_at + 17 * room + 1, 0);
    out
}

/// The free nodes, top last: those never used below, then the crate's list from its end.
fn stack(bench: &Bench, room: usize) -> Vec<u32> {
    let used = bench.used() as u32;
    let mut out: Vec<u32> = (used + 1..=room as u32).rev().collect();
    out.extend(bench.free_list().iter().rev().map(|n| n + 1));
    out
}

/// h starts at 2166136261; for each word h becomes (h xor word) times 16777619, modulo 2^32.
pub fn fold(words: &[u32]) -> u32 {
    words.iter().fold(2166136261, |h, w| (h ^ w).wrapping_mul(16777619))
}

/// The fold of what does not depend on node numbers: for each tree its levels, and for each node
/// from the root's row down word 0, its keys, and in a leaf its values.
pub fn shape_fold(trees: &[Tree]) -> u32 {
    let mut words = Vec::new();
    for tree in trees {
        words.push(tree.rows.len() as u32);
        for n in tree.rows.iter().flatten() {
            words.push(n.head());
            words.extend(&n.keys);
            if n.leaf {
                words.extend(&n.items);
            }
        }
    }
    fold(&words)
}
