//! The layout of document 01, read: T, the roots, N, the nodes, F, the stack.

use std::fmt;

/// Words of a node.
const NODE: usize = 16;

/// Word 0 of an inner node and of a leaf is this and its number of keys.
const INNER: u32 = 16;
const LEAF: u32 = 32;

/// Where the children of an inner node start.
const CHILDREN: usize = 8;

/// How many words a pool of so many trees and nodes has: T + 17N + 3. T is 1 to 32, N is 0 to 512;
/// formatting refuses others.
///
/// ```
/// assert_eq!(recorder::words_for(1, 2), 38);
/// ```
pub const fn words_for(trees: u32, nodes: u32) -> usize {
    trees as usize + 17 * nodes as usize + 3
}

/// The words of a sound pool, to be read.
#[derive(Clone, Copy)]
pub struct Layout<'a>(pub &'a [u32]);

impl<'a> Layout<'a> {
    /// T.
    pub fn trees(self) -> u32 {
        self.0[0]
    }

    /// N.
    pub fn nodes(self) -> u32 {
        self.0[self.trees() as usize + 1]
    }

    /// The free nodes as a stack, top last.
    pub fn stack(self) -> &'a [u32] {
        let (count, rest) = self.0[self.node_at(self.nodes() + 1)..].split_at(1);
        &rest[..count[0] as usize]
    }

    /// Where a node starts; nodes are numbered from 1.
    fn node_at(self, number: u32) -> usize {
        self.trees() as usize + 2 + NODE * (number as usize - 1)
    }

    fn node(self, number: u32) -> Node<'a> {
        let at = self.node_at(number);
        Node(&self.0[at..at + NODE])
    }

    /// The levels of a tree, the root's first, each from left to right.
    fn levels(self, tree: u32) -> Vec<Vec<Node<'a>>> {
        let root = self.0[1 + tree as usize];
        let mut numbers = if root == 0 { Vec::new() } else { vec![root] };
        let mut levels = Vec::new();
        while !numbers.is_empty() {
            let level: Vec<Node> = numbers.iter().map(|n| self.node(*n)).collect();
            numbers = level.iter().flat_map(|n| n.children()).copied().collect();
            levels.push(level);
        }
        levels
    }

    /// Writes a tree: its leaves from left to right, then the separators of each level above.
    pub fn write_tree(self, tree: u32, f: &mut fmt::Formatter<'_>) -> fmt::Result {
        let mut levels = self.levels(tree).into_iter().rev();
        let Some(leaves) = levels.next() else { return f.write_str("empty") };
        write_level(&leaves, f)?;
        for level in levels {
            // A node that is not the last of its level has 3 keys at least.
            let several = level[0].keys().len() > 1;
            f.write_str(if several { ", separators " } else { ", separator " })?;
            write_level(&level, f)?;
        }
        Ok(())
    }

    /// Writes every tree and the number of free nodes; the long form has a line each, and the stack.
    pub fn write_pool(self, f: &mut fmt::Formatter<'_>) -> fmt::Result {
        let between = if f.alternate() { "\n" } else { "; " };
        for tree in 0..self.trees() {
            write!(f, "tree {tree}: ")?;
            self.write_tree(tree, f)?;
            f.write_str(between)?;
        }
        write!(f, "F = {} of {}", self.stack().len(), self.nodes())?;
        if f.alternate() && !self.stack().is_empty() {
            f.write_str(", stack ")?;
            write_list(self.stack(), f)?;
        }
        Ok(())
    }
}

/// The 16 words of a node.
struct Node<'a>(&'a [u32]);

impl<'a> Node<'a> {
    fn keys(&self) -> &'a [u32] {
        let tag = if self.is_leaf() { LEAF } else { INNER };
        &self.0[1..][..(self.0[0] - tag) as usize]
    }

    fn children(&self) -> &'a [u32] {
        let count = if self.is_leaf() { 0 } else { self.keys().len() + 1 };
        &self.0[CHILDREN..][..count]
    }

    fn is_leaf(&self) -> bool {
        self.0[0] > LEAF
    }
}

/// The keys of each node of a level; `-` where a node has none, which is an only child's parent.
fn write_level(level: &[Node<'_>], f: &mut fmt::Formatter<'_>) -> fmt::Result {
    for (i, node) in level.iter().enumerate() {
        if i > 0 {
            f.write_str(" / ")?;
        }
        if node.keys().is_empty() {
            f.write_str("-")?;
        }
        write_list(node.keys(), f)?;
    }
    Ok(())
}

/// Numbers with commas between them.
fn write_list(numbers: &[u32], f: &mut fmt::Formatter<'_>) -> fmt::Result {
    for (i, number) in numbers.iter().enumerate() {
        if i > 0 {
            f.write_str(",")?;
        }
        write!(f, "{number}")?;
    }
    Ok(())
}
