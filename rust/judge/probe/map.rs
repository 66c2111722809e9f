//! Added to the copy by the judge: a forest of maps with some cursors for each, and a look inside.

extern crate std;

use super::{Map, MapCursorRaw, MapForest};
use crate::{Node, NodeData, path, pool};
use std::vec::Vec;
use wasmtime_core::error::OutOfMemory;

pub use crate::path::probe::PathParts;

/// A node as the crate holds it, only the places in use.
pub enum Held {
    /// Keys and child numbers.
    Inner(Vec<u32>, Vec<u32>),
    /// Keys and values.
    Leaf(Vec<u32>, Vec<u32>),
    /// On the free list.
    Free,
}

/// Maps from `u32` to `u32` in one forest, and for each the same number of cursors.
pub struct Bench {
    forest: MapForest<u32, u32>,
    maps: Vec<Map<u32, u32>>,
    cursors: Vec<Vec<MapCursorRaw<u32, u32>>>,
}

impl Bench {
    /// As many empty maps, with so many cursors each, all off the end.
    pub fn new(trees: usize, cursors: usize) -> Self {
        let off = || (0..cursors).map(|_| MapCursorRaw::new()).collect();
        Self {
            forest: MapForest::new(),
            maps: (0..trees).map(|_| Map::new()).collect(),
            cursors: (0..trees).map(|_| off()).collect(),
        }
    }

    /// Maps with these roots in these nodes, of which those in `free` are free, the next to be taken
    /// first. Each map has so many cursors, off the end.
    pub fn made(roots: &[Option<u32>], nodes: &[Held], free: &[u32], cursors: usize) -> Self {
        let mut out = Self::new(roots.len(), cursors);
        let nodes = nodes.iter().map(filled).collect();
        out.forest.nodes = pool::probe::made(nodes, free);
        for (map, root) in out.maps.iter_mut().zip(roots) {
            map.root = root.map(Node).into();
        }
        out
    }

    /// The same maps in nodes of their own, without cursors.
    pub fn copy(&self) -> Self {
        Self {
            forest: MapForest { nodes: pool::probe::copy(&self.forest.nodes) },
            maps: self.maps.clone(),
            cursors: Vec::new(),
        }
    }

    /// `Map::try_insert`.
    pub fn put(&mut self, tree: usize, key: u32, value: u32) -> Result<Option<u32>, OutOfMemory> {
        self.maps[tree].try_insert(key, value, &mut self.forest, &())
    }

    /// `Map::remove`.
    pub fn remove(&mut self, tree: usize, key: u32) -> Option<u32> {
        self.maps[tree].remove(key, &mut self.forest, &())
    }

    /// `Map::get`.
    pub fn get(&self, tree: usize, key: u32) -> Option<u32> {
        self.maps[tree].get(key, &self.forest, &())
    }

    /// `Path::find`; an empty map has no path, so the cursor goes off the end.
    pub fn seek(&mut self, tree: usize, which: usize, key: u32) -> Option<u32> {
        let cursor = &mut self.cursors[tree][which];
        match self.maps[tree].root.expand() {
            Some(root) => cursor.path.find(key, root, &self.forest.nodes, &()),
            None => {
                cursor.goto_end();
                None
            }
        }
    }

    /// `Path::normalize`.
    pub fn settle(&mut self, tree: usize, which: usize) {
        self.cursors[tree][which].path.normalize(&self.forest.nodes);
    }

    /// `Path::first`; in an empty map the cursor goes off the end.
    pub fn first(&mut self, tree: usize, which: usize) -> Option<(u32, u32)> {
        let cursor = &mut self.cursors[tree][which];
        match self.maps[tree].root.expand() {
            Some(root) => Some(cursor.path.first(root, &self.forest.nodes)),
            None => {
                cursor.goto_end();
                None
            }
        }
    }

    /// `Path::next`.
    pub fn next(&mut self, tree: usize, which: usize) -> Option<(u32, u32)> {
        self.cursors[tree][which].next(&self.forest.nodes)
    }

    /// `Path::prev`, in an empty map nothing.
    pub fn prev(&mut self, tree: usize, which: usize) -> Option<(u32, u32)> {
        self.cursors[tree][which].prev(&self.maps[tree].root, &self.forest.nodes)
    }

    /// The cursor's `remove`: `Path::remove` where there is a pair, else nothing.
    pub fn remove_at(&mut self, tree: usize, which: usize) -> Option<u32> {
        self.cursors[tree][which].remove(&mut self.maps[tree].root, &mut self.forest.nodes)
    }

    /// `MapCursor::goto_first`, which leaves the cursor of an empty map as it is.
    pub fn goto_first(&mut self, tree: usize, which: usize) -> Option<u32> {
        self.cursors[tree][which].goto_first(&self.maps[tree].root, &self.forest.nodes)
    }

    /// `MapCursor::goto`, which is find and, for an absent key, normalize.
    pub fn goto(&mut self, tree: usize, which: usize, key: u32) -> Option<u32> {
        self.cursors[tree][which].goto(&self.maps[tree].root, &self.forest.nodes, key, &())
    }

    /// The path of a map's cursor.
    pub fn cursor(&self, tree: usize, which: usize) -> PathParts {
        path::probe::parts(&self.cursors[tree][which].path)
    }

    /// All keys of a leaf, with old data in the places that are not in use.
    pub fn leaf_keys(&self, node: u32) -> [u32; 7] {
        match self.forest.nodes[Node(node)] {
            NodeData::Leaf { keys, .. } => keys,
            _ => panic!("node {node} is no leaf"),
        }
    }

    /// A map's root, as the crate numbers nodes.
    pub fn root(&self, tree: usize) -> Option<u32> {
        self.maps[tree].root.map(|n| n.0)
    }

    /// How many nodes were ever in use.
    pub fn used(&self) -> usize {
        pool::probe::len(&self.forest.nodes)
    }

    /// A node that was ever in use.
    pub fn node(&self, node: u32) -> Held {
        held(&self.forest.nodes[Node(node)])
    }

    /// The free nodes, the next to be taken first.
    pub fn free_list(&self) -> Vec<u32> {
        pool::probe::free_list(&self.forest.nodes)
    }
}

/// Copies the places in use out of a node.
fn held(node: &NodeData<super::MapTypes<u32, u32>>) -> Held {
    match node {
        NodeData::Inner { .. } => {
            let (keys, tree) = node.unwrap_inner();
            Held::Inner(keys.to_vec(), tree.iter().map(|n| n.0).collect())
        }
        NodeData::Leaf { .. } => {
            let (keys, vals) = node.unwrap_leaf();
            Held::Leaf(keys.to_vec(), vals.to_vec())
        }
        NodeData::Free { .. } => Held::Free,
    }
}

/// A node with these places in use; the rest hold 0.
fn filled(held: &Held) -> NodeData<super::MapTypes<u32, u32>> {
    match held {
        Held::Inner(keys, children) => {
            let children: Vec<Node> = children.iter().map(|n| Node(*n)).collect();
            let size = keys.len() as u8;
            NodeData::Inner { size, keys: padded(keys, 0), tree: padded(&children, Node(0)) }
        }
        Held::Leaf(keys, vals) => {
            let size = keys.len() as u8;
            NodeData::Leaf { size, keys: padded(keys, 0), vals: padded(vals, 0) }
        }
        Held::Free => NodeData::Free { next: None },
    }
}

/// Items, and padding up to a fixed number.
fn padded<T: Copy, const N: usize>(items: &[T], with: T) -> [T; N] {
    core::array::from_fn(|i| items.get(i).copied().unwrap_or(with))
}

/// Children of an inner node, entries of a map leaf, levels of a path: the crate's sizes.
pub fn sizes() -> [usize; 3] {
    let keys = <super::MapTypes<u32, u32> as crate::Forest>::splat_key(0);
    [crate::INNER_SIZE, keys.len(), crate::MAX_PATH]
}
