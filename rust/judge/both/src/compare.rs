//! Two trees side by side: levels, node contents and cursor places, with nodes renamed one to one.

use crate::ours::Mark;
use judge::calls::Cursor;
use judge::view::{Node, Tree};

/// Which of the crate's nodes each of ours is, and back; 0 is none yet.
pub struct Names {
    theirs: Vec<u32>,
    ours: Vec<u32>,
}

impl Names {
    /// No names yet, in a pool of so many nodes.
    pub fn new(nodes: usize) -> Names {
        Names { theirs: vec![0; nodes + 1], ours: vec![0; nodes + 1] }
    }

    /// Takes two nodes for the same one, if neither was taken for another.
    fn join(&mut self, ours: u32, theirs: u32) -> Result<(), String> {
        let (a, b) = (ours as usize, theirs as usize);
        let free = self.theirs[a] == 0 && self.ours[b] == 0;
        if !free && (self.theirs[a], self.ours[b]) != (theirs, ours) {
            return Err(format!(
                "node {ours} of ours and {theirs} of the crate's: one has another name"
            ));
        }
        (self.theirs[a], self.ours[b]) = (theirs, ours);
        Ok(())
    }

    /// Walks both trees from the root, level by level, and names each node.
    pub fn trees(&mut self, ours: &Tree, theirs: &Tree) -> Result<(), String> {
        let (a, b) = (ours.rows.len(), theirs.rows.len());
        if a != b {
            return Err(format!("{a} levels, the crate has {b}"));
        }
        for (level, (row, other)) in ours.rows.iter().zip(&theirs.rows).enumerate() {
            if row.len() != other.len() {
                let (a, b) = (row.len(), other.len());
                return Err(format!("{a} nodes at level {level}, the crate has {b}"));
            }
            for (node, same) in row.iter().zip(other) {
                self.join(node.number, same.number)?;
                same_node(node, same).map_err(|why| format!("level {level}: {why}"))?;
            }
        }
        Ok(())
    }

    /// A cursor of ours against the crate's, its nodes by name.
    pub fn cursor(&self, ours: &Mark, theirs: &Cursor) -> Result<(), String> {
        let size = theirs.size;
        let named = |n: u32| self.theirs.get(n as usize).copied().unwrap_or(0);
        let same = |l: usize| {
            named(ours.nodes[l]) == theirs.nodes[l] && ours.places[l] == theirs.places[l]
        };
        if ours.size as usize == size && (0..size).all(same) {
            return Ok(());
        }
        Err(format!("the cursor is at {ours}, the crate's at {theirs}"))
    }
}

/// Kind, keys, and a leaf's values or the number of children; the children are the next level.
fn same_node(ours: &Node, theirs: &Node) -> Result<(), String> {
    let (a, b) = (ours.number, theirs.number);
    let same = ours.leaf == theirs.leaf && ours.keys == theirs.keys;
    let items = ours.items.len() == theirs.items.len();
    if same && items && (!ours.leaf || ours.items == theirs.items) {
        return Ok(());
    }
    Err(format!("node {a} is {}, the crate's {b} is {}", content(ours), content(theirs)))
}

/// What a node holds, in text.
fn content(node: &Node) -> String {
    if node.leaf {
        format!("a leaf of {:?} with {:?}", node.keys, node.items)
    } else {
        format!("inner, keys {:?}, {} children", node.keys, node.items.len())
    }
}
