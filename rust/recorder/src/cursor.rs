//! A place in a tree.

use std::fmt;

/// Levels that a cursor has room for.
const LEVELS: usize = 16;

/// A place in a tree: of each level from the root the node and the place in it. Levels not in use
/// hold 0; size 0 is off the end.
///
/// A cursor borrows nothing. One that is kept across a change is judged by each call anew, by
/// where it points then: it may stand elsewhere, or be refused with
/// [`NoPlace`](crate::Refusal::NoPlace).
#[derive(Clone, Copy, PartialEq, Eq, Hash)]
#[repr(C)]
pub struct Cursor {
    tree: u32,
    size: u32,
    nodes: [u32; LEVELS],
    places: [u32; LEVELS],
}

impl Cursor {
    /// A cursor of a tree, off its end.
    pub const fn of_tree(tree: u32) -> Cursor {
        Cursor::of_parts(tree, 0, [0; LEVELS], [0; LEVELS])
    }

    /// A cursor from its parts, as one that was stored. Any parts may be given: calls refuse a
    /// cursor that does not stand.
    pub const fn of_parts(tree: u32, size: u32, nodes: [u32; 16], places: [u32; 16]) -> Cursor {
        Cursor { tree, size, nodes, places }
    }

    /// The tree's number.
    pub const fn tree(&self) -> u32 {
        self.tree
    }

    /// The levels in use; 0 is off the end.
    pub const fn size(&self) -> u32 {
        self.size
    }

    /// The node of each level, the root's first.
    pub const fn nodes(&self) -> &[u32; 16] {
        &self.nodes
    }

    /// The place in the node of each level.
    pub const fn places(&self) -> &[u32; 16] {
        &self.places
    }
}

/// Prints `tree 0, node 3 place 0, node 1 place 4`, or `tree 0, off the end`. Where a level not in
/// use holds something, or the size is too large, it prints the size and all that the levels hold.
impl fmt::Debug for Cursor {
    fn fmt(&self, f: &mut fmt::Formatter<'_>) -> fmt::Result {
        write!(f, "tree {}", self.tree)?;
        let size = self.size as usize;
        let held = (0..LEVELS).rev().find(|&l| (self.nodes[l], self.places[l]) != (0, 0));
        let held = held.map_or(0, |level| level + 1);
        if size == 0 && held == 0 {
            return f.write_str(", off the end");
        }
        let clean = held <= size && size <= LEVELS;
        if !clean {
            write!(f, ", size {size}")?;
        }
        let levels = self.nodes.iter().zip(&self.places).take(if clean { size } else { held });
        levels.into_iter().try_for_each(|(node, place)| write!(f, ", node {node} place {place}"))
    }
}
