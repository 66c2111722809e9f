//! Which of the named cases a call reached, seen by comparing the tree before and after it.

use crate::calls::Call;
use crate::view::{Node, Tree};
use std::collections::HashSet;

/// A case: its bit is its place in this table. Lists must reach every case; where the second column
/// says so the short runs must reach it too.
pub const CASES: [(&str, bool); 22] = [
    ("leaf split, entry goes left", true),
    ("leaf split, entry goes right", true),
    ("leaf split, entry first on the right", true),
    ("inner split, child goes left", true),
    ("inner split, child goes right", true),
    ("new root", true),
    ("leaf share, one parent", true),
    ("leaf share, across parents", true),
    ("leaf merge, one parent", true),
    ("leaf merge, across parents", true),
    ("parent's merge", true),
    ("parent's share", true),
    ("emptied right-most leaf, parent stays", true),
    ("emptied right-most leaf with its parent", true),
    ("shrunken root", true),
    ("front key's separator one level up", true),
    ("front key's separator two levels up", true),
    ("front key's separator three levels up", false),
    ("small right-most leaf stays", true),
    ("emptied tree", true),
    ("parent's merge, across grandparents", false),
    ("three or more nodes freed", true),
];

const LEAF_LEFT: usize = 0;
const LEAF_RIGHT: usize = 1;
const LEAF_RIGHT_FIRST: usize = 2;
const INNER_LEFT: usize = 3;
const INNER_RIGHT: usize = 4;
const NEW_ROOT: usize = 5;
const LEAF_SHARE: usize = 6;
const LEAF_SHARE_ACROSS: usize = 7;
const LEAF_MERGE: usize = 8;
const LEAF_MERGE_ACROSS: usize = 9;
const PARENT_MERGE: usize = 10;
const PARENT_SHARE: usize = 11;
const EMPTIED: usize = 12;
const EMPTIED_WITH_PARENT: usize = 13;
const SHRUNKEN: usize = 14;
const FRONT: usize = 15;
const SMALL_STAYS: usize = 18;
const EMPTY_TREE: usize = 19;
const PARENT_MERGE_ACROSS: usize = 20;
const THREE_FREED: usize = 21;

/// The cases, as bits, of a put of an absent key.
pub fn of_put(call: &Call, before: &Tree, after: &Tree) -> u32 {
    let mut bits = 0;
    let known = numbers(before);
    for h in 0..before.rows.len() {
        let row = after.height(h);
        let Some(at) = row.iter().position(|n| !known.contains(&n.number)) else { break };
        bits |= 1 << split_case(call.key, &row[at - 1], &row[at]);
    }
    if !before.rows.is_empty() && after.rows.len() > before.rows.len() {
        bits |= 1 << NEW_ROOT;
    }
    bits
}

/// Where a split put the new entry or child: both halves were of known size before it came.
fn split_case(key: u32, left: &Node, right: &Node) -> usize {
    match (left.leaf, left.items.len() > right.items.len()) {
        (true, _) if left.keys.contains(&key) => LEAF_LEFT,
        (true, _) if right.keys[0] == key => LEAF_RIGHT_FIRST,
        (true, _) => LEAF_RIGHT,
        (false, true) => INNER_LEFT,
        (false, false) => INNER_RIGHT,
    }
}

/// The cases, as bits, of a removal of a present key.
pub fn of_remove(key: u32, before: &Tree, after: &Tree) -> u32 {
    let left = numbers(after);
    let way = before.way(key);
    let mut bits = front_case(key, before, &way);
    for (h, at) in way.iter().enumerate() {
        // The old root goes by shrinking, or with the last pair.
        if before.height(h).len() > 1 {
            bits |= level_case(h, *at, before, after, &left);
        }
    }
    if after.rows.is_empty() {
        bits |= 1 << EMPTY_TREE;
    } else if after.rows.len() < before.rows.len() {
        bits |= 1 << SHRUNKEN;
    }
    if numbers(before).len() >= left.len() + 3 {
        bits |= 1 << THREE_FREED;
    }
    bits
}

/// What happened at one height to the node on the way to the removed key.
fn level_case(h: usize, at: usize, before: &Tree, after: &Tree, left: &HashSet<u32>) -> u32 {
    let row = before.height(h);
    let node = &row[at];
    let gone = !left.contains(&node.number);
    let Some(right) = row.get(at + 1) else {
        return match (h, gone) {
            (0, true) => {
                let parent = before.height(1).last().expect("a leaf row of two has a row above");
                1 << if left.contains(&parent.number) || before.rows.len() == 2 {
                    EMPTIED
                } else {
                    EMPTIED_WITH_PARENT
                }
            }
            (0, false) if now(after, node.number).keys.len() < 4 => 1 << SMALL_STAYS,
            _ => 0,
        };
    };
    let across = parent(before, h, node.number) != parent(before, h, right.number);
    let shared = now(after, right.number).items.len() < right.items.len();
    match (h, gone, shared) {
        (0, true, _) => 1 << if across { LEAF_MERGE_ACROSS } else { LEAF_MERGE },
        (0, false, true) => 1 << if across { LEAF_SHARE_ACROSS } else { LEAF_SHARE },
        (_, true, _) if across => 1 << PARENT_MERGE | 1 << PARENT_MERGE_ACROSS,
        (_, true, _) => 1 << PARENT_MERGE,
        (_, false, true) => 1 << PARENT_SHARE,
        (_, false, false) => 0,
    }
}

/// If the key was the first of its leaf: how far up its separator stood, three or more as three.
fn front_case(key: u32, before: &Tree, way: &[usize]) -> u32 {
    let leaf = &before.height(0)[way[0]];
    if leaf.keys[0] != key || leaf.keys.len() == 1 {
        return 0;
    }
    let up = (1..before.rows.len()).find(|h| before.height(*h)[way[*h]].keys.contains(&key));
    up.map_or(0, |h| 1 << (FRONT + h.min(3) - 1))
}

/// The parent's number of a node at a height.
fn parent(tree: &Tree, h: usize, child: u32) -> Option<u32> {
    let above = tree.height(h + 1).iter();
    above.filter(|n| n.items.contains(&child)).map(|n| n.number).next()
}

/// A node by its number.
fn now(tree: &Tree, number: u32) -> &Node {
    let mut all = tree.rows.iter().flatten();
    all.find(|n| n.number == number).expect("the node is in the tree")
}

/// All node numbers of a tree.
fn numbers(tree: &Tree) -> HashSet<u32> {
    tree.rows.iter().flatten().map(|n| n.number).collect()
}

/// The names of the cases in a set of bits.
pub fn names(bits: u32) -> Vec<&'static str> {
    (0..CASES.len()).filter(|i| bits >> i & 1 == 1).map(|i| CASES[i].0).collect()
}
