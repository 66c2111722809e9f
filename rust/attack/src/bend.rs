//! Sound pools bent in one rule: words that keep nearly all of document 01, so that a check has to look closely.

use crate::sound::{Node, Pool, Tree};
use crate::source::Source;

/// Where the nodes of words start, for a bend that no rows can tell.
fn node_at(pool: &Pool, number: u32) -> usize {
    pool.trees.len() + 2 + 16 * (number as usize - 1)
}

/// Some row of a tree and some node of it.
fn some_node(source: &mut Source, tree: &Tree) -> (usize, usize) {
    let level = source.below(tree.rows.len());
    (level, source.below(tree.rows[level].len()))
}

/// Two keys of a leaf, or of neighbouring leaves, stand in the wrong order or are the same.
fn keys(source: &mut Source, tree: &mut Tree) {
    let bottom = tree.rows.len() - 1;
    let leaf = source.below(tree.rows[bottom].len());
    let items = &mut tree.rows[bottom][leaf].items;
    let last = items.len() - 1;
    let at = source.within(1.min(last), last);
    match source.below(3) {
        0 => items[at].0 = items[at.saturating_sub(1)].0,
        1 => items[at].0 = items[at].0.wrapping_sub(source.below(4) as u32),
        _ => items.swap(at, at.saturating_sub(1)),
    }
}

/// An inner key is beside the smallest key below, or one of the keys near it.
fn separator(source: &mut Source, tree: &mut Tree) {
    if tree.rows.len() == 1 {
        return;
    }
    let level = source.below(tree.rows.len() - 1);
    let index = source.below(tree.rows[level].len());
    let items = &mut tree.rows[level][index].items;
    let at = source.below(items.len());
    items[at].0 = match source.below(3) {
        0 => items[at].0.wrapping_add(1),
        1 => items[at].0.wrapping_sub(1),
        _ => items[source.below(items.len())].0,
    };
}

/// Items go from a node to its right neighbour: the left may be less than half full, and all else is kept.
fn half_full(source: &mut Source, tree: &mut Tree) {
    if tree.rows.len() == 1 {
        return;
    }
    let level = source.within(1, tree.rows.len() - 1);
    let capacity = if level + 1 == tree.rows.len() { 7 } else { 8 };
    let row = &mut tree.rows[level];
    let index = source.below(row.len().saturating_sub(1).max(1));
    if index + 1 == row.len() {
        return;
    }
    let room = capacity - row[index + 1].items.len();
    let most = room.min(row[index].items.len() - 1);
    let count = if source.once_in(2) { most } else { source.below(most + 1) };
    let from = row[index].items.len() - count;
    let moved = row[index].items.split_off(from);
    row[index + 1].items.splice(0..0, moved);
    tree.refresh();
}

/// A new root over the old one, its only child.
fn root(pool: &mut Pool, number: usize) {
    let tree = &mut pool.trees[number];
    if let Some(taken) = pool.free.pop() {
        let below = &tree.rows[0][0];
        let root = Node { number: taken, items: vec![(below.items[0].0, below.number)] };
        tree.rows.insert(0, vec![root]);
    }
}

/// Two children of an inner node change places, with their keys or without.
fn children(source: &mut Source, tree: &mut Tree) {
    let (level, index) = some_node(source, tree);
    let items = &mut tree.rows[level][index].items;
    let (one, other) = (source.below(items.len()), source.below(items.len()));
    items.swap(one, other);
    if source.once_in(2) {
        let key = items[one].0;
        items[one].0 = items[other].0;
        items[other].0 = key;
    }
}

/// An inner node of one child comes between the last leaf and its parent: the leaf is one level deeper.
fn depth(pool: &Pool, tree: &Tree, words: &mut [u32]) {
    let levels = tree.rows.len();
    let Some(&taken) = pool.free.last() else { return };
    if levels < 2 {
        return;
    }
    let parent = &tree.rows[levels - 2][tree.rows[levels - 2].len() - 1];
    let child = node_at(pool, parent.number) + 8 + parent.items.len() - 1;
    let new = node_at(pool, taken);
    words[new] = 16;
    words[new + 8] = words[child];
    words[child] = taken;
    let stack = pool.trees.len() + 2 + 16 * pool.nodes;
    words[stack] -= 1;
    words[stack + pool.free.len()] = 0;
}

/// A number that names a node names another: a child, a root or a free one.
fn number(source: &mut Source, pool: &Pool, tree: &Tree, words: &mut [u32]) {
    let (level, index) = some_node(source, tree);
    let node = &tree.rows[level][index];
    let (other_level, other) = some_node(source, tree);
    let wrong = match source.below(3) {
        0 => tree.rows[other_level][other].number,
        1 => pool.free.first().copied().unwrap_or(1),
        _ => source.within(1, pool.nodes) as u32,
    };
    let stack = pool.trees.len() + 2 + 16 * pool.nodes;
    let at = match source.below(4) {
        0 => 1 + source.below(pool.trees.len()),
        1 if !pool.free.is_empty() => stack + 1 + source.below(pool.free.len()),
        _ if level + 1 < tree.rows.len() => {
            node_at(pool, node.number) + 8 + source.below(node.items.len())
        }
        _ => return,
    };
    words[at] = wrong;
}

/// Roots or children that are all one node: its own number, a child's or the root's, which would be walked again and again.
pub fn tangle(source: &mut Source, pool: &Pool, tree: &Tree, words: &mut [u32]) {
    let (level, index) = some_node(source, tree);
    let node = &tree.rows[level][index];
    let root = tree.rows[0][0].number;
    if level + 1 == tree.rows.len() {
        words[1..=pool.trees.len()].fill(root);
        return;
    }
    let to = source.pick(&[node.items[0].1, node.items[node.items.len() - 1].1, node.number, root]);
    let from = node_at(pool, node.number) + 8 + source.below(node.items.len());
    words[from..node_at(pool, node.number) + 8 + node.items.len()].fill(to);
}

/// A free node leaves the stack and is nowhere, or is in it twice.
fn stack(source: &mut Source, pool: &mut Pool) {
    if pool.free.is_empty() {
        return;
    }
    let at = source.below(pool.free.len());
    match source.below(3) {
        0 => drop(pool.free.remove(at)),
        1 => pool.free[at] = pool.free[0],
        _ => pool.free[at] = source.below(pool.nodes + 2) as u32,
    }
}

/// A place that is not in use holds a number.
fn zeros(source: &mut Source, words: &mut [u32]) {
    let from = source.below(words.len());
    if let Some(word) = words[from..].iter_mut().find(|word| **word == 0) {
        *word = source.pick(&[1, 2, u32::MAX]);
    }
}

/// The words of a sound pool bent in one rule; of one without pairs, only its stack or its zeros are.
pub fn words(source: &mut Source, mut pool: Pool) -> Vec<u32> {
    let full: Vec<usize> =
        (0..pool.trees.len()).filter(|&t| !pool.trees[t].rows.is_empty()).collect();
    let what = if full.is_empty() { source.below(2) } else { source.below(10) };
    let t = if full.is_empty() { 0 } else { source.pick(&full) };
    let whole = pool.clone();
    match what {
        0 => stack(source, &mut pool),
        2 => keys(source, &mut pool.trees[t]),
        3 => {
            keys(source, &mut pool.trees[t]);
            pool.trees[t].refresh();
        }
        4 => separator(source, &mut pool.trees[t]),
        5 => half_full(source, &mut pool.trees[t]),
        6 => root(&mut pool, t),
        7 => children(source, &mut pool.trees[t]),
        _ => {}
    }
    let mut words = pool.words();
    match what {
        1 => zeros(source, &mut words),
        8 => depth(&whole, &whole.trees[t], &mut words),
        9 if source.once_in(2) => number(source, &whole, &whole.trees[t], &mut words),
        9 => tangle(source, &whole, &whole.trees[t], &mut words),
        _ => {}
    }
    words
}
