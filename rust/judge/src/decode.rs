//! Words read by document 01's layout.

use crate::view::{Node, Tree};

/// The number of trees, of nodes, and of free nodes.
pub fn counts(words: &[u32]) -> (usize, usize, usize) {
    let trees = words[0] as usize;
    let nodes = words[trees + 1] as usize;
    (trees, nodes, words[trees + 2 + 16 * nodes] as usize)
}

/// The root of a tree; 0 if it is empty.
pub fn root(words: &[u32], tree: usize) -> u32 {
    words[1 + tree]
}

/// One node, or what is wrong with it.
pub fn node(words: &[u32], number: u32) -> Result<Node, String> {
    let (trees, nodes, _) = counts(words);
    if number == 0 || number as usize > nodes {
        return Err(format!("{number} names no node"));
    }
    let at = trees + 2 + 16 * (number as usize - 1);
    let held = &words[at..at + 16];
    let (leaf, size) = match held[0] {
        head @ 16..=23 => (false, head as usize - 16),
        head @ 33..=39 => (true, head as usize - 32),
        head => return Err(format!("node {number} in a tree begins with {head}")),
    };
    let items = if leaf { size } else { size + 1 };
    let (keys, items) = (held[1..1 + size].to_vec(), held[8..8 + items].to_vec());
    Ok(Node { number, leaf, keys, items })
}

/// A tree as its levels, the root's first; an error if the words hold none there.
pub fn tree(words: &[u32], tree: usize) -> Result<Tree, String> {
    let (_, nodes, _) = counts(words);
    let mut rows: Vec<Vec<Node>> = Vec::new();
    let mut numbers: Vec<u32> = Some(root(words, tree)).filter(|n| *n != 0).into_iter().collect();
    let mut met = 0;
    while !numbers.is_empty() {
        met += numbers.len();
        if met > nodes {
            return Err("a tree has more nodes than the pool".to_string());
        }
        let row: Vec<Node> = numbers.iter().map(|n| node(words, *n)).collect::<Result<_, _>>()?;
        if row.iter().any(|n| n.leaf != row[0].leaf) {
            return Err("leaves at two depths".to_string());
        }
        numbers = row.iter().filter(|n| !n.leaf).flat_map(|n| n.items.clone()).collect();
        rows.push(row);
    }
    Ok(Tree { rows })
}

/// The free nodes, top last.
pub fn stack(words: &[u32]) -> &[u32] {
    let (trees, nodes, free) = counts(words);
    &words[trees + 3 + 16 * nodes..][..free]
}
