//! Where a cursor stands, by document 01, on our words.

use crate::ours::Mark;
use judge::calls::LEVELS;
use judge::decode::{node, root};

/// Does a cursor stand in its tree, which is there, by document 01?
pub fn stands(words: &[u32], at: &Mark) -> bool {
    let size = at.size as usize;
    let clean = |l: usize| at.nodes[l] == 0 && at.places[l] == 0;
    if size > LEVELS || !(size..LEVELS).all(clean) {
        return false;
    }
    let mut wanted = root(words, at.tree as usize);
    for l in 0..size {
        let place = at.places[l] as usize;
        let Ok(node) = node(words, wanted) else { return false };
        if at.nodes[l] != wanted {
            return false;
        }
        if node.leaf {
            return l + 1 == size && place <= node.keys.len();
        }
        let Some(child) = node.items.get(place) else { return false };
        wanted = *child;
    }
    size == 0
}
