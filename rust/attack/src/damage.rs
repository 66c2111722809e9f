//! Damages to words and to cursors.

use crate::guard::ROOM;
use crate::raw::Cursor;
use crate::source::Source;

/// Some place of the words: any, or one of those that say much (the head, a node's word 0, the stack).
fn place(source: &mut Source, words: &[u32]) -> usize {
    let trees = words[0] as usize;
    let nodes = words.get(trees + 1).copied().unwrap_or(0) as usize;
    let place = match source.below(4) {
        0 => source.below(trees.min(64) + 2),
        1 => trees.min(64) + 2 + 16 * source.below(nodes.clamp(1, 512)),
        2 => (words.len() - 1).saturating_sub(source.below(nodes.clamp(1, 512))),
        _ => source.below(words.len()),
    };
    place.min(words.len() - 1)
}

/// Copies the 16 words of a node over another node's.
fn copy_node(source: &mut Source, words: &mut [u32]) {
    let (trees, len) = (words[0] as usize, words.len());
    if trees > 32 || len < trees + 2 + 32 {
        return;
    }
    let nodes = ((len - trees - 3) / 17).max(2);
    let (from, to) = (source.below(nodes), source.below(nodes));
    let at = |node: usize| trees + 2 + 16 * node;
    if at(from.max(to)) + 16 <= len {
        words.copy_within(at(from)..at(from) + 16, at(to));
    }
}

/// One damage, to words that are not none.
pub fn words(source: &mut Source, words: &mut Vec<u32>) {
    let at = place(source, words);
    let other = place(source, words);
    match source.below(12) {
        0 => words[at] ^= 1 << source.below(32),
        1 => words[at] = 0,
        2 => words[at] = 1,
        3 => words[at] = words[at].wrapping_add(1),
        4 => words[at] = words[at].wrapping_sub(1),
        5 => words[at] = words[other],
        6 => words.swap(at, other),
        7 => words[at] = source.edgy(),
        8 => copy_node(source, words),
        9 => {
            let cut = source.within(1, words.len().min(20));
            words.truncate(words.len() - cut);
        }
        10 => {
            let more = source.within(1, 20).min(ROOM - words.len());
            let with = source.pick(&[0, 0, 1]);
            words.extend((0..more).map(|_| with));
        }
        _ => {
            let to = (at + 1).min(words.len() - 1);
            words.swap(at, to);
        }
    }
}

/// A cursor of a pool of so many nodes, with one field changed.
pub fn cursor(source: &mut Source, at: Cursor, nodes: u32) -> Cursor {
    let mut at = at;
    let level = if source.once_in(4) {
        source.below(16)
    } else {
        source.below((at.size as usize).clamp(1, 16))
    };
    match source.below(10) {
        0 => at.size = source.pick(&[16, 17, 18, u32::MAX, u32::MAX - 1, 1 << 31]),
        1 => at.size = at.size.wrapping_add(1),
        2 => at.size = at.size.wrapping_sub(1),
        3 => at.size = source.edgy(),
        4 => at.places[level] = source.pick(&[7, 8, 9, 16, u32::MAX]),
        5 => at.places[level] = at.places[level].wrapping_add(source.pick(&[1, u32::MAX])),
        6 => at.nodes[level] = [0, nodes, nodes + 1, source.edgy()][source.below(4)],
        7 => at.nodes[level] = at.nodes[level].wrapping_add(source.pick(&[1, u32::MAX])),
        8 => at.tree = source.edgy(),
        _ => at.nodes.swap(level, source.below(16)),
    }
    at
}

/// A cursor of sound words, with the place of one level changed to where the next node's number stands by chance: some words
/// past the node or before it, counted round 2^32.
pub fn place_elsewhere(source: &mut Source, at: Cursor, words: &[u32]) -> Cursor {
    let mut at = at;
    if !(2..=16).contains(&at.size) {
        return at;
    }
    let level = source.below(at.size as usize - 1);
    let child = words[0] as usize + 2 + 16 * (at.nodes[level] as usize - 1) + 8;
    let past = (child + 8..words.len()).chain((0..child).rev());
    let same: Vec<usize> =
        past.filter(|&place| words[place] == at.nodes[level + 1]).take(4).collect();
    if !same.is_empty() {
        at.places[level] = source.pick(&same).wrapping_sub(child) as u32;
    }
    at
}
