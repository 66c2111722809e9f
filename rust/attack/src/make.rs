//! Pools to start from: random words, words that look like a pool, and sound pools, also such as no calls reach.

use crate::guard::ROOM;
use crate::sound::{Node, Pool, Tree};
use crate::source::Source;

/// How full the nodes of a made tree are.
#[derive(Clone, Copy)]
pub enum Fill {
    Least,
    /// The least, and now and then one more.
    Low,
    Most,
    Mixed,
}

/// A count between bounds, by the fill.
fn filled(source: &mut Source, fill: Fill, low: usize, high: usize) -> usize {
    match fill {
        Fill::Least => low,
        Fill::Low => low + usize::from(source.once_in(30)),
        Fill::Most => high,
        Fill::Mixed => source.within(low, high),
    }
}

/// The sizes of a tree's nodes, row by row from the root: children, and entries in the last row. From the level
/// `full_from` on the nodes of one path are full. None if it takes more nodes than there are.
fn shape(
    source: &mut Source,
    fill: Fill,
    levels: usize,
    full_from: usize,
    room: usize,
) -> Option<Vec<Vec<usize>>> {
    let (mut rows, mut count, mut used, mut full) = (Vec::new(), 1, 0, 0);
    for level in 0..levels {
        used += count;
        if used > room {
            return None;
        }
        let leaf = level + 1 == levels;
        let (least, most) = if leaf { (3, 7) } else { (4, 8) };
        let mut row: Vec<usize> = (1..count).map(|_| filled(source, fill, least, most)).collect();
        row.push(filled(source, fill, if level == 0 && !leaf { 2 } else { 1 }, most));
        if level >= full_from {
            row[full] = most;
        }
        full = row[..full].iter().sum::<usize>() + source.below(row[full]);
        count = row.iter().sum();
        rows.push(row);
    }
    Some(rows)
}

/// Rising keys: close together at the low or the high end, or far apart.
fn keys(source: &mut Source, count: usize) -> Vec<u32> {
    let count = count as u32;
    if count == 0 {
        return Vec::new();
    }
    match source.below(4) {
        0 => (0..count).collect(),
        1 => (u32::MAX - (count - 1)..=u32::MAX).collect(),
        _ => {
            let mut last = source.below(3) as u32;
            let step = if source.once_in(2) { u32::MAX as usize / count as usize } else { 4 };
            (0..count)
                .map(|i| {
                    last += if i == 0 {
                        0
                    } else {
                        1 + source.below(step.saturating_sub(2).max(1)) as u32
                    };
                    last
                })
                .collect()
        }
    }
}

/// How many pairs a shape has.
fn pairs(shape: &[Vec<usize>]) -> usize {
    shape.last().map_or(0, |row| row.iter().sum())
}

/// A tree of a shape with these keys; `numbers` are handed out from the end.
fn tree(source: &mut Source, shape: &[Vec<usize>], keys: Vec<u32>, numbers: &mut Vec<u32>) -> Tree {
    let mut pairs: Vec<(u32, u32)> = keys.into_iter().map(|key| (key, source.edgy())).collect();
    let mut rows: Vec<Vec<Node>> = Vec::new();
    for sizes in shape.iter().rev() {
        let items: Vec<(u32, u32)> = match rows.last() {
            None => std::mem::take(&mut pairs),
            Some(below) => below.iter().map(|node| (node.items[0].0, node.number)).collect(),
        };
        let mut items = items.into_iter();
        let mut row = Vec::new();
        for &size in sizes {
            let number = numbers.pop().expect("the shape was fitted to the room");
            row.push(Node { number, items: items.by_ref().take(size).collect() });
        }
        rows.push(row);
    }
    rows.reverse();
    Tree { rows }
}

/// Shuffles, by choices of the source.
fn shuffle(source: &mut Source, list: &mut [u32]) {
    for i in (1..list.len()).rev() {
        list.swap(i, source.below(i + 1));
    }
}

/// T and N, most often small.
pub fn sizes(source: &mut Source) -> (usize, usize) {
    let trees = source.pick(&[1, 1, 1, 2, 2, 3, 5, 32]);
    let nodes = match source.below(16) {
        0 => 0,
        1..=6 => source.within(1, 6),
        7..=11 => source.within(4, 40),
        12 | 13 => source.within(30, 200),
        14 => source.within(300, 512),
        _ => 512,
    };
    (trees, nodes)
}

/// A sound pool: some trees of some levels, nodes numbered and free ones stacked in any order.
pub fn pool(source: &mut Source, trees: usize, nodes: usize) -> Pool {
    let mut numbers: Vec<u32> = (1..=nodes as u32).rev().collect();
    if source.once_in(2) {
        shuffle(source, &mut numbers);
    }
    let mut made = Vec::new();
    for _ in 0..trees {
        let fill = source.pick(&[Fill::Mixed, Fill::Least, Fill::Low, Fill::Most]);
        let mut levels = source.pick(&[6, 5, 4, 3, 3, 2, 2, 1, 0]);
        let rows = loop {
            let full_from = if source.once_in(2) { source.below(levels + 1) } else { levels };
            match shape(source, fill, levels, full_from, numbers.len()) {
                Some(rows) => break rows,
                None => levels -= 1,
            }
        };
        let keys = keys(source, pairs(&rows));
        made.push(tree(source, &rows, keys, &mut numbers));
    }
    if source.once_in(2) {
        shuffle(source, &mut numbers);
    }
    Pool { nodes, trees: made, free: numbers }
}

/// The sound pool of 512 nodes with one tree of these sizes, row by row from the root.
fn one_tree(source: &mut Source, rows: Vec<Vec<usize>>) -> Pool {
    let mut numbers: Vec<u32> = (1..=512).rev().collect();
    let keys = (1..=pairs(&rows) as u32).map(|key| 1000 * key).collect();
    let tree = tree(source, &rows, keys, &mut numbers);
    Pool { nodes: 512, trees: vec![tree], free: numbers }
}

/// One tree of so many levels over 512 nodes; from a level on one path is full. The first that fits from a seed on.
pub fn tall(seed: u64, fill: Fill, levels: usize, full_from: usize) -> Pool {
    let drawn = (seed..).find_map(|seed| {
        let mut source = Source::drawn(seed, 0);
        let rows = shape(&mut source, fill, levels, full_from, 512)?;
        Some((source, rows))
    });
    let (mut source, rows) = drawn.expect("one of them fits");
    one_tree(&mut source, rows)
}

/// One tree that takes as many of 512 nodes as it can, with so many entries in a leaf and children in an inner node; the
/// last of a level takes what is left.
pub fn packed(entries: usize, children: usize) -> Pool {
    let rows_of = |leaves: usize| {
        let mut rows = vec![vec![entries; leaves]];
        while rows[0].len() > 1 {
            let mut left = rows[0].len();
            let mut row = Vec::new();
            while left > 0 {
                row.push(left.min(children));
                left -= row[row.len() - 1];
            }
            rows.insert(0, row);
        }
        rows
    };
    let fits = |rows: &Vec<Vec<usize>>| rows.iter().map(Vec::len).sum::<usize>() <= 512;
    let rows = (1..=512).rev().map(rows_of).find(fits).expect("a leaf fits");
    one_tree(&mut Source::Drawn(3), rows)
}

/// Words of any kind, of any length.
pub fn random(source: &mut Source) -> Vec<u32> {
    let len = match source.below(8) {
        0 => source.below(4),
        1..=5 => source.within(1, 80),
        6 => source.within(4, 900),
        _ => source.within(4, ROOM),
    };
    let edgy = source.once_in(2);
    (0..len).map(|_| if edgy { source.edgy() } else { source.word() }).collect()
}

/// T, N and the length right, the rest small numbers where a node, a size or a key would stand.
pub fn lookalike(source: &mut Source) -> Vec<u32> {
    let (trees, nodes) = sizes(source);
    let nodes = if nodes > 60 && !source.once_in(4) { nodes % 60 } else { nodes };
    let mut words: Vec<u32> = vec![0; trees + 17 * nodes + 3];
    let busy = source.within(1, 8);
    for word in &mut words {
        if source.below(8) < busy {
            *word = source.below(nodes.max(3) + 2) as u32;
        }
    }
    for node in 0..nodes {
        words[trees + 2 + 16 * node] =
            source.pick(&[0, 0, 16, 17, 18, 19, 20, 23, 33, 34, 35, 36, 39, 32, 24, 40]);
    }
    words[0] = trees as u32;
    words[trees + 1] = nodes as u32;
    words
}
