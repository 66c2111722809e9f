//! Sound pools by chance, also such as no calls lead to: a leaf of 3 in the middle, six levels, nodes and
//! the stack in any order.

use judge::lists::Dice;

/// A node before it has a number: its head and keys; values, or which nodes of the row below.
struct Bare {
    head: u32,
    keys: Vec<u32>,
    items: Vec<u32>,
    least: u32,
}

/// How full the nodes of a tree are: as empty as the rules allow, as full, or by chance.
#[derive(Clone, Copy)]
pub enum Fill {
    Least,
    Most,
    Any,
}

/// The words of a sound pool of T trees and N nodes, and the keys in it. The last tree is filled in the
/// way named, if one is; each other by chance.
pub fn pool(dice: &mut Dice, trees: u32, nodes: u32, fill: Option<Fill>) -> (Vec<u32>, Vec<u32>) {
    let mut numbers: Vec<u32> = (1..=nodes).collect();
    dice.shuffle(&mut numbers);
    let mut out = vec![0; (trees + 17 * nodes + 3) as usize];
    (out[0], out[trees as usize + 1]) = (trees, nodes);
    let mut all = Vec::new();
    for tree in 0..trees {
        let rest = numbers.len() as u32;
        let last = tree + 1 == trees;
        let share = if last { rest } else { rest.min(2 * nodes / trees) };
        let rows = rows(dice, share, fill.filter(|_| last));
        let keys = rows.first().into_iter().flatten().flat_map(|leaf| leaf.keys.iter());
        all.extend(keys);
        out[1 + tree as usize] = store(&rows, &mut numbers, trees, &mut out);
    }
    let free = (trees + 2 + 16 * nodes) as usize;
    out[free] = numbers.len() as u32;
    out[free + 1..][..numbers.len()].copy_from_slice(&numbers);
    all.sort_unstable();
    all.dedup();
    (out, all)
}

/// A tree of at most so many nodes as rows, leaves first.
fn rows(dice: &mut Dice, share: u32, fill: Option<Fill>) -> Vec<Vec<Bare>> {
    let chance = [Fill::Least, Fill::Most, Fill::Any, Fill::Any][dice.below(4) as usize];
    // A row above n nodes has at most (n - 1) / 4 + 1, so six rows have at most (n - 1) * 4 / 3 + 6.
    let most = (share * 3 / 4).saturating_sub(5);
    let count = match dice.below(4) {
        _ if fill.is_some() => most,
        0 => 1.min(share),
        1 => dice.below(most + 1),
        _ => most,
    };
    if count == 0 {
        return Vec::new();
    }
    let fill = fill.unwrap_or(chance);
    let mut rows = Vec::new();
    rows.push(leaves(dice, count, fill));
    while rows[rows.len() - 1].len() > 1 {
        rows.push(above(dice, &rows[rows.len() - 1], fill));
    }
    rows
}

/// A size between two bounds.
fn size(dice: &mut Dice, fill: Fill, least: u32, most: u32) -> u32 {
    match fill {
        Fill::Least => least,
        Fill::Most => most,
        Fill::Any => least + dice.below(most - least + 1),
    }
}

/// A row of leaves with rising keys; the last may have fewer entries than half.
fn leaves(dice: &mut Dice, count: u32, fill: Fill) -> Vec<Bare> {
    let sizes: Vec<u32> =
        (1..=count).map(|i| size(dice, fill, if i == count { 1 } else { 3 }, 7)).collect();
    let gap = [1, 2, 5, u32::MAX / (7 * count)][dice.below(4) as usize];
    let mut next = dice.below(gap);
    let mut leaf = |size: u32| {
        let keys: Vec<u32> = (0..size)
            .map(|_| {
                let key = next;
                next += 1 + dice.below(gap);
                key
            })
            .collect();
        let items = keys.iter().map(|_| dice.any()).collect();
        Bare { head: 32 + size, least: keys[0], keys, items }
    };
    sizes.into_iter().map(&mut leaf).collect()
}

/// The row above a row: groups of 4 to 8, the last of 1 to 8.
fn above(dice: &mut Dice, below: &[Bare], fill: Fill) -> Vec<Bare> {
    let mut row = Vec::new();
    let mut from = 0;
    while from < below.len() {
        let to = (from + size(dice, fill, 4, 8) as usize).min(below.len());
        let keys: Vec<u32> = below[from + 1..to].iter().map(|n| n.least).collect();
        let (head, items) = (16 + keys.len() as u32, (from as u32..to as u32).collect());
        row.push(Bare { head, keys, items, least: below[from].least });
        from = to;
    }
    row
}

/// Stores the rows in nodes taken from the numbers, and gives the root's.
fn store(rows: &[Vec<Bare>], numbers: &mut Vec<u32>, trees: u32, words: &mut [u32]) -> u32 {
    let mut below = Vec::new();
    for row in rows {
        let mut names = Vec::new();
        for node in row {
            let number = numbers.pop().expect("the tree has no more nodes than there are");
            let at = (trees + 2 + 16 * (number - 1)) as usize;
            words[at] = node.head;
            words[at + 1..][..node.keys.len()].copy_from_slice(&node.keys);
            for (i, item) in node.items.iter().enumerate() {
                words[at + 8 + i] = if node.head > 32 { *item } else { below[*item as usize] };
            }
            names.push(number);
        }
        below = names;
    }
    below.first().copied().unwrap_or(0)
}
