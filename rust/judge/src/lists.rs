//! The fixed generator of lists. README.md describes each list.

use crate::calls::{Call, Op};

/// A list of calls on T trees in a pool of N nodes.
pub struct List {
    pub name: String,
    pub trees: usize,
    pub nodes: usize,
    /// The words it begins with, if they are not those of a fresh pool.
    pub start: Option<Vec<u32>>,
    /// Is it in the recorded file?
    pub recorded: bool,
    pub calls: Vec<Call>,
}

/// A 64-bit linear congruential generator; its upper half is the number.
pub struct Dice(u64);

impl Dice {
    /// Starts from a seed.
    pub fn new(seed: u64) -> Self {
        Self(seed)
    }

    /// The next 32-bit number.
    pub fn any(&mut self) -> u32 {
        self.0 = self.0.wrapping_mul(6364136223846793005).wrapping_add(1442695040888963407);
        (self.0 >> 32) as u32
    }

    /// The next number below `n`.
    pub fn below(&mut self, n: u32) -> u32 {
        ((u64::from(self.any()) * u64::from(n)) >> 32) as u32
    }

    /// Exchanges from the end, each with one at or before it.
    pub fn shuffle(&mut self, items: &mut [u32]) {
        for i in (1..items.len()).rev() {
            items.swap(i, self.below(i as u32 + 1) as usize);
        }
    }
}

/// The value that plain lists put under a key.
pub fn value_of(key: u32) -> u32 {
    key.wrapping_mul(7).wrapping_add(3) % 1000
}

/// A call without value.
fn at(op: Op, tree: usize, key: u32) -> Call {
    Call::new(op, tree, key, 0)
}

/// Puts of these keys.
pub fn puts(tree: usize, keys: impl IntoIterator<Item = u32>) -> Vec<Call> {
    keys.into_iter().map(|k| Call::new(Op::Put, tree, k, value_of(k))).collect()
}

/// The same call by key for these keys.
pub fn each(op: Op, tree: usize, keys: impl IntoIterator<Item = u32>) -> Vec<Call> {
    keys.into_iter().map(|k| at(op, tree, k)).collect()
}

/// The same cursor calls, one after the other, so many times.
pub fn times(ops: &[Op], tree: usize, count: usize) -> Vec<Call> {
    (0..count).flat_map(|_| ops.iter().map(|op| at(*op, tree, 0))).collect()
}

/// The numbers from 1 to n in a fixed mixed order.
fn mixed(n: u32, seed: u64) -> Vec<u32> {
    let mut keys: Vec<u32> = (1..=n).collect();
    Dice::new(seed).shuffle(&mut keys);
    keys
}

/// Random calls on keys from a given choice: mostly puts in the first half, mostly removes in the
/// second, a quarter of both are cursor calls.
fn random(trees: usize, keys: &[u32], count: usize, seed: u64) -> Vec<Call> {
    let mut dice = Dice::new(seed);
    let mut calls = Vec::new();
    for i in 0..count {
        let tree = dice.below(trees as u32) as usize;
        let key = keys[dice.below(keys.len() as u32) as usize];
        let grow = i < count / 2;
        let op = match dice.below(20) {
            0..=9 if grow => Op::Put,
            0..=9 => Op::Remove,
            10..=12 if grow => Op::Remove,
            10..=12 => Op::Put,
            13..=14 => Op::Get,
            _ => cursor_op(&mut dice),
        };
        let value = if op == Op::Put { dice.below(5000) } else { 0 };
        let key = if op.by_key() || op == Op::Seek { key } else { 0 };
        calls.push(Call::new(op, tree, key, value));
    }
    calls
}

/// A random cursor call.
pub fn cursor_op(dice: &mut Dice) -> Op {
    match dice.below(10) {
        0..=2 => Op::Seek,
        3 => Op::Settle,
        4 => Op::First,
        5..=6 => Op::Next,
        7 => Op::Prev,
        _ => Op::RemoveAt,
    }
}

/// So many keys of the whole 32-bit range, both ends among them.
fn wide_keys(count: usize, seed: u64) -> Vec<u32> {
    let mut dice = Dice::new(seed);
    let mut keys = vec![0, u32::MAX];
    keys.extend((2..count).map(|_| dice.any()));
    keys
}

/// Walks: forward and backward over all pairs, then a seek between each two keys.
fn walks() -> Vec<Call> {
    let mut calls = puts(0, mixed(45, 8).iter().map(|k| 2 * k));
    calls.extend(times(&[Op::First], 0, 1));
    calls.extend(times(&[Op::Next], 0, 46));
    calls.extend(times(&[Op::Prev], 0, 46));
    for key in (1..=91).step_by(6) {
        calls.push(at(Op::Seek, 0, key));
        calls.extend(times(&[Op::Settle, Op::Next, Op::Prev, Op::Prev], 0, 1));
    }
    calls
}

/// Puts that come again, with the same and with another value; removals that come again.
fn repeats() -> Vec<Call> {
    let keys = [9, 0, u32::MAX, 9, 4, 4, 0, 77, 78, 79, 80, 81, 9, u32::MAX];
    let mut calls = Vec::new();
    for (i, key) in keys.iter().enumerate() {
        calls.push(Call::new(Op::Put, 0, *key, 100 + i as u32));
        calls.push(Call::new(Op::Put, 0, *key, 100 + i as u32));
        calls.push(at(Op::Get, 0, *key));
    }
    calls.push(Call::new(Op::Put, 0, 4, 0));
    calls.extend(each(Op::Get, 0, [4]));
    for key in keys {
        calls.extend(each(Op::Remove, 0, [key, key]));
    }
    calls
}

/// Fills in mixed order, then takes pairs out around the middle, by turns to the right and left.
fn middle(n: u32) -> Vec<Call> {
    let mut calls = puts(0, mixed(n, 3));
    calls.push(at(Op::Seek, 0, n / 2));
    calls.extend(times(&[Op::RemoveAt, Op::RemoveAt, Op::Prev, Op::RemoveAt], 0, n as usize / 2));
    calls
}

/// Fills upwards, takes two keys out that change nodes three levels up, then all in mixed order.
fn mixed_removal(n: u32, seed: u64) -> Vec<Call> {
    let removes = each(Op::Remove, 0, mixed(n, seed));
    [puts(0, 1..=n), each(Op::Remove, 0, [49, 97]), removes].concat()
}

/// Fills upwards and takes all out from the right.
fn from_right(n: u32) -> Vec<Call> {
    [puts(0, 1..=n), each(Op::Remove, 0, (1..=n).rev())].concat()
}

/// All lists, those of the recorded file first.
pub fn all() -> Vec<List> {
    let list = |name: &str, trees, nodes, recorded, calls| List {
        name: name.to_string(),
        trees,
        nodes,
        start: None,
        recorded,
        calls,
    };
    let small: Vec<u32> = (0..64).collect();
    let few: Vec<u32> = (1..=30).map(|k| 3 * k).collect();
    let large = wide_keys(130, 5);
    let drain_front = [times(&[Op::First], 0, 1), times(&[Op::RemoveAt], 0, 45)].concat();
    let up = [puts(0, 1..=45), drain_front].concat();
    let down = [puts(0, (1..=45).rev()), times(&[Op::Prev, Op::RemoveAt], 0, 45)].concat();
    let mut lists = vec![
        list("ascending, drained from the front", 1, 16, true, up),
        list("descending, drained from the back", 1, 16, true, down),
        list("drained from the middle", 1, 24, true, middle(60)),
        list("ascending, removed from the right", 1, 16, true, from_right(40)),
        list("small range", 2, 40, true, random(2, &small, 320, 11)),
        list("large range", 1, 40, true, random(1, &large, 320, 12)),
        list("several trees", 5, 48, true, random(5, &few, 360, 13)),
        list("repeats", 1, 6, true, repeats()),
        list("walks", 1, 18, true, walks()),
        list("four levels, mixed removal", 1, 64, true, mixed_removal(170, 9)),
        list("five levels, mixed removal", 1, 512, false, mixed_removal(1450, 10)),
        list("five levels, removed from the right", 1, 512, false, from_right(1450)),
        list("thirty-two trees", 32, 512, false, random(32, &small, 6000, 14)),
    ];
    for (name, seed) in LONG.into_iter().zip(0..) {
        let keys: Vec<u32> = (0..40 + 40 * seed).collect();
        lists.push(list(name, 3, 512, false, random(3, &keys, 3000, 100 + u64::from(seed))));
    }
    lists
}

/// Long random lists, each with 40 keys more to choose from than the one before.
const LONG: [&str; 12] = [
    "random 40",
    "random 80",
    "random 120",
    "random 160",
    "random 200",
    "random 240",
    "random 280",
    "random 320",
    "random 360",
    "random 400",
    "random 440",
    "random 480",
];
