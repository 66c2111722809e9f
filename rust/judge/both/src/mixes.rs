//! Random mixes: pools of many sizes, keys of many ranges, phases of growing, shrinking and walking,
//! three cursors a tree that are kept across changes, and now and then a tree that is not there.

use crate::made::{self, Fill};
use judge::calls::{CURSORS, Call, Op};
use judge::lists::{Dice, List, cursor_op, value_of};

/// Pools from none to all nodes; the small ones run out of room often. One mix in five has any number.
const ROOMS: [u32; 18] = [0, 1, 2, 3, 4, 5, 7, 9, 12, 16, 24, 32, 48, 80, 128, 200, 320, 512];

/// One mix in so many begins with a made pool.
const MADE: u64 = 4;

/// Trees in a pool; the last entry stands for any number up to 32.
const TREES: [u32; 8] = [1, 1, 2, 3, 5, 8, 32, 0];

/// What most calls of a phase are: out of twenty the puts, removes and gets; the rest go by cursor.
#[derive(Clone, Copy)]
struct Phase {
    puts: u32,
    removes: u32,
    gets: u32,
    order: Order,
    /// The cursor calls of a phase that drains, or none: any.
    drain: Option<Op>,
}

/// Which key comes next.
#[derive(Clone, Copy)]
enum Order {
    Any,
    Up,
    Down,
}

/// The phases, chosen at random; the first is always one of the first three, which grow.
const PHASES: [Phase; 9] = [
    Phase { puts: 13, removes: 2, gets: 1, order: Order::Any, drain: None },
    Phase { puts: 15, removes: 1, gets: 1, order: Order::Up, drain: None },
    Phase { puts: 15, removes: 1, gets: 1, order: Order::Down, drain: None },
    Phase { puts: 2, removes: 13, gets: 1, order: Order::Any, drain: None },
    Phase { puts: 1, removes: 15, gets: 1, order: Order::Up, drain: None },
    Phase { puts: 1, removes: 15, gets: 1, order: Order::Down, drain: None },
    Phase { puts: 1, removes: 1, gets: 1, order: Order::Any, drain: Some(Op::First) },
    Phase { puts: 1, removes: 1, gets: 1, order: Order::Any, drain: Some(Op::Prev) },
    Phase { puts: 4, removes: 4, gets: 2, order: Order::Any, drain: None },
];

/// One mix of a seed.
pub fn mix(seed: u64, index: u64) -> List {
    let mut dice = Dice::new(seed.wrapping_mul(0x9e37_79b9_7f4a_7c15).wrapping_add(index));
    dice.any();
    let nodes = match dice.below(5) {
        0 => dice.below(513),
        _ => ROOMS[dice.below(ROOMS.len() as u32) as usize],
    };
    let trees = match TREES[dice.below(TREES.len() as u32) as usize] {
        0 => 1 + dice.below(32),
        trees => trees,
    };
    let name = format!("mix {index} of seed {seed}");
    let (trees, nodes) = (trees as usize, nodes as usize);
    if index % MADE == MADE - 1 {
        let (words, keys) = made::pool(&mut dice, trees as u32, nodes as u32, None);
        let calls = calls(&mut dice, trees as u32, &around(&keys), 300, PHASES.len() as u32);
        return List { name, trees, nodes, start: Some(words), recorded: false, calls };
    }
    let keys = keys(&mut dice, nodes as u32, trees as u32);
    let calls = calls(&mut dice, trees as u32, &keys, 700 + 10 * nodes, 3);
    List { name, trees, nodes, start: None, recorded: false, calls }
}

/// Lists on made pools whose nodes are as empty or as full as the rules allow; the greatest has six levels.
pub fn made(seed: u64) -> Vec<List> {
    let sizes = [(1, 512), (2, 512), (1, 60), (3, 12)];
    let fills = [(Fill::Least, "least filled"), (Fill::Most, "most filled"), (Fill::Any, "any")];
    let each = sizes.into_iter().flat_map(|size| fills.map(|fill| (size, fill)));
    let list = |((trees, nodes), (fill, name))| {
        let mut dice = Dice::new(seed);
        let (words, keys) = made::pool(&mut dice, trees, nodes, Some(fill));
        let calls = calls(&mut dice, trees, &around(&keys), 400, PHASES.len() as u32);
        let name = format!("made of seed {seed}, T {trees}, N {nodes}, {name}");
        let (trees, nodes) = (trees as usize, nodes as usize);
        List { name, trees, nodes, start: Some(words), recorded: false, calls }
    };
    each.map(list).collect()
}

/// The keys of a made pool and those beside them.
fn around(keys: &[u32]) -> Vec<u32> {
    let mut out: Vec<u32> =
        keys.iter().flat_map(|k| [*k, *k, k.wrapping_add(1)]).chain([0, u32::MAX]).collect();
    out.sort_unstable();
    out
}

/// Calls in phases, the first one of the first `begin`.
fn calls(dice: &mut Dice, trees: u32, keys: &[u32], count: usize, begin: u32) -> Vec<Call> {
    let mut calls = Vec::new();
    while calls.len() < count {
        let kinds = if calls.is_empty() { begin } else { PHASES.len() as u32 };
        let phase = PHASES[dice.below(kinds) as usize];
        let part = count / 8 + dice.below(count as u32 / 4) as usize;
        let start = dice.below(keys.len() as u32) as usize;
        let favourite = dice.below(trees);
        for i in 0..part {
            let near = dice.below(4) > 0 && trees > 1;
            let tree = if near { favourite } else { dice.below(trees) };
            calls.push(call(dice, phase, tree, trees, keys, start + i));
        }
    }
    calls
}

/// The keys of a mix, rising: few or many for the pool, close together or over the whole range.
fn keys(dice: &mut Dice, nodes: u32, trees: u32) -> Vec<u32> {
    let fit = 4 * nodes / trees + 2;
    let count = match dice.below(4) {
        0 => 1 + dice.below(20),
        1 => fit / 2 + 1,
        2 => fit,
        _ => 2 * fit,
    };
    let mut keys: Vec<u32> = match dice.below(5) {
        0 => (0..count).collect(),
        1 => (0..count).map(|k| 3 * k).collect(),
        2 => (0..count).map(|k| u32::MAX - k).collect(),
        3 => (0..count).map(|k| k.wrapping_sub(count / 2)).collect(),
        _ => (0..count).map(|_| dice.any()).chain([0, u32::MAX]).collect(),
    };
    keys.sort_unstable();
    keys.dedup();
    keys
}

/// One call of a phase.
fn call(dice: &mut Dice, phase: Phase, tree: u32, trees: u32, keys: &[u32], i: usize) -> Call {
    let key = match phase.order {
        Order::Any => keys[dice.below(keys.len() as u32) as usize],
        Order::Up => keys[i % keys.len()],
        Order::Down => keys[keys.len() - 1 - i % keys.len()],
    };
    let tree = if dice.below(60) == 0 { absent(dice, trees) } else { tree } as usize;
    let roll = dice.below(20);
    let op = match roll {
        n if n < phase.puts => Op::Put,
        n if n < phase.puts + phase.removes => Op::Remove,
        n if n < phase.puts + phase.removes + phase.gets => Op::Get,
        _ => match phase.drain {
            Some(to) if dice.below(3) == 0 => to,
            Some(_) if dice.below(4) > 0 => Op::RemoveAt,
            _ => cursor_op(dice),
        },
    };
    match op {
        Op::Put => Call::new(op, tree, key, value(dice, key)),
        Op::Remove => Call::new(op, tree, key, 0),
        Op::Get => Call::new(op, tree, near(dice, key), 0),
        Op::Seek => Call::new(op, tree, near(dice, key), 0).on(which(dice)),
        _ => Call::new(op, tree, 0, 0).on(which(dice)),
    }
}

/// A tree that is not there.
fn absent(dice: &mut Dice, trees: u32) -> u32 {
    [trees, trees + 1, 33, u32::MAX][dice.below(4) as usize].max(trees)
}

/// One of a tree's cursors, the first most often.
fn which(dice: &mut Dice) -> usize {
    (dice.below(2 * CURSORS as u32) as usize).saturating_sub(CURSORS)
}

/// A key to look for: itself, or one beside it.
fn near(dice: &mut Dice, key: u32) -> u32 {
    match dice.below(4) {
        0 => key.wrapping_add(1),
        1 => key.wrapping_sub(1),
        _ => key,
    }
}

/// A value: one that comes again with its key, an end of the range, or any.
fn value(dice: &mut Dice, key: u32) -> u32 {
    match dice.below(16) {
        0..=5 => value_of(key),
        6 => 0,
        7 => u32::MAX,
        _ => dice.any(),
    }
}
