//! The intended differences of docs/DIFFERENCES.md: for each the smallest input, what the crate does with
//! it, and what is done here.

use crate::caught::caught;
use crate::ours::{Door, Mark, Ours};
use cranelift_bforest::probe::Bench;
use judge::calls::{Answer, Call, Op};
use judge::lists::value_of;
use judge::{sound, view};

/// Every difference by name.
const DIFFERENCES: [(&str, fn()); 13] = [
    ("lack of room, N = 0: the crate's map stays whole, here 4", no_node),
    ("lack of room in a leaf's cut: the crate loses pairs, here 4", leaf_cut),
    ("lack of room in an inner node's cut: the crate loses pairs, here 4", inner_cut),
    ("the first of an empty map: the crate's cursor stays, here size 0", empty_first),
    ("goto settles, seek does not", goto_settles),
    ("old data in a leaf's places not in use, here 0", old_leaf),
    ("old data in a cursor's levels not in use, here 0", old_path),
    ("a stale cursor on a freed node: the crate breaks off, here 3", stale_free),
    ("a stale cursor past a leaf's end: the crate answers, here 3", stale_past),
    ("a stale cursor on another map's node: the crate takes its pair, here 3", stale_other),
    ("words that are no pool 1, tree T 2, T = 33 and N = 513 5", no_counterpart),
    ("more than 512 nodes: the crate goes on, here 4", many_nodes),
    ("a middle leaf of 3 is sound, leaves at two depths are not", own_check),
];

/// Shows each; an error says which does not hold.
pub fn all() -> Result<(), String> {
    for (name, show) in DIFFERENCES {
        caught(show).map_err(|words| format!("not so: {name}\n  {words}"))?;
        println!("difference: {name}");
    }
    Ok(())
}

/// Both sides with the same puts in tree 0, the pool of N nodes with T trees.
fn sides(trees: usize, nodes: usize, keys: impl IntoIterator<Item = u32>) -> (Bench, Ours) {
    cranelift_entity::set_room(nodes);
    let mut bench = Bench::new(trees, 1);
    let mut ours = Ours::of(Door::Public, &vec![0; trees + 17 * nodes + 3]);
    assert_eq!(ours.format(trees as u32, nodes as u32), Answer::value(None));
    for key in keys {
        assert_eq!(bench.put(0, key, value_of(key)), Ok(None));
        assert_eq!(here(&mut ours, Op::Put, 0, key), Answer::value(None));
    }
    (bench, ours)
}

/// A call by key on our side.
fn here(ours: &mut Ours, op: Op, tree: usize, key: u32) -> Answer {
    ours.call(&Call::new(op, tree, key, value_of(key)), Mark::off(0)).0
}

/// A cursor call on our side, which moves the cursor.
fn moves(ours: &mut Ours, op: Op, mark: &mut Mark, key: u32) -> Answer {
    let (answer, moved) = ours.call(&Call::new(op, 0, key, 0), *mark);
    *mark = moved;
    answer
}

/// The refusal with a number.
fn refused(number: u32) -> Answer {
    Answer { number, found: false, key: 0, value: 0 }
}

/// Our put of a key is refused by 4 and changes no word.
fn refused_put(ours: &mut Ours, key: u32) {
    let before = ours.words().to_vec();
    assert_eq!(here(ours, Op::Put, 0, key), refused(4));
    assert_eq!(ours.words(), before);
}

/// The crate's put of a key runs out of nodes; the keys that it finds afterwards.
fn left_over(bench: &mut Bench, key: u32) -> Vec<u32> {
    assert!(bench.put(0, key, 0).is_err());
    (0..100).filter(|k| bench.get(0, *k).is_some()).collect()
}

/// Does an act on the crate panic?
fn breaks_off<T>(act: impl FnOnce() -> T) -> bool {
    caught(act).is_err()
}

fn no_node() {
    let (mut bench, mut ours) = sides(1, 0, []);
    assert!(left_over(&mut bench, 1).is_empty());
    refused_put(&mut ours, 1);
}

fn leaf_cut() {
    for (nodes, left) in [(1, vec![10, 20, 30]), (2, vec![10, 20, 30, 35])] {
        let (mut bench, mut ours) = sides(1, nodes, (1..=7).map(|k| 10 * k));
        assert_eq!(left_over(&mut bench, 35), left);
        refused_put(&mut ours, 35);
    }
}

fn inner_cut() {
    for (nodes, left) in [(9, 32), (10, 16), (11, 16)] {
        let (mut bench, mut ours) = sides(1, nodes, 1..=35);
        assert!(left_over(&mut bench, 36).into_iter().eq(1..=left));
        refused_put(&mut ours, 36);
    }
}

fn empty_first() {
    let (mut bench, mut ours) = sides(1, 1, [5]);
    let mut mark = Mark::off(0);
    bench.first(0, 0);
    moves(&mut ours, Op::First, &mut mark, 0);
    assert_eq!((bench.cursor(0, 0).size, mark.size), (1, 1));
    bench.remove(0, 5);
    here(&mut ours, Op::Remove, 0, 5);
    assert_eq!(
        (bench.goto_first(0, 0), bench.goto(0, 0, 5), bench.cursor(0, 0).size),
        (None, None, 1)
    );
    for op in [Op::First, Op::Seek] {
        let mut mark = mark;
        assert_eq!(moves(&mut ours, op, &mut mark, 5), Answer::value(None));
        assert_eq!(mark, Mark::off(0));
    }
}

fn goto_settles() {
    let (mut bench, mut ours) = sides(1, 3, [10, 20, 30, 40, 50, 60, 70, 35]);
    let mut mark = Mark::off(0);
    bench.goto(0, 0, 38);
    moves(&mut ours, Op::Seek, &mut mark, 38);
    let path = bench.cursor(0, 0);
    assert_eq!((&path.nodes[..2], &path.places[..2]), (&[2, 1][..], &[1, 0][..]));
    assert_eq!((&mark.nodes[..2], &mark.places[..2]), (&[3, 1][..], &[0, 4][..]));
    moves(&mut ours, Op::Settle, &mut mark, 0);
    assert_eq!((&mark.nodes[..2], &mark.places[..2]), (&[3, 2][..], &[1, 0][..]));
}

fn old_leaf() {
    let (mut bench, mut ours) = sides(1, 1, [1, 2]);
    bench.remove(0, 2);
    here(&mut ours, Op::Remove, 0, 2);
    assert_eq!(bench.leaf_keys(0)[..2], [1, 2]);
    assert_eq!(ours.words()[3..6], [33, 1, 0]);
}

fn old_path() {
    let (mut bench, mut ours) = sides(1, 1, [1]);
    let mut mark = Mark::off(0);
    bench.seek(0, 0, 9);
    moves(&mut ours, Op::Seek, &mut mark, 9);
    assert_eq!(bench.next(0, 0), None);
    assert_eq!(moves(&mut ours, Op::Next, &mut mark, 0), Answer::value(None));
    let path = bench.cursor(0, 0);
    assert_eq!((path.size, path.places[0], mark), (0, 1, Mark::off(0)));
}

/// A cursor is set, a key removed by key; the cursor is stale then, and every call here says so.
fn stale(bench: &mut Bench, ours: &mut Ours, to: u32, gone: u32) -> Mark {
    let mut mark = Mark::off(0);
    bench.seek(0, 0, to);
    moves(ours, Op::Seek, &mut mark, to);
    bench.remove(0, gone);
    here(ours, Op::Remove, 0, gone);
    still_refused(ours, mark);
    mark
}

/// All calls that read a cursor are refused by 3 and change nothing.
fn still_refused(ours: &mut Ours, mark: Mark) {
    let before = ours.words().to_vec();
    for op in [Op::Settle, Op::Next, Op::Prev, Op::RemoveAt] {
        let mut same = mark;
        assert_eq!(moves(ours, op, &mut same, 0), refused(3));
        assert_eq!((same, ours.words()), (mark, &before[..]));
    }
}

fn stale_free() {
    let (mut bench, mut ours) = sides(1, 1, [1]);
    stale(&mut bench, &mut ours, 1, 1);
    assert!(breaks_off(|| bench.next(0, 0)));
}

fn stale_past() {
    let (mut bench, mut ours) = sides(1, 1, [1, 2]);
    stale(&mut bench, &mut ours, 9, 1);
    assert_eq!((bench.next(0, 0), bench.cursor(0, 0).size), (None, 0));
    bench.put(0, 1, 1).expect("there is room");
    bench.seek(0, 0, 9);
    bench.remove(0, 1);
    assert!(breaks_off(|| bench.prev(0, 0)));
}

fn stale_other() {
    let (mut bench, mut ours) = sides(2, 1, [1]);
    let mark = stale(&mut bench, &mut ours, 1, 1);
    assert_eq!(bench.put(1, 7, value_of(7)), Ok(None));
    assert_eq!(here(&mut ours, Op::Put, 1, 7), Answer::value(None));
    still_refused(&mut ours, mark);
    assert_eq!(here(&mut ours, Op::Get, 1, 7), Answer::value(Some(value_of(7))));
    assert_eq!(bench.remove_at(0, 0), Some(value_of(7)));
    assert!(breaks_off(|| bench.get(1, 7)));
}

fn no_counterpart() {
    let mut ours = Ours::of(Door::Public, &[1, 1, 0, 0]);
    assert_eq!(here(&mut ours, Op::Get, 0, 1), refused(1));
    assert_eq!(ours.words(), [1, 1, 0, 0]);
    let (_, mut ours) = sides(1, 0, []);
    assert_eq!(here(&mut ours, Op::Get, 1, 1), refused(2));
    for (trees, nodes) in [(33, 0), (1, 513)] {
        let mut ours = Ours::of(Door::Public, &vec![0; trees as usize + 17 * nodes as usize + 3]);
        assert_eq!(ours.format(trees, nodes), refused(5));
    }
}

fn many_nodes() {
    let (mut bench, mut ours) = sides(1, 512, 1..=1000);
    let mut keys = 1001..;
    let full = keys.find(|k| here(&mut ours, Op::Put, 0, *k) == refused(4));
    assert_eq!(full, Some(1552));
    cranelift_entity::set_room(usize::MAX);
    assert!((1001..=1552).all(|k| bench.put(0, k, value_of(k)) == Ok(None)));
    assert!(view::tree(&bench, bench.root(0)).nodes() > 512);
}

/// A node's sixteen words from its head, keys and items.
fn node(head: u32, keys: &[u32], items: &[u32]) -> Vec<u32> {
    let mut out = vec![head];
    out.extend(keys);
    out.resize(8, 0);
    out.extend(items);
    out.resize(16, 0);
    out
}

/// A pool of one tree, full, whose root is the last node.
fn full(nodes: &[Vec<u32>]) -> Vec<u32> {
    let count = nodes.len() as u32;
    let mut out = vec![1, count, count];
    out.extend(nodes.concat());
    out.resize(out.len() + 1 + nodes.len(), 0);
    out
}

fn own_check() {
    let (three, one) = (node(35, &[1, 2, 3], &[0, 0, 0]), node(33, &[4], &[0]));
    let small = full(&[three.clone(), one.clone(), node(17, &[4], &[1, 2])]);
    let uneven = full(&[three, one, node(16, &[], &[2]), node(17, &[4], &[1, 3])]);
    for (words, sound) in [(small, true), (uneven, false)] {
        assert_eq!(sound::check(&words).is_ok(), sound);
        assert_eq!(Ours::of(Door::Public, &words).check(), sound);
    }
}
