//! Stated facts, held against the crate: document 01's worked examples and the facts found by
//! running the crate.

use crate::calls::{Answer, Call, Cursor, Op};
use crate::lists::{self, each, puts, value_of};
use crate::runner::{Runner, Step, Stop};
use crate::view;
use cranelift_bforest::probe::{self, Bench};
use cranelift_bforest::{Set, SetForest};

/// Every fact by name.
pub const FACTS: [(&str, fn()); 22] = [
    ("sizes: 8 children, 7 map entries, 16 levels, 15 set entries", sizes),
    ("the two lists of 38 words", two_lists),
    ("the replay example", replay),
    ("in A, seek 35 stands on 40 and next gives 50", seek_and_next),
    ("P1 B: 10,20,30,35 / 40,50,60,70, separator 40", p1),
    ("P2 A with 45 put: separator 45", p2),
    ("P3 A in N=2: the crate is out of nodes at put 35", p3),
    ("P4 A in N=3: put 35 done, F is 0, put 35 again done", p4),
    ("P5 B in N=3, remove 10: node 2, stack 1, 3, cursor on 20", p5),
    ("P6 B, remove 70: right leaf keeps 3, cursor size 0", p6),
    ("P7 B, remove 40: separator 50, cursor on 50", p7),
    ("P8 B with 80 put, remove 20: shared, cursor on 30", p8),
    ("P9 B, seek 38: left leaf, place 4; next gives 40", p9),
    ("P10 one pair removed: root 0, F = N", p10),
    ("N = 0: the first put is out of nodes", no_nodes),
    ("out of nodes, A in N=1: 40 to 70 are lost", harm_one),
    ("out of nodes, A in N=2: an error, 35 is in, 40 to 70 are lost", harm_two),
    ("1..36 in N=12, remove 13 at a cursor: freed 5, 3, 12", thirteen),
    ("B with 36 put, remove 36 at a cursor: on 40", thirty_six),
    ("remove by key equals seek and remove at the cursor, word for word", two_ways),
    ("a repeated put changes no word", repeated),
    ("512 nodes reach 5 levels by calls", five_levels),
];

/// A pool of one tree with these keys put.
fn pool(room: usize, keys: impl IntoIterator<Item = u32>) -> Runner {
    let mut runner = Runner::new(1, room);
    for call in puts(0, keys) {
        runner.call(call).unwrap_or_else(|e| panic!("{call}: {e:?}"));
    }
    runner
}

/// Tree A.
fn a(room: usize) -> Runner {
    pool(room, (1..=7).map(|k| 10 * k))
}

/// Tree B, and more keys.
fn b(room: usize, more: &[u32]) -> Runner {
    let mut runner = a(room);
    for key in [35].iter().chain(more) {
        put(&mut runner, *key);
    }
    runner
}

/// A call that is done, on tree 0.
fn done(runner: &mut Runner, op: Op, key: u32, value: u32) -> Step {
    runner.call(Call::new(op, 0, key, value)).expect("the call is done")
}

fn put(runner: &mut Runner, key: u32) -> Step {
    done(runner, Op::Put, key, value_of(key))
}

/// Seek, then remove at the cursor; gives the cursor.
fn take(runner: &mut Runner, key: u32) -> Cursor {
    assert!(done(runner, Op::Seek, key, 0).answer.found);
    let step = done(runner, Op::RemoveAt, 0, 0);
    assert_eq!(step.answer, Answer::value(Some(value_of(key))));
    step.after
}

/// The keys of every node, level by level.
fn keys(runner: &Runner) -> Vec<Vec<Vec<u32>>> {
    let rows = runner.tree(0).rows.iter();
    rows.map(|row| row.iter().map(|n| n.keys.clone()).collect()).collect()
}

/// F and the stack words.
fn stack(runner: &Runner, room: usize) -> &[u32] {
    &runner.words()[3 + 16 * room..]
}

/// A cursor of two levels.
fn two(nodes: [u32; 2], places: [u32; 2]) -> Cursor {
    let mut out = Cursor { size: 2, ..Cursor::default() };
    out.nodes[..2].copy_from_slice(&nodes);
    out.places[..2].copy_from_slice(&places);
    out
}

fn sizes() {
    assert_eq!(probe::sizes(), [8, 7, 16]);
    cranelift_entity::set_room(1);
    let (mut forest, mut set) = (SetForest::<u32>::new(), Set::new());
    let fits = |key: &u32| set.try_insert(*key, &mut forest, &()).is_ok();
    assert_eq!((0..100).take_while(fits).count(), 15);
    let mut bench = Bench::new(1, 1);
    assert_eq!((0..100).take_while(|k| bench.put(0, *k, 0).is_ok()).count(), 7);
}

fn two_lists() {
    let mut runner = Runner::new(1, 2);
    let mut fresh = vec![1, 0, 2];
    fresh.extend([0; 32]);
    fresh.extend([2, 2, 1]);
    assert_eq!(runner.words(), fresh);
    done(&mut runner, Op::Put, 9, 100);
    let mut after = vec![1, 1, 2, 33, 9, 0, 0, 0, 0, 0, 0, 100];
    after.extend([0; 7]);
    after.extend([0; 16]);
    after.extend([1, 2, 0]);
    assert_eq!(runner.words(), after);
    assert_eq!(after.len(), 38);
}

fn replay() {
    let mut runner = Runner::new(1, 2);
    let calls = [Op::Put, Op::Put, Op::Get, Op::Remove, Op::Get];
    let answers = [None, Some(100), Some(100), Some(100), None];
    for (op, answer) in calls.into_iter().zip(answers) {
        let value = if op == Op::Put { 100 } else { 0 };
        assert_eq!(done(&mut runner, op, 9, value).answer, Answer::value(answer));
    }
}

fn seek_and_next() {
    let mut runner = a(2);
    assert!(!done(&mut runner, Op::Seek, 35, 0).answer.found);
    assert_eq!(done(&mut runner, Op::Next, 0, 0).answer.key, 50);
}

fn p1() {
    let halves = vec![vec![10, 20, 30, 35], vec![40, 50, 60, 70]];
    assert_eq!(keys(&b(3, &[])), [vec![vec![40]], halves]);
}

fn p2() {
    let mut runner = a(3);
    put(&mut runner, 45);
    let halves = vec![vec![10, 20, 30, 40], vec![45, 50, 60, 70]];
    assert_eq!(keys(&runner), [vec![vec![45]], halves]);
}

fn p3() {
    let stop = a(2).call(Call::new(Op::Put, 0, 35, 0)).err();
    assert_eq!(stop, Some(Stop::NoRoom));
}

fn p4() {
    let mut runner = a(3);
    assert!(!put(&mut runner, 35).answer.found);
    assert_eq!(stack(&runner, 3), [0, 0, 0, 0]);
    assert!(put(&mut runner, 35).answer.found);
}

fn p5() {
    let mut runner = b(3, &[]);
    let cursor = take(&mut runner, 10);
    assert_eq!(keys(&runner), [vec![vec![20, 30, 35, 40, 50, 60, 70]]]);
    assert_eq!(runner.tree(0).root(), 2);
    assert_eq!(stack(&runner, 3), [2, 1, 3, 0]);
    assert_eq!((cursor.size, cursor.nodes[0], cursor.places[0]), (1, 2, 0));
}

fn p6() {
    let mut runner = b(3, &[]);
    assert_eq!(take(&mut runner, 70), Cursor::default());
    assert_eq!(keys(&runner)[1][1], [40, 50, 60]);
}

fn p7() {
    let mut runner = b(3, &[]);
    assert_eq!(take(&mut runner, 40), two([3, 2], [1, 0]));
    assert_eq!(keys(&runner), [vec![vec![50]], vec![vec![10, 20, 30, 35], vec![50, 60, 70]]]);
}

fn p8() {
    let mut runner = b(3, &[80]);
    assert_eq!(take(&mut runner, 20), two([3, 1], [0, 1]));
    assert_eq!(keys(&runner), [vec![vec![50]], vec![vec![10, 30, 35, 40], vec![50, 60, 70, 80]]]);
}

fn p9() {
    let mut runner = b(3, &[]);
    assert_eq!(done(&mut runner, Op::Seek, 38, 0).after, two([3, 1], [0, 4]));
    assert_eq!(done(&mut runner, Op::Next, 0, 0).answer.key, 40);
}

fn p10() {
    let mut runner = pool(2, [5]);
    assert_eq!(take(&mut runner, 5), Cursor::default());
    assert_eq!(runner.tree(0).root(), 0);
    assert_eq!(stack(&runner, 2), [2, 2, 1]);
}

fn no_nodes() {
    let stop = Runner::new(1, 0).call(Call::new(Op::Put, 0, 1, 1)).err();
    assert_eq!(stop, Some(Stop::NoRoom));
}

/// A in a pool of so many nodes, put 35 without room: the keys that the crate still finds.
fn keys_after_harm(room: usize) -> Vec<u32> {
    cranelift_entity::set_room(room);
    let mut bench = Bench::new(1, 1);
    for key in (1..=7).map(|k| 10 * k) {
        assert_eq!(bench.put(0, key, key), Ok(None));
    }
    assert!(bench.put(0, 35, 35).is_err());
    let found: Vec<u32> = (0..100).filter(|k| bench.get(0, *k).is_some()).collect();
    let pairs = view::tree(&bench, bench.root(0)).pairs();
    assert!(pairs.iter().map(|p| p.0).eq(found.iter().copied()));
    found
}

fn harm_one() {
    assert_eq!(keys_after_harm(1), [10, 20, 30]);
}

fn harm_two() {
    assert_eq!(keys_after_harm(2), [10, 20, 30, 35]);
}

fn thirteen() {
    let mut runner = pool(12, 1..=36);
    let cursor = take(&mut runner, 13);
    assert_eq!(stack(&runner, 12)[..4], [3, 5, 3, 12]);
    assert_eq!(runner.tree(0).root(), 11);
    assert_eq!(keys(&runner)[0], [vec![5, 9, 14, 21, 25, 29, 33]]);
    assert_eq!(cursor, two([11, 6], [3, 0]));
}

fn thirty_six() {
    let mut runner = b(3, &[36]);
    assert_eq!(take(&mut runner, 36), two([3, 2], [1, 0]));
    assert_eq!(done(&mut runner, Op::Seek, 36, 0).after, two([3, 1], [0, 4]));
}

fn two_ways() {
    for list in lists::all().iter().filter(|l| l.name.contains("mixed removal")) {
        let mut by_key = Runner::new(list.trees, list.nodes);
        let mut by_cursor = Runner::new(list.trees, list.nodes);
        for call in &list.calls {
            by_key.call(*call).expect("the call is done");
            if call.op != Op::Remove {
                by_cursor.call(*call).expect("the call is done");
            } else if done(&mut by_cursor, Op::Seek, call.key, 0).answer.found {
                done(&mut by_cursor, Op::RemoveAt, 0, 0);
            }
            assert_eq!(by_key.words(), by_cursor.words(), "{call}");
        }
    }
}

fn repeated() {
    let mut runner = pool(20, 1..=36);
    let words = runner.words().to_vec();
    for key in 1..=36 {
        put(&mut runner, key);
        assert_eq!(runner.words(), words);
    }
    let absent = each(Op::Remove, 0, [0, 37]);
    assert!(absent.iter().all(|c| runner.call(*c).is_ok_and(|s| !s.answer.found)));
    assert_eq!(runner.words(), words);
}

fn five_levels() {
    let runner = pool(512, 1..=1450);
    assert_eq!(runner.tree(0).rows.len(), 5);
}
