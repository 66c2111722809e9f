//! Walks, repeats, printing, and long runs against the standard library's map.

mod common;

use common::{a, b, cursor, value_of, Bench};
use recorder::{check, words_for, Cursor, Found, Met, Pool, Refusal, Shared};
use std::collections::BTreeMap;

/// Numbers from a fixed start: the upper half of a 64-bit sequence.
struct Dice(u64);

impl Dice {
    fn below(&mut self, n: u32) -> u32 {
        self.0 = self.0.wrapping_mul(6364136223846793005).wrapping_add(1442695040888963407);
        (((self.0 >> 32) * u64::from(n)) >> 32) as u32
    }
}

fn found(value: Option<u32>) -> Result<Found, Refusal> {
    Ok(value.map_or(Found::Nothing, Found::Value))
}

fn met(pair: Option<(&u32, &u32)>) -> Result<Met, Refusal> {
    Ok(pair.map_or(Met::Nothing, |(key, value)| Met::Pair(*key, *value)))
}

#[test]
fn least_and_greatest_key() {
    let mut bench = Bench::new(1, 1);
    for key in [u32::MAX, 0, 5] {
        assert_eq!(bench.put(0, key, key), Ok(Found::Nothing));
        assert_eq!(bench.get(0, key), Ok(Found::Value(key)));
    }
    assert_eq!(bench.text(0), "0,5,4294967295");
    let mut at = Cursor::of_tree(0);
    assert_eq!(bench.first(&mut at), Ok(Met::Pair(0, 0)));
    assert_eq!(bench.seek(&mut at, u32::MAX), Ok(Found::Value(u32::MAX)));
    assert_eq!(bench.next(&mut at), Ok(Met::Nothing));
    assert_eq!(bench.remove(0, 0), Ok(Found::Value(0)));
    assert_eq!(bench.remove(0, u32::MAX), Ok(Found::Value(u32::MAX)));
    assert_eq!(bench.text(0), "5");
}

#[test]
fn repeated_put_changes_no_word() {
    let mut bench = Bench::with(20, 1..=36);
    let words = bench.words().to_vec();
    for key in 1..=36 {
        assert_eq!(bench.put(0, key, value_of(key)), Ok(Found::Value(value_of(key))));
        assert_eq!(bench.words(), words);
    }
    assert_eq!(bench.remove(0, 37), Ok(Found::Nothing));
    assert_eq!(bench.words(), words);
}

#[test]
fn replacing_needs_no_node() {
    let mut bench = a(1);
    assert_eq!(bench.put(0, 40, 1), Ok(Found::Value(value_of(40))));
    assert_eq!(bench.get(0, 40), Ok(Found::Value(1)));
    assert_eq!(bench.put(0, 41, 1), Err(Refusal::NoRoom));
}

#[test]
fn one_past_a_leaf() {
    let (mut bench, mut at) = (b(3), Cursor::of_tree(0));
    assert_eq!(bench.seek(&mut at, 38), Ok(Found::Nothing));
    let past = at;
    assert_eq!(bench.remove_at(&mut at), Ok(Found::Nothing));
    assert_eq!(at, past);
    assert_eq!(bench.settle(&mut at), Ok(()));
    assert_eq!(at, cursor(&[(3, 1), (2, 0)]));
    assert_eq!(bench.settle(&mut at), Ok(()));
    assert_eq!(at, cursor(&[(3, 1), (2, 0)]));
    at = past;
    assert_eq!(bench.prev(&mut at), Ok(Met::Pair(35, value_of(35))));
    assert_eq!(bench.seek(&mut at, 71), Ok(Found::Nothing));
    assert_eq!(bench.settle(&mut at), Ok(()));
    assert_eq!(at, Cursor::of_tree(0));
}

#[test]
fn off_the_end_and_in_an_empty_tree() {
    let (mut bench, mut at) = (a(1), Cursor::of_tree(0));
    assert_eq!(bench.next(&mut at), Ok(Met::Nothing));
    assert_eq!(bench.remove_at(&mut at), Ok(Found::Nothing));
    assert_eq!(bench.prev(&mut at), Ok(Met::Pair(70, value_of(70))));
    assert_eq!(bench.first(&mut at), Ok(Met::Pair(10, value_of(10))));
    let first = at;
    assert_eq!(bench.prev(&mut at), Ok(Met::Nothing));
    assert_eq!(at, first);

    let (mut empty, mut at) = (Bench::new(2, 1), Cursor::of_tree(1));
    assert_eq!(empty.first(&mut at), Ok(Met::Nothing));
    assert_eq!(empty.seek(&mut at, 5), Ok(Found::Nothing));
    assert_eq!(empty.prev(&mut at), Ok(Met::Nothing));
    assert_eq!(at, Cursor::of_tree(1));
}

#[test]
fn seek_before_a_key_stands_on_it() {
    let (mut bench, mut at) = (a(1), Cursor::of_tree(0));
    assert_eq!(bench.seek(&mut at, 35), Ok(Found::Nothing));
    assert_eq!(bench.next(&mut at), Ok(Met::Pair(50, value_of(50))));
}

#[test]
fn a_run_of_calls_by_key() {
    let mut dice = Dice(9);
    let mut words = vec![0; words_for(3, 200)];
    let mut pool = Pool::format(&mut words, 3, 200).expect("the format is done");
    let mut maps = vec![BTreeMap::new(); 3];
    for i in 0..6000 {
        let (tree, key, value) = (dice.below(3), dice.below(150), dice.below(u32::MAX));
        let map = &mut maps[tree as usize];
        match dice.below(20) {
            0..=2 => assert_eq!(pool.get(tree, key), found(map.get(&key).copied())),
            d if (d < 13) == (i < 3000) => {
                assert_eq!(pool.put(tree, key, value), found(map.insert(key, value)));
            }
            _ => assert_eq!(pool.remove(tree, key), found(map.remove(&key))),
        }
        if i % 50 == 0 {
            assert!(check(pool.words()));
            for (tree, map) in (0..).zip(&maps) {
                let pairs = pool.iter(tree).expect("the tree is there");
                assert!(pairs.eq(map.iter().map(|(key, value)| (*key, *value))));
            }
        }
    }
}

#[test]
fn a_run_of_cursor_calls() {
    let mut dice = Dice(35);
    let mut bench = Bench::with(60, 0..120);
    let mut map: BTreeMap<u32, u32> = (0..120).map(|key| (key, value_of(key))).collect();
    for _ in 0..120 {
        let (key, mut at) = (dice.below(122), Cursor::of_tree(0));
        assert_eq!(bench.seek(&mut at, key), found(map.get(&key).copied()));
        assert_eq!(bench.prev(&mut at.clone()), met(map.range(..key).next_back()));
        assert_eq!(bench.settle(&mut at), Ok(()));
        let on = map.range(key..).next().map(|(key, value)| (*key, *value));
        assert_eq!(bench.remove_at(&mut at), found(on.map(|(_, value)| value)));
        if let Some((key, _)) = on {
            map.remove(&key);
        }
        // The cursor is on the next pair.
        assert_eq!(bench.prev(&mut at.clone()), met(map.range(..key).next_back()));
        assert_eq!(bench.next(&mut at), met(map.range(key..).nth(1)));
    }
}

#[test]
fn iterator_over_an_empty_tree_and_past_its_end() {
    let mut words = vec![0; words_for(2, 1)];
    let mut pool = Pool::format(&mut words, 2, 1).expect("the format is done");
    assert_eq!(pool.put(1, 4, 5), Ok(Found::Nothing));
    assert_eq!(pool.iter(0).map(Iterator::count), Ok(0));
    let mut pairs = pool.iter(1).expect("the tree is there");
    assert_eq!([pairs.next(), pairs.next(), pairs.next()], [Some((4, 5)), None, None]);
    assert_eq!(pool.iter(2).err(), Some(Refusal::NoTree));
}

#[test]
fn holders_of_the_same_words() {
    let mut words = vec![0; words_for(1, 2)];
    let one = Shared::of(&mut words);
    let other = Shared::new(one.cells());
    assert_eq!(one.format(1, 2), Ok(()));
    assert_eq!(other.put(0, 9, 100), Ok(Found::Nothing));
    assert_eq!(one.get(0, 9), Ok(Found::Value(100)));
    one.cells()[3].set(0);
    assert_eq!(other.get(0, 9), Err(Refusal::Unsound));
    one.cells()[3].set(33);
    assert_eq!(other.get(0, 9), Ok(Found::Value(100)));
}

#[test]
fn printed_pools() {
    let mut words = b(4).words().to_vec();
    assert_eq!(
        format!("{:?}", Shared::of(&mut words)),
        "tree 0: 10,20,30,35 / 40,50,60,70, separator 40; F = 1 of 4"
    );
    let pool = Pool::open(&mut words).expect("the words are sound");
    assert_eq!(
        format!("{pool:#?}"),
        "tree 0: 10,20,30,35 / 40,50,60,70, separator 40\nF = 1 of 4, stack 4"
    );
    assert_eq!(pool.into_words(), b(4).words());
    assert_eq!(Bench::new(1, 0).text(0), "empty");
    assert_eq!(
        format!("{:?}", cursor(&[(3, 0), (1, 4)])),
        "tree 0, node 3 place 0, node 1 place 4"
    );
    assert_eq!(format!("{:?}", Cursor::of_tree(2)), "tree 2, off the end");
}

#[test]
fn printed_cursors_that_do_not_stand() {
    let levels = |at: usize, n: u32| std::array::from_fn(|i| if i == at { n } else { 0 });
    let printed = |size, nodes, places| format!("{:?}", Cursor::of_parts(1, size, nodes, places));
    assert_eq!(printed(0, levels(0, 5), [0; 16]), "tree 1, size 0, node 5 place 0");
    assert_eq!(
        printed(1, levels(0, 5), levels(1, 2)),
        "tree 1, size 1, node 5 place 0, node 0 place 2"
    );
    assert_eq!(printed(17, levels(0, 5), [0; 16]), "tree 1, size 17, node 5 place 0");
    assert_eq!(printed(1, [0; 16], [0; 16]), "tree 1, node 0 place 0");
}

#[test]
fn printed_iterators() {
    let mut words = b(3).words().to_vec();
    let pool = Pool::open(&mut words).expect("the words are sound");
    let mut pairs = pool.iter(0).expect("the tree is there");
    assert_eq!(format!("{pairs:?}"), "pairs of tree 0, not begun");
    assert_eq!(pairs.nth(4), Some((40, value_of(40))));
    assert_eq!(format!("{pairs:?}"), "pairs of tree 0, node 3 place 1, node 2 place 0");
    assert_eq!(pairs.by_ref().count(), 3);
    assert_eq!(format!("{pairs:?}"), "pairs of tree 0, off the end");
}

#[test]
fn printed_levels() {
    let mut bench = Bench::with(20, 1..=24);
    let leaves = "1,2,3,4 / 5,6,7,8 / 9,10,11,12 / 13,14,15,16 / 17,18,19,20 / 21,22,23,24";
    assert_eq!(bench.text(0), format!("{leaves}, separators 5,9,13,17,21"));

    let mut bench = Bench::with(20, 1..=36);
    for key in (18..=36).rev() {
        assert_eq!(bench.remove(0, key), Ok(Found::Value(value_of(key))));
    }
    // The last inner node has a single child, and so no separator.
    let leaves = "1,2,3,4 / 5,6,7,8 / 9,10,11,12 / 13,14,15,16 / 17";
    assert_eq!(bench.text(0), format!("{leaves}, separators 5,9,13 / -, separator 17"));
}
