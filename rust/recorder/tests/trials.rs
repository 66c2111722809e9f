//! The bench trials of document 01, and its two lists of words.

mod common;

use common::{a, b, cursor, value_of, Bench};
use recorder::{Cursor, Found, Met, Refusal};

const OFF_END: Cursor = Cursor::of_tree(0);

#[test]
fn two_lists_of_38_words() {
    let mut bench = Bench::new(1, 2);
    let mut fresh = vec![1, 0, 2];
    fresh.extend([0; 32]);
    fresh.extend([2, 2, 1]);
    assert_eq!(bench.words(), fresh);

    assert_eq!(bench.put(0, 9, 100), Ok(Found::Nothing));
    let mut after = vec![1, 1, 2, 33, 9, 0, 0, 0, 0, 0, 0, 100];
    after.extend([0; 7]);
    after.extend([0; 16]);
    after.extend([1, 2, 0]);
    assert_eq!(bench.words(), after);
    assert_eq!(after.len(), 38);
}

#[test]
fn five_lines_of_the_replay() {
    let mut bench = Bench::new(1, 2);
    assert_eq!(bench.put(0, 9, 100), Ok(Found::Nothing));
    assert_eq!(bench.put(0, 9, 100), Ok(Found::Value(100)));
    assert_eq!(bench.get(0, 9), Ok(Found::Value(100)));
    assert_eq!(bench.remove(0, 9), Ok(Found::Value(100)));
    assert_eq!(bench.get(0, 9), Ok(Found::Nothing));
}

#[test]
fn p1_b() {
    assert_eq!(b(3).text(0), "10,20,30,35 / 40,50,60,70, separator 40");
}

#[test]
fn p2_a_with_45() {
    let mut bench = a(3);
    assert_eq!(bench.put(0, 45, 1), Ok(Found::Nothing));
    assert_eq!(bench.text(0), "10,20,30,40 / 45,50,60,70, separator 45");
}

#[test]
fn p3_no_room_in_two_nodes() {
    let mut bench = a(2);
    assert_eq!(bench.put(0, 35, 1), Err(Refusal::NoRoom));
    assert_eq!(bench.text(0), "10,20,30,40,50,60,70");
}

#[test]
fn p4_room_in_three_nodes() {
    let mut bench = b(3);
    assert_eq!(bench.stack(), [0, 0, 0, 0]);
    assert_eq!(bench.put(0, 35, value_of(35)), Ok(Found::Value(value_of(35))));
}

#[test]
fn p5_b_without_10() {
    let mut bench = b(3);
    assert_eq!(bench.take(10), cursor(&[(2, 0)]));
    assert_eq!(bench.text(0), "20,30,35,40,50,60,70");
    assert_eq!(bench.root(), 2);
    assert_eq!(bench.stack(), [2, 1, 3, 0]);
}

#[test]
fn p6_b_without_70() {
    let mut bench = b(3);
    assert_eq!(bench.take(70), OFF_END);
    assert_eq!(bench.text(0), "10,20,30,35 / 40,50,60, separator 40");
}

#[test]
fn p7_b_without_40() {
    let mut bench = b(3);
    assert_eq!(bench.take(40), cursor(&[(3, 1), (2, 0)]));
    assert_eq!(bench.text(0), "10,20,30,35 / 50,60,70, separator 50");
}

#[test]
fn p8_b_with_80_without_20() {
    let mut bench = b(3);
    assert_eq!(bench.put(0, 80, 1), Ok(Found::Nothing));
    assert_eq!(bench.take(20), cursor(&[(3, 0), (1, 1)]));
    assert_eq!(bench.text(0), "10,30,35,40 / 50,60,70,80, separator 50");
}

#[test]
fn p9_seek_38_in_b() {
    let (mut bench, mut at) = (b(3), OFF_END);
    assert_eq!(bench.seek(&mut at, 38), Ok(Found::Nothing));
    assert_eq!(at, cursor(&[(3, 0), (1, 4)]));
    assert_eq!(bench.next(&mut at), Ok(Met::Pair(40, value_of(40))));
}

#[test]
fn p10_one_pair_removed() {
    let mut bench = Bench::with(2, [5]);
    assert_eq!(bench.take(5), OFF_END);
    assert_eq!(bench.root(), 0);
    assert_eq!(bench.stack(), [2, 2, 1]);
}

#[test]
fn thirteen_removed_from_three_levels() {
    let mut bench = Bench::with(12, 1..=36);
    assert_eq!(bench.take(13), cursor(&[(11, 3), (6, 0)]));
    assert_eq!(bench.stack()[..4], [3, 5, 3, 12]);
    assert_eq!(bench.root(), 11);
    assert!(bench.text(0).ends_with(", separators 5,9,14,21,25,29,33"));
}

#[test]
fn remove_by_key_equals_remove_at_the_cursor() {
    let (mut by_key, mut by_cursor) = (Bench::with(40, 1..=90), Bench::with(40, 1..=90));
    for key in (0..90).map(|i| 1 + i * 37 % 90) {
        assert_eq!(by_key.remove(0, key), Ok(Found::Value(value_of(key))));
        by_cursor.take(key);
        assert_eq!(by_key.words(), by_cursor.words());
    }
    assert_eq!(by_key.root(), 0);
}
