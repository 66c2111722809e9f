//! Each refusal, exactly then; none changes a word or a cursor.

mod common;

use common::{b, cursor, value_of, Bench};
use recorder::{check, words_for, Cursor, Found, Met, NotSound, Pool, Refusal, Shared};

#[test]
fn numbers_of_document_01() {
    use Refusal::*;
    let all = [Unsound, NoTree, NoPlace, NoRoom, NoFormat];
    assert_eq!(all.map(Refusal::number), [1, 2, 3, 4, 5]);
    assert_eq!(Refusal::from(NotSound), Unsound);
}

#[test]
fn formats_out_of_range() {
    for (trees, nodes, len) in [
        (0, 2, words_for(0, 2)),
        (33, 2, words_for(33, 2)),
        (1, 513, words_for(1, 513)),
        (u32::MAX, u32::MAX, 38),
        (1, 2, 37),
        (1, 2, 39),
        (1, 2, 0),
    ] {
        let mut words: Vec<u32> = (0..len as u32).collect();
        let before = words.clone();
        assert_eq!(Pool::format(&mut words, trees, nodes).err(), Some(Refusal::NoFormat));
        assert_eq!(Shared::of(&mut words).format(trees, nodes), Err(Refusal::NoFormat));
        assert_eq!(words, before);
    }
}

#[test]
fn smallest_and_largest_formats() {
    for (trees, nodes) in [(1, 0), (32, 512)] {
        let mut words = vec![9; words_for(trees, nodes)];
        let pool = Pool::format(&mut words, trees, nodes).expect("the format is done");
        assert_eq!((pool.trees(), pool.nodes(), pool.free()), (trees, nodes, nodes));
        assert!(check(pool.words()));
    }
}

#[test]
fn no_nodes() {
    let mut bench = Bench::new(1, 0);
    assert_eq!(bench.put(0, 1, 1), Err(Refusal::NoRoom));
    assert_eq!(bench.get(0, 1), Ok(Found::Nothing));
}

#[test]
fn last_tree_and_one_above() {
    let mut bench = Bench::new(3, 2);
    assert_eq!(bench.put(2, 1, 1), Ok(Found::Nothing));
    for tree in [3, 4, u32::MAX] {
        assert_eq!(bench.put(tree, 1, 1), Err(Refusal::NoTree));
        assert_eq!(bench.get(tree, 1), Err(Refusal::NoTree));
        assert_eq!(bench.remove(tree, 1), Err(Refusal::NoTree));
        // The tree number comes before the cursor, which would not stand.
        let at = Cursor::of_parts(tree, 99, [7; 16], [7; 16]);
        every_cursor_call(&mut bench, at, [Err(Refusal::NoTree); 6]);
        let mut words = bench.words().to_vec();
        let pool = Pool::open(&mut words).expect("the words are sound");
        assert_eq!(pool.iter(tree).err(), Some(Refusal::NoTree));
        assert_eq!(pool.tree(tree).err(), Some(Refusal::NoTree));
    }
}

#[test]
fn cursors_that_do_not_stand() {
    let mut bench = b(3);
    let mut old = cursor(&[(3, 0), (1, 0)]);
    assert_eq!(bench.next(&mut old), Ok(Met::Pair(20, value_of(20))));
    let mut beyond = [0; 16];
    beyond[5] = 1;
    for at in [
        Cursor::of_parts(0, 0, beyond, [0; 16]),
        Cursor::of_parts(0, 0, [0; 16], beyond),
        Cursor::of_parts(0, 17, [3; 16], [0; 16]),
        Cursor::of_parts(0, u32::MAX, [3; 16], [0; 16]),
        cursor(&[(3, 0)]),
        cursor(&[(1, 0)]),
        cursor(&[(3, 0), (2, 0)]),
        cursor(&[(3, 2), (2, 0)]),
        cursor(&[(3, 0), (1, 5)]),
        cursor(&[(3, 0), (1, u32::MAX)]),
        cursor(&[(3, u32::MAX), (1, 0)]),
        cursor(&[(u32::MAX, 0), (1, 0)]),
        cursor(&[(3, 0), (1, 0), (1, 0)]),
    ] {
        let no = Err(Refusal::NoPlace);
        every_cursor_call(&mut bench, at, [Ok(()), Ok(()), no, no, no, no]);
    }
}

#[test]
fn stale_cursor() {
    let (mut bench, mut at) = (b(3), Cursor::of_tree(0));
    assert_eq!(bench.seek(&mut at, 40), Ok(Found::Value(value_of(40))));
    // The leaves become one, which is the root.
    assert_eq!(bench.remove(0, 10), Ok(Found::Value(value_of(10))));
    assert_eq!(bench.next(&mut at), Err(Refusal::NoPlace));
    assert_eq!(bench.prev(&mut at), Err(Refusal::NoPlace));
    assert_eq!(bench.settle(&mut at), Err(Refusal::NoPlace));
    assert_eq!(bench.remove_at(&mut at), Err(Refusal::NoPlace));
    // Seek reads only its tree number.
    assert_eq!(bench.seek(&mut at, 40), Ok(Found::Value(value_of(40))));
    assert_eq!(bench.next(&mut at), Ok(Met::Pair(50, value_of(50))));
}

#[test]
fn kept_cursor_is_judged_by_where_it_points() {
    let (mut bench, mut at) = (b(3), Cursor::of_tree(0));
    assert_eq!(bench.seek(&mut at, 50), Ok(Found::Value(value_of(50))));
    assert_eq!(bench.remove(0, 50), Ok(Found::Value(value_of(50))));
    assert_eq!(bench.next(&mut at), Ok(Met::Pair(70, value_of(70))));
}

#[test]
fn words_that_are_no_pool() {
    let sound = b(3).words().to_vec();
    let mut broken: Vec<Vec<u32>> = vec![vec![], vec![1], sound[1..].to_vec()];
    // T, the root, N, a leaf's first word, its keys and unused places, a child, F, the stack.
    for at in [0, 1, 2, 3, 4, 9, 18, 35, 36, 43, 45, 51, 52] {
        let mut words = sound.clone();
        words[at] ^= 64;
        broken.push(words);
    }
    for mut words in broken {
        let before = words.clone();
        assert!(!check(&words));
        assert_eq!(Pool::open(&mut words).err(), Some(NotSound));
        let shared = Shared::of(&mut words);
        assert_eq!(format!("{shared:?}"), "not a sound pool");
        let no = Err(Refusal::Unsound);
        // Refusal 1 comes before 2 and 3.
        for tree in [0, 99] {
            assert_eq!(
                [shared.get(tree, 10), shared.remove(tree, 10), shared.put(tree, 35, 1)],
                [no; 3]
            );
            let mut at = Cursor::of_parts(tree, 99, [7; 16], [8; 16]);
            let given = at;
            let found = [shared.seek(&mut at, 10), shared.remove_at(&mut at)];
            let met = [shared.first(&mut at), shared.next(&mut at), shared.prev(&mut at)];
            assert_eq!((found, met), ([no; 2], [Err(Refusal::Unsound); 3]));
            assert_eq!(shared.settle(&mut at), Err(Refusal::Unsound));
            assert_eq!(at, given);
        }
        assert_eq!(words, before);
    }
}

/// First, seek, settle, next, prev and remove at a cursor, each from the same cursor.
fn every_cursor_call(bench: &mut Bench, at: Cursor, expected: [Result<(), Refusal>; 6]) {
    let answers = [
        bench.first(&mut at.clone()).map(drop),
        bench.seek(&mut at.clone(), 35).map(drop),
        bench.settle(&mut at.clone()),
        bench.next(&mut at.clone()).map(drop),
        bench.prev(&mut at.clone()).map(drop),
        bench.remove_at(&mut at.clone()).map(drop),
    ];
    assert_eq!(answers, expected, "{at:?}");
}
