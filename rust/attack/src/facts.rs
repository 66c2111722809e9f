//! What document 01 writes out in numbers, run before anything is drawn: so that an error which the rules here share with
//! the library would still be seen.

use crate::expect::expected;
use crate::guard::vast;
use crate::raw::{self, Call, Cursor, Moved};
use crate::sound::{Pool, read};
use crate::trial::{Finding, State, Trial};

/// Tree A.
const A: [u32; 7] = [10, 20, 30, 40, 50, 60, 70];

/// A pool of one tree with these keys put in this order, each with the value key + 1000.
fn filled(trial: &mut Trial, nodes: usize, keys: &[u32]) -> Result<State, Finding> {
    let mut state = State::new(Pool::fresh(1, nodes).words());
    for &key in keys {
        trial.call(&mut state, &Call::Put(0, key, key + 1000))?;
    }
    Ok(state)
}

/// A, and 35 after it, and perhaps one more.
fn filled_b(trial: &mut Trial, more: &[u32]) -> Result<State, Finding> {
    filled(trial, 3, &[&A[..], &[35], more].concat())
}

fn at_key(trial: &mut Trial, state: &mut State, key: u32) -> Result<Cursor, Finding> {
    Ok(trial.call(state, &Call::Seek(Cursor::default(), key))?.cursor)
}

/// Seeks a key and removes at the cursor.
fn remove(trial: &mut Trial, state: &mut State, key: u32) -> Result<Moved, Finding> {
    let at = at_key(trial, state, key)?;
    trial.call(state, &Call::RemoveAt(at))
}

/// The keys of a leaf, by its node's number, in a pool of one tree.
fn leaf(state: &State, number: usize) -> &[u32] {
    let node = &state.words[3 + 16 * (number - 1)..];
    assert!(node[0] > 32, "node {number} is a leaf");
    &node[1..1 + node[0] as usize - 32]
}

/// The keys of the root, an inner node.
fn separators(state: &State) -> &[u32] {
    let node = &state.words[3 + 16 * (state.words[1] as usize - 1)..];
    assert!((16..24).contains(&node[0]), "the root is inner");
    &node[1..1 + node[0] as usize - 16]
}

/// The free nodes, the top last.
fn stack(state: &State) -> &[u32] {
    let at = 3 + 16 * state.words[2] as usize;
    &state.words[at + 1..at + 1 + state.words[at] as usize]
}

/// The cursor of tree 0 with these nodes and places.
fn cursor(nodes: &[u32], places: &[u32]) -> Cursor {
    let mut at = Cursor { size: nodes.len() as u32, ..Cursor::default() };
    at.nodes[..nodes.len()].copy_from_slice(nodes);
    at.places[..places.len()].copy_from_slice(places);
    at
}

/// The two lists of 38 words.
fn written_out(trial: &mut Trial) -> Result<(), Finding> {
    let mut state = State::new(vec![9; 38]);
    trial.call(&mut state, &Call::Format(1, 2))?;
    let mut words = vec![1, 0, 2];
    words.resize(35, 0);
    words.extend([2, 2, 1]);
    assert_eq!(state.words, words);
    trial.call(&mut state, &Call::Put(0, 9, 100))?;
    let mut words = vec![1, 1, 2, 33, 9, 0, 0, 0, 0, 0, 0, 100];
    words.resize(35, 0);
    words.extend([1, 2, 0]);
    assert_eq!(state.words, words);
    Ok(())
}

/// P1 to P4: splits, and lack of room.
fn puts(trial: &mut Trial) -> Result<(), Finding> {
    let state = filled_b(trial, &[])?;
    assert_eq!((leaf(&state, 1), leaf(&state, 2)), (&[10, 20, 30, 35][..], &[40, 50, 60, 70][..]));
    assert_eq!((separators(&state), stack(&state)), (&[40][..], &[][..]));
    let state = filled(trial, 3, &[&A[..], &[45]].concat())?;
    assert_eq!((leaf(&state, 1), leaf(&state, 2)), (&[10, 20, 30, 40][..], &[45, 50, 60, 70][..]));
    assert_eq!(separators(&state), [45]);
    let mut state = filled(trial, 2, &A)?;
    assert_eq!(trial.call(&mut state, &Call::Put(0, 35, 1))?.answer.number, 4);
    let mut state = filled_b(trial, &[])?;
    let again = trial.call(&mut state, &Call::Put(0, 35, 1))?.answer;
    assert_eq!((again.number, again.found, again.value), (0, 1, 1035));
    let mut state = State::new(Pool::fresh(1, 0).words());
    assert_eq!(trial.call(&mut state, &Call::Put(0, 1, 1))?.answer.number, 4);
    Ok(())
}

/// P5 to P10: removals at a cursor, and a seek past a leaf.
fn removals(trial: &mut Trial) -> Result<(), Finding> {
    let mut state = filled_b(trial, &[])?;
    let moved = remove(trial, &mut state, 10)?;
    assert_eq!((leaf(&state, 2), stack(&state)), (&[20, 30, 35, 40, 50, 60, 70][..], &[1, 3][..]));
    assert_eq!(moved.cursor, cursor(&[2], &[0]));
    let mut state = filled_b(trial, &[])?;
    let moved = remove(trial, &mut state, 70)?;
    assert_eq!((leaf(&state, 2), moved.cursor), (&[40, 50, 60][..], cursor(&[], &[])));
    let mut state = filled_b(trial, &[])?;
    let moved = remove(trial, &mut state, 40)?;
    assert_eq!((separators(&state), moved.cursor), (&[50][..], cursor(&[3, 2], &[1, 0])));
    let mut state = filled_b(trial, &[80])?;
    let moved = remove(trial, &mut state, 20)?;
    assert_eq!((leaf(&state, 1), leaf(&state, 2)), (&[10, 30, 35, 40][..], &[50, 60, 70, 80][..]));
    assert_eq!((separators(&state), moved.cursor), (&[50][..], cursor(&[3, 1], &[0, 1])));
    let mut state = filled_b(trial, &[])?;
    let at = at_key(trial, &mut state, 38)?;
    assert_eq!(at, cursor(&[3, 1], &[0, 4]));
    assert_eq!(trial.call(&mut state, &Call::Next(at))?.answer.key, 40);
    let mut state = filled(trial, 3, &[5])?;
    remove(trial, &mut state, 5)?;
    assert_eq!((state.words[1], stack(&state)), (0, &[3, 2, 1][..]));
    Ok(())
}

/// The ends of T and N, and the first past them; in the pools that they give, the first and last tree and key.
fn ends(trial: &mut Trial) -> Result<(), Finding> {
    let sizes = [
        (1, 0),
        (32, 0),
        (1, 1),
        (1, 512),
        (32, 512),
        (0, 0),
        (33, 0),
        (0, 512),
        (33, 512),
        (1, 513),
        (32, 513),
    ];
    for (trees, nodes) in sizes {
        let fits = (1..=32).contains(&trees) && nodes <= 512;
        let len = (trees + 17 * nodes + 3) as usize;
        for other in [len - 1, len + 1] {
            let mut state = State::new(vec![7; other]);
            assert_eq!(trial.call(&mut state, &Call::Format(trees, nodes))?.answer.number, 5);
        }
        let mut state = State::new(vec![7; len]);
        let number = trial.call(&mut state, &Call::Format(trees, nodes))?.answer.number;
        assert_eq!(number, if fits { 0 } else { 5 });
        for key in [0, u32::MAX] {
            let put =
                trial.call(&mut state, &Call::Put(trees.wrapping_sub(1), key, 1))?.answer.number;
            assert_eq!(
                put,
                if !fits {
                    1
                } else if nodes == 0 {
                    4
                } else {
                    0
                }
            );
            let above = trial.call(&mut state, &Call::Get(trees, key))?.answer.number;
            assert_eq!(above, if fits { 2 } else { 1 });
        }
    }
    Ok(())
}

/// Two removals that the crate was seen to do: a merge across parents, and a cursor that goes on to the next leaf.
fn seen(trial: &mut Trial) -> Result<(), Finding> {
    let keys: Vec<u32> = (1..=36).collect();
    let mut state = filled(trial, 12, &keys)?;
    let before = stack(&state).len();
    let moved = remove(trial, &mut state, 13)?;
    assert_eq!(stack(&state)[before..], [5, 3, 12]);
    assert_eq!((state.words[1], separators(&state)), (11, &[5, 9, 14, 21, 25, 29, 33][..]));
    assert_eq!(moved.cursor, cursor(&[11, 6], &[3, 0]));
    let mut state = filled_b(trial, &[36])?;
    assert_eq!(remove(trial, &mut state, 36)?.cursor, cursor(&[3, 2], &[1, 0]));
    Ok(())
}

/// A count of words that is right but for 2^32 more of them.
fn too_many() -> Result<(), Finding> {
    let small = Pool::fresh(1, 2).put(0, 9, 100).words();
    let Some(words) = vast(small.len() + (1 << 32)) else {
        eprintln!(
            "attack: 2^32 words and more are not tried: the system gives no address space for them"
        );
        return Ok(());
    };
    words[..small.len()].copy_from_slice(&small);
    let at = Cursor::default();
    let calls = [
        Call::Check,
        Call::Format(1, 2),
        Call::Get(0, 9),
        Call::Put(0, 9, 5),
        Call::Remove(0, 9),
        Call::First(at),
        Call::Seek(at, 9),
        Call::Settle(at),
        Call::Next(at),
        Call::Prev(at),
        Call::RemoveAt(at),
    ];
    for call in calls {
        let asked = expected(&call, words, &read(words)).moved;
        // SAFETY: the words are there, every one.
        let moved = unsafe { raw::public(&call, words.as_mut_ptr(), words.len()) };
        if moved != asked
            || words[..small.len()] != small
            || words[small.len()..][..4096] != [0; 4096]
        {
            return Err(format!("{} of 2^32 words too many answers {moved:?}", call.name()));
        }
    }
    Ok(())
}

/// Runs all of it. A number that differs panics, since then the rules here are wrong too.
pub fn run(trial: &mut Trial) -> Result<(), Finding> {
    written_out(trial)?;
    ends(trial)?;
    puts(trial)?;
    removals(trial)?;
    seen(trial)?;
    too_many()
}
