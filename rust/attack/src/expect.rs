//! What document 01 asks of a call: the answer, the cursor and every word afterwards, from the words before.

use crate::raw::{Answer, Call, Cursor, Moved};
use crate::rules::Spot;
use crate::sound::{Broken, Pool, Tree};

/// What is asked: the answer with the cursor, and the pool afterwards; none if no word may change.
pub struct Expected {
    pub moved: Moved,
    pub after: Option<Pool>,
}

/// A place: one of a leaf's, which may be one past its last entry, or off the end.
#[derive(Clone, Copy, PartialEq, Eq)]
enum Place {
    At(usize, usize),
    Off,
}

/// The cursor of a place.
fn cursor(number: u32, tree: &Tree, place: Place) -> Cursor {
    let mut at = Cursor { tree: number, ..Cursor::default() };
    let Place::At(leaf, place) = place else { return at };
    at.size = tree.rows.len() as u32;
    let (mut index, mut here) = (leaf, place);
    for level in (0..tree.rows.len()).rev() {
        at.nodes[level] = tree.rows[level][index].number;
        at.places[level] = here as u32;
        if level > 0 {
            (index, here) = tree.parent(level, index);
        }
    }
    at
}

/// Where a cursor stands in its tree, if it does: where the cursor made of that place is the same, bit for bit.
fn stands(tree: &Tree, at: &Cursor) -> Option<Place> {
    if at.size == 0 {
        return (cursor(at.tree, tree, Place::Off) == *at).then_some(Place::Off);
    }
    if at.size as usize != tree.rows.len() {
        return None;
    }
    let bottom = at.size as usize - 1;
    let leaf = tree.leaves().iter().position(|leaf| leaf.number == at.nodes[bottom])?;
    let place = at.places[bottom] as usize;
    let here = Place::At(leaf, place);
    (place <= tree.leaves()[leaf].items.len() && cursor(at.tree, tree, here) == *at).then_some(here)
}

/// Does the cursor stand in a tree of the pool?
pub fn cursor_stands(pool: &Pool, at: &Cursor) -> bool {
    pool.trees.get(at.tree as usize).is_some_and(|tree| stands(tree, at).is_some())
}

/// The cursors of a place in a tree that is not empty, by the numbers of leaf and place; made to fit.
pub fn cursor_in(pool: &Pool, number: usize, leaf: usize, place: usize) -> Cursor {
    let tree = &pool.trees[number];
    let leaf = leaf % tree.leaves().len();
    let place = place % (tree.leaves()[leaf].items.len() + 1);
    cursor(number as u32, tree, Place::At(leaf, place))
}

/// The place of the pair of some rank in the sorted list.
fn place_of_rank(tree: &Tree, rank: usize) -> Place {
    let mut before = 0;
    for (leaf, node) in tree.leaves().iter().enumerate() {
        if rank < before + node.items.len() {
            return Place::At(leaf, rank - before);
        }
        before += node.items.len();
    }
    Place::Off
}

/// The rank of a place: how many pairs are before it.
fn rank(tree: &Tree, place: Place) -> usize {
    let whole = tree.leaves();
    match place {
        Place::Off => whole.iter().map(|leaf| leaf.items.len()).sum(),
        Place::At(leaf, place) => {
            whole[..leaf].iter().map(|leaf| leaf.items.len()).sum::<usize>() + place
        }
    }
}

fn refused(call: &Call, number: u32) -> Expected {
    let answer = Answer { number, ..Answer::default() };
    Expected { moved: Moved { answer, cursor: call.cursor() }, after: None }
}

/// Done, with a value or without, and no word changed.
fn value(held: Option<u32>, cursor: Cursor) -> Expected {
    let answer =
        Answer { found: u8::from(held.is_some()), value: held.unwrap_or(0), ..Answer::default() };
    Expected { moved: Moved { answer, cursor }, after: None }
}

/// Done, at a place, with the pair of a rank in the sorted list if there is one.
fn pair(number: u32, tree: &Tree, place: Place, rank: Option<usize>) -> Expected {
    let pair = rank.and_then(|rank| tree.pairs().get(rank).copied());
    let (key, value) = pair.unwrap_or((0, 0));
    let answer = Answer { number: 0, found: u8::from(pair.is_some()), key, value };
    Expected { moved: Moved { answer, cursor: cursor(number, tree, place) }, after: None }
}

/// Formatting looks at T, N and the length alone.
fn format(call: &Call, len: usize, trees: u32, nodes: u32) -> Expected {
    let fits = (1..=32).contains(&trees)
        && nodes <= 512
        && len == trees as usize + 17 * nodes as usize + 3;
    if !fits {
        return refused(call, 5);
    }
    let after = Some(Pool::fresh(trees as usize, nodes as usize));
    Expected { after, ..value(None, Cursor::default()) }
}

/// Taking out the pair at a place of a tree.
fn remove(pool: &Pool, number: u32, leaf: usize, place: usize) -> Expected {
    let tree = &pool.trees[number as usize];
    let rank = rank(tree, Place::At(leaf, place));
    let after = pool.remove(number as usize, leaf, place);
    let left = &after.trees[number as usize];
    let cursor = cursor(number, left, place_of_rank(left, rank));
    Expected { after: Some(after), ..value(Some(tree.pairs()[rank].1), cursor) }
}

/// Where a key is or belongs; none in an empty tree.
fn spot(tree: &Tree, key: u32) -> Option<Spot> {
    (!tree.rows.is_empty()).then(|| tree.spot(key))
}

/// Calls by key, on a tree that is there.
fn by_key(call: &Call, pool: &Pool, number: u32) -> Expected {
    let tree = &pool.trees[number as usize];
    let listed = |key| tree.pairs().iter().find(|pair| pair.0 == key).map(|pair| pair.1);
    match *call {
        Call::Get(_, key) => value(listed(key), Cursor::default()),
        Call::Put(_, key, new) => {
            if tree.need(key) > pool.free.len() {
                return refused(call, 4);
            }
            let after = Some(pool.put(number as usize, key, new));
            Expected { after, ..value(listed(key), Cursor::default()) }
        }
        Call::Remove(_, key) => match spot(tree, key) {
            Some(Spot { leaf, place, held: Some(_) }) => {
                let mut expected = remove(pool, number, leaf, place);
                expected.moved.cursor = Cursor::default();
                expected
            }
            _ => value(None, Cursor::default()),
        },
        Call::First(_) if tree.rows.is_empty() => pair(number, tree, Place::Off, None),
        Call::First(_) => pair(number, tree, Place::At(0, 0), Some(0)),
        Call::Seek(_, key) => {
            let place = spot(tree, key).map_or(Place::Off, |spot| Place::At(spot.leaf, spot.place));
            value(listed(key), cursor(number, tree, place))
        }
        _ => panic!("{} is no call by key", call.name()),
    }
}

/// Calls that ask where the cursor stands, on a tree that is there.
fn by_cursor(call: &Call, pool: &Pool, at: Cursor) -> Expected {
    let tree = &pool.trees[at.tree as usize];
    let Some(place) = stands(tree, &at) else { return refused(call, 3) };
    let here = rank(tree, place);
    // One past a leaf's last entry: the first pair of the next leaf, or off the end.
    let past = matches!(place, Place::At(leaf, p) if p == tree.leaves()[leaf].items.len());
    match call {
        Call::Settle(_) if past => value(None, cursor(at.tree, tree, place_of_rank(tree, here))),
        Call::Settle(_) => value(None, at),
        Call::Next(_) => {
            let next = if past || place == Place::Off { here } else { here + 1 };
            pair(at.tree, tree, place_of_rank(tree, next), Some(next))
        }
        Call::Prev(_) if here == 0 => pair(at.tree, tree, place, None),
        Call::Prev(_) => pair(at.tree, tree, place_of_rank(tree, here - 1), Some(here - 1)),
        Call::RemoveAt(_) => match place {
            Place::At(leaf, place) if !past => remove(pool, at.tree, leaf, place),
            _ => value(None, at),
        },
        _ => panic!("{} asks for no place", call.name()),
    }
}

/// What document 01 asks of a call on these words.
pub fn expected(call: &Call, words: &[u32], pool: &Result<Pool, Broken>) -> Expected {
    let yes = |yes: bool| Expected {
        moved: Moved {
            answer: Answer { found: u8::from(yes), ..Answer::default() },
            ..Moved::default()
        },
        after: None,
    };
    match *call {
        Call::Check => return yes(pool.is_ok()),
        Call::Format(trees, nodes) => return format(call, words.len(), trees, nodes),
        _ => {}
    }
    let Ok(pool) = pool else { return refused(call, 1) };
    match *call {
        Call::Stands(at) => yes(cursor_stands(pool, &at)),
        Call::Get(tree, _) | Call::Put(tree, _, _) | Call::Remove(tree, _) => {
            if tree as usize >= pool.trees.len() {
                refused(call, 2)
            } else {
                by_key(call, pool, tree)
            }
        }
        Call::First(at) | Call::Seek(at, _) => {
            if at.tree as usize >= pool.trees.len() {
                refused(call, 2)
            } else {
                by_key(call, pool, at.tree)
            }
        }
        _ => {
            let at = call.cursor();
            if at.tree as usize >= pool.trees.len() {
                refused(call, 2)
            } else {
                by_cursor(call, pool, at)
            }
        }
    }
}
