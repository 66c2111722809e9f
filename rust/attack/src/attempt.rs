//! One input: words to start from, then calls on them.

use crate::bend;
use crate::counts::Kind;
use crate::damage;
use crate::expect::cursor_in;
use crate::make::{self, Fill};
use crate::raw::{Call, Cursor};
use crate::sound::Pool;
use crate::source::Source;
use crate::trial::{Finding, State, Trial};

/// The kinds of input, by how often each is run.
const KINDS: [Kind; 11] = [
    Kind::Damaged,
    Kind::Damaged,
    Kind::Damaged,
    Kind::Bent,
    Kind::Bent,
    Kind::Bent,
    Kind::Made,
    Kind::Made,
    Kind::Grown,
    Kind::Lookalike,
    Kind::Random,
];

/// Cursors that earlier calls handed back.
const KEPT: usize = 8;

/// A tree of the pool, most often; else a number around T.
fn tree(source: &mut Source, pool: Option<&Pool>) -> u32 {
    let trees = pool.map_or(3, |pool| pool.trees.len());
    match source.below(24) {
        0 => trees as u32,
        1 => source.edgy(),
        _ => source.below(trees) as u32,
    }
}

/// A key of the tree or one beside it, most often; else any.
fn key(source: &mut Source, pool: Option<&Pool>, tree: u32) -> u32 {
    let leaves =
        pool.and_then(|pool| pool.trees.get(tree as usize)).map_or(&[][..], |tree| tree.leaves());
    if leaves.is_empty() || source.once_in(8) {
        return source.edgy();
    }
    let leaf = match source.below(6) {
        0 => leaves.len() - 1,
        1 => leaves.iter().position(|leaf| leaf.items.len() == 7).unwrap_or(0),
        _ => source.below(leaves.len()),
    };
    let near = source.pick(&leaves[leaf].items).0;
    match source.below(5) {
        0 => near.wrapping_sub(1),
        1 => near.wrapping_add(1),
        _ => near,
    }
}

/// A cursor: one that stands, a kept one, one of these with a field or a place changed, or numbers.
fn cursor(source: &mut Source, state: &State, kept: &[Cursor]) -> Cursor {
    let pool = state.pool.as_ref().ok();
    let number = tree(source, pool);
    let clean = Cursor { tree: number, ..Cursor::default() };
    let nodes = pool.map_or(3, |pool| pool.nodes as u32);
    let standing = |source: &mut Source| match pool {
        Some(pool) if pool.trees.get(number as usize).is_some_and(|tree| !tree.rows.is_empty()) => {
            cursor_in(pool, number as usize, source.below(512), source.below(8))
        }
        _ => clean,
    };
    match source.below(14) {
        0 => clean,
        12 | 13 => {
            let at = standing(source);
            damage::place_elsewhere(source, at, &state.words)
        }
        1..=4 => standing(source),
        5 | 6 if !kept.is_empty() => source.pick(kept),
        7 | 8 => {
            let at = standing(source);
            damage::cursor(source, at, nodes)
        }
        9 if !kept.is_empty() => {
            let at = source.pick(kept);
            damage::cursor(source, at, nodes)
        }
        10 => {
            let mut at = clean;
            at.size = source.below(8) as u32;
            for level in 0..at.size as usize {
                at.nodes[level] = source.below(10) as u32;
                at.places[level] = source.below(9) as u32;
            }
            at
        }
        11 => {
            let size = source.edgy();
            let mut at = Cursor { size, ..clean };
            at.nodes.iter_mut().chain(&mut at.places).for_each(|word| *word = source.edgy());
            at
        }
        _ => clean,
    }
}

/// T and N to format with: those of the length, or others.
fn format(source: &mut Source, len: usize) -> Call {
    let trees = source.pick(&[
        1,
        2,
        3,
        32,
        33,
        0,
        len.saturating_sub(3) % 17,
        len.saturating_sub(3) % 17 + 17,
    ]);
    let nodes = len.saturating_sub(trees + 3) / 17;
    let (trees, nodes) = (trees as u32, nodes as u32);
    match source.below(6) {
        0 => Call::Format(trees, nodes + 1),
        1 => Call::Format(trees, source.edgy()),
        2 => Call::Format(source.edgy(), nodes),
        _ => Call::Format(trees, nodes),
    }
}

/// A call on these words. Of sound words formatting is seldom, since it leaves little.
fn call(source: &mut Source, state: &State, kept: &[Cursor]) -> Call {
    let pool = state.pool.as_ref().ok();
    let kind = source.below(32);
    if kind < 16 {
        let tree = tree(source, pool);
        let key = key(source, pool, tree);
        return match kind {
            0..=2 => Call::Get(tree, key),
            3..=8 => Call::Put(tree, key, source.edgy()),
            9..=14 => Call::Remove(tree, key),
            _ if pool.is_none() || source.once_in(8) => format(source, state.words.len()),
            _ => Call::Check,
        };
    }
    let at = cursor(source, state, kept);
    match kind {
        16 | 17 => Call::First(at),
        18..=20 => Call::Seek(at, key(source, pool, at.tree)),
        21 | 22 => Call::Settle(at),
        23 | 24 => Call::Next(at),
        25 | 26 => Call::Prev(at),
        27..=30 => Call::RemoveAt(at),
        _ if pool.is_some() => Call::Stands(at),
        _ => Call::RemoveAt(at),
    }
}

/// A pool that a row of puts and removes leaves.
fn grown(source: &mut Source, trial: &mut Trial) -> Result<State, Finding> {
    let (trees, nodes) = make::sizes(source);
    let mut state = State::new(Pool::fresh(trees, nodes).words());
    let puts = source.below(5 * nodes + 2);
    let step = source.pick(&[1, 1, 7, u32::MAX / 3]);
    let range = source.pick(&[8 * nodes + 1, 1 << 20]);
    let removes = source.pick(&[0, 1, 3, 4]);
    let rising = source.once_in(3);
    let calls = (0..puts).map(|i| {
        let tree = source.below(trees.min(1 + i)) as u32;
        let key = if rising { i as u32 } else { source.below(range) as u32 }.wrapping_mul(step);
        if source.below(10) < removes {
            Call::Remove(tree, key)
        } else {
            Call::Put(tree, key, i as u32)
        }
    });
    trial.grow(&mut state, calls)?;
    Ok(state)
}

/// A sound pool that is made; now and then a tall one, with a path full from some level down.
fn made(source: &mut Source) -> State {
    if source.once_in(30) {
        let (levels, fill) = (source.within(4, 6), source.pick(&[Fill::Least, Fill::Low]));
        let full_from = levels - source.within(0, if levels == 4 { 4 } else { 3 });
        return State::new(make::tall(u64::from(source.word()), fill, levels, full_from).words());
    }
    let (trees, nodes) = make::sizes(source);
    State::new(make::pool(source, trees, nodes).words())
}

/// A sound pool, made or grown.
fn sound(source: &mut Source, trial: &mut Trial) -> Result<State, Finding> {
    if source.once_in(2) {
        return grown(source, trial);
    }
    Ok(made(source))
}

/// A damaged copy of a sound pool, with cursors that stood in it.
fn damaged(
    source: &mut Source,
    trial: &mut Trial,
    kept: &mut Vec<Cursor>,
) -> Result<State, Finding> {
    let whole = sound(source, trial)?;
    for _ in 0..3 {
        kept.push(cursor(source, &whole, kept));
    }
    let mut words = whole.words;
    for _ in 0..source.pick(&[1, 1, 1, 2, 3]) {
        if !words.is_empty() {
            damage::words(source, &mut words);
        }
    }
    Ok(State::new(words))
}

/// Runs one input.
pub fn run(source: &mut Source, trial: &mut Trial) -> Result<(), Finding> {
    let mut kept = Vec::new();
    let kind = source.pick(&KINDS);
    let mut state = match kind {
        Kind::Written => unreachable!("it is not drawn"),
        Kind::Random => State::new(make::random(source)),
        Kind::Lookalike => State::new(make::lookalike(source)),
        Kind::Damaged => damaged(source, trial, &mut kept)?,
        Kind::Bent => {
            let pool = sound(source, trial)?.pool.expect("the pool to bend is sound");
            State::new(bend::words(source, pool))
        }
        Kind::Made => made(source),
        Kind::Grown => grown(source, trial)?,
    };
    trial.counts.input(kind, &state);
    trial.call(&mut state, &Call::Check)?;
    let calls = if state.pool.is_ok() { 40 } else { 5 };
    for _ in 0..calls {
        if source.ended() {
            break;
        }
        let call = call(source, &state, &kept);
        let moved = trial.call(&mut state, &call)?;
        if call.moves() {
            kept.truncate(KEPT - 1);
            kept.insert(0, moved.cursor);
        }
    }
    Ok(())
}
