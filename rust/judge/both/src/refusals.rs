//! Calls on our side alone that must be refused, and change nothing: with bent cursors (3), on damaged
//! words (1), formats out of range (5). The crate has no counterpart.

use crate::ours::{Door, Mark, Ours};
use crate::sides::{Difference, Kind, want};
use crate::stands::stands;
use crate::tally::Tally;
use judge::calls::{Answer, Call, LEVELS, OPS, Op};
use judge::decode;
use judge::lists::Dice;
use judge::sound;

/// The refusal with a number.
fn refused(number: u32) -> Answer {
    Answer { number, found: false, key: 0, value: 0 }
}

/// Formats that are out of range, for words of any number.
pub fn formats(trees: u32, nodes: u32, tally: &mut Tally) -> Result<(), Difference> {
    let len = trees as usize + 17 * nodes as usize + 3;
    for (trees, nodes, len) in [
        (0, nodes, len),
        (0, nodes, 17 * nodes as usize + 3),
        (33, 1, 53),
        (u32::MAX, nodes, len),
        (1, 513, 8725),
        (trees, u32::MAX, len),
        (trees, nodes, len - 1),
        (trees, nodes, len + 1),
        (trees, nodes, 0),
    ] {
        let words: Vec<u32> = (0..len as u32).collect();
        let mut ours = Ours::of(Door::Public, &words);
        let answer = ours.format(trees, nodes);
        let same = ours.words() == words && ours.kept_inside();
        want(same, Kind::Words, || "a refused format changed a word".to_string())?;
        want(answer == refused(5), Kind::Answer, || {
            format!("format of {trees} trees, {nodes} nodes, {len} words: {answer}")
        })?;
        tally.formats += 1;
    }
    Ok(())
}

/// A cursor bent in one way, by the dice.
fn bend(dice: &mut Dice, mark: Mark) -> Mark {
    let mut out = mark;
    let level = dice.below(LEVELS as u32) as usize;
    let last = (mark.size as usize).clamp(1, LEVELS) - 1;
    match dice.below(10) {
        0 => out.size = out.size.wrapping_add(1),
        1 => out.size = out.size.wrapping_sub(1),
        2 => out.size = [16, 17, 99, u32::MAX][dice.below(4) as usize],
        3 => out.nodes[level] = out.nodes[level].wrapping_add(1),
        4 => out.places[level] = out.places[level].wrapping_add(1),
        5 => out.places[last] = out.places[last].wrapping_add(1 + dice.below(7)),
        6 => out.places[last] = u32::MAX,
        7 => out.nodes[last] = [0, 513, u32::MAX][dice.below(3) as usize],
        8 => out.nodes[last] = 1 + dice.below(512),
        _ => out.places[0] = out.places[0].wrapping_add(1),
    }
    out
}

/// Bends the cursor of a call, whose tree is there; where it stands no more, all four calls that read
/// a cursor must be refused by 3. Where it still stands the library must say so.
pub fn bent(dice: &mut Dice, words: &[u32], at: Mark, tally: &mut Tally) -> Result<(), Difference> {
    let mark = bend(dice, at);
    let mut ours = Ours::of(Door::Public, words);
    let here = stands(words, &mark);
    want(ours.stands(mark) == here, Kind::Stands, || format!("stands: not {here}, at {mark}"))?;
    if here {
        return Ok(());
    }
    for op in [Op::Settle, Op::Next, Op::Prev, Op::RemoveAt] {
        refuses(&mut ours, words, &Call::new(op, mark.tree as usize, 0, 0), mark, 3)?;
        tally.bent += 1;
    }
    Ok(())
}

/// Changes one word, by the dice. The check must say of the words what document 01 says; where they
/// are not sound every call must be refused by 1, be the tree there or not.
pub fn damaged(dice: &mut Dice, words: &[u32], tally: &mut Tally) -> Result<(), Difference> {
    let mut broken = words.to_vec();
    let at = place(dice, words);
    broken[at] = match dice.below(6) {
        0 => broken[at].wrapping_add(1),
        1 => broken[at].wrapping_sub(1),
        2 => 0,
        3 => words[dice.below(words.len() as u32) as usize],
        4 => 1 + dice.below(40),
        _ => dice.any(),
    };
    let mut ours = Ours::of(Door::Public, &broken);
    let sound = sound::check(&broken).is_ok();
    want(ours.check() == sound, Kind::Sound, || {
        format!("word {at} as {} for {}: sound is {sound}", broken[at], words[at])
    })?;
    if sound {
        tally.harmless += 1;
        return Ok(());
    }
    for (op, _, _) in OPS {
        let tree = [0, dice.below(32), u32::MAX][dice.below(3) as usize];
        let mark = if dice.below(2) == 0 { Mark::off(tree) } else { Mark::junk(tree) };
        let call = Call::new(op, tree as usize, dice.below(100), 5);
        refuses(&mut ours, &broken, &call, mark, 1)?;
        tally.damaged += 1;
    }
    Ok(())
}

/// A place in the words: a node's word in use, a count or root, or any.
fn place(dice: &mut Dice, words: &[u32]) -> usize {
    let (trees, nodes, _) = decode::counts(words);
    let any = dice.below(words.len() as u32) as usize;
    match dice.below(4) {
        0 => dice.below(trees as u32 + 2) as usize,
        1 => (trees + 2 + 16 * nodes + dice.below(4) as usize).min(words.len() - 1),
        2 => (any..words.len()).find(|i| words[*i] != 0).unwrap_or(any),
        _ => any,
    }
}

/// The call must be refused by this number, hand back its cursor, and change no word.
fn refuses(
    ours: &mut Ours,
    words: &[u32],
    call: &Call,
    mark: Mark,
    number: u32,
) -> Result<(), Difference> {
    let (answer, back) = ours.call(call, mark);
    want(answer == refused(number), Kind::Answer, || {
        format!("{call} at {mark} answers {answer}, not {number}")
    })?;
    want(back == mark, Kind::Cursor, || format!("{call} hands back {back} for {mark}"))?;
    let same = ours.words() == words && ours.kept_inside();
    want(same, Kind::Words, || format!("{call} is refused and changed a word"))
}
