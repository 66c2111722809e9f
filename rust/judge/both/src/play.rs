//! Plays a list on both sides, with calls on our side alone between, and stops at the first difference.

use crate::caught::caught;
use crate::refusals;
use crate::sides::{Difference, Due, Kind, Sides};
use crate::tally::Tally;
use judge::calls::Call;
use judge::lists::{Dice, List};
use judge::view;

/// How often calls are made on our side alone: one in so many calls.
#[derive(Clone, Copy)]
pub struct Often {
    pub bent: usize,
    pub damaged: usize,
}

/// In a long run, and where a short list is looked at closely.
pub const NOW_AND_THEN: Often = Often { bent: 16, damaged: 64 };
pub const EACH_CALL: Often = Often { bent: 1, damaged: 1 };

/// A difference, and at which call of the list, counted from 0.
pub struct Found {
    pub at: usize,
    pub difference: Difference,
}

/// Plays a whole list; `seen` is told of each call and what was due.
pub fn play(
    list: &List,
    often: Often,
    tally: &mut Tally,
    mut seen: impl FnMut(&Call, &Due),
) -> Result<(), Found> {
    let found = |at| move |difference| Found { at, difference };
    let start = guarded(|| {
        refusals::formats(list.trees as u32, list.nodes as u32, tally)?;
        Sides::of(list)
    });
    let mut sides = start.map_err(found(0))?;
    tally.made += u64::from(list.start.is_some());
    for (at, call) in list.calls.iter().enumerate() {
        let due = guarded(|| sides.call(call, tally)).map_err(found(at))?;
        seen(call, &due);
        guarded(|| alone(&sides, call, at, often, tally)).map_err(found(at))?;
    }
    let last = list.calls.len().saturating_sub(1);
    guarded(|| sides.all_trees()).map_err(found(last))
}

/// The calls on our side alone after a call. The dice go by the words, so that the same words meet
/// the same calls.
fn alone(
    sides: &Sides,
    call: &Call,
    at: usize,
    often: Often,
    tally: &mut Tally,
) -> Result<(), Difference> {
    let (bent, damaged) = (at % often.bent == 0, at % often.damaged == 0);
    if !bent && !damaged {
        return Ok(());
    }
    let words = sides.words();
    let mut dice = Dice::new(view::fold(words).into());
    if bent && call.tree < words[0] as usize {
        for which in 0..judge::calls::CURSORS {
            refusals::bent(&mut dice, words, sides.kept(call.tree, which), tally)?;
        }
    }
    if damaged {
        refusals::damaged(&mut dice, words, tally)?;
    }
    Ok(())
}

/// A panic is a difference too: the crate broke off, or was not what document 01 says.
fn guarded<T>(act: impl FnOnce() -> Result<T, Difference>) -> Result<T, Difference> {
    caught(act).unwrap_or_else(|words| Err(Difference::new(Kind::Rules, words)))
}
