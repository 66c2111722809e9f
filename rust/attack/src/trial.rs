//! One call, made in every way there is and held to what document 01 asks.

use crate::counts::{Counts, Notes};
use crate::expect::{Expected, cursor_stands, expected};
use crate::faults::{Fault, Made};
use crate::guard::{Pages, Side};
use crate::raw::{self, Call, Moved};
use crate::sound::{self, Broken, Pool};

/// Words, and what they say.
pub struct State {
    pub words: Vec<u32>,
    pub pool: Result<Pool, Broken>,
}

impl State {
    pub fn new(words: Vec<u32>) -> State {
        let pool = sound::read(&words);
        State { words, pool }
    }
}

/// What is wrong, in a few lines.
pub type Finding = String;

/// The pages, and what is noted while calls are made.
pub struct Trial {
    start: Pages,
    end: Pages,
    fault: Option<&'static Fault>,
    pub notes: Notes,
    pub counts: Counts,
}

/// A call on words, with what is asked of it and the words that it should leave.
struct Task<'a> {
    call: &'a Call,
    state: &'a State,
    asked: &'a Expected,
    should: &'a [u32],
}

/// How a call is made.
#[derive(Clone, Copy, Debug, PartialEq, Eq)]
pub enum Way {
    Public(Side),
    Core(Side),
}

/// May the core be called? Words must be sound, and the cursor stand where the core asks for it.
fn has_core(call: &Call, pool: &Result<Pool, Broken>) -> bool {
    let Ok(pool) = pool else { return false };
    match call {
        Call::Check | Call::Format(..) => false,
        Call::Settle(at) | Call::Next(at) | Call::Prev(at) | Call::RemoveAt(at) => {
            cursor_stands(pool, at)
        }
        _ => true,
    }
}

/// Words as text, if they are few.
fn shown(words: &[u32]) -> String {
    if words.len() > 300 { format!("{} words", words.len()) } else { format!("{words:?}") }
}

/// The first word that differs, as text.
fn differing(asked: &[u32], got: &[u32]) -> String {
    match asked.iter().zip(got).position(|(a, b)| a != b) {
        Some(at) => format!("word {at} is {} and should be {}", got[at], asked[at]),
        None => "the lengths differ".into(),
    }
}

/// Does the sorted list of each tree follow from the list before, by the call alone?
fn lists_follow(before: &Pool, after: &Pool, call: &Call, moved: &Moved) -> bool {
    let tree = match *call {
        Call::Put(tree, ..) | Call::Remove(tree, _) => tree as usize,
        Call::RemoveAt(at) => at.tree as usize,
        _ => return true,
    };
    let others = |pool: &Pool, t: usize| pool.trees[t].clone();
    let (mut list, now) = (before.trees[tree].pairs(), after.trees[tree].pairs());
    match *call {
        Call::Put(_, key, value) => {
            list.retain(|pair| pair.0 != key);
            list.push((key, value));
            list.sort();
        }
        Call::Remove(_, key) => list.retain(|pair| pair.0 != key),
        _ => {
            let gone: Vec<_> = list.iter().filter(|pair| !now.contains(pair)).copied().collect();
            let [pair] = gone[..] else { return false };
            list.retain(|kept| *kept != pair);
            if pair.1 != moved.answer.value {
                return false;
            }
        }
    }
    list == now
        && (0..before.trees.len()).all(|t| t == tree || others(before, t) == others(after, t))
}

impl Trial {
    pub fn new(fault: Option<&'static Fault>, notes: Notes) -> Trial {
        Trial {
            start: Pages::new(Side::Start),
            end: Pages::new(Side::End),
            fault,
            notes,
            counts: Counts::default(),
        }
    }

    fn pages(&mut self, way: Way) -> &mut Pages {
        match way {
            Way::Public(Side::Start) | Way::Core(Side::Start) => &mut self.start,
            _ => &mut self.end,
        }
    }

    /// Makes a call in one way. Where no word may change the pages can't be written, except at the end's side.
    fn make(&mut self, way: Way, task: &Task) -> Result<(), Finding> {
        let Task { call, state, asked, should } = *task;
        self.notes.call(call, way);
        let fault = self.fault;
        let pages = self.pages(way);
        pages.lay(&state.words);
        pages.lock(asked.after.is_none() && way != Way::Public(Side::End));
        let (words, len) = (pages.pointer(), pages.count());
        // SAFETY: the pages hold the words; a core is only called where `has_core` says that it may be.
        let mut moved = unsafe {
            match way {
                Way::Public(_) => raw::public(call, words, len),
                Way::Core(_) => raw::core(call, words, len),
            }
        };
        if let Some(fault) = fault {
            (fault.plant)(&mut Made { call, way, state, asked, pages, moved: &mut moved });
        }
        let wrong = |what: String| {
            let words = shown(&state.words);
            Err(format!(
                "{} as {way:?}: {what}\n  call      {call:?}\n  on        {words}",
                call.name()
            ))
        };
        if moved != asked.moved {
            return wrong(format!("\n  answers   {moved:?}\n  should be {:?}", asked.moved));
        }
        if pages.words() != should {
            return wrong(format!(
                "answers {:?}, and {}",
                moved.answer,
                differing(should, pages.words())
            ));
        }
        if !pages.beside_kept() {
            return wrong("changes words beside those it was given".into());
        }
        Ok(())
    }

    /// Makes a call in every way, and takes over the words that it leaves.
    pub fn call(&mut self, state: &mut State, call: &Call) -> Result<Moved, Finding> {
        let asked = expected(call, &state.words, &state.pool);
        let after = asked.after.as_ref().map(Pool::words);
        let task =
            Task { call, state, asked: &asked, should: after.as_ref().unwrap_or(&state.words) };
        self.counts.call(call, &asked.moved.answer);
        if !matches!(call, Call::Stands(_)) {
            self.make(Way::Public(Side::End), &task)?;
            self.make(Way::Public(Side::Start), &task)?;
        }
        if has_core(call, &state.pool) {
            self.counts.cores += 1;
            let side = if self.counts.cores.is_multiple_of(2) { Side::Start } else { Side::End };
            self.make(Way::Core(side), &task)?;
        }
        let Some(after) = after else { return Ok(asked.moved) };
        let next = State::new(after);
        if let Err(rule) = next.pool {
            return Err(format!("{} leaves words that break: {}", call.name(), rule.text()));
        }
        if let (Ok(before), Ok(now)) = (&state.pool, &next.pool) {
            if !lists_follow(before, now, call, &asked.moved) {
                return Err(format!("{} leaves another list of pairs", call.name()));
            }
            if !matches!(call, Call::Format(..)) {
                self.counts.nodes(before.free.len(), now.free.len());
            }
        }
        *state = next;
        self.call(state, &Call::Check)?;
        Ok(asked.moved)
    }

    /// Makes calls for sound words straight after each other, with a look at the words only after the last.
    pub fn grow(
        &mut self,
        state: &mut State,
        calls: impl Iterator<Item = Call>,
    ) -> Result<(), Finding> {
        assert!(state.pool.is_ok());
        self.end.lay(&state.words);
        for call in calls {
            self.notes.call(&call, Way::Core(Side::End));
            // SAFETY: the words are sound, and calls on sound words leave sound words; put and remove take no cursor.
            unsafe { raw::core(&call, self.end.pointer(), self.end.count()) };
            self.counts.grown += 1;
        }
        let next = State::new(self.end.words().to_vec());
        if let Err(rule) = next.pool {
            return Err(format!(
                "a row of puts and removes leaves words that break: {}",
                rule.text()
            ));
        }
        *state = next;
        Ok(())
    }
}
