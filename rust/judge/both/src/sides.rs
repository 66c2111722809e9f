//! Both sides: each call is made on the crate and, through both doors, on our words, and everything
//! is compared after it.

use crate::compare::Names;
use crate::ours::{Door, Mark, Ours};
use crate::stands::stands;
use crate::tally::Tally;
use judge::calls::{Answer, CURSORS, Call, Cursor, Op};
use judge::decode;
use judge::lists::List;
use judge::runner::Runner;
use judge::view::Tree;
use std::fmt;

/// After so many calls all trees are compared, and not the touched one alone.
pub const ALL_TREES: usize = 64;

/// What a difference is in.
#[derive(Clone, Copy, Debug, PartialEq, Eq)]
pub enum Kind {
    /// Number, found, key or value.
    Answer,
    /// The pairs of a tree.
    Pairs,
    /// Levels and node contents, nodes renamed.
    Tree,
    /// Size, places and renamed nodes of a cursor, or a cursor that is not handed back as it was.
    Cursor,
    /// Node numbers, places not in use, the stack; or a word that a refusal or a look changed.
    Words,
    /// A word beside the pool.
    Outside,
    /// Whether a cursor stands.
    Stands,
    /// Whether words are sound.
    Sound,
    /// Whether there is room for a put.
    Room,
    /// The crate does not do what document 01 says.
    Rules,
}

/// A difference, with what both sides say.
#[derive(Debug)]
pub struct Difference {
    pub kind: Kind,
    pub text: String,
}

impl Difference {
    /// A difference in something.
    pub fn new(kind: Kind, text: impl Into<String>) -> Difference {
        Difference { kind, text: text.into() }
    }
}

impl fmt::Display for Difference {
    fn fmt(&self, f: &mut fmt::Formatter) -> fmt::Result {
        write!(f, "{:?}: {}", self.kind, self.text)
    }
}

/// Fails with a difference unless a fact holds.
pub fn want(fact: bool, kind: Kind, text: impl FnOnce() -> String) -> Result<(), Difference> {
    if fact { Ok(()) } else { Err(Difference::new(kind, text())) }
}

/// What a call must answer, and where its cursor must be; none where it must be handed back.
#[derive(Clone, Copy)]
pub struct Due {
    pub answer: Answer,
    pub cursor: Option<Cursor>,
}

impl fmt::Display for Due {
    fn fmt(&self, f: &mut fmt::Formatter) -> fmt::Result {
        write!(f, "{}", self.answer)?;
        self.cursor.map_or(Ok(()), |c| write!(f, " ; {c}"))
    }
}

/// Damage to what a door gave back, for showing that it is found.
pub type Damage = fn(&mut Answer, &mut Mark, &mut [u32]);

/// Our words behind one door, with the cursors that it handed back.
struct Side {
    door: Door,
    ours: Ours,
    marks: Vec<[Mark; CURSORS]>,
}

/// The crate and our words, which have gone through the same calls.
pub struct Sides {
    runner: Runner,
    nodes: usize,
    sides: [Side; 2],
    before: Vec<u32>,
    calls: usize,
    /// The calls made when each tree last changed, and when each of its cursors was last moved.
    changed: Vec<usize>,
    moved: Vec<[usize; CURSORS]>,
    /// Damage that is done at one call, counted from 0, at one door.
    pub damage: Option<(usize, Door, Damage)>,
}

impl Sides {
    /// The pools that a list begins with, a fresh one of ours formatted out of other words.
    pub fn of(list: &List) -> Result<Sides, Difference> {
        let (trees, nodes) = (list.trees, list.nodes);
        let runner = Runner::of(list);
        let junk = vec![0xabab_abab; trees + 17 * nodes + 3];
        let start = list.start.as_ref().unwrap_or(&junk);
        let mut sides = [Door::Public, Door::Core].map(|door| Side {
            door,
            ours: Ours::of(door, start),
            marks: (0..trees).map(|t| [Mark::off(t as u32); CURSORS]).collect(),
        });
        for side in sides.iter_mut().filter(|_| list.start.is_none()) {
            let answer = side.ours.format(trees as u32, nodes as u32);
            want(answer == Answer::value(None), Kind::Answer, || format!("format: {answer}"))?;
        }
        let (changed, moved) = (vec![0; trees], vec![[0; CURSORS]; trees]);
        let before = runner.words().to_vec();
        let out = Sides { runner, nodes, sides, before, calls: 0, changed, moved, damage: None };
        out.all_trees()?;
        Ok(out)
    }

    /// Our words behind the public calls.
    pub fn words(&self) -> &[u32] {
        self.sides[0].ours.words()
    }

    /// A cursor of a tree as the public calls handed it back.
    pub fn kept(&self, tree: usize, which: usize) -> Mark {
        self.sides[0].marks[tree][which]
    }

    /// Makes a call on both sides and compares.
    pub fn call(&mut self, call: &Call, tally: &mut Tally) -> Result<Due, Difference> {
        self.before.copy_from_slice(self.runner.words());
        let due = self.due(call, tally)?;
        let still = due.answer.number != 0 || !self.changes(call, &due.answer);
        let same = !still || self.before == self.runner.words();
        want(same, Kind::Rules, || "the crate changes nodes where nothing is to change".into())?;
        for i in 0..self.sides.len() {
            self.one_door(i, call, &due, still)?;
        }
        self.calls += 1;
        if call.tree < self.changed.len() {
            self.clock(call, &due, still, tally);
        }
        if self.calls % ALL_TREES == 0 {
            self.all_trees()?;
        }
        tally.count(call, &due.answer);
        Ok(due)
    }

    /// Counts a cursor call whose cursor was kept across a change of its tree, and notes when the tree
    /// was changed and the cursor moved.
    fn clock(&mut self, call: &Call, due: &Due, still: bool, tally: &mut Tally) {
        let moved = &mut self.moved[call.tree][call.which];
        if !call.op.by_key() {
            if !call.op.starts() && *moved < self.changed[call.tree] {
                tally.kept[usize::from(due.cursor.is_none())] += 1;
            }
            *moved = if due.cursor.is_some() { self.calls } else { *moved };
        }
        if !still {
            self.changed[call.tree] = self.calls;
        }
    }

    /// Calls the crate, or finds the refusal that document 01 asks for, the crate then not called.
    fn due(&mut self, call: &Call, tally: &mut Tally) -> Result<Due, Difference> {
        let refused = |number| Due {
            answer: Answer { number, found: false, key: 0, value: 0 },
            cursor: None,
        };
        if call.tree >= self.sides[0].marks.len() {
            return Ok(refused(2));
        }
        if !call.op.by_key() && !call.op.starts() {
            let cursor = self.runner.cursor(call.tree, call.which);
            let here = stands(self.words(), &self.kept(call.tree, call.which));
            let there = self.runner.tree(call.tree).holds(&cursor);
            want(here == there, Kind::Stands, || format!("stands: {here}, the crate's {there}"))?;
            if !here {
                return Ok(refused(3));
            }
        }
        if !self.runner.has_room(call) {
            let out = self.runner.runs_out(call);
            want(out, Kind::Room, || "the crate finds room on a copy".to_string())?;
            return Ok(refused(4));
        }
        let step = self.runner.call(*call).map_err(|stop| {
            Difference::new(Kind::Room, format!("the crate does not finish: {stop:?}"))
        })?;
        tally.reached(step.cases, self.runner.tree(call.tree).rows.len());
        Ok(Due { answer: step.answer, cursor: (!call.op.by_key()).then_some(step.after) })
    }

    /// Does a call that is done change words?
    fn changes(&self, call: &Call, answer: &Answer) -> bool {
        match call.op {
            Op::Put => !answer.found || answer.value != call.value,
            Op::Remove | Op::RemoveAt => answer.found,
            _ => false,
        }
    }

    /// Makes the call through one door, if what that requires holds, and compares everything.
    fn one_door(
        &mut self,
        i: usize,
        call: &Call,
        due: &Due,
        still: bool,
    ) -> Result<(), Difference> {
        let side = &mut self.sides[i];
        let held = side.mark(call);
        if !call.op.by_key() && !call.op.starts() {
            let stands = due.answer.number == 0;
            let says = side.ours.stands(held);
            want(says == stands, Kind::Stands, || format!("stands: {says}, at {held}"))?;
            if !stands && side.door == Door::Core {
                return Ok(());
            }
        }
        let (mut answer, mut mark) = side.ours.call(call, held);
        if let Some((_, _, damage)) = self.damage.filter(|d| (d.0, d.1) == (self.calls, side.door))
        {
            damage(&mut answer, &mut mark, side.ours.words_mut());
        }
        side.keep(call, mark);
        let side = &self.sides[i];
        let name = |text: String| format!("{:?} call: {text}", side.door);
        want(side.ours.kept_inside(), Kind::Outside, || name("a word beside the pool".into()))?;
        want(answer == due.answer, Kind::Answer, || {
            name(format!("answers {answer}, the crate and document 01 {}", due.answer))
        })?;
        let changed = still && side.ours.words() != self.before;
        want(!changed, Kind::Words, || name(format!("{answer} and yet a word is changed")))?;
        let names = self.touched(side, call.tree).map_err(|d| d.named(name))?;
        compare_mark(&names, &held, &mark, due).map_err(|d| d.named(name))?;
        self.compare_words(side).map_err(|d| d.named(name))
    }

    /// Compares one tree, and names its nodes.
    fn touched(&self, side: &Side, tree: usize) -> Result<Names, Difference> {
        let mut names = Names::new(self.nodes);
        if tree < side.marks.len() {
            compare_tree(&mut names, side.ours.words(), tree, self.runner.tree(tree))?;
        }
        Ok(names)
    }

    /// Compares the whole words: node numbers and the stack are the crate's too.
    fn compare_words(&self, side: &Side) -> Result<(), Difference> {
        let (ours, theirs) = (side.ours.words(), self.runner.words());
        if ours == theirs {
            return Ok(());
        }
        let at = ours.iter().zip(theirs).take_while(|(a, b)| a == b).count();
        let text = format!("word {at} is {}, the crate's {}", ours[at], theirs[at]);
        Err(Difference::new(Kind::Words, text))
    }

    /// Compares all trees of both doors, nodes named one to one over the whole pool, and asks the
    /// library whether the words are sound.
    pub fn all_trees(&self) -> Result<(), Difference> {
        for side in &self.sides {
            let mut names = Names::new(self.nodes);
            for tree in 0..side.marks.len() {
                compare_tree(&mut names, side.ours.words(), tree, self.runner.tree(tree))?;
            }
            self.compare_words(side)?;
            let sound = side.ours.check();
            want(sound, Kind::Sound, || "the check says no to sound words".to_string())?;
        }
        Ok(())
    }
}

impl Side {
    /// The cursor that a call takes: first and seek get one with nothing sensible in it, and so does a
    /// tree that is not there.
    fn mark(&self, call: &Call) -> Mark {
        match self.marks.get(call.tree) {
            Some(marks) if !call.op.starts() => marks[call.which],
            _ => Mark::junk(call.tree as u32),
        }
    }

    /// Keeps the cursor that was handed back.
    fn keep(&mut self, call: &Call, mark: Mark) {
        let marks = self.marks.get_mut(call.tree).filter(|_| !call.op.by_key());
        if let Some(marks) = marks {
            marks[call.which] = mark;
        }
    }
}

impl Difference {
    /// The same, its text in other words.
    fn named(self, name: impl FnOnce(String) -> String) -> Difference {
        Difference { kind: self.kind, text: name(self.text) }
    }
}

/// Compares the pairs, the levels and the nodes of a tree.
fn compare_tree(
    names: &mut Names,
    words: &[u32],
    tree: usize,
    theirs: &Tree,
) -> Result<(), Difference> {
    let ours = decode::tree(words, tree);
    let ours = ours.map_err(|why| Difference::new(Kind::Tree, format!("tree {tree}: {why}")))?;
    want(ours.pairs() == theirs.pairs(), Kind::Pairs, || {
        format!("tree {tree} has {:?}, the crate {:?}", ours.pairs(), theirs.pairs())
    })?;
    let same = names.trees(&ours, theirs);
    same.map_err(|why| Difference::new(Kind::Tree, format!("tree {tree}, {why}")))
}

/// Compares a cursor: a refused one, and a call by key's, with the one handed in; a moved one with the
/// crate's, first by named nodes, then bit for bit with unused levels 0.
fn compare_mark(names: &Names, held: &Mark, mark: &Mark, due: &Due) -> Result<(), Difference> {
    let Some(cursor) = &due.cursor else {
        return want(mark == held, Kind::Cursor, || format!("hands back {mark} for {held}"));
    };
    names.cursor(mark, cursor).map_err(|why| Difference::new(Kind::Cursor, why))?;
    let whole = Mark::of(held.tree, cursor);
    want(*mark == whole, Kind::Cursor, || format!("the cursor is {mark}, not {whole}"))
}
