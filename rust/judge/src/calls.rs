//! Calls, answers and cursors, in the numbers of document 01.

use std::fmt;

/// The calls. The first three have the numbers of the replay program.
#[derive(Clone, Copy, Debug, PartialEq, Eq)]
pub enum Op {
    Put = 1,
    Remove = 2,
    Get = 3,
    Seek = 11,
    Settle = 12,
    First = 13,
    Next = 14,
    Prev = 15,
    RemoveAt = 16,
}

/// Every call with its name in text and the words it takes after the tree number.
pub const OPS: [(Op, &str, usize); 9] = [
    (Op::Put, "put", 2),
    (Op::Remove, "remove", 1),
    (Op::Get, "get", 1),
    (Op::Seek, "seek", 1),
    (Op::Settle, "settle", 0),
    (Op::First, "first", 0),
    (Op::Next, "next", 0),
    (Op::Prev, "prev", 0),
    (Op::RemoveAt, "removeat", 0),
];

impl Op {
    /// Is it a call by key, which takes no cursor?
    pub fn by_key(self) -> bool {
        matches!(self, Op::Put | Op::Remove | Op::Get)
    }

    /// Does it read no more than the tree number of its cursor?
    pub fn starts(self) -> bool {
        matches!(self, Op::Seek | Op::First)
    }

    /// Name and number of words.
    fn entry(self) -> (&'static str, usize) {
        let found = OPS.iter().find(|o| o.0 == self).expect("every call is in the table");
        (found.1, found.2)
    }
}

/// Cursors that each tree has.
pub const CURSORS: usize = 3;

/// One call; key and value are 0 where the call takes none. `which` is the cursor, 0 in a call by key.
#[derive(Clone, Copy, Debug, PartialEq, Eq)]
pub struct Call {
    pub op: Op,
    pub tree: usize,
    pub which: usize,
    pub key: u32,
    pub value: u32,
}

impl Call {
    /// A call with a key and a value, on the tree's first cursor.
    pub fn new(op: Op, tree: usize, key: u32, value: u32) -> Self {
        Self { op, tree, which: 0, key, value }
    }

    /// The same call on another cursor.
    pub fn on(self, which: usize) -> Self {
        Self { which, ..self }
    }
}

impl fmt::Display for Call {
    fn fmt(&self, f: &mut fmt::Formatter) -> fmt::Result {
        let (name, words) = self.op.entry();
        write!(f, "{name} {}", self.tree)?;
        if self.which > 0 {
            write!(f, ".{}", self.which)?;
        }
        for word in [self.key, self.value].iter().take(words) {
            write!(f, " {word}")?;
        }
        Ok(())
    }
}

/// Number, found, key and value; only first, next and prev carry a key.
#[derive(Clone, Copy, Debug, PartialEq, Eq)]
pub struct Answer {
    pub number: u32,
    pub found: bool,
    pub key: u32,
    pub value: u32,
}

impl Answer {
    /// Done, with a value or not found.
    pub fn value(value: Option<u32>) -> Self {
        Self::pair(value.map(|v| (0, v)))
    }

    /// Done, with a pair or not found.
    pub fn pair(pair: Option<(u32, u32)>) -> Self {
        let (key, value) = pair.unwrap_or((0, 0));
        Self { number: 0, found: pair.is_some(), key, value }
    }
}

impl fmt::Display for Answer {
    fn fmt(&self, f: &mut fmt::Formatter) -> fmt::Result {
        write!(f, "{} {} {} {}", self.number, u32::from(self.found), self.key, self.value)
    }
}

/// Levels a cursor can have.
pub const LEVELS: usize = 16;

/// A cursor with unused levels 0; nodes are the crate's numbers plus 1.
#[derive(Clone, Copy, Debug, Default, PartialEq, Eq)]
pub struct Cursor {
    pub size: usize,
    pub nodes: [u32; LEVELS],
    pub places: [u32; LEVELS],
}

impl fmt::Display for Cursor {
    fn fmt(&self, f: &mut fmt::Formatter) -> fmt::Result {
        write!(f, "{}", self.size)?;
        for l in 0..self.size {
            write!(f, " {}.{}", self.nodes[l], self.places[l])?;
        }
        Ok(())
    }
}

/// Reads one call from a line such as `put 0 35 1035` or, on the tree's second cursor, `seek 0.1 35`. Otherwise says what
/// was expected.
pub fn parse(line: &str) -> Result<Call, String> {
    let mut words = line.split_whitespace();
    let name = words.next().unwrap_or("");
    let Some((op, _, count)) = OPS.iter().find(|o| o.1 == name) else {
        return Err(format!("one of {}", OPS.map(|o| o.1).join(", ")));
    };
    let form = || {
        let (tree, cursors) =
            if op.by_key() { ("TREE", "") } else { ("TREE[.CURSOR]", ", cursors from 0 to 2") };
        let rest = ["", " KEY", " KEY VALUE"][*count];
        format!("`{name} {tree}{rest}` with 32-bit numbers{cursors}")
    };
    let number = |word: &str| word.parse::<u32>().ok();
    let at = words.next().map(|w| w.split_once('.').unwrap_or((w, "0")));
    let at = at.and_then(|(tree, which)| number(tree).zip(number(which)));
    let cursors = if op.by_key() { 1 } else { CURSORS };
    let Some((tree, which)) = at.filter(|at| (at.1 as usize) < cursors) else {
        return Err(form());
    };
    let rest: Option<Vec<u32>> = words.map(number).collect();
    let rest = rest.filter(|rest| rest.len() == *count).ok_or_else(form)?;
    let at = |i: usize| rest.get(i).copied().unwrap_or(0);
    Ok(Call::new(*op, tree as usize, at(0), at(1)).on(which as usize))
}
