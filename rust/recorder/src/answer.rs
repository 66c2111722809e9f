//! What calls answer.

use std::error::Error;
use std::fmt;

/// What a call that gives a value answers: get, seek, remove and remove at a cursor the value
/// held, put the earlier one.
#[derive(Clone, Copy, Debug, PartialEq, Eq, Hash)]
pub enum Found {
    /// The key is there, or was, with this value.
    Value(u32),
    /// There is no such key, or the cursor is on no pair.
    Nothing,
}

impl Found {
    /// The value, if there is one.
    pub fn value(self) -> Option<u32> {
        match self {
            Found::Value(value) => Some(value),
            Found::Nothing => None,
        }
    }
}

/// What first, next and prev answer.
#[derive(Clone, Copy, Debug, PartialEq, Eq, Hash)]
pub enum Met {
    /// The cursor is on this key, with this value.
    Pair(u32, u32),
    /// There is no pair that way.
    Nothing,
}

impl Met {
    /// Key and value, if there is a pair.
    pub fn pair(self) -> Option<(u32, u32)> {
        match self {
            Met::Pair(key, value) => Some((key, value)),
            Met::Nothing => None,
        }
    }
}

/// Why a call is refused, with document 01's number. A refused call changes no word, and a cursor
/// stays as it was.
#[derive(Clone, Copy, Debug, PartialEq, Eq, Hash)]
#[non_exhaustive]
pub enum Refusal {
    /// The words are not a sound pool. A [`Pool`](crate::Pool) never answers this.
    Unsound = 1,
    /// The tree number is T or above.
    NoTree = 2,
    /// The cursor does not stand in its tree.
    NoPlace = 3,
    /// A put needs more nodes than are free.
    NoRoom = 4,
    /// Formatting only: T or N is outside its range, or the length is another.
    NoFormat = 5,
}

impl Refusal {
    /// Document 01's number.
    pub fn number(self) -> u32 {
        self as u32
    }

    /// The refusal with this number.
    pub(crate) fn of(number: u32) -> Refusal {
        match number {
            1 => Refusal::Unsound,
            2 => Refusal::NoTree,
            3 => Refusal::NoPlace,
            4 => Refusal::NoRoom,
            5 => Refusal::NoFormat,
            _ => panic!("librecorder.a answers {number}, a number that this package does not know"),
        }
    }
}

impl fmt::Display for Refusal {
    fn fmt(&self, f: &mut fmt::Formatter<'_>) -> fmt::Result {
        f.write_str(match self {
            Refusal::Unsound => "the words are not a sound pool",
            Refusal::NoTree => "there is no tree of that number",
            Refusal::NoPlace => "the cursor does not stand in its tree",
            Refusal::NoRoom => "the put needs more nodes than are free",
            Refusal::NoFormat => "trees are 1 to 32, nodes 0 to 512, words trees + 17 * nodes + 3",
        })
    }
}

impl Error for Refusal {}

/// The words are not a sound pool: what [`Pool::open`](crate::Pool::open) answers then.
#[derive(Clone, Copy, Debug, PartialEq, Eq, Hash)]
pub struct NotSound;

impl From<NotSound> for Refusal {
    fn from(_: NotSound) -> Refusal {
        Refusal::Unsound
    }
}

impl fmt::Display for NotSound {
    fn fmt(&self, f: &mut fmt::Formatter<'_>) -> fmt::Result {
        Refusal::Unsound.fmt(f)
    }
}

impl Error for NotSound {}
