//! Stand-in for the support crate with entity maps and packed options.
//!
//! One thing is added: the room of every map on this thread can be bounded, so that a pool of N
//! nodes can be played. Nothing but `try_reserve` looks at the bound.

use std::cell::Cell;
use std::marker::PhantomData;
use std::ops::{Index, IndexMut};
use wasmtime_core::error::OutOfMemory;

thread_local! {
    static ROOM: Cell<usize> = const { Cell::new(usize::MAX) };
}

/// From now on maps of this thread refuse to grow past `room` entries.
pub fn set_room(room: usize) {
    ROOM.with(|r| r.set(room));
}

/// A number that names an entry of a map.
pub trait EntityRef: Copy + Eq {
    /// The name of entry `index`.
    fn new(index: usize) -> Self;

    /// The entry's index.
    fn index(self) -> usize;
}

/// Gives a `u32` tuple struct the traits of an entity name.
#[macro_export]
macro_rules! entity_impl {
    ($name:ident, $prefix:expr) => {
        impl $crate::EntityRef for $name {
            fn new(index: usize) -> Self {
                $name(u32::try_from(index).expect("entity number above 32 bits"))
            }

            fn index(self) -> usize {
                self.0 as usize
            }
        }

        impl $crate::packed_option::ReservedValue for $name {
            fn reserved_value() -> Self {
                $name(u32::MAX)
            }
        }

        impl ::core::fmt::Display for $name {
            fn fmt(&self, f: &mut ::core::fmt::Formatter) -> ::core::fmt::Result {
                write!(f, concat!($prefix, "{}"), self.0)
            }
        }
    };
}

/// A growing list of values, indexed by entity names.
pub struct PrimaryMap<K: EntityRef, V> {
    items: Vec<V>,
    names: PhantomData<K>,
}

impl<K: EntityRef, V> Default for PrimaryMap<K, V> {
    fn default() -> Self {
        Self::new()
    }
}

impl<K: EntityRef, V: Clone> Clone for PrimaryMap<K, V> {
    fn clone(&self) -> Self {
        Self { items: self.items.clone(), names: PhantomData }
    }
}

impl<K: EntityRef, V> PrimaryMap<K, V> {
    /// An empty map.
    pub fn new() -> Self {
        Self { items: Vec::new(), names: PhantomData }
    }

    /// Number of entries.
    pub fn len(&self) -> usize {
        self.items.len()
    }

    /// Is there no entry?
    pub fn is_empty(&self) -> bool {
        self.items.is_empty()
    }

    /// Drops all entries.
    pub fn clear(&mut self) {
        self.items.clear();
    }

    /// Asks for room for `more` entries.
    pub fn try_reserve(&mut self, more: usize) -> Result<(), OutOfMemory> {
        if self.items.len() + more > ROOM.with(Cell::get) {
            return Err(OutOfMemory);
        }
        self.items.try_reserve(more).map_err(|_| OutOfMemory)
    }

    /// Appends an entry and names it.
    pub fn push(&mut self, item: V) -> K {
        self.items.push(item);
        K::new(self.items.len() - 1)
    }
}

impl<K: EntityRef, V> Index<K> for PrimaryMap<K, V> {
    type Output = V;

    fn index(&self, name: K) -> &V {
        &self.items[name.index()]
    }
}

impl<K: EntityRef, V> IndexMut<K> for PrimaryMap<K, V> {
    fn index_mut(&mut self, name: K) -> &mut V {
        &mut self.items[name.index()]
    }
}

/// Options that use a reserved name for "none".
pub mod packed_option {
    /// A type with one value that is never a real name.
    pub trait ReservedValue: Copy + Eq {
        /// That value.
        fn reserved_value() -> Self;
    }

    /// An entity name or none, in the room of the name.
    #[derive(Clone, Copy, PartialEq, Eq)]
    pub struct PackedOption<T: ReservedValue>(T);

    impl<T: ReservedValue> PackedOption<T> {
        /// Is this none?
        pub fn is_none(&self) -> bool {
            self.0 == T::reserved_value()
        }

        /// As an ordinary option.
        pub fn expand(self) -> Option<T> {
            (!self.is_none()).then_some(self.0)
        }

        /// Applies `f` to the name, if there is one.
        pub fn map<U>(self, f: impl FnOnce(T) -> U) -> Option<U> {
            self.expand().map(f)
        }

        /// Takes the name out and leaves none.
        pub fn take(&mut self) -> Option<T> {
            std::mem::replace(self, None.into()).expand()
        }
    }

    impl<T: ReservedValue> From<T> for PackedOption<T> {
        fn from(name: T) -> Self {
            assert!(name != T::reserved_value(), "the reserved name is no name");
            Self(name)
        }
    }

    impl<T: ReservedValue> From<Option<T>> for PackedOption<T> {
        fn from(name: Option<T>) -> Self {
            Self(name.unwrap_or_else(T::reserved_value))
        }
    }
}
