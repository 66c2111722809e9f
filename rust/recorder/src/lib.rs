//! Ordered maps for a line recorder: small trees of u32 keys and values, many of them in one slice
//! of u32 words. The calls are those of the proved library `librecorder.a`; this package makes them
//! safe to use from Rust.
//!
//! - [`Pool`] holds the words alone: it checks them once, and its calls go straight to the
//!   library's cores.
//! - [`Shared`] is for words that others may write: every call checks them.
//! - [`Cursor`] is a place in a tree. It is moved in place, and stays as it was if a call is refused.
//! - A call answers [`Found`] or [`Met`], or a [`Refusal`] with document 01's number.
//!
//! ```
//! use recorder::{Cursor, Found, Met, Pool, Refusal};
//!
//! let mut words = [0; recorder::words_for(2, 3)];
//! let mut pool = Pool::format(&mut words, 2, 3)?;
//! for key in [10, 20, 30, 40, 50, 60, 70, 35] {
//!     pool.put(0, key, 1000 + key)?;
//! }
//! assert_eq!(format!("{:?}", pool.tree(0)?), "10,20,30,35 / 40,50,60,70, separator 40");
//! assert_eq!(pool.put(1, 5, 5), Err(Refusal::NoRoom));
//!
//! let mut at = Cursor::of_tree(0);
//! assert_eq!(pool.seek(&mut at, 38)?, Found::Nothing);
//! assert_eq!(pool.next(&mut at)?, Met::Pair(40, 1040));
//! assert_eq!(pool.iter(0)?.map(|(key, _)| key).max(), Some(70));
//! # Ok::<(), Refusal>(())
//! ```

#![deny(missing_docs)]
#![warn(clippy::undocumented_unsafe_blocks)]

mod answer;
mod cursor;
mod layout;
mod pool;
mod raw;
mod shared;

pub use answer::{Found, Met, NotSound, Refusal};
pub use cursor::Cursor;
pub use layout::words_for;
pub use pool::{Pairs, Pool, Tree};
pub use shared::Shared;

/// Are the words a sound pool?
pub fn check(words: &[u32]) -> bool {
    // SAFETY: pointer and length are the slice's, lent for the call; any words will do.
    unsafe { raw::recorder_check(words.as_ptr(), words.len()) }
}
