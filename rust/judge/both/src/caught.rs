//! Panics as errors: the crate breaks off where its own rules are broken, and the judge where document
//! 01's are.

use std::cell::RefCell;
use std::panic::{AssertUnwindSafe, catch_unwind, set_hook};

thread_local! {
    static LAST: RefCell<String> = const { RefCell::new(String::new()) };
}

/// From now on a panic prints nothing; its words are kept.
pub fn keep_words() {
    set_hook(Box::new(|info| LAST.with(|last| *last.borrow_mut() = info.to_string())));
}

/// What an act gives, or the words of its panic.
pub fn caught<T>(act: impl FnOnce() -> T) -> Result<T, String> {
    catch_unwind(AssertUnwindSafe(act)).map_err(|_| LAST.with(|last| last.borrow().clone()))
}
