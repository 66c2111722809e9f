//! The harness for libFuzzer: its bytes make the same choices that the plain driver draws, and a finding aborts.

use crate::attempt;
use crate::counts::Notes;
use crate::source::Source;
use crate::trial::Trial;
use std::cell::RefCell;
use std::process::abort;

thread_local! {
    static TRIAL: RefCell<Trial> = RefCell::new(Trial::new(None, Notes::on(Box::leak(Box::new([0; 512])).as_mut_ptr())));
}

/// libFuzzer's entry.
///
/// # Safety
/// `data` points to `size` bytes.
#[unsafe(no_mangle)]
pub unsafe extern "C" fn LLVMFuzzerTestOneInput(data: *const u8, size: usize) -> i32 {
    // SAFETY: the caller's promise; of no bytes the pointer is not looked at.
    let bytes = if size == 0 { &[] } else { unsafe { std::slice::from_raw_parts(data, size) } };
    TRIAL.with_borrow_mut(|trial| {
        if let Err(finding) = attempt::run(&mut Source::Read(bytes), trial) {
            eprintln!("FINDING: {finding}");
            abort();
        }
    });
    0
}
