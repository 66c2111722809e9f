//! Pages with a page before and a page after that may not be touched, and words laid flush with either end.

use std::ffi::{c_int, c_void};
use std::ptr;
use std::slice;

unsafe extern "C" {
    fn mmap(
        addr: *mut c_void,
        len: usize,
        prot: c_int,
        flags: c_int,
        fd: c_int,
        offset: i64,
    ) -> *mut c_void;
    fn mprotect(addr: *mut c_void, len: usize, prot: c_int) -> c_int;
}

const PROT_NONE: c_int = 0;
const PROT_READ: c_int = 1;
const PROT_WRITE: c_int = 2;
const MAP_SHARED: c_int = 1;
const MAP_PRIVATE: c_int = 2;
const MAP_ANONYMOUS: c_int = 32;
const MAP_NORESERVE: c_int = 0x4000;
const MAP_FAILED: usize = usize::MAX;

const PAGE: usize = 4096;
const PAGES: usize = 10;
/// The most words that there is room for.
pub const ROOM: usize = PAGES * PAGE / 4;
/// What the room beside the words holds, up to so many words away.
const BESIDE: u32 = 0xB0B0_B0B0;
const WATCHED: usize = 64;

/// Which end of the pages the words are flush with.
#[derive(Clone, Copy, Debug, PartialEq, Eq)]
pub enum Side {
    Start,
    End,
}

/// The pages, and where in them the words are.
pub struct Pages {
    base: *mut u32,
    side: Side,
    from: usize,
    len: usize,
    locked: bool,
}

impl Pages {
    pub fn new(side: Side) -> Pages {
        let whole = (PAGES + 2) * PAGE;
        // SAFETY: a new mapping, of which the middle is made usable.
        let base = unsafe {
            let start = mmap(ptr::null_mut(), whole, PROT_NONE, MAP_PRIVATE | MAP_ANONYMOUS, -1, 0);
            assert!(start as usize != MAP_FAILED, "no memory for the pages");
            start.cast::<u8>().add(PAGE).cast::<u32>()
        };
        let mut pages = Pages { base, side, from: 0, len: 0, locked: true };
        pages.lock(false);
        // SAFETY: the middle is ours and writable.
        unsafe { slice::from_raw_parts_mut(base, ROOM) }.fill(BESIDE);
        pages
    }

    /// Forbids or allows to write.
    pub fn lock(&mut self, lock: bool) {
        if self.locked != lock {
            let prot = if lock { PROT_READ } else { PROT_READ | PROT_WRITE };
            // SAFETY: the middle of a mapping of ours; no slice of it is alive.
            let failed = unsafe { mprotect(self.base.cast(), PAGES * PAGE, prot) };
            assert!(failed == 0, "mprotect failed");
            self.locked = lock;
        }
    }

    /// Lays the words; the room that earlier words had is as beside them.
    pub fn lay(&mut self, words: &[u32]) {
        assert!(words.len() <= ROOM);
        self.lock(false);
        // SAFETY: the middle is ours and writable.
        let all = unsafe { slice::from_raw_parts_mut(self.base, ROOM) };
        if self.len != words.len() {
            all[self.from..self.from + self.len].fill(BESIDE);
            self.len = words.len();
            self.from = if self.side == Side::Start { 0 } else { ROOM - words.len() };
        }
        all[self.from..self.from + self.len].copy_from_slice(words);
    }

    pub fn pointer(&self) -> *mut u32 {
        // SAFETY: `from` is inside the pages, or at their end where there are no words.
        unsafe { self.base.add(self.from) }
    }

    /// How many words are laid.
    pub fn count(&self) -> usize {
        self.len
    }

    /// The words as they are now.
    pub fn words(&self) -> &[u32] {
        // SAFETY: inside the pages, readable.
        unsafe { slice::from_raw_parts(self.pointer(), self.len) }
    }

    /// Is the room beside the words as it was?
    pub fn beside_kept(&self) -> bool {
        // SAFETY: the middle is ours and readable.
        let all = unsafe { slice::from_raw_parts(self.base, ROOM) };
        let end = self.from + self.len;
        let before = &all[self.from.saturating_sub(WATCHED)..self.from];
        let after = &all[end..(end + WATCHED).min(ROOM)];
        before.iter().chain(after).all(|&word| word == BESIDE)
    }
}

/// Words of 0 with so many that their count does not fit in 32 bits: address space alone, of which only what is written takes
/// memory. None where the system does not give it.
pub fn vast(count: usize) -> Option<&'static mut [u32]> {
    let flags = MAP_PRIVATE | MAP_ANONYMOUS | MAP_NORESERVE;
    // SAFETY: a new mapping, all zeros, that is kept to the end.
    unsafe {
        let start = mmap(ptr::null_mut(), 4 * count, PROT_READ | PROT_WRITE, flags, -1, 0);
        (start as usize != MAP_FAILED).then(|| slice::from_raw_parts_mut(start.cast(), count))
    }
}

/// A page of a file that two processes see, as numbers.
pub fn shared_page(file: &std::fs::File) -> *mut u64 {
    use std::os::fd::AsRawFd;
    // SAFETY: a new mapping of an open file.
    let page = unsafe {
        mmap(ptr::null_mut(), PAGE, PROT_READ | PROT_WRITE, MAP_SHARED, file.as_raw_fd(), 0)
    };
    assert!(page as usize != MAP_FAILED, "the notes can't be mapped");
    page.cast()
}
