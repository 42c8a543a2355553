//! Memory between two pages that nobody may touch: a word read or written past either end stops
//! the process at once. Linux on x86-64.

use std::ffi::{c_int, c_void};

const PAGE: usize = 4_096;
const PROT_NONE: c_int = 0;
const PROT_READ: c_int = 1;
const PROT_WRITE: c_int = 2;
const MAP_PRIVATE: c_int = 2;
const MAP_ANONYMOUS: c_int = 0x20;

unsafe extern "C" {
    fn mmap(
        at: *mut c_void,
        length: usize,
        protection: c_int,
        flags: c_int,
        file: c_int,
        offset: i64,
    ) -> *mut c_void;
    fn mprotect(at: *mut c_void, length: usize, protection: c_int) -> c_int;
    fn munmap(at: *mut c_void, length: usize) -> c_int;
}

/// Words in pages of their own, with a forbidden page on each side.
pub struct Guarded {
    map: *mut u8,
    pages: usize,
    writable: bool,
}

impl Guarded {
    /// Room for at least so many words, all 0.
    pub fn new(words: usize) -> Guarded {
        let pages = (words * 4).div_ceil(PAGE).max(1);
        let length = (pages + 2) * PAGE;
        // SAFETY: a new private mapping, of which the pages between the first and the last are
        // made usable.
        let map = unsafe {
            let map =
                mmap(std::ptr::null_mut(), length, PROT_NONE, MAP_PRIVATE | MAP_ANONYMOUS, -1, 0);
            assert!(map as isize != -1, "no memory");
            let inner = map.cast::<u8>().add(PAGE).cast::<c_void>();
            assert_eq!(mprotect(inner, pages * PAGE, PROT_READ | PROT_WRITE), 0);
            map.cast::<u8>()
        };
        Guarded { map, pages, writable: true }
    }

    /// How many words there is room for: whole pages.
    pub fn room(&self) -> usize {
        self.pages * PAGE / 4
    }

    /// From now on a write stops the process too.
    pub fn read_only(&mut self) {
        // SAFETY: the pages are this mapping's own.
        let done = unsafe { mprotect(self.map.add(PAGE).cast(), self.pages * PAGE, PROT_READ) };
        assert_eq!(done, 0);
        self.writable = false;
    }

    /// All words.
    pub fn words(&self) -> &[u32] {
        // SAFETY: the pages between the guards are mapped and readable as long as `self` is.
        unsafe { std::slice::from_raw_parts(self.map.add(PAGE).cast(), self.room()) }
    }

    /// All words, if they were not made read-only.
    pub fn words_mut(&mut self) -> &mut [u32] {
        assert!(self.writable);
        // SAFETY: as above, and writable; `self` is borrowed mutably.
        unsafe { std::slice::from_raw_parts_mut(self.map.add(PAGE).cast(), self.room()) }
    }

    /// The last words, right before the forbidden page.
    pub fn last_mut(&mut self, count: usize) -> &mut [u32] {
        let room = self.room();
        &mut self.words_mut()[room - count..]
    }

    /// The last bytes, right before the forbidden page.
    pub fn last_bytes_mut(&mut self, count: usize) -> &mut [u8] {
        let words = self.words_mut();
        let bytes = 4 * words.len();
        // SAFETY: these are the bytes of the words, borrowed mutably with them.
        let all = unsafe { std::slice::from_raw_parts_mut(words.as_mut_ptr().cast(), bytes) };
        &mut all[bytes - count..]
    }
}

impl Drop for Guarded {
    fn drop(&mut self) {
        // SAFETY: the mapping is this value's own, and nothing borrows it any more.
        unsafe { munmap(self.map.cast(), (self.pages + 2) * PAGE) };
    }
}
