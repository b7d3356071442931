//! A lent memory whose end is the end of what the program may touch: a read past it ends the
//! program.

use std::ffi::c_void;
use std::ops::{Deref, DerefMut};
use std::ptr;

const PAGE: usize = 4_096;

// Of Linux, with pages of 4 KiB.
const NONE: i32 = 0;
const READ_WRITE: i32 = 3;
const PRIVATE_ANONYMOUS: i32 = 0x22;

extern "C" {
    fn mmap(at: *mut c_void, len: usize, may: i32, flags: i32, file: i32, from: i64)
        -> *mut c_void;
    fn mprotect(at: *mut c_void, len: usize, may: i32) -> i32;
    fn munmap(at: *mut c_void, len: usize) -> i32;
}

pub struct Lent {
    mapped: *mut u8,
    mapped_len: usize,
    len: usize,
}

impl Lent {
    /// The bytes, with a page behind them that cannot be touched.
    pub fn new(bytes: &[u8]) -> Lent {
        let pages = (bytes.len() + PAGE - 1) / PAGE;
        let mapped_len = (pages + 1) * PAGE;
        // Sound: a new mapping; its last page is closed, and nothing refers to it.
        let mapped = unsafe {
            let at = mmap(
                ptr::null_mut(),
                mapped_len,
                READ_WRITE,
                PRIVATE_ANONYMOUS,
                -1,
                0,
            );
            assert!(at as isize != -1, "no memory");
            let guard = at.cast::<u8>().add(pages * PAGE);
            assert_eq!(mprotect(guard.cast(), PAGE, NONE), 0, "no guard page");
            at.cast::<u8>()
        };
        let mut lent = Lent {
            mapped,
            mapped_len,
            len: bytes.len(),
        };
        lent.copy_from_slice(bytes);
        lent
    }

    fn start(&self) -> *mut u8 {
        // Sound: the bytes end where the last page begins.
        unsafe { self.mapped.add(self.mapped_len - PAGE - self.len) }
    }
}

impl Deref for Lent {
    type Target = [u8];

    fn deref(&self) -> &[u8] {
        // Sound, here and below: so many bytes from the start are mapped, and are this value's own.
        unsafe { std::slice::from_raw_parts(self.start(), self.len) }
    }
}

impl DerefMut for Lent {
    fn deref_mut(&mut self) -> &mut [u8] {
        unsafe { std::slice::from_raw_parts_mut(self.start(), self.len) }
    }
}

impl Drop for Lent {
    fn drop(&mut self) {
        unsafe { munmap(self.mapped.cast(), self.mapped_len) };
    }
}
