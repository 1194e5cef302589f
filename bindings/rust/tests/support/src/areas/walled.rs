//! An area of memory between two pages that cannot be read: a step outside
//! ends the test by a signal.

use std::ffi::{c_int, c_long, c_void};
use std::{ptr, slice};

// The C library that the standard library is linked with.
extern "C" {
    fn mmap(
        at: *mut c_void,
        len: usize,
        protection: c_int,
        flags: c_int,
        file: c_int,
        offset: c_long,
    ) -> *mut c_void;
    fn mprotect(at: *mut c_void, len: usize, protection: c_int) -> c_int;
    fn munmap(at: *mut c_void, len: usize) -> c_int;
}

const PROT_NONE: c_int = 0;
const PROT_READ: c_int = 1;
const PROT_READ_WRITE: c_int = 1 | 2;
const MAP_PRIVATE_ANONYMOUS: c_int = 0x02 | 0x20;
const PAGE: usize = 4096;

pub struct Walled {
    map: *mut u8,
    len: usize,
}

impl Walled {
    /// `len` is in whole pages.
    pub fn new(len: usize) -> Walled {
        assert_eq!(len % PAGE, 0);
        // SAFETY: a new mapping touches nothing that is there already.
        unsafe {
            let whole = len + 2 * PAGE;
            let map = mmap(
                ptr::null_mut(),
                whole,
                PROT_NONE,
                MAP_PRIVATE_ANONYMOUS,
                -1,
                0,
            );
            assert_ne!(map as isize, -1);
            assert_eq!(mprotect(map.byte_add(PAGE), len, PROT_READ_WRITE), 0);
            Walled {
                map: map.cast(),
                len,
            }
        }
    }

    /// Whether the area may be written: if not, a write ends the test by a
    /// signal too.
    pub fn set_writable(&mut self, writable: bool) {
        let protection = if writable { PROT_READ_WRITE } else { PROT_READ };
        // SAFETY: these pages are mapped and owned.
        let answer = unsafe { mprotect(self.map.add(PAGE).cast(), self.len, protection) };
        assert_eq!(answer, 0);
    }

    fn area(&mut self) -> &mut [u8] {
        // SAFETY: these pages are mapped, zeroed and owned.
        unsafe { slice::from_raw_parts_mut(self.map.add(PAGE), self.len) }
    }

    /// The octets right behind the first wall.
    pub fn first(&mut self, len: usize) -> &mut [u8] {
        &mut self.area()[..len]
    }

    /// The octets right before the last wall.
    pub fn last(&mut self, len: usize) -> &mut [u8] {
        let start = self.len - len;
        &mut self.area()[start..]
    }
}

impl Drop for Walled {
    fn drop(&mut self) {
        // SAFETY: the mapping of `new`, no longer borrowed.
        unsafe { munmap(self.map.cast(), self.len + 2 * PAGE) };
    }
}
