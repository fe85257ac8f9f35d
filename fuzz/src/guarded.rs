//! Buffers that end where memory ends. The byte after a lent slice belongs to a page that nobody may touch,
//! so that reading or writing past the end is a crash, whatever the code that does it was compiled with;
//! the bytes in front of it are looked at afterwards.

use std::ffi::{c_int, c_void};
use std::ptr::null_mut;
use std::slice;

extern "C" {
    fn mmap(
        at: *mut c_void,
        length: usize,
        access: c_int,
        kind: c_int,
        file: c_int,
        offset: i64,
    ) -> *mut c_void;
    fn mprotect(at: *mut c_void, length: usize, access: c_int) -> c_int;
}

const READ_AND_WRITE: c_int = 1 | 2;
const NO_ACCESS: c_int = 0;
const PRIVATE_AND_OF_NO_FILE: c_int = 0x02 | 0x20;

/// A whole number of pages, whether they have 4, 16 or 64 KiB.
const PAGE: usize = 1 << 16;
pub const ROOM: usize = 2 * PAGE;

/// What a byte is before a call writes it, in the buffer and in front of it.
const OLD: u8 = 165;
const FRONT: usize = 256;

pub struct Guarded {
    end: *mut u8,
}

impl Guarded {
    pub fn new() -> Guarded {
        unsafe {
            let start = mmap(null_mut(), ROOM + PAGE, READ_AND_WRITE, PRIVATE_AND_OF_NO_FILE, -1, 0);
            assert!(start as isize != -1, "no memory");
            let end = start.cast::<u8>().add(ROOM);
            assert!(mprotect(end.cast(), PAGE, NO_ACCESS) == 0, "no guard");
            Guarded { end }
        }
    }

    fn front(&mut self, length: usize) -> &mut [u8] {
        unsafe { slice::from_raw_parts_mut(self.end.sub(length + FRONT), FRONT) }
    }

    /// So many bytes, all old.
    pub fn lend(&mut self, length: usize) -> &mut [u8] {
        assert!(length + FRONT <= ROOM);
        self.front(length).fill(OLD);
        let lent = unsafe { slice::from_raw_parts_mut(self.end.sub(length), length) };
        lent.fill(OLD);
        lent
    }

    /// A copy of an input.
    pub fn lend_copy(&mut self, bytes: &[u8]) -> &mut [u8] {
        let lent = self.lend(bytes.len());
        lent.copy_from_slice(bytes);
        lent
    }

    /// That nothing was written in front of a slice of so many bytes.
    pub fn check_front(&mut self, length: usize) {
        assert!(
            self.front(length).iter().all(|byte| *byte == OLD),
            "bytes in front of a buffer were written"
        );
    }
}

pub fn is_old(bytes: &[u8]) -> bool {
    bytes.iter().all(|byte| *byte == OLD)
}
