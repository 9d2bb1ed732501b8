//! Memory that ends where it may be read no further: a call that reads past its input is ended by
//! the system, which libFuzzer reports as a crash.

use std::ffi::{c_int, c_void};

const PAGE: usize = 4096;
/// The longest input that is lent, a multiple of the page.
pub const MOST: usize = 1 << 18;

const PROT_NONE: c_int = 0;
const PROT_READ_WRITE: c_int = 3;
const MAP_PRIVATE_ANONYMOUS: c_int = 0x22;

unsafe extern "C" {
    fn mmap(
        place: *mut c_void,
        length: usize,
        protection: c_int,
        flags: c_int,
        file: c_int,
        offset: i64,
    ) -> *mut c_void;
    fn mprotect(place: *mut c_void, length: usize, protection: c_int) -> c_int;
}

/// `MOST` bytes in front of a page that may not be read.
pub struct Wall(*mut u8);

// SAFETY: the mapping belongs to this value alone.
unsafe impl Send for Wall {}

impl Wall {
    pub fn new() -> Self {
        // SAFETY: a fresh mapping of our own, whose last page is closed before anyone sees it.
        unsafe {
            let place = mmap(
                std::ptr::null_mut(),
                MOST + PAGE,
                PROT_READ_WRITE,
                MAP_PRIVATE_ANONYMOUS,
                -1,
                0,
            );
            assert!(place as isize != -1, "no memory for the wall");
            assert_eq!(mprotect(place.byte_add(MOST), PAGE, PROT_NONE), 0, "the wall stays open");
            Self(place.cast())
        }
    }

    /// A copy of the bytes that ends at the wall; of none of them, the wall itself.
    pub fn lend(&mut self, bytes: &[u8]) -> &[u8] {
        assert!(bytes.len() <= MOST, "too long an input to lend");
        // SAFETY: the copy lies in the mapping, which lives as long as the program and is lent
        // to one at a time.
        unsafe {
            let start = self.0.add(MOST - bytes.len());
            start.copy_from_nonoverlapping(bytes.as_ptr(), bytes.len());
            std::slice::from_raw_parts(start, bytes.len())
        }
    }
}
