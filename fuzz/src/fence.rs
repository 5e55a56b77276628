//! Memory between pages that nobody may touch.

use std::ffi::{c_int, c_void};
use std::marker::PhantomData;
use std::slice;

const PAGE: usize = 4096;
/// Bytes between the two pages: more than any input or output has.
const ROOM: usize = 1 << 18;

const NOTHING: c_int = 0;
const READ_WRITE: c_int = 1 | 2;
const PRIVATE_ANONYMOUS: c_int = 2 | 0x20;

extern "C" {
    fn mmap(
        at: *mut c_void,
        length: usize,
        protection: c_int,
        flags: c_int,
        file: c_int,
        offset: i64,
    ) -> *mut c_void;
    fn mprotect(at: *mut c_void, length: usize, protection: c_int) -> c_int;
}

/// Room for a slice of numbers whose last byte stands before a page that may not be touched. It is kept for good.
pub struct Fence<T> {
    start: *mut u8,
    numbers: PhantomData<T>,
}

impl<T: Copy> Fence<T> {
    pub fn new() -> Fence<T> {
        let length = PAGE + ROOM + PAGE;
        // SAFETY: a new mapping, of which the first and the last page stay closed.
        let start = unsafe {
            let mapped = mmap(
                std::ptr::null_mut(),
                length,
                NOTHING,
                PRIVATE_ANONYMOUS,
                -1,
                0,
            );
            assert_ne!(mapped as isize, -1, "no memory");
            let start = mapped.cast::<u8>().add(PAGE);
            assert_eq!(mprotect(start.cast(), ROOM, READ_WRITE), 0);
            start
        };
        Fence {
            start,
            numbers: PhantomData,
        }
    }

    /// The last numbers before the closed page, with these values.
    pub fn lend(&mut self, values: &[T]) -> &mut [T] {
        let bytes = size_of_val(values);
        assert!(bytes <= ROOM, "the fence is too small");
        // SAFETY: the slice ends with the room, so it is aligned as the page after it is, and it is lent as long as the fence is.
        let lent = unsafe {
            let first = self.start.add(ROOM - bytes).cast::<T>();
            slice::from_raw_parts_mut(first, values.len())
        };
        lent.copy_from_slice(values);
        lent
    }
}
