//! Memory with a page on each side that cannot be touched. The library is not compiled with a sanitizer, so this is
//! how a read or a write outside a lent stretch is seen: it stops the program at that case.

use std::ffi::c_void;

extern "C" {
    fn mmap(at: *mut c_void, n: usize, protection: i32, flags: i32, file: i32, offset: i64) -> *mut c_void;
    fn mprotect(at: *mut c_void, n: usize, protection: i32) -> i32;
}

const PAGE: usize = 4096;
const NONE: i32 = 0;
const READ: i32 = 1;
const WRITE: i32 = 2;
// Of Linux on x86-64, as the archive is.
const PRIVATE: i32 = 0x02;
const ANONYMOUS: i32 = 0x20;
const NO_RESERVE: i32 = 0x4000;

/// Where a stretch stands in its memory: one octet too many, or one before the first, falls on a closed page.
#[derive(Clone, Copy, PartialEq, Eq)]
pub enum Edge {
    Low,
    High,
}

pub struct Memory {
    first: *mut u8,
    size: usize,
}

impl Memory {
    /// Room for `size` octets, in whole pages, taken for the rest of the program.
    pub fn new(size: usize) -> Memory {
        let size = size.div_ceil(PAGE) * PAGE;
        unsafe {
            let base = mmap(std::ptr::null_mut(), size + 2 * PAGE, NONE, PRIVATE | ANONYMOUS | NO_RESERVE, -1, 0);
            assert!(base as isize != -1, "no memory for a stretch of {size} octets");
            let first = (base as *mut u8).add(PAGE);
            assert_eq!(mprotect(first as *mut c_void, size, READ | WRITE), 0);
            Memory { first, size }
        }
    }

    /// The pointer at which `n` octets touch the edge.
    pub fn at(&mut self, n: usize, edge: Edge) -> *mut u8 {
        assert!(n <= self.size);
        match edge {
            Edge::Low => self.first,
            Edge::High => unsafe { self.first.add(self.size - n) },
        }
    }

    /// Puts octets at an edge and lends them. Of no octets, the pointer is NULL at Low, and at High that of the
    /// closed page.
    pub fn put(&mut self, octets: &[u8], edge: Edge) -> *const u8 {
        if octets.is_empty() && edge == Edge::Low {
            return std::ptr::null();
        }
        let at = self.at(octets.len(), edge);
        unsafe { std::ptr::copy_nonoverlapping(octets.as_ptr(), at, octets.len()) };
        at
    }
}
