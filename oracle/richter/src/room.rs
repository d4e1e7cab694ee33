//! Memory for the sizes that a small file can name.
//!
//! `load` reserves room for every record that a section's size names before it reads the first, so
//! that a file of 193 bytes can ask for gigabytes. A program that takes `Room` as its allocator
//! answers such a request with addresses that are backed by memory only where they are written.

use std::{
    alloc::{GlobalAlloc, Layout, System},
    ffi::c_void,
};

extern "C" {
    fn mmap(
        at: *mut c_void,
        len: usize,
        prot: i32,
        flags: i32,
        file: i32,
        from: i64,
    ) -> *mut c_void;
    fn munmap(at: *mut c_void, len: usize) -> i32;
}

const READ_WRITE: i32 = 3;
const PRIVATE_ANONYMOUS_NO_RESERVE: i32 = 0x2 | 0x20 | 0x4000;

/// From this size on, addresses without reserved memory.
const LARGE: usize = 1 << 28;

pub struct Room;

unsafe impl GlobalAlloc for Room {
    unsafe fn alloc(&self, layout: Layout) -> *mut u8 {
        if layout.size() < LARGE || layout.align() > 4096 {
            return System.alloc(layout);
        }
        let at = mmap(
            std::ptr::null_mut(),
            layout.size(),
            READ_WRITE,
            PRIVATE_ANONYMOUS_NO_RESERVE,
            -1,
            0,
        );
        if at as isize == -1 {
            return std::ptr::null_mut();
        }
        at as *mut u8
    }

    unsafe fn dealloc(&self, at: *mut u8, layout: Layout) {
        if layout.size() < LARGE || layout.align() > 4096 {
            return System.dealloc(at, layout);
        }
        munmap(at as *mut c_void, layout.size());
    }
}
