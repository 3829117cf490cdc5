//! The memory of the library: `malloc`, `realloc` and `free` of C, or with the feature `pool` those of an array.
use core::alloc::{GlobalAlloc, Layout};
use core::ffi::c_void;

#[cfg(feature = "pool")]
use super::pool::{free, malloc, realloc};

#[cfg(not(feature = "pool"))]
unsafe extern "C" {
    fn malloc(size: usize) -> *mut c_void;
    fn realloc(at: *mut c_void, size: usize) -> *mut c_void;
    fn free(at: *mut c_void);
}

/// `malloc` aligns to 16 octets, or to 8 where a pointer has 4; no type of the library wants more.
struct Memory;

unsafe impl GlobalAlloc for Memory {
    unsafe fn alloc(&self, layout: Layout) -> *mut u8 {
        unsafe { malloc(layout.size()).cast() }
    }

    unsafe fn dealloc(&self, at: *mut u8, _layout: Layout) {
        unsafe { free(at.cast::<c_void>()) }
    }

    unsafe fn realloc(&self, at: *mut u8, _layout: Layout, size: usize) -> *mut u8 {
        unsafe { realloc(at.cast(), size).cast() }
    }
}

#[global_allocator]
static MEMORY: Memory = Memory;
