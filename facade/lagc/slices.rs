//! A pointer and a length of C as a slice.
use core::slice;

/// These many items. Of none, the pointer is not looked at.
///
/// # Safety
/// The items stand there, and nothing writes them while the slice is used.
#[inline]
pub unsafe fn slice<'a, T>(at: *const T, count: usize) -> &'a [T] {
    if count == 0 { &[] } else { unsafe { slice::from_raw_parts(at, count) } }
}

/// These many items to write. Of none, the pointer is not looked at.
///
/// # Safety
/// There is room for the items, and nothing else reads or writes them while the slice is used.
#[inline]
pub unsafe fn slice_mut<'a, T>(at: *mut T, count: usize) -> &'a mut [T] {
    if count == 0 { &mut [] } else { unsafe { slice::from_raw_parts_mut(at, count) } }
}
