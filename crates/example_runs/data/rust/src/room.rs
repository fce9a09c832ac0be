//! The memory in which a handle of the library lies.

use std::alloc::{alloc, dealloc, handle_alloc_error, Layout};
use std::ptr::NonNull;

/// A room of so many bytes, in cache lines of its own. Its memory goes back when it is dropped, not what lies in it.
pub struct Room {
    at: NonNull<u8>,
    layout: Layout,
}

// The room is memory that nothing else knows of; the library's handles may be used by one thread after the other.
unsafe impl Send for Room {}

impl Room {
    pub fn new(bytes: usize) -> Room {
        let layout = Layout::from_size_align(bytes.max(1), 64)
            .expect("a handle is small")
            .pad_to_align();
        // The layout has a byte at least.
        let at =
            NonNull::new(unsafe { alloc(layout) }).unwrap_or_else(|| handle_alloc_error(layout));
        Room { at, layout }
    }

    pub fn at(&self) -> *mut u8 {
        self.at.as_ptr()
    }
}

impl Drop for Room {
    fn drop(&mut self) {
        // It came from `alloc`, with this layout.
        unsafe { dealloc(self.at.as_ptr(), self.layout) }
    }
}
