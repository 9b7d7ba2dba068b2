//! The counts of `heap_counter.so`, if it is preloaded.

use std::ffi::{c_char, c_void, CStr};
use std::ptr;

extern "C" {
    fn dlsym(handle: *mut c_void, name: *const c_char) -> *mut c_void;
}

type Count = extern "C" fn() -> i64;

/// The functions of the counter.
#[derive(Clone, Copy)]
pub struct Counter {
    /// Bytes on the heap.
    pub now: Count,
    /// The most bytes on the heap since the last call.
    pub peak: Count,
    /// How many pieces of memory were taken.
    pub taken: Count,
}

impl Counter {
    pub fn find() -> Option<Self> {
        Some(Counter {
            now: symbol(c"heap_now")?,
            peak: symbol(c"heap_peak")?,
            taken: symbol(c"heap_taken")?,
        })
    }
}

fn symbol(name: &CStr) -> Option<Count> {
    // SAFETY: a null handle stands for all loaded objects
    let found = unsafe { dlsym(ptr::null_mut(), name.as_ptr()) };
    // SAFETY: the counter defines functions of this type under these names
    (!found.is_null()).then(|| unsafe { std::mem::transmute::<*mut c_void, Count>(found) })
}
