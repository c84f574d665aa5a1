//! The memory that the library asks for, by malloc, realloc and free, which every Rust program with `std` links. `bindings/go/heap.c`
//! says what the three functions must do.

use core::ffi::c_void;
use core::ptr::NonNull;

unsafe extern "C" {
    fn malloc(size: usize) -> *mut c_void;
    fn realloc(start: *mut c_void, size: usize) -> *mut c_void;
    fn free(start: *mut c_void);
}

/// Whether there was memory, and where it begins.
#[repr(C)]
pub struct Tried {
    ok: bool,
    start: *mut u8,
}

fn tried(start: *mut c_void) -> Tried {
    let place = NonNull::new(start.cast::<u8>());
    Tried { ok: place.is_some(), start: place.unwrap_or(NonNull::dangling()).as_ptr() }
}

/// `align` is 16 at most, and a block of no bytes gets `align` of them.
#[unsafe(no_mangle)]
extern "C" fn rattle_alloc(size: usize, align: usize) -> Tried {
    // SAFETY: any size may be asked of malloc.
    tried(unsafe { malloc(if size != 0 { size } else { align }) })
}

#[unsafe(no_mangle)]
unsafe extern "C" fn rattle_realloc(start: *mut u8, _kept: usize, size: usize, align: usize) -> Tried {
    // SAFETY: `start` is that of a block from here.
    tried(unsafe { realloc(start.cast(), if size != 0 { size } else { align }) })
}

#[unsafe(no_mangle)]
unsafe extern "C" fn rattle_dealloc(start: *mut u8) {
    // SAFETY: `start` is that of a block from here, which nobody uses any more.
    unsafe { free(start.cast()) }
}
