//! The blocks of the libraries, from Rust's allocator.
use alloc::alloc::{Layout, alloc, dealloc};
use core::ffi::c_void;
use core::ptr;

/// The bytes before a block, which have its size. A block is aligned to them.
const HEAD: usize = 16;

/// A block of memory, or none.
#[repr(C)]
pub struct Block {
    ok: u64,
    at: *mut c_void,
}

fn layout_of(size: usize) -> Option<Layout> {
    Layout::from_size_align(size.checked_add(HEAD)?, HEAD).ok()
}

/// A new block of `size` bytes at a multiple of `align`, which is 16 at most.
#[unsafe(no_mangle)]
pub extern "C" fn rattle_alloc(size: usize, align: usize) -> Block {
    debug_assert!(align <= HEAD);
    let none = Block {
        ok: 0,
        at: ptr::without_provenance_mut(HEAD),
    };
    let Some(layout) = layout_of(size) else {
        return none;
    };
    // SAFETY: the layout has at least `HEAD` bytes.
    let start = unsafe { alloc(layout) };
    if start.is_null() {
        return none;
    }
    // SAFETY: the block has `HEAD` bytes before those of the library, and is aligned to them.
    unsafe {
        start.cast::<usize>().write(size);
        Block {
            ok: 1,
            at: start.add(HEAD).cast(),
        }
    }
}

/// Frees a block.
///
/// # Safety
///
/// The block is one of `rattle_alloc`, and isn't freed yet.
#[unsafe(no_mangle)]
pub unsafe extern "C" fn rattle_dealloc(at: *mut c_void) {
    // SAFETY: `rattle_alloc` wrote the size there.
    unsafe {
        let start = at.cast::<u8>().sub(HEAD);
        let size = start.cast::<usize>().read();
        dealloc(start, Layout::from_size_align_unchecked(size + HEAD, HEAD));
    }
}
