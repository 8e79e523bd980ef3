//! The memory of the library, by the global allocator. The size of a block lies in front of it.
extern crate alloc;

use alloc::alloc::{alloc, dealloc, Layout};
use core::ptr::NonNull;

const HEAD: usize = 16;

/// `struct rattle_tried`
#[repr(C)]
pub struct Tried {
    ok: bool,
    at: *mut u8,
}

fn layout(size: usize) -> Option<Layout> {
    Layout::from_size_align(size.checked_add(HEAD)?, HEAD).ok()
}

#[no_mangle]
extern "C" fn rattle_alloc(size: usize, _alignment: usize) -> Tried {
    // SAFETY: a layout of 16 bytes or more; the head is inside the block.
    unsafe {
        match layout(size).map(|layout| alloc(layout)) {
            Some(block) if !block.is_null() => {
                block.cast::<usize>().write(size);
                Tried {
                    ok: true,
                    at: block.add(HEAD),
                }
            }
            _ => Tried {
                ok: false,
                at: NonNull::dangling().as_ptr(),
            },
        }
    }
}

#[no_mangle]
unsafe extern "C" fn rattle_dealloc(at: *mut u8) {
    let block = at.sub(HEAD);
    let size = block.cast::<usize>().read();
    dealloc(block, Layout::from_size_align_unchecked(size + HEAD, HEAD));
}
