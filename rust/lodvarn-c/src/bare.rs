//! What `std` would have: memory from malloc, and an end for a panic.

use core::alloc::{GlobalAlloc, Layout};
use core::mem::size_of;
use core::panic::PanicInfo;
use core::ptr::null_mut;

#[link(name = "c")]
extern "C" {
    fn malloc(size: usize) -> *mut u8;
    fn realloc(at: *mut u8, size: usize) -> *mut u8;
    fn free(at: *mut u8);
    fn abort() -> !;
}

struct Malloc;

#[global_allocator]
static MALLOC: Malloc = Malloc;

// SAFETY: a block of malloc suits each type that needs no greater alignment than two pointers. The core has none that does,
// and a request for one is refused.
unsafe impl GlobalAlloc for Malloc {
    #[inline]
    unsafe fn alloc(&self, layout: Layout) -> *mut u8 {
        match layout.align() <= 2 * size_of::<usize>() {
            // SAFETY: it takes any size.
            true => unsafe { malloc(layout.size()) },
            false => null_mut(),
        }
    }

    #[inline]
    unsafe fn dealloc(&self, at: *mut u8, _: Layout) {
        // SAFETY: the block is of malloc or realloc, and is not used any more.
        unsafe { free(at) }
    }

    #[inline]
    unsafe fn realloc(&self, at: *mut u8, _: Layout, size: usize) -> *mut u8 {
        // SAFETY: the same. If it is refused, the block stays.
        unsafe { realloc(at, size) }
    }
}

#[panic_handler]
fn panic(_: &PanicInfo<'_>) -> ! {
    // SAFETY: it takes nothing.
    unsafe { abort() }
}
