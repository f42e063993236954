//! The kit's `Box`.

extern crate alloc;

use crate::alloc::{AllocFailed, Global};
use core::alloc::Layout;
use core::ops::{Deref, DerefMut};

/// Kit `Box`: a value in a block of its own.
pub struct Box<T>(alloc::boxed::Box<T>);

impl<T> Box<T> {
    /// Kit `Box::new`: one request for memory, none if the value has no size. On refusal the value comes back.
    pub fn new(_: Global, value: T) -> Result<Box<T>, AllocFailed<T>> {
        let layout = Layout::new::<T>();
        if layout.size() == 0 {
            return Ok(Box(alloc::boxed::Box::new(value)));
        }
        // SAFETY: the layout has a size, and the block is written before it is a box, which frees it by the same layout.
        unsafe {
            let block = alloc::alloc::alloc(layout).cast::<T>();
            if block.is_null() {
                return Err(AllocFailed { value });
            }
            block.write(value);
            Ok(Box(alloc::boxed::Box::from_raw(block)))
        }
    }

    /// Rust's own box, for a caller outside the core. Nothing is copied.
    pub fn into_std(self) -> alloc::boxed::Box<T> {
        self.0
    }
}

impl<T> Deref for Box<T> {
    type Target = T;

    fn deref(&self) -> &T {
        &self.0
    }
}

impl<T> DerefMut for Box<T> {
    fn deref_mut(&mut self) -> &mut T {
        &mut self.0
    }
}
