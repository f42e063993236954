//! The kit's `Vec`.

extern crate alloc;

use crate::alloc::{AllocError, AllocFailed, Global};
use core::ops::{Deref, DerefMut, RangeBounds};

/// Kit `Vec`: a growable array. A call asks for memory only where its capacity is too small, and a refused one leaves the
/// elements and the capacity as they were. The capacity never shrinks.
pub struct Vec<T>(pub(super) alloc::vec::Vec<T>);

impl<T> Vec<T> {
    /// Kit `Vec::new`: empty. It takes no memory.
    pub const fn new(_: Global) -> Vec<T> {
        Vec(alloc::vec::Vec::new())
    }

    /// Kit `Vec::with_capacity`: empty, with room for so many. Never refused for none.
    pub fn with_capacity(alloc: Global, capacity: usize) -> Result<Vec<T>, AllocError> {
        let mut made = Vec::new(alloc);
        made.0.try_reserve_exact(capacity).map_err(|_| AllocError)?;
        Ok(made)
    }

    /// Kit `Vec::allocator`.
    pub fn allocator(&self) -> &Global {
        &Global
    }

    /// Rust's own array, for a caller outside the core. Nothing is copied.
    pub fn into_std(self) -> alloc::vec::Vec<T> {
        self.0
    }

    /// Kit `Vec::capacity`.
    pub fn capacity(&self) -> usize {
        self.0.capacity()
    }

    /// Kit `Vec::reserve`: room for so many more.
    pub fn reserve(&mut self, more: usize) -> Result<(), AllocError> {
        self.0.try_reserve(more).map_err(|_| AllocError)
    }

    /// Kit `Vec::push`: puts a value at the end. On refusal it comes back.
    pub fn push(&mut self, value: T) -> Result<(), AllocFailed<T>> {
        if self.0.try_reserve(1).is_err() {
            return Err(AllocFailed { value });
        }
        self.0.push(value);
        Ok(())
    }

    /// Kit `Vec::insert`: puts a value in, and the elements from there move up. On refusal it comes back.
    pub fn insert(&mut self, index: usize, value: T) -> Result<(), AllocFailed<T>> {
        if self.0.try_reserve(1).is_err() {
            return Err(AllocFailed { value });
        }
        self.0.insert(index, value);
        Ok(())
    }

    /// Kit `Vec::pop`: takes the last element out.
    pub fn pop(&mut self) -> Option<T> {
        self.0.pop()
    }

    /// Kit `Vec::remove`: takes an element out, and those after it move down.
    pub fn remove(&mut self, index: usize) -> T {
        self.0.remove(index)
    }

    /// Kit `Vec::truncate`: drops all but the first `len` elements, in their order.
    pub fn truncate(&mut self, len: usize) {
        self.0.truncate(len);
    }

    /// Kit `Vec::clear`: drops all elements, in their order.
    pub fn clear(&mut self) {
        self.0.clear();
    }

    /// Kit `Vec::drain`: takes a range out, in its order. It takes no memory.
    pub fn drain<R: RangeBounds<usize>>(&mut self, range: R) -> alloc::vec::Drain<'_, T> {
        self.0.drain(range)
    }

    /// Kit `Vec::split_off`: the elements from `at` on, in an array of their own. Refused, it takes none.
    pub fn split_off(&mut self, at: usize) -> Result<Vec<T>, AllocError> {
        let mut rest = Vec::with_capacity(Global, self.0.len() - at)?;
        rest.0.extend(self.0.drain(at..));
        Ok(rest)
    }

    /// Kit `Vec::as_slice`.
    pub fn as_slice(&self) -> &[T] {
        &self.0
    }

    /// Kit `Vec::as_mut_slice`.
    pub fn as_mut_slice(&mut self) -> &mut [T] {
        &mut self.0
    }
}

impl<T: Copy> Vec<T> {
    /// Kit `Vec::extend_from_slice`: puts a copy of `part` at the end.
    pub fn extend_from_slice(&mut self, part: &[T]) -> Result<(), AllocError> {
        self.reserve(part.len())?;
        self.0.extend_from_slice(part);
        Ok(())
    }

    /// Kit `Vec::resize`: keeps the first `len` elements, and fills up to `len` with `value`.
    pub fn resize(&mut self, len: usize, value: T) -> Result<(), AllocError> {
        self.reserve(len.saturating_sub(self.len()))?;
        self.0.resize(len, value);
        Ok(())
    }
}

impl<T> Deref for Vec<T> {
    type Target = [T];

    fn deref(&self) -> &[T] {
        &self.0
    }
}

impl<T> DerefMut for Vec<T> {
    fn deref_mut(&mut self) -> &mut [T] {
        &mut self.0
    }
}

impl<'a, T> IntoIterator for &'a Vec<T> {
    type Item = &'a T;
    type IntoIter = core::slice::Iter<'a, T>;

    fn into_iter(self) -> core::slice::Iter<'a, T> {
        self.0.iter()
    }
}
