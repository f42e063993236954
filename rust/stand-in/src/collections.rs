//! The kit's queue.

extern crate alloc;

use crate::alloc::{AllocError, Global};
use alloc::collections::VecDeque as Ring;
use alloc::vec::Vec;

/// Kit `VecDeque`: a queue. Without a ring it is empty and holds no memory: before 1.67 Rust's own takes some when it is
/// made, and ends the program if there is none.
pub struct VecDeque<T>(Option<Ring<T>>);

impl<T> VecDeque<T> {
    /// Kit `VecDeque::new`: empty. It takes no memory.
    pub const fn new(_: Global) -> VecDeque<T> {
        VecDeque(None)
    }

    /// Kit `VecDeque::with_capacity`: empty, with room for so many. Never refused for none.
    pub fn with_capacity(alloc: Global, capacity: usize) -> Result<VecDeque<T>, AllocError> {
        let mut made = VecDeque::new(alloc);
        made.reserve(capacity)?;
        Ok(made)
    }

    /// Kit `VecDeque::reserve`: room for so many more. If there is none and it is refused, the queue stays.
    pub fn reserve(&mut self, more: usize) -> Result<(), AllocError> {
        match &mut self.0 {
            Some(ring) => ring.try_reserve(more).map_err(|_| AllocError),
            None if more == 0 => Ok(()),
            None => {
                self.0 = Some(ring_for(more)?);
                Ok(())
            }
        }
    }

    /// Kit `VecDeque::len`.
    pub fn len(&self) -> usize {
        self.0.as_ref().map_or(0, Ring::len)
    }

    /// Kit `VecDeque::is_empty`.
    pub fn is_empty(&self) -> bool {
        self.len() == 0
    }

    /// Kit `VecDeque::as_slices`: all in order, the first slice empty only if the queue is.
    pub fn as_slices(&self) -> (&[T], &[T]) {
        self.0.as_ref().map_or((&[], &[]), Ring::as_slices)
    }

    /// Kit `VecDeque::front`: the first.
    pub fn front(&self) -> Option<&T> {
        self.0.as_ref()?.front()
    }

    /// Kit `VecDeque::back_mut`: the last.
    pub fn back_mut(&mut self) -> Option<&mut T> {
        self.0.as_mut()?.back_mut()
    }

    /// Kit `VecDeque::push_back_reserved`: puts a value at the end. The caller reserved room for it.
    pub fn push_back_reserved(&mut self, value: T) {
        let ring = self.0.as_mut().expect("room was reserved");
        debug_assert!(ring.len() < ring.capacity());
        ring.push_back(value);
    }

    /// Kit `VecDeque::pop_front`: takes the first out. The capacity stays.
    pub fn pop_front(&mut self) -> Option<T> {
        self.0.as_mut()?.pop_front()
    }

    /// Kit `VecDeque::pop_back`: takes the last out. The capacity stays.
    pub fn pop_back(&mut self) -> Option<T> {
        self.0.as_mut()?.pop_back()
    }

    /// Kit `VecDeque::clear`: drops all. The capacity stays.
    pub fn clear(&mut self) {
        if let Some(ring) = &mut self.0 {
            ring.clear();
        }
    }

    /// Kit `VecDeque::append`: moves all of `other` to the end. If there is no room and it is refused, both stay.
    pub fn append(&mut self, other: &mut VecDeque<T>) -> Result<(), AllocError> {
        self.reserve(other.len())?;
        if let (Some(ring), Some(more)) = (&mut self.0, &mut other.0) {
            ring.append(more);
        }
        Ok(())
    }
}

// A ring with room for so many. A vector's block becomes the ring's with no request for memory if its capacity is a power
// of two with one place to spare, which is what Rust before 1.67 wants.
fn ring_for<T>(capacity: usize) -> Result<Ring<T>, AllocError> {
    let places = capacity
        .checked_add(1)
        .and_then(usize::checked_next_power_of_two);
    let mut block = Vec::new();
    block
        .try_reserve_exact(places.ok_or(AllocError)?)
        .map_err(|_| AllocError)?;
    Ok(Ring::from(block))
}
