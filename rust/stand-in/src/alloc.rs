//! The allocator, and the errors of a refused request for memory.

use core::fmt;

/// Kit `Global`: the allocator of the process. All are equal.
#[derive(Clone, Copy, Debug, PartialEq, Eq)]
pub struct Global;

/// Kit `AllocError`: there was no memory, or more was asked for than a block can have.
#[derive(Clone, Copy, Debug, PartialEq, Eq)]
pub struct AllocError;

/// Kit `AllocFailed`: the same of a value that was to be stored. It comes back.
#[derive(Clone, Copy, Debug, PartialEq, Eq)]
pub struct AllocFailed<T> {
    /// What was to be stored.
    pub value: T,
}

impl fmt::Display for AllocError {
    fn fmt(&self, f: &mut fmt::Formatter<'_>) -> fmt::Result {
        f.write_str("memory allocation failed")
    }
}

impl<T> fmt::Display for AllocFailed<T> {
    fn fmt(&self, f: &mut fmt::Formatter<'_>) -> fmt::Result {
        AllocError.fmt(f)
    }
}

#[cfg(feature = "std")]
impl std::error::Error for AllocError {}

#[cfg(feature = "std")]
impl<T: fmt::Debug> std::error::Error for AllocFailed<T> {}

impl<T> From<AllocFailed<T>> for AllocError {
    fn from(_: AllocFailed<T>) -> AllocError {
        AllocError
    }
}

/// Kit `Clone`, whose `clone` may be refused. What has Rust's `Clone` here takes no memory for it.
pub trait TryClone: Clone {
    /// The copy.
    fn try_clone(&self) -> Result<Self, AllocError> {
        Ok(self.clone())
    }
}

impl<T: Clone> TryClone for T {}
