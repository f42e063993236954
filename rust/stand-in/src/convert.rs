//! The kit's traits of what lends a slice or a text.

/// Kit `AsSlice`.
pub trait AsSlice<T> {
    /// The elements.
    fn as_slice(&self) -> &[T];
}

impl<T> AsSlice<T> for &[T] {
    fn as_slice(&self) -> &[T] {
        self
    }
}

/// Kit `AsStr`.
pub trait AsStr {
    /// The text.
    fn as_str(&self) -> &str;
}
