//! Readers and writers where there is no `std`.

use crate::vec::Vec;

/// Kit `io::Error`.
pub struct Error;

/// Kit `io::Result`.
pub type Result<T> = core::result::Result<T, Error>;

/// Kit `io::Read`.
pub trait Read {
    /// Fills the front of `into`, and returns how many bytes that are: 0 at the end.
    fn read(&mut self, into: &mut [u8]) -> Result<usize>;
}

/// Kit `Read for &[u8]`: takes from the front.
impl Read for &[u8] {
    fn read(&mut self, into: &mut [u8]) -> Result<usize> {
        let (front, rest) = self.split_at(self.len().min(into.len()));
        into[..front.len()].copy_from_slice(front);
        *self = rest;
        Ok(front.len())
    }
}

/// Kit `io::Write`.
pub trait Write {
    /// Takes some bytes from the front, and returns how many.
    fn write(&mut self, bytes: &[u8]) -> Result<usize>;
}

/// Kit `Write for Vec<u8>`: a write puts all bytes at the end, or is refused and leaves the vector as it was.
impl Write for Vec<u8> {
    fn write(&mut self, bytes: &[u8]) -> Result<usize> {
        let put = self.extend_from_slice(bytes);
        put.map(|()| bytes.len()).map_err(|_| Error)
    }
}
