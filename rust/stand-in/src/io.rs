//! Readers and writers: Rust's own.

use crate::alloc::AllocError;
use crate::process::HostRuntime;
use crate::vec::Vec;
pub use std::io::{Error, ErrorKind, Read, Result, Write};

impl From<AllocError> for Error {
    fn from(_: AllocError) -> Error {
        ErrorKind::OutOfMemory.into()
    }
}

/// Kit `Write for Vec<u8>`: a write puts all bytes at the end, or is refused and leaves the vector as it was.
impl Write for Vec<u8> {
    fn write(&mut self, bytes: &[u8]) -> Result<usize> {
        self.extend_from_slice(bytes)?;
        Ok(bytes.len())
    }

    fn flush(&mut self) -> Result<()> {
        Ok(())
    }
}

/// Kit `io::writer`: standard output.
pub fn writer(_: &HostRuntime) -> Writer {
    Writer(std::io::stdout())
}

/// Kit `Writer`: a write is made whole, or it fails. Nothing is kept back, as Rust's own `write` does with bytes that the
/// system did not take.
pub struct Writer(std::io::Stdout);

impl Write for Writer {
    fn write(&mut self, bytes: &[u8]) -> Result<usize> {
        let mut out = self.0.lock();
        out.write_all(bytes)?;
        out.flush()?;
        Ok(bytes.len())
    }

    fn flush(&mut self) -> Result<()> {
        self.0.flush()
    }
}
