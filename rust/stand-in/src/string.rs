//! The kit's `String`, and its methods of `str` that take memory.

extern crate alloc;

use crate::alloc::{AllocError, Global};
use crate::casing;
use crate::vec::Vec;
use core::alloc::Layout;
use core::fmt;
use core::ops::Deref;
use core::slice::SliceIndex;

/// Kit `String`: a growable UTF-8 text. A call asks for memory only where its capacity is too small, and a refused one
/// leaves the text and the capacity as they were. The capacity never shrinks. Places are byte offsets between characters.
#[derive(PartialEq, Eq)]
pub struct String(alloc::string::String);

impl String {
    /// Kit `String::new`: empty. It takes no memory.
    #[inline]
    pub const fn new(_: Global) -> String {
        String(alloc::string::String::new())
    }

    /// Kit `String::with_capacity`: empty, with room for so many bytes. Never refused for none.
    #[inline]
    pub fn with_capacity(alloc: Global, capacity: usize) -> Result<String, AllocError> {
        if capacity == 0 {
            return Ok(String::new(alloc));
        }
        let layout = Layout::array::<u8>(capacity).map_err(|_| AllocError)?;
        // SAFETY: the layout has a size, and a `String` of that capacity frees its bytes by the same layout. This is a
        // request and nothing else: `try_reserve_exact` takes as long again.
        unsafe {
            let at = alloc::alloc::alloc(layout);
            if at.is_null() {
                return Err(AllocError);
            }
            Ok(String(alloc::string::String::from_raw_parts(
                at, 0, capacity,
            )))
        }
    }

    /// Kit `String::from_str`: a copy of `text`.
    #[inline]
    pub fn from_str(alloc: Global, text: &str) -> Result<String, AllocError> {
        let mut made = String::with_capacity(alloc, text.len())?;
        made.0.push_str(text);
        Ok(made)
    }

    /// Kit `format!`: what is written. An error of a value's `fmt` is an error too.
    pub fn from_format(alloc: Global, text: fmt::Arguments<'_>) -> Result<String, AllocError> {
        let mut made = String::new(alloc);
        fmt::write(&mut made, text).map_err(|_| AllocError)?;
        Ok(made)
    }

    /// Kit `String::from_utf8_unchecked`: the text of these bytes, with their capacity.
    ///
    /// # Safety
    /// The bytes are UTF-8.
    #[inline]
    pub unsafe fn from_utf8_unchecked(bytes: Vec<u8>) -> String {
        debug_assert!(core::str::from_utf8(&bytes).is_ok());
        // SAFETY: the caller's duty.
        String(unsafe { alloc::string::String::from_utf8_unchecked(bytes.0) })
    }

    /// Rust's own text, for a caller outside the core. Nothing is copied.
    #[inline]
    pub fn into_std(self) -> alloc::string::String {
        self.0
    }

    /// The same, lent.
    #[inline]
    pub fn as_std(&self) -> &alloc::string::String {
        &self.0
    }

    /// Kit `String::into_bytes`: the bytes, with the text's capacity.
    #[inline]
    pub fn into_bytes(self) -> Vec<u8> {
        Vec(self.0.into_bytes())
    }

    /// Kit `String::allocator`.
    #[inline]
    pub fn allocator(&self) -> &Global {
        &Global
    }

    /// Kit `String::capacity`, in bytes.
    #[inline]
    pub fn capacity(&self) -> usize {
        self.0.capacity()
    }

    /// Kit `String::reserve`: room for so many more bytes.
    #[inline]
    pub fn reserve(&mut self, more: usize) -> Result<(), AllocError> {
        self.0.try_reserve(more).map_err(|_| AllocError)
    }

    /// Kit `String::as_str`.
    #[inline]
    pub fn as_str(&self) -> &str {
        &self.0
    }

    /// Kit `String::push`: puts a character at the end.
    #[inline]
    pub fn push(&mut self, c: char) -> Result<(), AllocError> {
        self.reserve(c.len_utf8())?;
        self.0.push(c);
        Ok(())
    }

    /// Kit `String::push_str`: puts `part` at the end.
    #[inline]
    pub fn push_str(&mut self, part: &str) -> Result<(), AllocError> {
        // A byte alone is a character, and takes no call where there is room.
        if let [byte] = part.as_bytes() {
            if self.0.len() < self.0.capacity() {
                // SAFETY: that byte is a whole text.
                unsafe { self.0.as_mut_vec() }.push(*byte);
                return Ok(());
            }
        }
        self.reserve(part.len())?;
        self.0.push_str(part);
        Ok(())
    }

    /// Kit `String::insert`: puts a character in at a place. An ASCII one takes no call but `memmove` where there is room.
    #[inline]
    pub fn insert(&mut self, at: usize, c: char) -> Result<(), AllocError> {
        if !c.is_ascii() || self.0.len() == self.0.capacity() || !self.is_char_boundary(at) {
            return self.insert_any(at, c);
        }
        // SAFETY: there is room for a byte, which is a character, and comes between two characters.
        unsafe {
            let bytes = self.0.as_mut_vec();
            let place = bytes.as_mut_ptr().add(at);
            core::ptr::copy(place, place.add(1), bytes.len() - at);
            *place = c as u8;
            bytes.set_len(bytes.len() + 1);
        }
        Ok(())
    }

    #[cold]
    #[inline(never)]
    fn insert_any(&mut self, at: usize, c: char) -> Result<(), AllocError> {
        self.reserve(c.len_utf8())?;
        self.0.insert(at, c);
        Ok(())
    }

    /// Kit `String::insert_str`: puts `part` in at a place.
    #[inline]
    pub fn insert_str(&mut self, at: usize, part: &str) -> Result<(), AllocError> {
        self.reserve(part.len())?;
        self.0.insert_str(at, part);
        Ok(())
    }

    /// Kit `String::replace_range`: puts `part` over a range. It needs room only for what the text grows by. What stands
    /// after the range moves once.
    #[inline]
    pub fn replace_range(
        &mut self,
        range: impl SliceIndex<str, Output = str>,
        part: &str,
    ) -> Result<(), AllocError> {
        let (len, over) = (self.len(), &self[range]);
        let from = over.as_ptr() as usize - self.as_ptr() as usize;
        let to = from + over.len();
        let more = part.len().saturating_sub(to - from);
        self.reserve(more)?;
        let end = from + part.len();
        // SAFETY: `part` comes between two boundaries of characters, and nothing here panics before it stands there.
        let bytes = unsafe { self.0.as_mut_vec() };
        if end != to {
            bytes.resize(len + more, 0);
            bytes.copy_within(to..len, end);
        }
        bytes[from..end].copy_from_slice(part.as_bytes());
        bytes.truncate(end + (len - to));
        Ok(())
    }

    /// Kit `String::truncate`: keeps the first `len` bytes.
    #[inline]
    pub fn truncate(&mut self, len: usize) {
        self.0.truncate(len);
    }

    /// Kit `String::clear`: takes all out.
    #[inline]
    pub fn clear(&mut self) {
        self.0.clear();
    }
}

impl Deref for String {
    type Target = str;

    #[inline]
    fn deref(&self) -> &str {
        &self.0
    }
}

impl fmt::Debug for String {
    fn fmt(&self, f: &mut fmt::Formatter<'_>) -> fmt::Result {
        self.0.fmt(f)
    }
}

impl fmt::Display for String {
    fn fmt(&self, f: &mut fmt::Formatter<'_>) -> fmt::Result {
        f.pad(self)
    }
}

impl fmt::Write for String {
    fn write_str(&mut self, part: &str) -> fmt::Result {
        self.push_str(part).map_err(|_| fmt::Error)
    }
}

/// The character at a place before the end, if it is ASCII, and where it ends.
#[inline]
pub fn ascii_at(text: &str, at: usize) -> Option<(char, usize)> {
    let byte = text.as_bytes()[at];
    byte.is_ascii().then(|| (char::from(byte), at + 1))
}

/// The character that ends at a place after the start, if it is ASCII, and where it begins.
#[inline]
pub fn ascii_before(text: &str, end: usize) -> Option<(char, usize)> {
    let byte = text.as_bytes()[end - 1];
    byte.is_ascii().then(|| (char::from(byte), end - 1))
}

/// The width of a text that is one printable ASCII character: a column.
#[inline]
pub fn ascii_columns(text: &str) -> Option<usize> {
    matches!(text.as_bytes(), [b' '..=b'~']).then_some(1)
}

/// Methods that the kit's `str` has with other arguments than Rust's, or that old Rust lacks.
pub trait StrExt: AsRef<str> {
    /// Kit `str::repeat`: `n` copies. Refused too if their bytes are more than a `usize` counts.
    fn try_repeat(&self, alloc: Global, n: usize) -> Result<String, AllocError> {
        let text = self.as_ref();
        let size = text.len().checked_mul(n).ok_or(AllocError)?;
        let mut row = String::with_capacity(alloc, size)?.0.into_bytes();
        row.extend_from_slice(if n > 0 { text.as_bytes() } else { &[] });
        while row.len() < size {
            row.extend_from_within(..row.len().min(size - row.len()));
        }
        // SAFETY: these are whole copies of a text.
        Ok(unsafe { String::from_utf8_unchecked(Vec(row)) })
    }

    /// Kit `str::to_lowercase`, by the kit's tables.
    fn try_to_lowercase(&self, alloc: Global) -> Result<String, AllocError> {
        casing::lowercase(self.as_ref(), alloc)
    }

    /// Kit `str::to_uppercase`, by the kit's tables.
    fn try_to_uppercase(&self, alloc: Global) -> Result<String, AllocError> {
        casing::uppercase(self.as_ref(), alloc)
    }

    /// Kit `str::floor_char_boundary`: the last place between characters that is at most `at`.
    fn floor_boundary(&self, at: usize) -> usize {
        let text = self.as_ref();
        let mut at = at.min(text.len());
        while !text.is_char_boundary(at) {
            at -= 1;
        }
        at
    }
}

impl StrExt for str {}
