//! Movements, and the functions that make them. C has these in `include/lodvarn.h`; here they are for languages that can't
//! call functions of a header.

use crate::handles::slice;
use crate::proved::rl_ffi::shapes::CMovement;
use core::ptr::null;

/// A movement as C has it.
#[repr(C)]
#[derive(Clone, Copy)]
pub struct Movement {
    kind: u32,
    c: u32,
    n: usize,
    text: *const u8,
    len: usize,
}

impl Movement {
    /// As the core has it.
    ///
    /// # Safety
    /// Its text is there, and nothing changes it as long as the movement is used.
    pub unsafe fn own<'a>(self) -> CMovement<'a> {
        let Movement {
            kind,
            c,
            n,
            text,
            len,
        } = self;
        // SAFETY: as above.
        let text = unsafe { slice(text, len) };
        CMovement { kind, c, n, text }
    }
}

fn new(kind: u32, c: u32, n: usize) -> Movement {
    let (text, len) = (null(), 0);
    Movement {
        kind,
        c,
        n,
        text,
        len,
    }
}

// The index of a number in an enum; for a number outside of it one that leads to no kind.
fn index(number: u32, first: u32, count: u32) -> u32 {
    match number.wrapping_sub(first) {
        k if k < count => k,
        _ => 1000,
    }
}

macro_rules! movements {
    ($(pub fn $name:ident($($of:ident: $type:ty),*) -> Movement $body:block)*) => {
        $(
            #[no_mangle]
            pub extern "C" fn $name($($of: $type),*) -> Movement {
                $body
            }
        )*
    };
}

movements! {
    pub fn lodvarn_whole_line() -> Movement { new(100, 0, 0) }
    pub fn lodvarn_to_line_start() -> Movement { new(101, 0, 0) }
    pub fn lodvarn_to_line_end() -> Movement { new(102, 0, 0) }
    pub fn lodvarn_to_first_nonblank() -> Movement { new(103, 0, 0) }
    pub fn lodvarn_whole_text() -> Movement { new(104, 0, 0) }
    pub fn lodvarn_to_text_start() -> Movement { new(105, 0, 0) }
    pub fn lodvarn_to_text_end() -> Movement { new(106, 0, 0) }
    pub fn lodvarn_to_match(direction: u32, text: *const u8, len: usize) -> Movement {
        Movement { text, len, ..new(107 + index(direction, 50, 2), 0, 0) }
    }
    pub fn lodvarn_chars_back(n: usize) -> Movement { new(110, 0, n) }
    pub fn lodvarn_chars_forward(n: usize) -> Movement { new(111, 0, n) }
    pub fn lodvarn_lines_up(n: usize) -> Movement { new(112, 0, n) }
    pub fn lodvarn_lines_down(n: usize) -> Movement { new(113, 0, n) }
    pub fn lodvarn_whole_lines_up(n: usize) -> Movement { new(114, 0, n) }
    pub fn lodvarn_whole_lines_down(n: usize) -> Movement { new(115, 0, n) }
    pub fn lodvarn_words_back(word: u32, n: usize) -> Movement { new(116 + index(word, 20, 3), 0, n) }
    pub fn lodvarn_words_forward(word: u32, stop: u32, n: usize) -> Movement {
        new(119 + 3 * index(word, 20, 3) + index(stop, 30, 3), 0, n)
    }
    pub fn lodvarn_to_char(search: u32, c: u32, n: usize) -> Movement { new(128 + index(search, 40, 4), c, n) }
}
