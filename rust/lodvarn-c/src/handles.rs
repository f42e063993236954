//! The border to C: how a call takes its arguments, and the calls that make and free the block whose address a program
//! holds. The block has the handle, which is null while it holds no session.

use crate::proved::rl_ffi::handle::Handle;
use crate::proved::rl_ffi::opening::{rl_close, rl_get_options, rl_open_session, rl_set_options};
use crate::proved::rl_ffi::reports::rl_take_report;
use crate::proved::rl_ffi::saved::rl_load_session;
use crate::proved::rl_ffi::shapes::{COptions, CReport};
use crate::proved::stand_in::alloc::Global;
use crate::proved::stand_in::boxed::Box;
use core::mem::{size_of, MaybeUninit};

type Block = alloc::boxed::Box<Handle>;

const NO_MEMORY: i32 = -1;
pub(crate) const BAD_SIZE: i32 = -13;

// As LODVARN_OPTIONS of the header.
const OPTIONS: COptions = COptions {
    size: size_of::<COptions>(),
    limit: usize::MAX,
    max_entries: usize::MAX,
    max_bytes: usize::MAX,
    ring_size: 60,
    max_ring_bytes: usize::MAX,
    prompt: 0,
    mode: 0,
    keep_undone: false,
};

/// What a pointer and a count of C stand for. The pointer may be null if the count is 0.
///
/// # Safety
/// So many are there, and nothing changes them as long as they are used.
pub(crate) unsafe fn slice<'a, T>(at: *const T, len: usize) -> &'a [T] {
    match len {
        0 => &[],
        // SAFETY: as above.
        _ => unsafe { core::slice::from_raw_parts(at, len) },
    }
}

/// A structure that begins with its size, if this version knows all of it: it has no member beyond, or 0 in each. This
/// version knows one size. A later one puts no member into the padding at the end: the size would stay, and old programs
/// leave anything there. 0 in a member that it adds is what there was before.
///
/// # Safety
/// As many bytes are there as the size says.
pub(crate) unsafe fn known<'a, T>(at: *const T) -> Option<&'a T> {
    // SAFETY: a size is there at least.
    let size = unsafe { at.cast::<usize>().read() };
    // SAFETY: the size says that there is such a byte.
    let is_unset = |k| unsafe { at.cast::<u8>().add(k).read() } == 0;
    match size >= size_of::<T>() && (size_of::<T>()..size).all(is_unset) {
        // SAFETY: it is there whole.
        true => Some(unsafe { &*at }),
        false => None,
    }
}

/// Has a call write such a structure. What this version does not know in it becomes 0, if the call writes.
///
/// # Safety
/// As many bytes are there as the size says, and nothing else that is passed overlaps them.
unsafe fn written<T>(at: *mut T, call: impl FnOnce(&mut T) -> i32) -> i32 {
    // SAFETY: a size is there at least.
    let size = unsafe { at.cast::<usize>().read() };
    if size < size_of::<T>() {
        return BAD_SIZE;
    }
    // SAFETY: it is there whole.
    let answer = call(unsafe { &mut *at });
    if answer > 0 {
        // SAFETY: these bytes are there too.
        unsafe { at.add(1).cast::<u8>().write_bytes(0, size - size_of::<T>()) };
    }
    answer
}

/// The call of C that a function of the core is: without the allocator, with a pointer and a count for each slice, with a
/// pointer to a screen, whose size it looks at, and with a movement as C has it. The parameters go from the third bracket,
/// one by one, to the first, and what makes them those of the function to the second.
macro_rules! export {
    (pub fn $name:ident($($of:tt)*) $(-> $result:ty)? $body:block) => {
        export! { $name [] [] [$($of)*,] [$(-> $result)?] $body }
    };
    ($name:ident [$($c:tt)*] [$($own:tt)*] [$alloc:ident: Global, $($of:tt)*] $result:tt $body:block) => {
        export! { $name [$($c)*] [$($own)* let $alloc = Global;] [$($of)*] $result $body }
    };
    ($name:ident [$($c:tt)*] [$($own:tt)*] [$slice:ident: &[$type:ty], $($of:tt)*] $result:tt $body:block) => {
        export! {
            $name [$($c)* at: *const $type, len: usize,]
            // SAFETY: C passes so many, and nothing changes them during the call.
            [$($own)* let $slice = unsafe { $crate::handles::slice(at, len) };]
            [$($of)*] $result $body
        }
    };
    ($name:ident [$($c:tt)*] [$($own:tt)*] [$screen:ident: &CScreen, $($of:tt)*] $result:tt $body:block) => {
        export! {
            $name [$($c)* $screen: *const CScreen,]
            [$($own)*
            // SAFETY: C passes a screen of that size.
            let $screen = match unsafe { $crate::handles::known($screen) } {
                Some(known) => known,
                None => return $crate::handles::BAD_SIZE,
            };]
            [$($of)*] $result $body
        }
    };
    ($name:ident [$($c:tt)*] [$($own:tt)*] [$movement:ident: CMovement, $($of:tt)*] $result:tt $body:block) => {
        export! {
            $name [$($c)* $movement: $crate::movements::Movement,]
            // SAFETY: nothing changes its text during the call.
            [$($own)* let $movement = unsafe { $movement.own() };]
            [$($of)*] $result $body
        }
    };
    ($name:ident [$($c:tt)*] [$($own:tt)*] [$slice:ident: &mut [$type:ty], $($of:tt)*] $result:tt $body:block) => {
        export! {
            $name [$($c)* at: *mut $type, len: usize,]
            [$($own)* let $slice = match len {
                0 => &mut [],
                // SAFETY: C passes room for so many, and nothing else that it passes overlaps it.
                _ => unsafe { core::slice::from_raw_parts_mut(at, len) },
            };]
            [$($of)*] $result $body
        }
    };
    ($name:ident [$($c:tt)*] $own:tt [$other:ident: $type:ty, $($of:tt)*] $result:tt $body:block) => {
        export! { $name [$($c)* $other: $type,] $own [$($of)*] $result $body }
    };
    ($name:ident [$($c:tt)*] [$($own:tt)*] [$(,)?] [$($result:tt)*] $body:block) => {
        #[no_mangle]
        pub unsafe extern "C" fn $name($($c)*) $($result)* {
            $($own)*
            $body
        }
    };
}

// Makes a block, which `fill` fills, and gives it out, or frees it after an error.
fn open(out: &mut MaybeUninit<Block>, fill: impl FnOnce(&mut Handle) -> i32) -> i32 {
    let mut block = match Box::new(Global, Handle::closed()) {
        Ok(block) => block,
        Err(_) => return NO_MEMORY,
    };
    let answer = fill(&mut block);
    if answer >= 0 {
        out.write(block.into_std());
    }
    answer
}

export! { pub fn lodvarn_open(out: &mut MaybeUninit<Block>, options: *const COptions, text: &[u8]) -> i32 {
    let options = match options.is_null() {
        true => Some(&OPTIONS),
        // SAFETY: C passes options of that size.
        false => unsafe { known(options) },
    };
    match options {
        Some(options) => open(out, |handle| rl_open_session(Global, handle, options, text)),
        None => BAD_SIZE,
    }
} }

export! { pub fn lodvarn_load(out: &mut MaybeUninit<Block>, bytes: &[u8]) -> i32 {
    open(out, |handle| rl_load_session(Global, handle, bytes))
} }

export! { pub fn lodvarn_close(s: Option<&mut Option<Block>>) {
    if let Some(mut block) = s.and_then(Option::take) {
        rl_close(&mut block);
    }
} }

export! { pub fn lodvarn_set_options(s: &mut Handle, options: *const COptions) -> i32 {
    // SAFETY: C passes options of that size.
    match unsafe { known(options) } {
        Some(options) => rl_set_options(s, options),
        None => BAD_SIZE,
    }
} }

export! { pub fn lodvarn_get_options(s: &mut Handle, options: *mut COptions) -> i32 {
    // SAFETY: C passes options of that size.
    unsafe { written(options, |options| rl_get_options(s, options)) }
} }

export! { pub fn lodvarn_take_report(s: &mut Handle, report: *mut CReport) -> i32 {
    // SAFETY: C passes a report of that size.
    unsafe { written(report, |report| rl_take_report(s, report)) }
} }

macro_rules! answers {
    ($($name:literal: $text:literal,)*) => { [$((concat!("LODVARN_", $name, "\0"), concat!($text, "\0"))),*] };
}

// The names of the answers, from the least number on, and what they mean, each with a NUL at its end.
const LEAST: i32 = -13;
const ANSWERS: [(&str, &str); 16] = answers! {
    "BAD_SIZE": "a structure has a size, or members, that this version does not know",
    "DAMAGED": "the saved bytes are not those of a session",
    "UNKNOWN_FORMAT": "the bytes do not begin as this version saves them",
    "CLOSED": "the session was lost in a call that a signal handler left",
    "IS_WATCHED": "the session keeps reports already",
    "TOO_SMALL": "the result does not fit in the buffer",
    "NO_SUCH_NUMBER": "a number is out of its range, not in its enum, or no character",
    "NOT_UTF8": "a text that was passed is not UTF-8",
    "NO_ROOM": "the text would exceed the limit, or is too long to be saved",
    "NOT_REPLAYING": "the entries do not lead to the present text",
    "BAD_YANK_SIZE": "no text of the yanked size ends at the cursor",
    "BAD_OFFSET": "an offset is past the end or inside a character, or two are out of order",
    "NO_MEMORY": "out of memory",
    "NOTHING": "there was nothing to do, or nothing that was asked for",
    "DONE": "done",
    "DONE_AT_END": "done: the inserted text is the end of the text now",
};

fn said(answer: i32) -> (&'static str, &'static str) {
    let index = answer
        .checked_sub(LEAST)
        .and_then(|n| usize::try_from(n).ok());
    let found = index.and_then(|n| ANSWERS.get(n));
    *found.unwrap_or(&("unknown\0", "unknown answer\0"))
}

export! { pub fn lodvarn_answer_name(answer: i32) -> *const u8 { said(answer).0.as_ptr() } }

export! { pub fn lodvarn_error_text(answer: i32) -> *const u8 { said(answer).1.as_ptr() } }
