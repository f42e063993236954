//! What the kit's programs and tests have of their process.

#![allow(unused_macros)]

use crate::alloc::Global;
pub use std::process::ExitCode;

/// Kit `HostRuntime`: the handle that `main` and a test are given.
#[derive(Default)]
pub struct HostRuntime;

impl HostRuntime {
    /// The handle.
    pub fn new() -> HostRuntime {
        HostRuntime
    }

    /// Kit `Input::reader`: standard input.
    pub fn reader(&self) -> std::io::Stdin {
        std::io::stdin()
    }

    /// Kit `Alloc::alloc`: the allocator.
    pub fn alloc(&self) -> Global {
        Global
    }
}

/// Kit `Print`, `Eprint` and `Abort`: a handle that can write or end the process, as the macros do without it.
pub trait Print {}

impl Print for HostRuntime {}

pub use {Print as Abort, Print as Eprint};

/// Kit `println!`: a line on standard output. An error may leave a part of it written.
macro_rules! try_println {
    ($to:expr; $($text:tt)*) => {
        std::io::Write::write_fmt(&mut std::io::stdout(), format_args!("{}\n", format_args!($($text)*)))
    };
}

/// Kit `print!`: the same without the line's end.
macro_rules! try_print {
    ($to:expr; $($text:tt)*) => {
        std::io::Write::write_fmt(&mut std::io::stdout(), format_args!($($text)*))
    };
}

/// Kit `eprintln!`: a line on standard error.
macro_rules! try_eprintln {
    ($to:expr; $($text:tt)*) => {
        std::io::Write::write_fmt(&mut std::io::stderr(), format_args!("{}\n", format_args!($($text)*)))
    };
}

/// Kit `format!`: a text. Refused if there is no memory, and if a value's `fmt` fails.
macro_rules! try_format {
    (in $alloc:expr; $($text:tt)*) => {
        $crate::string::String::from_format($alloc, format_args!($($text)*))
    };
}

pub(crate) use {try_eprintln, try_format, try_print, try_println};

/// Kit `Fail`: why a test fails, by the `Debug` of an error.
#[derive(Debug)]
pub struct Fail(#[allow(dead_code)] std::string::String);

impl<E: std::error::Error> From<E> for Fail {
    fn from(error: E) -> Fail {
        Fail(format!("{error:?}"))
    }
}
