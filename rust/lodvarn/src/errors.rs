//! Why calls fail, and which faults of the core that is.
use crate::proved::rl_base::{LoadFault, Refusal, SaveFault, WatchFault};
use crate::proved::rl_session::{Fault, TypeFault};
use core::fmt;

/// Why a call failed. Text, cursor and record are as they were. But an edit of several steps that runs out of memory
/// stops after the steps that it made, and with [`Options::keep_undone`](crate::Options::keep_undone) the undone changes may have been recorded.
#[derive(Clone, Copy, Debug, PartialEq, Eq, Hash)]
#[non_exhaustive]
pub enum Error {
    /// Out of memory.
    NoMemory,
    /// A byte offset is past the end of the text or inside a character, or a range ends before it begins.
    BadOffset,
    /// The text before the cursor is not the one that was yanked last.
    BadYankSize,
    /// The entries to keep do not lead to the present text, or the changes of a [`Changeset`](crate::undo::Changeset)
    /// do not fit the text of the line.
    NotReplaying,
    /// The text would get longer than the limit, at its end or between the steps of an edit: the whole session is as it
    /// was. Or the session is too long to be saved.
    NoRoom,
    /// The bytes are not UTF-8.
    NotUtf8,
    /// The call does not take that number, or that movement.
    NoSuchNumber,
    /// The session keeps reports already.
    IsWatched,
    /// The bytes do not begin as this version saves a session.
    UnknownFormat,
    /// The saved bytes are not those of a session.
    Damaged,
}

impl fmt::Display for Error {
    fn fmt(&self, f: &mut fmt::Formatter<'_>) -> fmt::Result {
        f.write_str(match self {
            Error::NoMemory => "out of memory",
            Error::BadOffset => "the byte offset is past the end or inside a character, or the range is out of order",
            Error::BadYankSize => "the text before the cursor is not the yanked one",
            Error::NotReplaying => "the entries of the record do not lead to the text",
            Error::NoRoom => "the text would exceed the limit, or is too long to be saved",
            Error::NotUtf8 => "the bytes are not UTF-8",
            Error::NoSuchNumber => "the call does not take that number or movement",
            Error::IsWatched => "the session keeps reports already",
            Error::UnknownFormat => "the bytes do not begin as this version saves a session",
            Error::Damaged => "the saved bytes are damaged",
        })
    }
}

#[cfg(feature = "std")]
impl std::error::Error for Error {}

#[doc(hidden)]
impl From<TypeFault> for Error {
    fn from(fault: TypeFault) -> Error {
        match fault {
            TypeFault::NotUtf8 => Error::NotUtf8,
            TypeFault::Refused(fault) => fault.into(),
        }
    }
}

macro_rules! errors {
    ($($core:ty: $($from:ident => $to:ident),*;)*) => {$(
        #[doc(hidden)]
        impl From<$core> for Error {
            #[inline]
            fn from(fault: $core) -> Error {
                match fault {
                    $(<$core>::$from => Error::$to,)*
                }
            }
        }
    )*};
}

// No listener of the crate returns an error of its own.
errors! {
    Fault: NoMemory => NoMemory, BadPlace => BadOffset, BadYankSize => BadYankSize,
        NotReplaying => NotReplaying, TooLong => NoRoom;
    Refusal: NoMemory => NoMemory, Listener => NoMemory;
    WatchFault: NoMemory => NoMemory, NoRoom => NoSuchNumber, IsWatched => IsWatched;
    SaveFault: NoMemory => NoMemory, TooLong => NoRoom;
    LoadFault: NoMemory => NoMemory, Unknown => UnknownFormat, Damaged => Damaged;
}
