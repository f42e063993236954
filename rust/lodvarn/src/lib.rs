//! Lodvarn for Rust: a line of text with its cursor, its undo and its kill ring.
//!
//! ```
//! use lodvarn::{Error, Movement, Session, Word};
//!
//! fn main() -> Result<(), Error> {
//!     let mut session = Session::builder().text("one two").open()?;
//!     session.kill(Movement::backward_word(Word::Emacs))?;
//!     session.yank(2)?;
//!     session.undo(1)?;
//!     assert_eq!((session.text(), session.pos()), ("one ", 4));
//!     Ok(())
//! }
//! ```
//!
//! A byte offset is a character boundary of the text, as an index of a `str` is. A count is of grapheme clusters,
//! words, lines or repetitions, and 0 does nothing. Lines, rows and columns are numbered from 0. A text that a session
//! returns is borrowed from it. Each call names its errors, and [`Error`] says what they leave. `docs/RULES.md` of the
//! repository says exactly what each call does.
//!
//! A [`Session`] keeps a line, its record and its ring in step. An editor that was written for rustyline 19.0.0's own
//! types, or that brings them together in its own way, finds them under their names in [`line_buffer`], [`undo`],
//! [`kill_ring`], [`keymap`] and [`layout`].
//!
//! The core beneath is made from Rattle, a Rust with contracts, in which it is proved. The feature `std`, which is on
//! by default, adds `run_script`, and `std::error::Error` for the errors; all else needs `alloc` alone.
#![cfg_attr(not(feature = "std"), no_std)]
#![deny(missing_docs, unsafe_code, unsafe_op_in_unsafe_fn)]
#![warn(clippy::missing_errors_doc, clippy::must_use_candidate)]

extern crate alloc;

pub mod keymap;
pub mod kill_ring;
pub mod layout;
pub mod line_buffer;
pub mod undo;

mod builder;
mod changes;
mod edits;
mod errors;
mod listeners;
mod reads;
mod record;
mod ring;
mod saved;
mod texts;
mod types;

// The core, which the build script makes from the proved sources. Its modules say of themselves which have `unsafe`
// blocks: those of the core are proved, and those of the stand-in for Rattle's standard library have each its reason.
mod proved {
    include!(concat!(env!("OUT_DIR"), "/proved/mod.rs"));
}

pub use builder::SessionBuilder;
pub use changes::{NotifyError, Report, Splice};
pub use errors::Error;
pub use listeners::{ChangeListener, DeleteListener, NoListener, Pair};
pub use record::Group;
#[cfg(feature = "std")]
pub use texts::run_script;
pub use texts::{clusters, first_cluster, last_cluster, width};
pub use types::{
    At, Case, CharSearch, Cluster, Direction, Filled, Inserted, Mode, Movement, Options, Position,
    ReportKind, RowTarget, Screen, Side, Word,
};

use alloc::vec::Vec;
use core::fmt;
use core::sync::atomic::AtomicBool;
use proved::rl_base;
use proved::rl_session::{Fault as CoreFault, Session as Core};

/// The version of this crate.
pub const VERSION: &str = env!("CARGO_PKG_VERSION");

/// A text with its cursor, a ring of killed texts, and the record of its changes. [`Session::builder`] opens one,
/// and [`Session::from_bytes`] one that was saved. It displays as its text.
///
/// A text that it lends is valid until the next call that may change something.
///
/// ```compile_fail
/// let mut session = lodvarn::Session::builder().text("one").open().unwrap();
/// let text = session.text();
/// session.backspace(1).unwrap();
/// assert_eq!(text, "on");
/// ```
pub struct Session {
    core: Core,
    // Whether it has a queue of reports that have texts, which the core does not return.
    keeps_texts: bool,
    // Whether a read has looked for lines. The next command makes the table by which later reads look them up.
    reads_lines: AtomicBool,
}

impl fmt::Debug for Session {
    fn fmt(&self, f: &mut fmt::Formatter<'_>) -> fmt::Result {
        let mut fields = f.debug_struct("Session");
        fields.field("text", &self.text()).field("pos", &self.pos());
        fields.finish()
    }
}

impl fmt::Display for Session {
    fn fmt(&self, f: &mut fmt::Formatter<'_>) -> fmt::Result {
        f.pad(self.text())
    }
}

impl AsRef<str> for Session {
    fn as_ref(&self) -> &str {
        self.text()
    }
}

impl Session {
    /// What a session is opened with: the defaults of [`SessionBuilder`], which its methods change.
    pub fn builder<'t>() -> SessionBuilder<'t> {
        SessionBuilder::default()
    }

    /// Does a command, which obeys the options, and then makes the table of lines if a read has looked for lines.
    /// Without memory for the table there is none, which is no error.
    #[inline]
    fn run<T, F: Into<Error>>(
        &mut self,
        command: impl FnOnce(&mut Core) -> Result<T, F>,
    ) -> Result<T, Error> {
        let done = command(&mut self.core);
        if *self.reads_lines.get_mut() {
            self.core.index_lines();
        }
        done.map_err(F::into)
    }

    /// Does a command that takes a count, by which 0 does nothing.
    #[inline]
    fn run_times<T: Default>(
        &mut self,
        n: u16,
        command: impl FnOnce(&mut Core, u16) -> Result<T, CoreFault>,
    ) -> Result<T, Error> {
        if n == 0 {
            return Ok(T::default());
        }
        self.run(|core| command(core, n))
    }

    /// Does a command by a movement, by which a count of 0 does nothing.
    #[inline]
    fn run_by<T: Default>(
        &mut self,
        movement: Movement,
        command: impl FnOnce(&mut Core, &rl_base::Movement) -> Result<T, CoreFault>,
    ) -> Result<T, Error> {
        match movement.to_core() {
            Some(movement) => self.run(|core| command(core, &movement)),
            None => Ok(T::default()),
        }
    }
}

/// An empty list that takes so many without more memory.
fn empty_for<T>(len: usize) -> Result<Vec<T>, Error> {
    let mut out = Vec::new();
    out.try_reserve_exact(len).map_err(|_| Error::NoMemory)?;
    Ok(out)
}
