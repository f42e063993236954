//! A text with its cursor, with the names of the module `line_buffer` of rustyline 19.0.0.
//!
//! ```
//! use lodvarn::keymap::{Movement, Word};
//! use lodvarn::line_buffer::{LineBuffer, Pair, MAX_LINE};
//! use lodvarn::{kill_ring::KillRing, undo::Changeset};
//!
//! let mut line = LineBuffer::with_capacity(MAX_LINE);
//! let (mut changes, mut ring) = (Changeset::new(), KillRing::new(60));
//! line.yank("one two", 1, &mut changes);
//! let mut both = Pair { all: &mut changes, deletions: &mut ring };
//! line.kill(&Movement::BackwardWord(1, Word::Emacs), &mut both);
//! assert_eq!((line.as_str(), line.pos()), ("one ", 4));
//! assert_eq!(ring.yank().map(String::as_str), Some("two"));
//! changes.undo(&mut line, 1);
//! assert_eq!((line.as_str(), line.pos()), ("one two", 7));
//! ```
//!
//! Positions are byte offsets in the text. Calls, arguments and results are rustyline's; what is private to its crate
//! is public here. Differences:
//!
//! - The limit on the text's length is the number given to [`with_capacity`](LineBuffer::with_capacity), and not the
//!   capacity that is reserved. A [`yank_pop`](LineBuffer::yank_pop) that is out of room changes nothing.
//! - A listener is notified of each step before the text changes. If it panics, the step is not made: the text has
//!   the steps before it, and the line can be used as before.
//! - A [`Changeset`](crate::undo::Changeset) that the line notifies, alone or in a [`Pair`], is notified of the
//!   cursor's positions too, which an undo brings back.
//! - Out of memory, for the line or for a record or ring that it notifies, a call panics with "out of memory". The
//!   `try_` calls return [`Error::NoMemory`] instead. Steps that were made before stay, and their listener was
//!   notified of them.
//! - A position is a character boundary, also that of [`set_pos`](LineBuffer::set_pos), and the cursor is never
//!   inside a character. A call panics at another position, or returns [`Error::BadOffset`].
//! - A count of 0 does nothing, also one of a movement.
//! - Words, movements and indents follow Lodvarn's rules where rustyline's drop a cluster, panic or miss a line:
//!   `docs/DIFFERENCES.md` of the repository names each case. A width is at most 65535.
mod edits;
mod kills;

pub use crate::listeners::{ChangeListener, DeleteListener, NoListener, Pair};
pub use crate::types::{Case as WordAction, Direction};

use crate::errors::Error;
use crate::keymap::{At, CharSearch, Movement, RepeatCount, Word};
use crate::layout::Layout;
use crate::proved::rl_line;
use crate::proved::stand_in::alloc::Global;
use alloc::string::String;
use core::fmt;
use core::ops::Deref;

/// The length in bytes that a line of an editor is made for.
pub const MAX_LINE: usize = 4096;

/// 32 spaces: the most that an indent inserts in one step.
pub const INDENT: &str = "                                ";

/// What a call returned, or a panic with the words of its error.
#[track_caller]
#[inline]
pub(crate) fn answered<T, E: fmt::Display>(answer: Result<T, E>) -> T {
    match answer {
        Ok(answer) => answer,
        Err(why) => panic!("{why}"),
    }
}

/// A text with a cursor, and a limit on the text's length, all in bytes. [The module](self) says how it differs from
/// rustyline's.
///
/// # Panics
///
/// A call that needs memory and gets none panics with "out of memory", but the `try_` calls.
pub struct LineBuffer {
    pub(crate) line: rl_line::LineBuffer,
}

impl fmt::Debug for LineBuffer {
    fn fmt(&self, f: &mut fmt::Formatter<'_>) -> fmt::Result {
        let mut fields = f.debug_struct("LineBuffer");
        fields
            .field("buf", &self.as_str())
            .field("pos", &self.pos());
        fields.finish()
    }
}

impl fmt::Display for LineBuffer {
    fn fmt(&self, f: &mut fmt::Formatter<'_>) -> fmt::Result {
        f.pad(self)
    }
}

impl Deref for LineBuffer {
    type Target = str;

    #[inline]
    fn deref(&self) -> &str {
        self.as_str()
    }
}

impl From<LineBuffer> for String {
    fn from(line: LineBuffer) -> String {
        line.into_string()
    }
}

impl LineBuffer {
    /// An empty text that may grow to this many bytes. Memory is reserved for [`MAX_LINE`] of them at most, and for
    /// none if there is none.
    #[must_use]
    #[inline]
    pub fn with_capacity(capacity: usize) -> Self {
        let reserved = rl_line::LineBuffer::with_capacity(Global, capacity.min(MAX_LINE));
        let mut line = reserved.unwrap_or_else(|_| rl_line::LineBuffer::with_limit(Global, 0));
        line.set_limit(capacity);
        LineBuffer { line }
    }

    /// Says whether the text may grow past its limit.
    #[must_use]
    #[inline]
    pub fn can_growth(self, can_growth: bool) -> Self {
        LineBuffer {
            line: self.line.can_growth(can_growth),
        }
    }

    /// The number of bytes that the text may have. It rises if a call that does not ask for the limit makes the text
    /// longer.
    #[must_use]
    pub fn limit(&self) -> usize {
        self.line.limit()
    }

    /// The text.
    #[must_use]
    #[inline]
    pub fn as_str(&self) -> &str {
        self.line.as_str()
    }

    /// The text as a `String`, without a copy.
    #[must_use]
    pub fn into_string(self) -> String {
        self.line.into_string().into_std()
    }

    /// The position of the cursor.
    #[must_use]
    #[inline]
    pub fn pos(&self) -> usize {
        self.line.pos()
    }

    /// Whether the cursor is at the end of the text.
    #[must_use]
    #[inline]
    pub fn is_cursor_at_end(&self) -> bool {
        self.line.is_cursor_at_end()
    }

    /// Whether there are only blanks after the cursor.
    #[must_use]
    pub fn is_end_of_input(&self) -> bool {
        self.line.is_end_of_input()
    }

    /// The length of the text, in bytes.
    #[must_use]
    #[inline]
    pub fn len(&self) -> usize {
        self.line.len()
    }

    /// Whether there is no text.
    #[must_use]
    #[inline]
    pub fn is_empty(&self) -> bool {
        self.line.is_empty()
    }

    /// Moves the cursor to a position.
    ///
    /// # Panics
    ///
    /// If the position is past the end or inside a character, as `is_char_boundary` shows.
    pub fn set_pos(&mut self, pos: usize) {
        assert!(pos <= self.len());
        answered(self.see_offset(pos));
        self.line.set_pos(pos);
    }

    fn see_offset(&self, pos: usize) -> Result<(), Error> {
        if self.is_char_boundary(pos) {
            Ok(())
        } else {
            Err(Error::BadOffset)
        }
    }

    /// The grapheme cluster after the cursor. `None` at the end.
    #[must_use]
    pub fn grapheme_at_cursor(&self) -> Option<&str> {
        self.next_pos(1).map(|end| &self[self.pos()..end])
    }

    /// The position n grapheme clusters after the cursor, or the end if there are fewer. `None` at the end.
    #[must_use]
    pub fn next_pos(&self, n: RepeatCount) -> Option<usize> {
        self.line.next_pos(n)
    }

    /// Moves the cursor n grapheme clusters back. False at the start.
    #[inline]
    pub fn move_backward(&mut self, n: RepeatCount) -> bool {
        self.line.move_backward(n)
    }

    /// Moves the cursor n grapheme clusters forward. False at the end.
    #[inline]
    pub fn move_forward(&mut self, n: RepeatCount) -> bool {
        self.line.move_forward(n)
    }

    /// Moves the cursor to the start of the text. False if it is there.
    #[inline]
    pub fn move_buffer_start(&mut self) -> bool {
        self.line.move_buffer_start()
    }

    /// Moves the cursor to the end of the text. False if it is there.
    #[inline]
    pub fn move_buffer_end(&mut self) -> bool {
        self.line.move_buffer_end()
    }

    /// Moves the cursor to the start of its line. False if it is there.
    #[inline]
    pub fn move_home(&mut self) -> bool {
        self.line.move_home()
    }

    /// Moves the cursor to the end of its line. False if it is there.
    #[inline]
    pub fn move_end(&mut self) -> bool {
        self.line.move_end()
    }

    /// Moves the cursor back to the start of the n-th word. False at the start of the text.
    #[inline]
    pub fn move_to_prev_word(&mut self, word_def: Word, n: RepeatCount) -> bool {
        n > 0 && self.line.move_to_prev_word(word_def.to_core(), n)
    }

    /// Moves the cursor forward to the n-th word, as `at` says. False at the end of the text, and for `Start` and
    /// `BeforeEnd` of a `Big` or `Vi` word before the last cluster too.
    #[inline]
    pub fn move_to_next_word(&mut self, at: At, word_def: Word, n: RepeatCount) -> bool {
        let (at, word) = (at.to_core(), word_def.to_core());
        n > 0 && self.line.move_to_next_word(at, word, n)
    }

    /// Moves the cursor n lines up, to its column, or to the end of a line that is shorter. False on the first line.
    #[inline]
    pub fn move_to_line_up(&mut self, n: RepeatCount, layout: &Layout) -> bool {
        n > 0 && self.line.move_to_line_up(n, &layout.for_motions())
    }

    /// Moves the cursor n lines down, to its column, or to the end of a line that is shorter. False on the last line.
    #[inline]
    pub fn move_to_line_down(&mut self, n: RepeatCount, layout: &Layout) -> bool {
        n > 0 && self.line.move_to_line_down(n, &layout.for_motions())
    }

    /// Moves the cursor to the n-th hit of a search, or to the farthest if there are fewer. False if there is none.
    #[inline]
    pub fn move_to(&mut self, cs: CharSearch, n: RepeatCount) -> bool {
        self.line.move_to(cs.to_core(), n)
    }

    /// A copy of the text that a movement covers. `None` if it covers nothing.
    #[must_use]
    pub fn copy(&self, mvt: &Movement) -> Option<String> {
        let copied = answered(self.line.copy(&mvt.to_core()?));
        Some(copied?.into_std())
    }
}
