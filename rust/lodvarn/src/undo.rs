//! The record that undoes the changes of a line, with the names of the module `undo` of rustyline 19.0.0.
//!
//! ```
//! use lodvarn::line_buffer::{LineBuffer, MAX_LINE};
//! use lodvarn::undo::Changeset;
//!
//! let mut line = LineBuffer::with_capacity(MAX_LINE);
//! let mut changes = Changeset::new();
//! changes.begin();
//! line.yank("one two", 1, &mut changes);
//! line.transpose_words(1, &mut changes);
//! changes.end();
//! assert!(changes.undo(&mut line, 1) && line.is_empty());
//! assert!(changes.redo(&mut line));
//! assert_eq!(line.as_str(), "two one");
//! ```
//!
//! Differences from rustyline:
//!
//! - For changes that do not fit the line, [`undo`](Changeset::undo) and [`redo`](Changeset::redo) panic, and
//!   [`try_undo`](Changeset::try_undo) and [`try_redo`](Changeset::try_redo) return [`Error::NotReplaying`]. Record
//!   and line stay as they were. A change fits if the text that it would delete again is at its byte offset, and if the
//!   cursor position that was recorded with it is then in the text and not inside a character. A record that was
//!   notified of all edits of its line, and not shortened by [`truncate`](Changeset::truncate), always fits. So does a
//!   record of another line that has the same text there.
//! - An undo brings back the cursor from before the change, and a redo the cursor from after it, if the line notified
//!   the record itself, alone or in a [`Pair`](crate::Pair), or if [`cursors`](Changeset::cursors) was called.
//! - An undo of 0 does nothing.
//! - `redo` and [`end_one`](Changeset::end_one) are public, and so are reads: how long the record is, whether there is
//!   something to undo, and whether an undo or a redo fits a line.
//! - [`truncate`](Changeset::truncate) drops the undone changes.
//! - Out of memory, a call panics with "out of memory". `try_undo` and `try_redo` return [`Error::NoMemory`].
use crate::errors::Error;
use crate::keymap::RepeatCount;
use crate::line_buffer::{answered, ChangeListener, DeleteListener, Direction, LineBuffer};
use crate::proved::rl_base::{DeleteListener as _, Refusal};
use crate::proved::rl_record;
use crate::proved::stand_in::alloc::Global;
use alloc::string::String;
use core::fmt;

/// A record of changes. It is a listener, and undoes the changes that it was notified of.
///
/// # Panics
///
/// A call that needs memory and gets none panics with "out of memory", but the `try_` calls.
pub struct Changeset {
    changes: rl_record::Changeset,
}

impl Default for Changeset {
    fn default() -> Self {
        Changeset::new()
    }
}

impl fmt::Debug for Changeset {
    fn fmt(&self, f: &mut fmt::Formatter<'_>) -> fmt::Result {
        let mut fields = f.debug_struct("Changeset");
        fields
            .field("len", &self.len())
            .field("level", &self.level());
        fields.finish()
    }
}

impl Changeset {
    /// An empty record.
    #[must_use]
    #[inline]
    pub fn new() -> Self {
        Changeset {
            changes: rl_record::Changeset::new(Global),
        }
    }

    /// Begins a group: once it is closed, one undo takes back all its changes. Returns the number of entries before it.
    pub fn begin(&mut self) -> usize {
        answered(self.changes.begin())
    }

    /// Closes all open groups. False if they have no change, or none is open.
    pub fn end(&mut self) -> bool {
        answered(self.changes.end())
    }

    /// Closes the innermost group. False if it has no change, or none is open.
    pub fn end_one(&mut self) -> bool {
        answered(self.changes.end_one())
    }

    /// Records that a character was inserted. A letter or digit joins the insertion before it.
    #[inline]
    pub fn insert(&mut self, idx: usize, c: char) {
        answered(self.changes.insert(idx, c));
    }

    /// Records that a text was inserted.
    #[inline]
    pub fn insert_str<S: AsRef<str>>(&mut self, idx: usize, string: S) {
        answered(self.changes.insert_str(idx, string.as_ref()));
    }

    /// Records that a text was deleted. A letter or digit joins the deletion before it.
    #[inline]
    pub fn delete<S: AsRef<str>>(&mut self, indx: usize, string: S) {
        answered(self.changes.delete(indx, string.as_ref()));
    }

    /// Records that a text was replaced by another one. It joins the replacement before it.
    #[inline]
    pub fn replace<S: AsRef<str>>(&mut self, indx: usize, old_: S, new_: S) {
        answered(self.changes.replace(indx, old_.as_ref(), new_.as_ref()));
    }

    /// Records the cursor's positions before and after the change that was recorded last. An undo of that change then
    /// moves the cursor to `before`, and a redo to `after`; without them it goes to the end of the text that comes
    /// back. An edit of a line that notifies this record does so by itself.
    pub fn cursors(&mut self, before: usize, after: usize) {
        self.changes.cursors(before, after);
    }

    /// Undoes the last n changes and groups in a line, all if there are fewer. False if there was no change. No
    /// listener is notified.
    ///
    /// # Panics
    ///
    /// If the changes do not fit the line: if a text that is to be deleted is not there, or a recorded cursor position
    /// would be outside the text or inside a character. [The module](self) says when that can be.
    #[inline]
    pub fn undo(&mut self, line: &mut LineBuffer, n: RepeatCount) -> bool {
        answered(self.try_undo(line, n))
    }

    /// [`undo`](Changeset::undo) with a typed error.
    ///
    /// # Errors
    ///
    /// [`Error::NotReplaying`] if the changes do not fit the line; [`Error::NoMemory`]. Nothing is undone.
    #[inline]
    pub fn try_undo(&mut self, line: &mut LineBuffer, n: RepeatCount) -> Result<bool, Error> {
        if n == 0 {
            return Ok(false);
        }
        let undone = self.changes.try_undo(&mut line.line, n)?;
        undone.ok_or(Error::NotReplaying)
    }

    /// Redoes in a line the change or group that was undone last. False if there is none. No listener is notified.
    ///
    /// # Panics
    ///
    /// If the changes do not fit the line, as [`undo`](Changeset::undo) says.
    #[inline(always)]
    pub fn redo(&mut self, line: &mut LineBuffer) -> bool {
        answered(self.try_redo(line))
    }

    /// [`redo`](Changeset::redo) with a typed error.
    ///
    /// # Errors
    ///
    /// [`Error::NotReplaying`] if the changes do not fit the line; [`Error::NoMemory`]. Nothing is redone.
    #[inline(always)]
    pub fn try_redo(&mut self, line: &mut LineBuffer) -> Result<bool, Error> {
        let redone = self.changes.try_redo(&mut line.line)?;
        redone.ok_or(Error::NotReplaying)
    }

    /// Keeps the first `len` entries, and drops the others and the undone changes.
    pub fn truncate(&mut self, len: usize) {
        self.changes.truncate(len);
    }

    /// The text that the last change inserted. `None` if it inserted none.
    #[must_use]
    pub fn last_insert(&self) -> Option<String> {
        answered(self.try_last_insert())
    }

    /// [`last_insert`](Changeset::last_insert) with a typed error.
    ///
    /// # Errors
    ///
    /// [`Error::NoMemory`].
    pub fn try_last_insert(&self) -> Result<Option<String>, Error> {
        Ok(self.changes.last_insert()?.map(|text| text.into_std()))
    }

    /// The number of entries: changes, and the marks where groups begin and end.
    #[must_use]
    pub fn len(&self) -> usize {
        self.changes.len()
    }

    /// Whether there is no entry.
    #[must_use]
    pub fn is_empty(&self) -> bool {
        self.len() == 0
    }

    /// The number of open groups.
    #[must_use]
    pub fn level(&self) -> usize {
        self.changes.level()
    }

    /// Whether there is a change to undo. Right after a `begin` an undo of one takes back that alone, and no change.
    #[must_use]
    pub fn can_undo(&self) -> bool {
        self.len() > self.level()
    }

    /// Whether all changes fit the line, so that each undo succeeds: the texts, and the recorded cursor positions.
    /// True if there is no change.
    #[must_use]
    pub fn undo_fits(&self, line: &LineBuffer) -> bool {
        answered(self.changes.can_undo(&line.line))
    }

    /// Whether all undone changes fit the line, so that each redo succeeds: the texts, and the recorded cursor
    /// positions. True if there is no undone change.
    #[must_use]
    pub fn redo_fits(&self, line: &LineBuffer) -> bool {
        answered(self.changes.can_redo(&line.line))
    }

    /// Whether the first `len` entries lead to the line's text by themselves, as after a
    /// [`truncate`](Changeset::truncate). Cursor positions do not count.
    #[must_use]
    pub fn replays_to(&self, len: usize, line: &LineBuffer) -> bool {
        answered(self.changes.replays_to(len, &line.line))
    }
}

impl DeleteListener for Changeset {
    fn delete(&mut self, idx: usize, string: &str, _dir: Direction) {
        Changeset::delete(self, idx, string);
    }

    #[inline]
    fn __try_delete(&mut self, idx: usize, string: &str, _dir: Direction) -> Result<(), Refusal> {
        self.changes.delete(idx, string)
    }

    #[inline(always)]
    fn __cursors(&mut self, before: usize, after: usize) {
        self.changes.cursors(before, after);
    }
}

impl ChangeListener for Changeset {
    #[inline]
    fn insert_char(&mut self, idx: usize, c: char) {
        self.insert(idx, c);
    }

    fn insert_str(&mut self, idx: usize, string: &str) {
        Changeset::insert_str(self, idx, string);
    }

    fn replace(&mut self, idx: usize, old: &str, new: &str) {
        Changeset::replace(self, idx, old, new);
    }

    #[inline(always)]
    fn __try_insert_char(&mut self, idx: usize, c: char) -> Result<(), Refusal> {
        self.changes.insert(idx, c)
    }

    #[inline]
    fn __try_insert_str(&mut self, idx: usize, string: &str) -> Result<(), Refusal> {
        self.changes.insert_str(idx, string)
    }

    #[inline]
    fn __try_replace(&mut self, idx: usize, old: &str, new: &str) -> Result<(), Refusal> {
        self.changes.replace(idx, old, new)
    }
}
