//! Motions and edits.
use crate::errors::Error;
use crate::proved::rl_line::can_delete_by;
use crate::types::{Case, Inserted, Movement};
use crate::{Core, Session};
use core::ops::RangeBounds;

impl Session {
    /// Begins anew with a text, with the cursor at its end, as an editor does with the next line. The record is empty
    /// then; the kill ring keeps its texts, and the options stay. [`take_change`](Session::take_change) and the reports
    /// say that the whole old text was replaced by the new one.
    /// # Errors
    /// [`Error::NoRoom`]; [`Error::NoMemory`], which leaves the whole session as it was too.
    pub fn restart(&mut self, text: &str) -> Result<(), Error> {
        Ok(self.core.restart(text, text.len())?)
    }

    /// Moves the cursor to a byte offset.
    /// # Errors
    /// [`Error::BadOffset`].
    pub fn set_pos(&mut self, pos: usize) -> Result<(), Error> {
        self.run(|core| core.set_pos(pos))
    }

    /// Moves the cursor by a movement. Returns false if there is nowhere to go, as by `WholeLine`.
    #[inline]
    pub fn move_by(&mut self, movement: Movement) -> bool {
        self.run_by(movement, Core::move_by) == Ok(true)
    }

    /// Inserts a character n times at the cursor, which goes after them.
    /// # Errors
    /// [`Error::NoRoom`], [`Error::NoMemory`].
    #[inline]
    pub fn insert(&mut self, c: char, n: u16) -> Result<Inserted, Error> {
        self.run_times(n, |core, n| core.insert(c, n))
            .map(Inserted::of_core)
    }

    /// Types the bytes that a terminal sends: inserts each whole character at the front of them as
    /// [`insert`](Session::insert) does with a count of 1, so that a typed word is one undo. Returns how many bytes
    /// these have, and 0 if there is no whole character. It stops before an incomplete character at the end, before
    /// bytes that are not UTF-8, and before a character that can't be inserted. Keep the other bytes, and pass them
    /// again with those that follow.
    ///
    /// ```
    /// # use lodvarn::{Error, Session};
    /// let mut session = Session::builder().open()?;
    /// let mut waiting = Vec::new();
    /// for sent in [&b"caf\xC3"[..], &b"\xA9"[..]] {
    ///     waiting.extend(sent);
    ///     let used = session.type_bytes(&waiting)?;
    ///     waiting.drain(..used);
    /// }
    /// assert_eq!((session.text(), waiting.len()), ("café", 0));
    /// # Ok::<(), Error>(())
    /// ```
    /// # Errors
    /// Only if the first character can't be inserted: [`Error::NotUtf8`], [`Error::NoRoom`], [`Error::NoMemory`].
    pub fn type_bytes(&mut self, bytes: &[u8]) -> Result<usize, Error> {
        Ok(self.run(|core| core.type_bytes(bytes))?.len)
    }

    /// Inserts a text n times at the cursor, which goes after it. [`Inserted::Nothing`] if the text is empty.
    /// # Errors
    /// [`Error::NoRoom`], [`Error::NoMemory`].
    pub fn paste(&mut self, text: &str, n: u16) -> Result<Inserted, Error> {
        self.run_times(n, |core, n| core.paste(text, n))
            .map(Inserted::of_core)
    }

    /// Replaces the whole text by another one. The cursor goes to the byte offset `pos` of the new text.
    /// # Errors
    /// [`Error::BadOffset`] if `pos` is no character boundary of the new text; [`Error::NoRoom`]; [`Error::NoMemory`].
    pub fn set_text(&mut self, pos: usize, text: &str) -> Result<(), Error> {
        self.run(|core| core.update(text, pos))
    }

    /// Inserts a text at a byte offset. The cursor keeps its byte offset.
    /// # Errors
    /// [`Error::BadOffset`], also if the cursor would be inside a character then; [`Error::NoRoom`];
    /// [`Error::NoMemory`].
    pub fn insert_at(&mut self, offset: usize, text: &str) -> Result<Inserted, Error> {
        let at_end = self.run(|core| core.insert_str(offset, text))?;
        Ok(Inserted::of_core(Some(at_end)))
    }

    /// Replaces the text in a range by another one. The cursor goes after the new text.
    /// # Errors
    /// [`Error::BadOffset`], also if the range ends before it begins; [`Error::NoRoom`]; [`Error::NoMemory`].
    pub fn replace(&mut self, range: impl RangeBounds<usize>, text: &str) -> Result<(), Error> {
        let range = self.range_of(range);
        self.run(|core| core.replace(range.start, range.end, text))
    }

    /// Deletes the text in a range. The cursor goes to its start.
    /// # Errors
    /// [`Error::BadOffset`], also if the range ends before it begins; [`Error::NoMemory`].
    pub fn delete_range(&mut self, range: impl RangeBounds<usize>) -> Result<(), Error> {
        let range = self.range_of(range);
        self.run(|core| core.delete_range(range.start, range.end))
    }

    /// Deletes n clusters after the cursor. Returns false if there are none.
    /// # Errors
    /// [`Error::NoMemory`].
    #[inline]
    pub fn delete(&mut self, n: u16) -> Result<bool, Error> {
        self.run_times(n, Core::delete).map(|text| text.is_some())
    }

    /// Deletes n clusters before the cursor. Returns false if there are none.
    /// # Errors
    /// [`Error::NoMemory`].
    #[inline]
    pub fn backspace(&mut self, n: u16) -> Result<bool, Error> {
        self.run_times(n, Core::backspace)
    }

    /// Deletes what a movement to one side of the cursor covers: to the start or the end of the line or the text, by
    /// words, or by a search for a character. At the end of a line `EndOfLine` deletes the newline, and at the start of
    /// one `BeginningOfLine` the newline before it, CR LF as one. The ring does not keep it: of all deletions it keeps
    /// only those by [`kill`](Session::kill) and [`kill_range`](Session::kill_range). Returns false if nothing is
    /// covered.
    /// # Errors
    /// [`Error::NoSuchNumber`] for the other movements; [`Error::NoMemory`].
    pub fn delete_by(&mut self, movement: Movement) -> Result<bool, Error> {
        match movement.to_core() {
            Some(by) if !can_delete_by(&by) => Err(Error::NoSuchNumber),
            _ => self.run_by(movement, Core::delete_by),
        }
    }

    /// Exchanges the clusters before and after the cursor, or at the end of the text the last two. The cursor goes
    /// after both. Returns false if there are not two.
    /// # Errors
    /// [`Error::NoMemory`].
    pub fn transpose_chars(&mut self) -> Result<bool, Error> {
        self.run(Core::transpose_chars)
    }

    /// Exchanges the word that ends n-th after the cursor with the word n words before it. The cursor goes after both.
    /// Returns false if there are not two; the cursor may have moved then.
    /// # Errors
    /// [`Error::NoRoom`], also if only a step of the edit would exceed the limit; [`Error::NoMemory`].
    pub fn transpose_words(&mut self, n: u16) -> Result<bool, Error> {
        self.run_times(n, Core::transpose_words)
    }

    /// Changes the letter case of the rest of the word at the cursor, or of the next word. The cursor goes after the
    /// word. Returns false if there is none.
    /// # Errors
    /// [`Error::NoRoom`], [`Error::NoMemory`].
    pub fn change_case(&mut self, to: Case) -> Result<bool, Error> {
        self.run(|core| core.edit_word(to.to_core()))
    }

    /// Inserts `amount` spaces at the start of each line that a movement covers. Returns false if that changes nothing:
    /// then nothing is recorded, and undone changes stay.
    /// # Errors
    /// [`Error::NoRoom`]; [`Error::NoMemory`], and the lines before stay indented.
    pub fn indent(&mut self, movement: Movement, amount: u8) -> Result<bool, Error> {
        self.run_by(movement, |core, by| core.indent(by, amount, false))
    }

    /// Deletes up to `amount` bytes of blanks at the start of each line that a movement covers. Returns false if that
    /// changes nothing, as [`indent`](Session::indent) does.
    /// # Errors
    /// [`Error::NoMemory`]; the lines before stay dedented.
    pub fn dedent(&mut self, movement: Movement, amount: u8) -> Result<bool, Error> {
        self.run_by(movement, |core, by| core.indent(by, amount, true))
    }
}
