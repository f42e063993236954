//! The edits that insert a text, or change it.
use super::{answered, ChangeListener, LineBuffer, WordAction};
use crate::errors::Error;
use crate::keymap::{Movement, RepeatCount};
use crate::listeners::Told;
use core::ops::Range;

impl LineBuffer {
    /// Replaces the whole text by another one, cut to the limit, in two steps. The cursor goes to the position `pos`
    /// of the given text, or to the end if that is cut before it.
    ///
    /// # Panics
    ///
    /// If `pos` is past the end of the given text, or inside a character of it.
    #[inline]
    pub fn update<C: ChangeListener + ?Sized>(&mut self, buf: &str, pos: usize, cl: &mut C) {
        assert!(pos <= buf.len());
        answered(self.try_update(buf, pos, cl));
    }

    /// [`update`](LineBuffer::update) with a typed error.
    ///
    /// # Errors
    ///
    /// [`Error::BadOffset`]; [`Error::NoMemory`], which may leave an empty text.
    pub fn try_update<C: ChangeListener + ?Sized>(
        &mut self,
        buf: &str,
        pos: usize,
        cl: &mut C,
    ) -> Result<(), Error> {
        if !buf.is_char_boundary(pos) {
            return Err(Error::BadOffset);
        }
        Ok(self.line.update(buf, pos, &mut Told(cl))?)
    }

    /// Inserts a character n times at the cursor, which goes after them. Returns whether the cursor was at the end,
    /// or `None` if the text would get longer than the limit.
    #[inline]
    pub fn insert<C: ChangeListener + ?Sized>(
        &mut self,
        ch: char,
        n: RepeatCount,
        cl: &mut C,
    ) -> Option<bool> {
        answered(self.try_insert(ch, n, cl))
    }

    /// [`insert`](LineBuffer::insert) with a typed error.
    ///
    /// # Errors
    ///
    /// [`Error::NoMemory`]; nothing is inserted.
    #[inline]
    pub fn try_insert<C: ChangeListener + ?Sized>(
        &mut self,
        ch: char,
        n: RepeatCount,
        cl: &mut C,
    ) -> Result<Option<bool>, Error> {
        if n == 0 {
            return Ok(None);
        }
        Ok(self.line.insert(ch, n, &mut Told(cl))?)
    }

    /// Inserts a text n times at the cursor, which goes after it. Returns whether the cursor was at the end, or
    /// `None` if the text is empty, or the line would get longer than the limit.
    #[inline]
    pub fn yank<C: ChangeListener + ?Sized>(
        &mut self,
        text: &str,
        n: RepeatCount,
        cl: &mut C,
    ) -> Option<bool> {
        answered(self.try_yank(text, n, cl))
    }

    /// [`yank`](LineBuffer::yank) with a typed error.
    ///
    /// # Errors
    ///
    /// [`Error::NoMemory`]; nothing is inserted.
    #[inline]
    pub fn try_yank<C: ChangeListener + ?Sized>(
        &mut self,
        text: &str,
        n: RepeatCount,
        cl: &mut C,
    ) -> Result<Option<bool>, Error> {
        if n == 0 {
            return Ok(None);
        }
        Ok(self.line.yank(text, n, &mut Told(cl))?)
    }

    /// Replaces the `yank_size` bytes before the cursor, which were yanked, by a text, in two steps. Returns whether
    /// the cursor was at the end. `None` if the text is empty, and then the yanked text is deleted; also if the line
    /// would get longer than the limit, and then nothing changes, while rustyline deletes the yanked text.
    ///
    /// # Panics
    ///
    /// If no text of that size ends at the cursor.
    pub fn yank_pop<C: ChangeListener + ?Sized>(
        &mut self,
        yank_size: usize,
        text: &str,
        cl: &mut C,
    ) -> Option<bool> {
        answered(self.try_yank_pop(yank_size, text, cl))
    }

    /// [`yank_pop`](LineBuffer::yank_pop) with a typed error.
    ///
    /// # Errors
    ///
    /// [`Error::BadYankSize`]; [`Error::NoMemory`], which may leave the yanked text deleted.
    pub fn try_yank_pop<C: ChangeListener + ?Sized>(
        &mut self,
        yank_size: usize,
        text: &str,
        cl: &mut C,
    ) -> Result<Option<bool>, Error> {
        if !self.line.can_yank_pop(yank_size) {
            return Err(Error::BadYankSize);
        }
        // The sum fits: no text is longer than `isize::MAX`.
        if !self.line.has_room(self.len() - yank_size + text.len()) {
            return Ok(None);
        }
        Ok(self.line.yank_pop(yank_size, text, &mut Told(cl))?)
    }

    /// Replaces a range by a text, whatever the limit. The cursor goes after it.
    ///
    /// # Panics
    ///
    /// If the range is out of bounds or not on character boundaries.
    #[inline]
    pub fn replace<C: ChangeListener + ?Sized>(
        &mut self,
        range: Range<usize>,
        text: &str,
        cl: &mut C,
    ) {
        self.see_range(&range);
        answered(self.try_replace(range, text, cl));
    }

    /// [`replace`](LineBuffer::replace) with a typed error.
    ///
    /// # Errors
    ///
    /// [`Error::BadOffset`], [`Error::NoMemory`]; nothing is replaced.
    pub fn try_replace<C: ChangeListener + ?Sized>(
        &mut self,
        range: Range<usize>,
        text: &str,
        cl: &mut C,
    ) -> Result<(), Error> {
        if !self.line.is_range(range.start, range.end) {
            return Err(Error::BadOffset);
        }
        Ok(self.line.replace(range, text, &mut Told(cl))?)
    }

    // Panics if a range is none of the text, with the words of a slice.
    #[track_caller]
    #[inline]
    pub(super) fn see_range(&self, range: &Range<usize>) {
        let _ = &self[range.clone()];
    }

    /// Inserts a text at a position, whatever the limit. The cursor keeps its byte offset. Returns whether the
    /// position was the end.
    ///
    /// # Panics
    ///
    /// If the position is past the end or inside a character, and if the cursor would be inside one.
    #[inline]
    pub fn insert_str<C: ChangeListener + ?Sized>(
        &mut self,
        idx: usize,
        s: &str,
        cl: &mut C,
    ) -> bool {
        self.see_range(&(idx..idx));
        answered(self.try_insert_str(idx, s, cl))
    }

    /// [`insert_str`](LineBuffer::insert_str) with a typed error.
    ///
    /// # Errors
    ///
    /// [`Error::BadOffset`], [`Error::NoMemory`]; nothing is inserted.
    pub fn try_insert_str<C: ChangeListener + ?Sized>(
        &mut self,
        idx: usize,
        s: &str,
        cl: &mut C,
    ) -> Result<bool, Error> {
        if !self.line.can_insert_str(idx, s) {
            return Err(Error::BadOffset);
        }
        Ok(self.line.insert_str(idx, s, &mut Told(cl))?)
    }

    /// Exchanges the clusters before and after the cursor, in two steps; at the end of the text, the last two. The
    /// cursor goes after both. False if there are not two.
    pub fn transpose_chars<C: ChangeListener + ?Sized>(&mut self, cl: &mut C) -> bool {
        answered(self.line.transpose_chars(&mut Told(cl)))
    }

    /// Exchanges a word with the n-th word before it, in four steps. False if there are not two; the cursor may have
    /// moved then.
    pub fn transpose_words<C: ChangeListener + ?Sized>(
        &mut self,
        n: RepeatCount,
        cl: &mut C,
    ) -> bool {
        n > 0 && answered(self.line.transpose_words(n, &mut Told(cl)))
    }

    /// Changes the letter case of the rest of the word at the cursor, or of the next word, in two steps. The cursor
    /// goes after it. False if there is none.
    pub fn edit_word<C: ChangeListener + ?Sized>(&mut self, a: WordAction, cl: &mut C) -> bool {
        answered(self.line.edit_word(a.to_core(), &mut Told(cl)))
    }

    /// Inserts `amount` spaces at the start of each line that a movement covers, or with `dedent` deletes up to so many
    /// bytes of blanks there. False for a movement with a count of 0, else true.
    pub fn indent<C: ChangeListener + ?Sized>(
        &mut self,
        mvt: &Movement,
        amount: u8,
        dedent: bool,
        cl: &mut C,
    ) -> bool {
        match mvt.to_core() {
            Some(mvt) => answered(self.line.indent(&mvt, amount, dedent, &mut Told(cl))),
            None => false,
        }
    }
}
