//! The edits that delete a text.
use super::{answered, DeleteListener, Direction, LineBuffer};
use crate::errors::Error;
use crate::keymap::{At, CharSearch, Movement, RepeatCount, Word};
use crate::listeners::Told;
use alloc::string::String;
use core::ops::Range;

impl LineBuffer {
    /// Deletes n grapheme clusters after the cursor, and returns them. `None` if there are none.
    pub fn delete<D: DeleteListener + ?Sized>(
        &mut self,
        n: RepeatCount,
        dl: &mut D,
    ) -> Option<String> {
        answered(self.try_delete(n, dl))
    }

    /// [`delete`](LineBuffer::delete) with a typed error.
    ///
    /// # Errors
    ///
    /// [`Error::NoMemory`]; nothing is deleted.
    pub fn try_delete<D: DeleteListener + ?Sized>(
        &mut self,
        n: RepeatCount,
        dl: &mut D,
    ) -> Result<Option<String>, Error> {
        let deleted = self.line.delete(n, &mut Told(dl))?;
        Ok(deleted.map(|text| text.into_std()))
    }

    /// Deletes n grapheme clusters before the cursor. False if there are none.
    #[inline]
    pub fn backspace<D: DeleteListener + ?Sized>(&mut self, n: RepeatCount, dl: &mut D) -> bool {
        answered(self.try_backspace(n, dl))
    }

    /// [`backspace`](LineBuffer::backspace) with a typed error.
    ///
    /// # Errors
    ///
    /// [`Error::NoMemory`]; nothing is deleted.
    #[inline]
    pub fn try_backspace<D: DeleteListener + ?Sized>(
        &mut self,
        n: RepeatCount,
        dl: &mut D,
    ) -> Result<bool, Error> {
        Ok(self.line.backspace(n, &mut Told(dl))?)
    }

    /// Deletes to the end of the cursor's line, or the newline there. False at the end of the text. It is no kill,
    /// and a ring does not keep it: of all deletions only [`kill`](LineBuffer::kill) and
    /// [`try_kill_range`](LineBuffer::try_kill_range) are kills.
    pub fn kill_line<D: DeleteListener + ?Sized>(&mut self, dl: &mut D) -> bool {
        answered(self.line.kill_line(&mut Told(dl)))
    }

    /// Deletes to the end of the text. False if there is nothing.
    pub fn kill_buffer<D: DeleteListener + ?Sized>(&mut self, dl: &mut D) -> bool {
        answered(self.line.kill_buffer(&mut Told(dl)))
    }

    /// Deletes back to the start of the cursor's line, or the newline before it. False at the start of the text.
    pub fn discard_line<D: DeleteListener + ?Sized>(&mut self, dl: &mut D) -> bool {
        answered(self.line.discard_line(&mut Told(dl)))
    }

    /// Deletes back to the start of the text. False if there is nothing.
    pub fn discard_buffer<D: DeleteListener + ?Sized>(&mut self, dl: &mut D) -> bool {
        answered(self.line.discard_buffer(&mut Told(dl)))
    }

    /// Deletes back to the start of the n-th word. False at the start of the text.
    pub fn delete_prev_word<D: DeleteListener + ?Sized>(
        &mut self,
        word_def: Word,
        n: RepeatCount,
        dl: &mut D,
    ) -> bool {
        let (word, dl) = (word_def.to_core(), &mut Told(dl));
        n > 0 && answered(self.line.delete_prev_word(word, n, dl))
    }

    /// Deletes forward to the n-th word, as `at` says. False if there is nothing.
    pub fn delete_word<D: DeleteListener + ?Sized>(
        &mut self,
        at: At,
        word_def: Word,
        n: RepeatCount,
        dl: &mut D,
    ) -> bool {
        let (at, word, dl) = (at.to_core(), word_def.to_core(), &mut Told(dl));
        n > 0 && answered(self.line.delete_word(at, word, n, dl))
    }

    /// Deletes to the n-th hit of a search, or to the farthest if there are fewer. False if there is none.
    pub fn delete_to<D: DeleteListener + ?Sized>(
        &mut self,
        cs: CharSearch,
        n: RepeatCount,
        dl: &mut D,
    ) -> bool {
        answered(self.line.delete_to(cs.to_core(), n, &mut Told(dl)))
    }

    /// Deletes a range. The cursor goes to its start.
    ///
    /// # Panics
    ///
    /// If the range is out of bounds or not on character boundaries.
    pub fn delete_range<D: DeleteListener + ?Sized>(&mut self, range: Range<usize>, dl: &mut D) {
        self.see_range(&range);
        answered(self.try_delete_range(range, dl));
    }

    /// [`delete_range`](LineBuffer::delete_range) with a typed error.
    ///
    /// # Errors
    ///
    /// [`Error::BadOffset`], [`Error::NoMemory`]; nothing is deleted.
    pub fn try_delete_range<D: DeleteListener + ?Sized>(
        &mut self,
        range: Range<usize>,
        dl: &mut D,
    ) -> Result<(), Error> {
        if !self.line.is_range(range.start, range.end) {
            return Err(Error::BadOffset);
        }
        Ok(self.line.delete_range(range, &mut Told(dl))?)
    }

    /// Deletes the text that [`copy`](LineBuffer::copy) by a movement returns, as a kill: the listener is notified of
    /// its start and end, also if there is nothing to delete. At the end of a line `EndOfLine` takes the newline, and
    /// at the start of one `BeginningOfLine` the newline before it; `ViFirstPrint` takes nothing. By `BackwardChar`
    /// and `ForwardChar` it is no kill. False if there is nothing.
    #[inline]
    pub fn kill<D: DeleteListener + ?Sized>(&mut self, mvt: &Movement, dl: &mut D) -> bool {
        answered(self.try_kill(mvt, dl))
    }

    /// [`kill`](LineBuffer::kill) with a typed error.
    ///
    /// # Errors
    ///
    /// [`Error::NoMemory`]; nothing is deleted.
    #[inline]
    pub fn try_kill<D: DeleteListener + ?Sized>(
        &mut self,
        mvt: &Movement,
        dl: &mut D,
    ) -> Result<bool, Error> {
        match mvt.to_core() {
            Some(mvt) => Ok(self.line.kill(&mvt, &mut Told(dl))?),
            None => Ok(false),
        }
    }

    /// Deletes a range as a kill, on a side of the cursor. The cursor goes to its start. False if the range is empty.
    /// rustyline has no such call.
    ///
    /// # Errors
    ///
    /// [`Error::BadOffset`], [`Error::NoMemory`]; nothing is deleted.
    pub fn try_kill_range<D: DeleteListener + ?Sized>(
        &mut self,
        range: Range<usize>,
        dir: Direction,
        dl: &mut D,
    ) -> Result<bool, Error> {
        if !self.line.is_range(range.start, range.end) {
            return Err(Error::BadOffset);
        }
        let (dir, dl) = (dir.to_core(), &mut Told(dl));
        Ok(self.line.kill_range(range, dir, dl)?)
    }
}
