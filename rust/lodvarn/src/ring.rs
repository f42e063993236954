//! Kills, yanks, and the texts that the ring keeps.
use crate::errors::Error;
use crate::types::{Direction, Inserted, Movement};
use crate::{Core, Session};
use alloc::string::String;
use core::ops::RangeBounds;

impl Session {
    /// Deletes what a movement covers. If `WholeLine`, `BeginningOfLine` or `EndOfLine` covers nothing in the line,
    /// that is a newline. The ring keeps it, except by `BackwardChar` and `ForwardChar`. Consecutive kills become one
    /// text of the ring. A new text goes after the newest, so only a full ring drops one, its oldest. Returns false if
    /// nothing is covered.
    /// # Errors
    /// [`Error::NoMemory`].
    #[inline]
    pub fn kill(&mut self, movement: Movement) -> Result<bool, Error> {
        self.run_by(movement, Core::kill)
    }

    /// Deletes the text in a range as a kill does: the ring keeps it, and a run of kills goes on. Right after a kill
    /// whose text the ring has, this text joins that one, at its end ([`Direction::Forward`]) or in front of it
    /// ([`Direction::Backward`]). The cursor goes to the start of the range. Returns false if the range is empty.
    ///
    /// ```
    /// # use lodvarn::{Direction, Error, Session};
    /// let mut session = Session::builder().text("one two three").open()?;
    /// session.kill_range(4..8, Direction::Forward)?;
    /// session.kill_range(0..4, Direction::Backward)?;
    /// assert_eq!((session.text(), session.pos()), ("three", 0));
    /// assert_eq!(session.ring_text(0), Some("one two "));
    /// # Ok::<(), lodvarn::Error>(())
    /// ```
    /// # Errors
    /// [`Error::BadOffset`], also if the range ends before it begins; [`Error::NoMemory`].
    pub fn kill_range(
        &mut self,
        range: impl RangeBounds<usize>,
        direction: Direction,
    ) -> Result<bool, Error> {
        let (range, direction) = (self.range_of(range), direction.to_core());
        self.run(|core| core.kill_range(range.start, range.end, direction))
    }

    /// Adds a text to the ring as a kill of its own, as one from a clipboard, or one that [`copy`](Session::copy)
    /// returned. The next yank inserts it. A kill after it begins another text. Text, cursor and record stay.
    /// # Errors
    /// [`Error::NoMemory`]; the ring stays too.
    pub fn ring_add(&mut self, text: &str) -> Result<(), Error> {
        self.run(|core| core.keep(text))
    }

    /// Inserts the ring's current text n times at the cursor. [`Inserted::Nothing`] if the ring has no text, or an
    /// empty one.
    /// # Errors
    /// [`Error::NoRoom`], [`Error::NoMemory`].
    #[inline]
    pub fn yank(&mut self, n: u16) -> Result<Inserted, Error> {
        self.run_times(n, Core::yank).map(Inserted::of_core)
    }

    /// Replaces the text that was just yanked by the one before it in the ring; after the oldest comes the newest. If
    /// that one is empty, the yanked text is deleted. One undo undoes this, the yank and the calls of this between
    /// them; but not a yank of n above 1, of which this replaces the last text, nor a change before a
    /// [`mark_saved`](Session::mark_saved). [`Inserted::Nothing`] if [`last_was_yank`](Session::last_was_yank) is
    /// false.
    /// # Errors
    /// [`Error::NoRoom`]; [`Error::BadYankSize`] right after [`from_bytes`](Session::from_bytes), if its bytes name a
    /// yank that the text does not have; [`Error::NoMemory`].
    pub fn yank_pop(&mut self) -> Result<Inserted, Error> {
        // Without a text it still deletes the yanked one.
        let vain = self.last_was_yank().then_some(false);
        let at_end = self.run(Core::yank_pop)?;
        Ok(Inserted::of_core(at_end.or(vain)))
    }

    /// Whether [`yank_pop`](Session::yank_pop) would find a yanked text to replace: whether the last command was a
    /// `yank` or `yank_pop` that inserted one. A kill that deletes nothing does not count as a command here.
    #[must_use]
    pub fn last_was_yank(&self) -> bool {
        self.core.ring().yank_size().is_some()
    }

    /// How many texts the ring has.
    #[must_use]
    pub fn ring_count(&self) -> usize {
        self.core.ring().len()
    }

    /// Drops all texts of the ring, and frees them; the bytes are not overwritten. The next kill begins a new text, and
    /// a yank finds nothing. All else stays.
    pub fn ring_clear(&mut self) {
        self.core.clear_ring();
    }

    /// A copy of the text that a movement covers, or `None` if it covers nothing. The ring does not keep it:
    /// [`ring_add`](Session::ring_add) does. This is a command: a kill after it begins a new text of the ring.
    /// # Errors
    /// [`Error::NoMemory`].
    pub fn copy(&mut self, movement: Movement) -> Result<Option<String>, Error> {
        let copy = self.run_by(movement, Core::copy)?;
        Ok(copy.map(|text| text.into_std()))
    }

    /// A text of the ring: for 0 the current one, which a yank inserts, for 1 the one by which a `yank_pop` would
    /// replace it, and so on. `None` if `back` is [`ring_count`](Session::ring_count) or more.
    ///
    /// ```
    /// # use lodvarn::{Error, Session};
    /// let mut session = Session::builder().open()?;
    /// session.ring_add("one")?;
    /// session.ring_add("two")?;
    /// let texts: Vec<_> = (0..).map_while(|back| session.ring_text(back)).collect();
    /// assert_eq!(texts, ["two", "one"]);
    /// # Ok::<(), Error>(())
    /// ```
    #[must_use]
    pub fn ring_text(&self, back: usize) -> Option<&str> {
        self.core.ring().text_back(back)
    }
}
