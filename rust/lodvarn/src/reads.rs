//! What is read of a session. A read changes nothing, and does not end a run of kills.
use crate::errors::Error;
use crate::proved::rl_base;
use crate::proved::rl_line::LineBuffer;
use crate::proved::stand_in::alloc::Global;
use crate::proved::unicode_segmentation::UnicodeSegmentation;
use crate::texts::{first_cluster, last_cluster, width};
use crate::types::{
    Cluster, Direction, Filled, Mode, Movement, Options, Position, RowTarget, Screen,
};
use crate::{Core, Session};
use core::ops::{Bound, Range, RangeBounds};
use core::sync::atomic::Ordering;

impl Session {
    /// The line, to look for its lines, which needs no search through the text from the next command on.
    fn lines(&self) -> &LineBuffer {
        self.reads_lines.store(true, Ordering::Relaxed);
        self.core.line()
    }

    /// A range by its two ends. An end beyond the greatest `usize` is that one, which is past the end of any text too.
    pub(crate) fn range_of(&self, range: impl RangeBounds<usize>) -> Range<usize> {
        let start = match range.start_bound() {
            Bound::Included(start) => *start,
            Bound::Excluded(before) => before.saturating_add(1),
            Bound::Unbounded => 0,
        };
        let end = match range.end_bound() {
            Bound::Included(last) => last.saturating_add(1),
            Bound::Excluded(end) => *end,
            Bound::Unbounded => self.text().len(),
        };
        start..end
    }

    /// Asks the core about a movement, with the cursor at an offset. For another one than the cursor's it asks a
    /// session on a copy of the text, since a read can't move the cursor there and back.
    fn asked_at<T>(
        &self,
        offset: usize,
        movement: Movement,
        ask: impl FnOnce(&Core, &rl_base::Movement) -> Option<T>,
    ) -> Result<Option<T>, Error> {
        let movement = match movement.to_core() {
            Some(movement) => movement,
            None => return Ok(None),
        };
        if offset == self.lines().pos() {
            return Ok(ask(&self.core, &movement));
        }
        let other = Core::open(Global, self.text(), offset, &self.core.settings())?;
        Ok(ask(&other, &movement))
    }

    /// A cluster of the text, if there is one.
    fn measured(&self, from: usize, cluster: &str) -> Option<Cluster> {
        if cluster.is_empty() {
            return None;
        }
        Some(Cluster {
            from,
            to: from + cluster.len(),
            columns: self.core.options().mode.width(cluster).into(),
        })
    }

    /// The text.
    #[must_use]
    #[inline]
    pub fn text(&self) -> &str {
        self.core.line().as_str()
    }

    /// The byte offset of the cursor.
    #[must_use]
    #[inline]
    pub fn pos(&self) -> usize {
        self.core.line().pos()
    }

    /// The text in a range.
    /// # Errors
    /// [`Error::BadOffset`], also if the range ends before it begins.
    pub fn slice(&self, range: impl RangeBounds<usize>) -> Result<&str, Error> {
        let range = self.range_of(range);
        self.text().get(range).ok_or(Error::BadOffset)
    }

    /// The range of the nearest occurrence of a text on one side of the byte offset `from`: [`Direction::Forward`] the
    /// first that begins there or later, [`Direction::Backward`] the last that ends there or earlier. `None` if there
    /// is none, or if the text is empty.
    ///
    /// ```
    /// # use lodvarn::{Direction, Error, Session};
    /// let session = Session::builder().text("one two one").open()?;
    /// assert_eq!(session.find(1, "one", Direction::Forward)?, Some(8..11));
    /// assert_eq!(session.find(8, "one", Direction::Backward)?, Some(0..3));
    /// # Ok::<(), Error>(())
    /// ```
    /// # Errors
    /// [`Error::BadOffset`].
    pub fn find(
        &self,
        from: usize,
        text: &str,
        direction: Direction,
    ) -> Result<Option<Range<usize>>, Error> {
        Ok(self.core.find(from, text, direction.to_core())?)
    }

    /// The options of the session.
    #[must_use]
    pub fn options(&self) -> Options {
        Options::of_core(self.core.settings())
    }

    /// The number of the cursor's line, and the width of the text from the start of that line to the cursor, at most
    /// 65535.
    #[must_use]
    pub fn cursor_position(&self) -> Position {
        self.lines();
        let (line, column) = self.core.line_column();
        Position {
            line,
            column: column.into(),
        }
    }

    /// How many lines the text has.
    #[must_use]
    pub fn line_count(&self) -> usize {
        self.lines().line_count()
    }

    /// The range of a line, without its newline, or `None` if there is no such line.
    #[must_use]
    pub fn line_range(&self, line: usize) -> Option<Range<usize>> {
        self.lines().line_range(line)
    }

    /// The number of the line that contains a byte offset, from 0; a newline belongs to the line that it ends.
    /// # Errors
    /// [`Error::BadOffset`].
    pub fn line_at(&self, offset: usize) -> Result<usize, Error> {
        self.slice(..offset)?;
        Ok(self.lines().line_at(offset))
    }

    /// The range that [`copy`](Session::copy) by a movement would copy with the cursor at the byte offset `from`, or
    /// `None` if the movement covers nothing.
    ///
    /// ```
    /// # use lodvarn::{Error, Movement, Session, Word};
    /// let session = Session::builder().text("one two").open()?;
    /// let word = Movement::backward_word(Word::Emacs);
    /// assert_eq!(session.movement_range(session.pos(), word), Ok(Some(4..7)));
    /// assert_eq!((session.movement_target(4, word), session.pos()), (Ok(Some(0)), 7));
    /// # Ok::<(), Error>(())
    /// ```
    /// # Errors
    /// [`Error::BadOffset`]; [`Error::NoMemory`] if `from` is not the cursor's offset: the text is copied then.
    pub fn movement_range(
        &self,
        from: usize,
        movement: Movement,
    ) -> Result<Option<Range<usize>>, Error> {
        self.asked_at(from, movement, Core::covers)
    }

    /// The byte offset to which [`move_by`](Session::move_by) would move the cursor from the byte offset `from`, or
    /// `None` if there is nowhere to go.
    /// # Errors
    /// [`Error::BadOffset`]; [`Error::NoMemory`] if `from` is not the cursor's offset: the text is copied then.
    pub fn movement_target(&self, from: usize, movement: Movement) -> Result<Option<usize>, Error> {
        self.asked_at(from, movement, Core::destination)
    }

    /// The byte offsets where the rows of the text begin on a screen, from a row that begins at the byte offset `from`,
    /// itself the first: as many as fit go to `starts`. Gives how many these are, and where the next row begins, if one
    /// follows. `from` is 0, the start of a line, or an offset that this method or [`Screen::rows`] gave. It reads the
    /// text up to there.
    ///
    /// Two rows begin at one offset if no cluster fits in the first, as after a prompt up to the right edge. So that the
    /// next offset leads on then, `starts` must have room for two.
    ///
    /// ```
    /// # use lodvarn::{Error, Filled, Screen, Session};
    /// let session = Session::builder().text("abcdef\nghi").open()?;
    /// let mut starts = [0; 2];
    /// let filled = session.rows_from(&Screen::new(4), 4, &mut starts)?;
    /// assert_eq!((starts, filled), ([4, 7], Filled { count: 2, next: None }));
    /// # Ok::<(), Error>(())
    /// ```
    /// # Errors
    /// [`Error::BadOffset`].
    pub fn rows_from(
        &self,
        on: &Screen,
        from: usize,
        starts: &mut [usize],
    ) -> Result<Filled, Error> {
        self.slice(from..)?;
        let (count, next) = on.to_core().rows_from(self.text(), from, starts);
        Ok(Filled { count, next })
    }

    /// The grapheme clusters of the text from the byte offset `from` on, with their columns in a mode, as many as fit in
    /// `clusters`. Gives how many these are, and where the next one begins, if one follows. It reads the text up to
    /// there.
    /// # Errors
    /// [`Error::BadOffset`].
    pub fn clusters_from(
        &self,
        mode: Mode,
        mut from: usize,
        clusters: &mut [Cluster],
    ) -> Result<Filled, Error> {
        let mut count = 0;
        for cluster in self.slice(from..)?.graphemes(true) {
            let place = match clusters.get_mut(count) {
                Some(place) => place,
                None => {
                    let next = Some(from);
                    return Ok(Filled { count, next });
                }
            };
            let (to, columns) = (from + cluster.len(), width(mode, cluster));
            *place = Cluster { from, to, columns };
            (count, from) = (count + 1, to);
        }
        let next = None;
        Ok(Filled { count, next })
    }

    /// Where the cursor goes `n` rows up on a screen: to the last offset of that row whose column is not after
    /// `column`, or the cursor's if it is `None`. `None` if there are fewer rows, or `n` is 0. The rows are those
    /// of [`Screen::rows`]: the end of a line that fills its last row stands in the next row, where the next line begins.
    ///
    /// In a long line give in `from` the start of a row of the cursor's line at or above the cursor's row and the one
    /// it leads to, as given by [`rows_from`](Session::rows_from): the line is laid out only from there. `None` stands
    /// for the start of the line, and so does an offset in another line or after the cursor, or below the row that it
    /// leads to.
    ///
    /// ```
    /// # use lodvarn::{Error, RowTarget, Screen, Session};
    /// let (screen, column) = (Screen::new(4), 3);
    /// let mut session = Session::builder().text("abcdef\n\nghi").open()?;
    /// let above = session.row_above(&screen, 1, None, None)?;
    /// assert_eq!(above, Some(RowTarget { offset: 7, column }));
    /// session.set_pos(7)?;
    /// let above = session.row_above(&screen, 2, Some(column), None)?;
    /// assert_eq!(above, Some(RowTarget { offset: 3, column }));
    /// # Ok::<(), Error>(())
    /// ```
    /// # Errors
    /// [`Error::BadOffset`].
    pub fn row_above(
        &self,
        on: &Screen,
        n: u16,
        column: Option<usize>,
        from: Option<usize>,
    ) -> Result<Option<RowTarget>, Error> {
        let on = on.to_core();
        self.row(from, n, |line| line.row_above(&on, from, n, column))
    }

    /// Where the cursor goes `n` rows down on a screen, as [`row_above`](Session::row_above) does for rows up.
    /// # Errors
    /// [`Error::BadOffset`].
    pub fn row_below(
        &self,
        on: &Screen,
        n: u16,
        column: Option<usize>,
        from: Option<usize>,
    ) -> Result<Option<RowTarget>, Error> {
        let on = on.to_core();
        self.row(from, n, |line| line.row_below(&on, from, n, column))
    }

    // What a motion by rows gives, if it is by some and `from` is a boundary.
    fn row(
        &self,
        from: Option<usize>,
        n: u16,
        motion: impl Fn(&LineBuffer) -> Option<(usize, usize)>,
    ) -> Result<Option<RowTarget>, Error> {
        self.slice(from.unwrap_or(0)..)?;
        if n == 0 {
            return Ok(None);
        }
        Ok(motion(self.lines()).map(|(offset, column)| RowTarget { offset, column }))
    }

    /// The first grapheme cluster from a byte offset on. `None` at the end of the text. The time that it takes depends
    /// on the cluster alone, not on the length of the text.
    ///
    /// ```
    /// # use lodvarn::{Error, Session};
    /// let session = Session::builder().text("e\u{301}漢").open()?;
    /// let (mut offset, mut columns) = (0, vec![]);
    /// while let Some(cluster) = session.cluster_at(offset)? {
    ///     columns.push((cluster.from..cluster.to, cluster.columns));
    ///     offset = cluster.to;
    /// }
    /// assert_eq!(columns, [(0..3, 1), (3..6, 2)]);
    /// # Ok::<(), Error>(())
    /// ```
    /// # Errors
    /// [`Error::BadOffset`].
    pub fn cluster_at(&self, offset: usize) -> Result<Option<Cluster>, Error> {
        let text = self.slice(offset..)?;
        Ok(self.measured(offset, first_cluster(text)))
    }

    /// The last grapheme cluster of the text before a byte offset. `None` at the start of the text. The time that it
    /// takes depends on the cluster alone too.
    /// # Errors
    /// [`Error::BadOffset`].
    pub fn cluster_before(&self, offset: usize) -> Result<Option<Cluster>, Error> {
        let cluster = last_cluster(self.slice(..offset)?);
        Ok(self.measured(offset - cluster.len(), cluster))
    }
}
