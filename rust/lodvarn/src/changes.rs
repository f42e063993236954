//! What changed in the text of a session: as one splice, as reports, or by calls of a listener.
use crate::errors::Error;
use crate::listeners::ChangeListener;
use crate::proved::rl_base;
use crate::types::{Direction, ReportKind, Side};
use crate::Session;
use core::fmt;

/// A change of a text: the text from `from` to `old_to` of the old text was replaced by the text from `from` to
/// `new_to` of the new one. All three are byte offsets.
#[derive(Clone, Copy, Debug, PartialEq, Eq, Hash)]
pub struct Splice {
    /// The start of the change, in both texts.
    pub from: usize,
    /// The end of the deleted text, in the old text.
    pub old_to: usize,
    /// The end of the inserted text, in the new text.
    pub new_to: usize,
}

impl Splice {
    /// The byte offset in the new text of an offset in the old text, so that a mark, or the end of a selection without
    /// the cursor, stays with its text. An offset inside the deleted text moves to the start of the inserted text, or
    /// for [`Side::After`] to its end. If there were several changes, the splices of their reports are exact, one after
    /// another ([`Report::splice`]): in the one that [`Session::take_change`] makes of them, an offset between the
    /// changes moves to an end of it.
    ///
    /// ```
    /// # use lodvarn::{Error, Session, Side};
    /// let mut session = Session::builder().text("one two").pos(0).open()?;
    /// let mut mark = 4;
    /// session.replace(0..3, "three")?;
    /// if let Some(change) = session.take_change() {
    ///     mark = change.map_offset(mark, Side::Before)?;
    /// }
    /// assert_eq!(&session.text()[mark..], "two");
    /// # Ok::<(), Error>(())
    /// ```
    /// # Errors
    /// [`Error::BadOffset`] if `old_to` or `new_to` is before `from`, or the result would exceed the greatest `usize`.
    pub fn map_offset(self, offset: usize, side: Side) -> Result<usize, Error> {
        let change = rl_base::Splice {
            from: self.from,
            old_end: self.old_to,
            new_end: self.new_to,
        };
        let after = offset.saturating_sub(self.old_to);
        if self.old_to < self.from
            || self.new_to < self.from
            || self.new_to.checked_add(after).is_none()
        {
            return Err(Error::BadOffset);
        }
        Ok(change.moved(offset, side.to_core()))
    }
}

/// A report of a change. Its offset is in the text that the reports before it lead to. Offsets and lengths are in
/// bytes.
#[derive(Clone, Copy, Debug, PartialEq, Eq, Hash)]
#[non_exhaustive]
pub struct Report<'s> {
    /// What it is of. `KillStarted` and `KillStopped` are of no change, and all their numbers are 0.
    pub kind: ReportKind,
    /// The byte offset of the change.
    pub at: usize,
    /// The length of the deleted text.
    pub old_len: usize,
    /// The length of the inserted text.
    pub new_len: usize,
    /// The byte offset of the cursor before the change. This and `pos_after` are 0 if they are not known.
    pub pos_before: usize,
    /// The byte offset of the cursor after the change.
    pub pos_after: usize,
    /// The deleted text. It is empty if the kind is `Folded`, or if no texts are kept, and so is `new_text`.
    pub old_text: &'s str,
    /// The inserted text.
    pub new_text: &'s str,
}

impl<'s> Report<'s> {
    /// A report of the core, and its texts: the deleted one followed by the inserted one.
    fn of_core(it: rl_base::Report, texts: &'s str) -> Self {
        let (pos_before, pos_after) = it.cursors.unwrap_or((0, 0));
        let (old_text, new_text) = texts.split_at(it.old_len.min(texts.len()));
        Report {
            kind: ReportKind::of_core(it.kind),
            at: it.at,
            old_len: it.old_len,
            new_len: it.new_len,
            pos_before,
            pos_after,
            old_text,
            new_text,
        }
    }

    /// The change as a splice of the text that the reports before it lead to.
    #[must_use]
    pub fn splice(&self) -> Splice {
        Splice {
            from: self.at,
            old_to: self.at + self.old_len,
            new_to: self.at + self.new_len,
        }
    }

    /// Calls the method of its kind of a listener, and none if it is folded.
    fn notify<L: ChangeListener + ?Sized>(&self, listener: &mut L) {
        let (at, old, new) = (self.at, self.old_text, self.new_text);
        match self.kind {
            ReportKind::CharInserted => new.chars().for_each(|it| listener.insert_char(at, it)),
            ReportKind::TextInserted => listener.insert_str(at, new),
            ReportKind::DeletedForward => listener.delete(at, old, Direction::Forward),
            ReportKind::DeletedBackward => listener.delete(at, old, Direction::Backward),
            ReportKind::Replaced => listener.replace(at, old, new),
            ReportKind::KillStarted => listener.start_killing(),
            ReportKind::KillStopped => listener.stop_killing(),
            ReportKind::Folded => {}
        }
    }
}

/// Why [`Session::notify`] called no method of a listener.
#[derive(Clone, Copy, Debug, PartialEq, Eq, Hash)]
#[non_exhaustive]
pub enum NotifyError {
    /// The queue had no room for all changes, and has made one of them, without its texts. It is taken now: apply this
    /// splice, whose inserted text is in the present text, to the text that the listener knew, or copy the whole text.
    /// The listener is notified of later changes again.
    Folded(Splice),
    /// The session has no queue of reports, or one that keeps no texts. Reports that wait stay.
    NoTexts,
}

impl fmt::Display for NotifyError {
    fn fmt(&self, f: &mut fmt::Formatter<'_>) -> fmt::Result {
        f.write_str(match self {
            NotifyError::Folded(_) => "the reports were folded into one without texts",
            NotifyError::NoTexts => "the session keeps no reports with texts",
        })
    }
}

#[cfg(feature = "std")]
impl std::error::Error for NotifyError {}

impl Session {
    /// All that changed in the text since the last call, or since the session was opened, as one splice of the text at
    /// that time, whose inserted text is in the present text. `None` if nothing changed. It contains every change, also
    /// by an undo, a redo, and an edit that returned an error after some steps. It does not end a run of kills.
    ///
    /// ```
    /// # use lodvarn::{Error, Session, Splice};
    /// let mut session = Session::builder().text("one two").pos(3).open()?;
    /// let mut copy = session.text().to_string();
    /// session.paste(", 2", 1)?;
    /// session.undo(1)?;
    /// session.replace(0..3, "1,")?;
    /// if let Some(Splice { from, old_to, new_to }) = session.take_change() {
    ///     copy.replace_range(from..old_to, session.slice(from..new_to)?);
    /// }
    /// assert_eq!(copy, "1, two");
    /// assert_eq!(session.take_change(), None);
    /// # Ok::<(), Error>(())
    /// ```
    pub fn take_change(&mut self) -> Option<Splice> {
        let change = self.core.changed()?;
        Some(Splice {
            from: change.from,
            old_to: change.old_end,
            new_to: change.new_end,
        })
    }

    /// Keeps a report of each change of the text from now on, in a queue with room for this many reports and for
    /// `text_bytes` bytes of their texts, deleted and inserted. If `text_bytes` is 0, reports have no texts, and at
    /// most one waits: a later change is folded into it, so that the inserted text is always in the present text.
    /// [`take_report`] takes one, and [`notify`] notifies a listener of each.
    ///
    /// All memory is reserved here, and no other call returns an error because of the queue: if there is no room for a
    /// report or its texts, all that wait and the new one become one report, of the kind `Folded`, into which each
    /// later change is folded too.
    /// # Errors
    /// [`Error::IsWatched`] if the session has a queue, which stays as it is; [`Error::NoSuchNumber`] if `reports` is
    /// 0; [`Error::NoMemory`].
    ///
    /// [`take_report`]: Session::take_report
    /// [`notify`]: Session::notify
    pub fn watch(&mut self, reports: usize, text_bytes: usize) -> Result<(), Error> {
        self.core.keep_reports(reports, text_bytes)?;
        self.keeps_texts = text_bytes > 0;
        Ok(())
    }

    /// Keeps no more reports, and drops those that wait.
    pub fn unwatch(&mut self) {
        self.keeps_texts = false;
        self.core.stop_reports();
    }

    /// Takes the oldest report from the queue. `None` if none waits. It does not end a run of kills.
    ///
    /// Apply all in order to your copy of the text, and it equals the session's. The inserted text of one that has no
    /// texts is in the present text: apply it before the next command.
    ///
    /// ```
    /// # use lodvarn::{Error, Session};
    /// let mut session = Session::builder().text("one").open()?;
    /// session.watch(100, 4096)?;
    /// let mut copy = session.text().to_string();
    /// session.insert('é', 1)?;
    /// session.replace(..3, "caf")?;
    /// while let Some(report) = session.take_report() {
    ///     copy.replace_range(report.at..report.at + report.old_len, report.new_text);
    /// }
    /// assert_eq!((copy.as_str(), session.report_count()), ("café", 0));
    /// # Ok::<(), Error>(())
    /// ```
    pub fn take_report(&mut self) -> Option<Report<'_>> {
        let report = self.core.take_report()?;
        Some(Report::of_core(report, self.core.watch().taken_texts()))
    }

    /// How many reports wait; a folded one is one.
    #[must_use]
    pub fn report_count(&self) -> usize {
        self.core.watch().waiting_reports()
    }

    /// Takes all reports that wait, the oldest first, and notifies a listener of each by the method of its kind. If the
    /// listener panics, that report is lost, and those after it wait on. The byte offsets that it gets are in the text
    /// that the changes before lead to; the session has the present text already. It does not end a run of kills.
    /// # Errors
    /// No method of the listener was called then. [`NotifyError::Folded`] if the changes were folded into one without
    /// texts, which is returned: the listener is notified of later ones only. [`NotifyError::NoTexts`] if the session
    /// keeps no reports, or none with texts.
    ///
    /// ```
    /// use lodvarn::{ChangeListener, DeleteListener, Direction, Session, NotifyError};
    ///
    /// // A copy of the text, kept by its calls.
    /// struct Copy(String);
    ///
    /// impl DeleteListener for Copy {
    ///     fn delete(&mut self, idx: usize, string: &str, _dir: Direction) {
    ///         self.replace(idx, string, "");
    ///     }
    /// }
    ///
    /// impl ChangeListener for Copy {
    ///     fn insert_char(&mut self, idx: usize, c: char) {
    ///         self.0.insert(idx, c);
    ///     }
    ///     fn insert_str(&mut self, idx: usize, string: &str) {
    ///         self.0.insert_str(idx, string);
    ///     }
    ///     fn replace(&mut self, idx: usize, old: &str, new: &str) {
    ///         self.0.replace_range(idx..idx + old.len(), new);
    ///     }
    /// }
    ///
    /// let mut session = Session::builder().text("one two").open()?;
    /// session.watch(100, 4096)?;
    /// let mut copy = Copy(session.text().to_string());
    /// session.backspace(3)?;
    /// session.insert('2', 1)?;
    /// match session.notify(&mut copy) {
    ///     Ok(()) => {}
    ///     Err(NotifyError::Folded(_)) => copy.0 = session.text().to_string(),
    ///     Err(error) => return Err(error.into()),
    /// }
    /// assert_eq!(copy.0, "one 2");
    /// # Ok::<(), Box<dyn std::error::Error>>(())
    /// ```
    pub fn notify<L: ChangeListener + ?Sized>(
        &mut self,
        listener: &mut L,
    ) -> Result<(), NotifyError> {
        if !self.keeps_texts {
            return Err(NotifyError::NoTexts);
        }
        while let Some(report) = self.take_report() {
            report.notify(listener);
            if report.kind == ReportKind::Folded {
                return Err(NotifyError::Folded(report.splice()));
            }
        }
        Ok(())
    }
}
