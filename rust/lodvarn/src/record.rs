//! Undo, redo, and groups of changes.
use crate::errors::Error;
use crate::types::Options;
use crate::{Core, Session};
use core::ops::{Deref, DerefMut};

/// An open undo group, from [`Session::group`]. It has all calls of the session, and closes the group when it is
/// dropped. Groups that were begun in it and are still open are closed with it. If the group is not open any more, as
/// after an [`end_all_groups`](Session::end_all_groups) or an [`abandon_group`](Session::abandon_group), nothing is
/// closed.
#[derive(Debug)]
#[must_use = "the group is closed when this is dropped"]
pub struct Group<'s> {
    session: &'s mut Session,
    // How many groups are open around it.
    around: usize,
}

impl Group<'_> {
    /// Closes a group, and returns whether it has a change. It is no method, since a group has those of its session.
    /// # Errors
    /// [`Error::NoMemory`]; the group may stay open. A drop can't return that error.
    pub fn close(mut group: Self) -> Result<bool, Error> {
        group.close_open()
    }

    fn close_open(&mut self) -> Result<bool, Error> {
        let mut has_change = false;
        for _ in self.around..self.group_level() {
            has_change = self.end_group()?;
        }
        Ok(has_change)
    }
}

impl Deref for Group<'_> {
    type Target = Session;

    fn deref(&self) -> &Session {
        self.session
    }
}

impl DerefMut for Group<'_> {
    fn deref_mut(&mut self) -> &mut Session {
        self.session
    }
}

impl Drop for Group<'_> {
    fn drop(&mut self) {
        // A drop can't return that it is out of memory.
        let _ = self.close_open();
    }
}

impl Session {
    /// Begins an undo group, which is closed when the guard is dropped: then one undo undoes all its changes. The guard
    /// has all calls of the session, also this one, for a group in the group.
    ///
    /// ```
    /// # use lodvarn::{Error, Session};
    /// let mut session = Session::builder().text("one two").open()?;
    /// {
    ///     let mut group = session.group()?;
    ///     group.transpose_words(1)?;
    ///     group.insert('!', 1)?;
    /// }
    /// assert_eq!(session.text(), "two one!");
    /// session.undo(1)?;
    /// assert_eq!(session.text(), "one two");
    /// # Ok::<(), Error>(())
    /// ```
    /// # Errors
    /// [`Error::NoMemory`]; no group is begun.
    pub fn group(&mut self) -> Result<Group<'_>, Error> {
        let around = self.group_level();
        self.begin_group()?;
        let session = self;
        Ok(Group { session, around })
    }

    /// Sets an undo boundary: the next change joins no other, so that it is undone alone, and the next kill begins a
    /// new text of the ring. Text, cursor, groups and undone changes stay. An edit that changes nothing leaves the
    /// boundary; an undo, a redo, [`truncate`](Session::truncate) and the begin, end or abandon of a group remove it.
    ///
    /// ```
    /// # use lodvarn::{Error, Session};
    /// let mut session = Session::builder().text("abc").open()?;
    /// session.backspace(1)?;
    /// session.undo_boundary();
    /// session.backspace(1)?;
    /// session.undo(1)?;
    /// assert_eq!(session.text(), "ab");
    /// # Ok::<(), Error>(())
    /// ```
    pub fn undo_boundary(&mut self) {
        // It returns no error.
        let _ = self.run(Core::part);
    }

    /// Sets the save point: the text is saved as it is. The next change is undone alone, so that an undo can return to
    /// this text. A session begins unsaved, also after a [`restart`](Session::restart).
    ///
    /// ```
    /// # use lodvarn::{Error, Session};
    /// let mut session = Session::builder().open()?;
    /// session.insert('a', 1)?;
    /// session.mark_saved();
    /// session.insert('b', 1)?;
    /// assert!(!session.is_saved());
    /// session.undo(1)?;
    /// assert_eq!((session.text(), session.is_saved()), ("a", true));
    /// # Ok::<(), Error>(())
    /// ```
    pub fn mark_saved(&mut self) {
        self.core.set_saved();
    }

    /// Begins an undo group: once it is closed, one undo undoes all its changes. It may stay open from one key to the
    /// next, when the guard of [`group`](Session::group) can't be held. The undone changes stay until something changes
    /// in the group, or are kept with [`Options::keep_undone`].
    /// # Errors
    /// [`Error::NoMemory`].
    pub fn begin_group(&mut self) -> Result<(), Error> {
        self.run(Core::begin).map(drop)
    }

    /// Closes the innermost group. Returns false if it has no change, or none is open.
    /// # Errors
    /// [`Error::NoMemory`]; the group stays open.
    pub fn end_group(&mut self) -> Result<bool, Error> {
        self.run(Core::end_one)
    }

    /// Opens the group again that was closed last, also that of an edit, so that later changes are in it until it is
    /// closed once more. The undone changes are dropped then. Returns false if something was recorded after it, or
    /// there is none, or with [`Options::keep_undone`] if there is a change to redo.
    pub fn reopen_group(&mut self) -> bool {
        self.run(Core::reopen) == Ok(true)
    }

    /// Undoes the innermost open group, with those that were closed in it, and drops it, as for a completion that is
    /// tried and dropped. Text and record are as they were at its begin, and nothing can be redone unless it is empty.
    /// The cursor goes to where it was before its first change, and the ring keeps what was killed. Returns false if no
    /// group is open.
    ///
    /// ```
    /// # use lodvarn::{Error, Session};
    /// let mut session = Session::builder().text("git st").open()?;
    /// session.begin_group()?;
    /// session.replace(4..6, "status")?;
    /// assert_eq!(session.text(), "git status");
    /// session.abandon_group()?;
    /// assert_eq!((session.text(), session.group_level(), session.can_redo()), ("git st", 0, false));
    /// # Ok::<(), Error>(())
    /// ```
    /// # Errors
    /// [`Error::NoRoom`] as for an undo; [`Error::NoMemory`].
    pub fn abandon_group(&mut self) -> Result<bool, Error> {
        self.run(Core::abandon)
    }

    /// Closes all open groups. Returns false if they have no change, or none is open.
    /// # Errors
    /// [`Error::NoMemory`].
    pub fn end_all_groups(&mut self) -> Result<bool, Error> {
        self.run(Core::end)
    }

    /// Undoes the last n changes and groups, all if there are fewer; while a group is open, at most the changes in the
    /// innermost one, which stays open. The cursor goes to where it was before them. An edit of several changes, as
    /// [`indent`](Session::indent), makes a group of them, also if it returned an error after some; if there is no
    /// memory for its marks, each of them is undone alone. Returns false if there was no change.
    /// # Errors
    /// [`Error::NoRoom`] if a text on the way back is longer than the limit; [`Error::NoMemory`].
    #[inline]
    pub fn undo(&mut self, n: u16) -> Result<bool, Error> {
        self.run_times(n, Core::undo)
    }

    /// Redoes the change or group that was undone last. Returns false if there is none.
    /// # Errors
    /// [`Error::NoRoom`] as for an undo; [`Error::NoMemory`].
    #[inline]
    pub fn redo(&mut self) -> Result<bool, Error> {
        self.run(Core::redo)
    }

    /// Keeps the first `entries` entries of the record, and drops the others and the undone changes. Text and cursor
    /// stay.
    /// # Errors
    /// [`Error::NotReplaying`] if they do not lead to the present text; [`Error::NoMemory`].
    pub fn truncate(&mut self, entries: usize) -> Result<(), Error> {
        self.run(|core| core.truncate(entries))
    }

    /// Sets the options. If the record has more than [`max_entries`](Options::max_entries) or
    /// [`max_bytes`](Options::max_bytes), the oldest changes and closed groups are dropped at once, and by each later
    /// call, so that the memory of a session is bounded however long it is used. Dropped changes can't be undone. An
    /// open group stays, with all after its begin, and so do the undone changes. Numbers of entries that were returned
    /// before count the dropped ones. The oldest texts of the ring beyond [`ring_size`](Options::ring_size) and
    /// [`max_ring_bytes`](Options::max_ring_bytes) are dropped likewise.
    ///
    /// ```
    /// # use lodvarn::{Error, Session};
    /// let mut session = Session::builder().open()?;
    /// let mut options = session.options();
    /// options.max_entries = Some(2);
    /// session.set_options(&options)?;
    /// for text in ["one", " two", " three"] {
    ///     session.paste(text, 1)?;
    /// }
    /// session.undo(3)?;
    /// assert_eq!((session.text(), session.can_undo()), ("one", false));
    /// # Ok::<(), Error>(())
    /// ```
    /// # Errors
    /// [`Error::NoRoom`] if the text is longer than [`limit`](Options::limit); nothing is set.
    pub fn set_options(&mut self, options: &Options) -> Result<(), Error> {
        Ok(self.core.set_settings(&options.to_core())?)
    }

    /// How many groups are open.
    #[must_use]
    pub fn group_level(&self) -> usize {
        self.core.level()
    }

    /// Whether [`undo`](Session::undo) would find a change.
    #[must_use]
    pub fn can_undo(&self) -> bool {
        self.core.can_undo()
    }

    /// Whether [`redo`](Session::redo) would find a change.
    #[must_use]
    pub fn can_redo(&self) -> bool {
        self.core.can_redo()
    }

    /// Whether the text is the one for which [`mark_saved`](Session::mark_saved) was called last: it was not changed
    /// since, or undos, redos and abandons led back to it. It is false for good once a change from before the save
    /// point is dropped.
    #[must_use]
    pub fn is_saved(&self) -> bool {
        self.core.is_saved()
    }

    /// How many entries the record has: changes, and the marks where groups begin and end.
    #[must_use]
    pub fn record_entries(&self) -> usize {
        self.core.record().len()
    }
}
