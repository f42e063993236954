//! A session as bytes, to be stored in a file and loaded again; and a copy of a session.
use crate::errors::Error;
use crate::proved::stand_in::alloc::Global;
use crate::{Core, Session};
use alloc::vec::Vec;

impl Session {
    /// The session as bytes, which [`from_bytes`](Session::from_bytes) loads again. A read: it changes nothing. Reports
    /// are not saved, and those that wait stay. The same session gives the same bytes on every machine;
    /// `docs/FORMAT.md` of the repository says what each is.
    ///
    /// ```
    /// # use lodvarn::{Error, Session};
    /// let mut session = Session::builder().text("one").open()?;
    /// session.paste(" two", 1)?;
    /// session.undo(1)?;
    /// let bytes = session.to_bytes()?;
    /// let mut loaded = Session::from_bytes(&bytes)?;
    /// assert_eq!((loaded.text(), loaded.pos()), ("one", 3));
    /// loaded.redo()?;
    /// assert_eq!(loaded.text(), "one two");
    /// # Ok::<(), Error>(())
    /// ```
    /// # Errors
    /// [`Error::NoRoom`] if a text of the record has 4 GiB or more, or an offset in it is as far;
    /// [`Error::NoMemory`].
    pub fn to_bytes(&self) -> Result<Vec<u8>, Error> {
        Ok(self.core.save()?.into_std())
    }

    /// Opens a session from the bytes that [`to_bytes`](Session::to_bytes) returned. Text and cursor, record, ring and
    /// options are as they were, with open groups, undone changes and the save point; nothing changed yet, and no
    /// reports are kept. Any bytes may be passed, and take no more memory than a few times their length.
    ///
    /// ```
    /// # use lodvarn::{Error, Session};
    /// let mut bytes = Session::builder().text("one").open()?.to_bytes()?;
    /// assert_eq!(Session::from_bytes(b"one").err(), Some(Error::UnknownFormat));
    /// bytes.pop();
    /// assert_eq!(Session::from_bytes(&bytes).err(), Some(Error::Damaged));
    /// # Ok::<(), Error>(())
    /// ```
    /// # Errors
    /// [`Error::UnknownFormat`] if the bytes do not begin as this version saves them; [`Error::Damaged`] if their
    /// checksum is wrong, or a record in them does not lead to their text; [`Error::NoMemory`].
    pub fn from_bytes(bytes: &[u8]) -> Result<Session, Error> {
        Ok(Session::of_core(Core::load(Global, bytes)?))
    }

    /// A copy of the session, as it would be saved and loaded: text and cursor, record, ring and options are the same;
    /// nothing changed yet in the copy, and it keeps no reports. It costs a [`to_bytes`](Session::to_bytes) and a
    /// [`from_bytes`](Session::from_bytes), in time and in memory, of which the bytes are freed again. There is no
    /// `Clone`, since that can't return an error.
    ///
    /// ```
    /// # use lodvarn::{Error, Session};
    /// let mut session = Session::builder().text("one").open()?;
    /// session.paste(" two", 1)?;
    /// let mut copy = session.try_clone()?;
    /// copy.undo(1)?;
    /// assert_eq!((session.text(), copy.text()), ("one two", "one"));
    /// # Ok::<(), Error>(())
    /// ```
    /// # Errors
    /// [`Error::NoRoom`] as for [`to_bytes`](Session::to_bytes); [`Error::NoMemory`].
    pub fn try_clone(&self) -> Result<Session, Error> {
        Session::from_bytes(&self.to_bytes()?)
    }
}
