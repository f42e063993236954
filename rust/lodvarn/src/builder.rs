//! How a session is opened, and its options as the core has them.
use crate::errors::Error;
use crate::proved::rl_base::NewKill;
use crate::proved::rl_session::{self, Bound, Settings};
use crate::proved::stand_in::alloc::Global;
use crate::types::{Mode, Options};
use crate::{Core, Session};
use core::sync::atomic::AtomicBool;

/// What a session is opened with, from [`Session::builder`]. Without calls of its methods: no text, the cursor at the
/// end of the text, and [`Options::default`].
///
/// ```
/// # use lodvarn::{Error, Session};
/// let session = Session::builder().text("one two").pos(3).limit(80).open()?;
/// assert_eq!((session.text(), session.pos()), ("one two", 3));
/// assert_eq!(session.options().limit, Some(80));
/// # Ok::<(), Error>(())
/// ```
#[derive(Clone, Debug, Default)]
#[must_use = "`open` opens the session"]
pub struct SessionBuilder<'t> {
    text: &'t str,
    // None stands for the end of the text.
    pos: Option<usize>,
    options: Options,
}

impl<'t> SessionBuilder<'t> {
    /// Sets the text.
    pub fn text(self, text: &'t str) -> Self {
        SessionBuilder { text, ..self }
    }

    /// Sets the byte offset of the cursor.
    pub fn pos(self, pos: usize) -> Self {
        let pos = Some(pos);
        SessionBuilder { pos, ..self }
    }

    /// Sets all options at once.
    pub fn options(self, options: Options) -> Self {
        SessionBuilder { options, ..self }
    }

    /// Sets [`Options::limit`], the most bytes that the text may have.
    pub fn limit(mut self, limit: usize) -> Self {
        self.options.limit = Some(limit);
        self
    }

    /// Sets [`Options::ring_size`], the most texts that the kill ring keeps. With 0 a kill only deletes.
    pub fn ring_size(mut self, ring_size: usize) -> Self {
        self.options.ring_size = ring_size;
        self
    }

    /// Sets [`Options::mode`], how columns are counted.
    pub fn mode(mut self, mode: Mode) -> Self {
        self.options.mode = mode;
        self
    }

    /// Sets [`Options::prompt`], the column where the text begins.
    pub fn prompt(mut self, prompt: u16) -> Self {
        self.options.prompt = prompt;
        self
    }

    /// Sets [`Options::max_entries`], the most entries of the record: see [`Session::set_options`].
    pub fn max_entries(mut self, max_entries: usize) -> Self {
        self.options.max_entries = Some(max_entries);
        self
    }

    /// Sets [`Options::max_bytes`], the most bytes of text that the entries have.
    pub fn max_bytes(mut self, max_bytes: usize) -> Self {
        self.options.max_bytes = Some(max_bytes);
        self
    }

    /// Sets [`Options::max_ring_bytes`], the most bytes that the texts of the kill ring have together.
    pub fn max_ring_bytes(mut self, max_ring_bytes: usize) -> Self {
        self.options.max_ring_bytes = Some(max_ring_bytes);
        self
    }

    /// Sets [`Options::keep_undone`], whether edits keep the undone changes.
    pub fn keep_undone(mut self, keep_undone: bool) -> Self {
        self.options.keep_undone = keep_undone;
        self
    }

    /// Opens the session. No memory is reserved for the limit.
    /// # Errors
    /// [`Error::BadOffset`] if the cursor would be past the end of the text or inside a character; [`Error::NoRoom`] if
    /// the text is longer than the limit; [`Error::NoMemory`].
    pub fn open(&self) -> Result<Session, Error> {
        let pos = self.pos.unwrap_or(self.text.len());
        let core = Core::open(Global, self.text, pos, &self.options.to_core())?;
        Ok(Session::of_core(core))
    }
}

impl Session {
    /// A session over one of the core's, without reports.
    pub(crate) fn of_core(core: Core) -> Session {
        Session {
            core,
            keeps_texts: false,
            reads_lines: AtomicBool::new(false),
        }
    }
}

/// A bound of the core's, of which the greatest number is none.
fn bounded(bound: usize) -> Option<usize> {
    Some(bound).filter(|it| *it != usize::MAX)
}

impl Options {
    pub(crate) fn to_core(self) -> Settings {
        let bound = Bound {
            entries: self.max_entries.unwrap_or(usize::MAX),
            bytes: self.max_bytes.unwrap_or(usize::MAX),
            ring_bytes: self.max_ring_bytes.unwrap_or(usize::MAX),
        };
        Settings {
            limit: self.limit.unwrap_or(usize::MAX),
            ring_size: self.ring_size,
            new_kill: NewKill::AfterNewest,
            options: rl_session::Options {
                mode: self.mode.to_core(),
                prompt: self.prompt,
                bound,
                keeps: self.keep_undone,
            },
        }
    }

    pub(crate) fn of_core(it: Settings) -> Options {
        let (options, bound) = (it.options, it.options.bound);
        Options {
            mode: Mode::of_core(options.mode),
            prompt: options.prompt,
            limit: bounded(it.limit),
            ring_size: it.ring_size,
            max_entries: bounded(bound.entries),
            max_bytes: bounded(bound.bytes),
            max_ring_bytes: bounded(bound.ring_bytes),
            keep_undone: options.keeps,
        }
    }
}
