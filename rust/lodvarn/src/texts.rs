//! The calls without a session.
use crate::empty_for;
use crate::errors::Error;
use crate::proved::unicode_segmentation::UnicodeSegmentation;
use crate::types::{Cluster, Mode, Position, Screen};
use alloc::vec::Vec;

/// Runs a script in a session of its own, and returns what it prints. `docs/RULES.md` of the repository describes
/// scripts.
/// # Errors
/// [`Error::NoMemory`]; what was printed before is lost.
#[cfg(feature = "std")]
pub fn run_script(script: &[u8]) -> Result<Vec<u8>, Error> {
    use crate::proved::{rl_session, stand_in};
    let (alloc, mut reader) = (stand_in::alloc::Global, script);
    let mut printed = stand_in::vec::Vec::new(alloc);
    // No read of a slice fails, and a write to a vector only if memory runs out.
    rl_session::run_script(alloc, &mut reader, &mut printed).map_err(|_| Error::NoMemory)?;
    Ok(printed.into_std())
}

/// The number of columns that a text takes, at most 65535.
#[must_use]
pub fn width(mode: Mode, text: &str) -> usize {
    mode.to_core().width(text).into()
}

/// The first grapheme cluster of a text, empty if the text is empty.
#[must_use]
pub fn first_cluster(text: &str) -> &str {
    text.graphemes(true).next().unwrap_or_default()
}

/// The last grapheme cluster of a text, empty if the text is empty.
#[must_use]
pub fn last_cluster(text: &str) -> &str {
    text.graphemes(true).next_back().unwrap_or_default()
}

/// The grapheme clusters of a text, one after another.
///
/// ```
/// # use lodvarn::Mode;
/// let clusters = lodvarn::clusters(Mode::Unicode, "e\u{301}漢x")?;
/// let columns: Vec<_> = clusters.iter().map(|it| (it.from, it.columns)).collect();
/// assert_eq!(columns, [(0, 1), (3, 2), (6, 1)]);
/// # Ok::<(), lodvarn::Error>(())
/// ```
/// # Errors
/// [`Error::NoMemory`].
pub fn clusters(mode: Mode, text: &str) -> Result<Vec<Cluster>, Error> {
    let mut clusters = empty_for(text.graphemes(true).count())?;
    let mut from = 0;
    for cluster in text.graphemes(true) {
        let (to, columns) = (from + cluster.len(), width(mode, cluster));
        clusters.push(Cluster { from, to, columns });
        from = to;
    }
    Ok(clusters)
}

impl Screen {
    /// The row and the column of a byte offset of a text. An offset inside a cluster has the cell where the cluster
    /// starts. A tab goes to the next column of its row that is a multiple of [`tab`](Screen::tab), or to the right
    /// edge if that is nearer.
    /// # Errors
    /// [`Error::BadOffset`].
    pub fn cell(&self, offset: usize, text: &str) -> Result<Position, Error> {
        if !text.is_char_boundary(offset) {
            return Err(Error::BadOffset);
        }
        let (line, column) = self.to_core().cell(text, offset);
        Ok(Position { line, column })
    }

    /// The byte offset of a text at a cell of the screen, as of a click of the mouse: the last offset between two
    /// clusters whose [`cell`](Screen::cell) is not after that one, by rows and then by columns. 0 if there is none.
    ///
    /// ```
    /// # use lodvarn::{Error, Position, Screen};
    /// let mut screen = Screen::new(80);
    /// screen.prompt = 2;
    /// let cell = Position { line: 1, column: 2 };
    /// assert_eq!(screen.cell(6, "one\ntwo")?, cell);
    /// assert_eq!(screen.offset_at(cell, "one\ntwo"), 6);
    /// assert_eq!(screen.offset_at(Position { line: 0, column: 70 }, "one\ntwo"), 3);
    /// # Ok::<(), Error>(())
    /// ```
    #[must_use]
    pub fn offset_at(&self, cell: Position, text: &str) -> usize {
        self.to_core().place_at(text, (cell.line, cell.column))
    }

    /// The byte offsets where the rows of a text begin, from row 0 on. A row ends where the next one begins. A text
    /// that ends at the right edge has one more row, which is empty.
    ///
    /// ```
    /// # use lodvarn::{Error, Screen};
    /// let screen = Screen::new(3);
    /// assert_eq!(screen.rows("abcd\ne")?, [0, 3, 5]);
    /// # Ok::<(), Error>(())
    /// ```
    /// # Errors
    /// [`Error::NoMemory`].
    pub fn rows(&self, text: &str) -> Result<Vec<usize>, Error> {
        let screen = self.to_core();
        let count = screen.rows(text, &mut []);
        let mut starts = empty_for(count)?;
        starts.resize(count, 0);
        screen.rows(text, &mut starts);
        Ok(starts)
    }
}
