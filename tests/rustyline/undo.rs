//! The record of the editor's changes, over that of the crate `lodvarn`. It tells that no cursors: so an undo leaves
//! the cursor where the text changed, as this editor wants it.
use crate::keymap::RepeatCount;
use crate::line_buffer::{count, ChangeListener, DeleteListener, Direction, LineBuffer};

/// The changes that an undo can take back.
pub struct Changeset(lodvarn::undo::Changeset);

impl Changeset {
    /// A record of nothing.
    pub fn new() -> Self {
        Self(lodvarn::undo::Changeset::new())
    }

    /// Opens a group, which one undo takes back. Returns its mark, for `truncate`.
    pub fn begin(&mut self) -> usize {
        self.0.begin()
    }

    /// Closes all open groups. Whether something was recorded in them.
    pub fn end(&mut self) -> bool {
        self.0.end()
    }

    /// Takes the last `n` changes or groups back from the line. Whether there was one.
    pub fn undo(&mut self, line: &mut LineBuffer, n: RepeatCount) -> bool {
        self.0.undo(&mut line.inner, count(n))
    }

    /// Forgets what was recorded from a mark on.
    pub fn truncate(&mut self, mark: usize) {
        self.0.truncate(mark);
    }

    /// The text that was inserted last.
    pub fn last_insert(&self) -> Option<String> {
        self.0.last_insert()
    }
}

impl DeleteListener for Changeset {
    fn delete(&mut self, at: usize, text: &str, _: Direction) {
        self.0.delete(at, text);
    }
}

impl ChangeListener for Changeset {
    fn insert_char(&mut self, at: usize, c: char) {
        self.0.insert(at, c);
    }

    fn insert_str(&mut self, at: usize, text: &str) {
        self.0.insert_str(at, text);
    }

    fn replace(&mut self, at: usize, old: &str, new: &str) {
        self.0.replace(at, old, new);
    }
}
