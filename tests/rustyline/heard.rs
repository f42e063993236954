//! What hears the line of an editor on rustyline's core, as `lodvarn::Pair` does.
use original::kill_ring::KillRing;
use original::line_buffer::{ChangeListener, DeleteListener, Direction};
use original::undo::Changeset;

pub struct Heard {
    pub all: Changeset,
    pub deletions: KillRing,
}

impl DeleteListener for Heard {
    fn start_killing(&mut self) {
        self.deletions.start_killing();
    }
    fn delete(&mut self, at: usize, text: &str, direction: Direction) {
        DeleteListener::delete(&mut self.all, at, text, direction);
        self.deletions.delete(at, text, direction);
    }
    fn stop_killing(&mut self) {
        self.deletions.stop_killing();
    }
}

impl ChangeListener for Heard {
    fn insert_char(&mut self, at: usize, c: char) {
        self.all.insert_char(at, c);
    }
    fn insert_str(&mut self, at: usize, text: &str) {
        ChangeListener::insert_str(&mut self.all, at, text);
    }
    fn replace(&mut self, at: usize, old: &str, new: &str) {
        ChangeListener::replace(&mut self.all, at, old, new);
    }
}
