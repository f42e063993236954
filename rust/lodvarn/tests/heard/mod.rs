//! A listener, and lines that show their cursor.
use lodvarn::line_buffer::{
    ChangeListener, DeleteListener, Direction, LineBuffer, NoListener, MAX_LINE,
};
use std::panic::{catch_unwind, AssertUnwindSafe};

/// What a listener hears, and a text that is kept by it.
pub struct Heard {
    pub told: Vec<String>,
    pub copy: String,
    /// How many more changes it bears. It panics at the one after these.
    pub left: usize,
}

impl Heard {
    /// A listener that knows a text.
    pub fn of(text: &str) -> Heard {
        let (told, copy, left) = (vec![], text.to_string(), usize::MAX);
        Heard { told, copy, left }
    }

    fn hear(&mut self, what: String, idx: usize, old: &str, new: &str) {
        self.left = self.left.checked_sub(1).expect("it hears no more");
        self.told.push(format!("{idx} {what}"));
        assert_eq!(&self.copy[idx..idx + old.len()], old);
        self.copy.replace_range(idx..idx + old.len(), new);
    }
}

impl DeleteListener for Heard {
    fn start_killing(&mut self) {
        self.told.push("kill".into());
    }

    fn delete(&mut self, idx: usize, string: &str, dir: Direction) {
        self.hear(format!("- {string:?} {dir:?}"), idx, string, "");
    }

    fn stop_killing(&mut self) {
        self.told.push("killed".into());
    }
}

impl ChangeListener for Heard {
    fn insert_char(&mut self, idx: usize, c: char) {
        self.hear(format!("+ {c:?}"), idx, "", &c.to_string());
    }

    fn insert_str(&mut self, idx: usize, string: &str) {
        self.hear(format!("+ {string:?}"), idx, "", string);
    }

    fn replace(&mut self, idx: usize, old: &str, new: &str) {
        self.hear(format!("{old:?} > {new:?}"), idx, old, new);
    }
}

/// A line of a text that shows the cursor as `|`.
pub fn line_of(shown: &str) -> LineBuffer {
    let (before, after) = shown.split_once('|').expect("a cursor is shown");
    let mut line = LineBuffer::with_capacity(MAX_LINE);
    line.insert_str(0, before, &mut NoListener);
    line.insert_str(before.len(), after, &mut NoListener);
    line.set_pos(before.len());
    line
}

pub fn shown(line: &LineBuffer) -> String {
    format!("{}|{}", &line[..line.pos()], &line[line.pos()..])
}

/// What a call says as it panics.
#[track_caller]
pub fn panic_of<T>(call: impl FnOnce() -> T) -> String {
    let said = catch_unwind(AssertUnwindSafe(call)).err();
    let said = said.expect("the call panics");
    match said.downcast::<String>() {
        Ok(said) => *said,
        Err(said) => said.downcast_ref::<&str>().expect("a text").to_string(),
    }
}
