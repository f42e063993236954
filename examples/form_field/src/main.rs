//! A form field without a terminal: ten columns, at most sixteen bytes, a selection, undo and redo. It scrolls sideways,
//! so that the cursor is always seen. Each line of standard input is a key, as `type abc`, `select-left` or `kill-word`,
//! and is answered by what the field shows then, by the column of the cursor there, by what is selected, and by a star
//! while the text is the one that was saved. In a text `\n` stands for a newline.
use lodvarn::{clusters, width, At, Error, Mode, Movement, Session, Word};
use std::io;
use std::ops::Range;

/// The columns of the field. A cursor at the end of the text takes one of them.
const WIDTH: usize = 10;
/// How long the text may be, as a column of a database has it.
const MAX_BYTES: usize = 16;
const WORD_LEFT: Movement = Movement::backward_word(Word::Emacs);

struct Field {
    session: Session,
    /// The byte offset of the text where what is shown begins.
    first: usize,
    /// The byte offset of one end of the selection. The cursor is at the other.
    anchor: usize,
}

impl Field {
    /// Does what a key says, if there is something to do. False if there is no such key.
    fn press(&mut self, line: &str) -> Result<bool, Error> {
        let (key, text) = line.split_once(' ').unwrap_or((line, ""));
        if let Some(motion) = key.strip_prefix("select-") {
            return Ok(self.go(motion));
        }
        if key == "undo" || key == "redo" {
            return self.go_over(key);
        }
        let is_known = self.go(key) || self.edit(key, &text.replace("\\n", "\n"))?;
        if is_known {
            self.anchor = self.session.pos();
        }
        Ok(is_known)
    }

    /// Moves the cursor. False if there is no such motion.
    fn go(&mut self, motion: &str) -> bool {
        self.session.move_by(match motion {
            "left" => Movement::backward_char(),
            "right" => Movement::forward_char(),
            "word-left" => WORD_LEFT,
            "word-right" => Movement::forward_word(At::AfterEnd, Word::Emacs),
            "home" => Movement::BeginningOfLine,
            "end" => Movement::EndOfLine,
            _ => return false,
        });
        true
    }

    /// Edits the text, and replaces the selection. False if there is no such edit.
    fn edit(&mut self, key: &str, text: &str) -> Result<bool, Error> {
        let (selected, text) = (self.selected(), self.allowed(text)?);
        let session = &mut self.session;
        match key {
            "type" | "paste" | "backspace" | "delete" if !selected.is_empty() => {
                session.undo_boundary();
                session.replace(selected, &text)?;
            }
            "type" => session.type_bytes(text.as_bytes()).map(drop)?,
            "paste" => session.paste(&text, 1).map(drop)?,
            "backspace" => session.backspace(1).map(drop)?,
            "delete" => session.delete(1).map(drop)?,
            "kill-word" => session.delete_by(WORD_LEFT).map(drop)?,
            "save" => session.mark_saved(),
            _ => return Ok(false),
        }
        Ok(true)
    }

    /// Undoes or redoes, and selects what replaced something else.
    fn go_over(&mut self, key: &str) -> Result<bool, Error> {
        self.session.take_change();
        if key == "undo" {
            self.session.undo(1)?;
        } else {
            self.session.redo()?;
        }
        self.anchor = self.session.pos();
        let change = self.session.take_change();
        if let Some(change) = change.filter(|it| it.old_to > it.from) {
            self.session.set_pos(change.new_to)?;
            self.anchor = change.from;
        }
        Ok(true)
    }

    fn selected(&self) -> Range<usize> {
        let pos = self.session.pos();
        self.anchor.min(pos)..self.anchor.max(pos)
    }

    /// What is inserted of a text: no newline nor other control character, and as many clusters as there is room for.
    fn allowed(&self, text: &str) -> Result<String, Error> {
        let room = MAX_BYTES - (self.session.text().len() - self.selected().len());
        let mut allowed: String = text.chars().filter(|c| !c.is_control()).collect();
        for cluster in clusters(Mode::Unicode, &allowed)? {
            if cluster.to > room {
                allowed.truncate(cluster.from);
                break;
            }
        }
        Ok(allowed)
    }

    /// The columns of the text from one byte offset to another.
    fn columns(&self, from: usize, to: usize) -> usize {
        width(Mode::Unicode, &self.session.text()[from..to])
    }

    /// Scrolls no further than the cursor needs, and back if the rest of the text leaves room.
    fn scroll(&mut self) -> Result<(), Error> {
        let (pos, end) = (self.session.pos(), self.session.text().len());
        let at_cursor = self.session.cluster_at(pos)?;
        let needed = at_cursor.map_or(1, |it| it.columns.max(1));
        let mut first = 0;
        for cluster in clusters(Mode::Unicode, self.session.text())? {
            let may_begin = first >= self.first || self.columns(first, end) < WIDTH;
            if first >= pos || may_begin && self.columns(first, pos) + needed <= WIDTH {
                break;
            }
            first = cluster.to;
        }
        self.first = first;
        Ok(())
    }

    /// The field, the column of the cursor, what is selected, and a star if it is saved.
    fn show(&mut self) -> Result<String, Error> {
        self.scroll()?;
        let text = self.session.text();
        let mut last = self.first;
        for cluster in clusters(Mode::Unicode, &text[self.first..])? {
            if self.columns(self.first, self.first + cluster.to) <= WIDTH {
                last = self.first + cluster.to;
            }
        }
        let rest = " ".repeat(WIDTH - self.columns(self.first, last));
        let column = self.columns(self.first, self.session.pos());
        let selected = &text[self.selected()];
        let shown = format!("[{}{rest}] {column} {selected}", &text[self.first..last]);
        let star = if self.session.is_saved() { "*" } else { "" };
        Ok(format!("{}{star}", shown.trim_end()))
    }
}

/// Answers each key by a line.
fn main() -> Result<(), Box<dyn std::error::Error>> {
    let mut field = Field {
        session: Session::builder().limit(MAX_BYTES).open()?,
        first: 0,
        anchor: 0,
    };
    for line in io::stdin().lines() {
        let line = line?;
        if field.press(&line)? {
            println!("{}", field.show()?);
        } else {
            println!("no such key: {line}");
        }
    }
    Ok(())
}
