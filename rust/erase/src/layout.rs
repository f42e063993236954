//! Writes the edited tokens: comments and layout stay, with at most one blank line where something went.

use crate::eraser::Eraser;
use crate::lex::is_clause;

// Rules that take whole items, with the comments right above them.
const ITEMS: [&str; 4] = ["law", "model", "module left out", "owned"];

/// The text of a file, with a line for what it uses of the stand-in after its head.
pub fn write(eraser: &Eraser, prelude: &str) -> String {
    let mut writer = Writer {
        prelude: prelude.into(),
        ..Writer::default()
    };
    let (mut i, end) = (0, eraser.source.end());
    while i <= end {
        writer.take_gap(eraser, i);
        let edit = eraser.edits.get(&i);
        match edit.map_or(eraser.source.word(i), |edit| &edit.text) {
            "" if i < end => writer.cut(eraser, i),
            text => writer.put(eraser, i, text),
        }
        i = edit.map_or(i + 1, |edit| edit.end);
    }
    format!("{}\n", writer.out.trim())
}

#[derive(Default)]
struct Writer {
    out: String,
    // What stands before the next token: spaces and comments, never two spaces in a row.
    gap: Vec<String>,
    in_code: bool,
    prelude: String,
}

impl Writer {
    fn take_gap(&mut self, eraser: &Eraser, i: usize) {
        let pieces = &eraser.source.tokens[i].gap;
        if pieces.iter().any(|piece| is_clause(piece)) {
            self.gap.clear();
            match (eraser.source.word(i), eraser.source.before(i)) {
                (";", _) => {}
                (_, ",") => self.push(&format!("\n{}", eraser.indent(i))),
                _ => self.push(" "),
            }
            return;
        }
        for piece in pieces {
            if !piece.starts_with("ghost") {
                self.push(piece);
            } else if !piece.starts_with("ghost use") {
                self.drop_comments();
            }
        }
    }

    // Two spaces between which something went become one, with at most one blank line.
    fn push(&mut self, piece: &str) {
        match self.gap.last_mut() {
            Some(last) if !piece.starts_with('/') && !last.starts_with('/') => {
                let lines = |space: &str| space.matches('\n').count();
                let most = lines(last).max(lines(piece)).min(2);
                let tail: &str = if lines(piece) > 0 { piece } else { last };
                let indent = tail.rsplit('\n').next().unwrap_or("");
                *last = format!("{}{indent}", "\n".repeat(most));
            }
            _ => self.gap.push(piece.into()),
        }
    }

    // Takes back the comments that stand right above.
    fn drop_comments(&mut self) {
        while let [.., comment, space] = self.gap.as_slice() {
            let is_above = comment.starts_with('/') && space.matches('\n').count() == 1;
            if !is_above || comment.starts_with("//!") {
                break;
            }
            self.gap.truncate(self.gap.len() - 2);
        }
    }

    fn cut(&mut self, eraser: &Eraser, i: usize) {
        // Attributes that went before an item leave its comments to it.
        let (mut edit, mut is_item) = (eraser.edits.get(&i), false);
        while let Some(one) = edit.filter(|edit| edit.text.is_empty()) {
            is_item |= ITEMS.contains(&&*one.rule);
            edit = eraser.edits.get(&one.end);
        }
        if is_item {
            self.drop_comments();
        }
        let is_line = |piece: &String| piece.starts_with('/') || piece.contains('\n');
        if !self.gap.iter().any(is_line) {
            self.gap.clear();
        }
    }

    fn put(&mut self, eraser: &Eraser, i: usize, text: &str) {
        // What is used of the stand-in stands after the head: its `//!`, or a comment with a blank line after it.
        let blank = self.gap.iter().position(|piece| piece.contains("\n\n"));
        let inner = self.gap.iter().rposition(|piece| piece.starts_with("//!"));
        let head = blank.filter(|n| *n > 0).or(inner.map(|n| n + 1));
        let line = std::mem::take(&mut self.prelude);
        match head.filter(|_| !line.is_empty()) {
            Some(n) => self.gap.insert(n, format!("\n\n{line}")),
            None if line.is_empty() => {}
            None => self.gap.insert(0, format!("{line}\n\n")),
        }
        let is_space = self.gap.iter().all(|piece| !piece.starts_with('/'));
        let mut gap = String::new();
        for piece in std::mem::take(&mut self.gap) {
            gap += &piece;
            if piece.starts_with('/') && piece.contains(" ```") {
                self.in_code = !self.in_code;
                if self.in_code {
                    gap.truncate(gap.len() - piece.len() + piece.find("```").unwrap_or(0));
                    gap += "```text";
                }
            }
        }
        if is_space && text.starts_with(' ') {
            gap.clear();
        } else if is_space && text.starts_with('{') && eraser.edits.contains_key(&i) {
            gap = " ".into();
        }
        if gap.starts_with([' ', '\n']) || text.starts_with(' ') {
            self.out.truncate(self.out.trim_end_matches(' ').len());
        }
        self.out += &gap;
        self.out += eraser.docs.get(&i).map_or("", |docs| docs);
        self.out += text;
    }
}
