//! Makes Rust of a file: gathers what changes as edits of its tokens; all else stays as it stands.

use crate::lex::Source;
use crate::rules::{words, Row, Rules};
use crate::{errors, known, layout, requires, Result};
use std::collections::BTreeMap;
use std::ops::Range;

/// Tokens that go, and the text that takes their place.
#[derive(Debug)]
pub struct Edit {
    pub end: usize,
    pub text: String,
    pub rule: String,
}

/// What is known of a file as it is erased.
#[derive(Debug)]
pub struct Eraser<'s, 'a> {
    pub source: &'s Source<'a>,
    pub rules: &'s Rules,
    pub edits: BTreeMap<usize, Edit>,
    /// Lines for the docs before a token.
    pub docs: BTreeMap<usize, String>,
}

/// The Rust of a file. What is Rust already has only its paths changed.
pub fn erase(source: &Source, rules: &Rules, is_rust: bool) -> Result<String> {
    let (edits, docs) = Default::default();
    let mut eraser = Eraser {
        source,
        rules,
        edits,
        docs,
    };
    eraser.rows()?;
    if is_rust {
        return Ok(layout::write(&eraser, ""));
    }
    eraser.checks()?;
    known::check(&eraser)?;
    let names = words("prelude");
    let is_used = |i| names.contains(source.word(i)) && !eraser.is_gone(i);
    let prelude = (0..source.end()).any(is_used).then_some(&*rules.prelude);
    Ok(layout::write(&eraser, prelude.unwrap_or("")))
}

impl<'s, 'a> Eraser<'s, 'a> {
    /// The edit that a token falls under.
    pub fn edit_over(&self, i: usize) -> Option<&Edit> {
        let (_, edit) = self.edits.range(..=i).next_back()?;
        Some(edit).filter(|edit| edit.end > i)
    }

    /// Whether nothing takes the place of a token.
    pub fn is_gone(&self, i: usize) -> bool {
        self.edit_over(i).map_or(false, |edit| edit.text.is_empty())
    }

    fn edit(&mut self, range: Range<usize>, text: String, rule: &str) -> Result<()> {
        let (start, end, rule) = (range.start, range.end, rule.to_string());
        if let Some(other) = range.into_iter().find_map(|i| self.edit_over(i)) {
            let what = format!("two rules for the same words: {} and {rule}", other.rule);
            return self.source.fault(self.source.tokens[start].at, what);
        }
        self.edits.insert(start, Edit { end, text, rule });
        Ok(())
    }

    fn rows(&mut self) -> Result<()> {
        let rules = self.rules;
        for i in 0..self.source.end() {
            let mut found = rules.at(self.source, i).filter(|(row, _)| row.is_change());
            if let (None, Some((row, found))) = (self.edit_over(i), found.next()) {
                self.row(row, &found)?;
            }
        }
        Ok(())
    }

    fn row(&mut self, row: &Row, found: &[usize]) -> Result<()> {
        let old = row.old.stretches(&row.new, found);
        let mut names = [String::new(), String::new()];
        if row.rule == "let else" {
            let pattern = old[0].0.end..old[1].0.start;
            names = self.names_of(pattern.clone());
            let source = self.source;
            for i in pattern.filter(|i| source.word(*i) == "mut") {
                self.edit(i..i + 2, source.word(i + 1).into(), &row.rule)?;
            }
        }
        for ((range, old), (_, new)) in old.into_iter().zip(row.new.stretches(&row.old, &[])) {
            if old.trim() != new.trim() {
                let is_first = range.start == found[0];
                let text = new.replace("$N", &names[usize::from(!is_first)]);
                self.edit(range, text, &row.rule)?;
            }
        }
        if row.rule == "derive Error" && row.old.first() == "," {
            self.write_error(found[0])?;
        }
        Ok(())
    }

    // The names that a pattern binds, with `mut` and without.
    fn names_of(&self, pattern: Range<usize>) -> [String; 2] {
        let (mut with_mut, mut plain) = (Vec::new(), Vec::new());
        for i in pattern {
            let (word, next) = (self.source.word(i), self.source.word(i + 1));
            let is_word = word.starts_with(|c: char| c.is_lowercase()) && word != "mut";
            if is_word && !["(", "{", "::"].contains(&next) {
                let is_mut = self.source.before(i) == "mut";
                with_mut.push(["", "mut "][usize::from(is_mut)].to_string() + word);
                plain.push(word.to_string());
            }
        }
        [with_mut, plain].map(|names| match names.len() {
            1 => names.concat(),
            _ => format!("({})", names.join(", ")),
        })
    }

    // What is written for an error goes after the item that derives it at `i`.
    fn write_error(&mut self, i: usize) -> Result<()> {
        let source = self.source;
        let is_item = |j: &usize| ["enum", "struct"].contains(&source.word(*j));
        let item = (i..source.end()).find(is_item).unwrap_or(i);
        let last = source.close(source.first_of(item, &["{", ";"]));
        let says = |j: &usize| source.word(*j) == "#" && source.word(j + 2) == "error";
        let messages = (i..last).filter(says);
        let arms: Vec<String> = messages.map(|j| errors::arm(source, j)).collect();
        let written = errors::written(source.word(item + 1), &arms);
        let text = format!("{}\n\n{written}", source.word(last));
        self.edit(last..last + 1, text, "derive Error")
    }

    // The `requires` of public functions and of those with `unsafe` become assertions, where a test is known.
    fn checks(&mut self) -> Result<()> {
        for function in requires::functions(self.source) {
            let (mut asserts, mut lines) = (String::new(), String::new());
            let (indent, brace) = (self.indent(function.first), function.brace);
            for test in function.tests() {
                asserts += &format!("\n{indent}    assert!({test});");
                lines += &format!("/// If `{test}` is false.\n{indent}");
            }
            if !asserts.is_empty() {
                self.edit(brace..brace + 1, format!("{{{asserts}"), "assertion")?;
            }
            if !asserts.is_empty() && function.is_public {
                let docs = format!("///\n{indent}/// # Panics\n{indent}///\n{indent}{lines}");
                self.docs.insert(function.first, docs);
            }
        }
        Ok(())
    }

    /// The spaces at the head of a token's line.
    pub fn indent(&self, i: usize) -> String {
        let before = &self.source.text[..self.source.tokens[i].at];
        let line = before.rsplit('\n').next().unwrap_or("");
        line.chars().take_while(|c| *c == ' ').collect()
    }
}
