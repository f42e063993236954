//! What functions require of their callers, and how Rust can ask it.

use crate::lex::Source;
use crate::rules::lines;

/// A function that requires something.
#[derive(Clone, Debug)]
pub struct Function {
    pub name: String,
    pub is_public: bool,
    /// The tokens at which its docs stand and its body begins.
    pub first: usize,
    pub brace: usize,
    /// What it requires, each with a test that asks the same, if one is known.
    pub clauses: Vec<(String, Option<String>)>,
}

impl Function {
    /// The tests that are known of what it requires.
    pub fn tests(&self) -> impl Iterator<Item = &String> {
        self.clauses.iter().filter_map(|(_, test)| test.as_ref())
    }
}

/// The functions of a file that have a body and require something, if they are public or have `unsafe` in them.
pub fn functions(source: &Source) -> Vec<Function> {
    let is_fn = |i: &usize| source.word(*i) == "fn" && source.word(*i + 1) != "(";
    let all = (0..source.end()).filter(is_fn).map(|i| function(source, i));
    let is_unsafe =
        |f: &Function| (f.brace..source.close(f.brace)).any(|i| source.word(i) == "unsafe");
    let is_asked = |f: &Function| !f.clauses.is_empty() && (f.is_public || is_unsafe(f));
    let has_body = |f: &Function| source.word(f.brace) == "{";
    all.filter(has_body).filter(is_asked).collect()
}

fn function(source: &Source, at: usize) -> Function {
    let (name, brace) = (source.word(at + 1).into(), source.first_of(at, &["{", ";"]));
    let pieces = (at + 1..=brace).flat_map(|i| source.gap(i));
    let clauses = pieces.filter_map(|piece| clause(piece)).collect();
    let mut first = at;
    while ["const", "unsafe", "final"].contains(&source.before(first)) {
        first -= 1;
    }
    let is_public = source.before(first) == "pub";
    first -= usize::from(is_public);
    while source.before(first) == "]" {
        let opens = |i: &usize| source.word(*i) == "#" && source.close(*i + 1) == first - 1;
        first = (0..first).rev().find(opens).unwrap_or(0);
    }
    Function {
        name,
        is_public,
        first,
        brace,
        clauses,
    }
}

fn clause(piece: &str) -> Option<(String, Option<String>)> {
    let body = piece.strip_prefix("requires")?.split_once('{')?.1;
    let words: Vec<&str> = body.strip_suffix('}')?.split_whitespace().collect();
    let test = lines("test").find_map(|row| filled(row, &words));
    Some((words.join(" "), test))
}

// The test, with what the clause has at each `$`.
fn filled(row: &str, words: &[&str]) -> Option<String> {
    let (clause, test) = row.split_once(" ~> ")?;
    let mut test = test.to_string();
    if clause.split(' ').count() != words.len() {
        return None;
    }
    for (wanted, word) in clause.split(' ').zip(words) {
        if let Some(tail) = wanted.strip_prefix('$') {
            let path = word.strip_suffix(tail)?;
            let is_odd = |c: char| !c.is_ascii_alphanumeric() && !"_.".contains(c);
            if path.contains(is_odd) || path.contains(".old") || path.contains(".now") {
                return None;
            }
            test = test.replacen('$', path, 1);
        } else if wanted != *word {
            return None;
        }
    }
    Some(test)
}
