//! Stops at what stays and is not known to mean the same in Rust.

use crate::eraser::Eraser;
use crate::lex::is_clause;
use crate::rules::words;
use crate::Result;
use std::collections::HashSet;

/// Looks at each token that no rule takes.
pub fn check(eraser: &Eraser) -> Result<()> {
    let (source, paths) = (eraser.source, paths(eraser));
    for (i, token) in source.tokens.iter().enumerate() {
        let has_clause = source.gap(i).iter().any(|piece| is_clause(piece));
        let what = match token.text {
            "{" | ";" => unknown(eraser, i, &paths),
            word if has_clause => Some(format!("a clause before `{word}`")),
            _ => unknown(eraser, i, &paths),
        };
        if let (Some(what), None) = (what, eraser.edit_over(i)) {
            return source.fault(token.at, what);
        }
    }
    Ok(())
}

// The names of a file's modules, and those that it uses: they may begin a path.
fn paths<'a>(eraser: &Eraser<'_, 'a>) -> HashSet<&'a str> {
    let (source, mut paths) = (eraser.source, words("path"));
    for i in (0..source.end()).filter(|i| !eraser.is_gone(*i)) {
        let range = match source.word(i) {
            "mod" => i + 1..i + 2,
            "use" => i + 2..source.first_of(i, &[";"]),
            _ => continue,
        };
        let is_name = |j: &usize| source.word(j + 1) != "::" || source.word(j + 2) == "{";
        paths.extend(range.filter(is_name).map(|j| source.word(j)));
    }
    paths
}

fn unknown(eraser: &Eraser, i: usize, paths: &HashSet<&str>) -> Option<String> {
    let (source, word) = (eraser.source, eraser.source.word(i));
    let (next, third) = (source.word(i + 1), source.word(i + 2));
    let mut rows = eraser.rules.at(source, i);
    if let Some((row, _)) = rows.find(|(row, _)| !row.is_change()) {
        if row.rule == "refuse" {
            return Some(format!("`{word}`: {}", row.why));
        }
        let names = i + 4..source.close(i + 3);
        let mut names = names.filter(|j| third == "derive" && eraser.edit_over(*j).is_none());
        let name = source.word(names.find(|j| !words("derive").contains(source.word(*j)))?);
        return Some(format!("the derive of `{name}` is not known"));
    }
    let is_near = source.gap(i + 1).is_empty();
    let is_name = |first: char| first.is_alphabetic() || first == '_';
    let is_head = third != "<" && !["::", "."].contains(&source.before(i));
    let is_path = is_head && word.starts_with(|c: char| c.is_lowercase());
    match next {
        "[" if word == "#" => Some(format!("the attribute `{third}` is not known")),
        "!" if word == "#" => Some("an attribute of a whole file is not known".into()),
        "!" if is_near && word.starts_with(is_name) => {
            Some(format!("the macro `{word}!` is not known"))
        }
        "::" if is_path && !paths.contains(word) => {
            Some(format!("the path `{word}::{third}` is not known"))
        }
        _ => None,
    }
}
