//! The table of the rules, `rules.txt`, made ready for a crate.

use crate::lex::{is_clause, Source};
use crate::pattern::Pattern;
use crate::tree::Crate;
use std::collections::{HashMap, HashSet};

const TABLE: &str = include_str!("rules.txt");
// What goes with a module M that stays behind.
const LEFT_OUT: &str = "\
module left out: #[cfg(test)] mod M; / pub mod M; / mod M; / use M::$x; / use M::{$X}; ~>
module left out: pub use M::$x; / pub use M::{$X}; / pub use crate::M::{$X}; / use crate::M::{$X}; ~>\n";

/// A rule: what is looked for, and what takes its place; where it holds, or why it is refused.
#[derive(Debug)]
pub struct Row {
    pub rule: String,
    pub why: String,
    pub old: Pattern,
    pub new: Pattern,
}

impl Row {
    /// Whether something takes the place of something by it.
    pub fn is_change(&self) -> bool {
        !["keep", "refuse"].contains(&&*self.rule)
    }
}

/// The rules for a crate, by their first words.
#[derive(Debug)]
pub struct Rules {
    rows: HashMap<String, Vec<Row>>,
    /// How a file uses the stand-in's prelude.
    pub prelude: String,
}

/// A rule, and at which tokens its words stand.
pub type Found<'r> = (&'r Row, Vec<usize>);

/// The lines of the table under a name.
pub fn lines(name: &'static str) -> impl Iterator<Item = &'static str> {
    let of_name = move |line: &'static str| line.strip_prefix(name)?.strip_prefix(": ");
    TABLE.lines().filter_map(of_name)
}

/// The words of the table under a name.
pub fn words(name: &'static str) -> HashSet<&'static str> {
    lines(name).flat_map(|line| line.split(' ')).collect()
}

impl Rules {
    /// The table, the paths to a tree's crates, and what goes with the modules that a crate is without.
    pub fn new(tree: &str, of: &Crate, others: &[Crate]) -> Rules {
        let own = format!("{tree}::{}::", of.name.replace('/', "::"));
        let mut table = format!("path [head]: crate:: ~> {own} / $crate:: ~> ${own}\n");
        let is_here = |line: &&str| line.contains(" [rust]: ") == of.is_rust();
        for line in TABLE.lines().filter(is_here) {
            table += &line.replace("TREE", tree);
            table += "\n";
        }
        if !of.is_rust() {
            let other = |one: &Crate| format!("path [head]: {0}:: ~> {tree}::{0}::\n", one.name);
            table.extend(others.iter().map(other));
            let left_out = |module: &&str| LEFT_OUT.replace('M', module);
            table.extend(of.without.iter().map(left_out));
        }
        let (rows, prelude) = (HashMap::new(), format!("use {tree}::stand_in::prelude::*;"));
        let mut rules = Rules { rows, prelude };
        for line in table.lines().filter(|line| !line.starts_with("//")) {
            let (head, row) = line.split_once(": ").unwrap_or_default();
            let (rule, when) = head.split_once(" [").unwrap_or((head, ""));
            if !["", "derive", "path", "prelude", "test"].contains(&rule) || !when.is_empty() {
                rules.add(rule, when.trim_end_matches(']'), row);
            }
        }
        rules
    }

    fn add(&mut self, rule: &str, when: &str, row: &str) {
        let mut last = "";
        for alternative in row.rsplit(" / ") {
            let (old, new) = alternative.split_once(" ~>").unwrap_or((alternative, last));
            last = new;
            let why = if rule == "refuse" { new } else { when };
            let new = if rule == "refuse" { "" } else { new };
            let (rule, why) = (rule.to_string(), why.trim().to_string());
            let (old, new) = (Pattern::new(old), Pattern::new(new.trim()));
            let rows = self.rows.entry(key(old.first()).into()).or_default();
            rows.push(Row {
                rule,
                why,
                old,
                new,
            });
        }
    }

    /// The rules whose words stand at a token, and hold there.
    pub fn at<'r>(&'r self, source: &'r Source, i: usize) -> impl Iterator<Item = Found<'r>> {
        let rows = self.rows.get(key(source.word(i))).into_iter().flatten();
        let found = rows.filter_map(move |row| Some((row, row.old.at(source, i)?)));
        let follows_clause = move |i| source.gap(i).iter().any(|piece| is_clause(piece));
        found.filter(move |(row, found)| match &*row.why {
            "head" => !["::", "."].contains(&source.before(i)),
            "law" => follows_clause(found[found.len() - 3]),
            "call" => source.word(i + 2).starts_with("lodvarn_"),
            _ => true,
        })
    }
}

// Any label is looked for under the same word.
fn key(word: &str) -> &str {
    match word.starts_with('\'') {
        true => "'",
        false => word,
    }
}
