//! Asks of each token of a file's Rust where it comes from. It knows nothing of what the eraser did: it has the two texts,
//! and the table of what may take the place of what. It goes through both at once. Each token of the source stands in the
//! Rust or a rule takes it there, and the Rust has no token besides.

use crate::lex::{is_clause, Source};
use crate::pattern::Pattern;
use crate::rules::Rules;
use crate::{errors, requires, Counts, Result};
use std::collections::BTreeMap;
use std::ops::Range;

// A stretch of the source, what it is in the Rust, and by which rule.
struct Step(Range<usize>, Range<usize>, String);

struct Audit<'a> {
    old: Source<'a>,
    new: Source<'a>,
    rules: &'a Rules,
    // Stretches that are to come, of rules whose first words have been seen.
    coming: BTreeMap<usize, Step>,
    // The arms of the `Display` of an error, by the messages that were passed.
    arms: Vec<String>,
    // The pattern of the last `let .. else`.
    pattern: Range<usize>,
    counts: Counts,
}

/// How often each rule was applied from a source to its Rust.
pub fn audit(name: &str, old: &str, new: &str, rules: &Rules) -> Result<Counts> {
    let (old, new) = (Source::new(name, old)?, Source::new(name, new)?);
    let (coming, arms, pattern, counts) = Default::default();
    let mut audit = Audit {
        old,
        new,
        rules,
        coming,
        arms,
        pattern,
        counts,
    };
    audit.comments()?;
    audit.tokens()?;
    audit.lacks_nothing()?;
    for piece in audit.old.tokens.iter().flat_map(|token| &token.gap) {
        let rule = piece.split([' ', '*', '{']).next().unwrap_or("");
        if rule == "ghost" || is_clause(piece) {
            audit.counts.add(rule, [1, 0, 0]);
        }
    }
    Ok(audit.counts)
}

impl<'a> Audit<'a> {
    // Comments are the source's, in their order, but for what is said of assertions and a word at the fence of an example.
    fn comments(&self) -> Result<()> {
        let mut old = self.old.tokens.iter().flat_map(|token| &token.gap);
        for token in &self.new.tokens {
            for text in token.gap.iter().filter(|piece| piece.starts_with('/')) {
                let is_test = text.starts_with("/// If `") && text.ends_with("` is false.");
                let is_new = is_test || ["/// # Panics", "///"].contains(text);
                let fence = text
                    .strip_suffix("text")
                    .filter(|fence| fence.ends_with("```"));
                let is_same = |p: &&str| p == text || fence.map_or(false, |f| p.starts_with(f));
                if !is_new && !old.any(is_same) {
                    let what = format!("the source has none of this comment of the Rust: {text}");
                    return self.new.fault(token.at, what);
                }
            }
        }
        Ok(())
    }

    fn tokens(&mut self) -> Result<()> {
        let (mut i, mut j) = (0, 0);
        while i < self.old.end() || j < self.new.end() {
            let coming = self.coming.remove(&i);
            let times = usize::from(coming.is_none());
            let step = coming.or_else(|| self.row(i, j));
            let step = step.or_else(|| self.construct(i, j));
            match step {
                Some(Step(old, new, rule)) if new.start == j => {
                    self.counts.add(&rule, [times, old.len(), new.len()]);
                    (i, j) = (old.end, new.end);
                }
                None if self.old.word(i) == self.new.word(j) => (i, j) = (i + 1, j + 1),
                step => {
                    let rule = step.map_or("no rule".into(), |step| step.2);
                    let old = words(&self.old, i..i + 6).join(" ");
                    let new = words(&self.new, j..j + 6).join(" ");
                    let what = format!("`{}` became `{}` by {rule}", old.trim(), new.trim());
                    return self.old.fault(self.old.tokens[i].at, what);
                }
            }
        }
        Ok(())
    }

    // A row of the table whose old words stand here in the source, and its new ones here in the Rust.
    fn row(&mut self, i: usize, j: usize) -> Option<Step> {
        let rules = self.rules;
        for (row, found) in rules.at(&self.old, i).filter(|(row, _)| row.is_change()) {
            let made = row.new.at(&self.new, j).unwrap_or_default();
            let old = row.old.stretches(&row.new, &found).into_iter();
            let new = row.new.stretches(&row.old, &made).into_iter();
            let step = |((old, _), (new, _))| Step(old, new, row.rule.clone());
            let mut steps: Vec<Step> = old.zip(new).map(step).collect();
            if made.is_empty() || row.rule == "let else" && !self.binds_names(&steps) {
                continue;
            }
            if row.rule == "let else" {
                self.pattern = steps[0].0.end..steps[1].0.start;
            }
            if row.rule == "derive Error" && row.old.first() == "#" {
                self.arms.push(errors::arm(&self.old, i));
            }
            let rest = steps.drain(1..).map(|step| (step.0.start, step));
            self.coming.extend(rest);
            return steps.pop();
        }
        None
    }

    // Whether the names of a `let .. else` are of its pattern, with each `mut`, and the same where they are given.
    fn binds_names(&self, steps: &[Step]) -> bool {
        let pattern = words(&self.old, steps[0].0.end..steps[1].0.start);
        let names = |step: &Step| words(&self.new, step.1.start + 1..step.1.end - 3);
        let (bound, given) = (names(&steps[0]), names(&steps[2]));
        let mutable = |words: &[&'a str]| -> Vec<&str> {
            let pairs = words.windows(2).filter(|pair| pair[0] == "mut");
            pairs.map(|pair| pair[1]).collect()
        };
        let is_of = |name: &&str| ["(", ")", ","].contains(name) || pattern.contains(name);
        let plain: Vec<&str> = bound
            .iter()
            .copied()
            .filter(|word| *word != "mut")
            .collect();
        plain.iter().all(is_of) && plain == given && mutable(&pattern) == mutable(&bound)
    }

    // Messages are said, and what functions require is asked.
    fn lacks_nothing(&self) -> Result<()> {
        let functions = requires::functions(&self.old).into_iter();
        let asked: usize = functions.map(|one| one.tests().count()).sum();
        let asserted = self.counts.0.get("assertion").map_or(0, |counts| counts[0]);
        let at = self.old.text.len();
        match self.arms.is_empty() && asked == asserted {
            true => Ok(()),
            false => self.old.fault(at, "a message or an assertion is missing"),
        }
    }

    // What no row can say.
    fn construct(&mut self, i: usize, j: usize) -> Option<Step> {
        let (old, new) = (self.old.word(i), self.new.word(j));
        let end = |text: &str| Pattern::new(text).at(&self.new, j)?.pop();
        let (gone, end, rule) = match new {
            "use" if !self.counts.0.contains_key("prelude") => {
                (0, end(&self.rules.prelude)?, "prelude")
            }
            // What the function requires.
            "assert" if self.old.before(i) == "{" => {
                let mut functions = requires::functions(&self.old).into_iter();
                let function = functions.find(|function| function.brace == i - 1)?;
                let asked = |test: &String| end(&format!("assert!({test});"));
                let end = function.tests().find_map(asked);
                (0, end?, "assertion")
            }
            "impl" if !self.arms.is_empty() => {
                let arms = std::mem::take(&mut self.arms);
                let written = errors::written(self.new.word(j + 7), &arms);
                let end = Pattern::new(&written).at(&self.new, j)?.pop()?;
                (0, end, "derive Error")
            }
            _ if old == "mut" && self.pattern.contains(&i) => (1, j, "let else"),
            _ => return None,
        };
        Some(Step(i..i + gone, j..end, rule.into()))
    }
}

fn words<'a>(source: &Source<'a>, range: Range<usize>) -> Vec<&'a str> {
    range.map(|i| source.word(i)).collect()
}
