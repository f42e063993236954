//! Makes plain Rust of the proved sources, by erasing what is for proofs.
//!
//! The rules stand in a table, `rules.txt`. What none of them knows stops the eraser with its file and line. An audit asks
//! of each token of what was made where it comes from.

mod audit;
mod eraser;
mod errors;
mod known;
mod layout;
mod lex;
mod pack;
mod pattern;
mod requires;
mod rules;
mod tree;

pub use audit::audit;
pub use eraser::erase;
pub use lex::Source;
pub use pack::{pack, replaced, resolved};
pub use requires::functions;
pub use rules::Rules;
pub use tree::{build, for_c, kit, libraries, programs, write_tree, Crate};

use std::collections::BTreeMap;
use std::fmt;
use std::path::Path;

/// Why nothing was made, after the file and the line.
#[derive(Clone, Debug, PartialEq, Eq)]
pub struct Fault(pub String);

/// What is made, or why it is not.
pub type Result<T> = std::result::Result<T, Fault>;

impl Fault {
    /// The fault of a file as a whole.
    pub fn of(path: &Path, what: impl fmt::Display) -> Fault {
        Fault(format!("{}: {what}", path.display()))
    }
}

impl fmt::Display for Fault {
    fn fmt(&self, f: &mut fmt::Formatter<'_>) -> fmt::Result {
        f.write_str(&self.0)
    }
}

impl std::error::Error for Fault {}

/// How often each rule was applied, and how many tokens went and came by it.
#[derive(Clone, Debug, Default, PartialEq, Eq)]
pub struct Counts(pub BTreeMap<String, [usize; 3]>);

impl Counts {
    /// Adds what was counted of a rule.
    pub fn add(&mut self, rule: &str, counts: [usize; 3]) {
        let of_rule = self.0.entry(rule.into()).or_default();
        for (sum, n) in of_rule.iter_mut().zip(counts) {
            *sum += n;
        }
    }

    /// Adds what was counted elsewhere.
    pub fn join(&mut self, other: Counts) {
        for (rule, counts) in &other.0 {
            self.add(rule, *counts);
        }
    }
}

impl fmt::Display for Counts {
    fn fmt(&self, f: &mut fmt::Formatter<'_>) -> fmt::Result {
        writeln!(f, " times   gone    new  rule")?;
        for (rule, [times, gone, new]) in &self.0 {
            writeln!(f, "{times:>6} {gone:>6} {new:>6}  {rule}")?;
        }
        Ok(())
    }
}
