//! Texts in the other case, by the kit's tables: the modules below are the kit's own.

mod case_tables;
mod cases;
mod tables;

use crate::alloc::{AllocError, Global};
use crate::string::String;
use case_tables::{cased, ignorable, lower, upper};
use cases::CaseChanged;

impl ExactSizeIterator for CaseChanged {
    fn len(&self) -> usize {
        let letters = [self.first, self.second, self.third];
        letters.iter().flatten().count()
    }
}

pub(crate) fn uppercase(text: &str, alloc: Global) -> Result<String, AllocError> {
    changed(text, alloc, char::to_ascii_uppercase, |_, c| upper(c))
}

pub(crate) fn lowercase(text: &str, alloc: Global) -> Result<String, AllocError> {
    changed(text, alloc, char::to_ascii_lowercase, |at, c| match c {
        // A sigma has a form of its own at the end of a word, which is in lower case.
        'Σ' if ends_word(&text[..at], &text[at + c.len_utf8()..]) => lower('ς'),
        _ => lower(c),
    })
}

fn changed(
    text: &str,
    alloc: Global,
    of_ascii: impl Fn(&char) -> char,
    of: impl Fn(usize, char) -> CaseChanged,
) -> Result<String, AllocError> {
    let mut made = String::with_capacity(alloc, text.len())?;
    for (at, c) in text.char_indices() {
        if c.is_ascii() {
            made.push(of_ascii(&c))?;
        } else {
            for c in of(at, c) {
                made.push(c)?;
            }
        }
    }
    Ok(made)
}

fn ends_word(before: &str, after: &str) -> bool {
    is_cased(before.chars().rev()) && !is_cased(after.chars())
}

// Whether the first letter that a sigma does not look past is in a case.
fn is_cased(mut letters: impl Iterator<Item = char>) -> bool {
    letters.find(|c| !ignorable(*c)).map_or(false, cased)
}
