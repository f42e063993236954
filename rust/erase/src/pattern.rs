//! Patterns of tokens, as the table of the rules has them.

use crate::lex::{depth_of, Source};
use std::ops::Range;

/// Tokens to look for: its words, and where they stand in its text.
#[derive(Clone, Debug)]
pub struct Pattern {
    text: String,
    words: Vec<(String, Range<usize>)>,
}

impl Pattern {
    /// The patterns are part of this program, so that a wrong one is a fault of it.
    pub fn new(text: &str) -> Pattern {
        let source = Source::new("a pattern", text).expect("a pattern of tokens");
        let tokens = source.tokens.iter().filter(|t| !t.text.is_empty());
        let words = tokens.map(|t| (t.text.into(), t.at..t.at + t.text.len()));
        let (text, words) = (text.into(), words.collect());
        Pattern { text, words }
    }

    fn word(&self, n: usize) -> &str {
        self.words.get(n).map_or("", |(word, _)| word)
    }

    /// The word that it begins with.
    pub fn first(&self) -> &str {
        self.word(0)
    }

    /// Where it stands from a token on: at which token each word begins, and at last what follows. A run is as short as it
    /// can be.
    pub fn at(&self, source: &Source, from: usize) -> Option<Vec<usize>> {
        // Most fail at the second word: that is seen first, for speed.
        let second = self.word(1);
        if !second.is_empty() && !stands_for(second) && second != source.word(from + 1) {
            return None;
        }
        let mut found = vec![from];
        self.goes_on(source, &mut found).then_some(found)
    }

    fn goes_on(&self, source: &Source, found: &mut Vec<usize>) -> bool {
        let (n, from) = (found.len() - 1, found[found.len() - 1]);
        let (word, here) = (self.word(n), source.word(from));
        let fits = match word {
            "" => return true,
            "'l" => here.starts_with('\'') && !here.ends_with('\''),
            _ if !stands_for(word) => here == word,
            _ if word[1..].starts_with(|c: char| c.is_lowercase()) => {
                !here.is_empty() && depth_of(here) == 0
            }
            _ => return self.runs(source, found),
        };
        fits && self.tries(source, found, from + 1)
    }

    // What fills a bracket may hold statements; else a run ends before them.
    fn runs(&self, source: &Source, found: &mut Vec<usize>) -> bool {
        let (n, from) = (found.len() - 1, found[found.len() - 1]);
        let fills = n > 0 && depth_of(self.word(n - 1)) > 0;
        let mut end = from;
        loop {
            let is_run = end > from || self.word(n).starts_with("$_");
            if is_run && self.tries(source, found, end) {
                return true;
            }
            let here = source.word(end);
            if here.is_empty() || depth_of(here) < 0 || !fills && [";", "{"].contains(&here) {
                return false;
            }
            end = source.close(end) + 1;
        }
    }

    fn tries(&self, source: &Source, found: &mut Vec<usize>, end: usize) -> bool {
        found.push(end);
        let fits = self.goes_on(source, found);
        if !fits {
            found.pop();
        }
        fits
    }

    /// What stands before, between and after the words that another pattern has too: the tokens where it was found, and the
    /// text.
    pub fn stretches(&self, other: &Pattern, found: &[usize]) -> Vec<(Range<usize>, &str)> {
        let (mut stretches, mut start, mut from) = (Vec::new(), 0, 0);
        let at = |n: usize| found.get(n).copied().unwrap_or(0);
        for (n, (word, place)) in self.words.iter().enumerate() {
            if stands_for(word) && other.words.iter().any(|(w, _)| w == word) {
                stretches.push((at(start)..at(n), &self.text[from..place.start]));
                (start, from) = (n + 1, place.end);
            }
        }
        stretches.push((at(start)..at(self.words.len()), &self.text[from..]));
        stretches
    }
}

// Whether a word of a pattern is none to be found as it is.
fn stands_for(word: &str) -> bool {
    word == "'l" || word.starts_with('$') && word.len() > 1 && word != "$crate"
}
