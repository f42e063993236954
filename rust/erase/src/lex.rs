//! The tokens of Rattle, which are Rust's. A clause or a ghost item is none: it stands in the gap before the next token,
//! as spaces and comments do.

use crate::{Fault, Result};
use std::fmt;

/// A token and where it stands, with the spaces, comments, clauses and ghost items before it.
#[derive(Debug)]
pub struct Token<'a> {
    pub text: &'a str,
    pub at: usize,
    pub gap: Vec<&'a str>,
}

/// A file in tokens, with its name and its text. The last token is its end, and has no text.
#[derive(Debug)]
pub struct Source<'a> {
    pub name: &'a str,
    pub text: &'a str,
    pub tokens: Vec<Token<'a>>,
}

const LONG_SIGNS: &str = "..= :: -> => .. == != <= >= && || += -= *= /= %= ^= |= &=";
const SIGNS: &str = "!#$%&()*+,-./:;<=>?@[]^{|}~";

impl<'a> Source<'a> {
    /// Fails at the first text that is none of Rust's tokens.
    pub fn new(name: &'a str, text: &'a str) -> Result<Source<'a>> {
        let (tokens, mut at, mut gap) = (Vec::new(), 0, Vec::new());
        let mut source = Source { name, text, tokens };
        while at < text.len() {
            let rest = &text[at..];
            let in_gap = gap_len(rest);
            let is_token = in_gap == Some(0);
            let len = if is_token { token_len(rest) } else { in_gap };
            let text = match len {
                Some(len) => &rest[..len],
                None => {
                    let word = rest.split_whitespace().next().unwrap_or("");
                    return source.fault(at, format!("`{word}` begins none of Rust's tokens"));
                }
            };
            if is_token {
                let gap = std::mem::take(&mut gap);
                source.tokens.push(Token { text, at, gap });
            } else {
                gap.push(text);
            }
            at += text.len();
        }
        let text = "";
        source.tokens.push(Token { text, at, gap });
        Ok(source)
    }

    /// A fault at a place of the text.
    pub fn fault<T>(&self, at: usize, what: impl fmt::Display) -> Result<T> {
        let line = 1 + self.text[..at].matches('\n').count();
        Err(Fault(format!("{}:{line}: {what}", self.name)))
    }

    /// How many tokens there are before the end.
    pub fn end(&self) -> usize {
        self.tokens.len() - 1
    }

    /// The text of a token, empty past the end.
    pub fn word(&self, i: usize) -> &'a str {
        self.tokens.get(i).map_or("", |t| t.text)
    }

    /// What stands before a token, nothing past the end.
    pub fn gap(&self, i: usize) -> &[&'a str] {
        self.tokens.get(i).map_or(&[], |t| &t.gap)
    }

    /// The text of the token before.
    pub fn before(&self, i: usize) -> &'a str {
        i.checked_sub(1).map_or("", |n| self.word(n))
    }

    /// The bracket that closes the one at `i`, or the end.
    pub fn close(&self, i: usize) -> usize {
        let (mut depth, mut j) = (depth_of(self.word(i)), i);
        while depth > 0 && j < self.end() {
            j += 1;
            depth += depth_of(self.word(j));
        }
        j
    }

    /// The first of some signs from `i` on that stands in no bracket, or where a bracket around them closes.
    pub fn first_of(&self, i: usize, signs: &[&str]) -> usize {
        let mut j = i;
        while j < self.end() && !signs.contains(&self.word(j)) && depth_of(self.word(j)) >= 0 {
            j = self.close(j) + 1;
        }
        j
    }
}

/// 1 for a bracket that opens, -1 for one that closes, 0 for all else.
pub fn depth_of(sign: &str) -> i32 {
    match sign {
        "(" | "[" | "{" => 1,
        ")" | "]" | "}" => -1,
        _ => 0,
    }
}

/// Whether a piece of a gap is a `requires` or an `ensures`.
pub fn is_clause(piece: &str) -> bool {
    piece.starts_with("requires") || piece.starts_with("ensures")
}

fn word_len(s: &str) -> usize {
    let ends = |c: char| !c.is_ascii_alphanumeric() && c != '_';
    s.find(ends).unwrap_or(s.len())
}

// The length of a space, a comment, a clause or a ghost item, 0 if none begins here, and none if it is in no known form.
fn gap_len(rest: &str) -> Option<usize> {
    match &rest[..word_len(rest)] {
        "" if rest.starts_with("/*") => None,
        "" if rest.starts_with("//") => rest.find('\n').or(Some(rest.len())),
        "" => Some(rest.len() - rest.trim_start_matches([' ', '\t', '\r', '\n']).len()),
        "requires" | "ensures" => {
            let open = rest.find('{')?;
            let is_plain = !rest[..open].contains([';', '}', '(', ',', '.']);
            let len = antt_len(&rest[open..], "").filter(|_| is_plain)?;
            Some(open + len)
        }
        "ghost" => antt_len(rest, ";,").filter(|_| !rest.starts_with("ghost fn")),
        _ => Some(0),
    }
}

// antt up to one of some ends, or as long as its braces are. Of it only braces and texts are read.
fn antt_len(rest: &str, ends: &str) -> Option<usize> {
    let (mut depth, mut in_text) = (0, false);
    for (i, c) in rest.char_indices() {
        match c {
            '"' => in_text = !in_text,
            '{' if !in_text => depth += 1,
            '}' if !in_text && depth == 0 => return Some(i),
            '}' if !in_text => depth -= 1,
            _ => {}
        }
        if depth == 0 && !in_text && (ends.is_empty() || ends.contains(c)) {
            return Some(i + 1);
        }
    }
    None
}

// The length of a token; none if the text begins none. A number may be several, which changes nothing.
fn token_len(rest: &str) -> Option<usize> {
    let prefix = rest.find(|c| !"br".contains(c)).unwrap_or(0);
    let raw = rest[..prefix].contains('r');
    let hashes = rest[prefix..].find(|c| c != '#').unwrap_or(0);
    let inside = prefix + hashes + 1;
    if rest[inside - 1..].starts_with('"') && raw {
        let end = format!("\"{}", "#".repeat(hashes));
        return rest[inside..].find(&end).map(|n| inside + n + end.len());
    }
    if rest[inside - 1..].starts_with('"') && hashes == 0 {
        return quoted_len(&rest[inside..], '"').map(|n| inside + n);
    }
    if rest.starts_with('\'') || rest.starts_with("b'") {
        return char_len(rest);
    }
    let dollar = usize::from(rest.starts_with('$'));
    let word = dollar + word_len(&rest[dollar..]);
    if word > dollar {
        // No raw names, and no texts for C.
        let odd = ["c\"", "cr\"", "cr#", "r#"];
        let is_odd = odd.iter().any(|odd| rest.starts_with(odd));
        return Some(word).filter(|_| !is_odd);
    }
    let sign = LONG_SIGNS.split(' ').find(|sign| rest.starts_with(sign));
    let one = rest.starts_with(|c| SIGNS.contains(c)).then_some(1);
    sign.map(str::len).or(one)
}

// The length of what stands in quotes, with the one that closes.
fn quoted_len(inside: &str, quote: char) -> Option<usize> {
    let mut escaped = false;
    let ends = |c| {
        let is_end = c == quote && !escaped;
        escaped = c == '\\' && !escaped;
        is_end
    };
    inside.find(ends).map(|n| n + 1)
}

// A character, or a lifetime.
fn char_len(rest: &str) -> Option<usize> {
    let quote = rest.find('\'')? + 1;
    let inside = &rest[quote..];
    let len = match inside.starts_with('\\') || inside.chars().nth(1) == Some('\'') {
        true => quoted_len(inside, '\'')?,
        false => Some(word_len(inside)).filter(|len| *len > 0)?,
    };
    Some(quote + len)
}
