//! What is written for an error: `Display` by the messages of `#[error(..)]`, and `Error`.

use crate::lex::Source;

const WRITTEN: &str = "impl core::fmt::Display for $name {
    fn fmt(&self, f: &mut core::fmt::Formatter<'_>) -> core::fmt::Result {
        match self {
            $ARMS
        }
    }
}

#[cfg(feature = \"std\")]
impl std::error::Error for $name {}";

/// What is written for a type, with the arms for its messages.
pub fn written(name: &str, arms: &[String]) -> String {
    let text = WRITTEN.replace("$ARMS", &arms.join("\n            "));
    text.replace("$name", name)
}

/// The arm for the message that begins at `i`, as `#[error("..")] Variant`.
pub fn arm(source: &Source, i: usize) -> String {
    let is_name = |word: &str| !["pub", "(", "crate", ")", "struct"].contains(&word);
    let at = (i + 7..source.end()).find(|n| is_name(source.word(*n)));
    let at = at.unwrap_or(i);
    let path = match source.before(at) {
        "struct" => "$name".into(),
        _ => format!("$name::{}", source.word(at)),
    };
    let fields = match source.word(at + 1) {
        "(" => "(a0)".into(),
        "{" => format!(" {{ {} }}", source.word(at + 2)),
        _ => String::new(),
    };
    let text = source.word(i + 4).replace("{0", "{a0");
    format!("{path}{fields} => write!(f, {text}),")
}
