//! A line editor with a history: shows each line that is entered, in quotes, until there are no more.
use rustyline::{Config, Editor};

fn main() {
    let mut editor = Editor::<()>::with_config(Config::builder().auto_add_history(true).build());
    while let Ok(line) = editor.readline("> ") {
        println!("'{}'", line);
    }
}
