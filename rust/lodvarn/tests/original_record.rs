//! The record and the kill ring of rustyline's own files, with answers that were worked out by hand.
use heard::{line_of, panic_of, shown};
use lodvarn::keymap::{Movement, Word};
use lodvarn::kill_ring::{KillRing, Mode};
use lodvarn::line_buffer::{DeleteListener, Direction, NoListener, Pair};
use lodvarn::undo::Changeset;
use lodvarn::Error;

#[allow(dead_code)]
mod heard;

#[test]
fn changes_are_undone() {
    let (mut line, mut changes) = (line_of("|"), Changeset::new());
    for c in "one-".chars() {
        line.insert(c, 1, &mut changes);
    }
    assert_eq!(changes.last_insert().as_deref(), Some("-"));
    assert_eq!((changes.len(), changes.begin()), (2, 2));
    line.yank("two three", 1, &mut changes);
    line.transpose_words(1, &mut changes);
    assert_eq!(
        (shown(&line).as_str(), changes.level()),
        ("one-three two|", 1)
    );
    assert!(changes.end() && !changes.end());
    assert_eq!(changes.last_insert().as_deref(), Some("three"));
    assert!(!changes.undo(&mut line, 0) && changes.undo(&mut line, 1));
    assert_eq!(shown(&line), "one-|");
    assert!(changes.redo_fits(&line) && changes.redo(&mut line) && !changes.redo(&mut line));
    assert_eq!(shown(&line), "one-three two|");
    assert!(changes.undo(&mut line, 2) && changes.can_undo());
    assert_eq!(line.as_str(), "one");
    assert!(changes.undo(&mut line, 9) && !changes.can_undo() && !changes.undo(&mut line, 1));
    assert!(line.is_empty() && changes.is_empty());
    changes.begin();
    assert!(!changes.can_undo() && !changes.redo(&mut line));
}

#[test]
fn groups_are_closed_and_cut_off() {
    let mut line = line_of("ab|");
    let mut changes = Changeset::new();
    assert_eq!((changes.begin(), changes.begin()), (0, 1));
    assert!(!changes.end_one());
    assert_eq!(changes.level(), 1);
    assert!(!changes.end_one() && changes.is_empty());
    line.backspace(1, &mut changes);
    line.backspace(1, &mut changes);
    line.replace(0..0, "x", &mut changes);
    assert_eq!(changes.len(), 2);
    assert!(changes.undo_fits(&line) && !changes.replays_to(1, &line));
    assert!(changes.replays_to(2, &line));
    changes.insert_str(1, "y");
    assert!(!changes.undo_fits(&line));
    changes.truncate(2);
    assert!(changes.undo(&mut line, 2));
    assert_eq!(line.as_str(), "ab");
    changes.truncate(0);
    assert!(!changes.redo(&mut line));
    changes.replace(0, "b", "ab");
    assert!(changes.undo(&mut line, 1));
    assert_eq!(line.as_str(), "b");
}

#[test]
fn a_record_of_another_line_is_refused() {
    let (mut line, mut changes) = (line_of("|"), Changeset::default());
    line.yank("abc", 1, &mut changes);
    let mut other = line_of("xyz|");
    assert!(!changes.undo_fits(&other));
    assert_eq!(changes.try_undo(&mut other, 1), Err(Error::NotReplaying));
    let said = panic_of(|| changes.undo(&mut other, 1));
    assert_eq!(said, "the entries of the record do not lead to the text");
    assert_eq!((shown(&other).as_str(), changes.len()), ("xyz|", 1));
    assert!(changes.undo(&mut line, 1));
    assert_eq!(changes.try_redo(&mut other), Ok(true));
    assert_eq!(other.as_str(), "abcxyz");
    let (mut line, mut changes) = (line_of("xyz|"), Changeset::new());
    line.yank("?", 1, &mut changes);
    assert!(changes.undo(&mut line, 1));
    line.update("x", 1, &mut NoListener);
    assert!(!changes.redo_fits(&line));
    assert_eq!(changes.try_redo(&mut line), Err(Error::NotReplaying));
    let said = panic_of(|| changes.redo(&mut line));
    assert_eq!(said, "the entries of the record do not lead to the text");
    changes.delete(9, "x");
    assert_eq!(changes.try_undo(&mut line, 1), Err(Error::NotReplaying));
    assert_eq!((shown(&line).as_str(), changes.len()), ("x|", 1));
}

#[test]
fn a_recorded_cursor_may_refuse_an_undo() {
    let (mut line, mut changes) = (line_of("ab|"), Changeset::new());
    line.replace(0..1, "", &mut changes);
    line.delete_range(0..1, &mut NoListener);
    assert!(!changes.undo_fits(&line));
    assert_eq!(changes.try_undo(&mut line, 1), Err(Error::NotReplaying));
    let (mut line, mut changes) = (line_of("éa|"), Changeset::new());
    changes.insert_str(2, "a");
    changes.cursors(1, 1);
    assert_eq!(changes.try_undo(&mut line, 1), Err(Error::NotReplaying));
    assert_eq!(shown(&line), "éa|");
    changes.delete(0, "x");
    changes.cursors(0, 3);
    assert!(changes.undo(&mut line, 1));
    assert_eq!(shown(&line), "|xéa");
    assert_eq!(changes.try_redo(&mut line), Ok(true));
    assert_eq!(shown(&line), "éa|");
}

#[test]
fn kills_are_yanked() {
    let mut line = line_of("one two three|");
    let mut pair = Pair {
        all: &mut Changeset::new(),
        deletions: &mut KillRing::new(2),
    };
    let word = Movement::BackwardWord(1, Word::Emacs);
    assert!(line.kill(&word, &mut pair) && line.kill(&word, &mut pair));
    pair.deletions.reset();
    assert!(line.backspace(1, &mut pair) && line.kill(&word, &mut pair));
    assert_eq!((line.as_str(), pair.deletions.len()), ("", 2));
    let text = pair.deletions.yank().cloned().expect("a text was killed");
    assert_eq!(line.yank(&text, 1, &mut pair), Some(true));
    let (size, older) = pair.deletions.yank_pop().expect("a text was yanked");
    assert_eq!((size, older.as_str()), (3, "two three"));
    let older = older.clone();
    assert_eq!(line.yank_pop(size, &older, &mut pair), Some(true));
    assert_eq!(pair.deletions.yank_pop(), Some((9, &text)));
    assert_eq!(
        [1, 2].map(|back| pair.deletions.text_back(back)),
        [Some("two three"), None]
    );
    assert!(pair.all.undo(&mut line, 99));
    assert_eq!(shown(&line), "one two three|");
    for (text, mode) in [
        ("four", Mode::Append),
        ("3", Mode::Prepend),
        ("5", Mode::Append),
    ] {
        pair.deletions.kill(text, mode);
    }
    assert_eq!(format!("{:?}", pair.deletions), "[\"3four5\", \"one\"]");
    let mut none = KillRing::new(0);
    none.kill("one", Mode::Append);
    assert!(none.is_empty() && none.yank().is_none() && none.yank_pop().is_none());
}

#[test]
fn a_reset_parts_kills() {
    let mut ring = KillRing::new(3);
    for text in ["a", "b"] {
        ring.kill(text, Mode::Append);
        ring.reset();
    }
    assert_eq!(ring.yank().map(String::as_str), Some("b"));
    ring.reset();
    assert_eq!(ring.yank_pop(), None);
    ring.start_killing();
    ring.delete(0, "c", Direction::Forward);
    ring.delete(0, "d", Direction::Backward);
    ring.stop_killing();
    ring.delete(0, "e", Direction::Forward);
    assert_eq!(format!("{ring:?}"), "[\"dc\", \"b\", \"a\"]");
}
