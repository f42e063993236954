//! What is left of lines, records and rings where memory is refused: each request of a call in turn.
// On Windows a thread-local takes memory itself, so an allocator can't count by one.
#![cfg(not(windows))]
#![deny(unsafe_op_in_unsafe_fn)]

use lodvarn::keymap::{Movement, Word};
use lodvarn::kill_ring::{KillRing, Mode};
use lodvarn::line_buffer::{Direction, LineBuffer, NoListener, Pair, WordAction};
use lodvarn::undo::Changeset;
use refusing::{error_of, largest_of, refuse, with_refused};

mod refusing;

const WORD_BACK: Movement = Movement::BackwardWord(1, Word::Emacs);

type All = (LineBuffer, Changeset, KillRing);

/// A line of a long text, its record and its ring.
fn line() -> All {
    let mut line = LineBuffer::with_capacity(64).can_growth(true);
    let (mut changes, mut ring) = (Changeset::new(), KillRing::new(9));
    line.yank(&"one two three ".repeat(20), 1, &mut changes);
    let mut both = Pair {
        all: &mut changes,
        deletions: &mut ring,
    };
    line.kill(&WORD_BACK, &mut both);
    line.yank("two", 1, &mut both);
    ring.yank();
    ring.kill(&"kept ".repeat(90), Mode::Append);
    (line, changes, ring)
}

#[test]
fn edits_say_that_memory_is_refused() {
    let text = &*"four ".repeat(400);
    // Whatever was refused, the record is one of the line, which was empty at first.
    let fits = |it: &mut All| {
        assert!(it.0.is_char_boundary(it.0.pos()));
        assert!(it.1.undo(&mut it.0, 65535) && it.0.is_empty());
        while it.1.redo(&mut it.0) {}
    };
    let whole = line().0.into_string();
    let stays = |it: &mut All| {
        fits(it);
        assert_eq!(it.0.as_str(), whole);
    };
    let mut counted = 0;
    macro_rules! told {
        ($($call:ident($($given:expr),*), $see:expr;)*) => {$({
            let call = |it: &mut All| {
                let mut both = Pair { all: &mut it.1, deletions: &mut it.2 };
                it.0.$call($($given,)* &mut both)
            };
            counted += refuse(stringify!($call), line, call, $see);
        })*};
    }
    told![
        try_insert('漢', 900), stays;
        try_insert('-', 1), stays;
        try_yank(text, 3), stays;
        try_yank_pop(3, text), fits;
        try_update(text, 3), fits;
        try_replace(0..3, text), stays;
        try_insert_str(0, text), stays;
        try_delete(1), stays;
        try_backspace(1), stays;
        try_kill(&Movement::WholeBuffer), stays;
        try_kill(&WORD_BACK), stays;
        try_delete_range(0..9), stays;
        try_kill_range(0..9, Direction::Forward), stays;
    ];
    macro_rules! panics {
        ($($call:ident($($given:expr),*),)*) => {$({
            let call = |it: &mut All| error_of(|| it.0.$call($($given,)* &mut it.1));
            counted += refuse(stringify!($call), line, call, fits);
        })*};
    }
    panics![
        insert('-', 1),
        kill(&WORD_BACK),
        transpose_chars(),
        transpose_words(2),
        edit_word(WordAction::Uppercase),
        indent(&Movement::WholeBuffer, 200, false),
    ];
    assert!(counted > 30, "{counted}");
    let copy = |it: &mut All| error_of(|| it.0.copy(&Movement::WholeBuffer));
    assert!(refuse("copy", line, copy, stays) > 0);
    let (line, was_refused) = with_refused(1, || LineBuffer::with_capacity(64));
    assert_eq!((line.limit(), was_refused), (64, true));
}

#[test]
fn records_say_that_memory_is_refused() {
    // A line without room for what comes back.
    let undone = || {
        let mut all = line();
        all.0 = LineBuffer::with_capacity(64).can_growth(true);
        all.1 = Changeset::new();
        all.1.delete(0, "a\n".repeat(99));
        all
    };
    let undo = |it: &mut All| it.1.try_undo(&mut it.0, 1);
    assert!(refuse("try_undo", undone, undo, |it| assert!(it.0.is_empty())) > 0);
    let redone = || {
        let mut all = undone();
        all.1.undo(&mut all.0, 9);
        all
    };
    let redo = |it: &mut All| it.1.try_redo(&mut it.0);
    refuse("try_redo", redone, redo, |it| assert!(it.0.is_empty()));
    let told = |it: &mut All| it.1.try_last_insert().map(|it| assert!(it.is_some()));
    assert!(refuse("try_last_insert", line, told, |_| {}) > 0);
    let fits = |it: &mut All| error_of(|| it.1.undo_fits(&it.0));
    assert!(refuse("undo_fits", line, fits, |_| {}) > 0);
    let text = &*"more ".repeat(99);
    let kill = |it: &mut All| error_of(|| it.2.kill(text, Mode::Append));
    assert!(refuse("kill", line, kill, |_| {}) > 0);
}

#[test]
fn a_deletion_asks_only_for_what_is_deleted() {
    let mut line = LineBuffer::with_capacity(usize::MAX);
    line.yank(&"one two ".repeat(1 << 14), 1, &mut NoListener);
    let largest = largest_of(|| {
        assert!(line.backspace(1, &mut NoListener));
        assert!(line.kill(&WORD_BACK, &mut NoListener));
    });
    assert!(largest < 4096, "{largest} bytes were asked for");
}
