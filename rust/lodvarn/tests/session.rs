//! What a session has beside the calls of scripts: how it is built, what it refuses, and where it may go.
use lodvarn::{
    At, Case, CharSearch, Cluster, Direction, Error, Filled, Inserted, Mode, Movement, Options,
    RowTarget, Screen, Session, Word,
};
use std::ops::Bound::{self, Excluded, Included, Unbounded};
use std::panic::catch_unwind;

/// A session on a text, with the cursor at its end and a limit of 64 bytes.
fn opened(text: &str) -> Session {
    let session = Session::builder().text(text).limit(64).open();
    session.expect("a session opens")
}

/// The texts of its ring, the current one first.
fn ring(session: &Session) -> Vec<&str> {
    (0..).map_while(|back| session.ring_text(back)).collect()
}

#[track_caller]
fn stands(session: &Session, text: &str, pos: usize) {
    assert_eq!((session.text(), session.pos()), (text, pos));
}

#[test]
fn a_session_is_as_it_was_built() -> Result<(), Error> {
    let (new, rocket) = (Session::builder, "\u{1f469}\u{200d}\u{1f680}");
    let short = new().text(rocket).limit(12).ring_size(0);
    // The builder, the cursor, the limit, the column of the cursor, and the text once a kill of all is yanked.
    let rows = [
        (new(), 0, None, 0, ""),
        (new().text(rocket), 11, None, 2, rocket),
        (new().pos(0).text(rocket), 0, None, 0, rocket),
        (short.clone(), 11, Some(12), 2, ""),
        (short.clone().mode(Mode::WcWidth), 11, Some(12), 4, ""),
        (short.mode(Mode::NoZwj), 11, Some(12), 4, ""),
    ];
    for (built, pos, limit, column, yanked) in rows {
        let mut session = built.open()?;
        let seen = (session.pos(), session.options().limit);
        assert_eq!(seen, (pos, limit), "{built:?}");
        assert_eq!(session.cursor_position().column, column, "{built:?}");
        session.kill(Movement::WholeLine)?;
        session.yank(1)?;
        assert_eq!(session.text(), yanked, "{built:?}");
    }
    Ok(())
}

#[test]
fn options_are_those_that_were_set() -> Result<(), Error> {
    let mut options = Options::default();
    (options.mode, options.prompt) = (Mode::NoZwj, 3);
    (options.limit, options.ring_size) = (Some(20), 1);
    (options.max_entries, options.max_bytes) = (Some(5), Some(50));
    (options.max_ring_bytes, options.keep_undone) = (Some(9), true);
    let built = Session::builder().mode(Mode::NoZwj).prompt(3).limit(20);
    let built = built.ring_size(1).max_entries(5).max_bytes(50);
    let mut session = built.max_ring_bytes(9).keep_undone(true).open()?;
    assert_eq!(session.options(), options);
    (options.keep_undone, options.ring_size) = (false, 2);
    (options.mode, options.limit, options.max_bytes) = (Mode::WcWidth, None, None);
    session.set_options(&options)?;
    assert_eq!(session.options(), options);
    Ok(())
}

#[test]
fn a_session_begins_anew_with_its_ring() -> Result<(), Error> {
    let mut session = opened("one two");
    session.kill(Movement::BackwardWord(1, Word::Emacs))?;
    session.restart("né")?;
    assert_eq!((session.undo(1)?, session.record_entries()), (false, 0));
    session.yank(1)?;
    assert!(session.last_was_yank());
    stands(&session, "nétwo", 6);
    // A new text goes after the newest, not after the current one.
    session.ring_add("b")?;
    session.restart("")?;
    session.yank(1)?;
    assert_eq!(session.yank_pop(), Ok(Inserted::AtEnd));
    session.ring_add("c")?;
    assert_eq!(ring(&session), ["c", "b", "two"]);
    session.ring_clear();
    assert_eq!(session.ring_count(), 0);
    Ok(())
}

#[test]
fn what_is_refused_says_why_and_changes_nothing() {
    for pos in [1, 3] {
        let opened = Session::builder().text("é").pos(pos).open();
        assert_eq!(opened.map(drop), Err(Error::BadOffset), "at {pos}");
    }
    let opened_short = Session::builder().text("é").limit(1).open();
    assert_eq!(opened_short.map(drop), Err(Error::NoRoom));
    let mut session = opened("aé");
    for offset in [2, 4] {
        assert_eq!(session.slice(offset..3), Err(Error::BadOffset));
        assert_eq!(session.line_at(offset), Err(Error::BadOffset));
        assert_eq!(session.cluster_at(offset), Err(Error::BadOffset));
        assert_eq!(session.cluster_before(offset), Err(Error::BadOffset));
        let found = session.find(offset, "a", Direction::Backward);
        assert_eq!(found, Err(Error::BadOffset));
        let word = Movement::BackwardWord(1, Word::Big);
        assert_eq!(session.movement_range(offset, word), Err(Error::BadOffset));
        assert_eq!(session.movement_target(offset, word), Err(Error::BadOffset));
        assert_eq!(session.set_pos(offset), Err(Error::BadOffset));
        assert_eq!(session.set_text(offset, "aé"), Err(Error::BadOffset));
        assert_eq!(session.insert_at(offset, "b"), Err(Error::BadOffset));
        assert_eq!(session.replace(offset..3, "b"), Err(Error::BadOffset));
        assert_eq!(session.delete_range(0..offset), Err(Error::BadOffset));
    }
    let screen = Screen::new(9);
    assert_eq!(screen.cell(1, "é"), Err(Error::BadOffset));
    assert_eq!(session.insert_at(0, "xy"), Ok(Inserted::Within));
    assert_eq!(session.undo(1), Ok(true));
    assert_eq!(session.insert('x', 64), Err(Error::NoRoom));
    assert_eq!(session.paste("", 1), Ok(Inserted::Nothing));
    let deleted = session.delete_by(Movement::WholeLine);
    assert_eq!(deleted, Err(Error::NoSuchNumber));
    stands(&session, "aé", 3);
}

#[test]
fn a_count_of_0_does_nothing() -> Result<(), Error> {
    let mut session = opened("one two\nthree\n");
    session.set_pos(8)?;
    session.kill(Movement::BackwardWord(1, Word::Vi))?;
    for movement in [
        Movement::BackwardWord(0, Word::Vi),
        Movement::ForwardWord(0, At::Start, Word::Vi),
        Movement::ViCharSearch(0, CharSearch::Forward('e')),
        Movement::BackwardChar(0),
        Movement::ForwardChar(0),
        Movement::LineUp(0),
        Movement::LineDown(0),
        Movement::WholeLinesUp(0),
        Movement::WholeLinesDown(0),
    ] {
        let covered = session.movement_range(99, movement);
        assert_eq!(covered, Ok(None), "{movement:?}");
        assert_eq!(session.kill(movement), Ok(false), "{movement:?}");
        assert_eq!(session.delete_by(movement), Ok(false), "{movement:?}");
        assert_eq!(session.copy(movement), Ok(None), "{movement:?}");
        assert!(!session.move_by(movement), "{movement:?}");
        assert_eq!(session.indent(movement, 1), Ok(false), "{movement:?}");
    }
    let answers = [session.delete(0), session.backspace(0), session.undo(0)];
    assert_eq!(answers, [Ok(false); 3]);
    let answers = [
        session.insert('a', 0),
        session.paste("a", 0),
        session.yank(0),
    ];
    assert_eq!(answers, [Ok(Inserted::Nothing); 3]);
    stands(&session, "one three\n", 4);
    // So the run of kills goes on. A copy ends it.
    session.kill(Movement::ForwardWord(1, At::AfterEnd, Word::Vi))?;
    assert_eq!(
        (session.ring_count(), session.ring_text(0)),
        (1, Some("two\nthree"))
    );
    session.copy(Movement::WholeLine)?;
    session.kill(Movement::WholeLine)?;
    assert_eq!(
        (session.ring_count(), session.ring_text(0)),
        (2, Some("one "))
    );
    Ok(())
}

/// Sets the limit of a session.
fn limit(session: &mut Session, limit: usize) -> Result<(), Error> {
    let mut options = session.options();
    options.limit = Some(limit);
    session.set_options(&options)
}

#[test]
fn what_has_no_room_changes_nothing() -> Result<(), Error> {
    type Call = fn(&mut Session) -> Result<(), Error>;
    let calls: [Call; 14] = [
        |s| s.insert('x', 1).map(drop),
        |s| s.paste("x", 1).map(drop),
        |s| s.yank(1).map(drop),
        |s| s.yank_pop().map(drop),
        |s| s.set_text(0, "ten bytes!"),
        |s| s.insert_at(0, "x").map(drop),
        |s| s.replace(0..1, "xy"),
        |s| s.transpose_words(1).map(drop),
        |s| s.change_case(Case::Uppercase).map(drop),
        |s| s.indent(Movement::WholeLine, 1).map(drop),
        |s| s.undo(9).map(drop),
        |s| s.abandon_group().map(drop),
        |s| s.restart("ten bytes!"),
        |s| limit(s, 8),
    ];
    let mut full = Session::builder().text("words ŉ, and more").open()?;
    full.ring_add("longer").and(full.ring_add("-"))?;
    full.begin_group()?;
    full.delete_range(8..18).and(full.set_pos(6))?;
    full.yank(1).and(limit(&mut full, 9))?;
    stands(&full, "words -ŉ", 7);
    let mut undone = Session::builder().keep_undone(true).open()?;
    undone.paste("one", 1).and(undone.undo(1))?;
    limit(&mut undone, 2)?;
    let calls_undone: [Call; 2] = [|s| s.redo().map(drop), |s| s.insert('x', 3).map(drop)];
    for (session, calls) in [(&mut full, &calls[..]), (&mut undone, &calls_undone[..])] {
        let before = session.to_bytes()?;
        for (row, call) in calls.iter().enumerate() {
            assert_eq!(call(session), Err(Error::NoRoom), "row {row}");
            assert_eq!(session.to_bytes().as_ref(), Ok(&before), "row {row}");
        }
    }
    Ok(())
}

#[test]
fn reads_at_an_offset_are_those_of_a_cursor_there() -> Result<(), Error> {
    let mut session = Session::builder()
        .text("one 漢\n\ntwo three")
        .prompt(2)
        .open()?;
    let text = session.text().to_string();
    let by = [
        Movement::LineUp(1),
        Movement::LineDown(2),
        Movement::EndOfLine,
        Movement::BackwardWord(1, Word::Emacs),
        Movement::ForwardChar(0),
    ];
    for movement in by {
        for (offset, _) in text.char_indices() {
            let range = session.movement_range(offset, movement);
            let target = session.movement_target(offset, movement);
            session.set_pos(offset)?;
            assert_eq!(session.movement_range(offset, movement), range);
            assert_eq!(session.move_by(movement), target?.is_some());
            assert_eq!(session.pos(), target?.unwrap_or(offset));
            session.set_pos(text.len())?;
        }
    }
    Ok(())
}

#[test]
fn a_range_may_be_of_any_kind() {
    type Bounds = (Bound<usize>, Bound<usize>);
    type Call = fn(&mut Session, Bounds) -> Result<(), Error>;
    const MAX: usize = usize::MAX;
    let rows = [
        ((Included(1), Excluded(3)), Ok(1..3)),
        ((Unbounded, Included(2)), Ok(0..3)),
        ((Excluded(0), Unbounded), Ok(1..6)),
        ((Included(6), Unbounded), Ok(6..6)),
        ((Included(3), Excluded(1)), Err(Error::BadOffset)),
        ((Included(2), Unbounded), Err(Error::BadOffset)),
        ((Unbounded, Included(1)), Err(Error::BadOffset)),
        ((Unbounded, Excluded(7)), Err(Error::BadOffset)),
        ((Unbounded, Included(MAX)), Err(Error::BadOffset)),
        ((Excluded(MAX), Unbounded), Err(Error::BadOffset)),
        ((Excluded(MAX), Included(MAX)), Err(Error::BadOffset)),
    ];
    let calls: [(Call, &str); 3] = [
        (|s, it| s.replace(it, "-"), "-"),
        (|s, it| s.delete_range(it), ""),
        (|s, it| s.kill_range(it, Direction::Forward).map(drop), ""),
    ];
    let text = "aé漢";
    for (bounds, wanted) in rows {
        let slice = wanted.clone().map(|it| &text[it]);
        assert_eq!(opened(text).slice(bounds), slice, "{bounds:?}");
        for (call, new) in calls {
            let (mut session, mut left) = (opened(text), text.to_string());
            assert_eq!(call(&mut session, bounds), wanted.clone().map(drop));
            if let Ok(range) = &wanted {
                left.replace_range(range.clone(), new);
            }
            assert_eq!(session.text(), left, "{bounds:?}");
        }
    }
}

#[test]
fn a_text_is_found_on_each_side() {
    let text = "ab漢aba漢";
    let session = opened(text);
    for sought in ["a", "aba", "漢", "漢a", "x", text, ""] {
        for (from, _) in text.char_indices().chain([(text.len(), ' ')]) {
            let range = |start| start..start + sought.len();
            let ahead = text[from..].find(sought).map(|at| range(from + at));
            let back = text[..from].rfind(sought).map(range);
            let rows = [(Direction::Forward, ahead), (Direction::Backward, back)];
            for (direction, wanted) in rows {
                let wanted = wanted.filter(|it| !it.is_empty());
                let found = session.find(from, sought, direction);
                assert_eq!(found, Ok(wanted), "{sought:?} {direction:?} of {from}");
            }
        }
    }
}

#[test]
fn bytes_are_typed_by_characters() -> Result<(), Error> {
    // Bytes, how many are typed, and the text then, which may have 5 bytes.
    let rows: [(&[u8], _, _); 4] = [
        (b"a\xE6\xBC", Ok(1), "a"),
        (b"\xE6\xBC", Ok(0), ""),
        ("漢漢".as_bytes(), Ok(3), "漢"),
        (b"\xFFb", Err(Error::NotUtf8), ""),
    ];
    for (bytes, wanted, text) in rows {
        let mut session = Session::builder().limit(5).open()?;
        assert_eq!(session.type_bytes(bytes), wanted, "{bytes:?}");
        stands(&session, text, text.len());
    }
    let mut session = Session::builder().limit(5).open()?;
    session.type_bytes(b"ab")?;
    session.type_bytes(b"cd")?;
    assert_eq!(session.type_bytes("漢".as_bytes()), Err(Error::NoRoom));
    assert_eq!((session.undo(1), session.text()), (Ok(true), ""));
    Ok(())
}

const SCREEN: Screen = Screen::new(4);

fn target(offset: usize, column: usize) -> Option<RowTarget> {
    Some(RowTarget { offset, column })
}

#[test]
fn a_cursor_goes_by_rows() -> Result<(), Error> {
    assert!(catch_unwind(|| Screen::new(0)).is_err());
    // The rows abcd, ef, an empty one, and ghi. How many a cursor goes up, or down, and by which column.
    let rows = [
        (11, -1, None, target(7, 3)),
        (11, -2, None, target(6, 3)),
        (11, -3, Some(9), target(3, 9)),
        (11, -4, None, None),
        (2, 1, None, target(6, 2)),
        (2, 2, Some(1), target(7, 1)),
        (2, 3, Some(1), target(9, 1)),
        (2, 4, None, None),
        (2, 0, None, None),
    ];
    for (pos, n, column, wanted) in rows {
        let session = Session::builder().text("abcdef\n\nghi").pos(pos).open()?;
        let went = match u16::try_from(n) {
            Ok(n) => session.row_below(&SCREEN, n, column, None)?,
            Err(_) => session.row_above(&SCREEN, -n as u16, column, None)?,
        };
        assert_eq!(went, wanted, "{n} from {pos}");
    }
    Ok(())
}

#[test]
fn rows_and_clusters_begin_at_an_offset() -> Result<(), Error> {
    let mut session = Session::builder().text("abcdefghi\n漢e\u{301}").open()?;
    let filled = |count, next| Ok(Filled { count, next });
    let (from, to, columns) = (9, 10, 1);
    let newline = Cluster { from, to, columns };
    let (mut starts, mut clusters) = ([9; 2], [newline; 2]);
    assert_eq!(
        session.rows_from(&SCREEN, 4, &mut starts),
        filled(2, Some(10))
    );
    assert_eq!(starts, [4, 8]);
    assert_eq!(session.rows_from(&SCREEN, 10, &mut starts), filled(1, None));
    assert_eq!(starts, [10, 8]);
    let mode = Mode::Unicode;
    let mut cut = |from| session.clusters_from(mode, from, &mut clusters);
    assert_eq!((cut(13), cut(9)), (filled(1, None), filled(2, Some(13))));
    let (from, to, columns) = (10, 13, 2);
    assert_eq!(clusters, [newline, Cluster { from, to, columns }]);
    session.set_pos(9)?;
    for from in [None, Some(0), Some(4), Some(8), Some(10)] {
        assert_eq!(session.row_above(&SCREEN, 1, None, from)?, target(5, 1));
        assert_eq!(session.row_below(&SCREEN, 1, Some(3), from)?, target(16, 3));
    }
    let none = Err(Error::BadOffset);
    assert_eq!(session.rows_from(&SCREEN, 11, &mut starts), none);
    assert_eq!(session.clusters_from(mode, 17, &mut clusters), none);
    assert_eq!(
        session.row_below(&SCREEN, 1, None, Some(11)),
        Err(Error::BadOffset)
    );
    Ok(())
}

#[test]
fn a_movement_has_a_count_of_1() {
    let (word, at, search) = (Word::Vi, At::Start, CharSearch::Forward('e'));
    let rows = [
        (
            Movement::backward_word(word),
            Movement::BackwardWord(1, word),
        ),
        (
            Movement::forward_word(at, word),
            Movement::ForwardWord(1, at, word),
        ),
        (
            Movement::char_search(search),
            Movement::ViCharSearch(1, search),
        ),
        (Movement::backward_char(), Movement::BackwardChar(1)),
        (Movement::forward_char(), Movement::ForwardChar(1)),
        (Movement::line_up(), Movement::LineUp(1)),
        (Movement::line_down(), Movement::LineDown(1)),
        (Movement::whole_lines_up(), Movement::WholeLinesUp(1)),
        (Movement::whole_lines_down(), Movement::WholeLinesDown(1)),
    ];
    for (made, wanted) in rows {
        assert_eq!(made, wanted);
    }
}

#[test]
fn a_session_is_shown_as_its_text() {
    let session = opened("né");
    let lent: &str = session.as_ref();
    assert_eq!(
        (lent, format!("{session:>4}|{session:.1}")),
        ("né", "  né|n".into())
    );
}

#[test]
fn a_session_goes_to_another_thread() {
    fn is_shared<T: Sync>(it: T) -> T {
        it
    }
    let mut session = is_shared(opened("ab"));
    let there = std::thread::spawn(move || {
        assert_eq!(session.insert('c', 1), Ok(Inserted::AtEnd));
        session
    });
    let session = there.join().expect("the thread ends");
    assert_eq!(catch_unwind(|| session.pos()).ok(), Some(3));
}
