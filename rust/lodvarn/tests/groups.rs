//! Undo groups and their guards, edits of several steps, which are a group too, and undone changes that are kept.
use lodvarn::{Case, Error, Group, Movement, Session};
use std::panic::{catch_unwind, AssertUnwindSafe};

/// A session on a text, with the cursor at its end.
fn opened(text: &str) -> Session {
    let session = Session::builder().text(text).open();
    session.expect("a session opens")
}

#[track_caller]
fn stands(session: &Session, text: &str, pos: usize) {
    assert_eq!((session.text(), session.pos()), (text, pos));
}

#[test]
fn a_guard_closes_what_was_begun_in_it_alone() -> Result<(), Error> {
    type Inside = fn(&mut Session) -> Result<(), Error>;
    let deeper: Inside = |s| s.paste("b", 1).and(s.begin_group()).and(s.begin_group());
    // What is done in the inner one of two groups, whether that has a change then, and how many groups are left.
    let rows: [(Inside, bool, usize); 6] = [
        (|_| Ok(()), false, 1),
        (|s| s.paste("b", 1).map(drop), true, 1),
        (deeper, true, 1),
        // an undo stays in it
        (|s| s.paste("b", 1).and(s.undo(2)).map(drop), false, 1),
        (|s| s.end_all_groups().map(drop), false, 0),
        (|s| s.abandon_group().map(drop), false, 1),
    ];
    for (row, (inside, has_change, left)) in rows.into_iter().enumerate() {
        for is_dropped in [false, true] {
            let mut session = opened("-");
            let mut outer = session.group()?;
            outer.paste("a", 1)?;
            let mut inner = outer.group()?;
            inside(&mut inner)?;
            if is_dropped {
                let panics = AssertUnwindSafe(move || {
                    let _inner = inner;
                    panic!("this is a part of the test");
                });
                assert!(catch_unwind(panics).is_err());
            } else {
                assert_eq!(Group::close(inner), Ok(has_change), "row {row}");
            }
            assert_eq!(outer.group_level(), left, "row {row}");
            drop(outer);
            assert_eq!((session.group_level(), session.undo(1)), (0, Ok(true)));
            stands(&session, "-", 1);
        }
    }
    Ok(())
}

#[test]
fn a_group_is_not_reopened_before_what_is_kept() -> Result<(), Error> {
    for keeps in [true, false] {
        let mut session = Session::builder().keep_undone(keeps).open()?;
        session.group()?.insert('a', 1)?;
        session.insert('b', 1)?;
        session.undo(1)?;
        assert_eq!(
            (session.reopen_group(), session.can_redo()),
            (!keeps, keeps)
        );
    }
    Ok(())
}

#[test]
fn an_edit_is_one_unit() -> Result<(), Error> {
    type Edit = fn(&mut Session) -> Result<(), Error>;
    // An edit on "one two", right before "two", and the text that it leaves.
    let rows: [(Edit, &str); 7] = [
        (|s| s.set_text(1, "three"), "three"),
        (|s| s.transpose_chars().map(drop), "onet wo"),
        (|s| s.transpose_words(1).map(drop), "two one"),
        (|s| s.change_case(Case::Uppercase).map(drop), "one TWO"),
        (
            |s| s.indent(Movement::WholeLine, 33).map(drop),
            "                                 one two",
        ),
        (|s| s.yank(1).and(s.yank_pop()).map(drop), "one -two"),
        (
            |s| s.yank(1).and(s.yank_pop()).and(s.yank_pop()).map(drop),
            "one xtwo",
        ),
    ];
    for (edit, left) in rows {
        let mut session = Session::builder().text("one two").pos(4).open()?;
        for text in ["x", "-", "+"] {
            session.ring_add(text)?;
        }
        edit(&mut session)?;
        assert_eq!(session.text(), left);
        assert_eq!(session.undo(1), Ok(true));
        stands(&session, "one two", 4);
        assert_eq!((session.record_entries(), session.redo()), (0, Ok(true)));
        assert_eq!((session.text(), session.can_redo()), (left, false));
    }
    Ok(())
}

#[test]
fn edits_keep_what_was_undone() -> Result<(), Error> {
    type Edit = fn(&mut Session) -> Result<(), Error>;
    // An edit after "-" was pasted and undone, and the texts that undos come to then, with the option and without.
    let rows: [(Edit, &[&str], &[&str]); 4] = [
        (|s| s.insert('b', 1).map(drop), &["", "-", ""], &[""]),
        (
            |s| s.group()?.insert('b', 1).map(drop),
            &["", "-", ""],
            &[""],
        ),
        (|s| s.end_group().map(drop), &["-", ""], &[]),
        (|s| s.ring_add("b"), &[], &[]),
    ];
    for (row, (edit, kept, dropped)) in rows.into_iter().enumerate() {
        for (keeps, wanted) in [(true, kept), (false, dropped)] {
            let mut session = Session::builder().keep_undone(keeps).open()?;
            session.paste("-", 1)?;
            session.undo(1)?;
            edit(&mut session)?;
            let mut texts = Vec::new();
            while session.undo(1)? {
                texts.push(session.text().to_string());
            }
            assert_eq!(texts, wanted, "row {row}, {keeps}");
        }
    }
    Ok(())
}
