//! What is left of sessions where memory is refused: each request of a call in turn.
// On Windows a thread-local takes memory itself, so an allocator can't count by one.
#![cfg(not(windows))]
#![deny(unsafe_op_in_unsafe_fn)]

use lodvarn::{run_script, Case, Direction, Error, Mode, Movement, Screen, Session, Word};
use refusing::refuse;

#[allow(dead_code)]
mod refusing;

fn session() -> Session {
    let text = "one two three ".repeat(20);
    let session = Session::builder().text(&text).keep_undone(true);
    let mut session = session.open().expect("a session opens");
    session.ring_add(&"kept ".repeat(30)).expect("it is kept");
    let word = Movement::BackwardWord(1, Word::Emacs);
    assert_eq!(session.kill(word), Ok(true));
    assert_eq!(session.insert('-', 1).and(session.undo(1)), Ok(true));
    session
}

#[test]
fn sessions_say_that_memory_is_refused() {
    let text = &*"four ".repeat(400);
    type Call<'t> = (&'t str, Box<dyn Fn(&mut Session) -> Result<(), Error> + 't>);
    macro_rules! calls {
        ($($call:ident($($given:expr),*),)*) => {
            vec![$((stringify!($call), Box::new(|s: &mut Session| s.$call($($given),*).map(drop)) as _)),*]
        };
    }
    let of_several: Vec<Call> = vec![
        (
            "set_text",
            Box::new(|s| s.insert('-', 1).and_then(|_| s.set_text(0, text))),
        ),
        (
            "transpose_words",
            Box::new(|s| s.transpose_words(1).map(drop)),
        ),
        (
            "change_case",
            Box::new(|s| s.set_pos(0).and(s.change_case(Case::Uppercase)).map(drop)),
        ),
        (
            "indent",
            Box::new(|s| s.indent(Movement::WholeLine, 200).map(drop)),
        ),
        (
            "yank_pop",
            Box::new(|s| s.yank(1).and_then(|_| s.yank_pop()).map(drop)),
        ),
    ];
    let calls: Vec<Call> = calls![
        restart(text),
        insert('漢', 900),
        type_bytes("漢".as_bytes()),
        paste(text, 3),
        insert_at(3, text),
        replace(0..3, text),
        delete_range(0..9),
        delete(1),
        backspace(1),
        delete_by(Movement::BeginningOfLine),
        kill(Movement::BeginningOfLine),
        kill_range(0..9, Direction::Forward),
        ring_add(text),
        copy(Movement::WholeBuffer),
        movement_range(0, Movement::WholeBuffer),
        yank(9),
        begin_group(),
        end_group(),
        undo(1),
        watch(9, 999),
        group(),
        to_bytes(),
        try_clone(),
    ];
    let left = |s: &mut Session| {
        assert!(s.text().is_char_boundary(s.pos()));
        // What was undone waits, or is kept beside the kill.
        assert!(s.can_redo() || s.record_entries() >= 3);
    };
    // One that was refused the marks of the group of its changes is done all the same.
    let grouped = |s: &mut Session| {
        let is_group = s.reopen_group();
        s.end_group()?;
        is_group.then_some(()).ok_or(Error::NoMemory)
    };
    let of_several = of_several
        .into_iter()
        .map(|(what, call)| refuse(what, session, |s| call(s).and_then(|()| grouped(s)), left));
    let calls = calls.into_iter();
    let of_one = calls.map(|(what, call)| refuse(what, session, call, left));
    let counted: Vec<_> = of_several.chain(of_one).collect();
    assert!(counted.iter().sum::<usize>() > 40, "{counted:?}");
}

#[test]
fn what_needs_no_session_says_that_memory_is_refused() {
    let open = |(): &mut ()| Session::builder().text("one").open();
    assert!(refuse("open", || (), open, |()| {}) > 0);
    let bytes = session().to_bytes().expect("a session is saved");
    let load = |(): &mut ()| Session::from_bytes(&bytes);
    assert!(refuse("from_bytes", || (), load, |()| {}) > 3);
    // No line of it needs memory, which would be refused by a line of what is printed.
    let script = "where\n".repeat(99);
    let run = |(): &mut ()| run_script(script.as_bytes());
    assert!(refuse("run_script", || (), run, |()| {}) > 2);
    let clusters = |(): &mut ()| lodvarn::clusters(Mode::Unicode, "one");
    assert_eq!(refuse("clusters", || (), clusters, |()| {}), 1);
    let screen = Screen::new(9);
    assert_eq!(refuse("rows", || (), |_| screen.rows("one"), |()| {}), 1);
}
