//! Sessions that are saved as bytes and loaded again, and copied: by themselves, and at random.
use lodvarn::{Error, Movement, NoListener, NotifyError, Options, Session};
use random::{command, Random};

mod random;

/// A session on a text, with the cursor at its end and a limit of 256 bytes.
fn opened(text: &str) -> Session {
    let session = Session::builder().text(text).limit(256).open();
    session.expect("a session opens")
}

/// The session that is loaded of another's bytes, as its copy is.
#[track_caller]
fn reloaded(session: &Session) -> Session {
    let bytes = session.to_bytes().expect("a session is saved");
    let loaded = Session::from_bytes(&bytes).expect("what was saved is loaded");
    let copy = session.try_clone().expect("a session is copied");
    for it in [&loaded, &copy] {
        assert_eq!(it.to_bytes().as_ref(), Ok(&bytes));
        assert_eq!(seen(it), seen(session));
    }
    loaded
}

/// What is read of a session: its texts, its numbers, its answers, and its options.
fn seen(s: &Session) -> (Vec<&str>, [usize; 3], [bool; 4], Options) {
    let texts = (0..).map_while(|back| s.ring_text(back)).chain([s.text()]);
    let answers = [s.can_undo(), s.can_redo(), s.is_saved(), s.last_was_yank()];
    let numbers = [s.pos(), s.record_entries(), s.group_level()];
    (texts.collect(), numbers, answers, s.options())
}

/// These bytes are not loaded, which differ from the saved ones at this index.
#[track_caller]
fn refuses(bytes: &[u8], at: usize) {
    let why = match at {
        // the heading
        0..=7 => Error::UnknownFormat,
        _ => Error::Damaged,
    };
    assert_eq!(Session::from_bytes(bytes).err(), Some(why), "at {at}");
}

#[test]
fn no_byte_may_lack_or_differ() -> Result<(), Error> {
    let mut session = opened("one two");
    session.kill(Movement::BeginningOfLine)?;
    session.yank(1)?;
    session.group()?.insert('é', 2)?;
    session.undo(1)?;
    let mut bytes = session.to_bytes()?;
    for at in 0..bytes.len() {
        refuses(&bytes[..at], at);
        for bit in 0..8 {
            bytes[at] ^= 1 << bit;
            refuses(&bytes, at);
            bytes[at] ^= 1 << bit;
        }
    }
    bytes.push(0);
    refuses(&bytes, bytes.len());
    Ok(())
}

#[test]
fn a_random_session_is_saved_at_any_time() {
    let (mut session, mut random) = (opened("one 漢"), Random(1));
    for it in 0..4_000 {
        let (mut loaded, mut same) = (reloaded(&session), random.clone());
        let answer = command(&mut session, &mut random);
        assert_eq!(command(&mut loaded, &mut same), answer, "command {it}");
        assert_eq!(seen(&loaded), seen(&session), "command {it}");
        assert_eq!(loaded.to_bytes(), session.to_bytes(), "command {it}");
        assert!(Some(session.text().len()) <= session.options().limit);
    }
}

#[test]
fn a_copy_goes_its_own_way() -> Result<(), Error> {
    let mut session = opened("one");
    session.watch(9, 99)?;
    session.paste(" two", 1)?;
    let mut copy = session.try_clone()?;
    assert_eq!((copy.take_change(), copy.report_count()), (None, 0));
    assert_eq!(copy.notify(&mut NoListener), Err(NotifyError::NoTexts));
    copy.undo(1)?;
    assert_eq!((copy.text(), session.text()), ("one", "one two"));
    assert_eq!(session.report_count(), 1);
    Ok(())
}
