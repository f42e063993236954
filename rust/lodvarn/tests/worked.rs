//! The worked scripts of the repository's one table; and that each call of a session, and each movement, is what the word
//! of a script is.
use lodvarn::Direction::{Backward, Forward};
use lodvarn::{first_cluster, last_cluster, run_script, width, Cluster, Position, Session};
use lodvarn::{At, Case, CharSearch, Error, Movement, Word};
use std::fmt::Debug;
use std::process::Command;

/// The bytes that a text of C stands for.
fn bytes_of(literal: &str) -> Vec<u8> {
    let (mut bytes, mut rest) = (Vec::new(), literal);
    while let Some((plain, octal)) = rest.split_once('\\') {
        bytes.extend(plain.as_bytes());
        bytes.push(u8::from_str_radix(&octal[..3], 8).expect("three octal digits"));
        rest = &octal[3..];
    }
    bytes.extend(rest.as_bytes());
    bytes
}

/// What each script of the table shows, the script, and what it prints.
fn rows() -> Vec<[Vec<u8>; 3]> {
    let program = concat!(env!("CARGO_MANIFEST_DIR"), "/../../tests/rows.py");
    let ran = Command::new("python3").arg(program).output();
    let ran = ran.expect("python3 runs");
    assert!(ran.status.success(), "{ran:?}");
    let table = String::from_utf8(ran.stdout).expect("it is ASCII");
    let lines = table.lines().filter(|line| line.starts_with("    {"));
    // What stands in a text has no quotation mark.
    let parts = lines.map(|line| line.split('"').collect::<Vec<_>>());
    parts.map(|it| [1, 3, 5].map(|i| bytes_of(it[i]))).collect()
}

/// The reads agree with each other and with the text.
fn reads_agree(s: &Session) {
    let (text, pos, mode) = (s.text(), s.pos(), s.options().mode);
    let own = text[..pos].matches('\n').count();
    assert_eq!(s.line_at(pos), Ok(own));
    assert_eq!(s.line_count(), text.matches('\n').count() + 1);
    let first = text[..pos].rfind('\n').map_or(0, |at| at + 1);
    let end = text[pos..].find('\n').map_or(text.len(), |at| pos + at);
    assert_eq!(s.line_range(own), Some(first..end));
    assert_eq!(s.line_range(s.line_count()), None);
    assert_eq!(s.slice(first..end), Ok(&text[first..end]));
    let column = width(mode, &text[first..pos]);
    assert_eq!(s.cursor_position(), Position { line: own, column });
    let cluster = |from, text: &str| {
        let (to, columns) = (from + text.len(), width(mode, text));
        Some(Cluster { from, to, columns }).filter(|_| from < to)
    };
    let (next, last) = (first_cluster(&text[pos..]), last_cluster(&text[..pos]));
    assert_eq!(s.cluster_at(pos), Ok(cluster(pos, next)));
    assert_eq!(s.cluster_before(pos), Ok(cluster(pos - last.len(), last)));
    let texts = (0..).map_while(|back| s.ring_text(back)).count();
    assert_eq!(texts, s.ring_count());
}

#[test]
fn scripts_print() {
    let rows = rows();
    assert!(rows.len() > 150, "{} rows", rows.len());
    for [what, script, wanted] in rows {
        let what = String::from_utf8_lossy(&what);
        assert_eq!(run_script(&script).as_ref(), Ok(&wanted), "{what}");
    }
}

/// The words for movements, and what they name.
fn movements() -> Vec<(String, Movement)> {
    let plain = [
        ("line", Movement::WholeLine),
        ("home", Movement::BeginningOfLine),
        ("eol", Movement::EndOfLine),
        ("first", Movement::ViFirstPrint),
        ("bchar 2", Movement::BackwardChar(2)),
        ("fchar 2", Movement::ForwardChar(2)),
        ("up 1", Movement::LineUp(1)),
        ("down 1", Movement::LineDown(1)),
        ("buf", Movement::WholeBuffer),
        ("bob", Movement::BeginningOfBuffer),
        ("eob", Movement::EndOfBuffer),
        ("nonblank", Movement::FirstNonBlank),
        ("linesup 2", Movement::WholeLinesUp(2)),
        ("lines 2", Movement::WholeLinesDown(2)),
        ("find 1 f x", search(CharSearch::Forward)),
        ("find 1 t x", search(CharSearch::ForwardBefore)),
        ("find 1 F x", search(CharSearch::Backward)),
        ("find 1 T x", search(CharSearch::BackwardAfter)),
    ];
    let mut all = plain.map(|(words, by)| (words.to_string(), by)).to_vec();
    let senses = [("big", Word::Big), ("emacs", Word::Emacs), ("vi", Word::Vi)];
    let stops = [At::Start, At::BeforeEnd, At::AfterEnd];
    for (sense, word) in senses {
        all.push((format!("bword 1 {sense}"), Movement::BackwardWord(1, word)));
        for (stop, at) in ["start", "before", "after"].into_iter().zip(stops) {
            let by = Movement::ForwardWord(2, at, word);
            all.push((format!("fword 2 {stop} {sense}"), by));
        }
    }
    all
}

fn search(to: fn(char) -> CharSearch) -> Movement {
    Movement::ViCharSearch(1, to('x'))
}

fn escaped(text: &str) -> String {
    text.replace('\n', "\\n")
}

fn handed(text: String) -> String {
    format!("text:{}", escaped(&text).replace(' ', "\\s"))
}

/// What a script prints for what a call returns.
fn said(answer: impl Debug) -> String {
    match format!("{answer:?}").as_str() {
        "()" => "ok",
        "AtEnd" => "true",
        "Within" => "false",
        "Nothing" => "none",
        truth => truth,
    }
    .to_string()
}

type Plain = fn(&mut Session) -> Result<String, Error>;
type Call = Box<dyn Fn(&mut Session) -> Result<String, Error>>;

/// Whether a line is an edit of several changes. A call makes a group of them.
fn is_of_several(line: &str) -> bool {
    let words = ["update", "tchars", "twords", "case", "indent", "dedent"];
    words.iter().any(|word| line.starts_with(word)) || line.ends_with("yankpop")
}

/// Calls by each movement, and the lines that they are.
fn calls_by_movements() -> Vec<(String, Call)> {
    // A line answers true also if nothing changes.
    let (mut all, truth) = (Vec::new(), |_| said(true));
    for (words, by) in movements() {
        let calls: [(_, Call); 5] = [
            ("move", Box::new(move |s| Ok(said(s.move_by(by))))),
            ("kill", Box::new(move |s| s.kill(by).map(said))),
            ("indent 2", Box::new(move |s| s.indent(by, 2).map(truth))),
            ("dedent 1", Box::new(move |s| s.dedent(by, 1).map(truth))),
            (
                "copy",
                Box::new(move |s| Ok(s.copy(by)?.map_or("none".into(), handed))),
            ),
        ];
        all.extend(calls.map(|(name, call)| (format!("{name} {words}"), call)));
    }
    all
}

/// The other calls, and the lines that they are.
fn calls() -> Vec<(String, Call)> {
    const ROWS: &[(&str, Plain)] = &[
        ("pos 3", |s| s.set_pos(3).map(said)),
        ("ins 2 x", |s| s.insert('x', 2).map(said)),
        ("paste 2 xy", |s| s.paste("xy", 2).map(said)),
        ("update 1 xyz", |s| s.set_text(1, "xyz").map(said)),
        ("rep 2 4 xyz", |s| s.replace(2..4, "xyz").map(said)),
        ("range 2 4", |s| s.delete_range(2..4).map(said)),
        ("str 3 xy", |s| s.insert_at(3, "xy").map(said)),
        ("del 2", |s| {
            let text = s.slice(s.pos()..s.pos() + 2)?.to_string();
            s.delete(2).map(|_| handed(text))
        }),
        ("back 2", |s| s.backspace(2).map(said)),
        ("tchars", |s| s.transpose_chars().map(said)),
        ("twords 1", |s| s.transpose_words(1).map(said)),
        ("case cap", |s| s.change_case(Case::Capitalize).map(said)),
        ("case low", |s| s.change_case(Case::Lowercase).map(said)),
        ("case up", |s| s.change_case(Case::Uppercase).map(said)),
        ("killline", |s| s.delete_by(Movement::EndOfLine).map(said)),
        ("discline", |s| {
            s.delete_by(Movement::BeginningOfLine).map(said)
        }),
        ("to 1 F x", |s| {
            s.delete_by(search(CharSearch::Backward)).map(said)
        }),
        ("killrange 2 4 f", |s| s.kill_range(2..4, Forward).map(said)),
        ("killrange 2 4 b", |s| {
            s.kill_range(2..4, Backward).map(said)
        }),
        ("keep x", |s| s.ring_add("x").map(said)),
        ("yank 2", |s| s.yank(2).map(said)),
        ("yank 1\nyankpop", |s| s.yank(1).and(s.yank_pop()).map(said)),
        ("begin", |s| {
            let mark = s.record_entries();
            s.begin_group().map(|()| format!("mark:{mark}"))
        }),
        ("begin\nendone", |s| {
            s.begin_group().and(s.end_group()).map(said)
        }),
        ("end", |s| s.end_all_groups().map(said)),
        ("reopen", |s| Ok(said(s.reopen_group()))),
        ("abandon", |s| s.abandon_group().map(said)),
        ("trunc 5", |s| s.truncate(5).map(said)),
        ("part", |s| {
            s.undo_boundary();
            Ok(said(()))
        }),
        // It stays in the group.
        ("undo 1", |s| s.undo(2).map(said)),
        ("undo 1\nredo", |s| s.undo(2).and(s.redo()).map(said)),
        ("redo", |s| s.redo().map(said)),
    ];
    let boxed = |(line, call): &(&str, Plain)| (line.to_string(), Box::new(*call) as Call);
    ROWS.iter().map(boxed).collect()
}

/// A session of such a text, cursor, ring and record that each call finds something to do, and the lines of a script for
/// the same.
fn begun(pos: usize) -> Result<(Session, String), Error> {
    let text = "a\n x.b,cD e.x,f-g\n h";
    let mut s = Session::builder().text(text).pos(pos).open()?;
    s.ring_add("one").and(s.ring_add("two"))?;
    s.group()?.insert('z', 1)?;
    s.begin_group()?;
    s.paste("-", 1).and(s.paste("+", 1))?;
    s.undo(1)?;
    let lines = "keep one\nkeep two\nbegin\nins 1 z\nendone\nbegin\npaste 1 -\npaste 1 +\nundo 1";
    let script = format!("text {}\npos {pos}\n{lines}\n", escaped(text));
    Ok((s, script))
}

#[test]
fn calls_are_lines_of_scripts() -> Result<(), Error> {
    // What is undone, redone and yanked afterwards tells the record and the ring.
    let later: [Plain; 5] = [
        |s| s.end_all_groups().map(said),
        |s| s.undo(1).map(said),
        |s| s.redo().map(said),
        |s| s.undo(9).map(said),
        |s| s.yank(1).map(said),
    ];
    for (line, call) in calls().into_iter().chain(calls_by_movements()) {
        for pos in [6, 12] {
            let (mut s, begun) = begun(pos)?;
            let entries = s.record_entries();
            let mut shown = format!("{} {} {}\n", call(&mut s)?, s.pos(), escaped(s.text()));
            reads_agree(&s);
            let mut line = line.clone();
            if is_of_several(&line) {
                line = format!("begin\n{line}\nendone");
                let has_change = s.record_entries() > entries;
                shown += &format!("{has_change} {} {}\n", s.pos(), escaped(s.text()));
            }
            for call in later {
                shown += &format!("{} {} {}\n", call(&mut s)?, s.pos(), escaped(s.text()));
            }
            let script = format!("{begun}{line}\nend\nundo 1\nredo\nundo 9\nyank 1\n");
            let printed = String::from_utf8(run_script(script.as_bytes())?).expect("it is UTF-8");
            assert!(printed.ends_with(&shown), "{line}: {shown} {printed}");
        }
    }
    Ok(())
}
