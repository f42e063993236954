//! The line of rustyline's own files, with answers that were worked out by hand, and beside its listeners over edits at
//! random.
use heard::{line_of, panic_of, shown, Heard};
use lodvarn::keymap::{At, CharSearch, Movement, Word};
use lodvarn::kill_ring::{KillRing, Mode};
use lodvarn::layout::{cwidh, GraphemeClusterMode, Layout, Position};
use lodvarn::line_buffer::{ChangeListener, DeleteListener, Direction, LineBuffer, NoListener};
use lodvarn::line_buffer::{Pair, WordAction, INDENT};
use lodvarn::undo::Changeset;
use lodvarn::Error;
use random::Random;
use std::cell::RefCell;
use std::panic::{RefUnwindSafe, UnwindSafe};

mod heard;
#[allow(dead_code)]
mod random;

/// An edit, with its answer as it prints.
type Edit = fn(&mut LineBuffer, &mut Heard) -> String;

/// A line before an edit, the edit, and what it answers, what it leaves and what it tells.
type Row<'t> = (&'t str, Edit, &'t str, &'t str, &'t [&'t str]);

#[track_caller]
fn edits(rows: &[Row]) {
    for (before, edit, answer, after, told) in rows {
        let mut line = line_of(before);
        let mut heard = Heard::of(&line);
        let answered = edit(&mut line, &mut heard);
        assert_eq!(answered, *answer, "{before} {after}");
        assert_eq!(shown(&line), *after);
        assert_eq!(heard.told, *told);
        assert_eq!(heard.copy, line.as_str());
    }
}

macro_rules! rows {
    ($($before:literal $line:ident $heard:ident $call:expr, $answer:literal $after:literal [$($told:literal),*];)*) => {
        [$(($before, |$line, $heard| format!("{:?}", $call), $answer, $after, &[$($told),*])),*]
    };
}

#[test]
fn texts_are_put_in() {
    edits(&rows! {
        "one |two" l h l.insert('x', 1, h), "Some(false)" "one x|two" ["4 + 'x'"];
        "ab|" l h l.insert('é', 1, h), "Some(true)" "abé|" ["2 + 'é'"];
        "ab|" l h l.insert('c', 2, h), "Some(true)" "abcc|" ["2 + \"cc\""];
        "ab|" l h l.insert('c', 0, h), "None" "ab|" [];
        "ab|" l h l.yank("-", 3, h), "Some(true)" "ab---|" ["2 + \"---\""];
        "ab|" l h l.yank("", 3, h), "None" "ab|" [];
        "abc|" l h l.yank_pop(2, "xy", h), "Some(true)" "axy|" ["1 - \"bc\" Forward", "1 + \"xy\""];
        "abc|" l h l.yank_pop(2, "", h), "None" "a|" ["1 - \"bc\" Forward"];
        "a|b" l h l.update("xyz", 1, h), "()" "x|yz" ["0 - \"ab\" Forward", "0 + \"xyz\""];
        "a|b" l h l.insert_str(2, "é", h), "true" "a|bé" ["2 + \"é\""];
        "abc|" l h l.insert_str(1, "é", h), "false" "aé|bc" ["1 + \"é\""];
        "one| two" l h l.replace(0..3, "1", h), "()" "1| two" ["0 \"one\" > \"1\""];
    });
}

#[test]
fn texts_are_taken_out() {
    edits(&rows! {
        "one two|" l h l.delete_range(0..4, h), "()" "|two" ["0 - \"one \" Forward"];
        "|e\u{301}x" l h l.delete(1, h), "Some(\"e\\u{301}\")" "|x" ["0 - \"e\\u{301}\" Forward"];
        "x|" l h l.delete(1, h), "None" "x|" [];
        "ae\u{301}|" l h l.backspace(1, h), "true" "a|" ["1 - \"e\\u{301}\" Backward"];
        "|x" l h l.backspace(1, h), "false" "|x" [];
        "a|b\nc" l h l.kill_line(h), "true" "a|\nc" ["1 - \"b\" Forward"];
        "a|\nc" l h l.kill_line(h), "true" "a|c" ["1 - \"\\n\" Forward"];
        "a|" l h l.kill_line(h), "false" "a|" [];
        "a|b\nc" l h l.kill_buffer(h), "true" "a|" ["1 - \"b\\nc\" Forward"];
        "a\nb|c" l h l.discard_line(h), "true" "a\n|c" ["2 - \"b\" Backward"];
        "a\n|c" l h l.discard_line(h), "true" "a|c" ["1 - \"\\n\" Backward"];
        "a\nb|c" l h l.discard_buffer(h), "true" "|c" ["0 - \"a\\nb\" Backward"];
        "one two|" l h l.delete_prev_word(Word::Emacs, 1, h), "true" "one |" ["4 - \"two\" Backward"];
        "|one two" l h l.delete_word(At::AfterEnd, Word::Emacs, 1, h), "true" "| two" ["0 - \"one\" Forward"];
        "|abcbe" l h l.delete_to(CharSearch::Forward('b'), 2, h), "true" "|e" ["0 - \"abcb\" Forward"];
        "abc|" l h l.delete_to(CharSearch::BackwardAfter('a'), 1, h), "true" "a|" ["1 - \"bc\" Backward"];
        "abc|" l h l.delete_to(CharSearch::Forward('x'), 1, h), "false" "abc|" [];
    });
}

#[test]
fn texts_are_killed() {
    edits(&rows! {
        "one two|" l h l.kill(&Movement::BackwardWord(1, Word::Emacs), h), "true" "one |"
            ["kill", "4 - \"two\" Backward", "killed"];
        "x|" l h l.kill(&Movement::EndOfLine, h), "false" "x|" ["kill", "killed"];
        "a\nb|c" l h l.kill(&Movement::WholeLine, h), "true" "a\n|" ["kill", "2 - \"bc\" Forward", "killed"];
        "x|y" l h l.kill(&Movement::ForwardChar(1), h), "true" "x|" ["1 - \"y\" Forward"];
        "x|y" l h l.kill(&Movement::BackwardChar(2), h), "true" "|y" ["0 - \"x\" Backward"];
        "one two|" l h l.try_kill_range(0..4, Direction::Backward, h), "Ok(true)" "|two"
            ["kill", "0 - \"one \" Backward", "killed"];
    });
}

#[test]
fn texts_are_changed() {
    edits(&rows! {
        "ab|" l h l.transpose_chars(h), "true" "ba|" ["1 - \"b\" Forward", "0 + \"b\""];
        "a|" l h l.transpose_chars(h), "false" "a|" [];
        "one two|" l h l.transpose_words(1, h), "true" "two one|"
            ["4 - \"two\" Forward", "4 + \"one\"", "0 - \"one\" Forward", "0 + \"two\""];
        "|one two" l h l.edit_word(WordAction::Uppercase, h), "true" "ONE| two"
            ["0 - \"one\" Forward", "0 + \"ONE\""];
        "|ÉCOLE" l h l.edit_word(WordAction::Capitalize, h), "true" "École|"
            ["0 - \"ÉCOLE\" Forward", "0 + \"École\""];
        "|" l h l.edit_word(WordAction::Lowercase, h), "false" "|" [];
        "|a\nb" l h l.indent(&Movement::WholeBuffer, 2, false, h), "true" "  |a\n  b"
            ["0 + \"  \"", "4 + \"  \""];
        "  a|" l h l.indent(&Movement::WholeLine, 2, true, h), "true" "a|" ["0 - \"  \" Forward"];
    });
}

#[test]
fn a_limit_is_kept() {
    let mut line = LineBuffer::with_capacity(4);
    let no_one = &mut NoListener;
    assert_eq!(line.yank("abc", 1, no_one), Some(true));
    assert_eq!(line.insert('é', 1, no_one), None);
    assert_eq!(line.yank("de", 65535, no_one), None);
    assert_eq!(line.insert('d', 1, no_one), Some(true));
    assert_eq!(line.yank_pop(1, "é", no_one), None);
    assert_eq!(shown(&line), "abcd|");
    line.update("ééé", 6, no_one);
    assert_eq!((shown(&line).as_str(), line.limit()), ("éé|", 4));
    let mut line = line.can_growth(true);
    assert_eq!(line.insert('3', 3, no_one), Some(true));
    assert_eq!(line.limit(), 7);
    assert_eq!(LineBuffer::with_capacity(usize::MAX).limit(), usize::MAX);
}

#[test]
fn the_line_is_read() {
    use Movement::{BackwardWord, BeginningOfLine, ForwardChar, WholeBuffer};
    let text = "one e\u{301} \n";
    let line = line_of("one |e\u{301} \n");
    assert_eq!((line.as_str(), line.pos(), line.len()), (text, 4, 9));
    assert!(!line.is_cursor_at_end() && !line.is_end_of_input() && !line.is_empty());
    assert_eq!(line.grapheme_at_cursor(), Some("e\u{301}"));
    assert_eq!(
        [0, 1, 9].map(|n| line.next_pos(n)),
        [None, Some(7), Some(9)]
    );
    let shown = "LineBuffer { buf: \"one e\\u{301} \\n\", pos: 4 }";
    assert_eq!(format!("{line:?}"), shown);
    let copied = [
        BackwardWord(1, Word::Big),
        WholeBuffer,
        BeginningOfLine,
        ForwardChar(0),
    ];
    let copied = copied.map(|it| line.copy(&it).unwrap_or_default());
    assert_eq!(copied, ["one ", text, "one ", ""]);
    assert!(line_of("one| \n").is_end_of_input() && line_of("one|").is_cursor_at_end());
    assert_eq!(
        (line_of("|").grapheme_at_cursor(), line_of("|").next_pos(1)),
        (None, None)
    );
}

#[test]
fn the_cursor_moves() {
    edits(&rows! {
        "one two\nthree|" l _h l.move_forward(1), "false" "one two\nthree|" [];
        "one two\nthree|" l _h l.move_backward(2), "true" "one two\nthr|ee" [];
        "one two\nthr|ee" l _h l.move_home(), "true" "one two\n|three" [];
        "one two\n|three" l _h l.move_home(), "false" "one two\n|three" [];
        "one two\n|three" l _h l.move_end(), "true" "one two\nthree|" [];
        "one two\nthree|" l _h l.move_buffer_start(), "true" "|one two\nthree" [];
        "|one two\nthree" l _h l.move_buffer_start(), "false" "|one two\nthree" [];
        "|one two\nthree" l _h l.move_to_next_word(At::AfterEnd, Word::Emacs, 2), "true" "one two|\nthree" [];
        "one two|\nthree" l _h l.move_to_prev_word(Word::Emacs, 1), "true" "one |two\nthree" [];
        "one |two\nthree" l _h l.move_to(CharSearch::Forward('e'), 9), "true" "one two\nthre|e" [];
        "one two\nthre|e" l _h l.move_to(CharSearch::Backward('z'), 1), "false" "one two\nthre|e" [];
        "one |two\nthree" l _h l.move_buffer_end(), "true" "one two\nthree|" [];
        "one two\nthree|" l _h l.move_buffer_end(), "false" "one two\nthree|" [];
    });
}

#[test]
fn lines_are_those_of_a_layout() {
    let mut layout = Layout::new(GraphemeClusterMode::Unicode);
    let mut line = line_of("abcdef\nxy|");
    assert!(!line.move_to_line_up(0, &layout) && !line.move_to_line_down(1, &layout));
    assert!(line.move_to_line_up(1, &layout) && !line.move_to_line_up(1, &layout));
    assert_eq!(shown(&line), "ab|cdef\nxy");
    layout.prompt_size = Position { col: 2, row: 0 };
    assert!(line.move_to_line_down(9, &layout) && line.move_to_line_up(1, &layout));
    assert_eq!(shown(&line), "|abcdef\nxy");
    let family = "👩\u{200d}👧";
    assert_eq!(layout.width(family), 2);
    assert_eq!(GraphemeClusterMode::WcWidth.width(family), 4);
    assert_eq!(GraphemeClusterMode::NoZwj.width("漢a"), 3);
    assert_eq!(layout.width(&"漢".repeat(40_000)), 65535);
    assert_eq!(['a', '漢', '\u{301}', '\n'].map(cwidh), [1, 2, 0, 0]);
    assert!(Position { col: 9, row: 0 } < Position { col: 0, row: 1 });
    assert_eq!((INDENT.len(), INDENT.trim()), (32, ""));
}

#[test]
fn places_that_are_none_panic() {
    let mut line = line_of("aé|b");
    let h = &mut Heard::of(&line);
    #[allow(clippy::reversed_empty_ranges)]
    let reversed = 3..1;
    macro_rules! panics {
        ($($call:ident($($given:expr),*), $wanted:literal;)*) => {$(
            let said = panic_of(|| line.$call($($given),*));
            assert!(said.contains($wanted), "{said}");
        )*};
    }
    panics! {
        set_pos(5), "pos <= ";
        set_pos(2), "the byte offset is past the end";
        update("é", 3, h), "pos <= ";
        update("é", 1, h), "the byte offset is past the end";
        replace(0..2, "", h), "char boundary";
        replace(0..9, "", h), "9";
        delete_range(reversed.clone(), h), "3";
        insert_str(2, "x", h), "char boundary";
        insert_str(0, "éé", h), "the byte offset is past the end";
        yank_pop(4, "x", h), "yanked";
    }
    assert_eq!(line.try_replace(0..2, "x", h), Err(Error::BadOffset));
    assert_eq!(line.try_delete_range(reversed, h), Err(Error::BadOffset));
    let killed = line.try_kill_range(2..3, Direction::Forward, h);
    assert_eq!(killed, Err(Error::BadOffset));
    assert_eq!(line.try_insert_str(2, "x", h), Err(Error::BadOffset));
    assert_eq!(line.try_update("é", 1, h), Err(Error::BadOffset));
    assert_eq!(line.try_yank_pop(1, "x", h), Err(Error::BadYankSize));
    assert_eq!((shown(&line).as_str(), h.told.len()), ("aé|b", 0));
}

#[test]
fn a_listener_that_panics_ends_the_edit() {
    for (left, text) in ["one two", "one ", "one one", " one"].iter().enumerate() {
        let (mut line, mut heard) = (line_of("one two|"), Heard::of("one two"));
        heard.left = left;
        let said = panic_of(|| line.transpose_words(1, &mut heard));
        assert_eq!(said, "it hears no more");
        assert_eq!((line.as_str(), heard.copy.as_str()), (*text, *text));
        assert!(line.is_char_boundary(line.pos()));
        line.update("a", 1, &mut NoListener);
        assert_eq!(shown(&line), "a|");
    }
}

/// Hears of deletions, and notes by which name.
struct Named<'n>(&'n RefCell<Vec<&'static str>>, &'static str);

impl DeleteListener for Named<'_> {
    fn delete(&mut self, _idx: usize, _string: &str, _dir: Direction) {
        self.0.borrow_mut().push(self.1);
    }
}

/// Both listeners as one.
fn pair<'l, A: ?Sized, D: ?Sized>(all: &'l mut A, deletions: &'l mut D) -> Pair<'l, A, D> {
    Pair { all, deletions }
}

#[test]
fn whoever_hears_is_told() {
    let (mut line, mut changes) = (line_of("one two|"), Changeset::new());
    let (mut first, mut second, mut taken) = (KillRing::new(2), KillRing::new(2), Changeset::new());
    let mut both = pair(&mut changes, &mut first);
    let word = Movement::BackwardWord(1, Word::Emacs);
    line.kill(&word, &mut pair(&mut both, &mut second));
    assert_eq!(
        [&first, &second].map(|it| it.text_back(0)),
        [Some("two"); 2]
    );
    line.yank("x", 1, &mut pair(&mut NoListener, &mut taken));
    line.backspace(1, &mut pair(&mut NoListener, &mut taken));
    assert_eq!((changes.len(), taken.len()), (1, 1));
    assert!(changes.undo(&mut line, 1));
    assert_eq!(shown(&line), "one two|");
    let names = RefCell::new(vec![]);
    let (mut all, mut deletions) = (Named(&names, "all"), Named(&names, "deletions"));
    let mut both = pair(&mut all, &mut deletions);
    line.backspace(1, &mut both);
    both.delete(0, "x", Direction::Forward);
    let heard: &mut dyn DeleteListener = &mut both;
    line.backspace(1, heard);
    assert_eq!(*names.borrow(), ["deletions", "all"].repeat(3));
}

#[test]
fn what_compiles_with_rustyline_compiles() {
    // As a listener calls it that holds a record, if there is one.
    fn record(c: &mut Option<&mut Changeset>) {
        if let Some(x) = c {
            x.insert(0, 'a');
            x.insert_str(1, String::from("b"));
            x.replace(0, "a", "c");
            x.delete(0, "cb");
        }
    }
    let mut changes = Changeset::new();
    record(&mut Some(&mut changes));
    assert_eq!(changes.len(), 4);
    let line = line_of("é|");
    let (text, bytes): (String, &[u8]) = (line.to_owned(), line.as_ref());
    assert_eq!((text.as_str(), bytes), ("é", "é".as_bytes()));
}

#[test]
fn a_listener_may_be_a_trait_object() {
    let (mut line, mut heard) = (line_of("|"), Heard::of(""));
    let told: &mut dyn ChangeListener = &mut heard;
    line.insert('a', 1, told);
    line.yank("b", 2, told);
    line.kill(&Movement::WholeLine, told);
    assert_eq!(heard.told.len(), 5);
    let mut changes: Box<dyn ChangeListener> = Box::new(Changeset::new());
    line.insert('a', 1, &mut *changes);
}

#[test]
fn all_may_be_sent_and_shared() {
    fn shared<T: Send + Sync + UnwindSafe + RefUnwindSafe>() {}
    shared::<(LineBuffer, Changeset, KillRing, Layout)>();
}

#[test]
fn texts_are_lent_and_given_away() {
    let mut line = line_of("é|b");
    assert_eq!(format!("{line:>5} {}", line.limit()), "   éb 4096");
    line.insert('c', 1, &mut NoListener);
    let at = line.as_ptr();
    let text = String::from(line);
    assert_eq!((text.as_str(), text.as_ptr()), ("écb", at));
    let mut ring = KillRing::new(2);
    ring.kill(&text, Mode::Append);
    let at = ring.text_back(0).map(str::as_ptr);
    assert_eq!(ring.yank().map(|text| text.as_ptr()), at);
}

/// Makes an edit at random.
fn edit(line: &mut LineBuffer, random: &mut Random, l: &mut impl ChangeListener) -> bool {
    let (n, text, movement) = (random.count(), random.text(), random.movement());
    let (places, place) = (random.places(line), random.place(line));
    match random.below(16) {
        0..=3 => line.insert(random.letter(), n, l).is_some(),
        4..=5 => line.yank(&text, n, l).is_some(),
        6 => line.try_replace(places, &text, l).is_ok(),
        7 => line.try_insert_str(place, &text, l).is_ok(),
        8 => line.try_delete_range(places, l).is_ok(),
        9..=10 => line.kill(&movement, l),
        11 => line.backspace(n, l),
        12 => line.delete(n, l).is_some(),
        13 => line.transpose_words(n, l) || line.transpose_chars(l),
        14 => {
            let actions = [WordAction::Capitalize, WordAction::Uppercase];
            line.edit_word(random.one(&actions), l)
        }
        _ => line.indent(&movement, 3, n == 1, l),
    }
}

#[test]
fn listeners_follow_lines_at_random() {
    for seed in 0..20 {
        let (mut random, mut line) = (Random(seed), LineBuffer::with_capacity(200));
        let (mut heard, mut changes) = (Heard::of(""), Changeset::new());
        let mut seen = vec![String::new()];
        for _ in 0..200 {
            let mut both = random.clone();
            let mut other = LineBuffer::with_capacity(line.limit());
            other.insert_str(0, &line, &mut NoListener);
            other.set_pos(line.pos());
            edit(&mut other, &mut both, &mut heard);
            edit(&mut line, &mut random, &mut changes);
            assert_eq!(shown(&line), shown(&other));
            assert_eq!(line.as_str(), heard.copy);
            assert!(changes.undo_fits(&line));
            seen.push(line.as_str().to_owned());
            if line.is_empty() || random.below(3) == 0 {
                line.move_to_prev_word(random.word(), 1);
            }
        }
        let end = line.as_str().to_owned();
        while changes.can_undo() {
            assert!(changes.undo(&mut line, 1));
        }
        assert!(line.is_empty() && !changes.undo(&mut line, 1));
        while changes.redo(&mut line) {}
        assert_eq!(line.as_str(), end);
    }
}
