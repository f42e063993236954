//! Times an editor's keys through the crate `lodvarn` and through rustyline's own core, named `original`, by turns:
//! the row of the number that it is given, or all. The two must end with the same texts and cursors.
//!
//! By the words ROW KEYS `lodvarn` or `original` it does so many keys of the row of that name by one of the two, for
//! their instructions to be counted. With the feature `alone` there is no core of rustyline.
#![cfg_attr(feature = "older", allow(dead_code))]
use std::sync::atomic::{AtomicUsize, Ordering};
use std::time::{Duration, Instant};

/// A line of prose.
const PROSE: &str =
    "The kill ring keeps the last texts, and a yank puts one of them (\"déjà vu\") back;\n";
/// A line of ten bytes.
const SHORT: &str = "abcdefghi\n";
/// How many rounds there are of each row.
const ROUNDS: usize = 101;
/// How many times its target fails a row.
const MOST: f64 = 1.3;

/// What an editor makes of a key. Each begins with what every key does: the ring is reset; and ends with what is drawn:
/// the text and the cursor are read. It returns the sum of the text's length and the cursor's place.
trait Keys {
    /// An editor with an empty line.
    fn new() -> Self;
    /// A character is typed.
    fn insert(&mut self, c: char) -> usize;
    /// What was recorded last is undone, so many times.
    fn undo(&mut self, n: u16) -> usize;
    /// The text.
    fn text(&self) -> &str;
}

/// The record and the ring of an editor on the crate.
pub struct Heard {
    all: ::lodvarn::undo::Changeset,
    deletions: ::lodvarn::kill_ring::KillRing,
}

/// An editor on a core that has the interface of rustyline 19. Its record hears of all that the line does, and its
/// ring of what is deleted: it is said how the two are made one listener.
macro_rules! editor_of {
    ($name:ident, $heard_type:ty, |$heard:ident| $both:expr) => {
        mod $name {
            use super::Keys;
            use ::$name::keymap::{At, Movement, Word};
            use ::$name::kill_ring::{KillRing, Mode};
            use ::$name::layout::{GraphemeClusterMode, Layout};
            use ::$name::line_buffer::{LineBuffer, NoListener, WordAction};
            use ::$name::undo::Changeset;

            type Heard = $heard_type;

            pub struct Editor {
                line: LineBuffer,
                heard: Heard,
            }

            impl Editor {
                /// Makes an edit that some key stands for.
                fn key<A>(&mut self, edit: impl FnOnce(&mut LineBuffer, &mut Heard) -> A) -> usize {
                    self.heard.deletions.reset();
                    edit(&mut self.line, &mut self.heard);
                    self.line.as_str().len() + self.line.pos()
                }
                /// The line gets a text and a cursor, of which no one hears.
                pub fn put(&mut self, text: &str, pos: usize) {
                    self.line.update(text, pos, &mut NoListener);
                }
                /// It gets a text too, and so many changes at its end, of which the record keeps each by itself.
                pub fn change(&mut self, text: &str, times: u16) {
                    self.put(text, text.len());
                    for _ in 0..times {
                        self.insert('-');
                    }
                }
                /// The ring gets a text.
                pub fn keep(&mut self, text: &str) {
                    self.heard.deletions.kill(text, Mode::Append);
                }
                /// What was undone last is made again. The cursor is left out, since the original does not move it.
                pub fn redo(&mut self) -> usize {
                    self.key(|line, heard| heard.all.redo(line)) - self.line.pos()
                }
                pub fn backspace(&mut self) -> usize {
                    self.key(|line, $heard| line.backspace(1, $both))
                }
                pub fn kill_word(&mut self) -> usize {
                    let word = Movement::BackwardWord(1, Word::Emacs);
                    self.key(|line, $heard| line.kill(&word, $both))
                }
                /// A word is killed ahead, or back, and joins what was killed before it.
                pub fn kill_on(&mut self, is_ahead: bool) -> usize {
                    let ahead = Movement::ForwardWord(1, At::AfterEnd, Word::Emacs);
                    let back = Movement::BackwardWord(1, Word::Emacs);
                    let $heard = &mut self.heard;
                    self.line.kill(if is_ahead { &ahead } else { &back }, $both);
                    self.line.as_str().len() + self.line.pos()
                }
                /// The line gets a text, and so many changes all over it, of four kinds by turns.
                pub fn change_all_over(&mut self, text: &str, times: usize) {
                    self.put(text, 0);
                    for turn in 0..times {
                        self.line.set_pos(turn * 7919 % self.line.len());
                        match turn % 4 {
                            0 => self.insert('-'),
                            1 => self.backspace(),
                            2 => self.kill_word(),
                            _ => self.yank(),
                        };
                    }
                }
                /// The length of what a movement covers, which is copied.
                pub fn copy(&self, movement: &Movement) -> usize {
                    self.line.copy(movement).map_or(0, |text| text.len())
                }
                pub fn copy_word(&self) -> usize {
                    self.copy(&Movement::BackwardWord(1, Word::Emacs))
                }
                pub fn copy_all(&self) -> usize {
                    self.copy(&Movement::WholeBuffer)
                }
                pub fn yank(&mut self) -> usize {
                    self.key(|line, heard| {
                        let text = heard.deletions.yank().expect("a text is kept");
                        line.yank(text, 1, &mut heard.all)
                    })
                }
                /// The whole text gives way to another, as to one of the history.
                pub fn update(&mut self, text: &str) -> usize {
                    self.key(|line, $heard| line.update(text, text.len(), $both))
                }
                /// So many bytes at the start give way to a text, as to one that completes them.
                pub fn replace(&mut self, len: usize, text: &str) -> usize {
                    self.key(|line, $heard| line.replace(0..len, text, $both))
                }
                pub fn capitalize(&mut self) -> usize {
                    self.key(|line, $heard| line.edit_word(WordAction::Capitalize, $both))
                }
                /// A line is begun, with a record.
                #[cfg(not(feature = "older"))]
                pub fn begin(&mut self) -> usize {
                    self.line = LineBuffer::with_capacity(4096).can_growth(true);
                    self.heard.all = Changeset::new();
                    // Else the compiler leaves the line out.
                    std::hint::black_box(&mut self.line);
                    self.key(|_, _| ())
                }
                /// How many columns the text takes.
                pub fn width(&self) -> usize {
                    GraphemeClusterMode::Unicode.width(self.text()).into()
                }
                /// The cursor moves, by one of eight motions, of which all but the last two have a count.
                pub fn go(&mut self, motion: usize, n: u16) -> usize {
                    let layout = Layout::new(GraphemeClusterMode::Unicode);
                    self.key(|line, _| match motion % 8 {
                        0 => line.move_to_next_word(At::AfterEnd, Word::Emacs, n),
                        1 => line.move_to_prev_word(Word::Emacs, n),
                        2 => line.move_forward(n),
                        3 => line.move_backward(n),
                        4 => line.move_to_line_up(n, &layout),
                        5 => line.move_to_line_down(n, &layout),
                        6 => line.move_home(),
                        _ => line.move_end(),
                    })
                }
            }

            impl Keys for Editor {
                fn new() -> Self {
                    Self {
                        line: LineBuffer::with_capacity(4096).can_growth(true),
                        heard: Heard {
                            all: Changeset::new(),
                            deletions: KillRing::new(60),
                        },
                    }
                }
                fn insert(&mut self, c: char) -> usize {
                    self.key(|line, $heard| line.insert(c, 1, $both))
                }
                fn undo(&mut self, n: u16) -> usize {
                    self.key(|line, heard| heard.all.undo(line, n))
                }
                fn text(&self) -> &str {
                    self.line.as_str()
                }
            }
        }
    };
}

editor_of!(lodvarn, crate::Heard, |heard| &mut ::lodvarn::Pair {
    all: &mut heard.all,
    deletions: &mut heard.deletions,
});
#[cfg(not(any(feature = "older", feature = "alone")))]
editor_of!(original, crate::heard::Heard, |heard| heard);
#[cfg(feature = "alone")]
use self::lodvarn as original;

#[cfg(not(any(feature = "older", feature = "alone")))]
mod heard;

/// An editor on a session of the crate.
mod session {
    pub struct Editor(lodvarn::Session);

    impl Editor {
        fn look(&self) -> usize {
            self.0.text().len() + self.0.pos()
        }
        pub fn change(&mut self, text: &str, times: u16) {
            self.0.restart(text).expect("there is memory");
            for _ in 0..times {
                super::Keys::insert(self, '-');
            }
        }
        pub fn redo(&mut self) -> usize {
            self.0.redo().expect("there is memory");
            self.look() - self.0.pos()
        }
        /// What changed is reported from now on, by numbers.
        pub fn watch(&mut self) {
            self.0.watch(1, 0).expect("there is memory");
        }
        /// A character is typed, and what it reports is read.
        pub fn insert_and_read(&mut self, c: char) -> usize {
            let pos = super::Keys::insert(self, c);
            pos + self.0.take_report().map_or(0, |report| report.new_len)
        }
    }

    impl super::Keys for Editor {
        fn new() -> Self {
            let opened = lodvarn::Session::builder().open();
            Self(opened.expect("there is memory"))
        }
        fn insert(&mut self, c: char) -> usize {
            self.0.insert(c, 1).expect("there is memory");
            self.look()
        }
        fn undo(&mut self, n: u16) -> usize {
            self.0.undo(n).expect("there is memory");
            self.look()
        }
        fn text(&self) -> &str {
            self.0.text()
        }
    }
}

/// An editor on the core of rustyline 9: its line keeps the listeners.
#[cfg(feature = "older")]
mod original {
    use original::{kill_ring::KillRing, line_buffer::LineBuffer, undo::Changeset};
    use std::{cell::RefCell, rc::Rc, sync::Arc, sync::Mutex};

    pub struct Editor {
        line: LineBuffer,
        record: Rc<RefCell<Changeset>>,
        ring: Arc<Mutex<KillRing>>,
    }

    impl super::Keys for Editor {
        fn new() -> Self {
            let mut line = LineBuffer::with_capacity(4096).can_growth(true);
            let record = Rc::new(RefCell::new(Changeset::new()));
            let ring = Arc::new(Mutex::new(KillRing::new(60)));
            line.set_delete_listener(ring.clone());
            line.set_change_listener(record.clone());
            Self { line, record, ring }
        }
        fn insert(&mut self, c: char) -> usize {
            self.ring.lock().expect("no one else has it").reset();
            self.line.insert(c, 1);
            self.line.as_str().len() + self.line.pos()
        }
        fn undo(&mut self, n: u16) -> usize {
            self.ring.lock().expect("no one else has it").reset();
            self.record.borrow_mut().undo(&mut self.line, n.into());
            self.line.as_str().len() + self.line.pos()
        }
        fn text(&self) -> &str {
            self.line.as_str()
        }
    }
}

/// What a round leaves: the last text, and the sum of all that keys returned, so that no look is left out as unused.
type Left = (String, usize);

/// Makes some editors ready, and times keys in each, which get their number. Returns the nanoseconds that one took, and
/// what is left.
fn time<E: Keys>(
    editors: usize,
    keys: usize,
    prepare: impl Fn(&mut E),
    key: impl Fn(&mut E, usize) -> usize,
) -> (f64, Left) {
    let (mut took, mut last, mut sum) = (Duration::ZERO, String::new(), 0);
    for _ in 0..editors {
        let mut editor = E::new();
        prepare(&mut editor);
        let begin = Instant::now();
        for turn in 0..keys {
            sum += key(&mut editor, turn);
        }
        took += begin.elapsed();
        last = editor.text().to_string();
    }
    let took = took.as_nanos() as f64 / (editors * keys) as f64;
    (took, (last, sum))
}

/// The number in the middle.
fn median(mut numbers: Vec<f64>) -> f64 {
    numbers.sort_by(f64::total_cmp);
    numbers[numbers.len() / 2]
}

/// Whether the next row is wanted. Each is in a process of its own, so that none finds the heap that another left.
fn is_wanted() -> bool {
    static ROW: AtomicUsize = AtomicUsize::new(0);
    let row = ROW.fetch_add(1, Ordering::Relaxed).to_string();
    std::env::args().skip(1).all(|wanted| wanted == row)
}

/// Does the keys of a row by one of the two, and ends the program, if these are to be counted.
fn count(what: &str, by: &str, time: impl Fn(usize, usize) -> (f64, Left)) {
    let words: Vec<String> = std::env::args().collect();
    if words.len() == 4 && words[1] == what && words[3] == by {
        let (_, (_, sum)) = time(1, words[2].parse().expect("a number of keys"));
        println!("{what}: {sum}");
        std::process::exit(0);
    }
}

/// Prints what a key takes in each, the least of all rounds of so many editors and keys, and the median of the ratios
/// within a round.
fn compare(
    what: &str,
    target: f64,
    (editors, keys): (usize, usize),
    time_ours: impl Fn(usize, usize) -> (f64, Left),
    time_theirs: impl Fn(usize, usize) -> (f64, Left),
) {
    count(what, "lodvarn", &time_ours);
    if cfg!(feature = "alone") {
        return;
    }
    count(what, "original", &time_theirs);
    if !is_wanted() {
        return;
    }
    let (mut ours, mut theirs, mut ratios) = (f64::MAX, f64::MAX, Vec::new());
    for _ in 0..ROUNDS {
        let (ours_now, ends) = time_ours(editors, keys);
        let (theirs_now, as_ends) = time_theirs(editors, keys);
        assert!(ends == as_ends, "{what}: the two end otherwise");
        ours = ours.min(ours_now);
        theirs = theirs.min(theirs_now);
        ratios.push(ours_now / theirs_now);
    }
    println!(
        "{what}: {ours:.1} ns, {theirs:.1} ns by rustyline, target {target}, at most {:.3}, ratio {:.2}",
        target * MOST,
        median(ratios)
    );
}

/// Compares rows of one of our editors. Of each: what it is; its target; how many editors a round has, how many keys
/// each gets, what makes an editor ready, and a key.
macro_rules! rows {
    ($ours:ident: $($what:expr, $target:literal, $editors:literal, $keys:literal, $prepare:expr, $key:expr;)*) => {$(
        compare(
            $what,
            $target,
            ($editors, $keys),
            |editors, keys| time::<$ours::Editor>(editors, keys, $prepare, $key),
            |editors, keys| time::<original::Editor>(editors, keys, $prepare, $key),
        );
    )*};
}

/// So many characters of prose.
fn prose(len: usize) -> String {
    PROSE.chars().cycle().take(len).collect()
}

/// The rows that a core needs the interface of rustyline 19 for.
#[cfg(not(feature = "older"))]
fn compare_more(typed: &[char]) {
    let (kb, plain, long) = (&prose(1000), &String::from_iter(typed), &prose(47_000));
    rows! { lodvarn:
        "a letter in the middle of 1 KB", 1.0, 20, 500, |e| e.put(kb, 500), |e, i| e.insert(typed[i]);
        "a backspace", 1.0, 10, 800, |e| e.put(kb, kb.len()), |e, _| e.backspace();
        "a word killed", 0.95, 20, 100, |e| e.put(kb, kb.len()), |e, _| e.kill_word();
        "a copy of a word", 1.0, 1, 2000, |e| e.put(kb, kb.len()), |e, _| e.copy_word();
        "a copy of 47 KB", 1.0, 1, 50, |e| e.put(long, 0), |e, _| e.copy_all();
        "a yank of 20 bytes", 1.2, 40, 50, |e| { e.put(kb, kb.len()); e.keep(&kb[..20]); }, |e, _| e.yank();
        "a yank of 47 KB", 1.0, 20, 1, |e| e.keep(long), |e, _| e.yank();
        "a text of 1 KB replaced", 1.1, 10, 100, |_| (), |e, _| e.update(kb);
        "a word replaced", 1.1, 10, 100, |e| e.put(kb, 0), |e, _| e.replace(3, "one");
        "a new line with its record", 1.1, 1, 2000, |_| (), |e, _| e.begin();
        "a width of 1 KB", 0.95, 1, 200, |e| e.put(plain, 0), |e, _| e.width();
        "a word's case", 0.95, 20, 100, |e| e.put(kb, 0), |e, _| e.capitalize();
        "moves", 0.95, 1, 8000, |e| e.put(kb, 500), |e, i| e.go(i, 1);
    }
    compare_larger(typed);
    for (size, len) in [("1 KB", 1000), ("100 KB", 100_000), ("1 MB", 1_000_000)] {
        let text = &prose(len);
        rows! { lodvarn:
            &format!("an undo at {size}"), 1.2, 10, 400, |e| e.change(text, 400), |e, _| e.undo(1);
            &format!("a redo at {size}"), 1.5, 10, 400, |e| { e.change(text, 400); e.undo(400); }, |e, _| e.redo();
        }
        rows! { session:
            &format!("an undo at {size} by a session"), 1.0, 10, 400, |e| e.change(text, 400), |e, _| e.undo(1);
            &format!("a redo at {size} by a session"), 1.5, 10, 400,
                |e| { e.change(text, 400); e.undo(400); }, |e, _| e.redo();
        }
    }
}

/// The rows of larger texts, and of what is typed at their ends or by a session.
#[cfg(not(feature = "older"))]
fn compare_larger(typed: &[char]) {
    let (kb, larger) = (&prose(1000), &prose(20_000));
    let (words, lines) = (&"to and fro, 12 times;\n".repeat(900), &SHORT.repeat(1000));
    let many_lines = &SHORT.repeat(1_000_000);
    rows! { lodvarn:
        "a sign at the end", 0.6, 10, 1000, |_| (), |e, _| e.insert('-');
        "a sign in the middle of 1 KB", 0.9, 20, 500, |e| e.put(kb, 500), |e, _| e.insert('-');
        "a letter in 10 KB of short lines", 1.0, 10, 500, |e| e.put(lines, 5000), |e, i| e.insert(typed[i]);
        "a letter in 10 MB of short lines", 1.05, 1, 10, |e| e.put(many_lines, 5_000_000), |e, i| e.insert(typed[i]);
        "words killed both ways", 1.0, 10, 400, |e| e.put(words, 9000), |e, i| e.kill_on(i % 2 == 0);
        "a word ahead", 0.95, 1, 2000, |e| e.put(larger, 0), |e, _| e.go(0, 1);
        "a word back", 0.95, 1, 2000, |e| e.put(larger, larger.len()), |e, _| e.go(1, 1);
        "home and end", 0.95, 1, 8000, |e| e.put(larger, 10_000), |e, i| e.go(6 + i % 2, 1);
        "a hundred lines up and down", 0.5, 1, 400, |e| e.put(larger, 19_000), |e, i| e.go(4 + i % 2, 100);
        "an undo all over 20 KB", 1.2, 10, 400, |e| e.change_all_over(words, 400), |e, _| e.undo(1);
        "a redo all over 20 KB", 1.2, 10, 400, |e| { e.change_all_over(words, 400); e.undo(400); }, |e, _| e.redo();
    }
    rows! { session:
        "a letter at the end by a session", 0.9, 10, 1000, |_| (), |e, i| e.insert(typed[i]);
    }
    let read = |e: &mut session::Editor, i| e.insert_and_read(typed[i]);
    let watched = |editors, keys| time(editors, keys, session::Editor::watch, read);
    count("the same, reported by numbers", "lodvarn", watched);
}

fn main() {
    let typed: Vec<char> = prose(1000).replace('\n', " ").chars().collect();
    rows! { lodvarn:
        "a letter at the end of a line", 0.8, 10, 1000, |_| (), |e, i| e.insert(typed[i]);
        "the same, with an undo after each 16", 1.0, 10, 1000, |_| (),
            |e, i| if i % 17 == 16 { e.undo(1) } else { e.insert(typed[i]) };
    }
    #[cfg(not(feature = "older"))]
    compare_more(&typed);
}
