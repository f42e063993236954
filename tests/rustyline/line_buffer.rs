//! The line of the editor, over that of the crate `lodvarn`. The editor hands its listeners to the line once; a line of
//! `lodvarn` takes one at each call. Counts are cut at 65535, an indentation at 255.
use crate::keymap::{At, CharSearch, Movement, RepeatCount, Word};
use lodvarn::keymap as newer;
use lodvarn::layout::{GraphemeClusterMode, Layout};
use lodvarn::line_buffer as line;
use std::cell::RefCell;
use std::convert::TryFrom;
use std::fmt;
use std::ops::{Deref, DerefMut, Range};
use std::rc::Rc;
use std::sync::{Arc, Mutex};

pub use line::WordAction;
pub(crate) use line::{ChangeListener, DeleteListener, Direction, MAX_LINE};

/// The ring and the record that hear a line, as one listener. One that is in use as the call comes hears nothing: the
/// editor holds its ring while it puts the ring's text into the line.
#[derive(Default)]
struct Both {
    ring: Option<Arc<Mutex<dyn DeleteListener>>>,
    record: Option<Rc<RefCell<dyn ChangeListener>>>,
}

impl Both {
    fn tell_ring(&self, tell: impl FnOnce(&mut dyn DeleteListener)) {
        if let Some(Ok(mut ring)) = self.ring.as_ref().map(|ring| ring.try_lock()) {
            tell(&mut *ring);
        }
    }

    fn tell_record(&self, tell: impl FnOnce(&mut dyn ChangeListener)) {
        if let Some(Ok(mut record)) = self.record.as_ref().map(|record| record.try_borrow_mut()) {
            tell(&mut *record);
        }
    }
}

impl DeleteListener for Both {
    fn start_killing(&mut self) {
        self.tell_ring(|ring| ring.start_killing());
    }

    fn delete(&mut self, at: usize, text: &str, direction: Direction) {
        self.tell_ring(|ring| ring.delete(at, text, direction));
        self.tell_record(|record| record.delete(at, text, direction));
    }

    fn stop_killing(&mut self) {
        self.tell_ring(|ring| ring.stop_killing());
    }
}

impl ChangeListener for Both {
    fn insert_char(&mut self, at: usize, c: char) {
        self.tell_record(|record| record.insert_char(at, c));
    }

    fn insert_str(&mut self, at: usize, text: &str) {
        self.tell_record(|record| record.insert_str(at, text));
    }

    fn replace(&mut self, at: usize, old: &str, new: &str) {
        self.tell_record(|record| record.replace(at, old, new));
    }
}

/// A count of the editor as one of `lodvarn`.
pub(crate) fn count(n: RepeatCount) -> newer::RepeatCount {
    newer::RepeatCount::try_from(n).unwrap_or(newer::RepeatCount::MAX)
}

fn word_of(word: Word) -> newer::Word {
    match word {
        Word::Big => newer::Word::Big,
        Word::Emacs => newer::Word::Emacs,
        Word::Vi => newer::Word::Vi,
    }
}

fn at_of(at: At) -> newer::At {
    match at {
        At::Start => newer::At::Start,
        At::BeforeEnd => newer::At::BeforeEnd,
        At::AfterEnd => newer::At::AfterEnd,
    }
}

fn search_of(search: CharSearch) -> newer::CharSearch {
    match search {
        CharSearch::Forward(c) => newer::CharSearch::Forward(c),
        CharSearch::ForwardBefore(c) => newer::CharSearch::ForwardBefore(c),
        CharSearch::Backward(c) => newer::CharSearch::Backward(c),
        CharSearch::BackwardAfter(c) => newer::CharSearch::BackwardAfter(c),
    }
}

fn movement_of(movement: &Movement) -> newer::Movement {
    use newer::Movement as To;
    match *movement {
        Movement::WholeLine => To::WholeLine,
        Movement::BeginningOfLine => To::BeginningOfLine,
        Movement::EndOfLine => To::EndOfLine,
        Movement::BackwardWord(n, word) => To::BackwardWord(count(n), word_of(word)),
        Movement::ForwardWord(n, at, word) => To::ForwardWord(count(n), at_of(at), word_of(word)),
        Movement::ViCharSearch(n, search) => To::ViCharSearch(count(n), search_of(search)),
        Movement::ViFirstPrint => To::ViFirstPrint,
        Movement::BackwardChar(n) => To::BackwardChar(count(n)),
        Movement::ForwardChar(n) => To::ForwardChar(count(n)),
        Movement::LineUp(n) => To::LineUp(count(n)),
        Movement::LineDown(n) => To::LineDown(count(n)),
        Movement::WholeBuffer => To::WholeBuffer,
        Movement::BeginningOfBuffer => To::BeginningOfBuffer,
        Movement::EndOfBuffer => To::EndOfBuffer,
    }
}

/// By this the editor moves over lines: the prompt is no part of the columns.
fn layout() -> Layout {
    Layout::new(GraphemeClusterMode::Unicode)
}

/// A text with its cursor, and the listeners of its changes. What takes neither a count nor a listener is that of the line
/// beneath.
pub struct LineBuffer {
    pub(crate) inner: line::LineBuffer,
    both: Both,
}

impl fmt::Debug for LineBuffer {
    fn fmt(&self, f: &mut fmt::Formatter<'_>) -> fmt::Result {
        self.inner.fmt(f)
    }
}

impl Deref for LineBuffer {
    type Target = line::LineBuffer;

    fn deref(&self) -> &line::LineBuffer {
        &self.inner
    }
}

impl DerefMut for LineBuffer {
    fn deref_mut(&mut self) -> &mut line::LineBuffer {
        &mut self.inner
    }
}

/// What is opened, heard, and read.
impl LineBuffer {
    /// An empty line that may hold that many bytes.
    pub fn with_capacity(capacity: usize) -> Self {
        Self {
            inner: line::LineBuffer::with_capacity(capacity),
            both: Both::default(),
        }
    }

    /// Whether it may hold more than its capacity.
    pub(crate) fn can_growth(mut self, can_growth: bool) -> Self {
        self.inner = self.inner.can_growth(can_growth);
        self
    }

    /// A line of a text, for the editor's tests.
    #[cfg(test)]
    pub(crate) fn init(
        text: &str,
        pos: usize,
        record: Option<Rc<RefCell<dyn ChangeListener>>>,
    ) -> Self {
        let mut line = Self::with_capacity(MAX_LINE);
        line.insert_str(0, text);
        line.set_pos(pos);
        line.both.record = record;
        line
    }

    /// The ring that hears the line from now on.
    pub(crate) fn set_delete_listener(&mut self, ring: Arc<Mutex<dyn DeleteListener>>) {
        self.both.ring = Some(ring);
    }

    /// The record that hears the line from now on.
    pub(crate) fn set_change_listener(&mut self, record: Rc<RefCell<dyn ChangeListener>>) {
        self.both.record = Some(record);
    }

    /// The text, taken out.
    pub fn into_string(self) -> String {
        self.inner.into_string()
    }

    /// The place `n` grapheme clusters to the right of the cursor.
    pub fn next_pos(&self, n: RepeatCount) -> Option<usize> {
        self.inner.next_pos(count(n))
    }

    /// The text that a movement covers.
    pub fn copy(&self, movement: &Movement) -> Option<String> {
        self.inner.copy(&movement_of(movement))
    }
}

// Calls of the line beneath by the same name: what each is given and returns, and what it passes on.
macro_rules! motions {
    ($($name:ident($($given:ident: $type:ty),*) = ($($passed:expr),*);)*) => {$(
        pub fn $name(&mut self, $($given: $type),*) -> bool {
            self.inner.$name($($passed),*)
        }
    )*};
}

// The same of edits, which the listeners hear.
macro_rules! edits {
    ($($name:ident($($given:ident: $type:ty),*) $(-> $answer:ty)? = ($($passed:expr),*);)*) => {$(
        pub fn $name(&mut self, $($given: $type),*) $(-> $answer)? {
            self.inner.$name($($passed,)* &mut self.both)
        }
    )*};
}

/// Motions. Each returns whether the cursor moved.
impl LineBuffer {
    motions! {
        move_backward(n: RepeatCount) = (count(n));
        move_forward(n: RepeatCount) = (count(n));
        move_to_prev_word(word: Word, n: RepeatCount) = (word_of(word), count(n));
        move_to_next_word(at: At, word: Word, n: RepeatCount) = (at_of(at), word_of(word), count(n));
        move_to_line_up(n: RepeatCount) = (count(n), &layout());
        move_to_line_down(n: RepeatCount) = (count(n), &layout());
        move_to(search: CharSearch, n: RepeatCount) = (search_of(search), count(n));
    }
}

/// Insertions, replacements, deletions, kills, and edits of what stands around the cursor.
impl LineBuffer {
    edits! {
        update(text: &str, pos: usize) = (text, pos);
        insert(c: char, n: RepeatCount) -> Option<bool> = (c, count(n));
        yank(text: &str, n: RepeatCount) -> Option<bool> = (text, count(n));
        yank_pop(size: usize, text: &str) -> Option<bool> = (size, text);
        replace(range: Range<usize>, text: &str) = (range, text);
        insert_str(at: usize, text: &str) -> bool = (at, text);
        delete(n: RepeatCount) -> Option<String> = (count(n));
        backspace(n: RepeatCount) -> bool = (count(n));
        delete_range(range: Range<usize>) = (range);
        kill_line() -> bool = ();
        kill_buffer() -> bool = ();
        discard_line() -> bool = ();
        discard_buffer() -> bool = ();
        delete_prev_word(word: Word, n: RepeatCount) -> bool = (word_of(word), count(n));
        delete_word(at: At, word: Word, n: RepeatCount) -> bool = (at_of(at), word_of(word), count(n));
        delete_to(search: CharSearch, n: RepeatCount) -> bool = (search_of(search), count(n));
        kill(movement: &Movement) -> bool = (&movement_of(movement));
        transpose_chars() -> bool = ();
        transpose_words(n: RepeatCount) -> bool = (count(n));
        edit_word(action: WordAction) -> bool = (action);
        indent(movement: &Movement, amount: usize, dedent: bool) -> bool
            = (&movement_of(movement), u8::try_from(amount).unwrap_or(u8::MAX), dedent);
    }
}
