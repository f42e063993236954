//! The types that calls take and return, and what they are in the core.
use crate::proved::rl_base::{self, GraphemeClusterMode, Unit, WordAction};
use core::num::NonZeroU16;

/// How columns are counted.
#[derive(Clone, Copy, Debug, Default, PartialEq, Eq, Hash)]
pub enum Mode {
    /// The width of the whole text, an emoji sequence as one emoji.
    #[default]
    Unicode,
    /// The sum of the widths of its characters.
    WcWidth,
    /// The sum of the widths of the parts between zero-width joiners.
    NoZwj,
}

/// What belongs to a word.
#[derive(Clone, Copy, Debug, PartialEq, Eq, Hash)]
pub enum Word {
    /// Everything but blanks.
    Big,
    /// Letters and digits.
    Emacs,
    /// Letters, digits and `_`. A run of other characters except blanks is a word too.
    Vi,
}

/// Where a motion forward by words stops.
#[derive(Clone, Copy, Debug, PartialEq, Eq, Hash)]
pub enum At {
    /// At the start of a word.
    Start,
    /// At the last cluster of a word; after an Emacs word.
    BeforeEnd,
    /// After a word.
    AfterEnd,
}

/// The letter case that a word gets.
#[derive(Clone, Copy, Debug, PartialEq, Eq, Hash)]
pub enum Case {
    /// The first character in upper case, the others in lower case.
    Capitalize,
    /// All in lower case.
    Lowercase,
    /// All in upper case.
    Uppercase,
}

/// Where a search for a character goes.
#[derive(Clone, Copy, Debug, PartialEq, Eq, Hash)]
pub enum CharSearch {
    /// Forward, to the character; a deletion takes it too.
    Forward(char),
    /// Forward, to the one before the character; a deletion leaves the character.
    ForwardBefore(char),
    /// Back, to the character; a deletion takes it too.
    Backward(char),
    /// Back, to the offset after the character; a deletion leaves it.
    BackwardAfter(char),
}

impl CharSearch {
    pub(crate) fn to_core(self) -> rl_base::CharSearch {
        use rl_base::CharSearch as Core;
        match self {
            CharSearch::Forward(c) => Core::Forward(c),
            CharSearch::ForwardBefore(c) => Core::ForwardBefore(c),
            CharSearch::Backward(c) => Core::Backward(c),
            CharSearch::BackwardAfter(c) => Core::BackwardAfter(c),
        }
    }
}

/// Where a motion goes, and what a kill, a copy or an indent covers. Those with a count have a function besides, which
/// makes one with a count of 1: [`Movement::backward_word`] and others.
#[derive(Clone, Copy, Debug, PartialEq, Eq, Hash)]
#[non_exhaustive]
pub enum Movement {
    /// The cursor's line. No motion.
    WholeLine,
    /// To the start of the cursor's line.
    BeginningOfLine,
    /// To the end of the cursor's line.
    EndOfLine,
    /// Back to the start of the n-th word.
    BackwardWord(u16, Word),
    /// Forward to the n-th word, as `At` says.
    ForwardWord(u16, At, Word),
    /// To the n-th hit of a search for a character, or to the farthest if there are fewer.
    ViCharSearch(u16, CharSearch),
    /// From the first start of a big word after the start of the text to the cursor. No motion, and a kill takes
    /// nothing.
    ViFirstPrint,
    /// n grapheme clusters back.
    BackwardChar(u16),
    /// n grapheme clusters forward.
    ForwardChar(u16),
    /// n lines up. It covers the cursor's line and those n lines, with their newlines.
    LineUp(u16),
    /// n lines down. It covers the newline above, the cursor's line and those n lines, so that a kill joins the lines
    /// around them. [`WholeLinesDown`](Movement::WholeLinesDown) with n + 1 leaves the newline above.
    LineDown(u16),
    /// The whole text. No motion.
    WholeBuffer,
    /// To the start of the text.
    BeginningOfBuffer,
    /// To the end of the text.
    EndOfBuffer,
    /// To the first character of the cursor's line that is no blank, or to the end of the line if there is none: on
    /// either side of the cursor. It covers the text between.
    FirstNonBlank,
    /// n whole lines with their newlines, at least one: the cursor's line and those above it. No motion.
    WholeLinesUp(u16),
    /// n whole lines with their newlines, at least one: the cursor's line and those below it. No motion.
    WholeLinesDown(u16),
}

// The movements that have a count.
macro_rules! with_a_count_of_1 {
    ($($name:ident($($given:ident: $of:ty),*) of $variant:ident;)*) => {
        impl Movement {$(
            #[doc = concat!("[`", stringify!($variant), "`](Movement::", stringify!($variant), ") with a count of 1.")]
            #[must_use]
            pub const fn $name($($given: $of),*) -> Movement {
                Movement::$variant(1, $($given),*)
            }
        )*}
    };
}

with_a_count_of_1! {
    backward_word(word: Word) of BackwardWord;
    forward_word(at: At, word: Word) of ForwardWord;
    char_search(search: CharSearch) of ViCharSearch;
    backward_char() of BackwardChar;
    forward_char() of ForwardChar;
    line_up() of LineUp;
    line_down() of LineDown;
    whole_lines_up() of WholeLinesUp;
    whole_lines_down() of WholeLinesDown;
}

impl Movement {
    /// The core's movement, or `None` by a count of 0, by which no call does anything.
    #[inline]
    pub(crate) fn to_core(self) -> Option<rl_base::Movement> {
        use rl_base::Movement as Core;
        Some(match self {
            Movement::BackwardWord(0, _)
            | Movement::ForwardWord(0, _, _)
            | Movement::ViCharSearch(0, _)
            | Movement::BackwardChar(0)
            | Movement::ForwardChar(0)
            | Movement::LineUp(0)
            | Movement::LineDown(0)
            | Movement::WholeLinesUp(0)
            | Movement::WholeLinesDown(0) => return None,
            Movement::WholeLine => Core::WholeLine,
            Movement::BeginningOfLine => Core::BeginningOfLine,
            Movement::EndOfLine => Core::EndOfLine,
            Movement::BackwardWord(n, word) => Core::BackwardWord(n, word.to_core()),
            Movement::ForwardWord(n, at, word) => {
                Core::ForwardWord(n, at.to_core(), word.to_core())
            }
            Movement::ViCharSearch(n, search) => Core::ViCharSearch(n, search.to_core()),
            Movement::ViFirstPrint => Core::ViFirstPrint,
            Movement::BackwardChar(n) => Core::BackwardChar(n),
            Movement::ForwardChar(n) => Core::ForwardChar(n),
            Movement::LineUp(n) => Core::LineUp(n),
            Movement::LineDown(n) => Core::LineDown(n),
            Movement::WholeBuffer => Core::WholeBuffer,
            Movement::BeginningOfBuffer => Core::BeginningOfBuffer,
            Movement::EndOfBuffer => Core::EndOfBuffer,
            Movement::FirstNonBlank => Core::FirstNonBlank,
            Movement::WholeLinesUp(n) => Core::WholeLinesUp(n),
            Movement::WholeLinesDown(n) => Core::WholeLinesDown(n),
        })
    }
}

/// What kind of change a report is of.
#[derive(Clone, Copy, Debug, PartialEq, Eq, Hash)]
#[non_exhaustive]
pub enum ReportKind {
    /// A character was inserted.
    CharInserted,
    /// A text was inserted.
    TextInserted,
    /// A text was deleted, from the cursor on; also wherever the cursor was, as by `set_text`, `yank_pop`,
    /// `delete_range` and `kill_range`.
    DeletedForward,
    /// A text was deleted, up to the cursor; by `kill_range` also wherever the cursor was.
    DeletedBackward,
    /// A text was replaced by another one; so is each change of an undo and of a redo.
    Replaced,
    /// The deletions up to the next report of the kind `KillStopped` are a kill. This one is of no change.
    KillStarted,
    /// The kill has ended. This one is of no change.
    KillStopped,
    /// All changes that waited and all later ones as one change, without its texts: the inserted text is in the present
    /// text.
    Folded,
}

/// On which side of the cursor a text is deleted. A `kill_range` chooses it, wherever the cursor is.
#[derive(Clone, Copy, Debug, Default, PartialEq, Eq, Hash)]
pub enum Direction {
    /// Text from the cursor on, or, as by `set_text`, the whole text. The ring puts it after the text of the kill
    /// before.
    #[default]
    Forward,
    /// Up to the cursor. The ring puts it before the text of the kill before.
    Backward,
}

/// The text with which an offset stays when it moves by a change.
#[derive(Clone, Copy, Debug, PartialEq, Eq, Hash)]
pub enum Side {
    /// The text before it: a text that is inserted at the offset goes after it.
    Before,
    /// The text after it: a text that is inserted at the offset goes before it.
    After,
}

// The core has each of these enums, with the same variants. Some go one way alone.
macro_rules! mirrors {
    ($($name:ident of $core:ty: $($variant:ident),*;)*) => {$(
        #[allow(dead_code)]
        impl $name {
            #[inline]
            pub(crate) fn to_core(self) -> $core {
                match self {
                    $($name::$variant => <$core>::$variant,)*
                }
            }

            #[inline]
            pub(crate) fn of_core(it: $core) -> Self {
                match it {
                    $(<$core>::$variant => $name::$variant,)*
                }
            }
        }
    )*};
}

mirrors! {
    Mode of GraphemeClusterMode: Unicode, WcWidth, NoZwj;
    Word of rl_base::Word: Big, Emacs, Vi;
    At of rl_base::At: Start, BeforeEnd, AfterEnd;
    Case of WordAction: Capitalize, Lowercase, Uppercase;
    Direction of rl_base::Direction: Forward, Backward;
    Side of rl_base::Side: Before, After;
    ReportKind of rl_base::ReportKind: CharInserted, TextInserted, DeletedForward, DeletedBackward, Replaced,
        KillStarted, KillStopped, Folded;
}

/// What may be chosen of a session. Begin with those of a session, or with [`Options::default`], and change what should
/// differ.
#[derive(Clone, Copy, Debug, PartialEq, Eq, Hash)]
#[non_exhaustive]
pub struct Options {
    /// How columns are counted. At first [`Mode::Unicode`].
    pub mode: Mode,
    /// The column where the text begins, after a prompt, which [`Movement::LineUp`] and [`Movement::LineDown`] count if
    /// they go to the first line or leave it. At first 0.
    pub prompt: u16,
    /// How many bytes the text may have, at first `None`, for any number. A call that would make it longer, at its end
    /// or between its steps, returns [`Error::NoRoom`](crate::Error::NoRoom) and changes nothing.
    pub limit: Option<usize>,
    /// How many texts the kill ring keeps; it drops the oldest beyond that. At first 60.
    pub ring_size: usize,
    /// How many entries the record may have: changes, and the marks where groups begin and end. At first `None`, for
    /// any number, as [`max_bytes`](Options::max_bytes).
    pub max_entries: Option<usize>,
    /// How many bytes of deleted and inserted texts the entries may have.
    pub max_bytes: Option<usize>,
    /// How many bytes the texts of the kill ring may have together. At first `None`.
    pub max_ring_bytes: Option<usize>,
    /// Whether edits keep the undone changes, which they drop otherwise. If so, each edit, and each begin and end of a
    /// group, first records them again, followed by the inverse of each of these changes and groups in reverse order.
    /// Then nothing can be redone: undos lead to the text that was undone, and from there to what was recorded before.
    /// This leaves text, cursor and ring, and the next change joins none of these.
    /// [`abandon_group`](crate::Session::abandon_group), [`truncate`](crate::Session::truncate) and
    /// [`restart`](crate::Session::restart) drop undone changes even so. At first false.
    ///
    /// ```
    /// # use lodvarn::{Error, Session};
    /// let mut session = Session::builder().keep_undone(true).open()?;
    /// session.paste("one", 1)?;
    /// session.undo(1)?;
    /// session.paste("two", 1)?;
    /// session.undo(2)?;
    /// assert_eq!(session.text(), "one");
    /// # Ok::<(), Error>(())
    /// ```
    pub keep_undone: bool,
}

impl Default for Options {
    fn default() -> Self {
        Options {
            mode: Mode::Unicode,
            prompt: 0,
            limit: None,
            ring_size: 60,
            max_entries: None,
            max_bytes: None,
            max_ring_bytes: None,
            keep_undone: false,
        }
    }
}

/// A line and a column of it, numbered from 0. On a screen a line is a row.
#[derive(Clone, Copy, Debug, Default, PartialEq, Eq, PartialOrd, Ord, Hash)]
pub struct Position {
    /// The number of the line.
    pub line: usize,
    /// The number of the column.
    pub column: usize,
}

/// Where the cursor goes on another row of a screen, by [`Session::row_above`](crate::Session::row_above) and
/// [`Session::row_below`](crate::Session::row_below).
#[derive(Clone, Copy, Debug, PartialEq, Eq, Hash)]
pub struct RowTarget {
    /// The byte offset: the last one of the row whose column is not after `column`.
    pub offset: usize,
    /// The column to give to the next motion by rows, so that the cursor comes back to it from a shorter row.
    pub column: usize,
}

/// What a call wrote that fills a slice, by [`Session::rows_from`](crate::Session::rows_from) and
/// [`Session::clusters_from`](crate::Session::clusters_from).
#[derive(Clone, Copy, Debug, PartialEq, Eq, Hash)]
pub struct Filled {
    /// How many.
    pub count: usize,
    /// The byte offset where the next one begins, or `None` if none follows.
    pub next: Option<usize>,
}

/// A grapheme cluster of a text.
#[derive(Clone, Copy, Debug, PartialEq, Eq, Hash)]
pub struct Cluster {
    /// The byte offset of its start.
    pub from: usize,
    /// The byte offset of its end.
    pub to: usize,
    /// How many columns it takes.
    pub columns: usize,
}

/// A screen, on which a text begins in row 0. Begin with [`Screen::new`], and change what should differ.
#[derive(Clone, Copy, Debug, PartialEq, Eq, Hash)]
#[non_exhaustive]
pub struct Screen {
    /// How many columns it has.
    pub columns: NonZeroU16,
    /// The column where the text begins, after a prompt. At first 0.
    pub prompt: u16,
    /// The distance of tab stops. At first 0: a tab is as wide as any control character.
    pub tab: u16,
    /// How columns are counted. At first [`Mode::Unicode`].
    pub mode: Mode,
    /// The column where each line after the first begins, after another prompt. At first 0.
    pub continuation: u16,
    /// The columns of a control character, as 2 for `^A`. At first 0: as many as [`width`](crate::width) returns.
    pub controls: u16,
}

impl Screen {
    /// A screen with this many columns.
    /// # Panics
    /// If `columns` is 0; in a constant that is an error of the compiler. A terminal may have 0 columns, so check its
    /// size.
    ///
    /// ```compile_fail
    /// const NONE: lodvarn::Screen = lodvarn::Screen::new(0);
    /// ```
    #[must_use]
    pub const fn new(columns: u16) -> Screen {
        let columns = match NonZeroU16::new(columns) {
            Some(columns) => columns,
            None => panic!("a screen has at least one column"),
        };
        Screen {
            columns,
            prompt: 0,
            tab: 0,
            mode: Mode::Unicode,
            continuation: 0,
            controls: 0,
        }
    }

    pub(crate) fn to_core(self) -> rl_base::Screen {
        rl_base::Screen {
            mode: self.mode.to_core(),
            columns: Unit::from(self.columns),
            prompt: self.prompt,
            continuation: self.continuation,
            tab: self.tab,
            controls: self.controls,
        }
    }
}

/// Whether and where a text was inserted.
#[derive(Clone, Copy, Debug, PartialEq, Eq, Hash)]
pub enum Inserted {
    /// At the end of the text.
    AtEnd,
    /// Before the end of the text.
    Within,
    /// Nothing was inserted.
    Nothing,
}

impl Inserted {
    /// By whether a text was inserted at the end, or `None` if none was inserted.
    #[inline]
    pub(crate) fn of_core(at_end: Option<bool>) -> Inserted {
        match at_end {
            Some(true) => Inserted::AtEnd,
            Some(false) => Inserted::Within,
            None => Inserted::Nothing,
        }
    }
}
