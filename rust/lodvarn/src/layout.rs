//! Widths, and positions on a screen, with the names of the module `layout` of rustyline 19.0.0.
//!
//! A width is at most 65535, where rustyline panics for a greater one.
use crate::proved::rl_base;
use core::cmp::Ordering;

pub use crate::types::Mode as GraphemeClusterMode;

/// A number of columns or rows.
pub type Unit = u16;

impl GraphemeClusterMode {
    /// The mode that suits the terminal, from the environment: from `TERM_PROGRAM`, and if that is not set, from
    /// `TERM`. It is [`WcWidth`](GraphemeClusterMode::WcWidth) for an unknown terminal.
    #[cfg(feature = "std")]
    #[must_use]
    pub fn from_env() -> Self {
        let of = |name| std::env::var_os(name);
        match (of("TERM_PROGRAM"), of("TERM")) {
            (Some(program), _) => match program.to_str() {
                Some("Apple_Terminal" | "iTerm.app" | "WezTerm") => GraphemeClusterMode::Unicode,
                _ => GraphemeClusterMode::WcWidth,
            },
            (None, Some(term)) if term == "xterm-kitty" => GraphemeClusterMode::NoZwj,
            (None, _) => GraphemeClusterMode::WcWidth,
        }
    }

    /// The number of columns that a text takes, at most 65535.
    #[must_use]
    pub fn width(&self, s: &str) -> Unit {
        self.to_core().width(s)
    }
}

/// The number of columns that a character takes by itself, 0 if it has no width. In the mode
/// [`WcWidth`](GraphemeClusterMode::WcWidth) the width of a text is the sum of these.
#[must_use]
pub fn cwidh(c: char) -> Unit {
    GraphemeClusterMode::WcWidth.width(c.encode_utf8(&mut [0; 4]))
}

/// A position on the screen. Of two, the one in the lower row is the greater, and in one row that to the right.
#[derive(Copy, Clone, Debug, Default, PartialEq, Eq, Hash)]
pub struct Position {
    /// The column, from 0 at the left.
    pub col: Unit,
    /// The row, from 0 at the top.
    pub row: Unit,
}

impl PartialOrd for Position {
    fn partial_cmp(&self, other: &Self) -> Option<Ordering> {
        Some(self.cmp(other))
    }
}

impl Ord for Position {
    fn cmp(&self, other: &Self) -> Ordering {
        (self.row, self.col).cmp(&(other.row, other.col))
    }
}

/// What an editor has on the screen. Motions up and down read its mode, and the column of its `prompt_size`, at which
/// the text begins.
#[derive(Clone, Debug)]
pub struct Layout {
    /// How columns are counted.
    pub grapheme_cluster_mode: GraphemeClusterMode,
    /// Where the prompt ends.
    pub prompt_size: Position,
    /// Whether the prompt is the one of the line, and not one of a search.
    pub default_prompt: bool,
    /// Where the cursor is, from the start of the prompt.
    pub cursor: Position,
    /// Where the text ends, from the start of the prompt.
    pub end: Position,
    /// Whether a hint or a message stands after the text.
    pub has_info: bool,
}

impl Layout {
    /// A layout with this mode, a prompt of no width, and all positions at the start.
    #[must_use]
    pub fn new(grapheme_cluster_mode: GraphemeClusterMode) -> Self {
        Layout {
            grapheme_cluster_mode,
            prompt_size: Position::default(),
            default_prompt: false,
            cursor: Position::default(),
            end: Position::default(),
            has_info: false,
        }
    }

    /// The number of columns that a text takes, at most 65535.
    #[must_use]
    pub fn width(&self, s: &str) -> Unit {
        self.grapheme_cluster_mode.width(s)
    }

    /// What the core's motions read of it.
    pub(crate) fn for_motions(&self) -> rl_base::Layout {
        let mut layout = rl_base::Layout::new(self.grapheme_cluster_mode.to_core());
        layout.prompt_size.col = self.prompt_size.col;
        layout
    }
}
