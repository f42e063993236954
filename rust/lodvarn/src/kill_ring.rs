//! The ring of killed texts, with the names of the module `kill_ring` of rustyline 19.0.0.
//!
//! ```
//! use lodvarn::kill_ring::{KillRing, Mode};
//!
//! let mut ring = KillRing::new(60);
//! ring.kill("one", Mode::Append);
//! ring.reset();
//! ring.kill("two", Mode::Append);
//! assert_eq!(ring.yank().map(String::as_str), Some("two"));
//! assert_eq!(ring.yank_pop(), Some((3, &"one".to_string())));
//! ```
//!
//! Differences from rustyline: the size is a number of its own, and takes no memory before a text is kept. Out of
//! memory, a call panics with "out of memory".
use crate::line_buffer::{answered, DeleteListener, Direction};
use crate::proved::rl_base::{self, DeleteListener as _, Refusal};
use crate::proved::stand_in::alloc::Global;
use alloc::string::String;
use core::fmt;

/// On which side a kill joins the text of the kill before it. It is another type than [`lodvarn::Mode`](crate::Mode).
#[derive(Clone, Copy, Debug, PartialEq, Eq, Hash)]
pub enum Mode {
    /// At its end.
    Append,
    /// In front of it.
    Prepend,
}

/// A ring of killed texts. It is a listener for deletions, and keeps those that belong to a kill. An insertion takes
/// it only in a [`Pair`](crate::Pair), beside a listener for all changes.
///
/// # Panics
///
/// A call that needs memory and gets none panics with "out of memory".
pub struct KillRing {
    ring: rl_base::KillRing,
}

impl fmt::Debug for KillRing {
    fn fmt(&self, f: &mut fmt::Formatter<'_>) -> fmt::Result {
        let texts = (0..self.len()).map_while(|back| self.text_back(back));
        f.debug_list().entries(texts).finish()
    }
}

impl KillRing {
    /// An empty ring of up to `size` texts. One of size 0 keeps nothing.
    #[must_use]
    pub fn new(size: usize) -> Self {
        KillRing {
            ring: rl_base::KillRing::new(Global, size),
        }
    }

    /// Says that the last command was neither a kill nor a yank. So the next kill begins a new text. An editor calls it
    /// before each command that neither kills nor yanks, motions too; a ring can't know by itself.
    #[inline]
    pub fn reset(&mut self) {
        self.ring.reset();
    }

    /// Keeps a text. Right after another kill it joins that one's text.
    pub fn kill(&mut self, text: &str, dir: Mode) {
        let dir = match dir {
            Mode::Append => rl_base::Mode::Append,
            Mode::Prepend => rl_base::Mode::Prepend,
        };
        answered(self.ring.kill(text, dir));
    }

    /// The current text, to be yanked. `None` if the ring is empty. If the line does not take it,
    /// [`reset`](KillRing::reset) the ring: else `yank_pop` counts it as yanked.
    #[inline]
    pub fn yank(&mut self) -> Option<&String> {
        self.ring.yank().map(|text| text.as_std())
    }

    /// The text before the current one, which becomes the current one, to replace the one that was yanked; and the
    /// length of that one in bytes. `None` if the last call was no yank.
    pub fn yank_pop(&mut self) -> Option<(usize, &String)> {
        let (size, text) = self.ring.yank_pop()?;
        Some((size, text.as_std()))
    }

    /// The number of texts.
    #[must_use]
    pub fn len(&self) -> usize {
        self.ring.len()
    }

    /// Whether there is no text.
    #[must_use]
    pub fn is_empty(&self) -> bool {
        self.len() == 0
    }

    /// The text that is `back` texts before the current one, round the ring. `None` if there are not so many.
    #[must_use]
    pub fn text_back(&self, back: usize) -> Option<&str> {
        self.ring.text_back(back)
    }
}

impl DeleteListener for KillRing {
    #[inline]
    fn start_killing(&mut self) {
        self.ring.start_killing();
    }

    fn delete(&mut self, idx: usize, string: &str, dir: Direction) {
        answered(self.__try_delete(idx, string, dir));
    }

    #[inline]
    fn stop_killing(&mut self) {
        self.ring.stop_killing();
    }

    #[inline]
    fn __try_delete(&mut self, idx: usize, string: &str, dir: Direction) -> Result<(), Refusal> {
        self.ring.delete(idx, string, dir.to_core())
    }
}
