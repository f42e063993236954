//! Listeners, which are notified of the changes of a text.
use crate::proved::rl_base::{self, Refusal};
use crate::types::Direction;

/// Is notified of deletions and of kills: by [`Session::notify`](crate::Session::notify), and by the edits of a
/// [`LineBuffer`](crate::line_buffer::LineBuffer).
pub trait DeleteListener {
    /// A kill begins: the deletions up to `stop_killing` belong to it. The default does nothing.
    fn start_killing(&mut self) {}

    /// The text `string` is deleted at the byte offset `idx`, on the side `dir` of the cursor.
    fn delete(&mut self, idx: usize, string: &str, dir: Direction);

    /// The kill has ended. The default does nothing.
    fn stop_killing(&mut self) {}

    // By the hidden calls a line notifies the listeners of this crate, which can be out of memory and keep the cursor's
    // positions. For other listeners they lead to the calls above.
    #[doc(hidden)]
    #[inline]
    fn __try_delete(&mut self, idx: usize, string: &str, dir: Direction) -> Result<(), Refusal> {
        self.delete(idx, string, dir);
        Ok(())
    }

    #[doc(hidden)]
    #[inline]
    fn __cursors(&mut self, _before: usize, _after: usize) {}
}

/// Is notified of all changes: by [`Session::notify`](crate::Session::notify), and by the edits of a
/// [`LineBuffer`](crate::line_buffer::LineBuffer). These changes, in their order, turn the text that the listener knew
/// into the present one.
pub trait ChangeListener: DeleteListener {
    /// The character `c` is inserted at the byte offset `idx`.
    fn insert_char(&mut self, idx: usize, c: char);

    /// The text `string` is inserted at the byte offset `idx`.
    fn insert_str(&mut self, idx: usize, string: &str);

    /// The text `old` at the byte offset `idx` is replaced by the text `new`. A session reports each change of an
    /// undo and of a redo so; the undo of a [`Changeset`](crate::undo::Changeset) notifies no listener.
    fn replace(&mut self, idx: usize, old: &str, new: &str);

    #[doc(hidden)]
    #[inline]
    fn __try_insert_char(&mut self, idx: usize, c: char) -> Result<(), Refusal> {
        self.insert_char(idx, c);
        Ok(())
    }

    #[doc(hidden)]
    #[inline]
    fn __try_insert_str(&mut self, idx: usize, string: &str) -> Result<(), Refusal> {
        self.insert_str(idx, string);
        Ok(())
    }

    #[doc(hidden)]
    #[inline]
    fn __try_replace(&mut self, idx: usize, old: &str, new: &str) -> Result<(), Refusal> {
        self.replace(idx, old, new);
        Ok(())
    }
}

/// A listener that does nothing.
#[derive(Clone, Copy, Debug, Default, PartialEq, Eq, Hash)]
pub struct NoListener;

impl DeleteListener for NoListener {
    #[inline]
    fn delete(&mut self, _idx: usize, _string: &str, _dir: Direction) {}
}

impl ChangeListener for NoListener {
    #[inline]
    fn insert_char(&mut self, _idx: usize, _c: char) {}

    #[inline]
    fn insert_str(&mut self, _idx: usize, _string: &str) {}

    #[inline]
    fn replace(&mut self, _idx: usize, _old: &str, _new: &str) {}
}

/// Two listeners as one, of which the second is notified of deletions and kills alone: as an undo record and a kill
/// ring. For two that need all changes, as a record and a copy of the text, write a listener that calls both.
#[derive(Debug)]
pub struct Pair<'a, A: ?Sized, D: ?Sized> {
    /// Is notified of all changes.
    pub all: &'a mut A,
    /// Is notified of deletions and kills, before `all`. So a kill that the ring has no memory for is not recorded.
    pub deletions: &'a mut D,
}

impl<A: DeleteListener + ?Sized, D: DeleteListener + ?Sized> DeleteListener for Pair<'_, A, D> {
    #[inline]
    fn start_killing(&mut self) {
        self.deletions.start_killing();
        self.all.start_killing();
    }

    fn delete(&mut self, idx: usize, string: &str, dir: Direction) {
        self.deletions.delete(idx, string, dir);
        self.all.delete(idx, string, dir);
    }

    #[inline]
    fn stop_killing(&mut self) {
        self.deletions.stop_killing();
        self.all.stop_killing();
    }

    #[inline]
    fn __try_delete(&mut self, idx: usize, string: &str, dir: Direction) -> Result<(), Refusal> {
        self.deletions.__try_delete(idx, string, dir)?;
        self.all.__try_delete(idx, string, dir)
    }

    // A step that inserts has cursor positions too, but `deletions` has no change that they belong to then.
    #[inline(always)]
    fn __cursors(&mut self, before: usize, after: usize) {
        self.all.__cursors(before, after);
    }
}

impl<A: ChangeListener + ?Sized, D: DeleteListener + ?Sized> ChangeListener for Pair<'_, A, D> {
    fn insert_char(&mut self, idx: usize, c: char) {
        self.all.insert_char(idx, c);
    }

    fn insert_str(&mut self, idx: usize, string: &str) {
        self.all.insert_str(idx, string);
    }

    fn replace(&mut self, idx: usize, old: &str, new: &str) {
        self.all.replace(idx, old, new);
    }

    // Always inlined, as the core's, so that a typed letter makes calls only in rare cases.
    #[inline(always)]
    fn __try_insert_char(&mut self, idx: usize, c: char) -> Result<(), Refusal> {
        self.all.__try_insert_char(idx, c)
    }

    #[inline]
    fn __try_insert_str(&mut self, idx: usize, string: &str) -> Result<(), Refusal> {
        self.all.__try_insert_str(idx, string)
    }

    #[inline]
    fn __try_replace(&mut self, idx: usize, old: &str, new: &str) -> Result<(), Refusal> {
        self.all.__try_replace(idx, old, new)
    }
}

/// A listener as the core takes one.
pub(crate) struct Told<'l, L: ?Sized>(pub(crate) &'l mut L);

impl<L: DeleteListener + ?Sized> rl_base::DeleteListener for Told<'_, L> {
    #[inline]
    fn start_killing(&mut self) {
        self.0.start_killing();
    }

    #[inline]
    fn delete(&mut self, idx: usize, string: &str, dir: rl_base::Direction) -> Result<(), Refusal> {
        self.0.__try_delete(idx, string, Direction::of_core(dir))
    }

    #[inline]
    fn stop_killing(&mut self) {
        self.0.stop_killing();
    }

    #[inline(always)]
    fn cursors(&mut self, before: usize, after: usize) {
        self.0.__cursors(before, after);
    }
}

impl<L: ChangeListener + ?Sized> rl_base::ChangeListener for Told<'_, L> {
    #[inline(always)]
    fn insert_char(&mut self, idx: usize, c: char) -> Result<(), Refusal> {
        self.0.__try_insert_char(idx, c)
    }

    #[inline]
    fn insert_str(&mut self, idx: usize, string: &str) -> Result<(), Refusal> {
        self.0.__try_insert_str(idx, string)
    }

    #[inline]
    fn replace(&mut self, idx: usize, old: &str, new: &str) -> Result<(), Refusal> {
        self.0.__try_replace(idx, old, new)
    }
}
