//! Movements, with the names of the module `keymap` of rustyline 19.0.0.
//!
//! These are the types of the whole crate. [`Movement`] is `Copy`, and has three variants that rustyline lacks:
//! `FirstNonBlank`, `WholeLinesUp` and `WholeLinesDown`; and a function for each count of 1. Of that module only the
//! types are here that a [`LineBuffer`](crate::line_buffer::LineBuffer) takes.
pub use crate::types::{At, CharSearch, Movement, Word};

/// How often a command is repeated.
pub type RepeatCount = u16;
