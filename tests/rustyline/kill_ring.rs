//! The kill ring of the editor is that of the crate `lodvarn`.
pub use lodvarn::kill_ring::{KillRing, Mode};
