//! The parts of Rattle's `std` that differ from Rust's, over Rust's `core` and `alloc`: what takes memory is given an
//! allocator, and may be refused. The kit is Rattle's: `Kit name` says whose contract an item keeps.

#![cfg_attr(not(feature = "std"), no_std)]
#![deny(unsafe_op_in_unsafe_fn)]

pub mod alloc;
pub mod boxed;
mod casing;
pub mod collections;
pub mod convert;
#[cfg(feature = "std")]
pub mod io;
#[cfg(not(feature = "std"))]
#[path = "io_small.rs"]
pub mod io;
pub mod num;
#[cfg(feature = "std")]
pub mod process;
pub mod simd;
pub mod string;
pub mod vec;

pub use crate::string::{ascii_at, ascii_before, ascii_columns};

/// Kit `std::default`.
pub mod default {
    /// Kit `MadeWith`: a value where none is given.
    pub trait MadeWith<A> {
        /// The value.
        fn made_with(alloc: A) -> Self;
    }
}

/// Kit `simdutf8`, by Rust's own test.
pub mod simdutf8 {
    /// Its module of this name.
    pub mod basic {
        pub use core::str::from_utf8;
    }
}

/// Kit `std::test`.
#[cfg(feature = "std")]
pub mod test {
    pub use crate::process::Fail;
}

/// What the kit's prelude has and Rust's lacks.
pub mod prelude {
    pub use crate::alloc::TryClone;
    pub use crate::boxed::Box;
    pub use crate::num::{Casts, Ilog2};
    #[cfg(feature = "std")]
    #[allow(unused_imports)]
    pub(crate) use crate::process::{try_eprintln, try_format, try_print, try_println};
    #[cfg(feature = "std")]
    pub use crate::process::{Eprint, HostRuntime, Print};
    pub use crate::string::{StrExt, String};
    pub use crate::vec::Vec;
}
