//! The erased core, all public, and in it the erased programs and tests. The binaries run the programs.
//!
//! It checks nothing of what the proofs require of a caller: for use there is the crate `lodvarn`.
#![deny(unsafe_op_in_unsafe_fn)]

extern crate alloc;

pub mod proved {
    include!(concat!(env!("OUT_DIR"), "/proved/mod.rs"));
}
