//! The calls of `include/lodvarn.h`: the erased core, and what C needs besides it.
#![cfg_attr(not(any(feature = "std", panic = "unwind")), no_std)]
#![deny(unsafe_op_in_unsafe_fn)]

extern crate alloc;

#[macro_use]
mod handles;
#[cfg(not(any(feature = "std", panic = "unwind")))]
mod bare;
mod movements;

mod proved {
    include!(concat!(env!("OUT_DIR"), "/proved/mod.rs"));
}
