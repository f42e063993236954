#![allow(dead_code, unused_imports, clippy::all)]

include!(concat!(env!("OUT_DIR"), "/proved/stand_in/casing/cases.rs"));
