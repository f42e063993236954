//! Makes the core, and sees what the compiler and the system ask for.

use std::env;
use std::process::Command;

fn main() {
    println!("cargo:rerun-if-changed=build.rs");
    erase::build(|crates| crates.extend(erase::for_c()));
    let system = env::var("CARGO_CFG_TARGET_OS").unwrap_or_default();
    if system == "windows" || minor_version().map_or(false, |minor| minor < 68) {
        println!("cargo:rustc-cfg=feature=\"std\"");
    }
    if system == "linux" {
        println!("cargo:rustc-cdylib-link-arg=-Wl,-soname,liblodvarn.so.0");
    }
}

// N of the compiler's version 1.N.
fn minor_version() -> Option<u32> {
    let said = Command::new(env::var_os("RUSTC")?).arg("-V").output();
    let said = String::from_utf8(said.ok()?.stdout).ok()?;
    let numbers = said.strip_prefix("rustc 1.")?;
    numbers.split('.').next()?.parse().ok()
}
