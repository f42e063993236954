//! The erased `rl_refusals`.
use std::process::ExitCode;

fn main() -> ExitCode {
    lodvarn_script::proved::rl_refusals::main()
}
