//! The erased `rl_script`: runs a script from standard input, and prints one line for each of its lines.
use std::process::ExitCode;

fn main() -> ExitCode {
    lodvarn_script::proved::rl_script::main()
}
