//! The command of the eraser.

use erase::{functions, Counts, Crate, Result, Source};
use std::path::Path;
use std::process::ExitCode;

const USAGE: &str = "\
erase audit             erases and audits all crates, and prints how often each rule was applied
erase requires          lists what public functions require, and the assertion that asks it
erase pack CRATE DIR    writes the crate `lodvarn` or `lodvarn-c` as it is published";
const TREE: &str = "crate::proved";

fn audit() -> Result<Counts> {
    let (crates, mut counts) = (all()?, Counts::default());
    for one in &crates {
        counts.join(one.erased(&crates, TREE)?.1);
    }
    Ok(counts)
}

fn all() -> Result<Vec<Crate>> {
    let mut crates = erase::libraries()?;
    crates.extend(erase::for_c());
    crates.extend(erase::programs());
    Ok(crates)
}

fn requires() -> Result<()> {
    let crates = erase::libraries()?.into_iter();
    for one in crates.filter(|one| one.name.starts_with("rl_")) {
        for file in one.files()? {
            let (to, source) = (file.to.display(), Source::new("", &file.text)?);
            for function in functions(&source) {
                for (clause, test) in function.clauses {
                    let test = test.unwrap_or_else(|| "none".into());
                    println!("{to} {}: {clause} -> {test}", function.name);
                }
            }
        }
    }
    Ok(())
}

fn main() -> ExitCode {
    let words: Vec<String> = std::env::args().skip(1).collect();
    let words: Vec<&str> = words.iter().map(String::as_str).collect();
    let done = match words.as_slice() {
        ["audit"] => audit().map(|counts| print!("{counts}")),
        ["requires"] => requires(),
        ["pack", name @ ("lodvarn" | "lodvarn-c"), out] => erase::pack(name, Path::new(out)),
        _ => {
            eprintln!("{USAGE}");
            return ExitCode::from(2);
        }
    };
    if let Err(fault) = &done {
        eprintln!("erase: {fault}");
    }
    ExitCode::from(u8::from(done.is_err()))
}
