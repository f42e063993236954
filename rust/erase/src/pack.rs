//! A crate as it is published: plain files, with neither eraser nor kit nor workspace.

use crate::tree::{for_c, libraries, paths, read, top, write, write_tree};
use crate::{Fault, Result};
use std::path::Path;
use std::{fs, process::Command};

const INCLUDE: &str = "\
mod proved {
    include!(concat!(env!(\"OUT_DIR\"), \"/proved/mod.rs\"));
}";
const BUILD: &str = "\n[build-dependencies]\nerase = { path = \"../erase\" }\n";
const ERASES: &str = "    erase::build(|crates| crates.extend(erase::for_c()));\n";

/// Writes the crate `lodvarn` or `lodvarn-c` into a folder that is not there yet.
pub fn pack(name: &str, out: &Path) -> Result<()> {
    if out.exists() {
        return Err(Fault::of(out, "it is there already"));
    }
    let (top, from, mut crates) = (top(), top().join("rust").join(name), libraries()?);
    pack_files(&from, out)?;
    let (path, workspace) = (from.join("Cargo.toml"), read(&top.join("rust/Cargo.toml"))?);
    let manifest = replaced(&path, &read(&path)?, BUILD, "")?;
    let mut manifest = resolved(&path, &manifest, &workspace)?;
    if name == "lodvarn-c" {
        crates.extend(for_c());
        pack_for_c(&top, &from, out)?;
        let mut parts = workspace.split("\n\n");
        let profile = parts.find(|part| part.starts_with("[profile.release]"));
        manifest += &format!("\n[workspace]\n\n{}\n", profile.unwrap_or(""));
    }
    write(&out.join("Cargo.toml"), &manifest)?;
    for (name, at) in [("README.md", &from), ("LICENSE", &top), ("NOTICES", &top)] {
        write(&out.join(name), &read(&at.join(name))?)?;
    }
    write_tree(&out.join("src/proved"), &crates, "crate::proved")?;
    let mut format = Command::new("rustfmt");
    let format = format.arg("--edition=2021").arg(out.join("src/lib.rs"));
    match format.status() {
        Ok(status) if status.success() => Ok(()),
        _ => Err(Fault::of(out, "rustfmt did not lay it out")),
    }
}

// The sources and tests, but for a test that reads other files of the repository.
fn pack_files(from: &Path, out: &Path) -> Result<()> {
    let folders = ["src", "tests"].map(|folder| from.join(folder));
    for folder in folders.iter().filter(|folder| folder.is_dir()) {
        for path in paths(folder)? {
            let mut text = read(&path)?;
            if path == from.join("src/lib.rs") {
                text = replaced(&path, &text, INCLUDE, "mod proved;")?;
            }
            if !text.contains("\"/../../") {
                write(&out.join(path.strip_prefix(from).unwrap_or(&path)), &text)?;
            }
        }
    }
    Ok(())
}

// What the crate for C has besides: its build script, which erases nothing any more, the header, and what installs it, each
// with its mode.
fn pack_for_c(top: &Path, from: &Path, out: &Path) -> Result<()> {
    let script = from.join("build.rs");
    let text = replaced(&script, &read(&script)?, ERASES, "")?;
    write(&out.join("build.rs"), &text)?;
    for name in ["include/lodvarn.h", "packaging/install"] {
        write(&out.join(name), "")?;
        fs::copy(top.join(name), out.join(name)).map_err(|e| Fault::of(out, e))?;
    }
    Ok(())
}

/// A text with a part of it replaced, which stands in it once.
pub fn replaced(path: &Path, text: &str, old: &str, new: &str) -> Result<String> {
    let times = text.matches(old).count();
    match times {
        1 => Ok(text.replace(old, new)),
        _ => Err(Fault::of(path, format!("it has {times} times: {old}"))),
    }
}

/// A manifest with what it has from its workspace, but for the word that it is not published.
pub fn resolved(path: &Path, manifest: &str, workspace: &str) -> Result<String> {
    let mut lines = String::new();
    for line in manifest.replace("publish.workspace = true\n", "").lines() {
        let mut own = workspace.lines();
        let own = match line.strip_suffix(".workspace = true") {
            Some(key) => own.find(|line| line.split(" = ").next() == Some(key)),
            None => Some(line),
        };
        lines += own.ok_or_else(|| Fault::of(path, format!("no workspace has it: {line}")))?;
        lines += "\n";
    }
    Ok(lines)
}
