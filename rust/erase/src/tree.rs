//! The crates, and the one tree of modules that they become.

use crate::audit::audit;
use crate::eraser::erase;
use crate::lex::Source;
use crate::rules::Rules;
use crate::{Counts, Fault, Result};
use std::path::{Path, PathBuf};
use std::process::{self, Command};
use std::{env, fs};

/// A crate that becomes a module.
#[derive(Clone, Debug)]
pub struct Crate {
    /// Its module, as a folder below the tree's.
    pub name: &'static str,
    /// The folder of its sources.
    pub src: PathBuf,
    /// Modules of it that stay behind.
    pub without: Vec<&'static str>,
}

/// A file of a crate, and where it goes below the tree.
#[derive(Clone, Debug)]
pub struct File {
    pub path: PathBuf,
    pub to: PathBuf,
    pub text: String,
}

// Of this repository. A module `laws` holds nothing else.
const LIBRARIES: &str = "rl_base rl_line rl_record rl_session";
const FOR_C: &str = "rl_ffi";
const PROGRAMS: &str = "rl_line_tests rl_refusals rl_script rl_tests";
// The kit's ports, each with the modules that allocate or read, which are not needed.
const PORTS: &str = "arrayvec array_vec impls iter, byteorder io, itoa, memchr, \
    ucd_bidi, ucd_breaks, ucd_category, ucd_derived, \
    ucd_emoji, ucd_table, unicode_segmentation, unicode_width";
// What of the kit's core says how the case of a character changes.
const CASES: [&str; 3] = ["case_tables", "cases", "tables"];

/// The top of the repository.
pub fn top() -> PathBuf {
    let mut folders = Path::new(env!("CARGO_MANIFEST_DIR")).ancestors();
    folders.nth(2).map(PathBuf::from).unwrap_or_default()
}

/// The folder of the kit: that of `RATTLE_KIT`, else where `rt doc` says that it is.
pub fn kit() -> Result<PathBuf> {
    let said = || {
        let output = Command::new("rt").arg("doc").output().ok()?;
        let path = String::from_utf8(output.stdout).ok()?;
        Some(Path::new(path.trim()).parent()?.to_path_buf())
    };
    let given = env::var_os("RATTLE_KIT").map(PathBuf::from);
    let kit = given.or_else(said).unwrap_or_default();
    let what = "no kit of Rattle: set RATTLE_KIT to its folder, or put `rt` on the PATH; or \
        without it, set LODVARN_PACKED to the whole path of a packed crate";
    match kit.join("rattle/core/src").is_dir() {
        true => Ok(kit),
        false => Err(Fault(what.into())),
    }
}

/// The crates of the tree of `lodvarn`. Without the kit, its ports are those of a packed crate, in the folder that
/// `LODVARN_PACKED` names.
pub fn libraries() -> Result<Vec<Crate>> {
    let (kit, packed) = (kit(), env::var_os("LODVARN_PACKED"));
    let (ports, casing, inside) = match (&kit, packed) {
        (Err(_), Some(packed)) => {
            let ports = Path::new(&packed).join("src/proved");
            (ports.clone(), ports.join("stand_in/casing"), "")
        }
        _ => {
            let ports = kit?.join("rattle");
            (ports.clone(), ports.join("core/src/char"), "src")
        }
    };
    let mut crates = ours(LIBRARIES);
    for port in PORTS.split(", ") {
        let mut words = port.split(' ').chain(["tests"]);
        let name = words.next().unwrap_or("");
        let src = ports.join(name).join(inside);
        crates.push(Crate::new(name, src, words.collect()));
    }
    let of = |name, src| Crate::new(name, src, Vec::new());
    crates.push(of("stand_in", top().join("rust/stand-in/src")));
    crates.push(of("stand_in/casing", casing));
    Ok(crates)
}

/// The crate of the calls of C, which uses the libraries.
pub fn for_c() -> Vec<Crate> {
    ours(FOR_C)
}

/// The programs and the crates of tests, which use the libraries.
pub fn programs() -> Vec<Crate> {
    ours(PROGRAMS)
}

fn ours(names: &'static str) -> Vec<Crate> {
    let src = |name| top().join("crates").join(name).join("src");
    let of = |name| Crate::new(name, src(name), vec!["laws"]);
    names.split(' ').map(of).collect()
}

impl Crate {
    /// A crate by its module, the folder of its sources, and the modules that stay behind.
    pub fn new(name: &'static str, src: PathBuf, without: Vec<&'static str>) -> Crate {
        Crate { name, src, without }
    }

    /// Whether it is Rust already, so that its paths alone change.
    pub fn is_rust(&self) -> bool {
        self.name == "stand_in"
    }

    /// Whether it was erased before, and is a module of a packed crate.
    pub fn is_packed(&self) -> bool {
        self.src.join("mod.rs").is_file()
    }

    /// Its files, in the order of their paths.
    pub fn files(&self) -> Result<Vec<File>> {
        let is_rust = self.is_rust() || self.is_packed();
        let extension = if is_rust { ".rs" } else { ".rt" };
        let mut files = Vec::new();
        for path in paths(&self.src)? {
            let inside = path.strip_prefix(&self.src).unwrap_or(&path);
            let inside = inside.to_string_lossy().replace(extension, ".rs");
            let first = inside.split(['/', '.']).next().unwrap_or("");
            let is_part = !self.name.contains('/') || CASES.contains(&first);
            let is_source = path.to_string_lossy().ends_with(extension);
            if is_part && is_source && !self.without.contains(&first) {
                // The file of the crate itself is its module's.
                let is_root = ["lib.rs", "main.rs"].contains(&&*inside);
                let inside = if is_root { "mod.rs" } else { &inside };
                let (to, text) = (Path::new(self.name).join(inside), read(&path)?);
                files.push(File { path, to, text });
            }
        }
        Ok(files)
    }

    /// Its files as Rust in a tree of these crates at a path, audited, with how often each rule was applied.
    pub fn erased(&self, crates: &[Crate], tree: &str) -> Result<(Vec<File>, Counts)> {
        let (mut files, mut counts) = (self.files()?, Counts::default());
        let rules = Rules::new(tree, self, crates);
        for file in files.iter_mut().filter(|_| !self.is_packed()) {
            let name = file.path.display().to_string();
            let text = erase(&Source::new(&name, &file.text)?, &rules, self.is_rust())?;
            counts.join(audit(&name, &file.text, &text, &rules)?);
            file.text = text;
        }
        Ok((files, counts))
    }
}

/// The files below a folder, in the order of their paths.
pub fn paths(folder: &Path) -> Result<Vec<PathBuf>> {
    let mut paths = Vec::new();
    for entry in fs::read_dir(folder).map_err(|e| Fault::of(folder, e))? {
        let path = entry.map_err(|e| Fault::of(folder, e))?.path();
        match path.is_dir() {
            true => paths.extend(self::paths(&path)?),
            false => paths.push(path),
        }
    }
    paths.sort();
    Ok(paths)
}

/// Writes crates as the modules of a folder, whose `mod.rs` lists them, for a module at the path `tree` of some crate.
pub fn write_tree(out: &Path, crates: &[Crate], tree: &str) -> Result<Counts> {
    let (mut counts, mut list) = (Counts::default(), String::new());
    for one in crates {
        let (files, of_crate) = one.erased(crates, tree)?;
        counts.join(of_crate);
        if !one.name.contains('/') {
            let ours = one.name.starts_with("rl_");
            let risky = files.iter().any(|file| file.text.contains("unsafe "));
            let scope = if ours { "" } else { "(crate)" };
            let lint = if risky { "unsafe_code, " } else { "" };
            let lints = format!("dead_code, unused_doc_comments, unused_imports, unused_variables, {lint}clippy::all");
            list += &format!("#[allow({lints})]\npub{scope} mod {};\n", one.name);
            // What an older source left is no part of it.
            let _ = fs::remove_dir_all(out.join(one.name));
        }
        for file in files {
            write(&out.join(&file.to), &file.text)?;
        }
    }
    write(&out.join("mod.rs"), &list)?;
    Ok(counts)
}

/// All of a build script: writes a tree below `OUT_DIR/proved`, again if a source changes, of the libraries as `choose`
/// changes them.
pub fn build(choose: impl FnOnce(&mut Vec<Crate>)) {
    for name in ["RATTLE_KIT", "LODVARN_PACKED"] {
        println!("cargo:rerun-if-env-changed={name}");
    }
    let made = libraries().and_then(|mut crates| {
        choose(&mut crates);
        for one in &crates {
            println!("cargo:rerun-if-changed={}", one.src.display());
        }
        let out = PathBuf::from(env::var_os("OUT_DIR").unwrap_or_default());
        write_tree(&out.join("proved"), &crates, "crate::proved")
    });
    if let Err(fault) = made {
        eprintln!("{fault}");
        process::exit(1);
    }
}

/// Reads a file.
pub fn read(path: &Path) -> Result<String> {
    fs::read_to_string(path).map_err(|e| Fault::of(path, e))
}

/// Writes a file, and the folders above it.
pub fn write(path: &Path, text: &str) -> Result<()> {
    let made = fs::create_dir_all(path.parent().unwrap_or(path));
    let done = made.and_then(|()| fs::write(path, text));
    done.map_err(|e| Fault::of(path, e))
}
