"""The sources of rustyline, built in a folder for a run: the editor 9.1.2 of Debian's package, and as a crate of its
own the core of 19.0.0, whose files may be beside the repository, or that of 9.1.2. None of them is kept in the
repository.
"""

import re
import subprocess
from pathlib import Path

HERE = Path(__file__).resolve().parent
# The files of the newest core, and the first cargo that takes them.
BESIDE = HERE.parents[2] / "shared/upstream"
NEWEST, FIRST_CARGO = "19.0.0", (1, 88)
PARTS = ("line_buffer", "undo", "kill_ring")
# What a core takes of its editor's key map.
TYPES = ("RepeatCount", "Word", "At", "CharSearch", "Movement")
MANIFEST = """[package]
name = "{name}"
version = "0.0.0"
edition = "{edition}"

[workspace]

[dependencies]
log = {{ version = "0.4", features = ["release_max_level_off"] }}
unicode-segmentation = "1"
unicode-width = "0.1"
"""
REPLACED = """[source.crates-io]
replace-with = "debian"
[source.debian]
directory = "{sources}"
"""


class NotThere(Exception):
    """What is needed and is not there."""


def package_folder():
    """The folder of the editor's sources, in the folder of all of Debian's sources."""
    package = "librust-rustyline-dev"
    ran = subprocess.run(["dpkg", "-L", package], capture_output=True, text=True)
    found = re.findall(r"^(/.*/rustyline-[\d.]+)/Cargo\.toml$", ran.stdout, re.M)
    if len(found) != 1:
        raise NotThere(f"{package} is not installed. What else is needed beside it, .ci/run names.")
    return Path(found[0])


def take_offline(folder):
    """Makes cargo take Debian's sources alone for what is built in a folder."""
    (folder / ".cargo").mkdir()
    sources = package_folder().parent
    (folder / ".cargo/config.toml").write_text(REPLACED.format(sources=sources))


def takes_newest():
    """Whether the newest core is there, and cargo takes it."""
    said = subprocess.run(["cargo", "--version"], capture_output=True, text=True, check=True).stdout
    version = tuple(map(int, re.search(r"(\d+)\.(\d+)", said).groups()))
    return BESIDE.is_dir() and version >= FIRST_CARGO


def types_of(keymap):
    """The types that a core takes of a key map, with the lines of attributes and comments right before each."""
    found = []
    for name in TYPES:
        pattern = rf"(?m)(?:^(?:///|#).*\n)*^pub (?:type {name} = .*;\n|enum {name} \{{\n(?:.*\n)*?^\}}\n)"
        found.append(re.search(pattern, keymap)[0])
    return "\n".join(found)


def write_crate(folder, name, edition, texts):
    """Writes a crate of modules, all of whose parts are public."""
    source = folder / "src"
    source.mkdir(parents=True)
    (folder / "Cargo.toml").write_text(MANIFEST.format(name=name, edition=edition))
    for module, text in texts.items():
        (source / f"{module}.rs").write_text(text.replace("pub(crate)", "pub"))
    modules = "".join(f"pub mod {module};\n" for module in texts)
    (source / "lib.rs").write_text(f"#![allow(warnings)]\n{modules}")


def redo_of_older():
    """The redo of the older core, which has one for its tests, as the newest core calls a line. Its files have none."""
    undo = (package_folder() / "src/undo.rs").read_text()
    of_change, of_record = re.findall(r"(?m)^    (?:pub )?fn redo\(.*\n(?:.*\n)*?^    }\n", undo)
    told = re.sub(r"(line\.\w+\(.*)\);", r"\1, &mut NoListener);", of_change)
    return f"impl Change {{\n{told}}}\n\nimpl Changeset {{\n{of_record}}}\n"


def make_newest(folder, name):
    """Makes a crate of the newest core, which has the modules and the calls of the crate lodvarn."""
    if not takes_newest():
        raise NotThere(f"The files of rustyline {NEWEST} are not in {BESIDE}, or cargo is too old for them.")
    files = {module: (BESIDE / f"src--src--{module}.rs.txt").read_text() for module in (*PARTS, "keymap", "layout")}
    added = {"keymap": types_of(files["keymap"]), "undo": files["undo"] + redo_of_older()}
    write_crate(folder, name, "2024", {**files, **added})


def make_older(folder, name):
    """Makes a crate of the core of Debian's package."""
    source = package_folder() / "src"
    files = {module: (source / f"{module}.rs").read_text() for module in (*PARTS, "keymap")}
    texts = {module: text.partition("#[cfg(test)]\nmod test")[0] for module, text in files.items()}
    write_crate(folder, name, "2018", {**texts, "keymap": types_of(files["keymap"])})
