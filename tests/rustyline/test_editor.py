#!/usr/bin/env python3
"""Builds a whole line editor on the crate lodvarn, and tests it.

    python3 tests/rustyline/test_editor.py [--core FOLDER | --original]

The editor is rustyline 9.1.2 as Debian packs its sources: terminal, key maps, history, completion, and their tests. Its
core, which is its line, its record and its ring, is taken out, and three files here stand in its place, over the crate
rust/lodvarn, or the one in FOLDER, or the core of rustyline 19.0.0 under that name (--original), which shows what these
files do by themselves. It is built without a network, in a folder that is gone afterwards. Then its
own tests run, also those of the core that was taken out: where they read or set a private field, they are rewritten
for that run to make a public call. And in a terminal what is typed, killed, yanked, undone and searched must show on
the screen. Its last line is 'N passed, M failed'.
"""

import os
import re
import shutil
import subprocess
import sys
import tempfile
from pathlib import Path

from sources import HERE, PARTS, NotThere, make_newest, package_folder, take_offline

sys.path.insert(0, str(HERE.parent))
from terminal import await_that, editing, keys  # noqa: E402

LODVARN = HERE.parents[1] / "rust/lodvarn"
# How many tests the editor has, those in its docs too; how many of them are in the three files that are taken out, and
# where those begin there.
TESTS, CORE_TESTS = 175, 51
TESTS_BEGIN = "#[cfg(test)]\nmod test"
# How the core's tests come to make public calls: the pattern of what is private in them, and what stands for it. The
# first drops the lines that assert what no public call tells.
TO_PUBLIC = [
    (r"(?m)^ *assert_eq!\([\w:()]+, \w+\.(?:redos\.len\(\)|index|last_action)\);\n", ""),
    (r"\bAction, ", ""),
    (r"\bs\.buf = String::from\((.+)\);", r"s.update(\1, 0);"),
    (r"\bs\.pos = (\w+);", r"s.set_pos(\1);"),
    (r"\bs\.buf\b", "s.as_str()"),
    (r"\bs\.pos\b", "s.pos()"),
    (r"\blet s = ", "let mut s = "),
    (r"\bs\.prev_pos\(1\)", "s.move_backward(1).then(|| s.pos())"),
    (r"\bcs\.(?:undos\.)?(len|insert|insert_str|delete|replace)\(", r"cs.0.\1("),
    (r"\bcs\.redo\(&mut buf\)", "cs.0.redo(&mut buf.inner)"),
    (r"\bkill_ring\.slots\.", "kill_ring."),
    # In these tests the current text is in the last slot.
    (r"\bkill_ring\.slots\[(\d)\]", r"kill_ring.text_back(kill_ring.len() - 1 - \1).unwrap()"),
]
# What those tests call, and the core of rustyline 19.0.0 does not have.
TO_ORIGINAL = {
    "undo": "impl Changeset { pub fn len(&self) -> usize { self.undos.len() } }",
    "kill_ring": """impl KillRing {
        pub fn len(&self) -> usize { self.slots.len() }
        pub fn is_empty(&self) -> bool { self.slots.is_empty() }
        pub fn text_back(&self, back: usize) -> Option<&str> {
            let len = self.slots.len();
            (back < len).then(|| self.slots[(self.index + len - back) % len].as_str())
        }
    }""",
}
# The tests that must fail, since docs/DIFFERENCES.md says so: by the name of each, what it says.
DIFFERENT = {
    "test::vi_cmd::e": "a count of words is the n-th place of the list; rustyline drops a cluster after each hit",
}
# How many seconds cargo may take.
LONG = 3600
ROWS, COLUMNS = 12, 60
SEARCH = "(reverse-i-search)`{}': {}"
# What is typed into one editor, and the screen after each.
STEPS = [
    ("a text", ["one two three"], ["> one two three"], (0, 15)),
    ("a word is killed", [keys("C-w")], ["> one two"], (0, 10)),
    ("and the one before it", [keys("C-w")], ["> one"], (0, 6)),
    ("both are yanked as one", [keys("C-y")], ["> one two three"], (0, 15)),
    ("the yank is undone", [keys("C-_")], ["> one"], (0, 6)),
    ("the line is killed from its start", [keys("C-a C-k")], [">"], (0, 2)),
    ("and yanked", [keys("C-y")], ["> one"], (0, 6)),
    ("and replaced by the kill before it", [keys("M-y")], ["> two three"], (0, 11)),
    ("words are exchanged", [keys("M-t")], ["> three two"], (0, 11)),
    ("which is undone", [keys("C-_")], ["> two three"], (0, 11)),
    ("a word in capitals", [keys("C-a M-u")], ["> TWO three"], (0, 5)),
    ("a line is entered", [keys("Enter")], ["> TWO three", "'TWO three'", ">"], (2, 2)),
    ("wide characters", ["日本é", keys("C-b BSpace")], ["> TWO three", "'TWO three'", "> 日é"], (2, 4)),
    ("their undo", [keys("C-_")], ["> TWO three", "'TWO three'", "> 日本é"], (2, 6)),
    ("clusters are exchanged", [keys("C-t")], ["> TWO three", "'TWO three'", "> 日é本"], (2, 7)),
    ("and entered", [keys("Enter C-l")], [">"], (0, 2)),
    ("a text before a search", ["abc"], ["> abc"], (0, 5)),
    ("a search back", [keys("C-r"), "hre"], [SEARCH.format("hre", "TWO three")], None),
    ("what it found", [keys("C-e")], ["> TWO three"], (0, 11)),
    ("a word of it is killed", [keys("C-w")], ["> TWO"], (0, 6)),
    ("an older line", [keys("C-p")], ["> 日é本"], (0, 7)),
    ("and the line that is typed", [keys("C-n")], ["> TWO"], (0, 6)),
    ("the ring of a line before", [keys("C-y")], ["> TWO three"], (0, 11)),
    ("all of it is discarded", [keys("C-u")], [">"], (0, 2)),
    ("the end", [keys("C-d")], [">", "ended 0"], (2, 0)),
]


def make_original(folder):
    """Makes the core of rustyline 19.0.0, with the calls that tests need, as the crate lodvarn."""
    make_newest(folder, "lodvarn")
    for module, calls in TO_ORIGINAL.items():
        with (folder / f"src/{module}.rs").open("a") as source:
            source.write(calls)


def take_place(taken_out, here):
    """Writes a file here over one of the core, and after it the tests of that one, by public calls."""
    tests = taken_out.read_text().partition(TESTS_BEGIN)[2]
    for private, public in TO_PUBLIC:
        tests = re.sub(private, public, tests)
    taken_out.write_text(f"{here.read_text()}\n{TESTS_BEGIN}{tests}")


def make_editor(folder, lodvarn):
    """Makes the editor's sources in a folder, with the files here for its core."""
    editor = folder / "editor"
    shutil.copytree(package_folder(), editor)
    (editor / ".cargo-checksum.json").unlink()
    for part in PARTS:
        take_place(editor / f"src/{part}.rs", HERE / f"{part}.rs")
    shutil.copy(HERE / "repl.rs", editor / "examples")
    with (editor / "Cargo.toml").open("a") as manifest:
        manifest.write(f'\n[dependencies.lodvarn]\npath = "{lodvarn}"\n\n[workspace]\n')
    take_offline(folder)
    return editor


def cargo(editor, *words):
    """Runs cargo on the editor. Answers its status and what it printed."""
    environment = {**os.environ, "CARGO_TARGET_DIR": str(editor.parent / "target"), "RUSTFLAGS": "-Awarnings"}
    told = {"stdout": subprocess.PIPE, "stderr": subprocess.STDOUT, "text": True}
    ran = subprocess.run(["cargo", *words, "--offline"], cwd=editor, env=environment, timeout=LONG, **told)
    return ran.returncode, ran.stdout


def run_tests(editor):
    """The editor's own tests: how many went as they should, and how many did not, one more where there are too few."""
    said = "".join(cargo(editor, "test", kind)[1] for kind in ("--lib", "--doc"))
    passed = re.findall(r"^test result: .* (\d+) passed; \d+ failed", said, re.M)
    if len(passed) != 2:
        print(f"FAILED: the editor's own tests did not run\n{said}")
        return 0, 1
    listed = re.search(r"^failures:\n((?: {4}\S+\n)+)", said, re.M)
    failing = set(listed[1].split()) if listed else set()
    wrong = failing ^ DIFFERENT.keys()
    good = sum(map(int, passed)) - len(wrong - failing) + len(failing - wrong)
    # What a test itself prints may stand right before or after this.
    of_core = len(re.findall(rf"test (?:{'|'.join(PARTS)})::tests?::\w+ \.\.\. ", said))
    bad = len(wrong) + (good + len(wrong) < TESTS or of_core != CORE_TESTS)
    if bad:
        print(re.sub(r"^test result:.*\n", "", said, flags=re.M))
        print(f"FAILED: {good} of {TESTS} tests went as they should; these did not: {sorted(wrong)}")
    print(f"the editor's own tests: {good} went as they should; {of_core} of {CORE_TESTS} of its core ran")
    return good, bad


def run_terminal(editor):
    """The screen after each step: how many are as they should, and whether one is not, which is the last one."""
    status, said = cargo(editor, "build", "--example", "repl")
    if status != 0:
        print(said)
        return 0, 1
    with editing(editor.parent / "target/debug/examples/repl", COLUMNS, ROWS) as terminal:
        for good, (what, given, rows, cursor) in enumerate(STEPS):
            for one in given:
                terminal.send(one)

            def is_wanted(seen, rows=rows, cursor=cursor):
                return seen[0] == rows and cursor in (None, seen[1])

            seen = await_that(terminal.screen, is_wanted)
            if not is_wanted(seen):
                print(f"FAILED: {what}\n  wanted {rows} {cursor}\n  saw {seen}")
                return good, 1
    return len(STEPS), 0


def main():
    words = sys.argv[1:]
    if not (words in ([], ["--original"]) or len(words) == 2 and words[0] == "--core"):
        print(__doc__, file=sys.stderr)
        return 2
    with tempfile.TemporaryDirectory(prefix="lodvarn-") as name:
        folder = Path(name)
        lodvarn = Path(words[1]).resolve() if len(words) == 2 else LODVARN
        try:
            if words == ["--original"]:
                lodvarn = folder / "lodvarn"
                make_original(lodvarn)
            editor = make_editor(folder, lodvarn)
        except NotThere as missing:
            print(f"NOT RUN: {missing}\n0 passed, 0 failed, 1 skipped")
            return 0
        good, bad = (sum(parts) for parts in zip(run_tests(editor), run_terminal(editor)))
    print(f"{good} passed, {bad} failed")
    return 0 if bad == 0 else 1


if __name__ == "__main__":
    sys.exit(main())
