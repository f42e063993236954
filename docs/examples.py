#!/usr/bin/env python3
"""Runs the examples of the pages (PAGES) from their text, and compares what they print with the pages.

    python3 docs/examples.py [--only KIND]

Before each fenced block of code stands a comment that says what it is:

    <!-- run: c -->         a program in C, built by gcc and pkg-config over the installed library
    <!-- run: python -->    a program in Python, with the folder python to import from, whose module is built
    <!-- run: rust -->      a program in Rust, in a package that depends on rust/lodvarn
    <!-- run: script -->    lines for the program lodvarn-script, which cargo builds
    <!-- run: sh -->        commands for bash, run in a copy of the repository, where pkg-config finds the library
    <!-- prints -->         what the example before it must print, exactly. Instead, a line may stand right after the
                            example: It prints `..`. Only an example for bash may do without both
    <!-- shown -->          what is not run; a piece of code must stand whole in an example that is run
    <!-- from: FILE -->     a piece of that file, whose lines stand there in the same order

A block without such a comment fails. KIND is one of these runs, or `shown` for all that is not run. The library is the
one in the folder that LODVARN_PREFIX names in the environment, or else one that packaging/install makes. With what is
not run it checks that wrong pages fail, such as one whose example prints something else. One line says what is wrong
with each block that fails, and the last one is 'N passed, M failed'.
"""

import argparse
import os
import re
import shutil
import subprocess
import sys
import tempfile
from concurrent.futures import ThreadPoolExecutor
from dataclasses import dataclass
from pathlib import Path

sys.dont_write_bytecode = True
TOP = Path(__file__).resolve().parent.parent
sys.path.insert(0, str(TOP / "examples"))

from programs import flags, installed  # noqa: E402

PAGES = ["README.md", "docs/GUIDE.md", "docs/FORMAT.md", "docs/RULES.md", "docs/DECISIONS.md"]
PAGES += ["python/README.md", "rust/lodvarn/README.md", "examples/README.md"]
PAGES += sorted(str(page.relative_to(TOP)) for page in TOP.glob("examples/*/README.md"))
# Blocks in these languages are not pieces of code: outputs, pictures, settings, and commands that take long.
PLAIN = {"", "text", "sh", "toml"}
# How long an example may take, in seconds. An interpreter that shares a busy machine takes minutes.
PATIENCE = 3600
WARNINGS = ["-Wall", "-Wextra", "-Werror"]
PACKAGE = """[package]
name = "{name}"
version = "0.0.0"
edition = "2021"

[dependencies]
lodvarn = {{ path = "{path}" }}
"""


class Fault(Exception):
    """Why a block fails."""


@dataclass
class Block:
    page: str
    line: int
    language: str
    comment: str
    text: str
    # What the line after the block says that it prints, or None.
    printed: str | None = None

    @property
    def kind(self):
        """What is run, or 'shown' for all that is not."""
        return self.comment[len("run: ") :] if self.comment.startswith("run: ") else "shown"


@dataclass
class Place:
    """A folder for what is built, and where the library is installed, if it is needed."""

    room: Path
    prefix: Path | None = None

    def folder(self):
        return Path(tempfile.mkdtemp(dir=self.room))


# Pages.


def comment_before(lines, at):
    """The words of a comment on the last line before this one that isn't empty, or ''."""
    before = next((line for line in reversed(lines[:at]) if line.strip()), "")
    found = re.fullmatch(r"\s*<!-- (.*) -->\s*", before)
    return found[1] if found else ""


def printed_after(lines, at):
    """What the first line from here on that isn't empty says that an example prints, or None."""
    after = next((line for line in lines[at:] if line.strip()), "")
    found = re.match(r"It prints `([^`]*)`", after)
    return f"{found[1]}\n" if found else None


def blocks_of(page, text):
    """The fenced blocks of a page. An indented block, which has no fence, is one without a comment."""
    lines = text.split("\n")
    blocks, at = [], 0
    while at < len(lines):
        opened = re.match(r"( *)(```+|~~~+) *(\S*)", lines[at])
        indented = re.match(r"(    |\t) *(?![-*+] |\d+\. )\S", lines[at])
        if opened:
            indent, fence, language = opened.groups()
            rest = [line.strip() for line in lines[at + 1 :]]
            length = rest.index(fence) if fence in rest else len(rest)
            inside = [line.removeprefix(indent) for line in lines[at + 1 : at + 1 + length]]
            comment = comment_before(lines, at) if fence in rest else "a fence that does not end"
            printed = printed_after(lines, at + length + 2)
            blocks.append(Block(page, at + 1, language, comment, "".join(f"{line}\n" for line in inside), printed))
            at += length + 1
        elif indented and not lines[at - 1].strip():
            blocks.append(Block(page, at + 1, "", "", ""))
        at += 1
    return blocks


def lines_of(text):
    """The lines of a text that aren't empty, without the blanks around them."""
    return [line.strip() for line in text.splitlines() if line.strip()]


def is_part(piece, whole):
    """Whether the lines stand in the other ones, one right after the other."""
    return any(whole[i : i + len(piece)] == piece for i in range(len(whole)))


def is_in_order(piece, whole):
    """Whether the lines stand in the other ones in this order, with others between them."""
    rest = iter(whole)
    return all(line in rest for line in piece)


# Runs. Each gets the text of an example, and returns what it prints.


def output(words, given="", **how):
    """What the words print. A fault where they end with a status other than 0."""
    try:
        how |= {"input": given, "capture_output": True, "encoding": "utf-8", "errors": "replace", "timeout": PATIENCE}
        ran = subprocess.run(words, **how)
    except OSError as error:
        raise Fault(f"{words[0]}: {error.strerror}") from None
    except subprocess.TimeoutExpired:
        raise Fault(f"{words[0]}: not through after {PATIENCE} seconds") from None
    if ran.returncode != 0:
        raise Fault(f"{words[0]} ended with status {ran.returncode}; it printed {ran.stdout!r} and {ran.stderr!r}")
    return ran.stdout


def run_c(text, place):
    folder = place.folder()
    (folder / "example.c").write_text(text)
    output(["gcc", *WARNINGS, "example.c", *flags(place.prefix), "-o", "example"], cwd=folder)
    return output([str(folder / "example")], cwd=folder)


def run_python(text, place):
    environment = {**os.environ, "PYTHONPATH": str(TOP / "python"), "PYTHONDONTWRITEBYTECODE": "1"}
    python = output([str(TOP / "tests/python/interpreter")]).strip()
    return output([python, "-"], given=text, env=environment, cwd=place.folder())


def run_rust(text, place):
    folder = place.folder()
    (folder / "src").mkdir()
    (folder / "src/main.rs").write_text(text)
    (folder / "Cargo.toml").write_text(PACKAGE.format(name=folder.name, path=TOP / "rust/lodvarn"))
    environment = {**os.environ, "CARGO_TARGET_DIR": str(place.room / "target")}
    return output(["cargo", "run", "--quiet", "--offline"], env=environment, cwd=folder)


def run_script(text, place):
    words = ["cargo", "run", "--quiet", "--release", "--offline", "--package", "lodvarn-script"]
    return output(words, given=text, cwd=TOP / "rust")


def run_sh(text, place):
    folder = place.folder() / "lodvarn"
    shutil.copytree(TOP, folder, ignore=shutil.ignore_patterns(".git", "out", "target", "__pycache__"))
    libraries = f"{place.prefix}/lib"
    environment = {**os.environ, "PKG_CONFIG_PATH": f"{libraries}/pkgconfig", "LD_LIBRARY_PATH": libraries}
    environment.pop("CARGO_TARGET_DIR", None)
    said = output(["bash", "-euo", "pipefail", "-c", text], env=environment, cwd=folder)
    shutil.rmtree(folder)
    return said


RUNS = {"c": run_c, "python": run_python, "rust": run_rust, "script": run_script, "sh": run_sh}


# Judgements.


def judge_run(block, after, place):
    if block.kind not in RUNS:
        raise Fault(f"there is no kind {block.kind!r}")
    wanted = after.text if after is not None and after.comment == "prints" else block.printed
    if wanted is None and block.kind != "sh":
        raise Fault("nothing after it says what it prints")
    said = RUNS[block.kind](block.text, place)
    if wanted not in (None, said):
        raise Fault(f"it printed {said!r}")


def judge_shown(block, before, run):
    if not block.comment:
        raise Fault("no comment says what this block is")
    if block.comment == "prints":
        if before is None or not before.comment.startswith("run: "):
            raise Fault("no example stands right before this output")
    elif block.comment == "shown":
        if block.language not in PLAIN and not any(is_part(lines_of(block.text), lines_of(one.text)) for one in run):
            raise Fault("this piece stands in no example that is run")
    elif block.comment.startswith("from: "):
        file = TOP / block.comment[len("from: ") :]
        if not file.is_file() or not is_in_order(lines_of(block.text), lines_of(file.read_text())):
            raise Fault(f"these lines do not stand in {block.comment[len('from: '):]} in this order")
    else:
        raise Fault(f"no such comment is known: {block.comment}")


def judge(blocks, only, place):
    """What is wrong with each block, or '' where nothing is; only with those of that kind, if one is given."""
    run = [block for block in blocks if block.kind != "shown"]
    triples = list(zip([None, *blocks], blocks, [*blocks[1:], None]))
    chosen = [triple for triple in triples if only in (None, triple[1].kind)]

    def fault(triple):
        before, block, after = triple
        try:
            if block.kind == "shown":
                judge_shown(block, before, run)
            else:
                judge_run(block, after, place)
        except Fault as it:
            return f"{block.page}:{block.line}: {it}"
        return ""

    with ThreadPoolExecutor(max(1, (os.cpu_count() or 1) // 2)) as pool:
        return list(pool.map(fault, chosen))


def judge_pages(only, place):
    blocks, faults = [], []
    for page in PAGES:
        if (TOP / page).is_file():
            blocks += blocks_of(page, (TOP / page).read_text())
        else:
            faults.append(f"{page}: there is no such file")
    return faults + judge(blocks, only, place)


# The check of this program: pages, and what must be said of them, '' where nothing is wrong.


def fenced(comment, text, language=""):
    return f"<!-- {comment} -->\n```{language}\n{text}```\n"


ONE = fenced("run: python", "a = 1\nb = 2\n\nif a:\n    print(a)\n")
CHECKS = [
    (ONE + fenced("prints", "1\n"), ""),
    (ONE + fenced("prints", "1\n1\n"), "it printed '1\\n'"),
    (ONE + "It prints `1`.\n", ""),
    (ONE + "\nIt prints `2`.\n", "it printed '1\\n'"),
    (ONE + "\nThen\n\nIt prints `1`.\n", "nothing after it says"),
    (fenced("run: python", "raise SystemExit(3)\n") + "It prints `1`.\n", "status 3"),
    (fenced("run: perl", "print 1\n"), "there is no kind 'perl'"),
    ("```text\na\n```\n", "no comment"),
    ("Some text.\n\n    indented\n", "no comment"),
    ("- a list\n\n    - in a list\n", ""),
    (fenced("run, later", "a\n"), "no such comment"),
    ("<!-- shown -->\n```text\na\n", "a fence that does not end"),
    (fenced("shown", "a\n", "text"), ""),
    (fenced("prints", "a\n"), "no example stands right before"),
    (ONE + "It prints `1`.\n" + fenced("shown", "b = 2\nif a:\n", "python"), ""),
    (ONE + "It prints `1`.\n" + fenced("shown", "a = 1\nif a:\n", "python"), "stands in no example"),
    (fenced("from: docs/examples.py", "import argparse\nimport sys\n", "python"), ""),
    (fenced("from: docs/examples.py", "import sys\nimport argparse\n", "python"), "in this order"),
    (fenced("from: docs/nowhere.py", "a\n", "python"), "in this order"),
]


def judge_self(place):
    """What is wrong with the judgements of the pages of CHECKS."""
    faults = []
    for page, wanted in CHECKS:
        said = "; ".join(filter(None, judge(blocks_of("page", page), None, place)))
        is_right = wanted in said if wanted else not said
        faults.append("" if is_right else f"{page!r}: wanted {wanted!r}, and it said {said!r}")
    return faults


def main():
    parser = argparse.ArgumentParser(description=__doc__, formatter_class=argparse.RawDescriptionHelpFormatter)
    parser.add_argument("--only", metavar="KIND", choices=[*RUNS, "shown"], help="only the blocks of that kind")
    only = parser.parse_args().only
    with tempfile.TemporaryDirectory(prefix="lodvarn-") as room:
        place = Place(Path(room))
        faults = judge_self(place) if only in (None, "shown") else []
        if only in (None, "c", "sh"):
            place.prefix = installed(place.room)
        faults += judge_pages(only, place)
    wrong = list(filter(None, faults))
    for fault in wrong:
        print(f"FAILED: {fault}")
    print(f"{len(faults) - len(wrong)} passed, {len(wrong)} failed")
    return 1 if wrong else 0


if __name__ == "__main__":
    sys.exit(main())
