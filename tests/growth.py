#!/usr/bin/env python3
"""Compares how the calls of C grow with the table of growth in docs/PERFORMANCE.md, by instructions.

    python3 tests/growth.py PROGRAM [--all]

callgrind runs PROGRAM, which is c/growth.c, compiled, once. It makes each call in sessions that have a size once, four
times and sixteen times, and counts the instructions of each call alone.

A row of the table has calls, each with what else is said of it, and in each column the most instructions that one more
byte, entry, change, text or report may take; "0.15 × given" allows 0.15 for each byte that is given usually. With an
empty cell a call may grow by a hundredth and 600 instructions in all. So a byte that is read is told from one that is
moved, which takes 0.1, since the copies of the C library take 32 at once.

A call that has no row, or that PROGRAM does not make, fails, and a row that is of no call. The last line is 'N passed,
M failed', where each row of PROGRAM counts one in each session, and each call of the header. --all prints all that
grows.
"""

import os
import re
import subprocess
import sys
import tempfile
from pathlib import Path

import header

PAGE = header.HEADER.parents[1] / "docs/PERFORMANCE.md"
HEAD = "| Calls |"
DUMP = re.compile(r"^desc: Trigger: Client Request: (.*)\n\n(?:.+\n)*?summary: (\d+)$", re.M)
# The C library copies all by its loops, since rep movsb would count as one instruction a byte, and has one heap.
TUNED = {"cpu.x86_rep_movsb_threshold": 1 << 30, "cpu.x86_rep_stosb_threshold": 1 << 30}
TUNED |= {"malloc.mmap_threshold": 1 << 25, "malloc.trim_threshold": 1 << 30}
TUNABLES = {"GLIBC_TUNABLES": ":".join(f"glibc.{name}={value}" for name, value in TUNED.items())}
FLAT, SLACK = 0.01, 600


class Measured:
    """A row of the program in one state and one size: that, and the instructions at three values of it."""

    def __init__(self, dumps):
        names, counts = zip(*dumps)
        assert len({tuple(it[:-1]) for it in names}) == 1, names
        self.source, self.label, self.column, self.state, _ = names[0]
        self.key = f"{re.search(r'lodvarn_[a-z_]+', self.source)[0]} {self.label}".strip()
        self.sizes, self.counts = [int(it[-1]) for it in names], [int(it) for it in counts]

    def slope(self):
        """How many more instructions one more takes, in all or from the middle size on; 0 if it does not grow."""
        (a, b, c), (small, middle, great) = self.counts, self.sizes
        if c <= a * (1 + FLAT) + SLACK:
            return 0
        return max((c - a) / (great - small), (c - b) / (great - middle))

    def __str__(self):
        said = ", ".join(filter(None, [self.label, self.column, self.state]))
        return "{} ({}): {:,}; {:,}; {:,}: {:.3g} each".format(self.source, said, *self.counts, self.slope())


def measure(program):
    """Runs the program, and answers what was measured."""
    with tempfile.TemporaryDirectory(prefix="lodvarn-") as folder:
        out = Path(folder) / "out"
        options = ("--tool=callgrind", "--combine-dumps=yes", f"--callgrind-out-file={out}")
        subprocess.run(["valgrind", "-q", *options, program], env={**os.environ, **TUNABLES}, check=True)
        dumps = [(name.split("|"), count) for name, count in DUMP.findall(out.read_text())]
    return [Measured(dumps[at : at + 3]) for at in range(0, len(dumps), 3)]


def cells_of(row):
    return [it.strip() for it in row.strip("|").split("|")]


def table():
    """The rows of the page: by a call and what is said of it, its cells by their columns."""
    text = PAGE.read_text()
    head, _, *rows = text[text.index(HEAD) :].partition("\n\n")[0].splitlines()
    found = {}
    for calls, *cells in map(cells_of, rows):
        for part in calls.split(";"):
            names, (*_, said) = re.findall(r"`(\w+)`", part), part.split("`")
            for key in (f"lodvarn_{name} {label}".strip() for name in names for label in said.strip().split(" or ")):
                found[key] = dict(zip(cells_of(head)[1:], cells, strict=True))
    return found


def limit(cell, usual):
    """The most that a cell allows."""
    number, _, of = cell.partition(" × ")
    return float(number.replace(",", "") or 0) * (usual[of] if of else 1)


def faults_of(measured, rows):
    """For each thing that counts what is wrong with it, or nothing."""
    usual = {it.column: min(it.sizes) for it in measured}
    for it in measured:
        cell = rows[it.key][it.column] if it.key in rows else ""
        yield f"{it}, not {cell or 'flat'}" if it.slope() > limit(cell, usual) else None
    made = {it.key for it in measured}
    yield from (f"no row of the page has {it}" for it in sorted(made - rows.keys()))
    yield from (f"{it} of the page is not measured" for it in sorted(rows.keys() - made))
    names = {it.split()[0] for it in made}
    yield from (None if it.name in names else f"{it.name} is not measured" for it in header.calls())


def main():
    program, *words = sys.argv[1:]
    try:
        measured = measure(program)
    except (OSError, subprocess.CalledProcessError) as why:
        sys.exit(f"{why}\n0 passed, 1 failed")
    if words == ["--all"]:
        print("\n".join(str(it) for it in measured if it.slope()))
    results = list(faults_of(measured, table()))
    faults = list(filter(None, results))
    print("\n".join([*faults, f"{len(results) - len(faults)} passed, {len(faults)} failed"]))
    sys.exit(bool(faults))


if __name__ == "__main__":
    main()
