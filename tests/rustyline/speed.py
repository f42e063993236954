#!/usr/bin/env python3
"""Times an editor's keys through the crate lodvarn, and through rustyline's own core, in one run, or counts their
instructions.

    python3 tests/rustyline/speed.py                   times them
    python3 tests/rustyline/speed.py --instructions    counts the instructions of a key in both, by callgrind
    python3 tests/rustyline/speed.py --check           counts those of the crate alone, and compares instructions.txt
    python3 tests/rustyline/speed.py --write           counts these, and writes that file

The core is that of rustyline 19.0.0 where its files are beside the repository and cargo takes them, else that of
Debian's package, 9.1.2, for the first rows alone. The crate lodvarn is rust/lodvarn, or the one in the folder after
--core. Both are built with fat link-time optimisation, in cargo's folder. --check and --write need no rustyline.

Times: prints for each row of speed.rs the nanoseconds of a key, the least of all rounds, its target, the ratio above
which it fails, and the median of the ratios. A row fails if its ratio is above that in each of some runs, and then the
last one is printed. Its last line is 'N passed, M failed', as that of --check.

Instructions: of the rows that instructions.txt names, a key of one editor between two numbers of keys, so that no
preparation is counted, nor growth where each key has an entry. A row of --check fails if it is more than a tenth above
the file. Each rustc makes others: the file begins with the one that it is of, and --check refuses any other.
"""

import argparse
import os
import re
import shutil
import subprocess
import sys
from concurrent.futures import ThreadPoolExecutor
from functools import partial
from itertools import count
from pathlib import Path

from sources import HERE, NotThere, make_newest, make_older, take_offline, takes_newest
from test_editor import LODVARN

# That has put the folder of this one on the path.
from growth import TUNABLES

STORED = HERE / "instructions.txt"
# How many runs a row may have, since others use the machine.
TRIES = 3
# How many times as many instructions as are stored fail a row.
MOST = 1.1
# Room for entries doubles once it is full, which it is not between these numbers of keys. The ring is full before.
KEYS = (70, 126)
MANIFEST = """[package]
name = "speed-{core}"
version = "0.0.0"
edition = "2021"

[[bin]]
name = "speed-{core}"
path = "{source}"

[dependencies]
lodvarn = {{ path = "{lodvarn}" }}
{original}

[workspace]

[features]
alone = []
newest = []
older = []

[profile.release]
lto = "fat"
codegen-units = 1
"""
# By these glibc keeps the memory that an editor leaves: else the kernel is asked again within a key of the next one.
KEPT = {"MALLOC_TRIM_THRESHOLD_": "1000000000", "MALLOC_MMAP_THRESHOLD_": "1000000000"}


def build(core, lodvarn):
    """Builds the program in cargo's folder, beside the newest core or the older, or alone, and answers it."""
    target = Path(os.environ.get("CARGO_TARGET_DIR", LODVARN.parent / "target")).resolve()
    folder = target / "rustyline" / core
    shutil.rmtree(folder, ignore_errors=True)
    crate = folder / "speed"
    crate.mkdir(parents=True)
    original = ""
    if core != "alone":
        original = 'original = { path = "../original" }'
        (make_newest if core == "newest" else make_older)(folder / "original", "original")
        take_offline(folder)
    manifest = MANIFEST.format(core=core, source=HERE / "speed.rs", lodvarn=lodvarn, original=original)
    (crate / "Cargo.toml").write_text(manifest)
    words = ["cargo", "build", "--release", "--offline", "--quiet", "--features", core]
    subprocess.run(words, cwd=crate, env={**os.environ, "CARGO_TARGET_DIR": str(target)}, check=True)
    return target / f"release/speed-{core}"


def time_row(program, number):
    """Times a row until it is quick enough, or was timed often, and prints it. Answers whether it is, None if there is
    no such row."""
    told = {"check": True, "stdout": subprocess.PIPE, "text": True, "env": {**os.environ, **KEPT}}
    for _ in range(TRIES):
        ran = subprocess.run([program, str(number)], **told)
        found = re.search(r" at most ([\d.]+), ratio ([\d.]+)$", ran.stdout, re.M)
        if not found:
            return None
        is_quick = float(found[2]) <= float(found[1])
        if is_quick:
            break
    print(ran.stdout if is_quick else f"FAILED: {ran.stdout}", end="", flush=True)
    return is_quick


def time_rows(program):
    """Times each row on one processor. Answers whether each is quick enough."""
    os.sched_setaffinity(0, {max(os.sched_getaffinity(0))})
    return list(iter(map(partial(time_row, program), count()).__next__, None))


def instructions(program, row, keys, by):
    """How many instructions so many keys of a row take, with what is around them; none if there is no such row."""
    words = ["valgrind", "--tool=callgrind", "--callgrind-out-file=/dev/null", program, row, str(keys), by]
    ran = subprocess.run(words, env={**os.environ, **TUNABLES}, check=True, capture_output=True, text=True)
    return int(re.search(r"Collected : (\d+)", ran.stderr)[1]) if ran.stdout else 0


def count_rows(program, by, rows):
    """The instructions of a key of each row by the crate or by rustyline's core."""
    few, many = KEYS
    with ThreadPoolExecutor(len(os.sched_getaffinity(0))) as pool:
        runs = [[pool.submit(instructions, program, row, keys, by) for keys in KEYS] for row in rows]
        return [round((more.result() - less.result()) / (many - few)) for less, more in runs]


def compare(program, rows):
    """Prints the instructions of a key of each row by both, and their ratio, where rustyline has it."""
    for row, ours, theirs in zip(rows, *(count_rows(program, by, rows) for by in ("lodvarn", "original"))):
        print(f"{row}: {ours:,}" + (f" and {theirs:,}, ratio {ours / theirs:.2f}" if theirs else ""))


def check(counts, stored):
    """Compares counts with those stored. Prints them, and answers whether each is there, and not much above."""
    good = []
    for (row, most), ours in zip(stored.items(), counts):
        good.append(0 < ours <= MOST * int(most))
        print(f"{'' if good[-1] else 'FAILED: '}{row}: {ours:,}, stored {int(most):,}")
    return good


def run(told):
    """Does what the words say. Answers of each row whether it is good, if that is asked."""
    said = subprocess.run(["rustc", "--version"], check=True, stdout=subprocess.PIPE, text=True).stdout
    compiler = " ".join(said.split()[:2])
    stored_of, *lines = STORED.read_text().splitlines()
    stored = dict(line.rsplit(" ", 1) for line in lines)
    if told.check and compiler != stored_of:
        raise NotThere(f"{STORED.name} is of {stored_of}, not of {compiler}.")
    if not (told.check or told.write):
        program = build("newest" if takes_newest() else "older", told.core.resolve())
        return compare(program, stored) if told.instructions else time_rows(program)
    counts = count_rows(build("alone", told.core.resolve()), "lodvarn", stored)
    if told.check:
        return check(counts, stored)
    STORED.write_text("".join([f"{compiler}\n", *(f"{row} {ours}\n" for row, ours in zip(stored, counts))]))
    return None


def main():
    words = argparse.ArgumentParser(usage=__doc__)
    words.add_argument("--core", type=Path, default=LODVARN)
    asked = words.add_mutually_exclusive_group()
    for option in ("--instructions", "--check", "--write"):
        asked.add_argument(option, action="store_true")
    try:
        good = run(words.parse_args())
    except NotThere as why:
        print(f"NOT RUN: {why}\n0 passed, 0 failed, 1 skipped")
        return 0
    except (OSError, subprocess.CalledProcessError) as why:
        print(f"{why}\n0 passed, 1 failed")
        return 1
    if good is None:
        return 0
    print(f"{sum(good)} passed, {len(good) - sum(good)} failed")
    return 0 if all(good) else 1


if __name__ == "__main__":
    sys.exit(main())
