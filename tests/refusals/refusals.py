#!/usr/bin/env python3
"""Runs programs with each request for memory, each read and each write refused, and checks the outcome.

    python3 tests/refusals/refusals.py [--rust] RL_SCRIPT RL_REFUSALS

They are the programs that rt or, with --rust, that cargo builds of the crates of these names. Rust ends a program that
finds no memory for its own start or for the buffers of the standard streams: these requests are the first ones, and are
neither refused nor counted. And it opens /dev/null in the place of a standard stream that is closed.
"""

import argparse
import os
import random
import re
import subprocess
import sys
import tempfile
from concurrent.futures import ThreadPoolExecutor
from dataclasses import dataclass
from pathlib import Path

TOP = Path(__file__).resolve().parent.parent.parent
sys.path.insert(0, str(TOP / "tests"))
from lines import FORMS, NAMES, filled  # noqa: E402
from rows import rows_of  # noqa: E402

TESTS = "crates/rl_tests/src/script.rt"
# How long one run may take, in seconds, on a busy machine too.
LIMIT = 600
UNDO_ALL = "undo 65535"
# A refused undo changes nothing, so it is tried again.
LAST_LINES = f"{UNDO_ALL}\n".encode() * 24
# How many requests are refused, in the runs in which memory comes back.
GAPS = (2, 5, 14)
RANDOM_SCRIPTS = 150
RANDOM_LINES = 40
RANDOM_PLACES = 6
SEED = 20


@dataclass
class Outcome:
    """The faults of a run, how it ended, what it wrote, what it asked for, and how much of that was refused."""

    faults: dict
    status: int
    out: bytes
    err: bytes
    requests: int = 0
    reads: int = 0
    writes: int = 0
    refused: int = 0


class Runner:
    """Runs the programs with the library that refuses."""

    def __init__(self, room, script, refusals, is_rust):
        self.room, self.script, self.refusals, self.is_rust = room, script, refusals, is_rust
        self.library = room / "refuse.so"
        words = ["gcc", "-O1", "-Wall", "-shared", "-fPIC", "-o", self.library, TOP / "tests/refusals/refuse.c"]
        subprocess.run(words, check=True)
        self.pool = ThreadPoolExecutor(4)
        self.first = {script: 0, refusals: 0}
        if is_rust:
            # Over an empty script the program itself asks once, for the text of the first session. The other opens no
            # standard input, for whose buffer this one asks once.
            first = self.run(script, b"", {}).requests - 1
            self.first = {script: first, refusals: first - 1}

    def run(self, program, given, faults):
        """One run over the given bytes, with faults as refuse.c names them."""
        log, file = tempfile.mkstemp(dir=self.room)
        os.close(log)
        first = self.first[program]
        moved = {name: at + first if name in ("REFUSE", "FROM", "UNTIL") else at for name, at in faults.items()}
        environment = {name: str(number) for name, number in moved.items()}
        environment |= {"LD_PRELOAD": str(self.library), "FAULT_LOG": file}
        ran = subprocess.run([program], input=given, capture_output=True, env=environment, timeout=LIMIT)
        said = [*map(int, Path(file).read_text().split())]
        os.unlink(file)
        if not said and ran.returncode >= 0:
            raise RuntimeError(f"{program} was not counted: is it linked with the C library by name?")
        requests, *others = said or [first]
        return Outcome(faults, ran.returncode, ran.stdout, ran.stderr, requests - first, *others)

    def run_all(self, program, cases):
        """The outcome of each case, a pair of the given bytes and the faults."""
        return list(self.pool.map(lambda case: self.run(program, *case), cases))


class Part:
    """A part of the driver: its runs, how many met a refusal, and what was wrong with some."""

    def __init__(self, name):
        self.name = name
        self.runs = self.met = 0
        self.wrong = []

    def see(self, case, met, complaint):
        """Counts a run, which is wrong where there is a complaint."""
        self.runs += 1
        self.met += bool(met)
        if complaint:
            self.wrong.append(f"{case}: {complaint}")

    def must_hold(self, what, holds):
        """Counts a check of the part as a whole."""
        self.see(what, False, None if holds else "it does not hold")

    def close(self):
        """Prints the part. A part in which nothing was refused shows nothing, and fails."""
        if not self.met:
            self.see("the whole part", False, "no run met a refusal")
        print(f"{self.name}: {self.runs} runs and checks, {self.met} met a refusal, {len(self.wrong)} failed")
        for line in self.wrong[:8]:
            print(f"  FAILED {line}")
        return self.runs - len(self.wrong), len(self.wrong)


# --- what a script says, by the rules and not by the program ---


def unescaped(text):
    """The text that a script's T stands for."""
    marks = {"\\": "\\", "n": "\n", "r": "\r", "t": "\t", "s": " "}

    def character(found):
        return chr(int(found[1], 16)) if found[1] else marks[found[2]]

    return re.sub(r"\\(?:u\{([0-9A-Fa-f]{1,6})\}|(.))", character, text)


def escaped(text):
    """A text as it stands after the cursor in a line that is printed."""
    for mark, written in (("\\", "\\\\"), ("\n", "\\n"), ("\r", "\\r"), ("\t", "\\t")):
        text = text.replace(mark, written)
    return text


def is_of_command(line):
    """Whether a line has the form that is printed for a line with a meaning."""
    try:
        return re.fullmatch(r"[^ ]+ [0-9]+ .*", line.decode()) is not None
    except UnicodeDecodeError:
        return False


def printed_parts(line):
    """The reply, the cursor and the text of a printed line."""
    reply, cursor, text = line.decode().split(" ", 2)
    return reply, int(cursor), unescaped(text)


def is_boundary(cursor, text):
    """Whether the cursor stands between two characters of the text, or at an end."""
    held = text.encode()
    return cursor == len(held) or cursor < len(held) and held[cursor] & 0xC0 != 0x80


def lines_of(written):
    """The lines that were written; a newline ends each."""
    return written.split(b"\n")[:-1]


# --- what must hold of a run of rl_script ---


def fault_of_lines(outcome, plain):
    """What is wrong with the lines that were printed, if anything."""
    if outcome.out and not outcome.out.endswith(b"\n"):
        return "a line was cut"
    printed, wanted = lines_of(outcome.out), lines_of(plain.out)
    refusals = [at for at, line in enumerate(printed) if line.startswith(b"refused:1 ")]
    same = refusals[0] if refusals else len(printed)
    if printed[:same] != wanted[:same]:
        return "what stands before the first refusal is not what the plain run prints"
    for line, other in zip(printed, wanted):
        if line != b"bad" and not is_of_command(line):
            return f"a line of another form: {line!r}"
        if (line == b"bad") != (other == b"bad"):
            return "a line means something in one run and nothing in the other"
        if line != b"bad" and not is_boundary(*printed_parts(line)[1:]):
            return f"the cursor stands inside a character: {line!r}"
    return None


def fault_of_texts(script, printed):
    """What is wrong with the texts that sessions begin with, and with those left after everything is undone."""
    start = ""
    for line, shown in zip(script.decode().split("\n"), printed):
        if shown == b"bad":
            continue
        word, _, given = line.partition(" ")
        reply, _, text = printed_parts(shown)
        if word == "text" and reply == "ok":
            start = unescaped(given)
        is_start = word == "text" and reply == "ok" or line == UNDO_ALL and reply in ("true", "false")
        if is_start and text != start:
            return f"after {line!r} the text is {escaped(text)!r}, and the session began with {escaped(start)!r}"
    return None


def fault_of_script_run(script, outcome, plain):
    """What is wrong with a run in which requests for memory may be refused, if anything."""
    printed, asked = lines_of(outcome.out), script.count(b"\n")
    if outcome.status < 0:
        return f"signal {-outcome.status}"
    wrong = fault_of_lines(outcome, plain) or fault_of_texts(script, printed)
    if wrong:
        return wrong
    if outcome.status == 0:
        if outcome.err or len(printed) != asked:
            return f"status 0 with {len(printed)} lines of {asked}, and {outcome.err!r} on standard error"
        # The table of line starts is done without if memory is out for it. Whatever else is refused, a line says so.
        said = any(it.startswith(b"refused:1 ") for it in printed)
        if not said and outcome.out != plain.out:
            return "no line says that memory was refused, and it prints something else than the plain run"
        comes_back = "FROM" not in outcome.faults or "UNTIL" in outcome.faults
        if comes_back and script.endswith(LAST_LINES) and not printed[-1].startswith(b"false "):
            return f"after so many undos the last line is {printed[-1]!r}"
        return None
    if (outcome.status, outcome.err) != (1, b"no memory\n") or not outcome.refused:
        return f"status {outcome.status} with {outcome.err!r}, {outcome.refused} refused"
    return None if len(printed) < asked else "it stopped after its last line"


def fault_of_plain_run(script, plain):
    """What is wrong with a run with ample memory, if anything."""
    if any(it.startswith(b"refused:1 ") for it in lines_of(plain.out)):
        return "with ample memory a line is refused as if it were out"
    return fault_of_script_run(script, plain, plain)


# --- the parts ---


def memory_cases(requests, gaps):
    """Each request refused alone, from each one on, and from each one on for a while.

    The last place of each finds nothing to refuse."""
    places = range(1, requests + 2)
    alone = [{"REFUSE": n} for n in places]
    rest = [{"FROM": n} for n in places]
    return alone + rest + [{"FROM": n, "UNTIL": n + gap - 1} for gap in gaps for n in places]


def fault_of_count(outcome, plain):
    """What is wrong with the count of refusals, if anything: one occurs exactly where the plain run asks for memory."""
    first = outcome.faults.get("REFUSE", outcome.faults.get("FROM"))
    if (outcome.refused > 0) == (first <= plain.requests):
        return None
    return f"{outcome.refused} refused, where the plain run asks {plain.requests} times"


def see_script(runner, part, name, script, choose=None):
    """Runs a script with memory refused at each place, or at those that are chosen. Gives the plain run."""
    plain = runner.run(runner.script, script, {})
    part.see(f"{name}, nothing refused", False, fault_of_plain_run(script, plain))
    cases = memory_cases(plain.requests, GAPS) if choose is None else choose(plain.requests)
    for outcome in runner.run_all(runner.script, [(script, it) for it in cases]):
        wrong = fault_of_script_run(script, outcome, plain) or fault_of_count(outcome, plain)
        part.see(f"{name}, {outcome.faults}", outcome.refused, wrong)
    return plain


def stored_part(runner):
    """The stored script of the program."""
    part = Part("rl_script on its stored script, memory refused")
    folder = TOP / "crates/rl_script"
    script = (folder / "stdin").read_bytes()
    plain = see_script(runner, part, "stored script", script)
    part.must_hold("the plain run prints what is stored", plain.out == (folder / "stdout").read_bytes())
    return part.close()


def words_of_grammar():
    """Each word that the code of the grammar compares with."""
    code = (TOP / "crates/rl_session/src/grammar.rt").read_text()
    return set(re.findall(r'"(\w+)" =>', code))


def idle_lines(script, plain):
    """The lines of a script that are refused, mean nothing, or give nothing back and leave cursor and text."""
    idle, before = [], None
    for line, shown in zip(script.splitlines(), lines_of(plain.out)):
        reply, _, left = shown.partition(b" ")
        did_nothing = reply == b"false" and left == before and line != UNDO_ALL.encode()
        if did_nothing or re.match(rb"bad|none|refused", reply):
            idle.append(line)
        before = left
    return idle


def every_word():
    """A script with every word: the one of crates/rl_tests, which has each once, and another one."""
    once = [script for what, script, _ in rows_of((TOP / TESTS).read_text()) if what.startswith(b"each word once")]
    return b"".join([*once, (TOP / "tests/refusals/more_words.txt").read_bytes()])


def every_word_part(runner):
    """The script with every word, and then everything undone."""
    part = Part("rl_script on every word, memory refused")
    script = every_word()
    words = words_of_grammar()
    missing = words - set(script.decode().split())
    part.must_hold(f"the script has every word; missing: {sorted(missing)}", words and not missing)
    plain = see_script(runner, part, "every word", script + LAST_LINES)
    idle = idle_lines(script, plain)
    part.must_hold(f"with ample memory each line does something; not: {idle}", not idle)
    return part.close()


def random_text(chance):
    """A text as a script writes it."""
    pieces = ["a", "B", "7", "word", "one two", "\\n", "\\t", "\\s", "\\u{301}", "é", "漢", ", ", "_x"]
    return "".join(chance.choice(pieces) for _ in range(chance.randint(1, 4)))


MADE = NAMES | {
    **dict.fromkeys("ABIQ", lambda chance: chance.randint(0, 12)),
    "C": lambda chance: chance.choice(["a", "o", "é", "\\n", "\\s"]),
    "K": lambda chance: chance.choice([0, 1, 4, 40]),
    "L": lambda chance: chance.choice([0, 1, 3, 9, 40, 4096]),
    "N": lambda chance: chance.choice([0, 1, 1, 1, 2, 3]),
    "T": random_text,
}


def random_script(chance):
    """A script of random lines. Those that leave nothing to do come less often."""
    weights = [0.2 if it.split()[0] in ("text", "limit", "ring", "mode", "killbuf", "update") else 1 for it in FORMS]
    forms = ["limit L", "text T", *chance.choices(FORMS, weights, k=RANDOM_LINES)]
    return "".join(filled(chance, it, MADE) + "\n" for it in forms).encode() + LAST_LINES


def random_part(runner):
    """Random scripts, with memory refused at random places."""
    part = Part("rl_script on random scripts, memory refused")
    chance = random.Random(SEED)

    def choose(requests):
        places = [chance.randint(1, requests) for _ in range(RANDOM_PLACES)]
        return [{"REFUSE": n} for n in places] + [{"FROM": n, "UNTIL": n + chance.randint(0, 14)} for n in places]

    for number in range(1, RANDOM_SCRIPTS + 1):
        see_script(runner, part, f"random script {number}", random_script(chance), choose)
    return part.close()


def fault_of_stream_run(script, plain, outcome):
    """What is wrong with a run whose K-th read or write failed, if anything."""
    faults = outcome.faults
    is_read = "READ" in faults
    said = b"read failed\n" if is_read else b"write failed\n"
    if (outcome.status, outcome.err) != (1, said):
        return f"status {outcome.status} with {outcome.err!r}"
    done = faults["READ" if is_read else "WRITE"] - 1
    if is_read:
        whole = script[:done].count(b"\n") if "ONE_BYTE" in faults else script.count(b"\n") if done else 0
        wanted = plain.out.splitlines(True)[:whole]
    else:
        wanted = [plain.out[:done]] if "ONE_BYTE" in faults else plain.out.splitlines(True)[:done]
    return None if outcome.out == b"".join(wanted) else f"{done} went well, and it wrote {outcome.out[-60:]!r}"


def see_streams(runner, part, name, script):
    """Runs a script, shorter than a block, with each read and each write failing."""
    program = runner.script
    plain = runner.run(program, script, {})
    for slow in ({}, {"ONE_BYTE": 1}):
        whole = runner.run(program, script, slow)
        same = whole.out == plain.out and whole.status == 0
        part.see(f"{name}, {slow}, nothing refused", False, None if same else "it prints something else")
        cases = [{"READ": k} | slow for k in range(1, whole.reads + 1)]
        cases += [{"WRITE": k} | slow for k in range(1, whole.writes + 1)]
        for outcome in runner.run_all(program, [(script, it) for it in cases]):
            part.see(f"{name}, {outcome.faults}", outcome.refused, fault_of_stream_run(script, plain, outcome))


def stream_part(runner):
    """Reads and writes that fail."""
    part = Part("rl_script, reads and writes refused")
    see_streams(runner, part, "stored script", (TOP / "crates/rl_script/stdin").read_bytes())
    see_streams(runner, part, "every word", every_word())
    return part.close()


def with_streams(program, words):
    """How a run ends with the standard streams that a shell gives it."""
    shell = ["bash", "-c", words, "bash", program]
    ran = subprocess.run(shell, input=b"text a\n", capture_output=True, timeout=LIMIT)
    return ran.returncode, ran.stdout, ran.stderr


def read_by_nobody(program):
    """How a run ends when its output goes to a pipe that nobody reads, with that signal at its default."""
    reader, writer = os.pipe()
    os.close(reader)
    ran = subprocess.run([program], input=b"text a\n", stdout=writer, stderr=subprocess.PIPE, timeout=LIMIT)
    os.close(writer)
    return ran.returncode, b"", ran.stderr


def closed_part(runner):
    """Standard streams that are closed, full, or read by nobody."""
    part = Part("rl_script, streams that the system refuses")
    read_failed, write_failed, nothing = (1, b"", b"read failed\n"), (1, b"", b"write failed\n"), (0, b"", b"")
    cases = {
        "standard input closed": ('"$1" <&-', nothing if runner.is_rust else read_failed),
        "a folder as standard input": ('"$1" </', read_failed),
        "standard output closed": ('"$1" >&-', nothing if runner.is_rust else write_failed),
        "standard output full": ('"$1" >/dev/full', write_failed),
    }
    outcomes = [(name, with_streams(runner.script, words), wanted) for name, (words, wanted) in cases.items()]
    outcomes.append(("standard output read by nobody", read_by_nobody(runner.script), write_failed))
    for name, found, wanted in outcomes:
        part.see(name, found[0], None if found == wanted else f"{found}, not {wanted}")
    return part.close()


def fault_of_refusals_run(outcome):
    """What is wrong with a run of rl_refusals, if anything."""
    last = lines_of(outcome.out)[-1:]
    if outcome.status or outcome.err or not (last and re.fullmatch(rb"replies refused: \d+", last[0])):
        return f"status {outcome.status}, {last}, {outcome.err!r}"
    return None


def refusals_part(runner):
    """The program that runs sessions and checks itself."""
    part, program = Part("rl_refusals, memory refused"), runner.refusals
    plain = runner.run(program, b"", {})
    stored = (TOP / "crates/rl_refusals/stdout").read_bytes()
    part.see("nothing refused", False, fault_of_refusals_run(plain))
    part.must_hold("the plain run prints what is stored", plain.out == stored)
    part.must_hold("in it no reply is refused", lines_of(plain.out)[-1:] == [b"replies refused: 0"])
    cases = memory_cases(plain.requests, ())
    outcomes = runner.run_all(program, [(b"", it) for it in cases])
    for outcome in outcomes:
        wrong = fault_of_refusals_run(outcome) or fault_of_count(outcome, plain)
        part.see(outcome.faults, outcome.refused, wrong)
    between = any(b"refused between its two events" in it.out for it in outcomes)
    part.must_hold("an edit is refused between its two events", between)
    return part.close()


PARTS = (refusals_part, stored_part, every_word_part, stream_part, closed_part, random_part)


def main():
    """Runs all parts on the programs. If one can't be run at all, that is the one failure reported."""
    words = argparse.ArgumentParser(description=__doc__.splitlines()[0])
    words.add_argument("--rust", action="store_true", help="cargo built them")
    words.add_argument("programs", nargs=2, type=Path, metavar="PROGRAM", help="rl_script, and rl_refusals")
    given = words.parse_args()
    try:
        with tempfile.TemporaryDirectory(prefix="refusals-") as room:
            runner = Runner(Path(room), *(str(it.resolve()) for it in given.programs), given.rust)
            passed, failed = map(sum, zip(*(part(runner) for part in PARTS)))
    except (OSError, RuntimeError, subprocess.SubprocessError) as error:
        print(f"FAILED a program was not run: {error}")
        passed, failed = 0, 1
    print(f"{passed} passed, {failed} failed")
    return 1 if failed else 0


if __name__ == "__main__":
    sys.exit(main())
