#!/usr/bin/env python3
"""Prints random lines of a script over all words of docs/RULES.md, one in twelve of which is broken.

    python3 tests/lines.py SEED COUNT
"""

import random
import re
import sys
from pathlib import Path

RULES = Path(__file__).resolve().parent.parent / "docs/RULES.md"


def forms_under(heading):
    """The forms of the words in a table of docs/RULES.md: each word, and the letters or the names of its arguments."""
    section = RULES.read_text().partition(f"\n### {heading}\n")[2].partition("\n### ")[0]
    rows = re.findall(r"^\| `(\w+)` \| *(.*?) *\|", section, re.M)
    return [f"{word} {'/'.join(re.findall('`(.*?)`', given))}".strip() for word, given in rows]


FORMS = forms_under("Words that begin a line")
MOVEMENTS = forms_under("Movements")
# What makes the arguments that are names.
NAMES = {
    "D": lambda chance: chance.choice("fb"),
    "P": lambda chance: chance.choice(["start", "before", "after"]),
    "S": lambda chance: chance.choice(["big", "emacs", "vi"]),
    "X": lambda chance: chance.choice("ftFT"),
}


def filled(chance, form, made):
    """A form with its arguments: each capital letter replaced by what is made for it, and one name of several."""

    def argument(it):
        if it == "M":
            return filled(chance, chance.choice(MOVEMENTS), made)
        return str(made[it](chance)) if it in made else chance.choice(it.split("/"))

    return " ".join(map(argument, form.split(" ")))


CHARS = r"""a b c Z 7 _ . / é ß δ 漢 ǆ ŉ İ ﬃ \s \s \n \n \t \r \\ \u{301} \u{200d} \u{fe0f} \u{0} \u{10FFFF} \u{3000}
    \u{1f469} \u{1f680} \u{1f1e9} \u{1f1ea} \u{1100} \u{1161} \u{11a8} \u{5d0} \u{903} \u{00a0} \u{1F3FF}""".split()
TEXTS = ["word", "one two", r"a\nb", r"\s\sx", "foo_bar", "ÉTÉ", r"\u{1f44b}\u{1f3ff}", "x" * 70, r"\r\n", r"\n\n"]
COUNTS = [0, 1, 1, 1, 1, 1, 2, 2, 2, 3, 5, 17, "007"]
LENGTHS = [0, 1, 3, 20, 100, 100, 300, 300, 4096, 4096]
BEYOND = ["4294967296", "18446744073709551615", "18446744073709551616", "99999999999999999999"]
# What begins a session anew, or empties it, comes less often, and what puts a text in more often.
OFTEN = {"text": 0.5, "limit": 0.1, "ring": 0.1, "mode": 0.1, "update": 0.2, "killbuf": 0.2, "discbuf": 0.2}
OFTEN |= dict.fromkeys(("ins", "paste", "str", "rep"), 4)
WEIGHTS = [OFTEN.get(form.split()[0], 1) for form in FORMS]
# What does something only after another line stands after that one half of the time.
AFTER = {"yank": "yankpop", "yankpop": "yankpop", "undo": "redo", "redo": "redo", "endone": "reopen", "end": "reopen"}


def text(chance):
    """A text as a script writes it."""
    return "".join(chance.choice(TEXTS if chance.random() < 0.4 else CHARS) for _ in range(chance.randint(0, 4)))


def number(chance, usual, beyond):
    """One of the usual numbers, or seldom one about as great as there are."""
    return chance.choice(beyond if chance.random() < 0.02 else usual)


MADE = NAMES | {
    **dict.fromkeys("ABIQ", lambda chance: number(chance, [int(chance.expovariate(0.12))], BEYOND)),
    "C": lambda chance: chance.choice(CHARS),
    "K": lambda chance: chance.choice([0, 1, 2, 4, 33, 255, 256]),
    "L": lambda chance: number(chance, LENGTHS, BEYOND),
    "N": lambda chance: number(chance, COUNTS, [65535, 65536]),
    "T": text,
}
# Without a limit a text would be copied until it had megabytes.
LIMITED = MADE | {"L": lambda chance: number(chance, LENGTHS, BEYOND[2:])}


def broken(chance, line):
    """A line with one fault in its bytes; now and then it still means something."""
    at = chance.randint(0, len(line))
    faults = b" |\xff|\xc3|\xed\xa0\x80|\\|\\u{D800}|\\u{1234567}|+|\r|\0|-1".split(b"|") + [b"x" * 5000]
    more = line[:at] + chance.choice(faults) + line[at:]
    return chance.choice([more, line[:at], line[at:], re.sub(b" ", b"  ", line, count=1)])


def main():
    """Prints the lines."""
    chance = random.Random(int(sys.argv[1]))
    form = ""
    for _ in range(int(sys.argv[2])):
        after = AFTER.get(form.split(" ")[0])
        form = after if after and chance.random() < 0.5 else chance.choices(FORMS, WEIGHTS)[0]
        line = filled(chance, form, LIMITED if form.startswith("limit") else MADE).encode()
        sys.stdout.buffer.write((broken(chance, line) if chance.random() < 1 / 12 else line) + b"\n")


if __name__ == "__main__":
    main()
