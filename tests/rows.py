#!/usr/bin/env python3
"""Prints the worked scripts of crates/rl_tests as a table for C: what each shows, the script, what it prints, and
whether each of its lines has a call that does the same.

    python3 tests/rows.py > rows.h

They stand there in the tables that go to print_all, a whole script a row, and to print_each, a text, the cursor, lines
of a script and what these print. A table that can't be read whole is an error, so no row is lost.
"""

import ast
import re
from pathlib import Path

TESTS = Path(__file__).resolve().parent.parent / "crates/rl_tests/src"
TEXT = r'"(?:[^"\\]|\\.)*"'
CONSTANT = re.compile(rf"const (\w+): &str = ({TEXT});")
ESCAPE = re.compile(rb"\\(?:x(..)|u\{(\w+)\}|(.))")
LETTERS = {b"n": b"\n", b"r": b"\r", b"t": b"\t", b"\\": b"\\", b'"': b'"'}
# A line without a call prints bad, since it means nothing, or has a count of 0, by which a call does nothing, or one of
# two words that only a script has. Of an indent by 0 a script says that it is done.
NO_TIMES = re.compile(
    rb"^(?:(?:move|kill|copy|(?:in|de)dent \d+) )?(?:(?:in|de)dent|ins|paste|yank|del|back|twords|undo|prevword"
    rb"|nextword|to|bword|fword|find|bchar|fchar|up|down) 0+(?: |$)", re.M,
)
NO_CALL = re.compile(rb"^(?:keepundone$|(?:in|de)dent 0 |(?:move|kill|copy|(?:in|de)dent \d+) first$)", re.M)
# An undo that goes otherwise by a call: soon after a command of several steps, which is one unit then; or in a group.
OTHER_UNDO = re.compile(
    rb"^(?:(?:update|tchars|twords|case|indent|dedent|yankpop)\b.*\n(?:.*\n){0,2}|begin\n(?:(?!end|abandon).*\n)*)undo",
    re.M,
)
# What stands in a text of C as it is. Two question marks and what comes after them may mean another character there.
PLAIN = set(range(32, 127)) - set(b'"\\?')


def bytes_of(literal):
    """The bytes that a text or a byte string of Rattle stands for."""

    def meant(found):
        code, scalar, letter = found.groups()
        return bytes.fromhex(code.decode()) if code else chr(int(scalar, 16)).encode() if scalar else LETTERS[letter]

    return ESCAPE.sub(meant, literal[literal.index('"') + 1 : -1].encode())


def read_table(table, constants):
    """The rows of a table, each a tuple of bytes and numbers. A word in it is one of the constants."""

    def in_python(found):
        part = found[0]
        if part.startswith("//"):
            return ""
        return repr(bytes_of(part if part.endswith('"') else constants[part]))

    return ast.literal_eval(re.sub(rf"b?{TEXT}|//[^\n]*|[A-Z]\w*", in_python, table))


def whole(text, pos, lines, printed):
    """Lines that run on a text with the cursor at that place, as a whole script."""
    length = len(re.sub(rb"\\.", b"x", text))
    what = b'%s on "%s" at %d' % (lines, text, pos)
    script = b"text %s\npos %d\n%s\n" % (text, pos, lines)
    return what, script, b"ok %d %s\nok %d %s\n%s\n" % (length, text, pos, text, printed)


def rows_of(source):
    """The worked scripts of a file of tests."""
    rows = []
    for use in re.finditer(r"\bprint_(all|each)\((?!rt:)", source):
        before, _, table = source[: use.start()].rpartition("const ROWS: &[")
        read = read_table(table.partition("= &")[2].rstrip().removesuffix(";"), dict(CONSTANT.findall(before)))
        rows += read if use[1] == "all" else [whole(*row) for row in read]
    return rows


def has_calls(script, printed):
    """Whether each line of a script has a call that does the same."""
    others = (NO_TIMES, NO_CALL, OTHER_UNDO)
    return b"bad" not in printed.split(b"\n") and not any(it.search(script) for it in others)


def in_c(text):
    """A text as C has it. A NUL would end it."""
    if 0 in text:
        raise ValueError(f"a NUL in {text}")
    return '"' + "".join(chr(b) if b in PLAIN else f"\\{b:03o}" for b in text) + '"'


def main():
    print("static const struct row {\n    const char *what, *script, *wanted;\n    int has_calls;\n} rows[] = {")
    for file in sorted(TESTS.glob("*.rt")):
        for row in rows_of(file.read_text()):
            print(f"    {{{', '.join(in_c(text) for text in row)}, {int(has_calls(*row[1:]))}}},")
    print("};")


if __name__ == "__main__":
    main()
