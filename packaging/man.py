#!/usr/bin/env python3
"""Prints the manual page of include/lodvarn.h: its head, and each group of calls, each call with its comment.

The date of the page is SOURCE_DATE_EPOCH of the environment. What only the preprocessor needs, and names that end with
an underscore, are left out.
"""

import os
import re
import sys
import time
from pathlib import Path

sys.path.insert(0, str(Path(__file__).resolve().parent.parent / "tests"))
import header  # noqa: E402

# A part of a comment: an item of a list, lines of an example, a title, or the lines of a paragraph.
PART = re.compile(r"^- .*(?:\n  .*)*|^(?:    .*\n?)+|^[A-Z][a-z]+$|(?:^(?!- | ).+\n?)+", re.M)
NAMED = re.compile(r"\blodvarn_\w+")
PLUMBING = re.compile(r'^(?:#(?:if|end|inc)|extern "C"|\}$|#define \w+_H$).*\n?', re.M)
# A function that the header defines, whose body is left out, and a macro whose text is, since it is made by others.
DEFINED = re.compile(r"^static inline (.*?\)) \{(?:[^\n]*\}|.*?^\})$", re.M | re.S)
MADE = re.compile(r"^(#define \w+) \w+_\(.*\)$", re.M)
OWN = re.compile(r"\w_(?:\(| = )|^#define \w+_(?: |$)", re.M)
CHECKED = re.compile(r"^LODVARN_CHECK_ ", re.M)
ESCAPES = {"\\": r"\e", "-": r"\-", "'": r"\(aq", "`": r"\(ga", "^": r"\(ha", "~": r"\(ti"}


def safe(line):
    """A line that roff takes as it stands."""
    return re.sub(r"^\.", r"\\&.", "".join(ESCAPES.get(it, it) for it in line))


def code_of(lines, font="R"):
    """The requests that show lines as they stand."""
    return [".PP", ".nf", *(rf"\f{font}{safe(line)}\fR" for line in lines), ".fi"]


def text_of(comment):
    """The requests for the text of a comment."""
    page = []
    for part in PART.findall(comment):
        lines = part.rstrip().split("\n")
        if part.startswith("    "):
            page += code_of(lines)
        elif re.fullmatch(r"[A-Z][a-z]+", part):
            page.append(f".SS {part}")
        else:
            item = part.startswith("- ")
            words = (safe(line[2:] if item else line) for line in lines)
            page += [r".IP \(bu 2" if item else ".PP", *(NAMED.sub(r"\\fB\g<0>\\fR", it) for it in words)]
    return page


def shown(code):
    """What a program uses of the code after a comment, as lines."""
    code = CHECKED.sub("", code)
    code = PLUMBING.sub("", MADE.sub(r"\1", DEFINED.sub(r"\1;", re.sub(r" +\\\n", r" \\\n", code))))
    parts = (it.strip("\n") for it in code.split("\n\n") if not OWN.search(it))
    return "\n\n".join(it for it in parts if it).split("\n")


def main():
    (head, _), *blocks = header.blocks()
    title, _, rest = head.partition(".")
    date = time.strftime("%Y-%m-%d", time.gmtime(int(os.environ["SOURCE_DATE_EPOCH"])))
    page = [
        f'.TH LODVARN 3 {date} "Lodvarn {header.version()}" "Library Functions Manual"',
        ".nh", ".ad l", ".ss 12 0", ".SH NAME", rf"lodvarn \- {title.partition(': ')[2]}",
        ".SH SYNOPSIS", r"\fB#include <lodvarn.h>\fR", ".PP",
        r"\fBgcc\fR \fIFILE\fR\fB.c $(pkg\-config \-\-cflags \-\-libs lodvarn)\fR",
        ".SH DESCRIPTION", *text_of(rest.strip("\n")), ".SH TYPES",
    ]
    for comment, code in blocks:
        if not code.strip():
            group, _, rest = comment.partition(".")
            page += [f".SH {group.upper()}", *text_of(rest.strip())]
        elif shown(code) != [""]:
            page += [*code_of(shown(code), "B"), ".RS 4", *text_of(comment)[1:], ".RE"]
    print("\n".join(page))


if __name__ == "__main__":
    main()
