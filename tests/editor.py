#!/usr/bin/env python3
"""Tests the line editor in a terminal: keys go in by tmux, and the screen and the cursor's place are compared.

    python3 tests/editor.py EDITOR

Tests too how soon a paste of 10 KB is shown, how many bytes the editor writes for a key, that it leaves nothing in the
scrollback, what it leaves to a shell where it is stopped or ended, and that random keys lead to the screen that is
drawn anew. Its last line is 'N passed, M failed'.
"""

import random
import signal
import sys
from pathlib import Path

from terminal import COLUMNS, PAUSED, ROWS, SHELL, Paste, await_that, editing, keys

# The bytes that a text of the editor may have.
LIMIT = 65536
# How long a paste of 10 KB may take to show, in seconds, and how often it may be tried, since others use the machine.
SOON, TRIES = 0.2, 3
FAMILY = "\U0001f468\u200d\U0001f469\u200d\U0001f467"


def screen_of(shown):
    """The last rows of a text whose characters take one column each."""
    return [shown[at : at + COLUMNS].rstrip() for at in range(0, len(shown), COLUMNS)][-ROWS:]


# What is shown, what is sent, and the rows and the cursor that this leads to; rows that are None are not compared,
# since terminals differ in how they draw a cluster.
CASES = [
    ("a prompt", [], [">"], (0, 2)),
    ("typing", ["hello"], ["> hello"], (0, 7)),
    ("the start and the end of the line", ["hello", keys("C-a"), "x", keys("C-e"), "y"], ["> xhelloy"], (0, 9)),
    ("Home and End", ["hello", keys("Home"), "x", keys("End"), "y"], ["> xhelloy"], (0, 9)),
    ("arrows", ["hello", keys("Left Left Right"), "x"], ["> hellxo"], (0, 7)),
    ("deletions to both sides", ["hello", keys("Left Left BSpace C-d"), "x", keys("DC")], ["> hex"], (0, 5)),
    ("words back", ["one two three", keys("M-b M-b")], ["> one two three"], (0, 6)),
    ("words ahead", ["one two three", keys("C-a M-f M-f"), "x"], ["> one twox three"], (0, 10)),
    ("a word is killed", ["one two three", keys("M-b M-b M-d")], ["> one  three"], (0, 6)),
    ("a word back is killed", ["one two/three", keys("M-BSpace")], ["> one two/"], (0, 10)),
    ("a word to the blank is killed", ["one two/three", keys("C-w")], ["> one"], (0, 6)),
    ("a kill is yanked", ["one two", keys("M-b C-k C-a C-y")], ["> twoone"], (0, 5)),
    ("kills in a row are one", ["one two three", keys("C-w C-w C-y")], ["> one two three"], (0, 15)),
    ("a yank is popped", ["one two", keys("C-w Left C-u C-y M-y")], ["> two"], (0, 5)),
    ("one undo takes back both", ["one two", keys("C-w Left C-u C-y M-y C-_")], [">"], (0, 2)),
    ("a line is killed to its start", ["one two", keys("M-b C-u")], ["> two"], (0, 2)),
    ("an undo takes back a word", ["one", " two", keys("C-_")], ["> one"], (0, 5)),
    ("an undo after a change of case", ["hello world", keys("M-b M-u C-_")], ["> hello world"], (0, 8)),
    ("a redo of it", ["hello world", keys("M-b M-u C-_ M-_")], ["> hello WORLD"], (0, 13)),
    ("the other cases", ["HELLO world", keys("C-a M-l M-c")], ["> hello World"], (0, 13)),
    ("clusters are transposed", ["abc", keys("C-t")], ["> acb"], (0, 5)),
    ("and put back by one undo", ["abc", keys("C-t C-_")], ["> abc"], (0, 5)),
    ("words are transposed", ["one two", keys("M-t")], ["> two one"], (0, 9)),
    ("and put back by one undo as well", ["one two", keys("M-t C-x C-u")], ["> one two"], (0, 9)),
    ("a row that is full", ["a" * 58], ["> " + "a" * 58], (1, 0)),
    ("a line that is wrapped", ["a" * 70], ["> " + "a" * 58, "a" * 12], (1, 12)),
    ("its start", ["a" * 70, keys("C-a")], ["> " + "a" * 58, "a" * 12], (0, 2)),
    ("a line that is no longer wrapped", ["b" * 59, keys("BSpace BSpace")], ["> " + "b" * 57], (0, 59)),
    ("an insertion before the edge", ["c" * 58, keys("C-a"), "d"], ["> d" + "c" * 57, "c"], (0, 3)),
    ("a text that is longer than the screen", ["e" * 1300 + "z"], ["e" * 60] * 19 + ["e" * 42 + "z"], (19, 43)),
    ("its start", ["e" * 1300 + "z", keys("C-a")], ["> " + "e" * 58] + ["e" * 60] * 19, (0, 2)),
    ("and its end again", ["e" * 1300 + "z", keys("C-a C-e BSpace")], ["e" * 60] * 19 + ["e" * 42], (19, 42)),
    ("wide characters", ["日本語"], ["> 日本語"], (0, 8)),
    ("are taken whole", ["日本語", keys("BSpace Left"), "é"], ["> 日é本"], (0, 5)),
    ("and do not fit in one column", ["a" * 57 + "日"], ["> " + "a" * 57, "日"], (1, 2)),
    ("a mark is a part of its letter", ["xe\u0301y", keys("Left Left")], None, (0, 3)),
    ("a family of emoji is two columns wide", ["x" + FAMILY + "y"], None, (0, 6)),
    ("and one step", ["x" + FAMILY + "y", keys("Left Left")], None, (0, 3)),
    ("and one deletion", ["x" + FAMILY + "y", keys("Left BSpace")], ["> xy"], (0, 3)),
    ("two rows", ["ab", keys("M-Enter"), "cd"], ["> ab", "cd"], (1, 2)),
    ("the row above", ["abcd", keys("M-Enter"), "efgh", keys("Up"), "x"], ["> abxcd", "efgh"], (0, 5)),
    ("and the row below", ["abcd", keys("M-Enter"), "efgh", keys("Up Left Down"), "x"], ["> abcd", "efgxh"], (1, 4)),
    ("the row above, from below the prompt", ["ab", keys("M-Enter"), "c", keys("Up"), "x"], ["> xab", "c"], (0, 3)),
    ("the start of the text", ["ab", keys("M-Enter"), "cd", keys("M-<")], ["> ab", "cd"], (0, 2)),
    ("rows are joined", ["ab", keys("M-Enter"), "cd", keys("C-a BSpace")], ["> abcd"], (0, 4)),
    ("a text is accepted", ["hello", keys("C-a Enter")], ["> hello", "=> hello", ">"], (2, 2)),
    ("of two rows", ["ab", keys("M-Enter"), "cd", keys("Enter"), "e"], ["> ab", "cd", "=> ab", "cd", "> e"], (4, 3)),
    ("a wrapped text", ["a" * 58, keys("Enter")], ["> " + "a" * 58, "", "=> " + "a" * 57, "a", ">"], (4, 2)),
    (
        "several of these",
        ["hello wörld 日本", keys("M-b M-b M-u C-e M-Enter"), "and a second row", keys("Enter"), "one two", keys("M-t")],
        ["> hello WÖRLD 日本", "and a second row", "=> hello WÖRLD 日本", "and a second row", "> two one"],
        (4, 9),
    ),
    ("a word is yanked in the next text", ["one two", keys("C-w Enter C-y")], ["> one", "=> one", "> two"], (2, 5)),
    (
        "and popped there, as a text of its own",
        ["one two", keys("C-w Enter"), "x y", keys("C-w C-y M-y")],
        ["> one", "=> one", "> x two"],
        (2, 7),
    ),
    ("no undo leads back", ["one", keys("Enter"), "two", keys("C-_ C-_")], ["> one", "=> one", ">"], (2, 2)),
    ("nor a redo", ["one", keys("C-_ Enter M-_"), "x"], [">", "=>", "> x"], (2, 3)),
    ("the screen is cleared", ["ab", keys("Enter"), "cd", keys("C-l")], ["> cd"], (0, 4)),
    ("keys without a function", ["a", keys("F5 PageUp C-g C-Left"), "b"], ["> ba"], (0, 3)),
    ("a lone escape", [keys("Escape"), PAUSED, "b"], ["> b"], (0, 3)),
    ("an escape before a key", ["a", b"\x1b\x1bb", "b", b"\x1b\x1b[D", "c"], ["> cba"], (0, 3)),
    ("bytes that are text", [b"\xc3\xa9\xe6\x97\xa5"], ["> é日"], (0, 5)),
    ("bytes that are no text", ["a", b"\xff\x80\xc3", "b", b"\xe2\x82", keys("Left"), "c"], ["> acb"], (0, 4)),
    ("and bytes of no character", ["a", b"\xed\xa0\x80\xc0\x80\xf4\x90\x80\x80", "b"], ["> ab"], (0, 4)),
    ("the end of input", [keys("C-d")], [">", "ended 0"], (2, 0)),
    ("after a text", ["ab", keys("Enter"), "c", keys("BSpace C-d")], ["> ab", "=> ab", ">", "ended 0"], (4, 0)),
    ("no end, after a letter", ["ab", keys("C-d Left C-d")], ["> a"], (0, 3)),
    ("a character that stays broken off", [b"\xe6\x97", PAUSED, "x"], ["> x"], (0, 3)),
    ("what comes before a key of two parts", ["ab", keys("C-x")], ["> ab"], (0, 4)),
]

# Pastes. The marks around them are sent by the terminal, or as bytes.
CASES += [
    ("a paste is text", [Paste("a\tb\n日 c"), "d"], ["> a b", "日 cd"], (1, 5)),
    ("between others", ["xy", keys("Left"), Paste("ab"), "z"], ["> xabzy"], (0, 6)),
    ("which one undo takes back", ["ab", Paste("one two\nthree"), keys("C-_")], ["> ab"], (0, 4)),
    ("and a redo brings", ["ab", Paste("one two\nthree"), keys("C-_ M-_")], ["> abone two", "three"], (1, 5)),
    ("newlines of all kinds", [b"\x1b[200~a\rb\nc\r\nd\n\re\x1b[201~"], ["> a", "b", "c", "d", "", "e"], (5, 1)),
    (
        "no control characters",
        [b"\x1b[200~a\x1b[Db\x01\x03c\x7f\x04\x1a\xc2\x9b\x00d\x1b\x1b[201~"],
        ["> a[Dbcd"],
        (0, 8),
    ),
    ("no bytes that are no text", [b"\x1b[200~a\xff\xc3b\xed\xa0\x80\xc0\x80\xe2\x1b[201~c"], ["> abc"], (0, 5)),
    ("an end in two reads", [b"\x1b[200~ab\x1b[20", PAUSED, b"1~", keys("C-a"), "c"], ["> cab"], (0, 3)),
    ("a letter in two reads", [b"\x1b[200~\xe6\x97", PAUSED, b"\xa5\x1b[201~"], ["> 日"], (0, 4)),
    ("a part of an end", [b"\x1b[200~a\x1b[20\x1b[201\x1b[201~b"], ["> a[20[201b"], (0, 11)),
    ("an end alone", ["a", b"\x1b[201~", "b"], ["> ab"], (0, 4)),
    ("as much as fits", ["ab", Paste("x" * (LIMIT - 2))], ["x" * 60] * 19 + ["x" * 18], (19, 18)),
]

# Searches: C-s and C-r search for what is typed next, and again for that.
CASES += [
    ("a text ahead", ["one two three", keys("C-a C-s"), "th", keys("C-k")], ["> one two"], (0, 10)),
    ("and again", ["one two three", keys("C-a C-s"), "t", keys("C-s C-d")], ["> one two hree"], (0, 10)),
    ("back", ["one two three", keys("C-r"), "t", keys("C-r C-d")], ["> one wo three"], (0, 6)),
    ("to both sides", ["a-b-c-d", keys("C-a C-s"), "-", keys("C-s C-s C-r C-d")], ["> a-bc-d"], (0, 5)),
    ("of several bytes", ["日本 日本", keys("C-a C-s"), "本", keys("C-s"), keys("C-d")], ["> 日本 日"], (0, 9)),
    ("in another row", ["one", keys("M-Enter"), "two", keys("C-r"), "ne", keys("C-e"), "x"], ["> onex", "two"], (0, 6)),
    ("by two reads", ["日日", keys("C-a C-s"), b"\xe6\x97", PAUSED, b"\xa5", keys("C-s C-d")], ["> 日"], (0, 4)),
]

# What the bell tells.
RINGING = [
    ("a text that is not there", ["one", keys("C-s"), "o", keys("C-r C-k")], [">"], (0, 2)),
    ("a paste that is too long", ["ab", Paste("x" * (LIMIT - 1)), "c"], ["> abc"], (0, 5)),
    ("by far", ["ab", keys("Left"), Paste("x" * (2 * LIMIT)), "c"], ["> acb"], (0, 4)),
    ("a letter too many", [Paste("x" * LIMIT), "y", keys("Left")], ["x" * 60] * 19 + ["x" * 18], (19, 17)),
    ("a yank of nothing", [keys("C-y"), "a"], ["> a"], (0, 3)),
]

# The end of the editor, and of its texts.
CASES += [
    ("a text is dropped", ["ab", keys("M-Enter"), "cd", keys("Up C-c"), "e"], ["> ab", "cd^C", "> e"], (2, 3)),
    ("and no undo brings it back", ["ab", keys("C-c C-_ C-_")], ["> ab^C", ">"], (1, 2)),
    ("a stop where no shell is", ["ab", keys("M-Enter"), keys("Up C-z"), "x"], ["> ab", "", "> xab"], (2, 3)),
]

ARABIC = "مرحبا بالعالم " * 385 + "z"
# Texts of 10 KB, which must appear soon, typed and pasted.
SCRIPTS = [
    ("letters", "f" * 10000 + "z", ["f" * 60] * 19 + ["f" * 42 + "z"], (19, 43)),
    ("wide characters", "日" * 3400 + "z", ["日" * 30] * 19 + ["日" * 11 + "z"], (19, 23)),
    ("Arabic", ARABIC, screen_of("> " + ARABIC), (19, 53)),
    ("families of emoji", FAMILY * 560 + "z", None, (18, 43)),
    ("marks", "e\u0301" * 3400 + "z", ["e\u0301" * 60] * 19 + ["e\u0301" * 42 + "z"], (19, 43)),
    ("a letter with many marks", "e" + "\u0301" * 5000 + "z", None, (0, 4)),
]

# The most bytes that it takes to move the cursor to a row and a column, to erase, and to begin a row after one that is
# full or not. What changed is drawn from the cluster before it on.
MOVED, ERASED, WRAP, NEWLINE, AGAIN = (len(said) for said in ("\x1b[19B\x1b[60G", "\x1b[K", "\r\n", "\x1b[K\r\n", "a"))
# Lines of 40 letters and of 20, and a line of three full rows. The cursor is in the middle of the second row, and with
# the short lines at its end.
A, B, C, SHORT_B, SHORT_C = "> " + "a" * 40, "b" * 40, "c" * 40, "b" * 20, "c" * 20
LINES = [A[2:], keys("M-Enter"), B, keys("M-Enter"), C, keys("Up"), keys("Left " * 20)]
SHORT = [A[2:], keys("M-Enter"), SHORT_B, keys("M-Enter"), SHORT_C, keys("Up")]
WRAPPED = ["a" * 58 + "b" * 60 + "c" * 60, keys("Left " * 90)]
WRAPPED_A = "> " + "a" * 58

# What is sent first, and the rows and the cursor that this leads to. Then, one after the other, what is counted, the
# keys, how many bytes must be drawn for them, and the rows and the cursor.
COUNTED = [
    (LINES, [A, B, C], (1, 20), [
        ("a letter amid three lines", "x", AGAIN + 21, [A, "b" * 20 + "x" + "b" * 20, C], (1, 21)),
        ("its undo", keys("C-_"), AGAIN + 20, [A, B, C], (1, 20)),
        ("a motion", keys("Left"), 0, [A, B, C], (1, 19)),
        ("a motion to another row", keys("Up"), 0, [A, B, C], (0, 19)),
        ("and back to the end of the row", keys("Down C-e"), 0, [A, B, C], (1, 40)),
        ("a burst of letters", "y" * 10, AGAIN + 10, [A, B + "y" * 10, C], (1, 50)),
        ("its undo", keys("C-_"), AGAIN, [A, B, C], (1, 40)),
        ("a paste", Paste("y z" * 5), AGAIN + 15, [A, B + "y z" * 5, C], (1, 55)),
        ("its undo", keys("C-_"), AGAIN, [A, B, C], (1, 40)),
        ("a kill that leaves as many rows", keys("C-k"), AGAIN + 20 + WRAP + 20, [A, B + SHORT_C, SHORT_C], (1, 40)),
    ]),
    (WRAPPED, [WRAPPED_A, "b" * 60, "c" * 60], (1, 30), [
        (
            "a letter amid three rows",
            "x",
            AGAIN + 31 + WRAP + 60 + WRAP,
            [WRAPPED_A, "b" * 30 + "x" + "b" * 29, "b" + "c" * 59, "c"],
            (1, 31),
        ),
        (
            "its undo, which leaves a row empty",
            keys("C-_"),
            AGAIN + 30 + WRAP + 60 + WRAP,
            [WRAPPED_A, "b" * 60, "c" * 60],
            (1, 30),
        ),
        ("a motion to the end", keys("C-e"), 0, [WRAPPED_A, "b" * 60, "c" * 60], (3, 0)),
        ("a letter there", "x", AGAIN + WRAP + 1, [WRAPPED_A, "b" * 60, "c" * 60, "x"], (3, 1)),
    ]),
    (SHORT, [A, SHORT_B, SHORT_C], (1, 20), [
        ("a newline is killed", keys("C-k"), AGAIN + 20, [A, SHORT_B + SHORT_C], (1, 20)),
        ("and yanked", keys("C-y"), AGAIN + NEWLINE + 20, [A, SHORT_B, SHORT_C], (2, 0)),
        ("the row before it", keys("Up"), 0, [A, SHORT_B, SHORT_C], (1, 0)),
        ("is emptied", keys("C-k"), NEWLINE, [A, "", SHORT_C], (1, 0)),
        ("and killed", keys("C-k"), NEWLINE + 20, [A, SHORT_C], (1, 0)),
    ]),
]

# Screens that are drawn anew.
CASES += [
    ("a text that outgrows the screen", ["e" * 1300, keys("C-a")], ["> " + "e" * 58] + ["e" * 60] * 19, (0, 2)),
    ("a text of one letter more than the screen", ["e" * 1198, "f"], ["e" * 60] * 19 + ["f"], (19, 1)),
    ("a text that shrinks to a row", ["e" * 1300, keys("C-u"), "x"], ["> x"], (0, 3)),
    ("a cleared screen", [*LINES, keys("C-l")], [A, B, C], (1, 20)),
    (
        "a wider terminal",
        [*WRAPPED, (80, ROWS)],
        [WRAPPED_A + "b" * 20, "b" * 40 + "c" * 40, "c" * 20],
        (1, 10),
    ),
    ("a narrower one", [*LINES, (50, ROWS), PAUSED], [A, B, C], (1, 20)),
    ("a lower one", [*LINES, (COLUMNS, 2), PAUSED], [A, B], (1, 20)),
    ("and a higher one", [*LINES, (COLUMNS, 2), PAUSED, (COLUMNS, ROWS)], [A, B, C], (1, 20)),
]

# Screens with rows above them. A narrower terminal wraps each row that no longer fits, and its first rows go to the
# scrollback. 18 rows of texts are before the four that are edited, three of which are wrapped once, so 5 of the 25 are
# there.
MANY, OTHERS, H = "x\r" * 9, ["=> x"] + ["> x", "=> x"] * 6, "h" * 48
NARROW = [MANY, *WRAPPED, (40, ROWS), PAUSED]
SCROLLED = [
    ("many texts", [(H + "\r") * 200 + "i\r"], [f"=> {H}", f"> {H}"] * 8 + [f"=> {H}", "> i", "=> i", ">"], (19, 2)),
    (
        "a narrower terminal",
        NARROW,
        [*OTHERS, "> " + "a" * 38, "a" * 20 + "b" * 20, "b" * 40, "c" * 40, "c" * 20],
        (15, 10),
    ),
    (
        "and a wider one",
        [*NARROW, (80, ROWS)],
        [*OTHERS, WRAPPED_A + "b" * 20, "b" * 40 + "c" * 40, "c" * 20],
        (14, 10),
    ),
    (
        "and a narrower one again",
        [*NARROW, (80, ROWS), PAUSED, (30, ROWS)],
        [*OTHERS[4:], "> " + "a" * 28, "a" * 30, *["b" * 30] * 2, *["c" * 30] * 2],
        (12, 0),
    ),
    (
        "wide characters in a narrower one",
        [MANY, "日" * 89, keys("Left " * 46), PAUSED, (31, ROWS)],
        [*OTHERS, "> " + "日" * 14, *["日" * 15] * 5],
        (15, 28),
    ),
]

# What a shell shows: what is sent to it, and the last rows that this leads to; where a row is None, shells differ.
MODES = "stty -g | cmp - before && echo same"
SHELL_STEPS = [
    ("the modes before", ["stty -g > before\r"], ["$ stty -g > before", "$"]),
    ("the editor", ["./edit\r"], ["$ ./edit", ">"]),
    ("is stopped", ["ab", keys("M-Enter"), "cd", keys("Up C-e C-z")], ["$ ./edit", "> ab", "cd", None, "$"]),
    ("with the modes before", [f"{MODES}\r"], [f"$ {MODES}", "same", "$"]),
    ("and no marks around a paste", [Paste("echo " + "y" * 60 + "\n")], ["$ echo " + "y" * 53, "y" * 7, "y" * 60, "$"]),
    ("and goes on", ["fg\r"], ["$ fg", "./edit", "> ab", "cd"]),
    ("with its modes", ["x", Paste("y\tz"), keys("C-a"), "w"], ["$ fg", "./edit", "> wabxy z", "cd"]),
    ("and ends by a signal", [signal.SIGTERM], ["> wabxy z", "cd", "Terminated", "$"]),
    ("which the shell knows", ["echo $?\r"], ["$ echo $?", "143", "$"]),
    ("with the modes before", [f"{MODES}\r"], [f"$ {MODES}", "same", "$"]),
    ("and no marks around a paste", [Paste("echo z\n")], ["$ echo z", "z", "$"]),
    ("the editor once more", ["./edit\r"], ["$ ./edit", ">"]),
    ("ends by its key", [keys("C-d")], [">", "$"]),
    ("with the modes before", [f"{MODES}\r"], [f"$ {MODES}", "same", "$"]),
    ("the editor of a file", ["./edit f\r"], ["$ ./edit f", ">"]),
    ("writes it", ["one", keys("Enter"), "two", keys("C-u"), "x", keys("C-x C-s"), "y"], ["> one", "xy"]),
    ("and ends", [keys("C-c")], ["> one", "xy", "$"]),
    ("which is there", ["cat f; echo\r"], ["$ cat f; echo", "one", "x", "$"]),
    ("and goes on with it", ["./edit f\r"], ["$ ./edit f", "> one", "x"]),
    ("and its record and ring", [keys("C-_ C-_ C-a C-y C-x C-s C-c")], ["> one", "twotwo", "$"]),
    ("but not with another text", ["echo z > f; ./edit f\r"], ["$ echo z > f; ./edit f", "> z"]),
    ("of which no undo leads back", [keys("C-_ C-_"), "x", keys("C-c")], ["> z", "x", "$"]),
]

# Random keys: how many times, how many each time, which, and a small screen for them, so that rows wrap and scroll.
TIMES, KEYS, SEED, SMALL = 30, 8, 7, (24, 6)
RANDOM = [
    *("a", "b c", " ", "é", "日", "日本", "word", "x" * 25, "one two/three " * 5),
    *map(keys, ["M-Enter", "M-Enter", "C-y", "C-y", "C-y M-y", "C-_", "C-_ C-_", "M-_", "C-k", "C-k", "C-u", "C-w"]),
    *map(keys, ["M-d", "DC", "BSpace", "C-t", "M-t", "M-u", "M-c", "C-a", "C-e", "M-b", "M-f", "Left", "Right"]),
    *map(keys, ["Up", "Up", "Down", "M-<", "M->"]),
]


def run_case(program, what, given, rows, cursor, rings=False, scrolls=False):
    """Whether the keys lead to that screen, with nothing above it unless it scrolls, and to the bell where it rings."""
    with editing(program) as terminal:
        for one in [*given, *([] if rows else [PAUSED])]:
            terminal.send(one)
        seen = await_that(terminal.screen, lambda seen: (rows or seen[0], cursor) == seen)
        above, rang = terminal.scrollback(), terminal.rang()
        if (rows or seen[0], cursor) == seen and (above == 0 or scrolls) and rang == rings:
            return True
        print(f"FAILED: {what}, {above} rows above the screen, {'the bell' if rang else 'no bell'}")
        print(f"  wanted {rows} {cursor}\n  saw {seen}")
        return False


def run_script(program, what, text, rows, cursor):
    """Whether a text is shown soon, in one try of several."""
    for _ in range(TRIES):
        with editing(program) as terminal:
            terminal.send(text)
            seen = await_that(terminal.screen, lambda seen: (rows or seen[0], cursor) == seen, SOON)
            if (rows or seen[0], cursor) == seen and terminal.scrollback() == 0:
                return True
    print(f"FAILED: {what}, {type(text).__name__}\n  wanted {rows} {cursor}\n  saw {seen}")
    return False


def run_shell(program):
    """Whether a shell shows these rows, one step after the other."""
    outcomes = []
    with editing(program, command=SHELL) as terminal:
        for what, given, wanted in SHELL_STEPS:
            for one in given:
                terminal.send(one)

            def is_wanted(seen, wanted=wanted):
                last = seen[0][-len(wanted) :]
                return len(last) == len(wanted) and all(row in (None, saw) for row, saw in zip(wanted, last))

            seen = await_that(terminal.screen, is_wanted)
            outcomes.append(is_wanted(seen))
            if not outcomes[-1]:
                print(f"FAILED: in a shell, {what}\n  wanted {wanted}\n  saw {seen}")
    return outcomes


def run_counted(program, given, rows, cursor, keys_counted):
    """Whether the editor writes what must be drawn, erased and moved for each key, and nothing more."""
    outcomes = []
    with editing(program) as terminal:
        terminal.begin_count()
        for one in given:
            terminal.send(one)
        await_that(terminal.screen, lambda seen: seen == (rows, cursor))
        for what, key, drawn, rows, cursor in keys_counted:
            before, most = terminal.count(), drawn + ERASED + 2 * MOVED
            terminal.send(key)
            seen = await_that(terminal.screen, lambda seen: seen == (rows, cursor))
            await_that(terminal.size, lambda size: size > before + drawn)
            written, above = terminal.count() - before, terminal.scrollback()
            outcomes.append(seen == (rows, cursor) and drawn < written <= most and above == 0)
            if not outcomes[-1]:
                print(f"FAILED: {what}, {written} bytes of {most}, {above} rows above the screen")
                print(f"  wanted {rows} {cursor}\n  saw {seen}")
    return outcomes


def run_random(program, seed=SEED):
    """Whether random keys, drawn one by one, lead to the screen that C-l draws. Each time a number is typed at the end,
    which shows that all keys came."""
    chance = random.Random(seed)
    with editing(program, *SMALL) as by_steps, editing(program, *SMALL) as anew:
        for number in range(TIMES):
            given = [*chance.choices(RANDOM, k=KEYS), f"{number:03}"]
            for one in given:
                by_steps.send(one)
                anew.send(one)

            def came(seen):
                return given[-1] in "".join(seen[0])

            await_that(anew.screen, came)
            anew.send(keys("C-l"))
            seen, wanted = await_that(
                lambda: (by_steps.screen(), anew.screen()), lambda both: both[0] == both[1] and came(both[0])
            )
            if seen != wanted or not came(seen) or by_steps.scrollback() > 0:
                print(f"FAILED: random keys, {given}\n  drawn anew {wanted}\n  by steps {seen}")
                return False
    return True


def main():
    program = Path(sys.argv[1]).resolve()
    outcomes = [run_case(program, *case) for case in CASES]
    outcomes += [run_case(program, *case, rings=True) for case in RINGING]
    outcomes += [run_case(program, *case, scrolls=True) for case in SCROLLED]
    for what, text, *shown in SCRIPTS:
        outcomes += [run_script(program, what, sent, *shown) for sent in (text, Paste(text))]
    outcomes += run_shell(program)
    outcomes += [outcome for case in COUNTED for outcome in run_counted(program, *case)]
    outcomes.append(run_random(program))
    print(f"{outcomes.count(True)} passed, {outcomes.count(False)} failed")
    return 0 if all(outcomes) else 1


if __name__ == "__main__":
    sys.exit(main())
