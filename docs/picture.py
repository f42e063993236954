#!/usr/bin/env python3
"""Makes the pictures of the programs at work: what is typed, and what a terminal shows after it.

    python3 docs/picture.py            writes them
    python3 docs/picture.py --check    compares them with those that are there. Its last line is 'N passed, M failed'

Programs are built as examples/test.py says. Needs tmux. Fails if one does not show what its steps say.
"""

import os
import re
import shlex
import sys
import unicodedata
from html import escape
from pathlib import Path

sys.dont_write_bytecode = True
TOP = Path(__file__).resolve().parent.parent
sys.path += [str(TOP / "tests"), str(TOP / "examples")]

from programs import built  # noqa: E402
from terminal import PROMPT_SHOWN, SCREEN_SHOWN, await_that, editing, keys  # noqa: E402

PYTHON, ENTER = sys.executable, keys("Enter")
MODAL, CALCULATOR = TOP / "examples/modal/modal.py", TOP / "examples/calculator/calculator.py"
# What a terminal tells of a program that shows nothing before it has read something.
NOTHING_SHOWN = "0 0"
# Of each picture: its file, its title, the program and its arguments, what tells that it has begun, the size of the
# terminal, and the steps: what is typed, as texts and lists of keys by tmux's names, the last rows that are shown then,
# and the column of the cursor.
PICTURES = [
    ("docs/lodvarn.svg", "A line editor", ["editor"], PROMPT_SHOWN, (60, 20), [
        (["hello wörld 日本"], ["> hello wörld 日本"], 18),
        ([keys("M-b M-b M-u")], ["> hello WÖRLD 日本"], 13),
        ([keys("C-e M-Enter"), "and a second row"], ["> hello WÖRLD 日本", "and a second row"], 16),
        ([ENTER, "one two"], ["=> hello WÖRLD 日本", "and a second row", "> one two"], 9),
        ([keys("M-t")], ["> two one"], 9),
    ]),
    ("examples/prompt/picture.svg", "The prompt of a shell", ["prompt"], PROMPT_SHOWN, (60, 20), [
        (["echo one two", ENTER], ["$ echo one two", "one two", "$"], 2),
        (["ls e", keys("Tab Enter")], ["$ ls edit", "edit", "$"], 2),
        (["two", keys("C-r")], ["$ echo one two"], 14),
        ([keys("C-w M-b C-y Space Enter")], ["$ echo two one", "two one", "$"], 2),
        (["lost", keys("C-_"), "new"], ["$ new"], 5),
        ([keys("C-_ C-_")], ["$ lost"], 6),
    ]),
    ("examples/modal/picture.svg", "A small vi", [PYTHON, MODAL, "one two\nthree four"], SCREEN_SHOWN, (30, 4), [
        ([keys("w v j l")], ["one two", "three four", "", "-- VISUAL --"], 5),
        ([keys("d i"), "and "], ["one and four", "", "", "-- INSERT --"], 8),
        ([keys("Escape 0 d w")], ["and four"], 0),
        ([keys("w h p")], ["and one four"], 7),
        ([keys("u u u u")], ["one two", "three four"], 5),
    ]),
    ("examples/calculator/picture.svg", "A calculator", [PYTHON, CALCULATOR], PROMPT_SHOWN, (60, 20), [
        (["2*(3+4)", ENTER], ["> 2*(3+4)", "14", ">"], 2),
        ([keys("Up C-u"), "10-", keys("C-y")], ["> 10-2*(3+4)"], 12),
        ([ENTER], ["> 10-2*(3+4)", "-4", ">"], 2),
        (["5/", keys("C-y C-_"), "0"], ["> 5/0"], 5),
        ([ENTER], ["> 5/0", "error: division by zero", ">"], 2),
    ]),
    ("examples/form_field/picture.svg", "A form field", ["form_field"], NOTHING_SHOWN, (60, 20), [
        (["type one two", ENTER], ["[one two   ] 7"], 0),
        (["select-word-left", ENTER], ["[one two   ] 4 two"], 0),
        (["paste 日本語", ENTER], ["[ne 日本語 ] 9"], 0),
        (["undo", ENTER], ["[one two   ] 7 two"], 0),
        (["home", ENTER], ["[one two   ] 0"], 0),
    ]),
]
# What tmux tells of a screen with one text in reverse, or none.
REVERSED = re.compile(r"([^\x1b]*)(?:\x1b\[7m([^\x1b]*)(?:\x1b\[\d*m)*([^\x1b]*))?")
# In pixels: a cell, and the space around what is drawn.
WIDTH, HEIGHT, SPACE = 9, 20, 16
HEADS = "You type", "The terminal shows"
HEAD = """<svg xmlns="http://www.w3.org/2000/svg" viewBox="0 0 {0} {1}" width="{0}" height="{1}">
<title>{2} over Lodvarn: what is typed, and what the terminal shows</title>
<style>
text {{ font: 15px ui-monospace, Menlo, Consolas, "DejaVu Sans Mono", monospace; fill: #dfe3ea }}
.head {{ fill: #9aa3b2 }}
.key {{ fill: #8ec5d6 }}
.screen {{ fill: #2e343e }}
.selected {{ fill: #56637a }}
.cursor {{ fill: #6f9a5b }}
</style>
<rect width="{0}" height="{1}" rx="8" fill="#21252b"/>"""


def columns_of(text):
    """The columns that a terminal gives a text."""
    return sum(2 if unicodedata.east_asian_width(c) in "WF" else 1 for c in text)


def draw_text(x, y, text, kind):
    """A text of one row. Each word begins in its column and is as wide as its cells, whatever the font."""
    for word in re.finditer(r"\S+", text):
        at, width = x + WIDTH * columns_of(text[: word.start()]), WIDTH * columns_of(word[0])
        yield f'<text class="{kind}" x="{at}" y="{y + 15}" textLength="{width}">{escape(word[0])}</text>'


def draw_cells(x, y, before, columns, kind):
    """So many cells after a text, in a colour."""
    if columns > 0:
        at = x + WIDTH * columns_of(before)
        yield f'<rect class="{kind}" x="{at}" y="{y}" width="{WIDTH * columns}" height="{HEIGHT}"/>'


def name_of(typed):
    """What is typed, as a text."""
    return " ".join(typed) if isinstance(typed, list) else typed


def draw_typed(y, typed):
    """What is typed, at the left; keys have a colour of their own."""
    x = SPACE
    for one in typed:
        yield from draw_text(x, y, name_of(one), "key" if isinstance(one, list) else "typed")
        x += WIDTH * columns_of(name_of(one) + " ")


def draw_screen(x, y, columns, rows, cursor):
    """A screen at the right, with what is in reverse, and its cursor if that is in its rows."""
    height = HEIGHT * len(rows)
    yield f'<rect class="screen" x="{x - 8}" y="{y - 4}" width="{WIDTH * columns + 8}" height="{height + 8}" rx="4"/>'
    for number, (text, start, end) in enumerate(rows):
        at = y + HEIGHT * number
        yield from draw_cells(x, at, text[:start], columns_of(text[start:end]), "selected")
        yield from draw_cells(x, at, " " * cursor[1], int(number == cursor[0]), "cursor")
        yield from draw_text(x, at, text, "shown")


def screen_of(terminal):
    """The rows up to the last that is not empty, each with the places where what is in reverse begins and ends, and the
    cursor's row and column."""
    shown = terminal.tmux("capture-pane", "-e", "-p", "-t", "edit").rstrip()
    before, selected, after = REVERSED.fullmatch(shown).groups("")
    rows, at, end = [], 0, len(before) + len(selected)
    for text in (before + selected + after).split("\n"):
        rows.append((text.rstrip(), *(min(max(place - at, 0), len(text)) for place in (len(before), end))))
        at += len(text) + 1
    row, column = terminal.told("#{cursor_y} #{cursor_x}").split()
    return rows, (int(row), int(column))


def screens_of(words, begun, size, steps):
    """The rows and the cursor that are shown after each step. Fails if they are not those that the step says."""
    program, *given = map(str, words)
    with editing(program, *size, f"./edit {shlex.join(given)}; exec cat", begun) as terminal:
        for typed, wanted, column in steps:
            for one in typed:
                terminal.send(one)

            def is_shown(seen, wanted=(wanted, column)):
                return ([text for text, *_ in seen[0][-len(wanted[0]) :]], seen[1][1]) == wanted

            rows, cursor = seen = await_that(lambda: screen_of(terminal), is_shown)
            if not is_shown(seen):
                sys.exit(f"after {typed} wanted {wanted} and the cursor in column {column}, saw {seen}")
            yield rows[-len(wanted) :], (cursor[0] - len(rows) + len(wanted), column)


def picture_of(title, words, begun, size, steps):
    """The text of a picture."""
    texts = [HEADS[0], *(" ".join(map(name_of, typed)) for typed, *_ in steps)]
    left = SPACE + WIDTH * max(map(columns_of, texts)) + 2 * SPACE
    columns = 2 + max(map(columns_of, [HEADS[1], *(row for _, rows, _ in steps for row in rows)]))
    lines = [*draw_text(SPACE, SPACE, HEADS[0], "head"), *draw_text(left, SPACE, HEADS[1], "head")]
    y = SPACE + HEIGHT + SPACE // 2
    for (typed, *_), (rows, cursor) in zip(steps, screens_of(words, begun, size, steps)):
        lines += [*draw_typed(y, typed), *draw_screen(left, y, columns, rows, cursor)]
        y += HEIGHT * len(rows) + SPACE
    return "\n".join([HEAD.format(left + WIDTH * columns + SPACE, y, title), *lines, "</svg>\n"])


def main():
    os.environ["PYTHONPATH"] = os.pathsep.join([str(TOP / "python"), str(TOP / "examples")])
    failed = 0
    with built("editor", "prompt", "form_field") as programs:
        for name, title, (program, *given), *rest in PICTURES:
            picture, file = picture_of(title, [programs.get(program, program), *given], *rest), TOP / name
            if sys.argv[1:] != ["--check"]:
                file.write_text(picture, encoding="utf-8")
            elif not file.is_file() or file.read_text(encoding="utf-8") != picture:
                print(f"{name} is not what docs/picture.py makes")
                failed += 1
    print(f"{len(PICTURES) - failed} passed, {failed} failed")
    return 1 if failed else 0


if __name__ == "__main__":
    sys.exit(main())
