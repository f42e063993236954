"""A small vi in a terminal: PYTHONPATH=python:examples python3 examples/modal/modal.py [TEXT]

h j k l 0 ^ $ w b move, f goes to a character of ASCII, / and a text up to RET to the next such text. i and a type, up
to ESC. x kills a character, d what a motion covers in the line. v selects by motions; then d kills, y copies. p puts
the newest. m and a letter set a mark, ` and it go there. u undoes, C-r redoes. RET ends and prints the text, C-c ends.
"""

import os
import re
import sys
from typing import Callable, Dict, Tuple

from lodvarn import Movement, Report, Screen, Search, Session, Stop, Word, cell, rows
from raw_terminal import BACKSPACE, ESC, RETURN, RawTerminal, control

TAB = 8
INSERT, VISUAL = "-- INSERT --", "-- VISUAL --"
MOTIONS = {
    b"h": Movement.chars_back(), b"l": Movement.chars_forward(), b"j": Movement.lines_down(), b"k": Movement.lines_up(),
    b"0": Movement.to_line_start(), b"^": Movement.to_first_nonblank(), b"$": Movement.to_line_end(),
    b"w": Movement.words_forward(Word.VI, Stop.AT_START), b"b": Movement.words_back(Word.VI),
}


class Vi:
    """A text that ends with a newline, as those of vi do, and what the keys do with it."""

    def __init__(self, text: str, terminal: RawTerminal) -> None:
        self.session = Session(text)
        self.session.pos = 0
        self.session.on_change = self.move_marks
        self.terminal = terminal
        self.keys = terminal.keys(self.draw)
        self.mode = ""
        self.anchor = 0  # Where the selection began.
        self.marks: Dict[bytes, int] = {}

    def run(self) -> str:
        """Does what the keys say, or rings the bell. Returns the text after RET, and nothing after C-c."""
        while (key := self.read_key()) not in (RETURN, control("c")):
            self.session.undo_boundary()  # What two keys do is two undos, and two texts of the ring.
            if not self.press(key):
                print("\a", end="")
            if self.session.movement_target(MOTIONS[b"$"]) is None:
                self.go(b"h")  # The cursor is on a character.
        return self.session.text if key == RETURN else ""

    def read_key(self) -> bytes:
        """The next key. At the end of input it is C-c."""
        return next(self.keys, control("c"))

    def press(self, key: bytes) -> bool:
        """Does what a key says. Returns whether there was anything to do."""
        if key in MOTIONS:
            return self.go(key)
        return key in COMMANDS and COMMANDS[key](self)

    def is_in_line(self, index: int) -> bool:
        """Whether an index is in the cursor's line."""
        return self.session.line_at(index) == self.session.line_at(self.session.pos)

    def go(self, key: bytes) -> bool:
        """Moves by a motion: by h and l in the line alone, and by none past the last newline."""
        target = self.session.movement_target(MOTIONS[key])
        if target is None or target == len(self.session) or (key in (b"h", b"l") and not self.is_in_line(target)):
            return False
        self.session.pos = target
        return True

    def find(self) -> bool:
        """Goes to a character after the cursor in its line."""
        key = self.read_key()
        c = key.decode() if b" " <= key <= b"~" else "\n"
        target = self.session.movement_target(Movement.to_char(Search.TO, c))
        if target is None or not self.is_in_line(target) or c == "\n":
            return False
        self.session.pos = target
        return True

    def search(self) -> bool:
        """Goes to the next text that is the same as what is typed up to RET, after the end from the start again."""
        with Session() as typed:
            while (key := self.read_key()) not in (RETURN, ESC, control("c")):
                if key == BACKSPACE:
                    typed.backspace()
                else:
                    self.terminal.type(typed, key)
                self.mode = f"/{typed.text}"
            self.mode = ""
            found = self.session.find(typed.text, self.session.pos + 1) or self.session.find(typed.text, 0)
        if found and key == RETURN:
            self.session.pos = found.start
        return found is not None

    def set_mark(self) -> bool:
        """Sets a mark at the cursor."""
        self.marks[self.read_key()] = self.session.pos
        return True

    def go_to_mark(self) -> bool:
        """Goes to a mark."""
        mark = self.marks.get(self.read_key())
        if mark is None:
            return False
        self.session.pos = mark
        return True

    def move_marks(self, change: Report) -> None:
        """Moves the marks with a change."""
        for name, mark in self.marks.items():
            self.marks[name] = change.map_index(mark)

    def append(self) -> bool:
        """Types after the character at the cursor."""
        self.go(b"l")
        return self.insert()

    def insert(self) -> bool:
        """Inserts what is typed up to ESC. One undo takes back all of it."""
        self.mode = INSERT
        with self.session.group():
            while (key := self.read_key()) not in (ESC, control("c")):
                if key == BACKSPACE:
                    self.session.backspace()
                elif key == RETURN:
                    self.session.insert("\n")
                elif key == b"\t":
                    self.session.insert("\t")
                else:
                    self.terminal.type(self.session, key)
        self.mode = ""
        self.go(b"h")
        return True

    def kill(self, key: bytes) -> bool:
        """Kills what a motion covers in the line."""
        covered = self.session.movement_range(MOTIONS[key]) if key in MOTIONS else None
        line = self.session.line_range(self.session.line_at(self.session.pos))
        if not covered or not line or key in (b"j", b"k"):
            return False
        return self.session.kill_range(max(covered.start, line.start), min(covered.end, line.end))

    def select(self) -> bool:
        """Selects by motions, up to d or x, which kill what is selected, y, which copies it, or another key."""
        self.mode, self.anchor = VISUAL, self.session.pos
        while (key := self.read_key()) in MOTIONS:
            self.go(key)
        start, end = self.selected()
        self.mode = ""
        if key in (b"d", b"x"):
            return self.session.kill_range(start, end)
        if key == b"y":
            self.session.ring_add(self.session.slice(start, end))
        return key in (b"y", ESC)

    def selected(self) -> Tuple[int, int]:
        """Where the selection begins and ends. The characters at both of its ends are in it, but no last newline."""
        if self.mode != VISUAL:
            return 0, 0
        start, last = sorted((self.anchor, self.session.pos))
        cluster = self.session.cluster_at(last)
        return (start, cluster.end) if cluster and cluster.end < len(self.session) else (start, last)

    def put(self) -> bool:
        """Puts the newest text of the ring after the character at the cursor."""
        if not self.session.ring_count:
            return False
        self.go(b"l")
        self.session.yank()
        return self.session.move(MOTIONS[b"h"])

    def draw(self) -> None:
        """Draws the rows that fit, the cursor's among them, and then the mode."""
        columns, height = os.get_terminal_size(1)
        screen = Screen(columns or 80, tab=TAB)
        row, column = cell(screen, self.session.pos, self.session.text)
        first = max(row - height + 2, 0)
        starts = [*rows(screen, self.session.text), len(self.session)][first : first + height]
        drawn = "\x1b[2J"
        for number, (start, end) in enumerate(zip(starts, starts[1:]), 1):
            drawn += f"\x1b[{number}H" + self.row(start, end)
        print(f"{drawn}\x1b[{height}H{self.mode}\x1b[{row - first + 1};{column + 1}H", end="", flush=True)

    def row(self, start: int, end: int) -> str:
        """The text in a range, with what is selected of it in reverse, and without a newline."""
        first, last = (min(max(index, start), end) for index in self.selected())
        text = self.session.text
        return f"{text[start:first]}\x1b[7m{text[first:last]}\x1b[m{text[last:end]}".replace("\n", "")


COMMANDS: Dict[bytes, Callable[[Vi], bool]] = {
    b"f": Vi.find, b"/": Vi.search, b"m": Vi.set_mark, b"`": Vi.go_to_mark, b"i": Vi.insert, b"a": Vi.append,
    b"v": Vi.select, b"p": Vi.put, b"x": lambda vi: vi.kill(b"l"), b"d": lambda vi: vi.kill(vi.read_key()),
    b"u": lambda vi: vi.session.undo(), control("r"): lambda vi: vi.session.redo(), ESC: lambda vi: True,
}


def main() -> None:
    """Edits the text of the arguments."""
    text = re.sub("[\0-\x08\x0b-\x1f\x7f-\x9f\ud800-\udfff]", "", " ".join(sys.argv[1:])).rstrip("\n")
    with RawTerminal(has_screen=True) as terminal:
        edited = Vi(text + "\n", terminal).run()
    print(edited, end="")


if __name__ == "__main__":
    main()
