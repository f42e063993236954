"""A calculator's prompt in a terminal: PYTHONPATH=python:examples python3 examples/calculator/calculator.py

The keys are those of Emacs. Each line that is entered is evaluated, up to C-d on an empty one. Without a terminal it
evaluates the lines of its input.
"""

import os
from functools import partial
from typing import Callable, Dict

from arithmetic import LIMIT, evaluate
from lodvarn import Case, Movement, NoRoomError, Screen, Session, Stop, Word, cell, index_at, width
from raw_terminal import BACKSPACE, ESC, RETURN, RawTerminal, control

PROMPT = "> "
AHEAD = 8  # The columns from the cursor to the right edge, in a row that slides.
ENDLESS = Screen(columns=65535)
START, END = Movement.to_line_start(), Movement.to_line_end()
LEFT, RIGHT = Movement.chars_back(), Movement.chars_forward()
WORD_LEFT, WORD_RIGHT = Movement.words_back(Word.EMACS), Movement.words_forward(Word.EMACS, Stop.AFTER_END)
# What keys do: moves, kills, other calls, and steps to an older or a newer line. Arrows, Home and End begin with ESC [.
MOVES = {
    control("a"): START, b"\x1b[H": START, b"\x1b[1~": START, control("e"): END, b"\x1b[F": END, b"\x1b[4~": END,
    control("b"): LEFT, b"\x1b[D": LEFT, control("f"): RIGHT, b"\x1b[C": RIGHT,
    ESC + b"b": WORD_LEFT, ESC + b"f": WORD_RIGHT,
    ESC + b"<": Movement.to_text_start(), ESC + b">": Movement.to_text_end(),
}
KILLS = {
    control("k"): END, control("u"): START, control("w"): Movement.words_back(Word.BIG), ESC + BACKSPACE: WORD_LEFT,
    ESC + b"d": WORD_RIGHT,
}
CALLS: Dict[bytes, Callable[[Session], bool]] = {
    control("d"): Session.delete, BACKSPACE: Session.backspace, control("_"): Session.undo, ESC + b"_": Session.redo,
    control("y"): Session.yank, ESC + b"y": Session.yank_pop,
    control("t"): Session.transpose_chars, ESC + b"t": Session.transpose_words,
    ESC + b"u": partial(Session.change_case, to=Case.UPPERCASE),
    ESC + b"l": partial(Session.change_case, to=Case.LOWERCASE),
    ESC + b"c": partial(Session.change_case, to=Case.CAPITALIZE),
}
STEPS = {control("p"): -1, b"\x1b[A": -1, control("n"): 1, b"\x1b[B": 1}


class Calculator:
    """A prompt for line after line in one session, so that what was killed can be yanked in later ones."""

    def __init__(self, terminal: RawTerminal) -> None:
        self.session = Session(limit_bytes=LIMIT)
        self.terminal = terminal
        self.keys = terminal.keys(self.draw)
        self.lines = [""]  # The lines of before and, last, the one that is typed now.
        self.shown = 0  # Which of them the session has.

    def run(self) -> None:
        """Does what the keys say, up to C-d on an empty line."""
        for key in self.keys:
            if key == ESC:
                key += next(self.keys, b"")  # With Alt a key sends ESC, and then what it sends alone.
            if key == control("d") and not self.session.text:
                return
            try:
                done = self.press(key)
            except NoRoomError:
                done = False
            if not done:
                print("\a", end="")

    def press(self, key: bytes) -> bool:
        """Does what a key says, or types the text that it begins. Returns whether there was anything to do."""
        if key in MOVES:
            return self.session.move(MOVES[key])
        if key in KILLS:
            return self.session.kill(KILLS[key])
        if key in CALLS:
            return CALLS[key](self.session)
        if key in STEPS:
            return self.show(self.shown + STEPS[key])
        if key in (RETURN, b"\n"):
            return self.enter()
        if key == control("c"):
            return self.begin_line()
        return self.terminal.type(self.session, key)

    def show(self, number: int) -> bool:
        """Shows another line. The session begins anew with it, so that no undo leads out of it."""
        if not 0 <= number < len(self.lines):
            return False
        self.lines[self.shown] = self.session.text
        self.shown = number
        self.session.restart(self.lines[number])
        return True

    def enter(self) -> bool:
        """Evaluates the line, unless it is blank."""
        answer = evaluate(self.session.text)
        if answer:
            self.lines.insert(-1, self.session.text)
        self.begin_line()
        print(f"{answer}\r\n" if answer else "", end="")
        return True

    def begin_line(self) -> bool:
        """Begins the next line below the one that is shown, with the same kill ring."""
        self.draw()
        print("\r\n", end="")
        self.lines[-1] = ""
        self.shown = len(self.lines) - 1
        self.session.restart()
        return True

    def draw(self) -> None:
        """Draws one row, which the terminal cuts at its right edge. It slides to keep the cursor before that."""
        columns = os.get_terminal_size(1).columns or 80
        _, cursor = cell(ENDLESS, self.session.pos, self.session.text)
        first = index_at(ENDLESS, (0, max(cursor + AHEAD - columns, 0)), self.session.before)
        row = PROMPT + self.session.slice(first, len(self.session))
        column = len(PROMPT) + width(self.session.slice(first, self.session.pos))
        print(f"\r\x1b[?7l{row}\x1b[K\x1b[?7h\r\x1b[{column}C", end="", flush=True)


def main() -> None:
    """Edits lines in a terminal, or evaluates those of the input."""
    if os.isatty(0) and os.isatty(1):
        with RawTerminal() as terminal:
            Calculator(terminal).run()
    else:
        for line in open(0, encoding="utf-8", errors="replace"):
            print(evaluate(line), flush=True)


if __name__ == "__main__":
    main()
