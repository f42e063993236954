"""Standard input as a terminal whose keys come one by one, for the programs in the folders beside this file."""

import os
import re
import select
import signal
import sys
import termios
import tty
from contextlib import suppress
from typing import Any, Callable, Iterator

from lodvarn import NotUtf8Error, Session

ESC, RETURN, BACKSPACE = b"\x1b", b"\r", b"\x7f"
# A key is what an arrow or a function key sends, or one byte: a control character, or the first byte of a text.
KEY = re.compile(rb"\x1b[\[O][ -?]*[@-~]|.", re.S)
# A text without control characters.
TEXT = re.compile(rb"(?:[^\x00-\x1f\x7f\xc2]|\xc2(?![\x80-\x9f]))+")


def control(letter: str) -> bytes:
    """What a letter sends with Control."""
    return bytes([ord(letter) & 31])


class RawTerminal:
    """A terminal in raw mode, with a screen of its own if that is wanted. A `with` leaves it as it was."""

    def __init__(self, has_screen: bool = False) -> None:
        self.has_screen = has_screen
        self.left = b""  # What was read and is no key yet.

    def __enter__(self) -> "RawTerminal":
        signal.signal(signal.SIGTERM, lambda number, _: sys.exit(128 + number))  # So that the `with` ends.
        signal.signal(signal.SIGWINCH, lambda *_: None)  # It ends a wait, as each signal with a handler does.
        self.woken, waking = os.pipe2(os.O_NONBLOCK)
        signal.set_wakeup_fd(waking)
        self.modes = termios.tcgetattr(0)
        tty.setraw(0, termios.TCSADRAIN)
        print("\x1b[?1049h" if self.has_screen else "", end="", flush=True)
        return self

    def __exit__(self, *fault: Any) -> None:
        print("\x1b[?1049l" if self.has_screen else "\r\n", end="", flush=True)
        termios.tcsetattr(0, termios.TCSADRAIN, self.modes)

    def keys(self, draw: Callable[[], None]) -> Iterator[bytes]:
        """The keys up to the end of input. It draws when it has to wait, once for all that was sent together."""
        while True:
            draw()
            ready, _, _ = select.select([0, self.woken], [], [])
            if self.woken in ready:
                os.read(self.woken, 4096)
            elif data := os.read(0, 4096):
                self.left, before = self.left + data, b""
                # If a key was put back, it is the start of a character.
                while self.left != before and (key := KEY.match(self.left)):
                    before, self.left = self.left, self.left[key.end() :]
                    yield key[0]
            else:
                return

    def type(self, session: Session, key: bytes) -> bool:
        """Types a key into a session, with the text that follows it. Returns False if it is no text."""
        data = key + self.left
        text = TEXT.match(data)
        with suppress(NotUtf8Error):
            used = session.type(text[0]) if text else 0
            if text and (used or text.end() == len(data)):
                self.left = data[used:]
                return True
        return False
