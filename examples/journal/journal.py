"""A journal for a crash: PYTHONPATH=python python3 examples/journal/journal.py FILE

Goes on with the text of FILE: types each line of the input, or does what it says if it is a key of KEYS, and prints the
text at the end. Each change is appended to FILE. So after the process was killed, at whatever moment, FILE gives back
the text up to the last whole record.
"""

import os
import struct
import sys
import zlib
from typing import Callable, Dict, Tuple

from lodvarn import Movement, Report, Session, Word

# An offset, and how many bytes were removed and inserted there. These follow, and then the sum of all.
NUMBERS, SUM = struct.Struct("<QQQ"), struct.Struct("<I")


def recover(records: bytes) -> Tuple[str, int]:
    """The text of the records up to one that is cut or damaged, and how many bytes the whole ones have."""
    text, whole = bytearray(), 0
    while len(records) - whole >= NUMBERS.size:
        at, removed, inserted = NUMBERS.unpack_from(records, whole)
        end = whole + NUMBERS.size + inserted
        if records[end : end + SUM.size] != SUM.pack(zlib.crc32(records[whole:end])) or at + removed > len(text):
            break
        text[at : at + removed] = records[end - inserted : end]
        whole = end + SUM.size
    return text.decode(), whole


class Journal:
    """A session whose changes are appended to a file."""

    def __init__(self, path: str) -> None:
        """Goes on with the text of a file. Cuts off what is not whole, since no record after it would be read."""
        self.file = open(path, "a+b", buffering=0, opener=lambda name, how: os.open(name, how, 0o600))
        self.file.seek(0)
        self.text, whole = recover(self.file.read())
        self.file.truncate(whole)
        self.waiting = b""
        self.session = Session(self.text)
        self.session.on_change = self.append

    def append(self, report: Report) -> None:
        """Appends a change. What can't be written, as to a full disk, waits for the next change."""
        start, end, new = report.at, report.at + report.old_len, report.new_text
        if new is None:  # It is folded, and its new text is in the present text.
            new = self.session.slice(start, start + report.new_len)
        before, removed, inserted = (it.encode() for it in (self.text[:start], self.text[start:end], new))
        self.text = self.text[:start] + new + self.text[end:]
        if removed or inserted:  # Else a kill begins or ends.
            record = NUMBERS.pack(len(before), len(removed), len(inserted)) + inserted
            self.waiting += record + SUM.pack(zlib.crc32(record))
            self.waiting = self.waiting[self.file.write(self.waiting) :]


KEYS: Dict[str, Callable[[Session], object]] = {
    "C-b": lambda it: it.move(Movement.chars_back()), "C-e": lambda it: it.move(Movement.to_line_end()),
    "C-k": lambda it: it.kill(Movement.to_line_end()), "C-w": lambda it: it.kill(Movement.words_back(Word.BIG)),
    "C-y": Session.yank, "M-t": Session.transpose_words, "C-_": Session.undo, "M-_": Session.redo,
}


def press(session: Session, key: str) -> None:
    """Does what a key says, or types a text that is none."""
    KEYS.get(key, lambda it: it.paste(key))(session)


if __name__ == "__main__":
    journal = Journal(sys.argv[1])
    for line in sys.stdin:
        press(journal.session, line.rstrip("\n"))
    print(journal.session.text)
