"""The journal of examples/journal/journal.py: writers are killed, files are cut and damaged, a disk is full."""

import bisect
import os
import random
import resource
import signal
import subprocess
import sys
import tempfile
import time
import unittest
import zlib
from pathlib import Path

from shared import TOP, main

from lodvarn import Movement, Session

JOURNAL = TOP / "examples/journal"
sys.path.insert(0, str(JOURNAL))
from journal import KEYS, NUMBERS, SUM, Journal, press, recover  # noqa: E402

ENVIRONMENT = {**os.environ, "PYTHONPATH": str(TOP / "python")}
TEXTS = ["one two", " zwölf", "漢字 ", "e\u0301", "\U0001f469", "x"]
KILLS, PATIENCE = 20, 600


def lines_of(count):
    """Texts and keys at random. Much is killed again, so that the text stays short."""
    return random.Random(7).choices([*TEXTS, *KEYS, "C-w", "C-w"], k=count)


class Journals(unittest.TestCase):
    def setUp(self):
        folder = tempfile.TemporaryDirectory()
        self.addCleanup(folder.cleanup)
        self.path = Path(folder.name, "journal")

    def held(self, lines):
        """Returns a function for the text of the records in so many bytes, also within a command."""
        ends, texts = [0], [""]
        with Session() as session:
            session.watch()
            for line in lines:
                press(session, line)
                for it in session.changes():
                    if it.old_len or it.new_len:
                        ends.append(ends[-1] + NUMBERS.size + len(it.new_text.encode()) + SUM.size)
                        texts.append(texts[-1][: it.at] + it.new_text + texts[-1][it.at + it.old_len :])
                self.assertEqual(texts[-1], session.text)
        return lambda size: texts[bisect.bisect_right(ends, size) - 1]

    def go_on(self, lines):
        """Goes on with the file. What it has then, and the text."""
        journal = Journal(self.path)
        for line in lines:
            press(journal.session, line)
        journal.file.close()
        return self.path.read_bytes(), journal.session.text

    def kill(self, pause, stdin):
        """Kills a writer so many seconds after its first record. What it has written."""
        self.path.write_bytes(b"")
        words = [sys.executable, JOURNAL / "journal.py", self.path]
        with subprocess.Popen(words, env=ENVIRONMENT, stdin=stdin) as writer:
            patience = time.monotonic() + PATIENCE
            while not self.path.stat().st_size and time.monotonic() < patience:
                time.sleep(0.001)
            time.sleep(pause)
            writer.kill()
        self.assertEqual(writer.returncode, -signal.SIGKILL)
        return self.path.read_bytes()

    def test_a_killed_writer_leaves_whole_records(self):
        lines, given = lines_of(20000), self.path.with_name("lines")
        held = self.held(lines)
        given.write_text("\n".join(lines))
        for run in range(KILLS):
            with open(given, "rb") as stdin:
                data = self.kill(run / 1000, stdin)
            self.assertNotEqual(data, b"")
            self.assertEqual(recover(data)[0], held(len(data)))

    def test_a_cut_or_damaged_file_gives_the_text_before(self):
        lines = lines_of(60)
        held, (data, text) = self.held(lines), self.go_on(lines)
        self.assertEqual(recover(data), (text, len(data)))
        for i in range(len(data)):
            damaged = data[:i] + bytes([data[i] ^ 1 << i % 8]) + data[i + 1 :]
            self.assertEqual([recover(it)[0] for it in (data[:i], damaged)], [held(i)] * 2)
            self.path.write_bytes(damaged)
            longer, text = self.go_on("x")
            self.assertEqual((text, recover(longer)), (held(i) + "x", (text, len(longer))))

    def test_an_offset_past_the_text_is_damaged(self):
        for numbers in ((1, 0, 1), (0, 1, 1)):
            record = NUMBERS.pack(*numbers) + b"a"
            self.assertEqual(recover(record + SUM.pack(zlib.crc32(record))), ("", 0))

    def test_what_does_not_fit_on_the_disk_is_written_later(self):
        _, most = limits = resource.getrlimit(resource.RLIMIT_FSIZE)
        self.addCleanup(resource.setrlimit, resource.RLIMIT_FSIZE, limits)
        for room in range(200):
            self.path.write_bytes(b"")
            journal, failed = Journal(self.path), 0
            resource.setrlimit(resource.RLIMIT_FSIZE, (room, most))
            for line in lines_of(100):
                try:
                    press(journal.session, line)
                except OSError:
                    failed += 1
            resource.setrlimit(resource.RLIMIT_FSIZE, limits)
            journal.session.paste("\n" * 100)
            journal.session.indent(Movement.whole_text(), 1)  # Its changes are folded.
            journal.file.close()
            data = self.path.read_bytes()
            self.assertGreater(failed, 0)
            self.assertEqual(recover(data), (journal.session.text, len(data)))


if __name__ == "__main__":
    main()
