"""What the tests of the package share."""

import sys
import unittest
from pathlib import Path

TOP = Path(__file__).resolve().parents[2]
sys.path[:0] = [str(TOP / "python"), str(TOP / "tests")]

import lodvarn  # noqa: E402
from lodvarn import Mode, Movement, Report, Session, Word  # noqa: E402

FAMILY = "\U0001f468\u200d\U0001f469\u200d\U0001f467"
BACK, LINE, START, END = (
    Movement.words_back(Word.EMACS), Movement.whole_line(), Movement.to_line_start(), Movement.to_line_end()
)
PACKAGE = Path(lodvarn.__file__).parent


def opened(text, pos, **options):
    """A session with the cursor at that index."""
    session = Session(text, **options)
    session.pos = pos
    return session


class Scripts(unittest.TestCase):
    def stands(self, session, text, pos):
        """The session has that text and cursor."""
        self.assertEqual((session.text, session.pos), (text, pos))


def edited(kind=Session):
    """A session with a ring of two texts, an open group, and a change that was undone."""
    options = {"limit_bytes": 100, "ring_size": 3, "mode": Mode.NO_ZWJ, "prompt": 2, "max_entries": 50}
    session = kind("né two", **options, max_bytes=99, max_ring_bytes=98, keep_undone=True)
    session.kill(BACK)
    session.ring_add("日本")
    session.mark_saved()
    session.yank()
    session.begin_group()
    session.insert("é")
    session.replace(0, 1, "漢 ")
    session.undo()
    return session


def report(kind, at, old, new, pos_before, pos_after):
    """A report with its texts."""
    return Report(kind, at, len(old), len(new), pos_before, pos_after, old, new)


def main():
    """Runs the tests of the started program, says how many passed, and ends it. A class that cannot begin fails."""
    result = unittest.main(exit=False).result
    run = max(result.testsRun, 1)
    failed = min(len(result.failures) + len(result.errors), run)
    print(f"{run - failed} passed, {failed} failed")
    sys.exit(failed != 0)
