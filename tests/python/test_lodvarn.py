"""What the package for Python makes of the library: the worked scripts by its calls, and what it has of its own.

Without words it runs the other tests of the package too, but for those of a wheel, the journal and refused memory.
"""

import copy
import gc
import inspect
import pickle
import random
import re
import sys
import threading
import typing
import unittest
from contextlib import suppress
from itertools import product
from unittest import mock

from shared import BACK, FAMILY, LINE, PACKAGE, TOP, Scripts, main, opened

import header
import lodvarn
import test_changes
import test_faults
import test_mirrors
import test_saved
from lodvarn import Cell, Cluster, Direction, Mode, Movement, Range, RowCell, Screen, Search, Session, Word
from lodvarn._lodvarn import lib
from rows import TESTS, has_calls, rows_of
from typed import Typed


def load_tests(loader, own, _):
    """These tests and those of the other files."""
    others = (test_faults, test_saved, test_changes, test_mirrors)
    return unittest.TestSuite([own, *map(loader.loadTestsFromModule, others)])


class Rows(unittest.TestCase):
    def test_the_worked_scripts(self):
        rows = [row for file in sorted(TESTS.glob("*.rt")) for row in rows_of(file.read_text())]
        self.assertGreater(len(rows), 150)
        for what, script, wanted in rows:
            with self.subTest(what=what):
                self.assertEqual(lodvarn.run_script(script), wanted)
                if has_calls(script, wanted):
                    typed = Typed()
                    self.assertEqual("".join(map(typed.run, script.decode().splitlines())), wanted.decode())


class Indexes(Scripts):
    def test_a_text_has_parts_before_and_after_the_cursor(self):
        for text, pos, before, after, shown in [
            ("", 0, "", "", "<Session ''|''>"),
            ("aé漢\n", 3, "aé漢", "\n", "<Session 'aé漢'|'\\n'>"),
            ("aé\0漢", 0, "", "aé\0漢", "<Session ''|'aé\\x00漢'>"),
            (FAMILY + "é", 5, FAMILY, "é", f"<Session {FAMILY!r}|'é'>"),
            ("éx" * 2500, 3000, "éx" * 1500, "éx" * 1000, f"<Session ...{'éx' * 10!r}|{'éx' * 10!r}...>"),
        ]:
            with self.subTest(text=text[:50]), opened(text, pos) as session:
                self.assertEqual((session.text, session.before, session.after), (text, before, after))
                self.assertEqual((session.pos, len(session), bool(session), str(session)), (pos, len(text), True, text))
                self.assertEqual((repr(session), session.slice(0, pos)), (shown, before))

    def test_each_offset_has_an_index(self):
        rng = random.Random(7)
        for length in [0, 1, 15, 16, 119, 120, 121, 239, 240, 241, 480, 700]:
            text = "".join(rng.choice("aé漢\U0001f468") for _ in range(length))
            given, session = text.encode(), Session(text)
            for index in range(length + 1):
                offset = len(text[:index].encode())
                self.assertEqual(lib.offset_in(given, len(given), index), offset)
                self.assertEqual(lib.chars_in(given, offset), index)
                session.pos = index
                self.assertEqual((session.pos, session.before), (index, text[:index]))
            for none in (-1, length + 1, 2**63 - 1, 2**64):
                self.assertRaises(lodvarn.BadIndexError, setattr, session, "pos", none)

    def test_what_is_returned_are_indexes(self):
        text = "é日 cd\n  é漢x\n" + FAMILY
        session = opened(text, 10)
        for found, wanted in [
            (session.movement_range(LINE), "  é漢x"),
            (session.movement_range(BACK), "é漢"),
            (session.line_range(0), "é日 cd"),
            (session.line_range(2), FAMILY),
            (session.line_range(3), None),
            (session.movement_range(Movement.to_char(Search.TO, "z")), None),
            (session.movement_range(LINE, 1), "é日 cd"),
            (session.movement_range(BACK, 2), "é日"),
            (session.movement_range(BACK, 0), None),
        ]:
            self.assertEqual(found and text[slice(*found)], wanted)
        self.assertEqual([session.movement_target(BACK, it) for it in (None, 2, 0, 6)], [8, 0, None, 3])
        self.assertIsNone(session.movement_target(LINE))
        wide = [Cluster("日", 1, 2, 2), Cluster(FAMILY, 12, 17, 2), None]
        self.assertEqual([session.cluster_at(it) for it in (1, 12, 17)], wide)
        self.assertEqual([session.cluster_before(it) for it in (2, 17, 0)], wide)
        self.assertEqual([session.line_at(it) for it in (0, 5, 6, 11, 12, 17)], [0, 0, 1, 1, 2, 2])
        self.assertEqual((session.cursor_position, session.line_count, session.pos), (Cell(1, 5), 3, 10))
        for found, wanted in [
            (session.line_range(0), Range(0, 5)), (session.movement_range(BACK), Range(8, 10)),
            (session.find("é"), None), (session.cursor_position, Cell(1, 5)),
            (session.row_above(Screen(9)), RowCell(4, 5)), (session.cluster_at(1), Cluster("日", 1, 2, 2)),
        ]:
            self.assertEqual((type(found), found), (type(wanted), wanted))

    def test_what_is_given_are_indexes(self):
        session = opened("é日c", 1)
        for call, given, text, pos in [
            (session.insert_at, (1, "漢"), "é漢日c", 1),
            (session.replace, (1, 3, "ab"), "éabc", 3),
            (session.delete_range, (0, 1), "abc", 0),
            (session.set_text, (2, "éé漢"), "éé漢", 2),
            (session.kill_range, (0, 2, Direction.BACKWARD), "漢", 0),
            (session.kill_range, (0, 1), "", 0),
        ]:
            call(*given)
            self.stands(session, text, pos)
        self.assertEqual(session.ring, ["éé漢"])

    def test_an_index_has_a_cell_and_a_cell_an_index(self):
        for screen, text, index, wanted in [
            (Screen(10, 2), "ab\ncd", 5, (1, 2)),
            (Screen(4), "abc漢", 4, (1, 2)),
            (Screen(10, 2), FAMILY, 5, (0, 4)),
            (Screen(10, 2, mode=Mode.WC_WIDTH), FAMILY, 5, (0, 8)),
            (Screen(columns=20, prompt=3, tab=4), "漢\n\t", 3, (1, 4)),
            (Screen(20, 3, 1, 0, 2), "漢\n\x01", 3, (1, 3)),
        ]:
            with self.subTest(text=text, screen=screen):
                self.assertEqual(lodvarn.cell(screen, index, text), Cell(*wanted))
                self.assertEqual(lodvarn.index_at(screen, wanted, text), index)
        self.assertEqual(lodvarn.index_at(Screen(10), (2**64 - 1, 0), "漢字"), 2)

    def test_motions_by_rows_keep_the_column(self):
        with Session("漢字é\n\na") as session:
            screen = Screen(4, continuation=2)
            self.assertEqual(session.row_above(screen), (4, 3))
            self.assertEqual(session.row_above(screen, 1, 2), (3, 1))
            session.pos = 0
            self.assertEqual(session.row_below(screen, 1), (3, 1))
            self.assertIsNone(session.row_below(screen, n=9))
            session.pos = 2
            for start in (None, 0, 2, 4):
                self.assertEqual(session.row_above(screen, start=start), (0, 0))

    def test_a_text_is_cut_into_clusters(self):
        self.assertEqual(
            lodvarn.clusters("e\u0301漢x"),
            [Cluster("e\u0301", 0, 2, 1), Cluster("漢", 2, 3, 2), Cluster("x", 3, 4, 1)],
        )
        counted = [Cluster("\x01", 0, 1, 0), Cluster("\n", 1, 2, 0)]
        self.assertEqual(lodvarn.clusters("\x01\n", Mode.WC_WIDTH), counted)
        self.assertEqual(lodvarn.clusters(""), [])
        shorter = type("Shorter", (str,), {"__len__": lambda it: 0})
        for text in ("ab" * 999, shorter("ab" * 999)):
            self.assertEqual([it[:2] for it in lodvarn.clusters(text)][-2:], [("a", 1996), ("b", 1997)])

    def test_rows_and_clusters_begin_at_an_index(self):
        with Session("é漢字x\n漢e\u0301" + "a" * 99) as session:
            screen = Screen(4, continuation=1)
            self.assertEqual(session.rows_from(screen, 0, 3), ([0, 2, 5], 8))
            self.assertEqual(session.rows_from(screen, 2, 2), ([2, 5], 8))
            self.assertEqual(session.rows_from(screen, 104, 9), ([104], None))
            self.assertEqual(session.rows_from(screen, 0, 0), ([], 0))
            wide, mark = Cluster("漢", 5, 6, 2), Cluster("e\u0301", 6, 8, 1)
            self.assertEqual(session.clusters_from(4, 3), ([Cluster("\n", 4, 5, 1), wide, mark], 8))
            self.assertEqual(session.clusters_from(5, 2, Mode.NO_ZWJ), ([wide, mark], 8))
            self.assertEqual(session.clusters_from(8, 100), ([Cluster("a", i, i + 1, 1) for i in range(8, 107)], None))
            self.assertEqual(session.clusters_from(107, 1), ([], None))

    def test_rows_begin_at_indexes(self):
        for screen, text, wanted in [
            (Screen(10), "", [0]),
            (Screen(3, 2), "é漢字\nb", [0, 1, 2, 4]),
            (Screen(4, continuation=3, controls=2), "\x01\x01\nab", [0, 2, 4]),
            (Screen(1), "é" * 999, [*range(1000)]),
        ]:
            with self.subTest(text=text, screen=screen):
                self.assertEqual(lodvarn.rows(screen, text), wanted)

    def test_texts_are_measured(self):
        self.assertEqual([lodvarn.width(FAMILY, it) for it in Mode], [2, 6, 6])
        for text, first, last in [("", "", ""), ("e\u0301x", "e\u0301", "x"), ("x" + FAMILY, "x", FAMILY)]:
            self.assertEqual((lodvarn.first_cluster(text), lodvarn.last_cluster(text)), (first, last))


class Values(Scripts):
    def test_options_are_read_and_set(self):
        given = {"limit_bytes": None, "ring_size": 60, "mode": Mode.UNICODE, "prompt": 0}
        given.update(max_entries=None, max_bytes=None, max_ring_bytes=None, keep_undone=False)
        session = Session()
        self.assertEqual({name: getattr(session, name) for name in given}, given)
        chosen = [("limit_bytes", 0), ("ring_size", 1), ("mode", Mode.NO_ZWJ), ("prompt", 3), ("max_entries", 0)]
        chosen += [("max_bytes", 1), ("max_ring_bytes", 2), ("keep_undone", True)]
        for name, value in chosen:
            given[name] = value
            setattr(session, name, value)
            self.assertEqual({name: getattr(session, name) for name in given}, given)
        given.update(limit_bytes=9, ring_size=2, mode=Mode.WC_WIDTH, max_entries=5)
        session = Session("abc", **given)
        self.assertEqual({name: getattr(session, name) for name in given}, given)

    def test_a_movement_is_a_value(self):
        self.assertEqual({BACK, Movement.words_back(Word.EMACS, 1)}, {BACK})
        self.assertNotEqual(Movement.to_char(Search.TO, "a"), Movement.to_char(Search.TO, "b"))
        self.assertNotEqual(BACK, Movement.words_back(Word.VI))
        self.assertRaises(AttributeError, setattr, LINE, "name", "")
        self.assertIn("'words_back'", repr(BACK))
        session, matches = opened("xé é日", 2), [Movement.to_match(it) for it in ("é日", "日")]
        self.assertEqual(len({*matches, Movement.to_match("é日"), Movement.to_match("日", Direction.BACKWARD)}), 3)
        for movement, covered in [(LINE, (0, 5)), (BACK, (0, 2)), (Movement.to_char(Search.TO, "é"), (2, 4))] + [
            (it, (2, at)) for it, at in zip(matches, (3, 4))
        ]:
            for other in (movement, copy.copy(movement), copy.deepcopy(movement), pickle.loads(pickle.dumps(movement))):
                gc.collect()  # The text of a movement lives as long as the movement.
                self.assertEqual((other, hash(other)), (movement, hash(movement)))
                self.assertEqual(session.movement_range(other), covered)

    def test_the_ring_and_the_record_are_read(self):
        session = Session("x")
        self.assertEqual((session.ring, session.ring_count, session.ring_text()), ([], 0, None))
        for text in ["a", "", "é"]:
            session.ring_add(text)
        self.assertEqual((session.ring, session.ring_count), (["é", "", "a"], 3))
        self.assertEqual([session.ring_text(it) for it in (0, 1, 2, 3, 2**64 - 1)], ["é", "", "a", None, None])
        self.assertTrue(session.yank() and session.last_was_yank and session.can_undo and not session.can_redo)
        session.undo()
        self.assertEqual((session.last_was_yank, session.can_undo, session.can_redo), (False, False, True))
        session.begin_group()
        self.assertEqual((session.record_entries, session.group_level), (1, 1))
        self.assertFalse(session.is_saved)
        session.mark_saved()
        session.ring_clear()
        self.assertEqual((session.is_saved, session.ring, session.yank()), (True, [], False))

    def test_scripts(self):
        longer = type("Longer", (bytes,), {"__len__": lambda it: 10**9})
        for script, wanted in [(b"", b""), (bytearray(b"\xff"), b"bad\n"), (longer(b"\xff"), b"bad\n")]:
            self.assertEqual(lodvarn.run_script(script), wanted)
        self.assertEqual(lodvarn.run_script(b"text \n" + b"ins 1 a\n" * 99).count(b"\n"), 100)


class Typing(Scripts):
    def test_whole_characters_are_typed(self):
        for data, used, left in [
            ("日本a".encode(), 7, "é日本a"), (bytearray(b"a\x1b\0\n"), 4, "éa\x1b\0\n"), (memoryview(b"a\xff"), 1, "éa"),
            (b"a\xed\xa0\x80", 1, "éa"), (b"a\xe6\x97", 1, "éa"), (b"\xe6\x97", 0, "é"), (b"\xf0\x9f\x91", 0, "é"),
            (b"", 0, "é"),
        ]:
            session = Session("é")
            self.assertEqual(session.type(data), used)
            self.stands(session, left, len(left))

    def test_an_error_in_a_cycle_holds_no_buffer(self):
        def fail(call, data):
            """Leaves an error that leads to itself, and to the frames that have the data."""
            try:
                call(data)
            except ValueError as fault:
                itself = fault
            return itself is None

        for call, kind in product((Session().type, Session.load), (bytes, bytearray, memoryview)):
            self.assertFalse(fail(call, kind(b"\xff")))
            with mock.patch.object(sys, "unraisablehook") as hook:
                gc.collect()
            self.assertEqual(hook.mock_calls, [])


class Finding(Scripts):
    def test_it_is_found_as_python_finds_it(self):
        rng, back = random.Random(7), Direction.BACKWARD
        for _ in range(3000):
            text, what = ("".join(rng.choices("aé漢\n", [6, 3, 1, 1], k=rng.randint(least, 9))) for least in (0, 1))
            session, pos = opened(text, 0), rng.randint(0, len(text))
            ahead, last = text.find(what, pos), text.rfind(what, 0, pos)
            self.assertEqual(session.find(what, pos), (ahead, ahead + len(what)) if ahead >= 0 else None)
            session.pos = pos
            self.assertEqual(session.find(what), session.find(what, pos))
            self.assertEqual(session.find(what, None, back), (last, last + len(what)) if last >= 0 else None)
            self.assertIsNone(session.find("", pos, back))
            for movement, at, covered in [
                (Movement.to_match(what), ahead, (pos, ahead)), (Movement.to_match(what, back), last, (last, pos)),
            ]:
                self.assertEqual(session.movement_target(movement), at if at >= 0 else None)
                self.assertEqual(session.movement_range(movement), covered if at not in (-1, pos) else None)


class Groups(Scripts):
    def test_a_group_is_one_undo(self):
        for fault in (None, KeyError):
            session = Session("")
            with suppress(KeyError), session.group():
                session.insert("a")
                with session.group():
                    session.paste("b c")
                    self.assertEqual(session.group_level, 2)
                    if fault:
                        raise fault
            self.assertEqual((session.text, session.group_level, session.undo(), session.text), ("ab c", 0, True, ""))

    def test_a_group_goes_on(self):
        session = Session("one")
        for letter in "ab":
            with session.group(reopen=True):
                session.insert(letter)
        self.assertEqual((session.text, session.undo(), session.text), ("oneab", True, "one"))
        session.insert("-")
        with session.group(reopen=True):
            session.insert("c")
        self.assertEqual((session.text, session.undo(), session.text, session.group_level), ("one-c", True, "one-", 0))

    def test_it_hides_no_exception(self):
        session = Session("")
        with mock.patch.object(Session, "end_group", side_effect=lodvarn.NoMemoryError):
            with self.assertRaises(KeyError), session.group():
                raise KeyError
            with self.assertRaises(lodvarn.NoMemoryError), session.group():
                pass

    def test_it_ends_what_was_begun_in_it_alone(self):
        for what, inside, level in [
            ("a group", lambda it: it.begin_group(), 1),
            ("two, with a change", lambda it: (it.begin_group(), it.begin_group(), it.insert("b")), 1),
            ("all are ended", lambda it: it.end_all_groups(), 0),
            ("it is abandoned", lambda it: it.abandon_group(), 1),
            ("an undo stays in it", lambda it: (it.insert("b"), it.undo(3)), 1),
            ("an edit keeps what was undone", lambda it: (it.insert("b"), it.undo(), it.insert("c")), 1),
            ("it is forgotten", lambda it: it.truncate(2), 1),
            ("all is begun anew", lambda it: it.restart("x"), 0),
        ]:
            session = Session("ab", keep_undone=True)
            session.begin_group()
            session.insert("-")
            with self.subTest(what=what):
                with session.group():
                    inside(session)
                self.assertEqual(session.group_level, level)

    def test_a_session_may_be_closed_in_it(self):
        session = Session("")
        with session.group():
            session.close()
        with self.assertRaises(lodvarn.ClosedError), session.group():
            self.fail("it was entered")


class Module(unittest.TestCase):
    def test_all_is_exported(self):
        own = [sys.modules[f"lodvarn.{it.stem}"] for it in PACKAGE.glob("_[a-z]*.py")]
        known = {it for module in own for it in vars(module).values() if inspect.isclass(it) or inspect.isfunction(it)}
        public = {it for it in known if it.__module__.startswith("lodvarn") and not it.__name__.startswith("_")}
        self.assertEqual(public, {getattr(lodvarn, name) for name in lodvarn.__all__})
        for it in public:
            self.assertEqual((it.__module__, getattr(lodvarn, it.__name__)), ("lodvarn", it))
            self.assertIsInstance(typing.get_type_hints(it), dict)

    def test_each_call_of_the_header_is_used(self):
        own, source = (TOP / "python/session.c").read_text(), "".join(it.read_text() for it in PACKAGE.glob("*.py"))
        used = set(re.findall(r"\blib\.(\w+)", source))
        made = {f"lodvarn_{it[3:]}" for it in used if it.startswith("py_")}
        left = {it.name for it in header.calls()} - used - made - set(re.findall(r"\blodvarn_\w+", own))
        self.assertEqual(left, {"lodvarn_text_copy"})  # A str needs no NUL.

    def test_the_library_has_the_version_of_the_package_or_a_later_one(self):
        its, own = ([*map(int, it.split("."))] for it in (lodvarn.library_version(), lodvarn.__version__))
        self.assertTrue(its[:2] == own[:2] and its >= own)
        self.assertTrue(sys.modules["lodvarn._lodvarn"].__file__.endswith(".abi3.so"))

    def test_a_call_keeps_the_lock_of_the_interpreter(self):
        gate, seen = threading.Lock(), []
        self.addCleanup(sys.setswitchinterval, sys.getswitchinterval())
        sys.setswitchinterval(99)
        with gate:
            thread = threading.Thread(target=lambda: (gate.acquire(), seen.append(1)))
            thread.start()
        lodvarn.run_script(b"text a\n" + b"paste 99 a\nback 99\n" * 2000)
        self.assertEqual(seen, [])
        thread.join()
        self.assertEqual(seen, [1])


if __name__ == "__main__":
    main()
