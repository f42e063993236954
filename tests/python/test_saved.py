"""Sessions that are saved as bytes, loaded and copied, and what else reads these bytes."""

import copy
import pickle
import struct
import subprocess
import sys
import tempfile
from functools import partial
from pathlib import Path

from shared import BACK, FAMILY, START, Scripts, edited, main, opened, report

import lodvarn
from lodvarn import Movement, ReportKind, Session, Splice
from read_saved import read, xxh64


class Noted(Session):
    """A session that has an attribute of its own."""

    note: object = None


def recorded(numbers, *entry):
    """A saved session on the text "one", with a record of these numbers, of one entry: its kind, offsets and texts."""
    *offsets, old, new = entry
    heads = struct.pack("<6Q", *numbers) + struct.pack("<6I", *offsets, len(old), len(new))
    saved = Session("one").save()[:-56] + heads + old + new
    return saved + xxh64(saved)


# What a saved session has, as read_saved.py prints it.
PRINTED = """text 'né 日本é'
cursor 12
slot 'two'
slot '日本'
deletion 4 7 4 'two' ''
insertion 4 4 10 '' '日本'
begin 0 0 0 '' ''
insertion 10 10 12 '' 'é'
undone replacement 0 12 4 'n' '漢 '
"""


class Saved(Scripts):
    def are_equal(self, one, other):
        """All that two sessions return is the same, but for the reports, which are not saved."""
        for name, it in vars(Session).items():
            if isinstance(it, property) and name not in ("on_change", "report_count"):
                self.assertEqual(getattr(one, name), getattr(other, name), name)
        self.assertEqual(one.save(), other.save())

    def test_it_comes_back_and_goes_on(self):
        for last in (Session.undo_boundary, Session.yank, lambda it: it.kill(START), lambda it: it.insert("a")):
            session = edited()
            last(session)
            loaded = Session.load(session.save())
            self.are_equal(loaded, session)
            for call, *given in [
                (Session.yank_pop,), (Session.redo,), (Session.kill, START), (Session.yank,), (Session.undo, 2),
                (Session.insert, "b"), (Session.redo,), (Session.abandon_group,), (Session.undo, 9), (Session.redo,),
                (Session.paste, "x" * 95),
            ]:
                with self.subTest(last=last, call=call):
                    replies = []
                    for it in (session, loaded):
                        try:
                            replies.append(call(it, *given))
                        except lodvarn.NoRoomError as fault:
                            replies.append(str(fault))
                    self.assertEqual(*replies)
                    self.are_equal(loaded, session)

    def test_it_counts_characters(self):
        session = opened("é漢é", 1)
        session.insert("字")
        loaded = Session.load(session.save())
        self.stands(loaded, "é字漢é", 2)
        self.assertIsNone(loaded.take_change())
        loaded.undo()
        self.assertEqual((loaded.take_change(), session.take_change()), (Splice(1, 2, 1), Splice(1, 1, 2)))
        loaded.watch()
        loaded.insert("é")
        self.assertEqual(list(loaded.changes()), [report(ReportKind.CHAR_INSERTED, 1, "", "é", 1, 2)])

    def test_what_is_long_comes_back(self):
        session = Session("é漢" * 5000)
        session.kill(Movement.whole_text())
        session.paste(FAMILY, 999)
        for saved in (session.save(), bytearray(session.save()), memoryview(session.save())):
            self.are_equal(Session.load(saved), session)

    def test_other_bytes_raise(self):
        saved = edited().save()
        other = saved[:-8].replace("日本é".encode(), "本日é".encode(), 1)  # The record does not lead to that text.
        self.assertRaises(lodvarn.DamagedError, Session.load, other + xxh64(other))
        for at in range(len(saved)):
            flipped = saved[:at] + bytes([saved[at] ^ 32]) + saved[at + 1 :]
            for damaged in (saved[:at], flipped):
                with self.assertRaises(ValueError) as raised:
                    Session.load(damaged)
                self.assertIs(type(raised.exception), lodvarn.UnknownFormatError if at < 8 else lodvarn.DamagedError)
                self.assertRaises(ValueError, list, read(damaged))

    def test_a_ring_that_no_session_has_raises(self):
        size, last, length = 0, 4, 5
        for is_yanked, is_loaded, numbers in [
            (False, False, {length: 5}), (False, False, {last: 0}), (False, True, {last: 0, size: 0}),
            (True, False, {length: 2}), (True, False, {last: 2}), (True, True, {last: 2, length: 0}),
            (True, True, {last: 0, length: 0}), (True, False, {last: 9, length: 0}),
        ]:
            session = opened("one two", 7)
            if is_yanked:
                session.kill(BACK)
                session.yank()
            other = bytearray(session.save()[:-8])
            for number, value in numbers.items():
                other[87 + 8 * number : 95 + 8 * number] = value.to_bytes(8, "little")
            other += xxh64(other)
            with self.subTest(is_yanked=is_yanked, numbers=numbers):
                if is_loaded:
                    self.assertEqual(Session.load(other).save(), other)
                else:
                    self.assertRaises(lodvarn.DamagedError, Session.load, other)

    def test_numbers_and_texts_without_a_meaning_raise(self):
        one, put_in = (1, 1, 0, 0, 0, 0), (2, 0, 0, 0, b"", b"one")
        for saved in [
            recorded(one, 0, 0, 0, 0, b"", b""), recorded(one, *put_in), recorded(one, 3, 0, 0, 3, b"", b"one"),
            recorded(one, 4, 3, 0, 0, b"x", b""), recorded(one, 6, 0, 0, 0, b"x", b"one"),
            recorded((1, 1, 1, 0, 1, 1), *put_in),
        ]:
            self.assertEqual(Session.load(saved).save(), saved)
        for what, numbers, entry in [
            ("a begin with a place", one, (0, 3, 0, 0, b"", b"")),
            ("a begin with a cursor", one, (0, 0, 0, 3, b"", b"")),
            ("a begin with an old text", one, (0, 0, 0, 0, b"x", b"")),
            ("a begin with a new text", one, (0, 0, 0, 0, b"", b"x")),
            ("an insertion with an old text", one, (2, 0, 0, 0, b"x", b"one")),
            ("a deletion with a new text", one, (4, 3, 0, 0, b"x", b"y")),
            ("a cursor before of none", one, (4, 3, 3, 0, b"x", b"")),
            ("a cursor after of none", one, (2, 0, 0, 3, b"", b"one")),
            ("a kind that is none", one, (8, 0, 0, 0, b"", b"one")),
            ("a kind as a replacement's", one, (14, 0, 0, 0, b"x", b"one")),
            ("a cursor kept of none", (1, 1, 0, 3, 0, 0), put_in),
            ("a boundary that is none", (1, 1, 9, 0, 0, 0), put_in),
            ("a point that is none", (1, 1, 0, 0, 0, 2), put_in),
            ("a save that is none", (1, 1, 1, 0, 2, 1), put_in),
            ("a point past the entries", (1, 1, 0, 0, 1, 2), put_in),
            ("more recorded than there are", (1, 2, 0, 0, 0, 0), put_in),
        ]:
            with self.subTest(what=what):
                self.assertRaises(lodvarn.DamagedError, Session.load, recorded(numbers, *entry))

    def test_pickle_and_copy_make_another(self):
        by_pickle = [partial(pickle.dumps, protocol=it) for it in range(pickle.HIGHEST_PROTOCOL + 1)]
        for take in [copy.copy, copy.deepcopy, *by_pickle]:
            session = edited(Noted)
            session.watch()
            session.redo()
            session.on_change, session.note = print, {"M-b": BACK, "/": Movement.to_match("é")}
            other = take(session)
            other = pickle.loads(other) if isinstance(other, bytes) else other
            with self.subTest(take=take):
                self.are_equal(other, session)
                self.assertEqual((type(other), other.note), (Noted, session.note))
                self.assertEqual(other.note is session.note, take is copy.copy)
                self.assertEqual((other.report_count, session.report_count), (0, 1))
                self.assertEqual((other.on_change, session.on_change), (None, print))
                other.undo()
                self.stands(session, "漢 é 日本é", 2)
                session.close()
                self.stands(other, "né 日本é", 6)
                self.assertRaises(lodvarn.ClosedError, take, session)

    def test_plain_python_reads_it(self):
        session = edited()
        with tempfile.NamedTemporaryFile() as file:
            file.write(session.save())
            file.flush()
            program = [sys.executable, "-I", Path(__file__).with_name("read_saved.py"), file.name]
            said = subprocess.run(program, stdout=subprocess.PIPE, check=True, env={"PYTHONIOENCODING": "utf-8"}).stdout
        self.assertEqual(said.decode(), PRINTED)

    def test_what_is_read_is_what_the_library_returns(self):
        session = edited()
        (_, text), (_, cursor), *parts = read(session.save())
        self.assertEqual((text, cursor), (session.text, len(session.before.encode())))
        self.assertEqual([it for name, *it in parts if name == "slot"], [[it] for it in reversed(session.ring)])
        entries = [it for it in parts if it[0] != "slot"]
        undone = [it for it in entries if it[0].startswith("undone")]
        self.assertEqual(len(entries) - len(undone), session.record_entries)
        changes = [(session.redo, at, old, new, pos) for _, at, _, pos, old, new in undone]
        changes += [(session.undo, at, new, old, pos) for _, at, pos, _, old, new in reversed(entries)]
        given = text.encode()
        for call, at, old, new, pos in changes:
            is_mark = not old and not new
            # No undo leaves the group that is open.
            self.assertTrue(session.abandon_group() if is_mark else call())
            self.assertEqual(given[at : at + len(old.encode())].decode(), old)
            given = given[:at] + new.encode() + given[at + len(old.encode()) :]
            self.assertEqual((session.text, len(session.before.encode())), (given.decode(), cursor if is_mark else pos))
            cursor = pos
        self.assertEqual((session.text, session.undo()), ("né two", False))


if __name__ == "__main__":
    main()
