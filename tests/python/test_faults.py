"""What raises, and what the error says."""

import copy
import inspect
import re
import typing
import weakref
from functools import partial

from shared import LINE, START, Scripts, main, opened

import lodvarn
from lodvarn import Case, Direction, Mode, Movement, Screen, Search, Session, Stop, Word
from lodvarn._errors import _seen
from lodvarn._lodvarn import lib

MAKERS = [it for name, it in inspect.getmembers(Movement, inspect.ismethod) if name[0] != "_"]
# Of each type of an argument what is right, what is a TypeError, and what is out of its range.
ARGUMENTS = {
    int: (1, [None, "1", 1.0], [-1, 2**64]),
    typing.Optional[int]: (1, ["1", 1.0], [-1, 2**64]),
    typing.Tuple[int, int]: ((0, 0), [None, ("1", 0), (0, 1.0)], [(-1, 0), (0, 2**64)]),
    str: ("a", [None, b"a", 97], []),
    bytes: (b"", [None, "a"], []),
    bool: (True, [], []),
    Movement: (LINE, [None, 100, Word.VI, ("whole_line", ())], []),
    Word: (Word.VI, [None, 22, Mode.UNICODE], []),
    Stop: (Stop.AT_START, [None, 30, Word.VI], []),
    Search: (Search.TO, [None, 40, Word.VI], []),
    Case: (Case.UPPERCASE, [None, 60, Word.VI], []),
    Direction: (Direction.FORWARD, [None, 50, Word.VI], []),
    Mode: (Mode.UNICODE, [None, 10, Word.VI], []),
    Screen: (Screen(9), [None, 9, (9, 0, 0, Mode.UNICODE)], []),
}
SET = {name: it for name, it in vars(Session).items() if isinstance(it, property) and it.fset}


def kinds(call):
    """The types of the arguments that a call takes, each by its name."""
    return {name: it.annotation for name, it in inspect.signature(call, eval_str=True).parameters.items()}


def right(call):
    """Right arguments of a call, each by its name."""
    return {name: ARGUMENTS[kind][0] for name, kind in kinds(call).items()}


def wrong(kind):
    """What is wrong for an argument of that type, each with what it raises."""
    _, others, out_of_range = ARGUMENTS[kind]
    return [(it, TypeError) for it in others] + [(it, ValueError) for it in out_of_range]


def asked(session):
    """All that may be asked of a session but what a closed one has, each as a call by its name."""
    for name in dir(Session):
        member = getattr(Session, name)
        if isinstance(member, property):
            yield name, partial(getattr, session, name)
        elif name == "group":
            yield name, session.group().__enter__
        elif name.strip("_") in ("enter", "len", "str", "reduce", name) and name not in ("close", "load"):
            call = getattr(session, name)
            yield name, partial(call, **right(call))
    for name, member in SET.items():
        yield name, partial(setattr, session, name, member.fget(Session("ab")))


class Faults(Scripts):
    def fails(self, fault, session, call, *given, says=".", **named):
        """The call raises the fault, in words that have this pattern and none of cffi's, and leaves the session."""
        before = (session.text, session.pos, session.record_entries)
        with self.subTest(call=call, given=given, named=named), self.assertRaises(fault) as raised:
            call(*given, **named)
        said = str(raised.exception)
        self.assertRegex(said, says)
        self.assertNotRegex(said, "ctype|cdata|ffi|from_buffer|initializer|descriptor")
        if fault is ValueError:
            self.assertIsInstance(raised.exception, lodvarn.LodvarnError)
        self.assertEqual((session.text, session.pos, session.record_entries), before)

    def test_what_fails_raises_and_says_why(self):
        session, room = opened("aé", 2, limit_bytes=3), "^the text would exceed the limit of 3 bytes$"
        session.kill(START)
        self.fails(lodvarn.NotReplayingError, session, session.truncate, 0)
        session.yank()
        for call, *given in [
            (session.insert, "é"), (session.type, b"b"), (session.paste, "c", 2), (session.yank,),
            (session.set_text, 0, "é漢"), (session.insert_at, 2, "x"), (session.replace, 0, 1, "é"),
            (session.indent, LINE, 1), (session.restart, "éé"), (partial(Session, limit_bytes=3), "éé"),
        ]:
            self.fails(lodvarn.NoRoomError, session, call, *given, says=room)
        self.fails(lodvarn.NoRoomError, session, setattr, session, "limit_bytes", 2, says="limit of 2 bytes$")
        for given in [(2**63,), (1, 2**63)]:
            self.fails(lodvarn.NoMemoryError, session, session.watch, *given)
        session.watch()
        self.fails(lodvarn.IsWatchedError, session, session.watch)
        for says, call, *given in [
            ("^index 3 is outside the text, whose length is 2$", session.insert_at, 3, "x"),
            ("^index -1 is outside", session.cluster_at, -1), ("^index 3 is", session.cluster_before, 3),
            ("^index 3 is", session.line_at, 3), (f"^index {2**64} is", session.slice, 0, 2**64),
            ("^index 3 is", session.movement_range, LINE, 3), ("^index 3 is", session.movement_target, START, 3),
            ("^index 3 is", session.rows_from, Screen(9), 3, 1), ("^index 3 is", session.clusters_from, 3, 1),
            ("^index 3 is", session.row_above, Screen(9), None, 1, 3), ("^index 3 is", session.find, "a", 3),
            ("^index 2 is .* 1$", session.set_text, 2, "é"),
            ("^index 2 is .* 1$", lodvarn.cell, Screen(9), 2, "é"),
            ("^the range ends at 1, before its start 2$", session.replace, 2, 1, "x"),
            ("^the cursor.* would be inside a character$", opened("aé", 1, limit_bytes=9).insert_at, 0, "é"),
        ]:
            self.fails(lodvarn.BadIndexError, session, call, *given, says=says)
        self.assertTrue(issubclass(lodvarn.NoMemoryError, MemoryError) and issubclass(lodvarn.ClosedError, ValueError))
        self.assertFalse(issubclass(lodvarn.BadIndexError, IndexError))

    def test_a_number_out_of_its_range_raises(self):
        session = Session("aé")
        for says, call, *given in [
            ("^n is from 0 to 65535, not 65536$", session.insert, "b", 65536),
            ("^n .* not -1$", session.insert, "b", -1),
            ("^n .* not 65536$", session.undo, 65536), ("^n .* not 65536$", Movement.chars_back, 65536),
            ("^reports is from 1 to .*, not 0$", session.watch, 0),
            ("^amount is from 0 to 255, not 256$", session.indent, LINE, 256),
            ("^columns is from 1 to 65535, not 0$", lodvarn.rows, Screen(0), ""),
            ("^columns .* not 65536$", lodvarn.cell, Screen(65536), 0, ""),
            ("^prompt .* not 65536$", lodvarn.index_at, Screen(9, 65536), (0, 0), ""),
            ("^tab .* not -1$", session.row_above, Screen(9, tab=-1)),
            ("^delete_by.. takes a movement by words", session.delete_by, LINE),
            ("^a movement to a text has no lines", session.dedent, Movement.to_match("a"), 1),
            ("^the text of a movement is not empty$", Movement.to_match, ""),
        ]:
            self.fails(lodvarn.NoSuchNumberError, session, call, *given, says=says)

    def test_a_lone_surrogate_is_one_error_everywhere(self):
        session = Session("ab")
        for call, *given in [
            (session.insert, "\ud800"), (session.insert, "\udfff", 0), (Movement.to_char, Search.TO, "\ud800"),
            (Movement.to_match, "\ud800"), (session.find, "\ud800"), (session.paste, "\ud800"), (Session, "\ud800"),
            (session.ring_add, "\ud800"), (session.restart, "a\udc00"), (lodvarn.width, "\ud800"),
            (lodvarn.clusters, "\ud800"),
        ]:
            self.fails(UnicodeEncodeError, session, call, *given, says="surrogates not allowed")
        self.fails(lodvarn.NotUtf8Error, session, session.type, "\ud800".encode("utf-8", "surrogatepass"))

    def test_an_argument_of_another_type_raises(self):
        session = Session("ab")
        for says, call, *given in [
            (r"^insert\(\) takes one character, not 'ab'$", session.insert, "ab"),
            ("^insert.* not ''$", session.insert, ""),
            (r"^insert\(\) takes one character, not 1$", session.insert, 1), ("integer$", session.insert, "a", "1"),
            (r"^to_char\(\) takes one character, not 'ab'$", Movement.to_char, Search.TO, "ab"),
            ("^expected str, not b'ab'$", session.set_text, 0, b"ab"), ("^expected str, not 1$", Session, 1),
            ("^expected Movement, not 100$", session.move, 100),
            ("^'str' object cannot be interpreted as an integer$", session.undo, "1"),
            ("a bytes-like object is required, not 'str'$", session.type, "a"),
            ("^expected Mode, not 10$", lodvarn.cell, Screen(9, mode=10), 0, ""),
        ]:
            self.fails(TypeError, session, call, *given, says=says)
        self.fails(TypeError, session, Session, "ab", 9)
        two = type("Two", (), {"__index__": lambda it: 2})()
        self.assertTrue(session.insert("é", two) and session.paste("c", two) and session.backspace(two))
        self.assertEqual((session.text, session.slice(two, 4)), ("abéé", "éé"))
        self.assertEqual(lodvarn.cell(Screen(two), two, "é漢"), (2, 0))

    def test_an_error_has_its_number_and_its_name(self):
        for error in lodvarn.LodvarnError.__subclasses__():
            name = re.sub("(?=[A-Z])", "_", error.__name__[: -len("Error")]).upper().replace("BAD_INDEX", "BAD_OFFSET")
            name = f"LODVARN{name}"
            for fault in (error("why"), copy.copy(error("why"))):
                self.assertEqual((fault.name, fault.code, str(fault)), (name, getattr(lib, name), "why"))
        with self.assertRaises(lodvarn.ClosedError) as raised:
            len(Session.__new__(Session))
        self.assertEqual((str(raised.exception), raised.exception.code), ("the session is closed", lib.LODVARN_CLOSED))

    def test_an_error_of_a_later_library_raises(self):
        with self.assertRaises(lodvarn.LodvarnError) as raised:
            _seen(lib.py_move, -99)
        fault = raised.exception
        self.assertEqual((type(fault), fault.code, fault.name), (lodvarn.LodvarnError, -99, "unknown"))
        self.assertNotEqual(str(fault), "")
        self.assertEqual(lodvarn.NoRoomError.code, lib.LODVARN_NO_ROOM)

    def test_wrong_arguments_raise(self):
        session = Session("ab")
        names = [name for name, it in vars(Session).items() if inspect.isfunction(it) and name[0] != "_"]
        self.assertLess({"type", "find", "copy", "ring_add"}, {*names})
        calls = [getattr(session, name) for name in names]
        calls += [*MAKERS, *(getattr(lodvarn, name) for name in lodvarn.__all__ if name.islower())]
        calls += [Session, Session.load]
        for call in calls:
            for name, kind in kinds(call).items():
                for it, fault in wrong(kind):
                    self.fails(fault, session, call, **{**right(call), name: it})

    def test_wrong_options_raise(self):
        session = Session("ab")
        for name in sorted(set(SET) - {"pos", "on_change"}):
            before = getattr(session, name)
            for it, fault in wrong(Session.__annotations__[name]):
                self.fails(fault, session, setattr, session, name, it)
            self.assertEqual(getattr(session, name), before)
        self.fails(ValueError, session, setattr, session, "prompt", 65536)

    def test_a_closed_session_says_so(self):
        session, names = Session("ab"), set()
        session.close()
        session.close()
        for name, ask in asked(session):
            names.add(name)
            with self.subTest(name=name):
                self.assertRaises(lodvarn.ClosedError, ask)
        self.assertLess({"kill", "text", "group", "__len__", "insert", "save", "__reduce__"}, names)
        self.assertEqual((repr(session), bool(session)), ("<Session closed>", True))

    def test_a_session_that_is_opened_again_is_let_go_before(self):
        session = Session("ab")
        first = weakref.ref(session._it)
        self.assertRaises(UnicodeEncodeError, session.__init__, "\ud800")
        self.stands(session, "ab", 2)
        session.__init__("c")
        self.stands(session, "c", 1)
        self.assertIsNone(first())

    def test_what_never_opened_is_let_go(self):
        for _ in range(100):
            self.assertRaises(UnicodeEncodeError, Session, "\ud800")
            self.assertRaises(lodvarn.ClosedError, len, Session.__new__(Session))


if __name__ == "__main__":
    main()
