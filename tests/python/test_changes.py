"""What changed, as splices and reports, and the callback that gets the reports."""

import sys
from itertools import islice, product
from unittest import mock

from shared import END, LINE, PACKAGE, START, Scripts, main, opened, report

import lodvarn
from lodvarn import Direction, Report, ReportKind, Session, Side, Splice
from lodvarn._lodvarn import lib

SOURCES = {str(it) for it in PACKAGE.glob("*.py")}
STARTED = report(ReportKind.KILL_STARTED, 0, "", "", 0, 0)
STOPPED = report(ReportKind.KILL_STOPPED, 0, "", "", 0, 0)


class Changes(Scripts):
    def waits(self, session, *wanted):
        """Those reports wait, and no others."""
        self.assertEqual(session.report_count, len(wanted))
        self.assertEqual(list(session.changes()), list(wanted))

    def test_what_changed_is_one_splice(self):
        session = opened("é漢é", 1)
        self.assertIsNone(session.take_change())
        session.insert("字")
        self.assertEqual((session.take_change(), session.take_change()), (Splice(1, 1, 2), None))
        session.undo()
        session.replace(0, 2, "x")
        self.assertEqual(session.take_change(), Splice(0, 3, 1))

    def test_an_index_is_mapped_by_a_change(self):
        for change, *rows in [
            (Splice(1, 1, 3), (0, 0, 0), (1, 1, 3), (2, 4, 4)),
            (Splice(1, 4, 1), (1, 1, 1), (2, 1, 1), (5, 2, 2)),
            (Splice(1, 4, 3), (1, 1, 1), (2, 1, 3), (4, 3, 3)),
        ]:
            for index, *wanted in rows:
                self.assertEqual([change.map_index(index, it) for it in Side], wanted, (change, index))
        session, mark = opened("é漢字é", 1), 3
        session.watch()
        for wanted, call, *given in [
            (4, session.insert, "é"), (3, session.replace, 0, 2, "x"), (4, session.undo),
            (1, session.delete_range, 1, 4), (1, session.undo),
        ]:
            call(*given)
            for it in session.changes():
                mark = it.map_index(mark)
            self.assertEqual(mark, wanted)
        for fault, change, *given in [
            (lodvarn.BadIndexError, Splice(2, 1, 2), 0), (lodvarn.BadIndexError, Splice(2, 2, 1), 0),
            (lodvarn.BadIndexError, Splice(0, 0, 1), 2**64 - 1), (lodvarn.NoSuchNumberError, Splice(0, 0, 1), -1),
            (TypeError, Splice(0, 0, 1), 0, Direction.FORWARD),
        ]:
            self.assertRaises(fault, change.map_index, *given)

    def test_reports_count_characters(self):
        kind, session = ReportKind, opened("éb", 1)
        session.watch()
        back, ahead = report(kind.DELETED_BACKWARD, 0, "é", "", 1, 0), report(kind.DELETED_FORWARD, 0, "漢x", "", 0, 0)
        for call, given, wanted in [
            (session.insert, ("é",), [report(kind.CHAR_INSERTED, 1, "", "é", 1, 2)]),
            (session.paste, ("漢c",), [report(kind.TEXT_INSERTED, 2, "", "漢c", 2, 4)]),
            (session.backspace, (2,), [report(kind.DELETED_BACKWARD, 2, "漢c", "", 4, 2)]),
            (session.replace, (1, 3, "漢x"), [report(kind.REPLACED, 1, "éb", "漢x", 2, 3)]),
            (session.insert_at, (0, "漢字"), [report(kind.TEXT_INSERTED, 0, "", "漢字", 3, 2)]),
            (session.delete_range, (0, 2), [report(kind.DELETED_FORWARD, 0, "漢字", "", 2, 0)]),
            (setattr, (session, "pos", 1), []),
            (session.kill, (START,), [STARTED, back, STOPPED]),
            (session.kill, (END,), [STARTED, ahead, STOPPED]),
            (session.yank, (), [report(kind.TEXT_INSERTED, 0, "", "é漢x", 0, 3)]),
            (session.undo, (), [report(kind.REPLACED, 0, "é漢x", "", 3, 0)]),
            (session.copy, (LINE,), []),
        ]:
            with self.subTest(call=call, given=given):
                call(*given)
                self.waits(session, *wanted)

    def test_several_that_wait_count_in_the_texts_then(self):
        kind, session = ReportKind, Session("日本")
        session.watch()
        session.insert_at(0, "漢字x")
        session.delete_range(1, 3)
        session.set_text(1, "éé")
        self.waits(
            session,
            report(kind.TEXT_INSERTED, 0, "", "漢字x", 2, 2), report(kind.DELETED_FORWARD, 1, "字x", "", 2, 1),
            report(kind.DELETED_FORWARD, 0, "漢日本", "", 1, 0), report(kind.TEXT_INSERTED, 0, "", "éé", 0, 1),
        )

    def test_reports_may_have_no_texts(self):
        kind, session = ReportKind, Session("é漢é")
        session.watch(2, 0)
        for call, given, wanted in [
            (session.insert, ("日",), (kind.CHAR_INSERTED, 3, 0, 1, 3, 4)),
            (session.backspace, (2,), (kind.DELETED_BACKWARD, 2, 2, 0, 4, 2)),
            (session.set_text, (1, "abc"), (kind.FOLDED, 0, 2, 3, 2, 1)),
        ]:
            call(*given)
            self.waits(session, Report(*wanted, None, None))

    def test_a_watch_ends_and_begins(self):
        session = Session("")
        for number in (1, 2):
            session.watch(number)
            session.insert("é")
            session.unwatch()
            self.waits(session)
        session.watch(2)
        waiting = session.changes()
        session.insert("d")
        self.assertEqual(next(waiting), report(ReportKind.CHAR_INSERTED, 2, "", "d", 2, 3))
        session.close()
        self.assertRaises(lodvarn.ClosedError, list, waiting)


def interrupt():
    """Does what the handler of a signal may."""
    raise KeyboardInterrupt


def disturbed(at, call, by=interrupt):
    """Calls, and does something else before the step of that number which the package takes. Whether it has so many."""

    def trace(frame, event, _):
        """Counts the steps."""
        nonlocal at
        if frame.f_code.co_filename not in SOURCES:
            return None
        frame.f_trace_opcodes = True
        at -= event == "opcode"
        if event == "opcode" and at == -1:
            by()
        return trace

    sys.settrace(trace)
    try:
        call()
    except KeyboardInterrupt:
        pass
    finally:
        sys.settrace(None)
    return at < 0


class OnChange(Scripts):
    def test_it_is_called_after_each_command(self):
        session, seen = opened("ab", 1), []
        self.assertIsNone(session.on_change)
        session.on_change = call = seen.append
        self.assertIs(session.on_change, call)
        inserted = report(ReportKind.CHAR_INSERTED, 1, "", "c", 1, 2)
        session.insert("c")
        session.undo_boundary()
        session.kill(END)
        self.assertEqual(seen, [inserted, STARTED, report(ReportKind.DELETED_FORWARD, 2, "b", "", 2, 2), STOPPED])
        session.on_change = None
        session.insert("d")
        self.assertEqual((len(seen), len(list(session.changes()))), (4, 1))

    def test_it_gets_the_changes_of_a_command_that_fails_halfway(self):
        session, seen = Session("ab"), []
        session.on_change = seen.append

        def py_halfway(it, c, n):
            """Takes one step, and then finds no memory."""
            lib.py_insert(it, c, n)
            return lib.LODVARN_NO_MEMORY

        with mock.patch.object(lodvarn._session, "_insert", py_halfway):
            self.assertRaises(lodvarn.NoMemoryError, session.insert, "c")
        self.assertEqual(seen, [report(ReportKind.CHAR_INSERTED, 2, "", "c", 2, 3)])

    def test_what_it_raises_comes_out_of_the_command(self):
        for command in (Session.undo_boundary, lambda it: it.copy(LINE), lambda it: it.type(b"")):
            session, seen = Session("ab"), []
            session.on_change = mock.Mock(side_effect=KeyError)
            self.assertRaises(KeyError, session.set_text, 2, "cd")
            self.stands(session, "cd", 2)
            session.on_change = seen.append
            # A read does not call it, though a report waits. It does not get again what it got before.
            self.assertEqual((session.text, session.movement_range(LINE), seen), ("cd", (0, 2), []))
            command(session)
            self.assertEqual(seen, [report(ReportKind.TEXT_INSERTED, 0, "", "cd", 0, 2)])
        session.on_change = lambda it: session.on_change(it)
        self.assertRaises(RecursionError, session.insert, "e")

    def loses_none(self, is_through, at, session, seen):
        """The reports lead from the text before them to that of the session, each change once."""
        text = "é"
        for it in seen:
            text = text[: it.at] + it.new_text + text[it.at + it.old_len :]
        self.assertEqual(text, session.text, f"at step {at}")
        return is_through

    def by_on_change(self, at):
        """Stops commands at a step. Whether they were through by then."""
        session, seen = Session("é"), []
        session.on_change = seen.append
        is_through = not disturbed(at, lambda: (session.insert("b"), session.set_text(1, "漢字")))
        session.undo_boundary()
        return self.loses_none(is_through, at, session, seen)

    def by_changes(self, at):
        """Stops at a step what asks for changes."""
        session, seen = Session("é"), []
        session.watch()
        session.set_text(1, "漢字")
        is_through = not disturbed(at, lambda: seen.extend(session.changes()))
        seen.extend(session.changes())
        return self.loses_none(is_through, at, session, seen)

    def by_folding(self, at):
        """Stops at a step what asks for a report without texts, and then edits. Whether it was through by then."""
        session, mirror, seen = Session("é"), ["é"], []
        session.watch(2, 0)

        def follow(reports):
            """Makes the changes of reports whose new text is in the present text."""
            for it in reports:
                mirror[it.at : it.at + it.old_len] = session.slice(it.at, it.at + it.new_len)

        session.paste("漢字")
        is_through = not disturbed(at, lambda: seen.extend(session.changes()))
        follow(seen)
        for start, end, text in [(1, 3, "b"), (0, 1, "日本"), (2, 3, ""), (1, 1, "é")]:
            session.replace(start, end, text)
        self.assertEqual(session.report_count, 1)
        follow(session.changes())
        self.assertEqual("".join(mirror), session.text, f"at step {at}")
        return is_through

    def test_a_signal_loses_no_report(self):
        for stop in (self.by_on_change, self.by_changes, self.by_folding):
            self.assertGreater(next(at for at in range(9999) if stop(at)), 50)

    def by_a_finalizer(self, size, takes, text_bytes, at):
        """Edits at a step of what edits and reads, and takes some reports. Whether all was through by then."""
        session, grown, pasted = Session(), [], "z" * size
        session.watch(64, text_bytes)

        def take(most=None):
            """Takes reports, and notes by how much each made the text longer."""
            grown.extend(it.new_len - it.old_len for it in islice(session.changes(), most))

        def use():
            """Edits, and takes and reads what there is."""
            session.insert("a")
            take()
            self.assertTrue(session.text in ("a", "a" + pasted, pasted + "a"), f"at step {at}")

        is_through = not disturbed(at, use, lambda: (session.paste(pasted), take(takes)))
        take()
        self.assertEqual(sum(grown), len(session), f"at step {at}")
        return is_through

    def test_a_finalizer_may_edit_between_any_two_steps(self):
        for given in product((2, 100000), (0, 1), (65536, 0)):
            self.assertGreater(next(at for at in range(9999) if self.by_a_finalizer(*given, at)), 50)

    def test_it_may_do_commands(self):
        for reports in (1, 64):
            session, mirror = Session(""), []
            session.watch(reports)

            def close(it):
                """Puts a parenthesis after each that opens."""
                new = session.slice(it.at, it.at + it.new_len) if it.new_text is None else it.new_text
                mirror[it.at : it.at + it.old_len] = new
                if it.new_text == "(":
                    session.insert(")")
                    session.pos = it.pos_after

            session.on_change = close
            session.insert("(")
            session.insert("(")
            session.insert("é")
            self.stands(session, "((é))", 3)
            self.assertEqual("".join(mirror), session.text)

    def test_it_may_end_the_watch(self):
        session, seen = Session(""), []

        def rewatch(it):
            """Watches anew, with a report of its own."""
            seen.append(it.new_text)
            if it.new_text == "a":
                session.unwatch()
                session.watch(2)
                lib.py_insert(session._it, "b", 1)

        session.on_change = rewatch
        session.insert("a")
        self.assertEqual(seen, ["a", "b"])
        session.on_change = lambda it: session.close()
        session.insert("c")
        self.assertRaises(lodvarn.ClosedError, session.insert, "d")


if __name__ == "__main__":
    main()
