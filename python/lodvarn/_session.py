"""The session."""

from contextlib import contextmanager, suppress
from itertools import chain, compress
from types import TracebackType
from typing import Any, Callable, Iterator, List, Optional, Tuple, Type, TypeVar

from ._calls import (
    _CHARS, _SIZE, _SIZE_MOST, _asked, _bound, _bytes, _character, _copied, _filled, _new, _number, _of, _offset,
    _or_none, _pair, _size, _utf8,
)
from ._changes import _KINDS, Report, Splice
from ._errors import _NO_SUCH_NUMBER, BadIndexError, IsWatchedError, _seen
from ._lodvarn import ffi, lib
from ._movements import Case, Direction, Mode, Movement
from ._texts import Cell, Cluster, Range, RowCell, Screen, _cell, _on

_S = TypeVar("_S", bound="Session")
# What is looked up once, since it is used often.
_insert, _index, _REPORT = lib.py_insert, lib.py_index, ffi.typeof("lodvarn_report *")


def _option(about: str, name: str, read: Callable[[Any], object], write: Callable[[Any], Any]) -> Any:
    """Returns a property for the option of that name in C, with what makes its value of the one in C, and back."""

    def get(session: "Session") -> object:
        return read(getattr(session._options(), name))

    def set_(session: "Session", value: object) -> None:
        options, call = session._options(), lib.py_set_options
        setattr(options, name, write(value))
        _seen(call, call(session._it, options), options.limit)

    return property(get, set_, doc=about)


# How many characters on each side of the cursor repr shows.
_SHOWN = 20


class Session:
    """A text with its cursor, a ring of killed texts, and the record of its changes.

    A `with` closes it at its end. Otherwise `close` does, or the garbage collector. Its length is that of the text, its
    str is the text, and it is true also if the text is empty. pickle and copy make another of it, without its reports.
    """

    # What a session has that is not open.
    _it = _new("session *")
    _on_change: Optional[Callable[[Report], object]] = None

    def __init__(
        self,
        text: str = "",
        *,
        limit_bytes: Optional[int] = None,
        ring_size: int = 60,
        mode: Mode = Mode.UNICODE,
        prompt: int = 0,
        max_entries: Optional[int] = None,
        max_bytes: Optional[int] = None,
        max_ring_bytes: Optional[int] = None,
        keep_undone: bool = False,
    ) -> None:
        """Opens a session on a text, with the cursor at its end.

        The attributes of the same names describe the options. Raises NoRoomError, NoMemoryError, and NoSuchNumberError
        for an option that is out of its range.
        """
        options = {
            "size": ffi.sizeof("lodvarn_options"), "mode": _of(Mode, mode).value, "prompt": _number("prompt", prompt),
            "limit": _bound("limit_bytes", limit_bytes), "ring_size": _number("ring_size", ring_size, _SIZE_MOST),
            "max_entries": _bound("max_entries", max_entries), "max_bytes": _bound("max_bytes", max_bytes),
            "max_ring_bytes": _bound("max_ring_bytes", max_ring_bytes), "keep_undone": bool(keep_undone),
        }
        self._open(limit_bytes, lib.py_open, [options], *_utf8(text))

    def _open(self, limit: Optional[int], call: Any, *given: Any) -> None:
        """Opens the session by a call, and closes what was open before."""
        it = ffi.gc(_new("session *"), lib.py_close)
        _seen(call, call(it, *given), limit)
        self._it, self._on_change = it, None

    @classmethod
    def load(cls: Type[_S], saved: bytes) -> _S:
        """Opens a session from the bytes that `save` returned.

        Text, cursor, record, ring and options are as they were; nothing has changed yet, and no reports are kept. Safe
        for untrusted bytes. Raises UnknownFormatError, DamagedError, NoMemoryError.
        """
        session = cls.__new__(cls)
        session._open(None, lib.py_load, *_bytes(saved))
        return session

    def save(self) -> bytes:
        """Returns the session as bytes, for `load`, also by another process or machine.

        They have text and cursor, the record with open groups and undone changes, the ring and the options, but no
        reports. The same session gives the same bytes. A read. Raises NoRoomError if a text of the record has 4 GiB
        or more, NoMemoryError.
        """
        saved = ffi.gc(_new("lodvarn_view *"), lib.drop_bytes)
        _asked(lib.py_save, self._it, saved)
        return bytes(ffi.buffer(saved.at, saved.len))

    def close(self) -> None:
        """Closes the session. After that all but `close`, repr and bool raise ClosedError."""
        lib.py_close(self._it)
        self._on_change = None

    def __enter__(self: _S) -> _S:
        _asked(lib.py_index, self._it)
        return self

    def __exit__(
        self, kind: Optional[Type[BaseException]], fault: Optional[BaseException], trace: Optional[TracebackType]
    ) -> None:
        self.close()

    def __len__(self) -> int:
        """Returns how many characters the text has, without making a str of it."""
        return _asked(lib.py_char_count, self._it)

    def __bool__(self) -> bool:
        """Returns True, also if the text is empty."""
        return True

    def __str__(self) -> str:
        """Returns the text."""
        return self.text

    def __repr__(self) -> str:
        """Returns the text before and after the cursor; of a long one only what is near to it."""
        if not self._it.s:
            return "<Session closed>"
        before, after = self.before, self.after
        start = "..." if len(before) > _SHOWN else ""
        end = "..." if len(after) > _SHOWN else ""
        return f"<Session {start}{before[-_SHOWN:]!r}|{after[:_SHOWN]!r}{end}>"

    def __reduce__(self) -> Tuple[Any, ...]:
        """Returns what pickle and copy make another session of, as `load` does of what `save` returns.

        The other one is independent. It has the attributes that were set, but not the waiting reports, and neither
        `on_change`. Raises as `save` does.
        """
        others = {name: it for name, it in vars(self).items() if name not in ("_it", "_on_change")}
        return type(self).load, (self.save(),), others or None

    def _do(self, call: Any, *given: Any) -> bool:
        """Makes a command. Returns whether it did anything."""
        answer: int = call(self._it, *given)
        if answer < 0 or self._on_change is not None:
            return self._finish(call, answer)
        return answer > 0

    def _finish(self, call: Any, answer: int) -> bool:
        """Calls on_change with what a command changed, also if an error stopped it halfway. Returns whether it did
        anything."""
        try:
            return _seen(call, answer, self._options().limit if answer == lib.LODVARN_NO_ROOM else None) > 0
        finally:
            while self._on_change is not None and (ready := self._ready()):
                for _ in map(self._on_change, ready):
                    pass

    def _ready(self) -> Optional[Iterator[Report]]:
        """Returns what hands out the oldest report, or None if none waits.

        It drops and hands out in one step of C, in which no signal handler runs. So a report waits until it is handed
        out. If another call was made after it was read, as by a finalizer, it hands out nothing, and the report is read
        again.
        """
        report, turn = _new(_REPORT), _new(_SIZE)
        answer, texts, _ = _filled(_CHARS, lib.py_next_report, self._it, report, turn)
        if not answer:
            return None
        old_text = new_text = None
        if report.old_text.at:
            size = report.old_text.len
            old_text = str(ffi.buffer(texts, size), "utf-8")
            new_text = str(ffi.buffer(texts + size, report.new_text.len), "utf-8")
        numbers = report.at, report.old_len, report.new_len, report.pos_before, report.pos_after
        ready = Report(_KINDS[report.kind], *numbers, old_text, new_text)
        return compress((ready,), map(lib.py_drop_report, (self._it,), (turn[0],)))

    def _offset(self, index: int) -> int:
        """Returns the offset in bytes of an index. Raises BadIndexError."""
        return _offset(index, self, lib.offset_of, self._it)

    def _range(self, start: int, end: int) -> Tuple[int, int]:
        """Returns a range, as the library takes it. Raises BadIndexError."""
        at, to = self._offset(start), self._offset(end)
        if at > to:
            raise BadIndexError(f"the range ends at {end}, before its start {start}")
        return at, to

    def _start(self, start: Optional[int]) -> int:
        """Returns the offset of an index, or that of the cursor for None. Raises BadIndexError."""
        return _asked(lib.py_pos, self._it) if start is None else self._offset(start)

    def move(self, movement: Movement) -> bool:
        """Moves the cursor. Returns False if there is nowhere to go."""
        return self._do(lib.py_move, _of(Movement, movement)._in_c)

    def insert(self, c: str, n: int = 1) -> bool:
        """Inserts a character n times at the cursor, which goes after them. Raises NoRoomError, NoMemoryError."""
        # What _do does, but sooner: no call is made as often as that of a letter.
        try:
            answer: int = _insert(self._it, c, n)
        except (TypeError, OverflowError):
            answer = _insert(self._it, _character("insert", c), _number("n", n))
        if answer < 0 or self._on_change is not None:
            if answer == _NO_SUCH_NUMBER:
                _character("insert", c), _number("n", n)
            return self._finish(_insert, answer)
        return answer > 0

    def type(self, data: bytes) -> int:
        """Types the bytes that a terminal sends: inserts each whole character at the front of them as `insert` does.

        Returns how many bytes these had, 0 if there is no whole character. It stops before an incomplete character at
        the end, before bytes that are not UTF-8, and before a character that can't be inserted. Keep the other bytes,
        and pass them again with those that follow. Raises, only if the first character can't be inserted, NotUtf8Error,
        NoRoomError, NoMemoryError.
        """
        used = _new(_SIZE)
        self._do(lib.py_type, *_bytes(data), used)
        return int(used[0])

    def paste(self, text: str, n: int = 1) -> bool:
        """Inserts a text n times at the cursor, which goes after it. Returns False if the text is empty.

        Raises NoRoomError, NoMemoryError.
        """
        return self._do(lib.py_paste, *_utf8(text), _number("n", n))

    def yank(self, n: int = 1) -> bool:
        """Inserts the ring's current text n times at the cursor, which goes after it.

        Returns False if the ring has no text, or an empty one. Raises NoRoomError, NoMemoryError.
        """
        return self._do(lib.py_yank, _number("n", n))

    def yank_pop(self) -> bool:
        """Replaces the text that the last call yanked by the one before it in the ring.

        One undo takes back this, the yank and the calls of this between them; but not a yank of n above 1, of which
        this replaces the last text, nor what was done before `mark_saved`. If the text before it is empty, the yanked
        text is deleted. Returns False if `last_was_yank` is. Raises NoRoomError, NoMemoryError, and BadYankSizeError
        only right after `load`, from bytes that were made to name another yanked text than is before the cursor.
        """
        return self._do(lib.py_yank_pop)

    def restart(self, text: str = "") -> None:
        """Begins again with a text, with the cursor at its end, as an editor does with the next line.

        The record is empty then. The ring keeps its texts, and the options stay. It is reported as the replacement of
        the whole text. Raises NoRoomError, NoMemoryError.
        """
        self._do(lib.py_restart, *_utf8(text))

    def set_text(self, pos: int, text: str) -> None:
        """Replaces the whole text. The cursor goes to the index pos of the new text.

        Raises BadIndexError, NoRoomError, NoMemoryError.
        """
        given, size = _utf8(text)
        self._do(lib.py_set_text, _offset(pos, text, lib.offset_in, given, size), given, size)

    def insert_at(self, index: int, text: str) -> None:
        """Inserts a text at an index. The cursor's offset in bytes keeps its number.

        Raises BadIndexError also if the cursor would be inside a character then, NoRoomError, NoMemoryError.
        """
        self._do(lib.py_insert_at, self._offset(index), *_utf8(text))

    def replace(self, start: int, end: int, text: str) -> None:
        """Replaces the text in a range. The cursor goes after the new text.

        Raises BadIndexError, NoRoomError, NoMemoryError.
        """
        self._do(lib.py_replace, self._range(start, end), *_utf8(text))

    def delete_range(self, start: int, end: int) -> None:
        """Deletes the text in a range. The cursor goes to its start. Raises BadIndexError, NoMemoryError."""
        self._do(lib.py_delete_range, self._range(start, end))

    def delete(self, n: int = 1) -> bool:
        """Deletes n clusters after the cursor. Returns False if there are none. Raises NoMemoryError."""
        return self._do(lib.py_delete, _number("n", n))

    def backspace(self, n: int = 1) -> bool:
        """Deletes n clusters before the cursor. Returns False if there are none. Raises NoMemoryError."""
        return self._do(lib.py_backspace, _number("n", n))

    def delete_by(self, movement: Movement) -> bool:
        """Deletes what a movement to one side of the cursor covers: to the start or the end of the line or the text, by
        words, or to a character or a text.

        At the end of a line to_line_end takes the newline, and at the start of one to_line_start the newline before it.
        The ring does not keep it. Returns False if there is nothing. Raises NoSuchNumberError for the other movements,
        NoMemoryError.
        """
        return self._do(lib.py_delete_by, _of(Movement, movement)._in_c)

    def transpose_chars(self) -> bool:
        """Exchanges the clusters before and after the cursor; at the end of the text, the last two. The cursor goes
        after both. Returns False if there are not two. Raises NoMemoryError."""
        return self._do(lib.py_transpose_chars)

    def transpose_words(self, n: int = 1) -> bool:
        """Exchanges the word that ends n-th after the cursor with the word n words before it. The cursor goes after
        both. Returns False if there are not two; the cursor may have moved then. Raises NoRoomError also if a step
        between would exceed the limit, NoMemoryError."""
        return self._do(lib.py_transpose_words, _number("n", n))

    def change_case(self, to: Case) -> bool:
        """Changes the letter case of the rest of the word at the cursor, or of the next word. The cursor goes after the
        word. Returns False if there is none. Raises NoRoomError, NoMemoryError."""
        return self._do(lib.py_change_case, _of(Case, to).value)

    def indent(self, movement: Movement, amount: int) -> bool:
        """Inserts `amount` spaces, at most 255, at the start of each line that a movement covers.

        Returns False if that changes nothing. Raises NoSuchNumberError for `Movement.to_match`, NoRoomError,
        NoMemoryError.
        """
        return self._indent(movement, amount, lib.LODVARN_INDENT)

    def dedent(self, movement: Movement, amount: int) -> bool:
        """Deletes blanks of up to `amount` bytes, at most 255, at the start of each line that a movement covers.

        Returns and raises as `indent` does.
        """
        return self._indent(movement, amount, lib.LODVARN_DEDENT)

    def _indent(self, movement: Movement, amount: int, way: int) -> bool:
        """Makes an indent or a dedent."""
        return self._do(lib.py_indent, _of(Movement, movement)._in_c, _number("amount", amount, 255), way)

    def kill(self, movement: Movement) -> bool:
        """Deletes what a movement covers. The ring keeps it, except by chars_back and chars_forward.

        Consecutive kills become one text of the ring: text from before the cursor is added to its front, text from
        after the cursor to its end. Returns False if there is nothing. Raises NoMemoryError.
        """
        return self._do(lib.py_kill, _of(Movement, movement)._in_c)

    def kill_range(self, start: int, end: int, direction: Direction = Direction.FORWARD) -> bool:
        """Kills the text in a range, such as a selection. The cursor goes to its start.

        It continues a run of kills. Returns False if the range is empty, and the cursor stays then. Raises
        BadIndexError, NoMemoryError.
        """
        return self._do(lib.py_kill_range, self._range(start, end), _of(Direction, direction).value)

    def ring_add(self, text: str) -> None:
        """Adds a text to the ring as a kill of its own: the next yank inserts it, and the next kill begins another
        text. Text, cursor and record stay. Raises NoMemoryError."""
        self._do(lib.py_ring_add, *_utf8(text))

    def ring_clear(self) -> None:
        """Removes all texts of the ring and frees them. The next kill begins a new text."""
        self._do(lib.py_ring_clear)

    def copy(self, movement: Movement) -> Optional[str]:
        """Returns the text that a movement covers, or None if it covers nothing. A command: it ends a run of kills."""
        text = _copied(lib.py_copy, self._it, _of(Movement, movement)._in_c)
        if self._on_change is not None:
            self._finish(lib.py_copy, lib.LODVARN_DONE)
        return text

    def undo(self, n: int = 1) -> bool:
        """Undoes the last n changes and groups, or all if there are fewer; while a group is open, at most those in the
        innermost one, which stays open.

        An edit of several changes makes them a group, also if an error stopped it after some; if there is no memory for
        the marks of such a group, each of its changes is undone alone. Returns False if there was no change. Raises
        NoRoomError if a text on the way back is longer than the limit, NoMemoryError.
        """
        return self._do(lib.py_undo, _number("n", n))

    def redo(self) -> bool:
        """Redoes the last undone change or group. Returns False if there is none. Raises NoRoomError, NoMemoryError."""
        return self._do(lib.py_redo)

    def undo_boundary(self) -> None:
        """Ends what is joined: the next change is undone alone, and the next kill begins a new text of the ring.

        Text, cursor, groups and undone changes stay. An edit that changes nothing leaves the boundary; an undo, a redo,
        `truncate`, and the begin, end or abandon of a group remove it.
        """
        self._do(lib.py_undo_boundary)

    def begin_group(self) -> None:
        """Begins an undo group: once it is closed, one undo takes back all its changes. Groups nest.

        Undone changes can be redone until something changes in the group. Raises NoMemoryError.
        """
        self._do(lib.py_begin_group)

    def end_group(self) -> bool:
        """Closes the innermost group. Returns False if it had no change, or none is open. Raises NoMemoryError."""
        return self._do(lib.py_end_group)

    def end_all_groups(self) -> bool:
        """Closes all open groups. Returns False if they had no change, or none is open. Raises NoMemoryError."""
        return self._do(lib.py_end_all_groups)

    def reopen_group(self) -> bool:
        """Opens the last closed group again, also that of an edit: further changes belong to it until it is closed.

        Undone changes are dropped. Returns False if something was recorded after it, or there is none, or with
        `keep_undone` if there is a change to redo.
        """
        return self._do(lib.py_reopen_group)

    def abandon_group(self) -> bool:
        """Takes back the innermost open group and drops it, as for a completion that is tried and given up.

        Text and record are as they were at its begin, and nothing can be redone unless it is empty. The cursor goes to
        where it was before its first change, and the ring keeps what was killed. Returns False if no group is open.
        Raises NoRoomError, NoMemoryError.
        """
        return self._do(lib.py_abandon_group)

    @contextmanager
    def group(self, reopen: bool = False) -> Iterator[None]:
        """Makes one undo of the changes in a `with`, also if an exception ends it.

        With `reopen` the last closed group goes on, if `reopen_group` can open it. Closes the groups that were begun
        inside, and no others, so one may be inside another. If closing fails after an exception, groups stay open and
        the exception goes on. Raises NoMemoryError.
        """
        level = self.group_level
        if not (reopen and self.reopen_group()):
            self.begin_group()
        try:
            yield
        except BaseException:
            with suppress(Exception):
                self._end_groups(level)
            raise
        self._end_groups(level)

    def _end_groups(self, level: int) -> None:
        """Closes groups until so many are open. They may be ended or abandoned, or the session closed."""
        while self._it.s and self.group_level > level:
            self.end_group()

    def truncate(self, entries: int) -> None:
        """Keeps the first entries of the record, and drops the others and the undone changes.

        Raises NotReplayingError if they do not lead to the present text, NoMemoryError.
        """
        self._do(lib.py_truncate, _number("entries", entries, _SIZE_MOST))

    def mark_saved(self) -> None:
        """Marks the text as saved, for `is_saved`. The next change is undone alone. A session begins unsaved."""
        self._do(lib.py_mark_saved)

    def take_change(self) -> Optional[Splice]:
        """Returns all that changed since this was called last, or since the session was opened, as one splice, or None
        if nothing did. Also an undo, a redo, and an edit that an error stopped halfway are noted."""
        out = _new("size_t[3]")
        return Splice(*out) if _asked(lib.py_take_change, self._it, out) else None

    def watch(self, reports: int = 64, text_bytes: int = 65536) -> None:
        """Keeps a report of each change from now on, for `changes`, in a queue of that many reports and `text_bytes`
        bytes of their texts; and a copy of the text, to count characters in.

        If a report or its texts do not fit, all waiting reports and the new one become one report of kind FOLDED. If
        `text_bytes` is 0, reports have no texts and at most one waits: a change that comes before it is taken is folded
        into it. Raises IsWatchedError, NoSuchNumberError if `reports` is 0, NoMemoryError.
        """
        call, texts = lib.py_watch, _number("text_bytes", text_bytes, _SIZE_MOST)
        _asked(call, self._it, _number("reports", reports, _SIZE_MOST, least=1), texts)

    def unwatch(self) -> None:
        """Keeps no more reports, and drops those that wait."""
        _asked(lib.py_unwatch, self._it)

    @property
    def report_count(self) -> int:
        """The number of waiting reports."""
        return _asked(lib.py_report_count, self._it)

    def changes(self) -> Iterator[Report]:
        """Returns an iterator that removes and returns the waiting reports, the oldest first.

        Apply them in order to a copy of the text, and it equals the session's. One that is FOLDED, or has no texts,
        comes alone, and its new text is in the present text: apply it before the next command. Raises NoMemoryError; no
        report is lost then.
        """
        _asked(lib.py_report_count, self._it)
        return chain.from_iterable(iter(self._ready, None))

    @property
    def on_change(self) -> Optional[Callable[[Report], object]]:
        """A callback that gets each report after each command, also after one that raised, or None.

        Setting it watches, if the session does not watch yet. A command with more changes or longer texts than the
        queue has room for calls it once, with a report of kind FOLDED: the new text is in `session.text` then. It may
        make commands. What it raises comes out of the command, which is done. It gets each report once, also if it
        raises; the others that wait come after the next command. So it is if a signal handler raises.
        """
        _asked(lib.py_report_count, self._it)
        return self._on_change

    @on_change.setter
    def on_change(self, call: Optional[Callable[[Report], object]]) -> None:
        _asked(lib.py_report_count, self._it)
        if call is not None:
            with suppress(IsWatchedError):
                self.watch()
        self._on_change = call

    @property
    def text(self) -> str:
        """The text."""
        return _copied(lib.py_text, self._it) or ""

    def slice(self, start: int, end: int) -> str:
        """Returns the text in a range, without making a str of the rest. Raises BadIndexError."""
        return _copied(lib.py_slice, self._it, self._range(start, end)) or ""

    @property
    def before(self) -> str:
        """The text before the cursor."""
        return self.slice(0, self.pos)

    @property
    def after(self) -> str:
        """The text after the cursor."""
        return self.slice(self.pos, len(self))

    @property
    def pos(self) -> int:
        """The index of the cursor. Setting it moves the cursor. Raises BadIndexError."""
        index: int = _index(self._it)
        return index if index >= 0 else _seen(_index, index)

    @pos.setter
    def pos(self, pos: int) -> None:
        self._do(lib.py_set_pos, self._offset(pos))

    def find(
        self, text: str, start: Optional[int] = None, direction: Direction = Direction.FORWARD
    ) -> Optional[Range]:
        """Finds a text from `start` on, or from the cursor: forward the first occurrence that begins there or later,
        backward the last one that ends there or earlier.

        Returns None if there is none, or if the text is empty. Raises BadIndexError.
        """
        given = self._start(start), *_utf8(text), _of(Direction, direction).value
        return _pair(Range, lib.py_find, self._it, *given)

    @property
    def line_count(self) -> int:
        """The number of lines, at least 1."""
        return _asked(lib.py_line_count, self._it)

    def line_at(self, index: int) -> int:
        """Returns the number of the line that has an index; a newline belongs to the line that it ends. Raises
        BadIndexError."""
        return _size(lib.py_line_at, self._it, self._offset(index))

    def line_range(self, line: int) -> Optional[Range]:
        """Returns the range of a line, without its newline, or None if there is no such line."""
        return _pair(Range, lib.py_line_range, self._it, _number("line", line, _SIZE_MOST))

    @property
    def cursor_position(self) -> Cell:
        """The cursor's line, and the width of that line up to the cursor, at most 65535."""
        return _cell(lib.py_cursor_position, self._it)

    def movement_range(self, movement: Movement, start: Optional[int] = None) -> Optional[Range]:
        """Returns the range that `copy` would copy by a movement from `start`, or from the cursor, or None if that is
        nothing. Raises BadIndexError."""
        return _pair(Range, lib.py_movement_range, self._it, self._start(start), _of(Movement, movement)._in_c)

    def movement_target(self, movement: Movement, start: Optional[int] = None) -> Optional[int]:
        """Returns the index to which `move` would bring the cursor from `start`, or from where it is, or None if there
        is nowhere to go. Raises BadIndexError."""
        found = _pair(Range, lib.py_movement_target, self._it, self._start(start), _of(Movement, movement)._in_c)
        return found.end if found else None

    def cluster_at(self, index: int) -> Optional[Cluster]:
        """Returns the first cluster after an index, or None at the end of the text. Raises BadIndexError."""
        columns = _new(_SIZE)
        text = _copied(lib.py_cluster_at, self._it, self._offset(index), columns)
        return None if text is None else Cluster(text, index, index + len(text), columns[0])

    def cluster_before(self, index: int) -> Optional[Cluster]:
        """Returns the last cluster before an index, or None at the start of the text. Raises BadIndexError."""
        columns = _new(_SIZE)
        text = _copied(lib.py_cluster_before, self._it, self._offset(index), columns)
        return None if text is None else Cluster(text, index - len(text), index, columns[0])

    def clusters_from(self, start: int, most: int, mode: Mode = Mode.UNICODE) -> Tuple[List[Cluster], Optional[int]]:
        """Returns the clusters of the text from an index on, `most` at most, and where the next one begins, or None if
        none follows. It reads the text up to there. Raises BadIndexError."""
        cap = _number("most", most, _SIZE_MOST)
        given = _of(Mode, mode).value, self._offset(start), _new("lodvarn_cluster[]", cap), cap
        out = _new("size_t[2]")
        text = _copied(lib.py_clusters, self._it, *given, out) or ""
        found = [(getattr(it, "from"), it.to, it.columns) for it in given[2][0 : out[0]]]
        first = found[0][0] if found else 0
        return [Cluster(text[at - first : to - first], at, to, columns) for at, to, columns in found], _or_none(out[1])

    def rows_from(self, screen: Screen, start: int, most: int) -> Tuple[List[int], Optional[int]]:
        """Returns the indexes where the rows of the text begin on a screen, from a row that begins at `start`, itself
        the first, `most` at most; and where the next one begins, or None if none follows.

        `start` is 0, the start of a line, or an index that such a call returned. It reads the text up to there. Two
        rows begin at one index if no cluster fits in the first, as after a prompt up to the right edge; the next index
        leads on then if `most` is 2 or more. Raises BadIndexError, and NoSuchNumberError if a number of the screen is
        out of its range.
        """
        cap = _number("most", most, _SIZE_MOST)
        starts, out = _new("size_t[]", cap), _new("size_t[2]")
        _asked(lib.py_rows, self._it, _on(screen), self._offset(start), starts, cap, out)
        return list(starts[0 : out[0]]), _or_none(out[1])

    def row_above(
        self, screen: Screen, column: Optional[int] = None, n: int = 1, start: Optional[int] = None
    ) -> Optional[RowCell]:
        """Returns the last index of the row n rows above the cursor whose column is at most `column`, or the cursor's
        column for None; and that column. Pass it to the next such call, so that the cursor comes back to it after a
        shorter row. Returns None if there are fewer rows.

        The rows are those of `rows`: the end of a line that fills its last row stands in the next row, where the next
        line begins. In a long line pass as `start` where a row of the cursor's line begins, at or above the cursor's
        row and the one that it leads to, as `rows_from` returns it: the line is laid out only from there. None is
        the start of the line; so is an index in another line or after the cursor, or below the row that it leads to.
        Raises BadIndexError, and NoSuchNumberError if a number of the screen is out of its range.
        """
        return _pair(RowCell, lib.py_row_above, self._it, *self._rows_by(screen, column, n, start))

    def row_below(
        self, screen: Screen, column: Optional[int] = None, n: int = 1, start: Optional[int] = None
    ) -> Optional[RowCell]:
        """Returns the index n rows below the cursor, and the column, as `row_above` does. Raises BadIndexError, and
        NoSuchNumberError if a number of the screen is out of its range."""
        return _pair(RowCell, lib.py_row_below, self._it, *self._rows_by(screen, column, n, start))

    def _rows_by(self, screen: Screen, column: Optional[int], n: int, start: Optional[int]) -> Tuple[Any, ...]:
        """Returns what a motion by rows is given, as the library takes it."""
        given = _on(screen), _SIZE_MOST if start is None else self._offset(start)
        return *given, _number("n", n), _bound("column", column)

    @property
    def can_undo(self) -> bool:
        """Whether `undo` would find a change."""
        return _asked(lib.py_can_undo, self._it) > 0

    @property
    def can_redo(self) -> bool:
        """Whether `redo` would find a change."""
        return _asked(lib.py_can_redo, self._it) > 0

    @property
    def is_saved(self) -> bool:
        """Whether the text is the one that `mark_saved` marked last, also after undos and redos.

        It is False for good once a change that was made before the mark is dropped.
        """
        return _asked(lib.py_is_saved, self._it) > 0

    @property
    def record_entries(self) -> int:
        """The number of entries of the record, marks of groups included."""
        return _asked(lib.py_record_entries, self._it)

    @property
    def group_level(self) -> int:
        """The number of open groups."""
        return _asked(lib.py_group_level, self._it)

    @property
    def ring(self) -> List[str]:
        """The texts of the ring: the one that `yank` would insert, and then those by which one `yank_pop` after another
        would replace it."""
        texts = map(self.ring_text, range(self.ring_count))
        return [text for text in texts if text is not None]

    @property
    def ring_count(self) -> int:
        """The number of texts in the ring."""
        return _asked(lib.py_ring_count, self._it)

    def ring_text(self, back: int = 0) -> Optional[str]:
        """Returns a text of the ring: the current one, which `yank` would insert, or one so many texts further back.
        None if there are not so many."""
        return _copied(lib.py_ring_text, self._it, _number("back", back, _SIZE_MOST))

    @property
    def last_was_yank(self) -> bool:
        """Whether `yank_pop` would find a yanked text to replace."""
        return _asked(lib.py_last_was_yank, self._it) > 0

    def _options(self) -> Any:
        """Returns the options."""
        options = _new("lodvarn_options *")
        options.size = ffi.sizeof("lodvarn_options")
        _asked(lib.py_get_options, self._it, options)
        return options

    mode: Mode = _option("How columns are counted.", "mode", Mode, lambda it: _of(Mode, it).value)
    prompt: int = _option(
        "The column where the text begins, at most 65535, for movements by lines.", "prompt", int,
        lambda it: _number("prompt", it),
    )
    limit_bytes: Optional[int] = _option(
        """The most bytes that the text may have, or None if there is no limit.

        No call makes the text longer, not even between its steps: it raises NoRoomError. So does setting a limit below
        the text's length.
        """, "limit", _or_none, lambda it: _bound("limit_bytes", it),
    )
    ring_size: int = _option(
        "The most texts in the kill ring. It drops its oldest texts beyond that.", "ring_size", int,
        lambda it: _number("ring_size", it, _SIZE_MOST),
    )
    max_entries: Optional[int] = _option(
        """The most entries of the record, or None if there is no bound.

        Now and after each later command the oldest changes and closed groups beyond it are removed, and can't be undone
        then. An open group stays, and so do undone changes.
        """, "max_entries", _or_none, lambda it: _bound("max_entries", it),
    )
    max_bytes: Optional[int] = _option(
        """The most bytes of removed and inserted text in the record, or None if there is no bound. It works as that of
        max_entries.""", "max_bytes", _or_none, lambda it: _bound("max_bytes", it),
    )
    max_ring_bytes: Optional[int] = _option(
        "The most bytes that the texts of the ring have together, or None if there is no bound.", "max_ring_bytes",
        _or_none, lambda it: _bound("max_ring_bytes", it),
    )
    keep_undone: bool = _option(
        """Whether edits keep the undone changes, which they drop otherwise.

        Each edit, and each begin or end of a group, records them again first, followed by their inverses in reverse
        order. Text and cursor stay, nothing can be redone, and undos reach every earlier text: n undos go where n redos
        would have gone, n more come back, and those after them continue with what was recorded before.
        """, "keep_undone", bool, bool,
    )
