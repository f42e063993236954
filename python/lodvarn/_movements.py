"""Movements, and the numbers that calls take."""

from __future__ import annotations

from dataclasses import dataclass, field
from enum import Enum
from typing import Any

from ._calls import _character, _number, _of, _utf8
from ._errors import NoSuchNumberError
from ._lodvarn import ffi, lib


class Mode(Enum):
    """How columns are counted."""

    UNICODE = lib.LODVARN_UNICODE
    WC_WIDTH = lib.LODVARN_WC_WIDTH
    NO_ZWJ = lib.LODVARN_NO_ZWJ


class Word(Enum):
    """What belongs to a word: everything but blanks; letters and digits; or letters, digits and _."""

    BIG = lib.LODVARN_BIG
    EMACS = lib.LODVARN_EMACS
    VI = lib.LODVARN_VI


class Stop(Enum):
    """Where a movement forward by words stops: at the start of a word, at its last cluster, or after it."""

    AT_START = lib.LODVARN_AT_START
    BEFORE_END = lib.LODVARN_BEFORE_END
    AFTER_END = lib.LODVARN_AFTER_END


class Search(Enum):
    """Where a movement to a character stops: at the character, or just before it on the way."""

    TO = lib.LODVARN_TO
    TO_BEFORE = lib.LODVARN_TO_BEFORE
    BACK_TO = lib.LODVARN_BACK_TO
    BACK_TO_AFTER = lib.LODVARN_BACK_TO_AFTER


class Direction(Enum):
    """The direction of a search for a text. For a killed range, to which end of the ring's text it is added in a run of
    kills: to its end, as text after the cursor is, or to its front, as text before the cursor is."""

    FORWARD = lib.LODVARN_FORWARD
    BACKWARD = lib.LODVARN_BACKWARD


class Side(Enum):
    """The side on which an index stays if a text is inserted at it: before the inserted text, or after it."""

    BEFORE = lib.LODVARN_BEFORE
    AFTER = lib.LODVARN_AFTER


class Case(Enum):
    """The letter case that a word gets."""

    CAPITALIZE = lib.LODVARN_CAPITALIZE
    LOWERCASE = lib.LODVARN_LOWERCASE
    UPPERCASE = lib.LODVARN_UPPERCASE


@dataclass(frozen=True)
class Movement:
    """Where a motion goes, and what a kill, a copy or an indent covers. The class methods make one.

    Two that are made in the same way are equal. Making one raises NoSuchNumberError if a count is above 65535.
    """

    name: str
    given: tuple[object, ...]
    # What cffi makes the value in C of, for the time of a call.
    _in_c: tuple[object, ...] = field(repr=False, compare=False)

    @classmethod
    def _made(cls, name: str, *given: Any) -> Movement:
        """Returns the movement that the function of that name makes."""
        made = getattr(lib, f"lodvarn_{name}")(*(it.value if isinstance(it, Enum) else it for it in given))
        return cls(name, given, (made.kind, made.c, made.n, ffi.NULL, 0))

    def __reduce__(self) -> tuple[Any, ...]:
        """Returns what pickle and copy make an equal one of."""
        return getattr(type(self), self.name), self.given

    @classmethod
    def whole_line(cls) -> Movement:
        """The cursor's whole line, without its newline. No motion."""
        return cls._made("whole_line")

    @classmethod
    def to_line_start(cls) -> Movement:
        """To the start of the cursor's line."""
        return cls._made("to_line_start")

    @classmethod
    def to_line_end(cls) -> Movement:
        """To the end of the cursor's line."""
        return cls._made("to_line_end")

    @classmethod
    def to_first_nonblank(cls) -> Movement:
        """To the first character of the cursor's line that is no blank, or to the line's end."""
        return cls._made("to_first_nonblank")

    @classmethod
    def words_back(cls, word: Word, n: int = 1) -> Movement:
        """To the start of the n-th word back."""
        return cls._made("words_back", _of(Word, word), _number("n", n))

    @classmethod
    def words_forward(cls, word: Word, stop: Stop, n: int = 1) -> Movement:
        """To the n-th word forward, at the end or start of it that `stop` says."""
        return cls._made("words_forward", _of(Word, word), _of(Stop, stop), _number("n", n))

    @classmethod
    def to_char(cls, search: Search, c: str, n: int = 1) -> Movement:
        """To the n-th character c, or the farthest if there are fewer."""
        return cls._made("to_char", _of(Search, search), _character("to_char", c), _number("n", n))

    @classmethod
    def to_match(cls, text: str, direction: Direction = Direction.FORWARD) -> Movement:
        """To the start of the text that `Session.find` finds from the cursor.

        Covers the text between that index and the cursor: back also the found text. Raises NoSuchNumberError if the
        text is empty; `Session.indent` raises it for this movement.
        """
        given, size = _utf8(text)
        if not size:
            raise NoSuchNumberError("the text of a movement is not empty")
        kind = lib.lodvarn_to_match(_of(Direction, direction).value, ffi.NULL, 0).kind
        return cls("to_match", (text, direction), (kind, 0, 0, ffi.from_buffer(given), size))

    @classmethod
    def chars_back(cls, n: int = 1) -> Movement:
        """n grapheme clusters back."""
        return cls._made("chars_back", _number("n", n))

    @classmethod
    def chars_forward(cls, n: int = 1) -> Movement:
        """n grapheme clusters forward."""
        return cls._made("chars_forward", _number("n", n))

    @classmethod
    def lines_up(cls, n: int = 1) -> Movement:
        """n lines up, or as many as there are: to the cluster whose index in its line equals the cursor's column.

        Covers the cursor's line with its newline and the lines above; nothing in the first line.
        """
        return cls._made("lines_up", _number("n", n))

    @classmethod
    def lines_down(cls, n: int = 1) -> Movement:
        """n lines down, or as many as there are: to the cluster whose index in its line equals the cursor's column.

        Covers the newline above the cursor's line, the line, and the lines below with their newlines, so that a kill
        joins the line above to the one below; nothing in the last line. `whole_lines_down(n + 1)` covers the same lines
        without the newline above.
        """
        return cls._made("lines_down", _number("n", n))

    @classmethod
    def whole_lines_up(cls, n: int = 1) -> Movement:
        """n whole lines with their newlines, or as many as there are: the cursor's line and those above it. No motion.
        """
        return cls._made("whole_lines_up", _number("n", n))

    @classmethod
    def whole_lines_down(cls, n: int = 1) -> Movement:
        """n whole lines with their newlines, or as many as there are: the cursor's line and those below it. No motion.
        """
        return cls._made("whole_lines_down", _number("n", n))

    @classmethod
    def whole_text(cls) -> Movement:
        """The whole text. No motion."""
        return cls._made("whole_text")

    @classmethod
    def to_text_start(cls) -> Movement:
        """To the start of the text."""
        return cls._made("to_text_start")

    @classmethod
    def to_text_end(cls) -> Movement:
        """To the end of the text."""
        return cls._made("to_text_end")
