"""The errors that calls raise, and what they say."""

from typing import Any, Dict, Optional, Type

from ._lodvarn import ffi, lib


class LodvarnError(Exception):
    """A call failed. `code` is the number of the error in C, also of one that this package does not know.

    Text, cursor and record are as they were, with two exceptions: an edit of several steps that runs out of memory
    keeps the steps that it made, and with the option `keep_undone` the undone changes may have been recorded.
    """

    code: int = 0

    @property
    def name(self) -> str:
        """The name of the error in C, such as "LODVARN_NO_ROOM"."""
        return str(ffi.string(lib.lodvarn_answer_name(self.code)), "ascii")


class NoMemoryError(LodvarnError, MemoryError):
    """Out of memory."""


class BadIndexError(LodvarnError, ValueError):
    """An index is outside the text, or a range ends before it starts. No IndexError, which means an index alone."""


class BadYankSizeError(LodvarnError):
    """The yanked text is not before the cursor."""


class NotReplayingError(LodvarnError):
    """The entries to keep do not lead to the present text."""


class NoRoomError(LodvarnError):
    """The text would exceed the limit, or a text to save has 4 GiB or more."""


class NotUtf8Error(LodvarnError, ValueError):
    """The bytes do not begin with a character in UTF-8."""


class NoSuchNumberError(LodvarnError, ValueError):
    """A number is out of its range, such as a count above 65535, or a call does not take a movement."""


class IsWatchedError(LodvarnError):
    """The session keeps reports already."""


class ClosedError(LodvarnError, ValueError):
    """The session is closed."""


class UnknownFormatError(LodvarnError, ValueError):
    """The bytes do not begin as this version saves a session."""


class DamagedError(LodvarnError, ValueError):
    """The saved bytes are not those of a session: their checksum is wrong, or the record does not lead to the text."""


_ERRORS: Dict[int, Type[LodvarnError]] = {
    lib.LODVARN_NO_MEMORY: NoMemoryError,
    lib.LODVARN_BAD_OFFSET: BadIndexError,
    lib.LODVARN_BAD_YANK_SIZE: BadYankSizeError,
    lib.LODVARN_NOT_REPLAYING: NotReplayingError,
    lib.LODVARN_NO_ROOM: NoRoomError,
    lib.LODVARN_NOT_UTF8: NotUtf8Error,
    lib.LODVARN_NO_SUCH_NUMBER: NoSuchNumberError,
    lib.LODVARN_IS_WATCHED: IsWatchedError,
    lib.LODVARN_CLOSED: ClosedError,
    lib.LODVARN_UNKNOWN_FORMAT: UnknownFormatError,
    lib.LODVARN_DAMAGED: DamagedError,
}
for _code, _error in _ERRORS.items():
    _error.code = _code
_NO_SUCH_NUMBER: int = lib.LODVARN_NO_SUCH_NUMBER
# What an error says if a call knows more than the sentence that the library has for it.
_WHY: Dict[object, str] = {
    lib.LODVARN_CLOSED: "the session is closed",
    ("py_save", lib.LODVARN_NO_ROOM): "a text of the record has 4 GiB or more",
    ("py_insert_at", lib.LODVARN_BAD_OFFSET): "the cursor, whose offset in bytes stays, would be inside a character",
    ("py_type", lib.LODVARN_NOT_UTF8): "the bytes do not begin with a character in UTF-8",
    ("py_delete_by", _NO_SUCH_NUMBER): "delete_by() takes a movement by words, to a character or a text, or to the "
    "start or the end of the line or the text",
    ("lodvarn_map_offset", lib.LODVARN_BAD_OFFSET): "the change ends before it starts, or the index is too great",
    ("py_indent", _NO_SUCH_NUMBER): "a movement to a text has no lines to indent",
}


def _seen(call: Any, answer: int, limit: Optional[int] = None) -> int:
    """Returns the answer of a call. Raises a LodvarnError if it is an error, as of a text with that limit."""
    if answer >= 0:
        return answer
    why = _WHY.get((call.__name__, answer)) or _WHY.get(answer)
    if why is None and answer == lib.LODVARN_NO_ROOM:
        why = f"the text would exceed the limit of {limit} bytes"
    error = _ERRORS.get(answer, LodvarnError)(why or str(ffi.string(lib.lodvarn_error_text(answer)), "ascii"))
    error.code = answer
    raise error
