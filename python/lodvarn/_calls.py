"""How calls of the library are made: what they are given, and what is made of what they write."""

from operator import index as _as_int
from typing import Any, Callable, Optional, Sized, Tuple, Type, TypeVar

from ._errors import BadIndexError, NoSuchNumberError, _seen
from ._lodvarn import ffi, lib

_T = TypeVar("_T")
# What is looked up once, since it is used often.
_new, _SIZE, _CHARS = ffi.new, ffi.typeof("size_t *"), ffi.typeof("char[]")
_TOO_SMALL: int = lib.LODVARN_TOO_SMALL
# The items that a buffer has at first, and the greatest numbers: of a size, and of a count or a column.
_SHORT = 256
_SIZE_MOST: int = 2 ** (8 * ffi.sizeof("size_t")) - 1
_MOST = 65535


def _asked(call: Any, *given: Any) -> int:
    """Makes a call. Returns its answer. Raises a LodvarnError if it is an error."""
    answer: int = call(*given)
    return answer if answer >= 0 else _seen(call, answer)


def _number(name: str, number: int, most: int = _MOST, least: int = 0) -> int:
    """Returns a number as an int. Raises NoSuchNumberError if it is out of its range."""
    given = _as_int(number)
    if least <= given <= most:
        return given
    raise NoSuchNumberError(f"{name} is from {least} to {most}, not {given}")


def _bound(name: str, number: Optional[int]) -> int:
    """Returns a limit or a bound as the library takes it, for which None is none."""
    return _SIZE_MOST if number is None else _number(name, number, _SIZE_MOST)


def _or_none(number: int) -> Optional[int]:
    """Returns a limit or a bound of the library as one that may be None."""
    return None if number == _SIZE_MOST else number


def _of(kind: Type[_T], given: object) -> _T:
    """Returns an argument. Raises TypeError if it is of another type."""
    if isinstance(given, kind):
        return given
    raise TypeError(f"expected {kind.__name__}, not {given!r}")


def _utf8(text: str) -> Tuple[bytes, int]:
    """Returns the bytes of a text and their length, as the library takes it."""
    given = str.encode(_of(str, text))
    return given, len(given)


def _bytes(data: bytes) -> Tuple[bytes, int]:
    """Returns the bytes of a bytes-like object and their length, as the library takes them.

    Others than bytes are copied: cffi would hold their buffer, and the interpreter may crash if it collects both in a
    cycle, such as that of an error and its frames.
    """
    given = data if type(data) is bytes else memoryview(data).tobytes()
    return given, len(given)


def _character(name: str, c: str) -> str:
    """Returns an argument that is one character."""
    if isinstance(c, str) and str.__len__(c) == 1:
        str.encode(c)  # This raises UnicodeEncodeError for a lone surrogate, as of every text.
        return c
    raise TypeError(f"{name}() takes one character, not {c!r}")


def _offset(index: int, of: Sized, call: Any, *given: Any) -> int:
    """Returns the offset in bytes of an index of a text, by a call. Raises BadIndexError."""
    at = _as_int(index)
    offset: int = call(*given, at) if -1 < at < 2**63 else _SIZE_MOST
    if offset == _SIZE_MOST:
        raise BadIndexError(f"index {at} is outside the text, whose length is {len(of)}")
    return offset


def _pair(kind: Callable[[int, int], _T], call: Any, *given: Any) -> Optional[_T]:
    """Makes a call that writes two numbers. Returns these as that kind, or None if there was nothing to write."""
    out = _new("size_t[2]")
    return kind(out[0], out[1]) if _asked(call, *given, out) else None


def _size(call: Any, *given: Any) -> int:
    """Makes a call that writes a number. Returns it, or 0 if there was nothing to write."""
    out = _new(_SIZE)
    return int(out[0]) if _asked(call, *given, out) else 0


def _filled(kind: Any, call: Any, *given: Any) -> Tuple[int, Any, int]:
    """Makes a call that writes to a buffer. Returns its answer, the buffer, and the number of items in it."""
    size, out = _new(_SIZE), _new(kind, _SHORT)
    while (answer := call(*given, out, len(out), size)) == _TOO_SMALL:
        out = _new(kind, size[0])
    return _seen(call, answer), out, size[0]


def _copied(call: Any, *given: Any) -> Optional[str]:
    """Makes a call that copies a text. Returns it, or None if there was nothing to copy."""
    answer, out, size = _filled(_CHARS, call, *given)
    return str(ffi.buffer(out, size), "utf-8") if answer else None
