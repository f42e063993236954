"""What a text is measured in, and the calls without a session."""

from typing import Any, List, NamedTuple, Tuple

from ._calls import _CHARS, _SIZE_MOST, _asked, _bytes, _filled, _new, _number, _of, _offset, _size, _utf8
from ._lodvarn import ffi, lib
from ._movements import Mode


class Range(NamedTuple):
    """A range of a text: text[start:end]."""

    start: int
    end: int


class Cell(NamedTuple):
    """A line and a column of it, both from 0. On a screen a line is a row."""

    line: int
    column: int


class RowCell(NamedTuple):
    """An index in a row, to which the cursor may go, and the column that it was looked for at."""

    pos: int
    column: int


class Cluster(NamedTuple):
    """A grapheme cluster: its text, the indexes where it starts and ends, and how many columns it takes."""

    text: str
    start: int
    end: int
    columns: int


class Screen(NamedTuple):
    """A screen: how many columns a row has, from 1 to 65535; the column where the text begins, after a prompt; the one
    where each line after the first begins; the distance of tab stops, or 0 if a tab is a control character as any
    other; the columns of these, or 0 if they are as wide as `width` says; and how columns are counted."""

    columns: int
    prompt: int = 0
    continuation: int = 0
    tab: int = 0
    controls: int = 0
    mode: Mode = Mode.UNICODE


def _on(screen: Screen) -> List[Tuple[int, ...]]:
    """Returns a screen as the library takes it. Raises NoSuchNumberError."""
    columns, *others, mode = _of(Screen, screen)
    numbers = [_number(name, it) for name, it in zip(Screen._fields[1:], others)]
    return [(ffi.sizeof("lodvarn_screen"), _number("columns", columns, least=1), *numbers, _of(Mode, mode).value)]


def _cell(call: Any, *given: Any) -> Cell:
    """Makes a call that writes a position. Returns it."""
    out = _new("lodvarn_position *")
    _asked(call, *given, out)
    return Cell(out.line, out.column)


def library_version() -> str:
    """Returns the version of the library, such as "1.2.3"."""
    number = lib.lodvarn_version()
    return f"{number >> 16}.{number >> 8 & 255}.{number & 255}"


def run_script(script: bytes) -> bytes:
    """Returns the output of a script, run in a session of its own. Raises NoMemoryError."""
    _, out, size = _filled(_CHARS, lib.lodvarn_script, *_bytes(script))
    return bytes(ffi.buffer(out, size))


def width(text: str, mode: Mode = Mode.UNICODE) -> int:
    """Returns the number of columns that a text takes, at most 65535."""
    return _size(lib.lodvarn_width, _of(Mode, mode).value, *_utf8(text))


def first_cluster(text: str) -> str:
    """Returns the first grapheme cluster of a text, empty if the text is empty."""
    given, size = _utf8(text)
    return given[: _size(lib.lodvarn_first_cluster, given, size)].decode()


def last_cluster(text: str) -> str:
    """Returns the last grapheme cluster of a text, empty if the text is empty."""
    given, size = _utf8(text)
    return given[size - _size(lib.lodvarn_last_cluster, given, size) :].decode()


def clusters(text: str, mode: Mode = Mode.UNICODE) -> List[Cluster]:
    """Returns the grapheme clusters of a text."""
    given, size = _utf8(text)
    _, out, count = _filled("lodvarn_cluster[]", lib.lodvarn_clusters, _of(Mode, mode).value, given, size)
    found, start, last = [], 0, 0
    for it in out[0:count]:
        cluster = given[last : it.to].decode()
        found.append(Cluster(cluster, start, start + len(cluster), it.columns))
        start, last = start + len(cluster), it.to
    return found


def cell(screen: Screen, index: int, text: str) -> Cell:
    """Returns the row, as line, and the column of an index of a text on a screen.

    The text begins at the column of the prompt in row 0, and an index inside a cluster is where the cluster starts. A
    cluster that does not fit in the rest of its row goes whole to the next one, and a tab goes to the next tab stop, or
    to the right edge if that is nearer. Raises BadIndexError, and NoSuchNumberError if a number of the screen is out of
    its range.
    """
    given, size = _utf8(text)
    return _cell(lib.lodvarn_cell, _on(screen), _offset(index, text, lib.offset_in, given, size), given, size)


def index_at(screen: Screen, cell: Tuple[int, int], text: str) -> int:
    """Returns the index of a text at a cell of a screen, such as a mouse points to.

    It is the last index between two clusters whose cell, by `cell`, is that one or before it, and 0 if all are after
    it. Raises NoSuchNumberError if a number of the screen is out of its range.
    """
    given, size = _utf8(text)
    line, column = cell
    position = _number("line", line, _SIZE_MOST), _number("column", column, _SIZE_MOST)
    return int(lib.chars_in(given, _size(lib.lodvarn_offset_at, _on(screen), position, given, size)))


def rows(screen: Screen, text: str) -> List[int]:
    """Returns the indexes of a text where its rows begin on a screen, as `cell` lays it out.

    A row ends where the next one begins; a text that ends at the right edge has one more, which is empty. Raises
    NoSuchNumberError if a number of the screen is out of its range.
    """
    given, size = _utf8(text)
    _, starts, count = _filled("size_t[]", lib.lodvarn_rows, _on(screen), given, size)
    at, found, last = ffi.from_buffer(given), [0], 0
    for start in starts[1:count]:
        found.append(found[-1] + lib.chars_in(at + last, start - last))
        last = start
    return found
