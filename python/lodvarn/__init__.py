"""Lodvarn for Python: a line of text with its cursor, its undo record and its kill ring.

    from lodvarn import Movement, Session, Word

    with Session("one two") as session:
        session.kill(Movement.words_back(Word.EMACS))
        session.yank()
        print(session.text, session.pos)

An index is that of a str: it counts characters, and session.text[start:end] is the text in a range. Only names with
`bytes` in them count bytes of UTF-8. A count n is of grapheme clusters, words, lines or repetitions, at most 65535;
with 0 a call does nothing. Lines, rows and columns are numbered from 0. A command returns whether it did anything.

An error is a LodvarnError; one for an index, a number or bytes that are not valid is a ValueError too. An argument of
another type is a TypeError, and a text with a lone surrogate a UnicodeEncodeError. Use a session from one thread at a
time, and change none in a signal handler. A call keeps the interpreter's lock, so other threads wait for its end.
"""

from ._changes import Report, ReportKind, Splice
from ._errors import (
    BadIndexError, BadYankSizeError, ClosedError, DamagedError, IsWatchedError, LodvarnError, NoMemoryError,
    NoRoomError, NoSuchNumberError, NotReplayingError, NotUtf8Error, UnknownFormatError,
)
from ._movements import Case, Direction, Mode, Movement, Search, Side, Stop, Word
from ._session import Session
from ._texts import (
    Cell, Cluster, Range, RowCell, Screen, cell, clusters, first_cluster, index_at, last_cluster, library_version, rows,
    run_script, width,
)

__all__ = [
    "BadIndexError", "BadYankSizeError", "Case", "Cell", "ClosedError", "Cluster", "DamagedError", "Direction",
    "IsWatchedError", "LodvarnError", "Mode", "Movement", "NoMemoryError", "NoRoomError", "NoSuchNumberError",
    "NotReplayingError", "NotUtf8Error", "Range", "Report", "ReportKind", "RowCell", "Screen", "Search", "Session",
    "Side", "Splice", "Stop", "UnknownFormatError", "Word", "cell", "clusters", "first_cluster", "index_at",
    "last_cluster", "library_version", "rows", "run_script", "width",
]

__version__ = "0.1.0"

# Programs know each by this module alone, so the others can change.
for _name in __all__:
    globals()[_name].__module__ = __name__
