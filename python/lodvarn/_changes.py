"""What changed in a text."""

from enum import Enum
from typing import NamedTuple, Optional

from ._calls import _SIZE_MOST, _number, _of, _size
from ._lodvarn import lib
from ._movements import Side


class ReportKind(Enum):
    """The kind of a report.

    The deletions between KILL_STARTED and KILL_STOPPED are a kill; these two report no change, and their numbers are 0.
    Each change of an undo or a redo is REPLACED. FOLDED is all waiting and all later changes as one.
    """

    CHAR_INSERTED = lib.LODVARN_CHAR_INSERTED
    TEXT_INSERTED = lib.LODVARN_TEXT_INSERTED
    DELETED_FORWARD = lib.LODVARN_DELETED_FORWARD
    DELETED_BACKWARD = lib.LODVARN_DELETED_BACKWARD
    REPLACED = lib.LODVARN_REPLACED
    KILL_STARTED = lib.LODVARN_KILL_STARTED
    KILL_STOPPED = lib.LODVARN_KILL_STOPPED
    FOLDED = lib.LODVARN_FOLDED


_KINDS = {it.value: it for it in ReportKind}


class Splice(NamedTuple):
    """A change: the old text from `start` to `old_end` was replaced by the new text from `start` to `new_end`."""

    start: int
    old_end: int
    new_end: int

    def map_index(self, index: int, side: Side = Side.BEFORE) -> int:
        """Maps an index in the text before the change to the text after it, for marks and selections.

        An index inside the removed text is mapped to the start of the inserted text, or with AFTER to its end. Map by
        each report in order, or by the splice that `take_change` returns; but that takes in what lies between several
        changes, so that an index there is mapped to an end of it. Raises BadIndexError if `old_end` or `new_end` is
        before `start`, and NoSuchNumberError if a number is below 0.
        """
        start, old_end, new_end = (_number("an index", it, _SIZE_MOST) for it in self)
        change = [(start, old_end, new_end)]
        return _size(lib.lodvarn_map_offset, change, _number("index", index, _SIZE_MOST), _of(Side, side).value)


class Report(NamedTuple):
    """At the index `at`, `old_len` characters were replaced by `new_len` characters, and the cursor moved from
    `pos_before` in the old text to `pos_after` in the new one.

    `old_text` and `new_text` are the removed and the inserted text. They are None if the session keeps no texts, or the
    kind is FOLDED: the inserted text is in the present text then.
    """

    kind: ReportKind
    at: int
    old_len: int
    new_len: int
    pos_before: int
    pos_after: int
    old_text: Optional[str]
    new_text: Optional[str]

    def map_index(self, index: int, side: Side = Side.BEFORE) -> int:
        """Maps an index in the text before the change to the text after it, as `Splice.map_index` does."""
        return Splice(self.at, self.at + self.old_len, self.at + self.new_len).map_index(index, side)
