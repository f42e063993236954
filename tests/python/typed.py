"""Runs the lines of scripts by calls of Session, and returns what scripts print, as docs/RULES.md says.

A script counts offsets in bytes. One that is inside a character has no index, so -1 stands for it.
"""

import re
from functools import partial
from pathlib import Path

from lodvarn import (
    BadIndexError, BadYankSizeError, Case, Direction, Mode, Movement, NoRoomError, NotReplayingError, Search, Session,
    Stop, Word,
)

TOP = Path(__file__).resolve().parents[2]
MARKS = {"\\": "\\", "n": "\n", "r": "\r", "t": "\t", "s": " "}
FAULTS = {BadIndexError: 2, BadYankSizeError: 3, NotReplayingError: 4}
# The names among the arguments, by the letters of docs/RULES.md, in the order of their enums.
NAMES = {
    "S": (Word, "big emacs vi"), "P": (Stop, "start before after"), "X": (Search, "f t F T"), "D": (Direction, "f b"),
    "W": (Case, "cap low up"), "O": (Mode, "unicode wcwidth nozwj"),
}
# The names that the letters of the tables of docs/RULES.md have in the calls there.
GIVEN = dict(zip("NCTMSPXDKLQIAB", "n c text movement word stop search direction amount entries q i a b".split()))
# A row of such a table: its word, the letters of its arguments, and its call of C, if that hands out nothing.
ROW = re.compile(r"^\| `(\w+)` \| (?:`([A-Z ]+)` )?\| .* \| `(lodvarn_[^`&]*)` \|$", re.M)
CALL = re.compile(r"lodvarn_(\w+)\(([^()]*)\)")


def called(call, names, *given):
    """Makes a call of a row, and before it one that is an argument of it, by what has the same name in Python."""
    values = dict(zip(names, given))
    while found := CALL.search(call):
        owner = Movement if hasattr(Movement, found[1]) else Session
        values["it"] = getattr(owner, found[1])(*(values[it] for it in re.findall(r"\w+", found[2])))
        call = call.replace(found[0], "it")
    return values["it"]


def table(heading):
    """What each word in a table of docs/RULES.md takes, and its call, which gets that."""
    rules, calls = (TOP / "docs/RULES.md").read_text(), {}
    for word, letters, call in ROW.findall(rules.partition(f"### {heading}\n")[2].partition("\n#")[0]):
        names = ["s"] * bool(re.search(r"\(s\b", call)) + [GIVEN[it] for it in letters.split()]
        in_python = partial(called, re.sub(r"\brange\b", "a, b", call.replace(", len", "")), names)
        calls[word] = re.sub("[IAB]", "Q", letters.replace(" ", "")), in_python
    return calls


MOVEMENTS = table("Movements")


def covered(s, movement):
    """What a movement covers, of which a copy is the same."""
    return s.slice(*s.movement_range(movement)) if s.movement_range(movement) else None


def replied(text):
    """A text, or none, as a reply."""
    return "none" if text is None else f"text:{escaped(text, MARKS)}"


def copy(s, movement):
    """What a movement covers, by both of the calls that return it."""
    assert (text := covered(s, movement)) == s.copy(movement)
    return replied(text)


def delete(s, n):
    """What is deleted after the cursor, or none."""
    text = covered(s, Movement.chars_forward(n))
    assert s.delete(n) == (text is not None)
    return replied(text)


def yank_pop(s):
    """A script says that nothing was inserted also if the text that replaced the other is empty."""
    older = s.ring_text(s.ring_count > 1)
    return s.yank_pop() and bool(older)


def move(s, movement):
    """Moves to the target."""
    target, is_done = s.movement_target(movement), s.move(movement)
    assert is_done == (target is not None) and target in (None, s.pos)
    return is_done


# Of each word what it takes, and its call. Here stand those that take or do something else in Python.
WORDS = {
    **table("Words that begin a line"), "move": ("M", move), "copy": ("M", copy), "del": ("N", delete),
    "indent": ("KM", lambda s, amount, movement: s.indent(movement, amount)),
    "dedent": ("KM", lambda s, amount, movement: s.dedent(movement, amount)),
    "update": ("JT", Session.set_text), "pos": ("Q", lambda s, pos: setattr(s, "pos", pos)),
    "str": ("QT", lambda s, at, text: s.insert_at(at, text) or True), "case": ("W", Session.change_case),
    "yankpop": ("", yank_pop), "begin": ("", lambda s: f"mark:{(s.record_entries, s.begin_group())[0]}"),
    "where": ("", lambda s: "at:{}:{}".format(*(setattr(s, "pos", s.pos), s.cursor_position)[1])),
}
# The words of an insertion, of which a script prints whether it was at the end of the text.
INSERTIONS = {"ins", "paste", "str", "yank", "yankpop"}


def index_of(text, offset):
    """The index of an offset in bytes, or -1 if there is none."""
    try:
        return len(text.encode()[:offset].decode()) if offset <= len(text.encode()) else -1
    except UnicodeDecodeError:
        return -1


def escaped(text, marks="\\nrt"):
    """A text as a script prints it."""
    for letter in marks:
        text = text.replace(MARKS[letter], "\\" + letter)
    return text


def taken(letters, rest, text):
    """The arguments of a word, of what comes after it and the text that there is."""
    given = []
    for letter in letters:
        if letter in "CT":
            marked = re.compile(r"\\(?:u\{(\w+)\}|(.))")
            given.append(marked.sub(lambda it: chr(int(it[1], 16)) if it[1] else MARKS[it[2]], rest))
            continue
        word, _, rest = rest.partition(" ")
        if letter == "M":
            inner, make = MOVEMENTS[word]
            given.append(make(*taken(inner, rest, text)))
        elif letter in NAMES:
            kind, names = NAMES[letter]
            given.append(list(kind)[names.split().index(word)])
        else:
            given.append(index_of(text, int(word)) if letter == "Q" else int(word))
    if letters[:1] == "J":
        given[0] = index_of(given[1], given[0])
    return given


class Typed:
    """A session, and what the next one is opened with."""

    def __init__(self):
        self.options = {"limit_bytes": 4096}
        self.session = Session(**self.options)

    def run(self, line):
        """What a line prints."""
        word, _, rest = line.partition(" ")
        if word in ("limit", "ring", "mode"):
            name = {"limit": "limit_bytes", "ring": "ring_size"}.get(word, word)
            self.options[name] = taken("O", rest, "")[0] if word == "mode" else int(rest)
            said = "ok"
        elif word == "text":
            # A script asks for memory for its whole limit, and raises it to the text. A session does neither.
            [text], limit = taken("T", rest, ""), self.options["limit_bytes"]
            if limit < 2**47:
                self.session = Session(text, **{**self.options, "limit_bytes": max(limit, len(text.encode()))})
            said = "ok" if limit < 2**47 else "refused:1"
        else:
            said = do(self.session, word, taken(WORDS[word][0], rest, self.session.text))
        return f"{said} {len(self.session.before.encode())} {escaped(self.session.text)}\n"


def done(session, word, given):
    """What the call of a word returns. If the text would exceed the limit, this does what a script does: it inserts
    nothing at the cursor, and ends a run of kills; it cuts the text of an update; and for all else it raises the limit
    as needed."""
    while True:
        try:
            return WORDS[word][1](session, *given)
        except NoRoomError:
            if word in INSERTIONS - {"str"}:
                session.pos = session.pos
                raise
            if word == "update":
                text = given[1].encode()[: session.limit_bytes].decode(errors="ignore")
                given = [min(given[0], len(text)), text]
            else:
                session.limit_bytes += 1


def do(session, word, given):
    """Does what a word says. What it replies."""
    is_at_end = session.pos == len(session) if word != "str" else given[0] == len(session)
    try:
        reply = done(session, word, given)
    except NoRoomError:
        return "none"
    except tuple(FAULTS) as fault:
        if word != "killrange":
            session.pos = session.pos  # A line that fails is a command too. An index is checked before the call.
        return f"refused:{FAULTS[type(fault)]}"
    if word in INSERTIONS:
        return str(is_at_end).lower() if reply else "none"
    if isinstance(reply, bool):
        return str(reply).lower()
    return "ok" if reply is None else reply
