#!/usr/bin/env python3
"""Compares what include/lodvarn.h declares with the crate rl_ffi, and with the names that Python gives to the numbers.
What Python calls is declared by the header itself, through cffi.

    python3 tests/check_header.py

- Calls: each is an export of the crate, or of rust/lodvarn-c/src/handles.rs, with the same arguments and result. There
  are no others. The functions that make movements are those of movements.rs beside it, with the same kinds.
- Structs: each has the same fields in the same order as that of the crate, a movement as that of movements.rs.
- Numbers: each is that of the crate. Those of the enums that calls take all differ. The client uses each, and the name
  that it gives it is the header's.

What only one side has fails, whichever it is. The last line is 'N passed, M failed'; each name counts in each place.
"""

import re
import sys

import header

TOP = header.HEADER.parents[1]
# What the exports have for a type of C. A text is a slice: a pointer and a length; so are places to write.
KINDS = {
    "void": "",
    "int": "i32",
    "size_t": "usize",
    "uint32_t": "u32",
    "uint16_t": "u16",
    "uint8_t": "u8",
    "char": "u8",
    "lodvarn": "Handle",
}
# The names of the header for what the crate names otherwise.
OTHERWISE = {
    "At::Start": "AT_START",
    "CharSearch::Forward": "TO",
    "CharSearch::ForwardBefore": "TO_BEFORE",
    "CharSearch::Backward": "BACK_TO",
    "CharSearch::BackwardAfter": "BACK_TO_AFTER",
    "Movement::WholeLine": "WHOLE_LINE_",
    "Movement::BeginningOfLine": "TO_LINE_START_",
    "Movement::EndOfLine": "TO_LINE_END_",
    "Movement::BackwardChar": "CHARS_BACK_",
    "Movement::ForwardChar": "CHARS_FORWARD_",
    "Movement::LineUp": "LINES_UP_",
    "Movement::LineDown": "LINES_DOWN_",
    "Movement::WholeBuffer": "WHOLE_TEXT_",
    "Movement::BeginningOfBuffer": "TO_TEXT_START_",
    "Movement::EndOfBuffer": "TO_TEXT_END_",
    "Movement::FirstNonBlank": "TO_FIRST_NONBLANK_",
    "Movement::WholeLinesUp": "WHOLE_LINES_UP_",
    "Movement::WholeLinesDown": "WHOLE_LINES_DOWN_",
    "Some": "TO_MATCH",
    "Ok(false)": "INDENT",
    "Ok(true)": "DEDENT",
}
# The enums that no call takes.
GIVEN = ("lodvarn_answer", "lodvarn_report_kind")
# What the client need not tell apart: Python is built with the library of the same header, whose structures it has.
ALIKE = ("NOTHING", "DONE", "DONE_AT_END", "TOO_SMALL", "BAD_SIZE")
EXPORT = re.compile(r"^(?:export! \{ )?pub fn (lodvarn_\w+)\(([^)]*)\)(?: -> ([*\w ]*\w))?", re.M)
MADE_BY_HEADER = re.compile(
    r"^static inline \w+ (lodvarn_\w+)\([^)]*\) \{[^{}]*\blodvarn_movement_\((.*?)\);", re.M | re.S
)
MADE = re.compile(r"^    pub fn (\w+)\((.*?)\) -> Movement \{.*?\bnew\((.*?)\)\s*\}", re.M | re.S)
CRATE_STRUCT = re.compile(r"#\[repr\(C\)\][^{};]*?struct (\w+)(?:<'\w+>)? \{(.*?)^\}", re.M | re.S)


def read(*patterns):
    """The files that the patterns name, as one text without its comments."""
    text = "\n".join(path.read_text() for pattern in patterns for path in sorted(TOP.glob(pattern)))
    return re.sub(r"//[^\n]*", "", text)


def in_crate(kind):
    """What the crate has for a type of C."""
    if kind.endswith("*"):
        const, base = re.fullmatch(r"(const )?(.*?) ?\*", kind).groups()
        name = in_crate(base)
        return ("*const u8" if const else "*mut u8") if name == "u8" else f"&{'' if const else 'mut '}{name}"
    if kind.startswith("enum "):
        return "u32"
    name = kind.removeprefix("lodvarn_")
    return KINDS.get(kind, name.capitalize() if name != kind else name)


def form_of(call):
    """The arguments and the result of a call, as the crate has them."""
    kinds = ", ".join(in_crate(it.kind) for it in call.arguments)
    kinds = kinds.replace("*const u8, usize", "&[u8]").replace("*mut u8, usize", "&mut [u8]")
    kinds = re.sub(r"&mut (usize|Cluster), usize", r"&mut [\1]", kinds)
    return f"({kinds}) -> {in_crate(call.result)}"


def kind_of(kind):
    """A type of the crate, without its path and its lifetime; a struct that C gets, without the C before its name. What
    may be NULL or unset is a pointer to C, and so is what a block is."""
    kind = re.sub(r"\b\w+::|\bC(?=[A-Z][a-z])|(?<=&)\s*'\w+\s*", "", " ".join(kind.split()))
    kind = re.sub(r"\*(?:const |(mut ))(?=[A-Z])", r"&\1", kind)
    return re.sub(r"\b(?:Option|MaybeUninit)<|>", "", kind).replace("Block", "&mut Handle")


def exports_of(source):
    """The exports of the crate, in the same form."""
    found = {}
    for name, given, result in EXPORT.findall(source):
        kinds = [kind_of(one.split(":", 1)[1]) for one in given.split(",") if one.strip()]
        found[name] = f"({', '.join(kind for kind in kinds if kind != 'Global')}) -> {result}"
    return found


def structs_of_crate(source):
    """The structs of the crate that have the layout of C, but what a handle points to: their fields."""
    found = {}
    for name, body in CRATE_STRUCT.findall(source):
        fields = re.findall(r"^\s*(?:pub(?:\(crate\))? )?(\w+): ([^\n]+),$", body, re.M)
        if name != "Handle":
            found[name.removeprefix("C")] = [(field, kind_of(kind)) for field, kind in fields]
    return found


def snake(name):
    """A name as the header writes it: BeforeEnd is BEFORE_END."""
    return re.sub(r"(?<!^)(?=[A-Z])", "_", name).upper()


def kinds_of(numbers):
    """The numbers of all movements, and of what else the crate has one for, each by its name or by what it is."""
    kinds = dict(numbers)
    words, stops = ("BIG", "EMACS", "VI"), ("AT_START", "BEFORE_END", "AFTER_END")
    searches = ("TO", "TO_BEFORE", "BACK_TO", "BACK_TO_AFTER")
    bases = ("WORDS_BACK_", "WORDS_FORWARD_", "TO_CHAR_", "TO_MATCH_")
    back, forward, search, match = (kinds.pop(name) for name in bases)
    for name in words + stops + searches:
        kinds.pop(name)
    for i, word in enumerate(words):
        kinds[f"BACKWARD_WORD {word}"] = back + i
        kinds |= {f"FORWARD_WORD {stop} {word}": forward + 3 * i + k for k, stop in enumerate(stops)}
    kinds |= {"TO_MATCH FORWARD": match, "TO_MATCH BACKWARD": match + 1}
    return kinds | {f"VI_CHAR_SEARCH {name}": search + i for i, name in enumerate(searches)}


def numbers_of_crate(source):
    """The numbers of the crate, in the same form."""
    found = {snake(name): int(number) for name, number in re.findall(r"^ +(\w+) = (-?\d+),$", source, re.M)}
    rows = re.findall(r"^ +(\d+) => (.+),$", source, re.M)
    rows += [(number, value) for value, number in re.findall(r"^ +(\w+::\w+) => (\d+),$", source, re.M)]
    for number, value in rows:
        names = re.findall(r"\w+::\w+|Ok\((?:true|false)\)|Some", value)
        found[" ".join(OTHERWISE.get(it, snake(it.partition("::")[2])) for it in names)] = int(number)
    return found


def movements_of_header(numbers):
    """The functions of the header that make movements: their arguments, and what makes a movement but its text."""
    given = {
        it.name: ", ".join(f"{one.name}: {in_crate(one.kind)}" for one in it.arguments) for it in header.functions()
    }
    found = {}
    for name, made in MADE_BY_HEADER.findall(header.code()):
        made = re.sub(r"LODVARN_(\w+)", lambda it: str(numbers[it[1]]), made)
        made = made.replace("lodvarn_index_", "index").replace("(uint32_t)", "")
        found[name] = f"({given[name]}) -> {' '.join(made.split())}"
    return found


def named_by(client):
    """The numbers of the header that the client uses, each by the name that it gives it, or by the header's."""
    found = {name: name for name in re.findall(r"lib\.LODVARN_([A-Z][A-Z0-9_]*)\b", client)}
    for name, number in re.findall(r"^ +(\w+) = lib\.LODVARN_([A-Z0-9_]+)$", client, re.M):
        if not number.endswith(name):
            found[number] = name
    return found


def see(where, wanted, found):
    """Compares what one place has with what is wanted there. How many are the same, and how many are not."""
    names = wanted.keys() | found.keys()
    failed = sorted((name for name in names if wanted.get(name) != found.get(name)), key=str)
    for name in failed:
        print(f"{where}: {name} is {found.get(name, 'not there')}, and should be {wanted.get(name, 'not there')}")
    return len(names) - len(failed), len(failed)


def main():
    enums = {enum: {k.removeprefix("LODVARN_"): n for k, n in it.items()} for enum, it in header.enums().items()}
    numbers = {name: number for enum in enums.values() for name, number in enum.items()}
    taken = [n for enum, it in enums.items() if enum not in GIVEN for n in it.values()]
    structs = {name: [(it.name, in_crate(it.kind)) for it in fields] for name, fields in header.structs().items()}
    named = {name: name for name in numbers if name not in ALIKE and not name.endswith("_")}
    used = named_by(read("python/lodvarn/*.py"))
    crate = read("crates/rl_ffi/src/**/*.rt")
    exports = exports_of(crate + read("rust/lodvarn-c/src/handles.rs"))
    movements = read("rust/lodvarn-c/src/movements.rs")
    made = {name: f"({given}) -> {' '.join(of.split())}" for name, given, of in MADE.findall(movements)}
    sums = [
        see("a call", {it.name: form_of(it) for it in header.calls()}, exports),
        see("a struct", {in_crate(name): its for name, its in structs.items()}, structs_of_crate(crate + movements)),
        see("a movement", movements_of_header(numbers), made),
        see("a number", kinds_of(numbers), numbers_of_crate(crate)),
        see("the enums that calls take", {"values": len(taken)}, {"values": len(set(taken))}),
        see("Python", named, {name: own for name, own in used.items() if name in named}),
    ]
    passed, failed = (sum(counts) for counts in zip(*sums))
    print(f"{passed} passed, {failed} failed")
    return 1 if failed or not passed else 0


if __name__ == "__main__":
    sys.exit(main())
