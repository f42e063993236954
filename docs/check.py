#!/usr/bin/env python3
"""Checks that what the pages (*.md) name is there. Each thing named counts one for each page.

    python3 docs/check.py
    python3 docs/check.py --bodies      checks nothing: it prints the table of the edits that must fail

- Each row of the table of wrong bodies in docs/PROVING.md: its tests and files.
- Each relative link: its file, and the heading of its #part.
- Each path in backquotes that begins with a folder of the top: a file or a folder, or a pattern that matches one.
- Each call and constant of C (lodvarn_.., LODVARN_..): in the header, or a variable of the environment.
- Each call in the tables of calls of README.md, python and rust: in the header, or in the package or the crate; in
  the tables of keys of docs/GUIDE.md: in the header and in the package.
- Each crate (rl_..): in crates.txt, or an export that the handles of the library for C call.
- Each word of a script (specs/Grammar.antt): one row in docs/RULES.md, and no other rows.
- Each function, clause and definition in the column of contracts of docs/PROMISES.md: in the crates, as it is spelled.
- The default size of the ring, if a page has it: as LODVARN_OPTIONS has it.
- The errors of each call of C, by the header: those that the docs of Python and Rust name at their call for it.
- The words of pages, of the header's comments, and of the docs of the packages: none of a private dialect (DIALECT).
- Each page: no line of more than WIDTH characters, apart from code, tables and pictures. README.md and all pages
  together: no more lines than MOST says.

Its last line is 'N passed, M failed'.
"""

import argparse
import ast
import re
import sys
from collections import Counter
from functools import cache, partial
from pathlib import Path

sys.dont_write_bytecode = True
TOP = Path(__file__).resolve().parent.parent
sys.path.insert(0, str(TOP / "tests"))

import header  # noqa: E402

GLOBS = ["*.md", "docs/*.md", "python/README.md", "rust/*/README.md", "examples/README.md", "examples/*/README.md"]
PAGES = sorted(page for glob in GLOBS for page in TOP.glob(glob))
FOLDERS = ("crates", "docs", "examples", "include", "packaging", "python", "rust", "tests", ".ci")
FENCED = re.compile(r"^( *)(```+|~~~+).*?^\1\2", re.M | re.S)
LINK = re.compile(r"!?\[[^\]]*\]\(<?([^)\s>]+)>?[^)]*\)")
SPAN = re.compile(r"(`+)(.+?)\1", re.S)
TARGET = re.compile(r"\]\([^)]*\)")
# A call or a constant of C, and a crate.
CALL = re.compile(r"\b(?:lodvarn_[a-z0-9_]*[a-z0-9]|LODVARN_[A-Z0-9_]*[A-Z0-9])\b(?!_)")
# What the package for Python and the examples read of the environment.
VARIABLES = {"LODVARN_LIB", "LODVARN_PACKED", "LODVARN_PREFIX"}
CRATE = re.compile(r"\brl_[a-z_]+\b")
WIDTH = 120
MOST = {"README.md": 140, "all pages": 3590}


TABLE = re.compile(r"^\|(.*)\|\n\|[-|]+\|\n((?:\|.*\n)+)", re.M)


def cells_of(row):
    return [cell.strip() for cell in re.split(r" \|(?= |$)", row.strip("|"))]


def rows_of(page):
    """The rows of the tables of a page: the cells by the heads of their columns, without what follows a comma there."""
    for heads, rows in TABLE.findall(page.read_text()):
        names = [head.partition(",")[0] for head in cells_of(heads)]
        yield from (dict(zip(names, cells_of(row))) for row in rows.splitlines())


def see_column(count, page, head, faults_of):
    """Checks the cells of the columns with that head, of which there is one. 'the same' is what stands under C."""
    cells = [row[head].replace("the same", row.get("C", "the same")) for row in rows_of(page) if head in row]
    for cell in cells:
        count.see(page, [f"{fault}: {cell[:60]}.." for fault in faults_of(cell)])
    count.see(page, [] if cells else [f"no table has a column '{head}'"])


def bodies():
    """The rows of the edits that must fail: their crate, the file that their first line names, and what they do."""
    edits = TOP.glob("crates/*/must-fail/*.edit")
    return sorted(f"| {it.parts[-3]} | {it.read_text().split()[1]} | {it.stem.replace('_', ' ')} |" for it in edits)


def has_name(name):
    """Whether a file, or a test as module::name, has that name."""
    module, _, test = name.partition("::")
    sources = TOP.glob(f"crates/rl_*tests/src/{module}.rt")
    return (TOP / name).is_file() or any(f"#[test]\nfn {test}(" in source.read_text() for source in sources)


def faults_of_tests(cell):
    """What is wrong with the tests and files that find a wrong body."""
    names = re.findall(r"`([^`]+)`", cell)
    return [f"there is no {name}" for name in names if not has_name(name)] if names else ["nothing is named"]


def prose_of(page):
    """The text of a page without its blocks of code."""
    return FENCED.sub("", page.read_text())


def anchors_of(page):
    """The parts of a page that a link may name."""
    shown = LINK.sub(lambda found: found[0].partition("](")[0].lstrip("!["), prose_of(page))
    headings = re.findall(r"^#+ +(.+?) *#*$", shown, re.M)
    return {re.sub(r"[^\w\- ]", "", it.strip().lower()).replace(" ", "-") for it in headings}


def links_of(page):
    """The relative links of a page, which name no host, except those in code."""
    links = LINK.findall(SPAN.sub("", prose_of(page)))
    return {link for link in links if not re.match(r"[a-z][a-z0-9+.-]*:|//", link)}


def link_leads(page, link):
    """Whether a link of a page leads to a file, and to a heading of it if it names one."""
    path, _, part = link.partition("#")
    target = (page.parent / path) if path else page
    if not target.exists():
        return False
    return not part or target.suffix == ".md" and part in anchors_of(target)


def paths_of(page):
    """The paths in backquotes that begin with a folder of the top."""
    words = (word.rstrip(".,;:") for _, span in SPAN.findall(prose_of(page)) for word in span.split())
    words = (word.removeprefix("./") for word in words)
    path = re.compile(r"[\w./*{},-]+/[\w./*{},-]*")
    return {word for word in words if word.split("/")[0] in FOLDERS and path.fullmatch(word)}


def path_is_there(path):
    """Whether a path is there, or in a folder out, which the build makes. NAME stands for any name."""
    braces = re.search(r"\{([^}]*)\}", path)
    if braces:
        return all(path_is_there(path.replace(braces[0], it, 1)) for it in braces[1].split(","))
    return "out" in path.split("/") or any(TOP.glob(re.sub(r"\bNAME\b", "*", path.rstrip("/"))))


GRAMMAR = "crates/rl_session/specs/Grammar.antt"
# Each table of words in docs/RULES.md by its heading, with the definitions whose words it has.
WORD_TABLES = {
    "Words that begin a line": "Says",
    "Movements": "Names",
    "Names among the arguments": "NamesWord|NamesAt|NamesSearch|NamesAction|NamesMode",
}


def words_of(definitions):
    """The words that definitions of the grammar have."""
    return set(re.findall(rf'[:→] (?:{definitions}) \(codes "(\w+)"\)', (TOP / GRAMMAR).read_text()))


def words_under(page, heading):
    """The words that begin the rows under a heading."""
    section = re.split(r"\n#+ ", page.read_text().partition(f"\n### {heading}\n")[2])[0]
    return Counter(re.findall(r"^\| `(\w+)` \|", section, re.M))


def see_words(count, page):
    """Checks that each word of the grammar has one row, and each row a word."""
    for heading, definitions in WORD_TABLES.items():
        words, rows = words_of(definitions), words_under(page, heading)
        if not words:
            count.see(page, [f"{GRAMMAR} has no words for '{heading}'"])
        for word in sorted(words | set(rows)):
            faults = [] if word in words else [f"{heading}: {word} is no word of the grammar"]
            count.see(page, faults + ([] if rows[word] == 1 else [f"{heading}: {rows[word]} rows for {word}"]))


# How pages say the options that hold if nobody sets them.
SAID = {"ring_size": r"\ba ring of (\d+) (?:killed )?texts, and|\ba ring of (\d+)\n"}


def said_by(pattern, page):
    """The numbers that the page tells so, each once."""
    return {number for found in re.finditer(pattern, page.read_text()) for number in found.groups() if number}


# Where Python and Rust have what these tables name. C has it in the header: calls without their lodvarn_, and options.
LANGUAGES = {
    "Python": ("python/lodvarn/*.py", r"^ *(?:def |class |(?=\w+: .* = _option))(\w+)"),
    "Rust": ("rust/lodvarn/src/**/*.rs", r"\bpub (?:fn|struct) (\w+)"),
}
# A page, the head of a column, and its language.
CALL_TABLES = [("README.md", language, language) for language in ("C", *LANGUAGES)]
CALL_TABLES += [("python/README.md", "Calls of a `Session`", "Python")]
CALL_TABLES += [("rust/lodvarn/README.md", "Calls of a `Session`", "Rust")]


@cache
def named_in(language):
    """The names that a table of calls may have."""
    if language == "C":
        return {it.name.removeprefix("lodvarn_") for it in header.functions()} | {*header.defaults()}
    glob, pattern = LANGUAGES[language]
    return {name for file in TOP.glob(glob) for name in re.findall(pattern, file.read_text(), re.M)}


def faults_of_calls(language, cell):
    """What a cell names that is not there: in `session.group(reopen=True)` group, in `len(session)` len or __len__."""
    called = re.findall(r"(?:lodvarn_)?(\w+)(?:\([^`]*)?`", cell)
    return [f"{language} has no {it}" for it in called if not {it, f"__{it}__"} & named_in(language)]


def faults_of_keys(cell):
    """What a cell of a table of keys calls that C or Python has not: in `move chars_back(n)` chars_back."""
    called = re.findall(r"`(?:\w+ )?(\w+)\(", cell)
    return [f"{language} has no {it}" for it in called for language in ("C", "Python") if it not in named_in(language)]


# Where a type, a trait or an impl begins, and where a function does.
OWNER = re.compile(r"^(?:pub(?:\([a-z]+\))? )?(?:impl(?:<.*?>)? (?:.* for )?|trait |struct |enum )(\w+)")
FUNCTION = re.compile(r'^ *(?:pub(?:\([a-z]+\))? )?(?:extern "C" )?fn (\w+)')
CLAUSE = re.compile(r"\bensures\*? (\w+) \{")
DEFINITION = re.compile(r"^ *(?:abbrev |unfoldable )*pub (?:record |data )?(\S+)", re.M)
# Ghost members, which a contract of a listener has in place of clauses.
MEMBERS = {"step", "refused"}


class Contracts:
    """The functions and types of the crates with the clauses that stand there, and the definitions of specs/."""

    def __init__(self):
        self.clauses = {}
        self.definitions = set(MEMBERS)
        for source in TOP.glob("crates/*/src/**/*.rt"):
            self.read(source)
        for spec in TOP.glob("crates/*/specs/*.antt"):
            self.definitions |= set(DEFINITION.findall(spec.read_text()))

    def read(self, source):
        """Takes in a file of code. A name counts by itself and after each module or type that it stands in."""
        modules = source.relative_to(TOP / "crates").with_suffix("").parts
        owner = function = None
        for line in source.read_text().splitlines():
            if found := OWNER.match(line):
                owner, function = found[1], None
            elif line == "}":
                owner = None
            if found := FUNCTION.match(line):
                function = found[1]
            outer = [*modules, owner] if owner else [*modules]
            names = [f"{it}::{function}" for it in outer] + [function] if function else []
            for name in [*names, owner] if owner else names:
                self.clauses.setdefault(name, set()).update(CLAUSE.findall(line))

    def has(self, name):
        """Whether that is a function, a type or a definition; a way to it counts by its last two names."""
        return "::".join(name.split("::")[-2:]) in self.clauses or name in self.definitions


def names_in(words):
    """The names in backquotes. One without a type or a module is of that of the name before it, if any."""
    owner = ""
    for name in re.findall(r"`([\w:-]+)`", words):
        owner = name.rpartition("::")[0] or owner
        yield name, f"{owner}::{name}" if owner and "::" not in name else name


def faults_of_group(contracts, group):
    """What is not there of a group: functions and types, their clauses after a colon, and in brackets definitions."""
    plain = re.sub(r"\([^()]*\)", "", group)
    functions, _, clauses = plain.partition("`: ")
    clauses, _, others = clauses.partition(" the clause of ")
    if "` of each" in functions:
        functions, clauses = "", plain
    known = set() if functions else set().union(*contracts.clauses.values())
    missing = []
    for name, full in names_in(f"{functions}` {others}"):
        found = full if contracts.has(full) else name
        known |= contracts.clauses.get("::".join(found.split("::")[-2:]), set())
        missing += [] if contracts.has(found) else [name]
    cited = [name for inner in re.findall(r"\(([^()]*)\)", group) for name, _ in names_in(inner)]
    missing += [name for name in cited if not contracts.has(name)]
    return missing + [f"clause {name}" for name, _ in names_in(clauses) if name not in known]


def faults_of_contracts(contracts, cell):
    """What is not there of a cell of the column of contracts, whose groups are parted by ';'."""
    groups = re.split(r";(?![^(]*\))", cell)
    return [f"there is no {it}" for group in groups for it in faults_of_group(contracts, group)]


# Words that nobody searches for, and what to say for them. A space stands for any blanks.
DIALECT = {
    r"(?:went|came)(?! back)": "was removed, was inserted; removed text, new text",
    r"tell|tells|told|telling": "returns, writes, notifies, says",
    r"hears?|heard|hearing": "is notified of, gets",
    r"refus(?:e[sd]?|ing|als?)": "fails, returns an error",
    r"good until": "valid until",
    r"memory (?:that )?is out": "out of memory",
    r"(?<!in )places?": "byte offset, index",
    r"what was undone": "undone changes",
    r"parted|parts (?:what|nothing|no|it|them|the (?:next|record))": "undo boundary",
    r"mend(?:s|ed)?": "fix",
}
# The pages on proving, where the prover refuses a change.
REFUSING = ("CONTRIBUTING.md", "docs/PROVING.md", "docs/ARCHITECTURE.md")
# What is for readers in a file, and what is before it on each line.
DOCS = {
    ".md": (r".+", r""),
    ".h": (r"/\*.*?\*/", r"/\*|^ *\*"),
    ".py": (r'"""(?:.*?)"""', r""),
    ".rs": (r"^ *//[/!][^\n]*", r"^ *//[/!]"),
}
DOCUMENTED = ["include/lodvarn.h", "python/lodvarn/*.py", "rust/lodvarn/src/**/*.rs"]


def blanked(pattern, text):
    """The text with blanks for what matches, in which each line is where it was."""
    return pattern.sub(lambda found: re.sub(r"[^\n]", " ", found[0]), text)


def docs_of(file):
    """What a file says to its readers, without code, in which each line is where it was."""
    kept, before = (re.compile(it, re.M | re.S) for it in DOCS[file.suffix])
    text, words, at = file.read_text(), "", 0
    for found in kept.finditer(text):
        words += re.sub(r"[^\n]", " ", text[at : found.start()]) + found[0]
        at = found.end()
    for pattern in ([before] if before.pattern else []) + [FENCED, SPAN, TARGET]:
        words = blanked(pattern, words)
    return words


def see_dialect(count, file):
    """Looks for words of the dialect in what a file says to its readers."""
    words, hits = docs_of(file), []
    for pattern, better in DIALECT.items():
        if not (pattern.startswith("refus") and str(file.relative_to(TOP)) in REFUSING):
            pattern = rf"\b(?:{pattern})\b".replace(r"(?<!in )", r"(?<!\bin\s)").replace(" ", r"\s+")
            hits += [(words.count("\n", 0, it.start()) + 1, it[0], better) for it in re.finditer(pattern, words, re.I)]
    for line, word, better in sorted(hits):
        print(f"{file.relative_to(TOP)}:{line}: '{' '.join(word.split())}': better {better}")
    count.failed += len(hits)
    count.passed += not hits


# What Python and Rust call what C calls otherwise. The classes and variants of errors are named as the numbers of C.
OTHER_NAMES = {
    "Python": {"open": "__init__", "set_pos": "pos", "offset_at": "index_at", "map_offset": "map_index"},
    "Rust": {"load": "from_bytes", "save": "to_bytes", "move": "move_by", "type": "type_bytes"},
}
# What can't occur there, or is said once for all calls: texts, buffers, structs and numbers with types of their own.
SAID_ONCE = {"TOO_SMALL", "CLOSED", "BAD_SIZE", "NOT_UTF8", "NO_SUCH_NUMBER"}
# Errors that a call has in one language alone: of calls that share a comment, or a name; by another argument; or since
# it makes a text or a list.
OWN_ERRORS = {("C", "text", "BAD_OFFSET"), ("Python", "pos", "BAD_OFFSET"), ("Rust", "open", "BAD_OFFSET")}
MAKERS = ("close", "copy", "clusters", "rows", "movement_range", "movement_target")
OWN_ERRORS |= {("Rust", it, "NO_MEMORY") for it in MAKERS}
# The modules of the crate with the names of rustyline.
RUSTYLINE = ("line_buffer", "undo", "kill_ring", "keymap", "layout", "listeners")
RUST_CALL = re.compile(r"((?:^ *///[^\n]*\n)+)(?:^ *#\[[^\n]*\n)*^ *pub fn (\w+)", re.M)


def errors_in(words, names):
    """The errors that words name, as C does: NoRoom is NO_ROOM."""
    found = {re.sub(r"(?<=[a-z])(?=[A-Z0-9])", "_", it).upper() for it in re.findall(names, words)}
    found |= {"BAD_OFFSET"} if "BAD_INDEX" in found else set()
    return found & {it.removeprefix("LODVARN_") for it in header.enums()["lodvarn_answer"]}


def errors_of(language):
    """The errors that the docs of a language name, by the calls."""
    found = {}
    if language == "C":
        said = [(it.name.removeprefix("lodvarn_"), it.comment.partition("Errors")[2]) for it in header.functions()]
        return {name: errors_in(words.partition("\n\n")[0], r"\b[A-Z0-9_]{4,}\b") for name, words in said}
    if language == "Python":
        trees = [ast.parse(it.read_text()) for it in TOP.glob("python/lodvarn/*.py")]
        made = [it for tree in trees for it in ast.walk(tree) if isinstance(it, ast.FunctionDef)]
        said = [(it.name, ast.get_docstring(it) or "") for it in made]
        names = r"\b(\w+)Error\b"
    else:
        files = [it for it in TOP.glob("rust/lodvarn/src/*.rs") if it.stem not in RUSTYLINE]
        said = [(name, words) for it in files for words, name in RUST_CALL.findall(it.read_text())]
        said = [(name, words.partition("# Errors")[2].partition("///\n")[0]) for name, words in said]
        names = r"\bError::(\w+)"
    for name, words in said:
        found.setdefault(name, set()).update(errors_in(words, names))
    return found


def see_errors(count):
    """Checks that the docs of Python and Rust name the errors that the header names, each at the same call."""
    for language, others in OTHER_NAMES.items():
        found = errors_of(language)
        for call, errors in errors_of("C").items():
            name = others.get(call, call)
            if name in found:
                differ = errors ^ found[name]
                differ -= SAID_ONCE - (errors & {"NO_SUCH_NUMBER"} if language == "Python" else set())
                differ -= {error for who, it, error in OWN_ERRORS if who in ("C", language) and it == call}
                faults = [f"{'lacks' if it in errors else 'has besides'} {it}" for it in sorted(differ)]
                count.see(header.HEADER, [f"{call}: {language} {fault}" for fault in faults])


class Count:
    """How many of the things that are named are there, and how many are not."""

    def __init__(self):
        self.passed = self.failed = 0

    def see(self, page, faults):
        """Counts one thing, which is wrong where there are faults."""
        self.failed += bool(faults)
        self.passed += not faults
        for fault in faults:
            print(f"{page.relative_to(TOP)}: {fault}")

    def see_all(self, page, kind, names, is_there):
        """Counts the names of one kind on a page."""
        for name in sorted(names):
            self.see(page, [] if is_there(name) else [f"there is no {kind} {name}"])


def see_page(count, page, calls, crates):
    """Looks for all that a page names."""
    count.see_all(page, "target of the link", links_of(page), lambda link: link_leads(page, link))
    count.see_all(page, "path", paths_of(page), path_is_there)
    count.see_all(page, "call", set(CALL.findall(page.read_text())), calls.__contains__)
    count.see_all(page, "crate", set(CRATE.findall(page.read_text())), crates.__contains__)
    for option, pattern in SAID.items():
        count.see_all(page, option, said_by(pattern, page), header.defaults()[option].__eq__)
    prose = prose_of(page).splitlines()
    wide = [line for line in prose if len(line) > WIDTH and not line.startswith(("|", "    ", "!["))]
    count.see(page, [f"too wide: {line[:60]}.." for line in wide])


def see_lengths(count):
    """Looks how many lines README.md has, and all pages together."""
    lengths = {page: len(page.read_text().splitlines()) for page in PAGES}
    readme = TOP / "README.md"
    for what, lines in zip(MOST, (lengths[readme], sum(lengths.values()))):
        count.see(readme, [f"{what}: {lines} lines"] if lines > MOST[what] else [])


def main():
    words = argparse.ArgumentParser(description=__doc__.splitlines()[0])
    words.add_argument("--bodies", action="store_true", help="only print the table of the edits that must fail")
    if words.parse_args().bodies:
        print("| Crate | File | Wrong body |", "|---|---|---|", *bodies(), sep="\n")
        return 0
    count = Count()
    see_column(count, TOP / "docs/PROVING.md", "Found by", faults_of_tests)
    see_column(count, TOP / "docs/PROMISES.md", "Contract", partial(faults_of_contracts, Contracts()))
    see_words(count, TOP / "docs/RULES.md")
    for page, head, language in CALL_TABLES:
        see_column(count, TOP / page, head, partial(faults_of_calls, language))
    see_column(count, TOP / "docs/GUIDE.md", "In C and Python", faults_of_keys)
    calls = VARIABLES | header.names() | {header.HEADER.stem}
    crates = set(re.findall(r"^(\w+)", (TOP / "crates.txt").read_text(), re.M))
    crates |= set(CRATE.findall((TOP / "rust/lodvarn-c/src/handles.rs").read_text()))
    for page in PAGES:
        see_page(count, page, calls, crates)
    see_errors(count)
    for file in PAGES + sorted(it for glob in DOCUMENTED for it in TOP.glob(glob)):
        see_dialect(count, file)
    see_lengths(count)
    print(f"{count.passed} passed, {count.failed} failed")
    return 1 if count.failed else 0


if __name__ == "__main__":
    sys.exit(main())
