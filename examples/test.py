#!/usr/bin/env python3
"""Tests the programs in the folders beside this file: keys go in, and what they show is compared.

    python3 examples/test.py [NAME..]    tests those of these folders, or all of them

Those in C and in Rust are built, over the library in the folder that LODVARN_PREFIX names, if the environment has that;
the module for Python must be. Its last line is 'N passed, M failed'.
"""

import os
import select
import shlex
import signal
import subprocess
import sys
import unicodedata
from pathlib import Path

HERE = Path(__file__).resolve().parent
sys.path.insert(0, str(HERE.parent / "tests"))

from programs import built  # noqa: E402
from terminal import PATIENCE, PAUSED, SCREEN_SHOWN, await_that, editing, keys  # noqa: E402

PYTHON = Path(sys.executable)
# What runs in the terminal, where ./edit is the program: m has the modes of before.
COMMAND = "export m=$(stty -g); ./edit {}; echo ended $?; [ $m = $(stty -g) ] && echo as before; exec cat"
FAMILY, DIGITS = "\U0001f468\u200d\U0001f469\u200d\U0001f467", "0123456789"
ENTER, ESC, UP, TAB = keys("Enter"), "\x1b", keys("Up"), keys("Tab")

# The editor without a terminal: keys, and the text that they leave.
KEYS_CASES = [
    ("hello C-b C-b x C-a y C-f z C-e !", "yhzelxlo!|"),
    ("one SPC two M-b M-b M-f !", "one!| two"),
    ("ab M-RET cd M-< x M-> y", "xab\ncdy|"),
    ("abcd C-b C-b C-d DEL", "a|d"),
    ("one SPC two SPC three M-b C-k C-a M-d C-e C-y", " two one|"),
    ("a SPC b,c C-w", "a |"),
    ("a SPC b,c M-DEL", "a b,|"),
    ("one SPC two M-b C-u C-k C-y C-y", "one twoone two|"),
    ("ab C-w cd C-w C-y M-y", "ab|"),
    ("ab C-w cd C-w C-y M-y C-_", "|"),
    ("ab C-t", "ba|"),
    ("ab C-t C-_", "ab|"),
    ("one SPC two M-t", "two one|"),
    ("one SPC two M-t C-_", "one two|"),
    ("oNE SPC tWO SPC thREE M-< M-c M-l M-u", "One two THREE|"),
    ("oNE SPC tWO SPC thREE M-< M-c M-l M-u C-_", "One two| thREE"),
    ("one SPC zwölf,日本 C-_", "one zwölf|"),
    ("ab C-_ M-_", "ab|"),
    ("ab C-_ c C-_ C-_", "ab|"),
    ("日本語 C-a C-]語 x", "日本x|語"),
    ("abab C-a C-]a C-]a", "ab|ab"),
    ("a M-RET b M-< C-]b", "|a\nb"),
    ("abcdefghijklmnopqrstuvwxyz", "(LODVARN_NO_ROOM) abcdefghijklmnopqrstuvwx|"),
    ('"ab RET C-y', "accepted ab|, and then |"),
]

# The prompt. The files in the folder n: no control characters and no bytes that are no UTF-8 go into a line.
NAMES = [".hid", "a\x1b", "a b", "a\u009b", "c/d", os.fsdecode(b"c\xff")]
FORTY, ONES = "\r".join(f": {n}" for n in range(40)), [": 1", ENTER, ": 31", ENTER, ": 2", ENTER, "1"]
# A prompt in the prompt, whose session the file k keeps, and another that goes on with it.
FIRST, NEXT = [": a b", keys("C-w C-a C-k C-d"), PAUSED], [keys("C-_ C-_ C-y"), ENTER, keys("C-d")]
KEPT = ["./edit k", ENTER, *FIRST, "./edit k", ENTER, *NEXT]
# What is shown, what is sent, the last rows that this leads to, the cursor's column, and whether the bell rings.
PROMPT_CASES = [
    ("a command", ["echo one", ENTER], ["$ echo one", "one", "$"], 2),
    ("moves", ["bd", keys("C-a"), "a", keys("C-f"), "c", keys("C-e"), "e", keys("C-b BSpace")], ["$ abce"], 5),
    ("words", ["one two three", keys("M-b M-b M-d C-y M-f"), "x", keys("C-a C-d")], ["$ ne two threex"], 2),
    ("kills in a row are one", ["one two three", keys("M-b C-k C-w C-w C-y")], ["$ one two three"], 15),
    ("a yank is popped", ["one two", keys("C-w C-b C-u C-y M-y")], ["$ two"], 5),
    ("an undo takes back what was typed", ["one ", keys("C-a C-e"), "zwölf elf", keys("C-_")], ["$ one"], 6),
    ("which no edit loses", ["one", keys("C-a C-e"), " two", keys("C-_"), "x", keys("C-_ C-_")], ["$ one two"], 9),
    ("a name is quoted", ["test -f n/", TAB, "; echo $?", ENTER], ["$ test -f n/a\\ b; echo $?", "0", "$"], 2),
    ("the first again", [": n/", TAB, ENTER, ": n/", TAB * 2, ENTER, ": n/", TAB * 3], ["$ : n/c/", "$ : n/a\\ b"], 10),
    ("a try is dropped", [": n/", TAB * 2, keys("C-g"), "c", TAB], ["$ : n/c/"], 8),
    ("or kept, and undone at once", [": n/", TAB * 2, "d", keys("C-_ C-_")], ["$ : n/"], 6),
    ("a quoted word and a folder go on", [": <n/a\\ ", TAB, " n/c/", TAB], ["$ : <n/a\\ b n/c/d"], 17),
    ("a hidden name", [":|n/.h", TAB], ["$ :|n/.hid"], 10),
    ("a name that fits", ["x" * 4090 + " n/", TAB], ["$ " + "x" * 47 + " n/c/"], 54),
    ("no name", ["n/e", TAB, "f"], ["$ n/ef"], 6, True),
    ("the ring of the line before", [": a b", keys("C-w"), ENTER, keys("C-y")], ["$ : a", "$ b"], 3),
    ("the ring and the record of the run before", KEPT, ["$ : a b: a", "$", "$"], 2),
    ("an undo stays in a line of before", [": one", ENTER, "two", UP, keys("C-_")], ["$ : one", "$ : one"], 7, True),
    ("what was typed comes back", [": one", ENTER, "two", keys("C-p Down")], ["$ : one", "$ two"], 5),
    ("the newest lines are kept", [FORTY, ENTER] + [UP] * 40 + [keys("C-n")], ["$ : 39", "$ : 10"], 6, True),
    ("a line that has what was typed", [*ONES, keys("C-r")], ["$ : 2", "$ : 31"], 6),
    ("and an older one", [*ONES, keys("C-r C-r")], ["$ : 2", "$ : 1"], 5),
    ("and what was typed", [*ONES, keys("C-r C-r C-n C-n C-n")], ["$ : 2", "$ 1"], 3),
    ("no line that has it", [*ONES, "1", keys("C-r")], ["$ : 2", "$ 11"], 4, True),
    ("a line is dropped", ["echo no", keys("C-c"), "echo yes", ENTER], ["$ echo no", "$ echo yes", "yes", "$"], 2),
    ("wide characters", ["echo 日本語", keys("C-b C-b"), "é"], ["$ echo 日é本語"], 10),
    ("a long line slides", [DIGITS * 7], ["$ 89" + DIGITS * 5], 54),
    ("back to its start", [DIGITS * 7, keys("C-a")], ["$ " + DIGITS * 5 + "0123456"], 2),
    ("no key and no UTF-8", [b"ec\xc3ho\x00 \xc1\x81\xff\x80\x1b[15~\x1b\x1bOPx\r"], ["$ echo x", "x", "$"], 2, True),
    ("a text as long as may be", ["x" * 4095, "yz"], ["$ " + "x" * 51 + "y"], 54, True),
    ("a row that is not ended", ["printf abc", ENTER], ["$ printf abc", "abc", "$"], 2),
    ("modes for commands", ["[ $m = $(stty -g) ]; echo $?", ENTER], ["$ [ $m = $(stty -g) ]; echo $?", "0", "$"], 2),
    ("C-c ends a command alone", ["sleep 60\r", PAUSED, keys("C-c"), PAUSED, ": on", ENTER], ["^C", "$ : on", "$"], 2),
    ("modes after the end", [keys("C-d")], ["$", "ended 0", "as before"], 0),
    ("modes after a hang-up", [signal.SIGHUP], ["$ ended 129", "as before"], 0),
]

# The modal editor, on a screen of 20 columns and 6 rows.
TWO, THREE, LETTERS = "one two\n  three four", "  three four", "\n".join("abcdefgh")
INSERT, VISUAL, REDO, DEL = "-- INSERT --", "-- VISUAL --", "\x12", "\x7f"
# What is shown, the text that is edited, what is sent, the rows and the cursor that this leads to, and whether the bell
# rings. A pair among what is sent is a size of the terminal.
MODAL_CASES = [
    ("the start of a line", TWO, ["$0"], ["one two", THREE], (0, 0)),
    ("the first that is no blank", TWO, ["j^"], ["one two", THREE], (1, 2)),
    ("words", TWO, ["www"], ["one two", THREE], (1, 8)),
    ("after the last word", TWO, ["wwww"], ["one two", THREE], (1, 11)),
    ("words back", TWO, ["wwwb"], ["one two", THREE], (1, 2)),
    ("lines", TWO, ["ljhk"], ["one two", THREE], (0, 0)),
    ("what i types", TWO, ["w", "inew "], ["one new two", THREE, "", "", "", INSERT], (0, 8)),
    ("what ESC ends", TWO, ["winew " + ESC], ["one new two", THREE], (0, 7)),
    ("what a types", TWO, ["$as" + ESC], ["one twos", THREE], (0, 7)),
    ("a line that is begun", TWO, ["wi\rx" + ESC], ["one", "xtwo", THREE], (1, 0)),
    ("one undo of what was typed", TWO, ["ia b" + DEL + "c" + ESC, "u"], ["one two", THREE], (0, 0)),
    ("and its redo", TWO, ["ia b" + DEL + "c" + ESC, "u", REDO], ["a cone two", THREE], (0, 3)),
    ("the last of a line", TWO, ["$x"], ["one tw", THREE], (0, 5)),
    ("one undo of one key", TWO, ["xxu"], ["ne two", THREE], (0, 0)),
    ("two are exchanged", TWO, ["xp"], ["noe two", THREE], (0, 1)),
    ("each is put by itself", TWO, ["xxp"], ["en two", THREE], (0, 1)),
    ("a word that is put elsewhere", TWO, ["dwp"], ["tone wo", THREE], (0, 4)),
    ("the last word of a line", TWO, ["wdw"], ["one", THREE], (0, 3)),
    ("and of the text", TWO, ["wwwdw"], ["one two", "  three"], (1, 7)),
    ("a word back", TWO, ["wdb"], ["two", THREE], (0, 0)),
    ("to the end of the line", TWO, ["wd$"], ["one", THREE], (0, 3)),
    ("to its start", TWO, ["wd0"], ["two", THREE], (0, 0)),
    ("to the first that is no blank", TWO, ["jd^"], ["one two", "three four"], (1, 0)),
    ("to a character", TWO, ["fwx"], ["one to", THREE], (0, 5)),
    ("a mark goes with its text", TWO, ["wlma0", "ixy " + ESC, "`ax"], ["xy one to", THREE], (0, 8)),
    ("and back by an undo", TWO, ["wlma0", "ixy " + ESC, "u`ax"], ["one to", THREE], (0, 5)),
    ("a cluster to both sides", TWO, ["llldhdl"], ["ontwo", THREE], (0, 2)),
    ("a selection", TWO, ["vw"], ["one two", THREE, "", "", "", VISUAL], (0, 4)),
    ("is killed", TWO, ["vwd"], ["wo", THREE], (0, 0)),
    ("from its end as well", TWO, ["wvbx"], ["wo", THREE], (0, 0)),
    ("over two lines", TWO, ["vjd"], [" three four"], (0, 0)),
    ("and put", TWO, ["vjdup"], ["one two", " one two", THREE], (2, 0)),
    ("is kept", TWO, ["vly$p"], ["one twoon", THREE], (0, 8)),
    ("is dropped", TWO, ["vw" + ESC + "x"], ["one wo", THREE], (0, 4)),
    ("an empty text", "", ["ia" + ESC], ["a"], (0, 0)),
    ("wide characters", "日本", ["lx"], ["日"], (0, 0)),
    ("a family of emoji", f"x{FAMILY}y", ["lx"], ["xy"], (0, 1)),
    ("a tab", "a\tb", ["$"], ["a       b"], (0, 8)),
    ("no other control character", "a\x01b\x9b", ["i\x02\x1b[Ac" + ESC], ["cab"], (0, 0)),
    ("a line that is wrapped", DIGITS * 3, ["$"], [DIGITS * 2, DIGITS], (1, 9)),
    ("a row that is full", "x" * 20, ["a" + "y" * 20, ESC], ["x" + "y" * 19, "y" + "x" * 19], (1, 0)),
    ("a text that is longer than the screen", LETTERS, ["jjjjjjj"], list("defgh"), (4, 0)),
    ("and its start again", LETTERS, ["jjjjjjjkkkkkkk"], list("abcde"), (0, 0)),
    ("a narrower terminal", DIGITS * 3, ["$", (10, 6)], [DIGITS] * 3, (2, 9)),
    ("nothing before a line", TWO, ["jhx"], ["one two", " three four"], (1, 0), True),
    ("nothing to put", TWO, ["p"], ["one two", THREE], (0, 0), True),
    ("nothing to undo", TWO, ["u"], ["one two", THREE], (0, 0), True),
    ("nothing to redo", TWO, [REDO], ["one two", THREE], (0, 0), True),
    ("no line after the last", TWO, ["jj"], ["one two", THREE], (1, 0), True),
    ("no such key", TWO, ["z"], ["one two", THREE], (0, 0), True),
    ("no such motion", TWO, ["dz"], ["one two", THREE], (0, 0), True),
    ("a text that is found", TWO, ["/o\rx"], ["one tw", THREE], (0, 5)),
    ("after the end from the start", TWO, ["w/one\rx"], ["ne two", THREE], (0, 0)),
    ("a wide text", "日a本", ["/本", DEL, "a本\rx"], ["日本"], (0, 2)),
    ("what is looked for", TWO, ["/tx" + DEL], ["one two", THREE, "", "", "", "/t"], (0, 0)),
    ("is given up", TWO, ["/two" + ESC + "x"], ["ne two", THREE], (0, 0)),
    ("no such text", TWO, ["/z\r"], ["one two", THREE], (0, 0), True),
    ("no such character in the line", TWO, ["fh"], ["one two", THREE], (0, 0), True),
    ("no character at all", TWO, ["f\x1b[A"], ["one two", THREE], (0, 0), True),
    ("no such mark", TWO, ["wmab`b"], ["one two", THREE], (0, 0), True),
    ("no lines by a motion", TWO, ["dj"], ["one two", THREE], (0, 0), True),
    ("no word of the line before", TWO, ["jdb"], ["one two", THREE], (1, 0), True),
    ("no last newline", "", ["xvd"], [], (0, 0), True),
    ("the text is printed", TWO, ["x\r"], ["ne two", THREE, "ended 0", "as before"], 0),
    ("nothing is printed", TWO, ["x\x03"], ["ended 0", "as before"], 0),
    ("an end while it types", TWO, ["ix", PAUSED, signal.SIGTERM], ["ended 143", "as before"], 0),
]

# The calculator.
UNKNOWN = "error: only numbers, + - * / // % ** and parentheses are known"
CALCULATOR_CASES = [
    ("arithmetic", ["2*(3+4)**2-7//2\r", keys("C-_")], ["> 2*(3+4)**2-7//2", "95", ">"], 2, True),
    ("errors", ["1/0\r9**999\r"], ["> 1/0", "error: division by zero", "> 9**999", "error: math range error", ">"], 2),
    ("no number", ["True\r \r"], ["> True", UNKNOWN, ">", ">"], 2),
    ("moves", ["2", keys("Home"), "12", keys("C-b Left C-f"), "+", keys("End"), "4"], ["> 1+224"], 7),
    ("words", ["10 20 30", keys("M-b M-b M-f"), "5", keys("C-a Right")], ["> 10 205 30"], 3),
    ("deletions", ["123", keys("BSpace C-b C-d")], ["> 1"], 3),
    ("a kill is yanked", ["1+2", keys("C-a C-k C-y C-y")], ["> 1+21+2"], 8),
    ("a yank is popped", ["10 20", keys("C-w C-a C-k C-y M-y")], ["> 20"], 4),
    ("other kills", ["12 34", keys("C-a M-d C-e C-u C-y")], [">  34"], 5),
    ("exchanges, each one undo", ["12 34", keys("M-t C-_ C-t")], ["> 12 43"], 7),
    ("letter case", ["ab cd", keys("C-a M-u M-c")], ["> AB Cd"], 7),
    ("an undo", ["1+2", keys("C-_")], ["> 1"], 3),
    ("a redo", ["1+2", keys("C-_ M-_"), "3"], ["> 1+23"], 6),
    ("a line of before", ["1\r2\r", keys("Up Up C-_")], ["> 1", "1", "> 2", "2", "> 1"], 3, True),
    ("and what was typed", ["1\r3", UP, "0", keys("Down"), "4"], ["> 1", "1", "> 34"], 4),
    ("the ring of the line before", ["12", keys("C-u"), "3\r", keys("C-y")], ["> 3", "3", "> 12"], 4),
    ("a line is dropped", ["12", keys("C-c"), "3\r"], ["> 12", "> 3", "3", ">"], 2),
    ("wide characters", ["日本", keys("Left")], ["> 日本"], 4),
    ("a character in two reads", [b"1\xe6\x97", PAUSED, b"\xa5"], ["> 1日"], 5),
    ("half a character", [b"1\xe6\x97", PAUSED, keys("C-a"), "2"], ["> 21"], 3, True),
    ("no UTF-8, and a control character in it", [b"1\xff2\xc2\x9b3"], ["> 123"], 5, True),
    ("a family of emoji", [f"x{FAMILY}y", keys("Left BSpace")], ["> xy"], 3),
    ("a long line slides", [DIGITS * 8], ["> 89" + DIGITS * 6], 64),
    ("back to its start", [DIGITS * 8, keys("C-a")], ["> " + DIGITS * 6 + "0123456"], 2),
    ("a wider terminal", [DIGITS * 8, (90, 20)], ["> " + DIGITS * 8], 82),
    ("no more than it evaluates", ["1" * 1000 + "2"], ["> " + "1" * 62], 64, True),
    ("the end", ["1", keys("C-c"), PAUSED, keys("C-d")], ["> 1", ">", "ended 0", "as before"], 0),
    ("an end by a signal", ["1", PAUSED, signal.SIGTERM], ["> 1", "ended 143", "as before"], 0),
]
LINES = b"1+2\n \n2**100\n1 # \xff\nTrue\n" + b"1+" * 500 + b"1\n"
ANSWERS = f"3\n\n1267650600228229401496703205376\n1\n{UNKNOWN}\nerror: more than 1000 characters\n"

# The form field: in each of these the keys, and what it answers to each, worked out by hand.
FIELD_CASES = [
    ("the cursor is always seen", [
        ("type one two", "[one two   ] 7"), ("type  three", "[two three ] 9"), ("paste ,\\nx", "[o three,x ] 9"),
        ("word-left", "[o three,x ] 8"), ("word-left", "[o three,x ] 2"), ("word-left", "[two three,] 0"),
        ("kill-word", "[two three,] 0"), ("end", "[o three,x ] 9"), ("backspace", "[wo three, ] 9"),
        ("home", "[two three,] 0"), ("word-right", "[two three,] 3"), ("right", "[two three,] 4"),
        ("delete", "[two hree, ] 4"), ("left", "[two hree, ] 3"),
    ]),
    ("wide characters are shown whole", [
        ("paste 日本語文字", "[本語文字  ] 8"), ("left", "[本語文字  ] 6"), ("home", "[日本語文字] 0"), ("end", "[本語文字  ] 8"),
        ("backspace", "[日本語文  ] 8"), ("type x", "[日本語文x ] 9"),
    ]),
    ("and at both ends", [
        ("type 12345678.", "[12345678. ] 9"), ("paste 漢", "[345678.漢 ] 9"), ("home", "[12345678. ] 0"),
        ("word-right", "[12345678. ] 8"), ("right", "[2345678.漢] 8"),
    ]),
    ("no more goes in than there is room for", [
        ("type 0123456789abcde", "[6789abcde ] 9"), ("paste e\u0301", "[6789abcde ] 9"),
        ("backspace", "[56789abcd ] 9"), ("backspace", "[456789abc ] 9"), ("paste e\u0301f", "[56789abce\u0301 ] 9"),
        ("type f", "[56789abce\u0301 ] 9"),
    ]),
    ("what is selected gives way and is selected again", [
        ("type one two", "[one two   ] 7"), ("select-word-left", "[one two   ] 4 two"),
        ("type zwölf", "[one zwölf ] 9"), ("undo", "[one two   ] 7 two"), ("redo", "[one zwölf ] 9 zwölf"),
        ("left", "[one zwölf ] 8"), ("select-home", "[one zwölf ] 0 one zwöl"),
        ("paste 0123456789abcdefgh", "[6789abcdef] 9"), ("select-jump", "no such key: select-jump"),
    ]),
    ("a saved text is known again", [
        ("type one", "[one       ] 3"), ("save", "[one       ] 3*"), ("type s", "[ones      ] 4"),
        ("undo", "[one       ] 3*"), ("undo", "[          ] 0"), ("redo", "[one       ] 3*"),
        ("backspace", "[on        ] 2"), ("type e", "[one       ] 3"),
    ]),
    ("an undo takes back a paste or a word", [
        ("type one two", "[one two   ] 7"), ("paste \\n1 2\\n3", "[e two1 23 ] 9"), ("undo", "[one two   ] 7"),
        ("undo", "[one       ] 3"), ("redo", "[one two   ] 7"), ("kill-word", "[one       ] 4"),
        ("undo", "[one two   ] 7"), ("jump", "no such key: jump"), ("", "no such key: "),
    ]),
]


def run_case(terminal, what, given, rows, cursor, rings=False):
    """Whether what is sent leads to these last rows, to the cursor or its column, and to the bell if it rings."""

    def look():
        seen, (row, column) = terminal.screen()
        return seen[-len(rows) :], column if isinstance(cursor, int) else (row, column), terminal.rang()

    for one in given:
        terminal.send(one.encode() if isinstance(one, str) else one)
        if one is ENTER:
            await_that(terminal.screen, lambda seen: seen[0][-1:] == ["$"])
    wanted = rows, cursor, rings
    seen = await_that(look, wanted.__eq__)
    if seen != wanted:
        print(f"FAILED: {what}\n  wanted {wanted}\n  saw {seen}")
    return seen == wanted


def run_keys(program):
    """Whether each list of keys leads to its text."""
    for given, text in KEYS_CASES:
        wide = sum(unicodedata.east_asian_width(c) == "W" for c in given)
        wanted = f"{given:<{max(24 - wide, len(given) + 1)}}{text}\n"
        shown = subprocess.run([program], input=given, stdout=subprocess.PIPE, text=True, timeout=PATIENCE).stdout
        if shown != wanted:
            print(f"FAILED: wanted {wanted!r}\n  saw {shown!r}")
        yield shown == wanted


def run_prompt(program):
    """The outcomes of the prompt."""
    for case in PROMPT_CASES:
        with editing(program, command=COMMAND.format("")) as terminal:
            (terminal.path / "n/c").mkdir(parents=True)
            for name in NAMES:
                (terminal.path / "n" / name).touch()
            yield run_case(terminal, *case)
    yield run_gone(program)


def run_gone(program):
    """Whether the prompt ends where its terminal is gone, though no signal tells it so."""
    master, slave = os.openpty()
    prompt = subprocess.Popen([program], stdin=slave, stdout=slave)
    os.close(slave)
    select.select([master], [], [], PATIENCE)
    os.close(master)
    status = await_that(prompt.poll, lambda status: status is not None)
    prompt.kill()
    if status != 0:
        print(f"FAILED: the terminal is gone, and the status is {status}")
    return status == 0


def run_modal(_):
    """The outcomes of the modal editor. What it shows in reverse is in its picture."""
    for what, text, *case in MODAL_CASES:
        command = COMMAND.format(shlex.join([str(HERE / "modal/modal.py"), text]))
        with editing(PYTHON, 20, 6, command, SCREEN_SHOWN) as terminal:
            yield run_case(terminal, what, *case)


def run_calculator(_):
    """The outcomes of the calculator, and whether it answers the lines of a pipe."""
    program = HERE / "calculator/calculator.py"
    for case in CALCULATOR_CASES:
        with editing(PYTHON, 70, 20, COMMAND.format(shlex.quote(str(program)))) as terminal:
            yield run_case(terminal, *case)
    answers = subprocess.run([PYTHON, program], input=LINES, stdout=subprocess.PIPE, timeout=PATIENCE).stdout
    if answers != ANSWERS.encode():
        print(f"FAILED: a pipe, wanted {ANSWERS!r}, saw {answers!r}")
    yield answers == ANSWERS.encode()


def run_form_field(program):
    """Whether the form field answers as it should, in each case."""
    for what, rows in FIELD_CASES:
        given = "".join(f"{key}\n" for key, _ in rows)
        wanted = "".join(f"{answer}\n" for _, answer in rows)
        answers = subprocess.run([program], input=given, stdout=subprocess.PIPE, text=True, timeout=PATIENCE).stdout
        if answers != wanted:
            print(f"FAILED: {what}\n  wanted {wanted!r}\n  saw {answers!r}")
        yield answers == wanted


def main():
    runs = {"keys": run_keys, "prompt": run_prompt, "modal": run_modal, "calculator": run_calculator}
    runs["form_field"] = run_form_field
    names = sys.argv[1:] or [*runs]
    os.environ["PYTHONPATH"] = os.pathsep.join([str(HERE.parent / "python"), str(HERE)])
    with built(*{"keys", "prompt", "form_field"}.intersection(names)) as programs:
        outcomes = [outcome for name in names for outcome in runs[name](programs.get(name))]
    print(f"{outcomes.count(True)} passed, {outcomes.count(False)} failed")
    return 0 if all(outcomes) else 1


if __name__ == "__main__":
    sys.exit(main())
