"""Programs in a terminal of their own, by tmux: keys go in, and the screen and the cursor's place are seen."""

import os
import signal
import subprocess
import tempfile
import time
from contextlib import contextmanager
from pathlib import Path

COLUMNS, ROWS = 60, 20
# How long a screen may take to show, in seconds. A program waits less than PAUSE for the rest of a key.
PATIENCE, PAUSE = 60, 0.5
# What is sent is a text, bytes, a list of keys by tmux's names, a paste, a signal, a size for the terminal, or this.
PAUSED = object()


class Paste(str):
    """A text that the terminal puts between marks, where the program asked for these."""


def keys(names):
    return names.split()


# What runs in a terminal, in a folder where ./edit is the editor: it alone, or a shell.
EDITOR, SHELL = "./edit; echo ended $?; exec cat", "PS1='$ ' ENV= exec sh -i"
# What a terminal tells of a program that has begun, with a prompt of two columns, or with a screen of its own.
PROMPT_SHOWN, SCREEN_SHOWN = "0 2", "1 0"


class Terminal:
    """A terminal of its own, on a socket in a folder of its own."""

    def __init__(self, program, columns, rows, command):
        self.folder = tempfile.TemporaryDirectory(prefix="lodvarn-")
        self.path = Path(self.folder.name)
        environment = {**os.environ, "LC_ALL": "C.UTF-8"}
        environment.pop("TMUX", None)
        self.environment = environment
        editor = self.path / "edit"
        editor.write_text(f"#!/bin/sh\necho $$ > pid\nexec '{program}' \"$@\"\n")
        editor.chmod(0o755)
        size = ["-x", str(columns), "-y", str(rows)]
        self.tmux("new-session", "-d", *size, "-s", "edit", "-c", str(self.path), command)

    def tmux(self, *words):
        ran = subprocess.run(
            ["tmux", "-u", "-S", str(self.path / "socket"), "-f", "/dev/null", *words],
            env=self.environment,
            capture_output=True,
            text=True,
            timeout=PATIENCE,
        )
        if ran.returncode != 0:
            raise RuntimeError(f"tmux {words[0]}: {ran.stderr.strip()}")
        return ran.stdout

    def send(self, given):
        if given is PAUSED:
            time.sleep(PAUSE)
        elif isinstance(given, Paste):
            (self.path / "pasted").write_text(given)
            self.tmux("load-buffer", str(self.path / "pasted"))
            self.tmux("paste-buffer", "-p", "-t", "edit")
        elif isinstance(given, signal.Signals):
            os.kill(int((self.path / "pid").read_text()), given)
        elif isinstance(given, tuple):
            self.tmux("resize-window", "-t", "edit", "-x", str(given[0]), "-y", str(given[1]))
        elif isinstance(given, bytes):
            self.tmux("send-keys", "-t", "edit", "-H", *(f"{byte:02x}" for byte in given))
        elif isinstance(given, list):
            self.tmux("send-keys", "-t", "edit", *given)
        else:
            self.tmux("send-keys", "-t", "edit", "-l", "--", given)

    def told(self, what):
        """What tmux tells of the terminal."""
        return self.tmux("display", "-p", "-t", "edit", what).strip()

    def screen(self):
        """The rows, without the empty ones at the end, and the cursor's row and column."""
        rows = [row.rstrip() for row in self.tmux("capture-pane", "-p", "-t", "edit").split("\n")]
        while rows and not rows[-1]:
            rows.pop()
        row, column = self.told("#{cursor_y} #{cursor_x}").split()
        return rows, (int(row), int(column))

    def scrollback(self):
        """How many rows the terminal keeps above its screen."""
        return int(self.told("#{history_size}"))

    def rang(self):
        """Whether the bell rang."""
        return self.told("#{window_bell_flag}") == "1"

    def begin_count(self):
        """From now on counts the bytes that the editor writes."""
        self.written = self.path / "written"
        self.written.touch()
        self.tmux("pipe-pane", "-t", "edit", f"exec cat >> '{self.written}'")

    def size(self):
        """The bytes that came so far."""
        return self.written.stat().st_size

    def count(self):
        """The bytes that were written, once no more come."""
        seen, now = None, self.size()
        while seen != now:
            time.sleep(PAUSE / 4)
            seen, now = now, self.size()
        return now

    def close(self):
        self.tmux("kill-server")
        self.folder.cleanup()


def await_that(look, is_wanted, patience=PATIENCE):
    """Looks until what is seen is wanted, or patience ends. Returns what was seen last."""
    end = time.monotonic() + patience
    while True:
        seen = look()
        if is_wanted(seen) or time.monotonic() > end:
            return seen
        time.sleep(0.02)


@contextmanager
def editing(program, columns=COLUMNS, rows=ROWS, command=EDITOR, begun=PROMPT_SHOWN):
    """A terminal in which a program, or a shell, has begun."""
    terminal = Terminal(program, columns, rows, command)
    try:
        await_that(lambda: terminal.told("#{alternate_on} #{cursor_x}"), begun.__eq__)
        yield terminal
    finally:
        terminal.close()
