"""The package as others get it, of the release in the folder that LODVARN_RELEASE names: a source distribution, the
wheel that was made of it, and its use by nothing else.
"""

import os
import platform
import re
import subprocess
import sys
import tarfile
import tempfile
import unittest
from email import message_from_string
from pathlib import Path
from zipfile import ZipFile

# This first, so that it is the one on the path, not that of the sources.
import lodvarn
from shared import PACKAGE, TOP, main

import setup

NAME, MACHINE = f"lodvarn-{lodvarn.__version__}", platform.machine()
OLDEST = f"manylinux_2_17_{MACHINE}.manylinux2014_{MACHINE}"
INFO = [f"{NAME}.dist-info/{it}" for it in ("METADATA", *setup.LICENSES, "RECORD", "WHEEL", "top_level.txt")]
SOURCES = sorted(it.name for it in PACKAGE.glob("*.py"))
NAMES = [f"lodvarn/{it}" for it in (*SOURCES, "_lodvarn.abi3.so", "_lodvarn.pyi", "py.typed")]
MODULE = NAMES[-3]
# Edits a line, and says which files of a library for C are there.
EDIT = """
import lodvarn
with lodvarn.Session("one two") as session:
    session.kill(lodvarn.Movement.words_back(lodvarn.Word.EMACS))
    session.yank(2)
    print(session, session.pos, lodvarn.__file__)
print({it.split()[-1] for it in open("/proc/self/maps") if "liblodvarn" in it})
"""
TYPED = """
import lodvarn
class Own(lodvarn.Session):
    note = 1
with Own("one") as session:
    note: int = session.note + session.line_count + session.type(b"a") + session.cursor_position.line
    found: lodvarn.Range = session.find("o", 0) or (0, 0)
    text: str = session.pos
    session.insrt("a")
"""
# A module, the options of its link, and the tag that its needs lead to, or none.
NEEDS = [
    ("#include <stdlib.h>\nvoid *f(void) { return malloc(1); }", "", OLDEST),
    ("#include <pthread.h>\nint f(pthread_t t) { return pthread_join(t, 0); }", "", f"manylinux_2_34_{MACHINE}"),
    ("#include <math.h>\ndouble f(double x) { return sin(x); }", "-lm", None),
]


def run(*words, **given):
    """Runs the words without the variables that Python, pip and the package look at."""
    plain = {name: it for name, it in os.environ.items() if not name.startswith(("PYTHON", "PIP_", "LODVARN_"))}
    environment = {**plain, "PYTHONDONTWRITEBYTECODE": "1", **given.pop("env", {})}
    return subprocess.run([*map(str, words)], capture_output=True, text=True, env=environment, **given)


def makers():
    """The interpreters that are there, those first that have what makes wheels."""
    known = dict.fromkeys([sys.executable, "/usr/bin/python3"])
    return sorted(filter(os.path.exists, known), key=lambda it: run(it, "-c", "import cffi, wheel").returncode)


class Wheel(unittest.TestCase):
    @classmethod
    def setUpClass(cls):
        room = tempfile.TemporaryDirectory(prefix="lodvarn-")
        cls.addClassCleanup(room.cleanup)
        cls.room = Path(room.name).resolve()
        cls.maker, *cls.others = makers()
        own = cls.room / "own"
        cls.succeeds(cls.maker, "-m", "venv", "--system-site-packages", own)
        cls.python = own / "bin/python"
        release, pip = Path(os.environ["LODVARN_RELEASE"]), [cls.python, "-m", "pip", "--isolated"]
        (cls.source,), (cls.wheel,) = release.glob("lodvarn-[0-9]*[0-9].tar.gz"), release.glob("*.whl")
        cls.alone = {"PATH": str(own / "bin")}
        cls.succeeds(*pip, "install", "--no-index", cls.wheel, env=cls.alone)

    @classmethod
    def succeeds(cls, *words, **given):
        """Runs the words, which must end well."""
        done = run(*words, **{"cwd": cls.room, **given})
        if done.returncode:
            raise AssertionError(done.stdout + done.stderr)

    def test_it_holds_the_package_and_one_module(self):
        # The standard library, which the library has if an older rustc built it, needs more than the library of C.
        rustc = [*map(int, run("rustc", "--version").stdout.split()[1].split(".")[:2])]
        self.assertEqual(self.wheel.name, f"{NAME}-cp38-abi3-{OLDEST if rustc >= [1, 68] else f'linux_{MACHINE}'}.whl")
        with ZipFile(self.wheel) as wheel:
            self.assertEqual(sorted(wheel.namelist()), sorted([*INFO, *NAMES]))
            said = message_from_string(wheel.read(INFO[0]).decode())
            wheel.extract(MODULE, self.room)
        for name, wanted in [
            ("Version", lodvarn.__version__), ("Requires-Dist", "cffi *\\(?>=1.15\\)?"),
            ("Requires-Python", ">=3.8"), ("Description-Content-Type", "text/markdown"), ("Summary", "A line of .*"),
        ]:
            self.assertRegex(said[name], f"^{wanted}$")
        self.assertEqual(said.get_all("License-File"), [*setup.LICENSES])
        self.assertIn("License :: OSI Approved :: MIT License", said.get_all("Classifier"))
        self.assertEqual(said.get_payload().strip(), (TOP / "python/README.md").read_text().strip())
        shown = run("nm", "-D", "--defined-only", "--format=posix", self.room / MODULE).stdout
        self.assertEqual([it.split()[0] for it in shown.splitlines()], ["PyInit__lodvarn"])

    def test_each_interpreter_takes_it(self):
        (package,) = self.room.glob("own/lib/*/site-packages")
        for python, environment in [(self.python, {}), *((it, {"PYTHONPATH": str(package)}) for it in self.others)]:
            with self.subTest(python=python):
                done = run(python, "-c", EDIT, cwd=self.room, env={**self.alone, **environment})
                self.assertEqual((done.stdout, done.stderr), (f"one twotwo 10 {package}/{NAMES[0]}\nset()\n", ""))

    def test_its_types_are_seen(self):
        (self.room / "typed.py").write_text(TYPED)
        own = f"--python-executable={self.python}"
        done = run("mypy", "--strict", "--cache-dir=/dev/null", own, "typed.py", cwd=self.room)
        errors = r'\Atyped.py:7: .*Range.*\ntyped.py:8: .*"int".*"str".*\ntyped.py:9: .*insrt.*\nFound 3 '
        self.assertRegex(done.stdout, errors)

    def test_the_source_says_what_it_lacks(self):
        with tarfile.open(self.source) as source:
            source.extractall(self.room)
        for environment, wanted in [
            ({"PATH": str(self.python.parent)}, "There is no cargo. (.|\\n)*- Install Rust"),
            ({"LODVARN_LIB": "/nowhere"}, "There is no /nowhere/liblodvarn.a. (.|\\n)*- Set LODVARN_LIB"),
        ]:
            with self.subTest(environment=environment):
                done = run(self.maker, "setup.py", "build_ext", cwd=self.room / NAME, env=environment)
                self.assertRegex(done.stderr, wanted)

    def test_a_library_of_the_same_name_and_the_lock_of_the_interpreter_are_asked_for(self):
        words = ["gcc", "-std=c99", "-Wall", "-Wextra", "-Werror", "-Wno-unused-function", "-fsyntax-only", "-I"]
        header = (TOP / "include/lodvarn.h").read_text()
        header = re.sub(r"(LODVARN_VERSION_\w+) \d+$", r"\1 5", header, flags=re.M)
        (self.room / "lodvarn.h").write_text(header)
        other = "needs a library of its own version, or of a later one"
        for own, why in [
            ("0x50505", ""), ("0x50500", ""), ("0x50506", other), ("0x50405", other), ("0x50605", other),
            ("0x40505", other), ("0x60505", other), ("0x50505 -DPy_GIL_DISABLED", "needs the interpreter's lock"),
        ]:
            with self.subTest(own=own):
                done = run(*words, self.room, TOP / "python/session.c", *f"-DPACKAGE_VERSION={own}".split())
                self.assertEqual(done.returncode == 0, not why, done.stderr)
                self.assertIn(why, done.stderr)

    def test_a_module_gets_the_tag_of_what_it_needs(self):
        for number, (source, option, tag) in enumerate(NEEDS):
            module = self.room / f"of{number}.so"
            words = ["gcc", "-shared", "-fPIC", "-x", "c", "-", "-x", "none", "-o", module, *option.split()]
            self.assertEqual(run(*words, input=source).returncode, 0)
            self.assertEqual(setup.tag_of(module), tag)


if __name__ == "__main__":
    main()
