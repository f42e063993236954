"""Makes the extension module of the package, its wheel and its source distribution.

    python3 setup.py build_ext --inplace     the module in its folder, for PYTHONPATH

The module is made by cffi of lodvarn.h, session.c and the archive of the library for C. That is the one in the folder
which LODVARN_LIB names in the environment, with its header in the folder include beside it. Without LODVARN_LIB cargo
builds it: of the folder library, which the source distribution has, or of rust in a checkout.
"""

import os
import platform
import re
import shutil
import subprocess
import sys
from pathlib import Path

from setuptools import Extension, setup
from setuptools.command.build_ext import build_ext
from setuptools.command.sdist import sdist

try:
    from setuptools.command.bdist_wheel import bdist_wheel
except ImportError:
    try:
        from wheel.bdist_wheel import bdist_wheel
    except ImportError:  # Without it no wheel is made, but the module is.
        bdist_wheel = object

HERE = Path(__file__).resolve().parent
TOP, LIBRARY, SOURCE = HERE.parent, HERE / "library", HERE / "session.c"
IS_CHECKOUT, IS_LINUX = not LIBRARY.is_dir(), sys.platform == "linux"
NAME, ARCHIVE = "lodvarn._lodvarn", "lodvarn.lib" if os.name == "nt" else "liblodvarn.a"
# What may be done with the package, and with what the library has in it.
LICENSES = ("LICENSE", "NOTICES")
HELP = f"""Lodvarn for Python is built on the library for C. Do one of these:
- Install Rust, as Debian's package cargo or from https://rustup.rs, so that cargo is on the path and builds it.
- Set LODVARN_LIB to the whole path of a folder that has {ARCHIVE}, as PREFIX/lib after `packaging/install PREFIX`."""
# A comment of C, a part for C++ alone, and a line of the preprocessor.
NO_CODE = re.compile(r"/\*.*?\*/|^#ifdef __cplusplus$.*?^#endif$|^#(?:[^\n]*\\\n)*[^\n]*", re.M | re.S)
# A function of C: what it returns, its name, and what it takes; and then an end, or its body.
FUNCTION = re.compile(
    r"^(?:static\s+)?(?:inline\s+)?(\w[\w\s]*[\s*])(\w+)\(([^()]*)\)\s*(?:;|\{(?:[^\n]*\}|.*?^\})$)", re.M | re.S
)
# By which version 2.N of the library of C the oldest tag of a wheel takes.
OLDEST = 17


def ran(*words, **how):
    """Returns what the words print. Ends with it if they fail, or with what to do if the program is not there."""
    how.update(stdout=subprocess.PIPE, stderr=subprocess.STDOUT, universal_newlines=True)
    try:
        done = subprocess.run([*map(str, words)], **how)
    except FileNotFoundError as fault:
        raise SystemExit(f"There is no {fault.filename}. {HELP}")
    if done.returncode:
        raise SystemExit(f"{words[0]} failed: {done.stdout}\n{HELP}")
    return done.stdout


def library(target):
    """Returns the archive of the library, its header, and what else it is linked with. What is not named is built, in
    that folder."""
    named = os.environ.get("LODVARN_LIB")
    if named:
        archive, header = HERE / named / ARCHIVE, HERE / named / "../include/lodvarn.h"
        for file in (archive, header):
            if not file.is_file():
                raise SystemExit(f"There is no {file}. {HELP}")
        return archive, header, []
    crate, top = (TOP / "rust", TOP) if IS_CHECKOUT else (LIBRARY, LIBRARY)
    words = ["--release", "--offline", "--package", "lodvarn-c", "--lib", "--target-dir", target]
    said = ran("cargo", "rustc", *words, "--", "--print", "native-static-libs", cwd=crate)
    # On Linux the library of C has all that it needs.
    others = [] if IS_LINUX else " ".join(re.findall("native-static-libs: (.*)", said)).split()
    return target / "release" / ARCHIVE, top / "include/lodvarn.h", others


def wrapped(result, name, given):
    """Returns a function for a call that takes a session, which may also be closed."""
    _, *rest = given.split(",")
    names = ["it->s", *(re.search(r"\w+$", it)[0] for it in rest)]
    call = f"(long long){name}({', '.join(names)})"
    head = f"static long long {name.replace('lodvarn', 'py', 1)}({','.join(['session *it', *rest])})"
    return f"{head} {{ it->turn++; return it->s ? {call} : LODVARN_CLOSED; }}\n"


def write_source(header, file):
    """Writes the C of the module, which wraps what the header and session.c declare."""
    from cffi import FFI

    code = NO_CODE.sub("", header.read_text() + SOURCE.read_text()).replace("LODVARN_CHECK_ ", "")
    functions = [(result, name, " ".join(given.split())) for result, name, given in FUNCTION.findall(code)]
    own = {name for _, name, _ in functions if not name.startswith("lodvarn")}
    calls = [it for it in functions if re.match(r"lodvarn \*s\b", it[2])]
    others = [f"{result}{name}({given});" for result, name, given in functions if (result, name, given) not in calls]
    wrappers = [wrapped(*it) for it in calls if it[1].replace("lodvarn", "py", 1) not in own]
    heads = [re.sub(r"^static (.*?) \{.*\n", r"\1;", it) for it in wrappers]
    ffi = FFI()
    # A character is a str of one.
    ffi.cdef("\n".join([FUNCTION.sub("", code), *others, *heads]).replace("uint32_t c,", "char32_t c,"))
    ffi.set_source(NAME, SOURCE.read_text() + "".join(wrappers))
    ffi.emit_c_code(str(file))


class Module(build_ext):
    """The extension module, of one file that has the library in it."""

    def build_extension(self, extension):
        """Builds it of its C, which is written first."""
        folder = Path(self.build_temp).resolve()
        folder.mkdir(parents=True, exist_ok=True)
        archive, header, others = library(folder / "cargo")
        source = Path(self.build_temp, f"{NAME}.c")
        write_source(header, source)
        extension.sources, extension.depends = [str(source)], [str(archive), str(header), "setup.py"]
        extension.include_dirs, extension.extra_objects = [str(header.parent)], [str(archive)]
        extension.extra_compile_args = [] if os.name == "nt" else ["-std=c99", "-O3"]
        extension.extra_link_args = ["-s", "-Wl,--exclude-libs,ALL"] if IS_LINUX else others
        super().build_extension(extension)


class Source(sdist):
    """The source distribution, which has the library as plain Rust."""

    def make_release_tree(self, base_dir, files):
        """Writes it into a folder. One that is there was left by a try that failed."""
        shutil.rmtree(base_dir, ignore_errors=True)
        super().make_release_tree(base_dir, files)
        library = Path(base_dir, "library").resolve()
        if IS_CHECKOUT:
            ran("cargo", *"run --offline --package erase -- pack lodvarn-c".split(), library, cwd=TOP / "rust")
        else:
            shutil.copytree(LIBRARY, library)


def tag_of(module):
    """Returns the tag of the systems of Linux on which a module runs, or None if it needs more than that library."""
    said = ran("readelf", "-dV", module)
    versions = re.findall(r"Name: GLIBC_2\.(\d+)", said)
    if set(re.findall(r"\(NEEDED\).*\[(.+)\]", said)) != {"libc.so.6"} or not versions:
        return None
    least, machine = max(map(int, versions)), platform.machine()
    return f"manylinux_2_{max(least, OLDEST)}_{machine}" + f".manylinux2014_{machine}" * (least <= OLDEST)


class Wheel(bdist_wheel):
    """A wheel for every Python from 3.8 on, on Linux for the systems on which its module runs."""

    def get_tag(self):
        """Returns the tags. An editable one has no module in it, and serves this machine alone."""
        *python, system = super().get_tag()
        built = [*Path(self.bdist_dir).glob("lodvarn/*.so")] if IS_LINUX else []
        return (*python, built and tag_of(built[0]) or system)


def main():
    """Runs what the words of the command say."""
    if IS_CHECKOUT:
        for name in LICENSES:
            shutil.copyfile(TOP / name, HERE / name)
    version = re.search(r'^__version__ = "(.+)"$', (HERE / "lodvarn/__init__.py").read_text(), re.M)[1]
    number = "0x{:x}{:02x}{:02x}".format(*map(int, version.split(".")))
    macros = [("Py_LIMITED_API", "0x03080000"), ("PACKAGE_VERSION", number)]
    module = Extension(NAME, ["session.c"], define_macros=macros, py_limited_api=True)
    commands = {"build_ext": Module, "sdist": Source, "bdist_wheel": Wheel}
    setup(ext_modules=[module], cmdclass=commands, options={"bdist_wheel": {"py_limited_api": "cp38"}})


if __name__ == "__main__":
    main()
