"""Builds the programs in C and in Rust of the folders beside this file, for what runs them."""

import os
import subprocess
import tempfile
from contextlib import contextmanager
from pathlib import Path

HERE = Path(__file__).resolve().parent


def installed(room):
    """The folder with the library: the one that LODVARN_PREFIX names, or else one that is made in a room."""
    named = os.environ.get("LODVARN_PREFIX")
    prefix = Path(named).resolve() if named else room / "prefix"
    if not named and not prefix.is_dir():
        subprocess.run([HERE.parent / "packaging/install", prefix], check=True, stdout=subprocess.DEVNULL)
    return prefix


def flags(prefix):
    """What gcc is told for a program on the shared library of a folder, which finds it there."""
    environment = {**os.environ, "PKG_CONFIG_PATH": f"{prefix}/lib/pkgconfig"}
    words = ["pkg-config", "--cflags", "--libs", "lodvarn"]
    said = subprocess.run(words, env=environment, check=True, stdout=subprocess.PIPE, text=True).stdout
    return [*said.split(), f"-Wl,-rpath,{prefix}/lib"]


def build(name, room):
    """Builds a program, by cargo, or by gcc in a room. Returns its path."""
    if (HERE / name / "Cargo.toml").is_file():
        target = Path(os.environ.get("CARGO_TARGET_DIR", HERE.parent / "rust/target")).resolve()
        words = ["--quiet", "--offline", "--target-dir", target, "--manifest-path", HERE / name / "Cargo.toml"]
        subprocess.run(["cargo", "build", *words], check=True)
        return target / "debug" / name
    words = ["-std=c99", "-O2", "-Wall", "-Wextra", "-pedantic", "-Werror", HERE / name / f"{name}.c"]
    subprocess.run(["gcc", *words, *flags(installed(room)), "-o", room / name], check=True)
    return room / name


@contextmanager
def built(*names):
    """The paths of these programs by their names. Those in C are gone afterwards."""
    with tempfile.TemporaryDirectory(prefix="lodvarn-") as room:
        yield {name: build(name, Path(room)) for name in names}
