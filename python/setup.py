"""What pyproject.toml cannot say: the version is the C library's, and a wheel has that library.

It is the one that `./build library` made with the toolchain, whose calls are proved. Without it, it
is compiled by cargo from the same sources as Rust (`tools/erase.py --c`), which an sdist has in
`erased`.
"""

import os
import re
import shutil
import subprocess
import sys
import tempfile
from pathlib import Path

from setuptools import Distribution, setup
from setuptools.command.build_py import build_py
from setuptools.command.sdist import sdist

try:
    from setuptools.command.bdist_wheel import bdist_wheel
except ImportError:
    from wheel.bdist_wheel import bdist_wheel

HERE = Path(__file__).resolve().parent
TOP = HERE.parent
SOURCES = HERE / "src"
ERASED = HERE / "erased"
NAME = {"win32": "simplecss.dll", "darwin": "libsimplecss.dylib"}.get(
    sys.platform, "libsimplecss.so"
)
PROVED = TOP / "out" / NAME
# The oldest Rust that compiles the library.
LEAST = (1, 65)
WITHOUT = (
    "install Rust (on Debian 12 cargo-web), or run ./build library with the toolchain first"
    " (docs/INSTALL.md)"
)


def write_erased(to: Path) -> None:
    """Writes the C library's sources as a crate of Rust, with the header."""
    subprocess.run([sys.executable, str(TOP / "tools" / "erase.py"), "--c", str(to)], check=True)


def say(line: str) -> None:
    """Writes a line to the terminal: pip shows what is printed only if something fails."""
    print(line, file=sys.stderr, flush=True)
    try:
        with open("/dev/tty", "w", encoding="utf-8") as terminal:
            print(f"simplecss: {line}", file=terminal)
    except OSError:
        pass


def rust() -> "tuple[str, str]":
    """Returns the path of cargo, and the version of its rustc, which can compile the library."""
    cargo, rustc = shutil.which("cargo"), os.environ.get("RUSTC") or shutil.which("rustc")
    if not cargo or not rustc:
        name = "rustc" if cargo else "cargo"
        raise SystemExit(f"{PROVED} is missing, and so is {name}: {WITHOUT}")
    done = subprocess.run([rustc, "--version"], stdout=subprocess.PIPE, text=True, check=False)
    found = re.search(r"(\d+)\.(\d+)", done.stdout)
    least = ".".join(map(str, LEAST))
    if not found or (int(found[1]), int(found[2])) < LEAST:
        shown = done.stdout.strip() or "no version"
        raise SystemExit(f"{rustc} says {shown}, and Rust {least} is needed: {WITHOUT}")
    return cargo, done.stdout.strip()


def compiled(folder: Path) -> Path:
    """Returns the library that cargo makes in this folder of the erased sources."""
    cargo, version = rust()
    say(
        f"there is no proved library in out/: cargo compiles one by {version}, in about two minutes"
    )
    source = ERASED
    if not source.is_dir():
        source = folder / "erased"
        write_erased(source)
    words = [
        cargo,
        "build",
        "--release",
        "--offline",
        "--target-dir",
        str(folder / "target"),
    ]
    if subprocess.run(words, cwd=source, check=False).returncode:
        raise SystemExit(f"cargo did not build the library: {WITHOUT}")
    return folder / "target" / "release" / NAME


class WithLibrary(build_py):
    """Copies the library into the package."""

    def run(self) -> None:
        """Takes the proved library where there is one, and else compiles one. What an earlier build
        left is not packed."""
        if not self.editable_mode:
            shutil.rmtree(Path(self.build_lib) / "simplecss", ignore_errors=True)
        super().run()
        with tempfile.TemporaryDirectory() as folder:
            library = PROVED if PROVED.is_file() else compiled(Path(folder))
            to = (SOURCES if self.editable_mode else Path(self.build_lib)) / "simplecss"
            if library != PROVED or not self.editable_mode:
                shutil.copy(library, to)


class WithSources(sdist):
    """Adds the erased sources, so that neither the checkout nor the toolchain is needed."""

    def make_release_tree(self, base_dir: str, files: "list[str]") -> None:
        """Writes them beside the package."""
        super().make_release_tree(base_dir, files)
        write_erased(Path(base_dir) / "erased")


class ForThisSystem(Distribution):
    """A package with a library for one system."""

    def has_ext_modules(self) -> bool:
        """Whether it is for one system."""
        return True


class AnyPython(bdist_wheel):
    """A wheel for every Python 3, since the library is loaded by its path."""

    def get_tag(self) -> "tuple[str, str, str]":
        """Returns the tags."""
        return ("py3", "none", super().get_tag()[2])


def licences() -> None:
    """Copies the licences of a checkout beside this file: setuptools packs those that lie here."""
    for text in TOP.glob("LICENSE-*") if not ERASED.is_dir() else ():
        shutil.copy(text, HERE)


def licence() -> str:
    """Returns the licence that pyproject.toml states."""
    found = re.search(r'(?m)^licence = "(.*)"', (HERE / "pyproject.toml").read_text())
    assert found
    return found[1]


def version() -> str:
    """Returns the version that the header states."""
    header = ERASED / "simplecss.h" if ERASED.is_dir() else TOP / "include" / "simplecss.h"
    found = re.search(r'SIMPLECSS_VERSION "(.*)"', header.read_text())
    assert found
    return found[1]


COMMANDS = {"build_py": WithLibrary, "bdist_wheel": AnyPython, "sdist": WithSources}
licences()
setup(version=version(), license=licence(), distclass=ForThisSystem, cmdclass=COMMANDS)
