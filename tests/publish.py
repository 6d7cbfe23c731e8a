"""What `./build publish --dry-run` says of packages: nothing but the missing place of those that
tools/release.py makes, nothing of those of a project that has a place, and of packages in which
something was changed what is wrong.

The compiled libraries in these packages are a few bytes, so that nothing is compiled.
"""
from __future__ import annotations

import functools
import importlib
import json
import os
import re
import sys
import tempfile
import unittest
from pathlib import Path
from typing import Any, Callable, Dict, List, Tuple

from tests.common import TOP, Case, read, write
from tests.release import run, second_checkout
from tools import metadata, publish, release

MAKE = r"""
import sys
from pathlib import Path
from tools import release

class Small(release.Erased):
    def library(self):
        return b"\0GLIBC_2.5\0" + self.soname.encode() + b"\0"
    def archive(self):
        return b""
    def webassembly(self):
        return b"", b""

print(Small(Path(sys.argv[1]), Path(sys.argv[2])).make())
"""
AUTHORS = 'name = "simplecss"\nauthors = [{ name = "Ann Other", email = "ann@css.dev" }]\n'
URLS = '\n[project.urls]\nRepository = "https://css.dev/simplecss"\n\n[project.scripts]'
PLACE = [publish.PLACE, "1 missing"]
Files = Dict[str, bytes]
Change = Callable[[Files], object]


@functools.lru_cache(maxsize=None)
def made(has_place: bool) -> Tuple[str, str]:
    """A checkout, and the folder of the packages that are made of it."""
    folder = tempfile.TemporaryDirectory()
    unittest.addModuleCleanup(folder.cleanup)
    unittest.addModuleCleanup(made.cache_clear)
    checkout, packages, room = (
        os.path.join(folder.name, it) for it in ("checkout", "made", "room")
    )
    second_checkout(checkout, ())
    os.makedirs(packages)
    os.makedirs(room)
    if has_place:
        path = os.path.join(checkout, "python", "pyproject.toml")
        stated = read(path).replace('name = "simplecss"\n', AUTHORS, 1)
        write(path, stated.replace("\n[project.scripts]", URLS, 1))
    environment = {**os.environ, "SOURCE_DATE_EPOCH": "1700000000", "PYTHONPATH": checkout}
    done = run([sys.executable, "-c", MAKE, packages, room], checkout, env=environment)
    if done.returncode:
        raise AssertionError(done.stderr.decode()[-1500:])
    if b"source distribution" in done.stdout:
        raise unittest.SkipTest(f"packages before they are published: {done.stdout.decode()}")
    return checkout, packages


def said(has_place: bool) -> List[str]:
    """The lines on packages, but those on tools that are missing."""
    checkout, packages = made(has_place)
    words = [sys.executable, os.path.join(checkout, "tools", "publish.py"), "--dry-run", packages]
    lines = run(words, checkout).stdout.decode().splitlines()
    return [line for line in lines if not line.startswith("left out: ")]


def replaced(name: str, old: str, new: str) -> Change:
    """A change of the one file whose name ends so."""

    def change(files: Files) -> None:
        path = name if name in files else next(it for it in files if it.endswith(name))
        text = files[path].decode()
        assert re.search(old, text), f"{name} has no {old}"
        files[path] = re.sub(old, new, text).encode()

    return change


def without(name: str) -> Change:
    """A change that removes the one file whose name ends so."""
    return lambda files: files.pop(next(it for it in files if it.endswith(name)))


def added(name: str) -> Change:
    """A change that adds a file."""
    return lambda files: files.update({name: b""})


def with_required(path: str, value: object) -> Change:
    """A change of what `require` of node finds."""

    def change(files: Files) -> None:
        stated = json.loads(files["package.json"])
        stated["exports"]["."]["node"][path] = value
        files["package.json"] = json.dumps(stated).encode()

    return change


# A kind of package, a change of it, and what is then said of it.
CHANGES: List[Tuple[str, Change, str]] = [
    ("*.whl", without("LICENSE-MIT"), "licenses/LICENSE-MIT is missing"),
    ("*.whl", added("tests/test_a.py"), "tests/test_a.py is packed"),
    ("*.whl", added("simplecss/_zzz.py"), "RECORD does not name each file"),
    ("*.whl", replaced("/WHEEL", r"manylinux_2_5", "linux"), "PyPI takes no wheel with the tag"),
    ("*.whl", replaced("/WHEEL", r"manylinux_2_5", "musllinux_1_1"), "it imports names of glibc"),
    ("*.whl", replaced("/WHEEL", r"2_5", "2_4"), "it imports names of glibc (2, 5)"),
    ("*.whl", replaced("/METADATA", "Provides-Extra: lxml\n", ""), "Provides-Extra is"),
    ("*.whl", replaced("/METADATA", "(?m)^Classifier: Oper.*\n", ""), "its operating system"),
    ("*.whl", replaced("/entry_points.txt", "simplecss =", "css ="), "the command simplecss"),
    ("simplecss-*.tar.gz", without("erased/Cargo.toml"), "erased/Cargo.toml is missing"),
    ("simplecss-*.tar.gz", without("LICENSE-APACHE"), "LICENSE-APACHE is missing"),
    ("simplecss-*.tar.gz", added("src/simplecss/libsimplecss.so"), "it has a compiled library"),
    ("simplecss-*.tar.gz", replaced("PKG-INFO", "Summary: .*", "Summary: x"), "Summary is ['x']"),
    ("*proved*.crate", without("README.md"), "README.md is missing"),
    ("*proved*.crate", replaced("Cargo.toml", "all-features = true", ""), "docs.rs would not"),
    ("*proved*.crate", replaced("Cargo.toml", "readme =", 'homepage = "x"\nreadme ='), "homepage"),
    ("*proved*.crate", replaced("src/cascade.rs", "(?m)^/// .*\n", ""), "missing documentation"),
    (
        "*proved*.crate",
        replaced("Cargo.toml", "readme =", 'homepage = "https://a.example"\nreadme ='),
        "Cargo.toml has a placeholder: https://a.example",
    ),
    ("*.tgz", without("index.d.cts"), "index.d.cts is missing"),
    ("*.tgz", added("playground.html"), "playground.html is not packed by npm"),
    ("*.tgz", replaced("package.json", '"main": "./index.cjs"', '"main": "./x.cjs"'), "x.cjs is"),
    ("*.tgz", with_required("require", {"default": "./index.cjs"}), "no types of its own kind"),
    (
        "*.tgz",
        with_required("require", {"types": "./index.d.ts", "default": "./index.cjs"}),
        "no types of its own kind",
    ),
    ("*-linux-*.tar.gz", without("libsimplecss.so.1"), "has another SONAME"),
    ("*-linux-*.tar.gz", replaced(".pc", "Version: .*", "Version: 0"), ".pc has another version"),
    ("*-linux-*.tar.gz", without("simplecss-config.cmake"), "simplecss-config.cmake is missing"),
    ("*-linux-*.tar.gz", without("/copyright"), "the licences are missing"),
]
# What a tool finds. The others are not called for the rest, since they take a while.
OF_TOOLS = ("playground.html is not packed by npm", "missing documentation")
CHECKS = {
    "*.whl": publish.check_wheel,
    "simplecss-*.tar.gz": publish.check_sdist,
    "*proved*.crate": publish.check_crate,
    "*.tgz": publish.check_npm,
    "*-linux-*.tar.gz": publish.check_prefix,
}


class Said(Case):
    """The lines of the command."""

    def test_place(self) -> None:
        """Nothing but the place is missing."""
        self.assertEqual(said(False), PLACE)

    def test_none(self) -> None:
        """Of a project that has a place, nothing is missing."""
        self.assertEqual(said(True), ["nothing is missing"])

    def test_stated(self) -> None:
        """The place is in each package, from the one file."""
        _, packages = made(True)
        kinds = ("*.whl", "simplecss-*.tar.gz", "simplecss-0.2.2.crate", "*proved*.crate", "*.tgz")
        for kind in kinds:
            files = files_of(next(Path(packages).glob(kind)))
            text = b"".join(
                data
                for name, data in files.items()
                if re.search(r"METADATA|PKG-INFO|Cargo.toml|package.json", name)
            ).decode()
            for wanted in ("Ann Other", "https://css.dev/simplecss"):
                with self.subTest(kind=kind, wanted=wanted):
                    self.assertIn(wanted, text)

    def test_words(self) -> None:
        """Without the word `--dry-run` nothing is done."""
        for words in ((), ("--dry-run", "a", "b"), ("now",)):
            with self.subTest(words=words):
                done = run([os.path.join(TOP, "build"), "publish", *words])
                self.assertEqual((done.returncode, done.stdout), (1, b""))
                self.assertIn(b"usage: ", done.stderr)


def files_of(path: Path) -> Files:
    """The files of a package."""
    return publish.files_in(path)


class Changed(Case):
    def test_changes(self) -> None:
        """Of a package in which something is changed the line says it."""
        _, packages = made(False)
        for kind, change, wanted in CHANGES:
            (path,) = (it for it in Path(packages).glob(kind))
            files, missing = files_of(path), publish.Missing(wanted in OF_TOOLS)
            change(files)
            with self.subTest(kind=kind, wanted=wanted):
                CHECKS[kind](publish.Package(path, files, missing))
                self.assertIn(wanted, "\n".join(missing))


class Stated(Case):
    def test_tables(self) -> None:
        """Tables of TOML are read as Python's own reader reads them."""
        if sys.version_info < (3, 11):
            self.skipTest("tables of TOML: this Python has no reader of them")
        tomllib: Any = importlib.import_module("tomllib")
        for name in ("python/pyproject.toml", "release/rust/Cargo.toml"):
            text = read(name)
            found, whole = metadata.tables_of(text), tomllib.loads(text)
            for key, table in found.items():
                due = whole
                for part in key.split(".") if key else ():
                    due = due[part]
                for field, value in table.items():
                    if isinstance(due, dict) and isinstance(due.get(field), (str, list)):
                        wanted = due[field]
                        with self.subTest(name=name, key=key, field=field):
                            listed = [wanted] if isinstance(wanted, str) else wanted
                            self.assertEqual(metadata.strings(value), listed)

    def test_glibc(self) -> None:
        names = b"\0GLIBC_2.5\0memcpy\0GLIBC_2.28\0GLIBC_2.3.4\0"
        self.assertEqual(release.needed_glibc(names), (2, 28))


if __name__ == "__main__":
    unittest.main()
