"""The C library and the Python package: what is installed into a folder, the C example by the
toolchain's clang, each request for memory of each call refused, AddressSanitizer, lists that are kept
under valgrind, the package's own tests, its types, and what it finds beside soupsieve. The calls
themselves are those of tests/library_calls.py.

The library is built by `./build library`. What is tested of it in C is left out where it is not the
one that is built.
"""
from __future__ import annotations

import functools
import glob
import itertools
import os
import re
import shutil
import sys
import tempfile
import unittest
from typing import List, Optional

from tests.common import (
    DEBIAN,
    TOP,
    Answer,
    Case,
    answer,
    check_kept,
    check_objects,
    has_modules,
    kit,
    library_path,
    run_refused,
    version,
    write,
)

# What the examples in C print.
EXAMPLES = (
    ("page.c", "1:\n2: 1 2\n3:\n"),
    ("unused.c", "p\nol li\n& b\n"),
    (
        "values.c",
        "position: sticky; width: 2em; style[0] \nposition: sticky; width: 34; style[0] \n",
    ),
)
# How many calls tests/library_refused.c makes, and which of them allocate nothing.
CALLS = 61
WITHOUT_MEMORY = (10, 19)
NO_HEADERS = "the C example was not compiled: the system has no C headers or start files"


@functools.lru_cache(maxsize=None)
def prefix() -> str:
    """A folder with the library, installed."""
    folder = tempfile.TemporaryDirectory()
    unittest.addModuleCleanup(folder.cleanup)
    made = answer([os.path.join(TOP, "build"), "library", "--prefix", folder.name], cwd=TOP)
    if made.status:
        raise AssertionError(made.err[-1000:])
    return folder.name


def header_folders() -> Optional[List[str]]:
    """Returns where the system has C headers, which the toolchain's clang lacks, or None if a
    header is missing."""
    compilers = sorted(
        glob.glob("/usr/lib/gcc/*/*/include") + glob.glob("/usr/lib/llvm-*/lib/clang/*/include")
    )
    found = [path for path in compilers if os.path.isfile(os.path.join(path, "stddef.h"))][:1]
    if not found or not os.path.isfile("/usr/include/stdio.h"):
        return None
    return [*found, "/usr/include/x86_64-linux-gnu", "/usr/include"]


class Installed(Case):
    """What `./build library --prefix` installs."""

    def test_files(self) -> None:
        libraries = ("lib/libsimplecss.so.1", "lib/libsimplecss.so", "lib/libsimplecss.a")
        headers = ("include/simplecss.h", "include/simplecss.hpp")
        for name in (*libraries, *headers, "lib/pkgconfig/simplecss.pc"):
            with self.subTest(file=name):
                self.assertTrue(os.path.isfile(os.path.join(prefix(), name)))

    def test_pkg_config(self) -> None:
        with open(
            os.path.join(prefix(), "lib", "pkgconfig", "simplecss.pc"), encoding="utf-8"
        ) as file:
            lines = file.read().split("\n")
        folders = ("libdir=${pcfiledir}/../../lib", "includedir=${pcfiledir}/../../include")
        for line in (*folders, f"Version: {version()}", "Libs: -L${libdir} -lsimplecss"):
            with self.subTest(line=line):
                self.assertIn(line, lines)


class InC(Case):
    """The library in programs in C, which the toolchain's clang compiles with the system's
    headers."""

    def setUp(self) -> None:
        folder = tempfile.TemporaryDirectory()
        self.addCleanup(folder.cleanup)
        self.folder = folder.name
        self.lib = os.path.join(prefix(), "lib")
        headers = header_folders()
        if not headers:
            self.skipTest(NO_HEADERS)
        clang = os.path.join(kit(), "toolchain", "bin", "clang")
        self.clang = [
            clang,
            *(f"-isystem{path}" for path in headers),
            "-I" + os.path.join(prefix(), "include"),
        ]
        text = '#include <stdio.h>\nint main(void) { return puts("hello") < 0; }\n'
        source = write(os.path.join(self.folder, "hello.c"), text)
        # The start files and libraries that a program needs come with the system's compiler.
        if answer([*self.clang, source, "-o", os.path.join(self.folder, "hello")]).status:
            self.skipTest(NO_HEADERS)

    def compile(self, *words: str) -> str:
        """Compiles a program, which must work. Returns its path."""
        program = os.path.join(self.folder, "program")
        made = answer([*self.clang, *words, "-o", program])
        self.assertEqual(made.status, 0, made.err)
        return program

    def test_example(self) -> None:
        """Each C example prints what it should, linked to either library."""
        archive = [os.path.join(self.lib, "libsimplecss.a")]
        linked = (archive, ["-L" + self.lib, "-lsimplecss", "-Wl,-rpath," + self.lib])
        for (name, expected), link in itertools.product(EXAMPLES, linked):
            source = os.path.join(TOP, "examples", "c", name)
            strict = ["-std=c99", "-Wall", "-Wextra", "-Wpedantic", "-Werror", source]
            with self.subTest(name=name, link=link):
                self.assertEqual(answer([self.compile(*strict, *link)]), (0, expected, ""))

    def test_header_in_cplusplus(self) -> None:
        header = write(os.path.join(self.folder, "header.cc"), "#include <simplecss.h>\n")
        made = answer([*self.clang, "-fsyntax-only", "-Wall", "-Werror", header])
        self.assertEqual(made.status, 0, made.err)

    def test_refused(self) -> None:
        """If a request for memory of a call is refused, the call reports it and writes nothing, or
        its answer is whole."""
        source = os.path.join(TOP, "tests", "library_refused.c")
        program = self.compile("-Wall", "-Werror", source, os.path.join(self.lib, "libsimplecss.a"))
        for number in range(CALLS):
            with self.subTest(call=number):
                whole = answer([program, str(number)])
                self.assertEqual((whole.status, whole.out[:2]), (0, "0\n"))
                statuses = self.refuse_each(program, number, whole)
                self.assertEqual(statuses[-3:], ["0", "0", "0"], "the requests do not end")
                self.assertEqual("3" in statuses, number not in WITHOUT_MEMORY)

    def refuse_each(self, program: str, number: int, whole: Answer) -> List[str]:
        """Refuses the requests of a call one by one, up to three beyond the last. Returns the
        statuses."""
        statuses: List[str] = []
        failures = []
        while statuses[-3:] != ["0", "0", "0"] and len(statuses) < 2_000:
            got = run_refused([program, str(number)], len(statuses) + 1, marked=True)
            out = got.out.decode()
            if got.status or out not in (whole.out, "3\n"):
                failures.append(f"call {number} with request {len(statuses) + 1} refused: {got}")
            statuses.append(out[:1])
        self.sweep(len(statuses), failures)
        return statuses

    def test_kept_lists(self) -> None:
        check_kept(self, self.clang, os.path.join(self.lib, "libsimplecss.a"), "kept_lists.c")

    def test_kept_sheets(self) -> None:
        check_kept(self, self.clang, os.path.join(self.lib, "libsimplecss.a"), "kept_sheets.c")

    def test_kept_pages(self) -> None:
        check_kept(self, self.clang, os.path.join(self.lib, "libsimplecss.a"), "kept_pages.c")

    def test_kept_queries(self) -> None:
        check_kept(self, self.clang, os.path.join(self.lib, "libsimplecss.a"), "kept_queries.c")

    def test_objects(self) -> None:
        """The objects of simplecss.hpp, by the compilers of the system."""
        check_objects(self, os.path.join(prefix(), "include"), self.lib)

    def test_sanitized(self) -> None:
        """The calls with AddressSanitizer, if the toolchain's archive of it links."""
        words = ["-fsanitize=address", "-fno-sanitize-link-runtime", "-rdynamic"]
        words += [
            os.path.join(TOP, "tests", "library_refused.c"),
            os.path.join(self.lib, "libsimplecss.a"),
        ]
        words += [
            "-Wl,--whole-archive",
            os.path.join(kit(), "c", "asan.a"),
            "-Wl,--no-whole-archive",
        ]
        program = os.path.join(self.folder, "sanitized")
        made = answer([*self.clang, *words, "-lpthread", "-ldl", "-lm", "-o", program])
        if made.status:
            why = made.err.strip().split("\n")[-1][:200]
            self.skipTest(f"AddressSanitizer over the C library does not link: {why}")
        for number in range(CALLS):
            with self.subTest(call=number):
                got = answer([program, str(number)])
                self.assertEqual((got.status, "Sanitizer" in got.err), (0, False), got.err)


class Package(Case):
    """The Python package over the built library."""

    def test_own_tests(self) -> None:
        """The package's own tests, each of which counts here."""
        library_path()
        environment = {**os.environ, "PYTHONDONTWRITEBYTECODE": "1"}
        words = [sys.executable, "-W", "error", "-m", "unittest", "discover", "-s", "python/tests"]
        got = answer(words, cwd=TOP, env=environment)
        found = re.search(r"^Ran (\d+) tests", got.err, re.MULTILINE)
        self.assertTrue(got.status == 0 and found and int(found[1]), got.err)
        self.passes(int(found[1]) if found else 0)

    def test_version(self) -> None:
        environment = {**os.environ, "PYTHONPATH": "python/src"}
        words = [sys.executable, "-c", "import simplecss; print(simplecss.__version__)"]
        self.assertEqual(answer(words, cwd=TOP, env=environment), (0, version() + "\n", ""))

    def test_command(self) -> None:
        environment = {**os.environ, "PYTHONPATH": "python/src"}
        got = answer([sys.executable, "-m", "simplecss", "--help"], cwd=TOP, env=environment)
        self.assertEqual((got.status, got.err), (0, ""))

    def test_other_trees(self) -> None:
        """The tests over lxml and BeautifulSoup, by Debian's Python."""
        if not has_modules(DEBIAN, "lxml", "bs4"):
            self.skipTest(
                "the trees of other packages: there is no lxml or BeautifulSoup (python3-lxml,"
                " python3-bs4)"
            )
        got = answer(
            [DEBIAN, "-W", "ignore", "python/tests/test_simplecss.py", "OtherTrees"], cwd=TOP
        )
        self.assertEqual((got.status, "skipped" in got.err), (0, False), got.err)

    def test_soup(self) -> None:
        """Selectors find what soupsieve finds on the trees of html5lib, by Debian's Python."""
        if not has_modules(DEBIAN, "bs4", "html5lib"):
            packages = "python3-bs4, python3-html5lib"
            self.skipTest(
                f"soupsieve's answers: there is no html5lib or BeautifulSoup ({packages})"
            )
        mails = sorted(glob.glob(os.path.join(TOP, "tests", "mails", "*.html")))
        got = answer([DEBIAN, os.path.join("tests", "browser.py"), "soup", *mails], cwd=TOP)
        self.assertEqual(got.status, 0, got.out + got.err)


class Types(Case):
    def test_types(self) -> None:
        """The types of the package and of all scripts, as mypy finds them."""
        if not shutil.which("mypy"):
            self.skipTest("types: there is no mypy")
        folders = ["python/src/simplecss", "tests", "tools", "bench", "build"]
        got = answer(["mypy", f"--cache-dir={os.devnull}", *folders], cwd=TOP)
        self.assertEqual(got.status, 0, got.out + got.err)

    def test_layout(self) -> None:
        """Scripts and the package have the layout of black."""
        if not shutil.which("black"):
            self.skipTest("the layout of scripts: there is no black")
        words = ["black", "--check", "tests", "tools", "bench", "build", "python"]
        got = answer([*words, "python/setup.py"], cwd=TOP)
        self.assertEqual(got.status, 0, got.err)
