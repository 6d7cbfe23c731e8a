#!/usr/bin/env python3
"""Every test that needs no proof, side by side, with an answer in some minutes while a change is
being written. `.ci/run` decides.

    tests/quick.py              all parts
    tests/quick.py PART..       these: {parts}
    tests/quick.py --help       this text

The parts are the `#[test]` functions of each crate (`crates`), the first command of the table of
docs/PROGRAM.md (`command`), what the documents show of the sources (`documents`), and the Python
package's own tests over the C library as Rust (`package`), which is compiled again only if it changed.

Prints a line for each crate and part with how long its tests took, the output of those that fail,
what was left out since `rt` or `cargo` is missing, and 'N passed, M failed' in the end; the status is
1 if something failed.
"""
from __future__ import annotations

import concurrent.futures
import filecmp
import functools
import os
import re
import shlex
import shutil
import subprocess
import sys
import tempfile
import time
from typing import Callable, Dict, List, NamedTuple, Optional, Sequence, Set, Tuple

TOP = os.path.dirname(os.path.dirname(os.path.abspath(__file__)))
CRATES = os.path.join(TOP, "crates")
# What the package and its tests read of the checkout.
READ_BY_PACKAGE = ("python", "examples", "include", "docs", "tests/mails", "tests/cases")


class Outcome(NamedTuple):
    """How many tests passed and failed, and the lines to show."""

    passed: int
    failed: int
    lines: List[str]


def has_tests(crate: str) -> bool:
    """Whether a source of a crate has a function that is a test."""
    for parent, _, files in os.walk(os.path.join(CRATES, crate, "src")):
        for name in files:
            with open(os.path.join(parent, name), encoding="utf-8") as source:
                if "#[test]" in source.read():
                    return True
    return False


def run(words: Sequence[str], folder: str, **environment: str) -> Tuple[int, str, float]:
    """The status of a command, what it printed, and how many seconds it took."""
    began = time.monotonic()
    done = subprocess.run(
        words,
        cwd=folder,
        env={**os.environ, **environment},
        stdin=subprocess.DEVNULL,
        stdout=subprocess.PIPE,
        stderr=subprocess.STDOUT,
        text=True,
        check=False,
    )
    return done.returncode, done.stdout, time.monotonic() - began


def tests_of(crate: str) -> Outcome:
    """The tests of a crate."""
    status, out, seconds = run(["rt", "try", "--test"], os.path.join(CRATES, crate))
    counts = re.search(r"^test result: .* (\d+) passed; (\d+) failed;", out, re.MULTILINE)
    passed, failed = (int(counts[1]), int(counts[2])) if counts else (0, 0)
    if status and not failed:
        failed = 1
    is_shown = re.compile(r"(?!test \S+ \.\.\. ok$)")
    shown = [line for line in out.splitlines() if failed and is_shown.match(line)]
    first = f"{crate}: {passed} passed, {failed} failed, {seconds:.0f} s"
    return Outcome(passed, failed, [first, *shown])


def first_command() -> Outcome:
    """Whether the first command of the table of docs/PROGRAM.md prints what the table shows."""
    with open(os.path.join(TOP, "docs", "PROGRAM.md"), encoding="utf-8") as page:
        [words, shown], *_ = re.findall(
            r"^\| `\./cssq ([^`]*)` \| (.*) \|$", page.read(), re.MULTILINE
        )
    spans = re.findall(r"`([^`]*)`([^`]*)", shown)
    wanted = "".join(span + {"TAB": "\t", "": "\n"}[between.strip()] for span, between in spans)
    command = [os.path.join(TOP, "cssq"), "--unproved", *shlex.split(words)]
    status, out, seconds = run(command, TOP)
    holds = status == 0 and wanted in out
    said = "as docs/PROGRAM.md shows" if holds else out
    return Outcome(int(holds), int(not holds), [f"./cssq {words}: {said}, {seconds:.0f} s"])


def documents() -> Outcome:
    """What the documents show of the sources."""
    words = [sys.executable, "-m", "tests", "docs.Sources", "docs.Lengths"]
    status, out, seconds = run(words, TOP)
    counts = re.search(r"^(\d+) passed, (\d+) failed$", out, re.MULTILINE)
    passed, failed = (int(counts[1]), int(counts[2])) if counts else (0, 1)
    shown = out.splitlines() if status else []
    return Outcome(
        passed, failed, [f"documents: {passed} passed, {failed} failed, {seconds:.0f} s", *shown]
    )


def files_in(folder: str) -> Set[str]:
    """The paths of the files in a folder, however deep."""
    return {
        os.path.relpath(os.path.join(parent, name), folder)
        for parent, _, names in os.walk(folder)
        for name in names
    }


def keep_equal(made: str, kept: str) -> None:
    """Makes a folder like another, and leaves alone each file that is equal, so that cargo compiles again
    only what changed."""
    for name in files_in(kept) - files_in(made) - {"Cargo.lock"}:
        os.remove(os.path.join(kept, name))
    for name in files_in(made):
        one, other = os.path.join(made, name), os.path.join(kept, name)
        if not os.path.exists(other) or not filecmp.cmp(one, other, shallow=False):
            os.makedirs(os.path.dirname(other), exist_ok=True)
            shutil.copy(one, other)


def library(folder: str) -> Tuple[Optional[str], str]:
    """Makes the C library as Rust. Returns its path and what was printed, without a path if it was not
    made."""
    erased, target = os.path.join(folder, "erased"), os.path.join(TOP, "out", "erased")
    erase = [sys.executable, os.path.join(TOP, "tools", "erase.py"), "--c", erased]
    cargo = ["cargo", "build", "--release", "--offline", "--target-dir", target]
    status, out, _ = run(erase, TOP)
    if status == 0:
        source = os.path.join(target, "source")
        keep_equal(erased, source)
        status, out, _ = run(cargo, source)
    return (None if status else os.path.join(target, "release", "libsimplecss.so")), out


def package_over(made: str, folder: str, *words: str) -> Outcome:
    """The Python package's own tests over a library, in a copy of what they read."""
    for name in READ_BY_PACKAGE:
        shutil.copytree(os.path.join(TOP, name), os.path.join(folder, name))
    os.mkdir(os.path.join(folder, "out"))
    shutil.copy(made, os.path.join(folder, "out", "libsimplecss.so"))
    tests = [sys.executable, "-m", "unittest", "discover", "-s", "python/tests", *words]
    status, out, seconds = run(tests, folder, SIMPLECSS_LIBRARY="", PYTHONPATH="")
    ran = re.search(r"^Ran (\d+) tests", out, re.MULTILINE)
    failed = sum(map(int, re.findall(r"(?:failures|errors)=(\d+)", out))) or int(status != 0)
    skipped = sum(map(int, re.findall(r"skipped=(\d+)", out)))
    passed = int(ran[1]) - failed - skipped if ran else 0
    first = f"package: {passed} passed, {failed} failed, {seconds:.0f} s"
    return Outcome(passed, failed, [first, *(out.splitlines() if failed else [])])


def package() -> Outcome:
    """The Python package's own tests, over the C library as Rust."""
    with tempfile.TemporaryDirectory() as folder:
        made, out = library(folder)
        if made is None:
            return Outcome(0, 1, ["package: the C library as Rust was not made", out])
        return package_over(made, folder)


# Each part: its jobs, and the program that they need.
PARTS: Dict[str, Tuple[str, Callable[[], List[Callable[[], Outcome]]]]] = {
    "package": ("cargo", lambda: [package]),
    "command": ("rt", lambda: [first_command]),
    "documents": ("", lambda: [documents]),
    "crates": (
        "rt",
        lambda: [
            functools.partial(tests_of, crate)
            for crate in sorted(os.listdir(CRATES))
            if has_tests(crate)
        ],
    ),
}


def main(words: Sequence[str]) -> int:
    usage = (__doc__ or "").format(parts=", ".join(PARTS))
    if "--help" in words or not set(words) <= set(PARTS):
        print(usage, file=sys.stdout if "--help" in words else sys.stderr, end="")
        return 0 if "--help" in words else 2
    jobs: List[Callable[[], Outcome]] = []
    for part in words or PARTS:
        needed, jobs_of = PARTS[part]
        if needed and not shutil.which(needed):
            print(f"left out: {part}: there is no {needed}", flush=True)
        else:
            jobs += jobs_of()
    passed = failed = 0
    with concurrent.futures.ThreadPoolExecutor(max_workers=os.cpu_count()) as pool:
        for done in concurrent.futures.as_completed([pool.submit(job) for job in jobs]):
            outcome = done.result()
            passed, failed = passed + outcome.passed, failed + outcome.failed
            print("\n".join(outcome.lines), flush=True)
    print(f"{passed} passed, {failed} failed")
    return 1 if failed else 0


if __name__ == "__main__":
    sys.exit(main(sys.argv[1:]))
