#!/usr/bin/env python3
"""Every check of the repository. First `rt ci`: every proof from nothing, every test, the wrong
bodies of must-fail/, and the stored runs. Then the subjects of this folder, over the programs
that it has built: the program `cssq` with its words, files and streams, each request for memory
refused, the wrong bodies of two crates, what the documents show, the scripts `cssq` and `build`,
the C library with the Python package over it, and what people without the toolchain install. Only
the crate of the C library is proved twice: `rt ci` keeps nothing of a static library. What the proofs of
each crate cost is printed after them, by `tools/costs.py`.

As many subjects run side by side as there are processors, four at most. What one prints is shown
whole when it ends, under a line with its name and how long it took.

The last line is 'N passed, M failed', of all together, and the lines before it name what was left
out, since a tool is missing, and the tests that failed. Where `CI` is set and it is root, it first
installs the packages of Debian that the tests want.
"""
from __future__ import annotations

import glob
import os
import re
import shutil
import signal
import subprocess
import sys
import tempfile
import time
from typing import Any, Dict, List, Sequence

TOP = os.path.dirname(os.path.dirname(os.path.abspath(__file__)))
# Each subject of this folder, and the crates of the programs that it runs. The longest comes first.
SUBJECTS = (
    ("checkout", ("tests_driver",)),
    ("mutants", ()),
    ("library", ()),
    ("refused", ("tests_refusals",)),
    ("program", ("cssq_cli",)),
    ("docs", ("cssq_cli",)),
    ("pages", ("cssq_cli",)),
    ("skipped", ("example_linter", "cssq_cli")),
    ("port", ("tests_driver", "cssq_cli", "example_linter")),
    ("syntax", ("tests_driver",)),
    ("modern_selectors", ("tests_driver",)),
    ("namespaces", ()),
    ("nested_rules", ("tests_driver",)),
    ("imports", ("tests_driver",)),
    ("cascade", ()),
    ("winning", ()),
    ("script", ()),
    ("library_calls", ()),
    ("tables", ()),
    ("hostile", ()),
    ("inlined", ()),
    ("states", ()),
    ("html_states", ()),
    ("sieve", ()),
    ("encodings", ()),
    ("sheets", ()),
    ("printed", ()),
    ("edits", ()),
    ("conditions", ()),
    ("tokens", ()),
    ("values", ()),
    ("known_values", ()),
    ("linted", ()),
    ("recommended", ()),
    ("errors", ()),
    ("user_agent", ()),
    ("judges", ()),
    ("grammars", ()),
    ("trees", ()),
    ("html_tokens", ("tests_html",)),
    ("clean", ()),
    ("html_trees", ()),
    ("documents", ()),
    ("quick_tests", ()),
    ("steps", ()),
    ("publish", ()),
    ("inherited", ()),
    ("release", ("tests_driver",)),
)
# What runs alone, at the end: it proves with all processors, and builds in `out/`.
ALONE = ("release",)
# How many seconds a subject has. One that takes longer is ended, and fails; it has some more to
# show where it is.
LIMIT, PARTING = 40 * 60, 10
CRATES = sorted({crate for _, crates in SUBJECTS for crate in crates})
# What tests want of Debian and work without, but for what they then leave out.
# fmt: off
PACKAGES = (
    "librust-roxmltree-dev", "librust-log-dev", "nodejs", "node-parse5", "node-domhandler", "node-typescript",
    "esbuild", "binaryen", "lld", "python3-venv", "python3-setuptools", "python3-wheel", "gcc",
    "g++", "libc6-dev", "make", "cmake", "pkg-config",
    "python3-tinycss2", "python3-soupsieve", "python3-bs4", "python3-html5lib", "python3-lxml",
    "mypy", "black", "xz-utils", "chromium", "valgrind", "python3-sphinx", "python3-myst-parser", "furo",
)
# fmt: on
LEFT_OUT = b"left out: "
# How `unittest` names a test that failed.
FAULTS = (b"FAIL: ", b"ERROR: ")
STREAMS: Dict[str, Any] = {"stdin": subprocess.DEVNULL, "stderr": subprocess.STDOUT}


def show(output: bytes) -> None:
    """Prints what a command has printed."""
    sys.stdout.buffer.write(output)
    sys.stdout.buffer.flush()


class Totals:
    """The counts of all that was run, and what was left out."""

    def __init__(self) -> None:
        self.passed = self.failed = 0
        self.left_out: List[bytes] = []
        self.faults: List[bytes] = []

    def fail(self, line: str) -> None:
        """Counts a check that could not be made, and prints why."""
        self.failed += 1
        self.faults.append(line.encode())
        print(f"tests/all.py: {line}", flush=True)

    def run(self, words: Sequence[str], what: str) -> None:
        """Runs a command at the top, shows what it prints line by line, and adds the counts of its
        last line."""
        with subprocess.Popen(words, cwd=TOP, **STREAMS, stdout=subprocess.PIPE) as child:
            output = []
            for line in child.stdout or ():
                show(line)
                output.append(line)
        self.add(what, b"".join(output), child.returncode)

    def add(self, what: str, output: bytes, status: int) -> None:
        """Adds the counts of the last line that a command has printed, what it left out, and the
        tests that failed."""
        lines = [line.strip() for line in output.splitlines() if line.strip()]
        self.left_out += [line for line in lines if line.startswith(LEFT_OUT)]
        self.faults += [line for line in lines if line.startswith(FAULTS)]
        counts = re.fullmatch(rb"(\d+) passed, (\d+) failed", lines[-1] if lines else b"")
        if counts:
            self.passed += int(counts[1])
            self.failed += int(counts[2])
        if not counts or status and not int(counts[2]):
            self.fail(
                f"{what} ended with status {status}, and its last line is no count of what failed"
            )

    def end(self) -> int:
        """Prints what was left out, what failed, and the last line. Returns the exit status."""
        for line in [*self.left_out, *self.faults]:
            print(line.decode(errors="replace"))
        print(f"{self.passed} passed, {self.failed} failed")
        return 1 if self.failed else 0


def program_of(crate: str) -> str:
    """Where `rt ci` leaves the program of a crate."""
    return os.path.join(TOP, "crates", crate, "out", crate)


class Running:
    """A subject that runs, in a group of processes of its own."""

    def __init__(self, name: str, programs: str) -> None:
        self.name = name
        self.began = time.monotonic()
        self.output = tempfile.TemporaryFile()
        self.child = subprocess.Popen(
            [sys.executable, "-u", "-m", "tests", name],
            cwd=TOP,
            env={**os.environ, "PROGRAMS": programs},
            stdout=self.output,
            start_new_session=True,
            **STREAMS,
        )

    def seconds(self) -> float:
        """How long it has run."""
        return time.monotonic() - self.began

    def end(self) -> None:
        """Ends all that it started, and itself if it still runs: it then shows where it is."""
        if self.child.poll() is None:
            self.child.terminate()
            try:
                self.child.wait(PARTING)
            except subprocess.TimeoutExpired:
                pass
        try:
            os.killpg(self.child.pid, signal.SIGKILL)
        except ProcessLookupError:
            pass
        self.child.wait()

    def add_to(self, totals: Totals) -> bool:
        """Shows and adds what it printed, if it has ended or had its time. Returns whether it is."""
        status, seconds = self.child.poll(), self.seconds()
        if status is None and seconds < LIMIT:
            return False
        self.end()
        self.output.seek(0)
        output, what = self.output.read(), f"tests/{self.name}.py"
        show(f"{what}: {seconds:.0f} s\n".encode() + output)
        if status is None:
            totals.fail(f"{what} was ended, since it took more than {LIMIT} s")
        else:
            totals.add(what, output, status)
        return True


def run_beside(names: Sequence[str], number: int, programs: str, totals: Totals) -> None:
    """Runs subjects, so many of them at a time."""
    left = list(names)
    running: List[Running] = []
    try:
        while left or running:
            while left and len(running) < number:
                running.append(Running(left.pop(0), programs))
            time.sleep(0.1)
            running = [each for each in running if not each.add_to(totals)]
    finally:
        for each in running:
            each.end()


def run_subjects(totals: Totals) -> None:
    """Runs the subjects over the programs that `rt ci` has built, and no others."""
    names = []
    with tempfile.TemporaryDirectory() as folder:
        for crate in CRATES:
            if os.path.exists(program_of(crate)):
                os.symlink(program_of(crate), os.path.join(folder, crate))
        for name, crates in SUBJECTS:
            missing = [crate for crate in crates if not os.path.exists(program_of(crate))]
            if missing:
                totals.fail(f"rt ci built no program of {missing[0]}: tests/{name}.py was not run")
            else:
                names.append(name)
        processors = min(4, len(os.sched_getaffinity(0)))
        run_beside([name for name in names if name not in ALONE], processors, folder, totals)
        run_beside([name for name in names if name in ALONE], 1, folder, totals)


def install() -> List[bytes]:
    """Installs what tests want of Debian, one package after another, since an older system lacks
    some. Returns lines on those that could not be installed."""
    if not os.environ.get("CI") or os.geteuid() != 0 or not shutil.which("apt-get"):
        return []
    quiet: Dict[str, Any] = dict.fromkeys(("stdin", "stdout", "stderr"), subprocess.DEVNULL)
    environment = {**os.environ, "DEBIAN_FRONTEND": "noninteractive"}
    subprocess.run(["apt-get", "update"], env=environment, check=False, **quiet)
    lines = []
    for package in PACKAGES:
        words = ["apt-get", "install", "-y", "--no-install-recommends", package]
        done = subprocess.run(words, env=environment, check=False, **quiet)
        if done.returncode:
            lines.append(LEFT_OUT + f"{package} could not be installed".encode())
    return lines


def prove(totals: Totals) -> None:
    """Runs `rt ci`, and shows how long processors worked for the proofs of each crate."""
    costs, log = os.path.join(TOP, "tools", "costs.py"), os.path.join(TOP, "out", "costs.log")
    os.makedirs(os.path.dirname(log), exist_ok=True)
    if os.path.exists(log):
        os.remove(log)
    words = [sys.executable, costs, "--watch", log, str(os.getpid())]
    watch = subprocess.Popen(words, stdin=subprocess.DEVNULL)
    try:
        totals.run(["rt", "ci"], "rt ci")
    finally:
        watch.terminate()
        watch.wait()
    subprocess.run([sys.executable, costs, log], stdin=subprocess.DEVNULL, check=False)


def main() -> int:
    totals = Totals()
    totals.left_out += install()
    for crate in CRATES:
        # The subjects must not run the program of an earlier build.
        if os.path.exists(program_of(crate)):
            os.remove(program_of(crate))
    for path in glob.glob(os.path.join(TOP, "crates", "*", "out", "rlib")):
        # What stands there after `rt ci` is then what it has proved.
        shutil.rmtree(path)
    # `rt ci` refuses a checkout with links, which unpacked packages have.
    shutil.rmtree(os.path.join(TOP, "out", "judges", "packages"), ignore_errors=True)
    if shutil.which("rt"):
        began = time.time()
        prove(totals)
        # What it has proved of the C library is not proved again.
        subprocess.run([os.path.join(TOP, "build"), "adopt", str(began)], cwd=TOP, check=False)
        words = [os.path.join(TOP, "build"), "library"]
        if subprocess.run(words, cwd=TOP, stdin=subprocess.DEVNULL, check=False).returncode:
            totals.fail("./build library failed")
        run_subjects(totals)
    else:
        totals.fail("there is no rt: nothing was proved or run")
    return totals.end()


def stop(number: int, _: object) -> None:
    """Ends all that runs, after a signal."""
    sys.exit(128 + number)


if __name__ == "__main__":
    for each in (signal.SIGINT, signal.SIGTERM, signal.SIGHUP):
        signal.signal(each, stop)
    sys.exit(main())
