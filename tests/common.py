"""What the modules of this folder share: cases whose rows are counted, the programs and where they
are, runs in which a request for memory is refused, real sheets, and what a browser answers.

    python3 -m unittest tests.program             a subject, from the top of the checkout
    python3 -m unittest tests.program -k word     the cases of it whose names have this word
    python3 -m tests program docs                 subjects, with the counts as the last line

Each row of a table counts as one, and so does a test without rows. A program is the newest of what
`rt ci`, `./build` and `./build unproved NAME` leave, or that of the folder which the environment
variable `PROGRAMS` names. `COUNT` sets how many random inputs there are of each kind: as many as are usual
take a subject that has a judge at most 60 processor seconds, those of the browser included. `SHEETS` is
the folder with real style sheets.
"""
from __future__ import annotations

import ctypes
import faulthandler
import functools
import glob
import html
import json
import os
import re
import shutil
import signal
import subprocess
import sys
import tempfile
import unittest
from types import TracebackType
from typing import (
    Any,
    Callable,
    Dict,
    Iterable,
    List,
    NamedTuple,
    Optional,
    Sequence,
    Set,
    TextIO,
    Tuple,
    Type,
    TypeVar,
    Union,
)

TOP = os.path.dirname(os.path.dirname(os.path.abspath(__file__)))
# The Python that Debian's packages are for.
DEBIAN = "/usr/bin/python3"
# Where a crate's program may be: as `rt ci`, `./build` and `./build unproved` leave it.
PLACES = ("crates/{0}/out/{0}", "out/{0}", "out/unproved/{0}")
# How many of the failures of a sweep are shown.
SHOWN = 10
# How many inputs are on a page: a browser answers in the time that it has for one.
ON_A_PAGE = 1000
# By `prctl`, in Linux: an orphan below a process becomes a child of it.
PR_SET_CHILD_SUBREAPER = 36

# What a row of a comparison is whose difference is named elsewhere.
LEFT_OUT = "left out"
Input = TypeVar("Input")
Failure = Union[Tuple[Type[BaseException], BaseException, TracebackType], Tuple[None, None, None]]


class Case(unittest.TestCase):
    """Tests whose rows are counted: one for each `subTest`, and what is passed to `passes`."""

    maxDiff = 4000

    def passes(self, number: int) -> None:
        """Counts this many rows that passed."""
        self.counted = getattr(self, "counted", 0) + number

    def sweep(self, total: int, failures: Sequence[str]) -> None:
        """Counts the rows of a sweep, and shows the first of those that failed."""
        self.passes(total - len(failures))
        for number, line in enumerate(failures[:SHOWN]):
            with self.subTest(failure=number):
                self.fail(line)
        if len(failures) > SHOWN:
            with self.subTest(failure=SHOWN):
                self.fail(f"{len(failures)} of {total} failed")

    def against(
        self,
        judge: Callable[[List[Input]], Optional[Sequence[Any]]],
        inputs: Iterable[Input],
        question: Callable[[Input, Any], Iterable[Optional[str]]],
        missing: str = "no browser answers",
    ) -> int:
        """Compares what is said of each input with what a judge says of it, and counts the rows. A row of
        the question is how the two differ, None if they agree, or `LEFT_OUT`. Returns how many are left
        out. A judge that is missing returns None."""
        asked = list(inputs)
        answers = judge(asked)
        if answers is None:
            self.skipTest(missing)
        self.assertEqual(len(answers), len(asked), "not all is answered")
        rows = [row for one, answer in zip(asked, answers) for row in question(one, answer)]
        compared = [row for row in rows if row is not LEFT_OUT]
        self.assertTrue(compared, "nothing is compared")
        if len(compared) < len(rows):
            print(f"{self.id()}: {len(compared)} compared, {len(rows) - len(compared)} left out")
        self.sweep(len(compared), [row for row in compared if row is not None])
        return len(rows) - len(compared)


def in_turns(
    judge: Callable[[List[Input]], Optional[Sequence[Any]]],
) -> Callable[[List[Input]], Optional[List[Any]]]:
    """A judge that asks this one page by page."""

    def judged(asked: List[Input]) -> Optional[List[Any]]:
        found: List[Any] = []
        for start in range(0, len(asked), ON_A_PAGE):
            answers = judge(asked[start : start + ON_A_PAGE])
            if answers is None:
                return None
            found += answers
        return found

    return judged


def row(what: object, found: Any, due: Any) -> Optional[str]:
    """A row of a comparison: how what is found of something is not what is due, or None."""
    return None if found == due else f"{what}: {found}, and not {due}"


def rows(what: object, found: Sequence[Any], due: Sequence[Any]) -> List[Optional[str]]:
    """A row for each of several that are due."""
    if len(found) != len(due):
        return [row(what, found, due)] * max(1, len(due))
    return [row(what, *each) for each in zip(found, due)]


class Counts(unittest.TextTestResult):
    """What passed, what failed, and why something was left out."""

    def __init__(self, stream: TextIO, descriptions: bool, verbosity: int) -> None:
        super().__init__(stream, descriptions, verbosity)
        self.passed = self.failed = 0
        self.rows = 0
        self.left_out: Set[str] = set()

    def startTest(self, test: unittest.TestCase) -> None:
        super().startTest(test)
        self.rows = 0

    def addSuccess(self, test: unittest.TestCase) -> None:
        super().addSuccess(test)
        self.passed += not self.rows and not hasattr(test, "counted")

    def addSubTest(
        self, test: unittest.TestCase, subtest: unittest.TestCase, err: Optional[Failure]
    ) -> None:
        super().addSubTest(test, subtest, err)
        self.rows += 1
        self.passed += err is None
        self.failed += err is not None

    def addFailure(self, test: unittest.TestCase, err: Failure) -> None:
        super().addFailure(test, err)
        self.failed += 1

    def addError(self, test: unittest.TestCase, err: Failure) -> None:
        super().addError(test, err)
        self.failed += 1

    def addSkip(self, test: unittest.TestCase, reason: str) -> None:
        super().addSkip(test, reason)
        self.rows += 1
        self.left_out.add(reason)

    def stopTest(self, test: unittest.TestCase) -> None:
        super().stopTest(test)
        self.passed += getattr(test, "counted", 0)


def processor_seconds() -> float:
    """How long processors have worked for this process and for those that it has started and that have
    ended."""
    try:
        while os.waitpid(-1, os.WNOHANG)[0]:
            pass
    except ChildProcessError:
        pass
    return sum(os.times()[:4])


def run_subjects(names: Sequence[str]) -> int:
    """Runs subjects, prints what was left out, how long processors took and the counts, and returns the exit
    status. After a request to end it shows where it is, and ends."""
    faulthandler.register(signal.SIGTERM, chain=True)
    # What a browser leaves behind becomes a child of this process, whose time counts.
    ctypes.CDLL(None).prctl(PR_SET_CHILD_SUBREAPER, 1, 0, 0, 0)
    suite = unittest.defaultTestLoader.loadTestsFromNames([f"tests.{name}" for name in names])
    runner = unittest.TextTestRunner(sys.stdout, verbosity=0, resultclass=Counts)
    result = runner.run(suite)
    assert isinstance(result, Counts)
    for reason in sorted(result.left_out):
        print(f"left out: {reason}")
    print(f"{processor_seconds():.0f} processor seconds")
    print(f"{result.passed} passed, {result.failed} failed", flush=True)
    return 1 if result.failed else 0


def count(usual: int) -> int:
    """How many random inputs of a kind there are."""
    return int(os.environ.get("COUNT", usual))


def sheets_folder() -> str:
    """The folder with real style sheets: else those that Debian's packages have."""
    return os.environ.get("SHEETS", "/usr/share")


def program(crate: str) -> str:
    """The built program of a crate."""
    folder = os.environ.get("PROGRAMS")
    places = (
        [os.path.join(folder, crate)]
        if folder
        else [os.path.join(TOP, place.format(crate)) for place in PLACES]
    )
    found = [path for path in places if os.path.exists(path)]
    if not found:
        raise FileNotFoundError(
            f"there is no program of {crate}: ./build unproved {crate} makes it"
        )
    return os.path.abspath(max(found, key=os.path.getmtime))


def library_path() -> str:
    """The built C library."""
    path = os.path.join(TOP, "out", "libsimplecss.so")
    if not os.path.exists(path):
        raise FileNotFoundError(f"there is no {path}: ./build library makes it")
    return path


def refusable(crate: str) -> str:
    """The program of a crate, whose requests for memory can be refused."""
    found = program(crate)
    if os.path.dirname(found) == os.path.join(TOP, "out", "unproved"):
        why = "a program with nothing proved takes its memory from AddressSanitizer"
        raise unittest.SkipTest(f"refused requests of {crate}: {why}")
    return found


def has_modules(python: str, *names: str) -> bool:
    """Whether a Python is there, and has these modules."""
    if not os.path.exists(python):
        return False
    words = [python, "-c", "import " + ", ".join(names)]
    return not subprocess.run(words, stderr=subprocess.DEVNULL, check=False).returncode


def by_debian(case: Case, module: str, what: str) -> None:
    """Runs a test by Debian's Python, which alone has a module, and counts its rows."""
    is_same = os.path.realpath(sys.executable) == os.path.realpath(DEBIAN)
    if is_same or not has_modules(DEBIAN, module):
        case.skipTest(f"{what}: python3-{module} is missing")
    words = [DEBIAN, "-m", "tests", case.id().partition(".")[2]]
    got = answer(words, cwd=TOP)
    counts = re.search(r"^(\d+) passed, (\d+) failed\n\Z", got.out, re.MULTILINE)
    if got.status or not counts:
        case.fail(got.out + got.err)
    case.passes(int(counts[1]))


def debian_answers(script: str, work: Any, *modules: str) -> Optional[Any]:
    """What a script answers on some work in Debian's Python, or None if that lacks a module."""
    if not has_modules(DEBIAN, *modules):
        return None
    words, pipe = [DEBIAN, "-c", script], subprocess.PIPE
    done = subprocess.run(words, input=json.dumps(work), stdout=pipe, text=True, check=True)
    return json.loads(done.stdout)


class Answer(NamedTuple):
    """What a program ends with and prints."""

    status: int
    out: str
    err: str


def answer(words: Sequence[str], **options: Any) -> Answer:
    """Runs a program on no input, unless some is given, and keeps what it prints."""
    if "input" not in options:
        options.setdefault("stdin", subprocess.DEVNULL)
    streams: Dict[str, Any] = {"stdout": subprocess.PIPE, "stderr": subprocess.PIPE, **options}
    done = subprocess.run(list(words), check=False, **streams)
    return Answer(done.returncode, (done.stdout or b"").decode(), (done.stderr or b"").decode())


def check_kept(case: Case, compiler: Sequence[str], archive: str, name: str) -> None:
    """Runs a program of tests/ on what a static library keeps under valgrind: each answer is as it
    must be, no byte is lost, and none is read after it was let go."""
    if not shutil.which("valgrind"):
        case.skipTest("what the C library keeps: there is no valgrind")
    with tempfile.TemporaryDirectory() as folder:
        program = os.path.join(folder, "program")
        source = os.path.join(TOP, "tests", name)
        # valgrind reads debug information up to DWARF 4, and says so of each other file.
        words = ["-gdwarf-4", "-Wall", "-Wextra", "-Werror", source, archive, "-o", program]
        made = answer([*compiler, *words, "-lpthread", "-ldl", "-lm"])
        case.assertEqual(made.status, 0, made.err)
        words = ["valgrind", "-q", "--leak-check=full", "--show-leak-kinds=all"]
        words += ["--errors-for-leak-kinds=all", "--error-exitcode=9"]
        done = answer([*words, program])
        case.assertEqual(done[:2], (0, "0 failures\n"), done.err)


def check_objects(case: Case, headers: str, libraries: str) -> None:
    """Runs tests/objects.cpp over the headers and the static library of two folders by each compiler
    of C++."""
    strict = ["-std=c++17", "-Wpedantic", "-Wshadow", "-Wconversion", f"-I{headers}"]
    compilers = [it for it in ("g++", "clang++") if shutil.which(it)]
    if not compilers:
        case.skipTest("the objects of C++: there is no compiler of C++")
    for compiler in compilers:
        with case.subTest(compiler=compiler):
            archive = os.path.join(libraries, "libsimplecss.a")
            check_kept(case, [compiler, *strict], archive, "objects.cpp")


def read(*path: str) -> str:
    """The text of a file of the repository."""
    with open(os.path.join(TOP, *path), encoding="utf-8") as file:
        return file.read()


def version() -> str:
    """The version, which stands in the C library's header."""
    return str(
        re.findall(r'^#define SIMPLECSS_VERSION "(.*)"', read("include/simplecss.h"), re.MULTILINE)[
            0
        ]
    )


def write(path: str, text: str) -> str:
    """Writes a file as it stands. Returns its path."""
    with open(path, "w", encoding="utf-8", newline="") as file:
        file.write(text)
    return path


def kit() -> str:
    """The folder of the toolchain."""
    if not shutil.which("rt"):
        raise unittest.SkipTest("there is no rt: what needs the toolchain")
    page = subprocess.run(["rt", "doc"], stdout=subprocess.PIPE, text=True, check=True).stdout
    return os.path.dirname(page.split("\n")[0])


@functools.lru_cache(maxsize=None)
def shim() -> str:
    """The path of what refuses requests for memory, made by the toolchain's clang."""
    folder = tempfile.TemporaryDirectory()
    unittest.addModuleCleanup(folder.cleanup)
    # As the user nobody, too.
    os.chmod(folder.name, 0o755)
    made = os.path.join(folder.name, "refuse.so")
    words = [
        os.path.join(kit(), "toolchain", "bin", "clang"),
        "-O1",
        "-shared",
        "-fPIC",
        "-nostdlib",
    ]
    source = os.path.join(TOP, "tests", "refuse.c")
    subprocess.run([*words, "-fuse-ld=lld", "-o", made, source], check=True)
    return made


class Refused(NamedTuple):
    """What a program ends with and prints, and a byte for each request that was counted, `x` for
    the refused one."""

    status: int
    out: bytes
    err: bytes
    requests: bytes


def run_refused(words: Sequence[str], refuse: int, marked: bool = False, **streams: Any) -> Refused:
    """Runs a program with the request of this number refused, 0 for none."""
    reader, writer = os.pipe()
    environment: Dict[str, str] = {
        **os.environ,
        "LD_PRELOAD": shim(),
        "REFUSE": str(refuse),
        "REFUSE_FD": str(writer),
        "REFUSE_MARKED": str(int(marked)),
    }
    usual = {"stdin": subprocess.DEVNULL, "stdout": subprocess.PIPE, "stderr": subprocess.PIPE}
    streams = {**usual, **streams}
    child = subprocess.Popen(list(words), env=environment, pass_fds=[writer], **streams)
    os.close(writer)
    out, err = child.communicate()
    with os.fdopen(reader, "rb") as counted:
        requests = counted.read()
    return Refused(child.returncode, out, err or b"", requests)


def real_sheets(folder: str) -> List[str]:
    """Returns the style sheets in a folder, each once."""
    found = set()
    for path in sorted(glob.glob(os.path.join(folder, "**", "*.css"), recursive=True)):
        try:
            with open(path, encoding="utf-8", newline="") as file:
                text = file.read()
        except (UnicodeDecodeError, OSError):
            continue
        if len(text) < 300_000 and not set(text) & {"\0", "\1"}:
            found.add(text)
    return sorted(found)


def browser_answers(template: str, work: Any, options: Sequence[str] = ()) -> Optional[Any]:
    """What a browser answers on a page of this template, or None if there is none or it does not
    answer. It may get options of its own."""
    browser = shutil.which("chromium") or shutil.which("chromium-browser")
    if not browser:
        return None
    with tempfile.TemporaryDirectory() as folder:
        page = os.path.join(folder, "page.html")
        write(page, template % json.dumps(work).replace("<", "\\u003c"))
        words = [
            browser,
            "--headless",
            "--no-sandbox",
            "--disable-gpu",
            f"--user-data-dir={folder}/profile",
        ]
        words += ["--virtual-time-budget=60000", *options, "--dump-dom", "file://" + page]
        try:
            made = subprocess.run(words, capture_output=True, check=False, timeout=120)
        except subprocess.TimeoutExpired:
            return None
    found = re.search(r"ANSWER(.*)END", made.stdout.decode(), re.DOTALL)
    return json.loads(html.unescape(found[1])) if found else None


def package() -> None:
    """Lets the Python package of this checkout be imported."""
    folder = os.path.join(TOP, "python", "src")
    if folder not in sys.path:
        sys.path.insert(0, folder)
