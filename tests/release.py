"""What `./build release` makes: that it is the same twice, that the Rust crate has the API of
`simplecss` 0.2.2 and passes its tests, that it and the WebAssembly module answer as the proved
library does on random texts, and that each package works where it is unpacked, outside the
checkout.

Without out/release it is made first, and so it is where `PROGRAMS` is set, as tests/all.py does.
With `SPEED` in the environment, parsing and matching are timed beside Debian's
librust-simplecss-dev. `SIMPLECSS_TESTS` may name a folder with the tests of the Rust crate 0.2.2:
files `*.rs`, or texts in which lines `// ===== tests/NAME.rs =====` begin them. What needs a tool
or a package of Debian that is missing is left out.
"""
from __future__ import annotations

import base64
import ctypes
import functools
import glob
import gzip
import hashlib
import http.server
import io
import itertools
import json
import os
import pathlib
import random
import re
import shutil
import struct
import subprocess
import sys
import tarfile
import tempfile
import threading
from typing import Any, Callable, Dict, Iterator, List, Optional, Sequence, Tuple

from tests import library_calls, nested_rules, served, tables
from tools import erase, metadata, publish
from tests.common import (
    DEBIAN,
    TOP,
    Case,
    browser_answers,
    count,
    has_modules,
    kit,
    library_path,
    package,
    program,
    read,
    version,
    write,
)

Done = subprocess.CompletedProcess[bytes]
MADE = os.path.join(TOP, "out", "release")
REGISTRY = "/usr/share/cargo/registry"
# Where Debian's packages have the modules of node.
NODE_MODULES = "/usr/share/nodejs"
# How many random texts there are, unless `COUNT` says it.
TEXTS = 8_000
NO_LIMIT = 2**64 - 1
# The length of the buffer that answers are written to.
ROOM = 1 << 20
# The calls of compare.c that write numbers.
OF_NUMBERS = (
    *library_calls.IN_NUMBERS,
    "simplecss_declarations",
    "simplecss_list_numbers",
    "simplecss_page_select",
    "simplecss_dropped",
)
# The elements of the tree of compare.rs.
PAGE: Sequence[Tuple[int, str, List[Tuple[str, str]]]] = [
    (0, "div", [("lang", "en")]),
    (1, "p", [("class", "note b"), ("a", "b")]),
    (2, "a", [("a", "b c"), ("id", "x")]),
    (2, "p", [("a", "x-y"), ("class", "note")]),
    (1, "p", []),
    (2, "color", [("class", "x")]),
    (1, "div", [("a", ""), ("lang", "de")]),
]
# What clicks the first declaration of the playground.
CLICK = "<script type=module>document.querySelector('#elements button').click()</script>"
# fmt: off
PIECES = [
    "a", "p", "div", ".note", "#x", "*", "[a]", "[a=b]", '[a~="b c"]', "[a|='x']", ":first-child",
    ":lang(en)", ":hover", "::x", ">", "+", "~", " ", ",", "{", "}", "{", "}", ";", ":", "color",
    "red", "!important", "! ", '"', "'", "/*", "*/", "/", "@media", "@import", "@", "(", ")",
    "url(x)", "\\", "\n", "\t", "\u00a0", "\u00e9", "\U0001F600", "-", "--", "_", "0", "1px", ".5",
    "%", "#fff", "a{b:c}", "p { color: red }\n", "a,b{x:y;z:w!important}", "<!--", "-->", "\x00",
    "\r\n", "\f", "&", "=", "|", "^", "$",
]
MODERN_PIECES = [
    ":nth-child(2n+1)", ":is(a, p)", ":not(.note)", ":where(", "[a^=b]", "[a$=c i]", "::before",
    "@media print{", "@media screen{", "@layer x{", "}", ":root", "*{", ".note,p{", ":empty{",
    ":has(b)", "@font-face{", "@media", "@page{", ";", "p{color:a(", "color:url(a b)", "x:'", "/*x",
    "--X:{a}", "COLOR:Red;",
]
# fmt: on


@functools.lru_cache(maxsize=None)
def not_made() -> List[str]:
    """Makes the release, if there is none or the gate runs. Returns what it says that it has not
    made."""
    if os.path.isdir(MADE) and "PROGRAMS" not in os.environ:
        return []
    done = run([os.path.join(TOP, "build"), "release"])
    lines = done.stderr.decode().splitlines()
    missing = [line for line in lines if "not made" in line]
    if done.returncode and not missing:
        raise AssertionError(f"./build release: status {done.returncode}: {lines[-20:]}")
    return missing


def run(words: Sequence[str], cwd: str = TOP, **options: Any) -> Done:
    """Runs a program, and keeps what it prints."""
    return subprocess.run(
        words, cwd=cwd, stdout=subprocess.PIPE, stderr=subprocess.PIPE, check=False, **options
    )


def unpack(path: str, folder: str) -> None:
    """Unpacks a tar.gz."""
    with tarfile.open(path) as packed:
        packed.extractall(folder)


class Release(Case):
    """Tests of what was made, each in a folder of its own."""

    def setUp(self) -> None:
        folder = tempfile.TemporaryDirectory()
        self.addCleanup(folder.cleanup)
        self.folder = folder.name

    def works(self, words: Sequence[str], what: str, cwd: str = TOP, **options: Any) -> Done:
        """A program ends with status 0. Returns what it prints."""
        done = run(words, cwd, **options)
        with self.subTest(what=what):
            shown = (done.stdout + done.stderr).decode(errors="replace")[-1500:]
            self.assertEqual(done.returncode, 0, shown)
        return done

    def needs(self, tool: str, what: str) -> None:
        """Leaves out what needs a tool that is missing."""
        if not shutil.which(tool):
            self.skipTest(f"{what}: there is no {tool}")

    def made(self, pattern: str) -> str:
        """The artifact whose name has this form. It may be missing only if a tool that it needs
        is."""
        missing = not_made()
        found = glob.glob(os.path.join(MADE, pattern))
        if not found and missing:
            self.skipTest("; ".join(missing))
        self.assertEqual(len(found), 1, f"artifacts {pattern}")
        return found[0]

    def compare(
        self, what: str, texts: Sequence[bytes], wanted: Sequence[Any], got: Sequence[Any]
    ) -> None:
        """All answers are equal."""
        self.assertEqual(len(got), len(texts), what)
        self.sweep(
            len(texts),
            [
                f"{what}: {text!r}: {given}, not {due}"
                for text, given, due in zip(texts, got, wanted)
                if given != due
            ],
        )
        print(f"{what}: {len(texts)} texts")

    def opens_page(self, page: str) -> None:
        """The playground, opened from a file, shows mistakes, what wins, and why once that is
        clicked."""
        browser = shutil.which("chromium") or shutil.which("chromium-browser")
        if not browser:
            self.skipTest("the page was not opened: there is no chromium")
        words = [
            browser,
            "--headless",
            "--no-sandbox",
            "--disable-gpu",
            f"--user-data-dir={self.folder}/profile",
        ]
        clicked = os.path.join(self.folder, "clicked.html")
        with open(page, encoding="utf-8") as file:
            write(clicked, file.read() + CLICK)
        dom = run(
            [*words, "--virtual-time-budget=20000", "--dump-dom", "file://" + clicked]
        ).stdout.decode()
        for wanted in (
            'data-done="yes"',
            "<mark>a &lt; b { x: y }</mark>",
            "5:1: 'a &lt; b { x: y }': invalid selector",
            "It matches 3 of 8 elements.",
            '<code>.note</code><span class="faint"> (0,1,0)</span>',
            '<s title="another declaration wins">color: blue;</s>',
            "<code>color: red !important;</code>",
            "<code>color of &lt;p&gt;</code>",
            "<code>.note { color: red !important; }</code>"
            '<span class="faint"> (0,1,0) wins</span>',
            "<code>p { color: blue; }</code>"
            '<span class="faint"> (0,0,1) loses by origin and importance</span>',
        ):
            with self.subTest(wanted=wanted):
                self.assertIn(wanted, dom)

    def emulate(self, folder: str, emulator: str, machine: str) -> None:
        """The C library of a folder, for another machine, answers as the proved one, in an
        emulator."""
        what = f"the library for {machine}"
        for tool in (emulator, f"{machine}-gcc"):
            self.needs(tool, what)
        write(os.path.join(self.folder, "page.h"), page_in_c())
        source, made = os.path.join(TOP, "tests/release/compare.c"), f"{self.folder}/compare"
        words = [f"{machine}-gcc", "-O1", "-Wall", "-Werror", f"-I{TOP}/include"]
        words += [f"-I{self.folder}", source, "-o", made, f"-L{folder}", f"-Wl,-rpath,{folder}"]
        self.works([*words, "-lsimplecss"], f"{machine}-gcc")
        texts, words = random_texts(), [emulator, "-L", f"/usr/{machine}", made]
        done = self.works(words, what, input=framed(texts))
        due = all_answered()
        found = parts_of(done.stdout, len(due[0]))
        self.compare(f"{what} and the proved library", texts, due, found)


# ---- random texts, and what the proved library answers


def random_texts() -> List[bytes]:
    """The same texts in every run."""
    rng = random.Random(7)
    lengths = (rng.randrange(1, 14 if number % 2 else 60) for number in range(count(TEXTS)))
    return ["".join(rng.choice(PIECES) for _ in range(length)).encode() for length in lengths]


def framed(texts: Sequence[bytes]) -> bytes:
    """The texts with their lengths."""
    return b"".join(struct.pack("<Q", len(text)) + text for text in texts)


def parts_of(data: bytes, number: int) -> List[List[bytes]]:
    """The answers of a program, `number` for each text."""
    at = 0
    found: List[bytes] = []
    while at < len(data):
        (length,) = struct.unpack_from("<Q", data, at)
        found.append(data[at + 8 : at + 8 + length])
        at += 8 + length
    return [found[at : at + number] for at in range(0, len(found), number)]


class Library:
    """The proved library."""

    def __init__(self) -> None:
        self.library = ctypes.CDLL(library_path())
        rows = (
            (depth, [name, *(it for pair in pairs for it in pair)]) for depth, name, pairs in PAGE
        )
        self.page = library_calls.tree_of(
            *((depth, *(it.encode() for it in words)) for depth, words in rows)
        )
        self.room, self.length = ctypes.create_string_buffer(ROOM), library_calls.SIZE(0)
        self.fault = library_calls.TreeFault()

    def call(self, name: str, *arguments: Any) -> bytes:
        """What a call writes, or nothing where it refuses a selector."""
        name = "simplecss_" + name
        asked = name in library_calls.PORT_ASKED
        tail = (ctypes.byref(self.fault),) if asked or name in library_calls.WITH_TREE else ()
        limit = [library_calls.SIZE(NO_LIMIT)] if asked or name in library_calls.LIMITED else []
        size = ctypes.sizeof(library_calls.SIZE) if name in OF_NUMBERS else 1
        place = (self.room, library_calls.SIZE(ROOM // size), ctypes.byref(self.length))
        with library_calls.given(self.library, name, arguments, self.fault) as (made, words):
            called = getattr(self.library, library_calls.called(name))
            status = called(*words, *limit, *place, *tail)
        status = library_calls.answered_status(made, status)
        assert status in (library_calls.DONE, library_calls.REFUSED), status
        written = size * self.length.value
        return ctypes.string_at(self.room, written) if status == library_calls.DONE else b""

    def modern_answers(self, text: bytes) -> List[bytes]:
        """The answers of compare.c after those of `answers`."""
        texts: List[Any] = [
            ("sheet_statements", text),
            ("declarations", text),
            ("sheet_imports", text),
            ("sheet_contents", text),
            ("lint", text, 1),
            ("taken", text, 0),
            ("taken", text, 3),
            ("clean", text, library_calls.COMPARED, 0),
            ("clean", text, library_calls.COMPARED, 1),
            ("dropped", text, library_calls.COMPARED, 0),
            ("html_encoding", text, text),
            ("close", text),
            ("sheet_printed", text, 0),
            ("sheet_printed", text, 1),
            *(("spell", text, each) for each in (2, 3, 1)),
            ("list_numbers", text, library_calls.MODERN),
            ("list_text", text, library_calls.MODERN),
            ("refusal", text, library_calls.MODERN, self.page),
            ("page_select", self.page, library_calls.MODERN, text, 0, 0, NO_LIMIT),
            (
                "match_selectors",
                *library_calls.buffer_of([text]),
                library_calls.MODERN,
                self.page,
            ),
        ]
        return [self.call(*it) for it in texts]

    def answers(self, text: bytes) -> List[bytes]:
        """The first answers of compare.c, by the grammar of the Rust crate."""
        sheet = (*library_calls.buffer_of([text]), NO_LIMIT)
        texts: List[Any] = [
            ("port_sheet", *sheet),
            ("port_skipped", text),
            ("list_numbers", text, library_calls.PORT),
            ("list_text", text, library_calls.PORT),
            ("port_rules", *sheet),
            ("port_match", *sheet, self.page),
            ("port_styles", *sheet, self.page),
            ("port_selected", text, self.page),
        ]
        return [self.call(*it) for it in texts]


@functools.lru_cache(maxsize=None)
def answered() -> Tuple[List[bytes], List[List[bytes]]]:
    """The random texts, and what the proved library answers to each."""
    texts, library = random_texts(), Library()
    return texts, [library.answers(text) for text in texts]


@functools.lru_cache(maxsize=None)
def all_answered() -> List[List[bytes]]:
    """What the proved library answers to each random text in the calls of compare.c."""
    library = Library()
    return [[*it, *library.modern_answers(text)] for text, it in zip(*answered())]


def page_in_c() -> str:
    """The tree of `PAGE` for compare.c."""
    elements, strings, ends = Library().page
    shapes, stated = list(elements.array), "static const"
    rows = [f"{{{', '.join(map(str, shapes[at : at + 4]))}}}" for at in range(0, len(shapes), 4)]
    arrays = f"PAGE, {len(rows)}, STRINGS, {len(strings)}, ENDS, {len(ends)}, 0, 0, 0, 0, 0"
    return (
        '#include "simplecss.h"\n'
        f"{stated} simplecss_element PAGE[] = {{{', '.join(rows)}}};\n"
        f"{stated} uint8_t STRINGS[] = {{{', '.join(map(str, strings))}}};\n"
        f"{stated} size_t ENDS[] = {{{', '.join(map(str, ends))}}};\n"
        f"{stated} simplecss_tree TREE = {{{arrays}}};\n"
    )


def modern_texts(number: int) -> List[str]:
    """Random texts, most of pieces of modern sheets."""
    rng = random.Random(11)
    pieces = PIECES + 2 * MODERN_PIECES
    return ["".join(rng.choices(pieces, k=rng.randrange(1, 30))) for _ in range(number)]


def nested_texts(number: int) -> List[str]:
    """Random sheets with rules in style rules, of names that the page has."""
    source = nested_rules.Source(12, shared=6)
    names = {"b": "p", "c": "note", "d": "x", "e": "a"}
    every = (source.sheet() for _ in range(number))
    return [re.sub(r"\b[b-e]\b", lambda found: names[str(found.group())], each) for each in every]


def tokens_of(path: str, texts: Sequence[bytes]) -> List[bytes]:
    """What the proved program prints of each text: its tokens."""
    done = run([path, "tokens"], input=b"\x01".join(texts))
    assert done.returncode == 0, f"{path}: status {done.returncode}: {done.stderr!r}"
    return done.stdout.split(b"\x01")[:-1]


class Lines:
    """An answer of lines, some of which say the length of a text after them."""

    def __init__(self, answer: bytes) -> None:
        self.answer = io.BytesIO(answer)

    def __iter__(self) -> Iterator[List[bytes]]:
        """The words of each further line."""
        for line in self.answer:
            yield line[:-1].split(b" ")

    def text(self, length: int) -> bytes:
        """A text, after which a line ends."""
        return self.answer.read(length + 1)[:-1]


def skipped_as_text(answer: bytes) -> bytes:
    """What is skipped, in the form of compare.rs."""
    lines, found = Lines(answer), b""
    for row, column, length, *reason in lines:
        found += b":".join([row, column, b" ".join(reason), lines.text(int(length))]) + b"\n"
    return found


def winners_as_text(answer: bytes) -> bytes:
    """The winners of elements, in the form of compare.rs."""
    lines, found = Lines(answer), b""
    for (count,) in lines:
        for name, value, important in itertools.islice(lines, int(count)):
            text = lines.text(int(name) + int(value))
            is_important = (b"false", b"true")[int(important)]
            found += b"%s=%s=%s;" % (text[: int(name)], text[int(name) :], is_important)
        found += b"\n"
    return found


def selector_as_text(text: bytes, numbers: bytes, printed: bytes) -> bytes:
    """The selector that a text is, in the form of compare.rs."""
    if not printed or set(text) & set(b",{/"):
        return b""
    counts = struct.unpack_from("<3Q", numbers, 3 * 8)
    return b"%s\t%d,%d,%d\n" % (printed, *counts)


def as_text(text: bytes, answers: Sequence[bytes], tokens: bytes) -> List[bytes]:
    """The same answers in the form of compare.rs."""
    sheet, skipped, numbers, printed, _, matches, styles, _ = answers
    return [
        sheet,
        selector_as_text(text, numbers, printed),
        skipped_as_text(skipped),
        matches,
        winners_as_text(styles),
        tokens,
    ]


# ---- the eraser

# A source, and what is left of it.
ERASED = [
    ("ghost use Rattle.std.specs.Prelude.{A, B};\n\npub fn f() {}\n", "\n\npub fn f() {}\n"),
    (
        (
            "fn f(a: u8) -> u8\n    // Holds.\n    ensures bound { result ≤ 4 }\n    requires {"
            " a.now < 3 }\n{\n    a\n}\n"
        ),
        "fn f(a: u8) -> u8 {\n    a\n}\n",
    ),
    ("fn f()\n    ensures { x ≡ '}' };\n", "fn f();\n"),
    (
        "struct A {\n    /// A list.\n    pub ghost items: { List Nat },\n    pub b: u8,\n}\n",
        "struct A {\n\n    pub b: u8,\n}\n",
    ),
    ("let a = A { ghost items = { nil }, b: 1 };", "let a = A {  b: 1 };"),
    (
        (
            "#![tactic(auto)]\n#[derive(Drop)]\n#[derive(Clone, Drop,"
            " Debug)]\n#[tactic(auto)]\n#[inline]\nstruct A;\n"
        ),
        "\n\n#[derive(Clone, Debug)]\n\n#[inline]\nstruct A;\n",
    ),
    (
        'let a = "ghost { requires }"; // ghost use x;\n',
        'let a = "ghost { requires }"; // ghost use x;\n',
    ),
    (
        "let a: &'static str = b; let c = '{'; let d = b'\\'';\n",
        "let a: &'static str = b; let c = '{'; let d = b'\\'';\n",
    ),
]
# A source that is refused, and the line.
REFUSED = [
    ("\nghost fn f() {}\n", 2),
    ("ghost x = 3;\n", 1),
    ("ghost x = { 3 } + 4;\n", 1),
    ("fn f()\n    ensures (result)\n{}\n", 2),
    ("fn f() { let a = b ≤ c; }\n", 1),
    ("\n\n#[trusted]\nfn f() {}\n", 3),
    ("#[derive(Serialize)]\nstruct A;\n", 1),
    ("/* a */\n", 1),
    ("fn f() requires { a\n", 1),
]


class Eraser(Release):
    """What is left of small sources, and which are refused."""

    def setUp(self) -> None:
        super().setUp()
        erase.TOP = pathlib.Path(self.folder)
        self.source = erase.TOP / "a.rt"

    def test_left(self) -> None:
        for text, wanted in ERASED:
            with self.subTest(text=text):
                self.source.write_text(text, encoding="utf-8")
                self.assertEqual(erase.Eraser(self.source).read(), wanted)

    def test_refused(self) -> None:
        for text, line in REFUSED:
            with self.subTest(text=text):
                self.source.write_text(text, encoding="utf-8")
                with self.assertRaisesRegex(erase.Unknown, f"^a.rt:{line}: "):
                    erase.Eraser(self.source).read()


# ---- the Rust crate

PROJECT = """[package]
name = "{name}"
version = "0.0.0"
edition = "2021"
[dependencies]
{needs}[profile.release]
lto = true
codegen-units = 1
[workspace]
"""


class Cargo:
    """A folder in which cargo takes other crates from Debian's packages."""

    def __init__(self, case: Release) -> None:
        self.case, self.folder = case, case.folder
        os.makedirs(os.path.join(self.folder, "home"))
        text = (
            '[source.crates-io]\nreplace-with = "debian"\n[source.debian]\ndirectory ='
            f' "{REGISTRY}"\n'
        )
        write(os.path.join(self.folder, "home", "config.toml"), text)
        rustup = os.environ.get("RUSTUP_HOME") or os.path.expanduser("~/.rustup")
        self.environment = {
            **os.environ,
            "CARGO_HOME": os.path.join(self.folder, "home"),
            "RUSTUP_HOME": rustup,
            "CARGO_TARGET_DIR": os.path.join(self.folder, "target"),
            "PATH": os.environ["PATH"] + os.pathsep + os.path.expanduser("~/.cargo/bin"),
        }

    def __call__(self, words: Sequence[str], cwd: str, what: str, **options: Any) -> Done:
        """Runs cargo, which ends with status 0 and warns of nothing."""
        done = self.case.works(
            ["cargo", *words, "--offline"], what, cwd, env=self.environment, **options
        )
        lines = done.stderr.decode().splitlines()
        warned = [line for line in lines if line.startswith("warning") and "Cargo.lock" not in line]
        with self.case.subTest(what=what):
            self.case.assertEqual(warned[:3], [])
        return done

    def lacks(self, package: str) -> Optional[str]:
        """Why a package cannot be compiled here, or None."""
        if not shutil.which("cargo", path=self.environment["PATH"]):
            return "there is no cargo"
        found = re.match(
            rb"cargo (\d+)\.(\d+)", run(["cargo", "--version"], env=self.environment).stdout
        )
        with open(os.path.join(package, "Cargo.toml"), encoding="utf-8") as file:
            wanted = re.search(r'rust-version = "(\d+)\.(\d+)"', file.read())
        assert wanted
        if not found or tuple(map(int, found.groups())) < tuple(map(int, wanted.groups())):
            return f"cargo is not of {wanted[0]}"
        lacking = [name for name in ("log", "roxmltree") if not self.has(name)]
        return f"there is no librust-{lacking[0]}-dev" if lacking else None

    def pass_tests_of_0_2_2(self, needed: str) -> None:
        """The tests of the crate 0.2.2 pass over the crate of this dependency."""
        tests = tests_of_0_2_2()
        if not tests:
            self.case.skipTest("the tests of the crate 0.2.2: SIMPLECSS_TESTS names none")
        folder = self.project(
            "own_tests", needed + 'roxmltree = "0.16"\n', **{"src/lib.rs": "", **tests}
        )
        done = run(["cargo", "test", "--offline"], folder, env=self.environment)
        counts = re.findall(r"test result: \w+\. (\d+) passed; (\d+) failed", done.stdout.decode())
        passed, failed = (sum(int(it[at]) for it in counts) for at in (0, 1))
        print(f"the tests of the crate 0.2.2: {passed} passed, {failed} failed")
        shown = f"{done.stdout.decode()[-1500:]} {done.stderr.decode()[-1500:]}"
        self.case.assertTrue(done.returncode == 0 and failed == 0 and passed > 0, shown)

    def has(self, name: str) -> bool:
        """Whether a crate is among Debian's."""
        return bool(glob.glob(os.path.join(REGISTRY, name + "-[0-9]*")))

    def project(self, name: str, needs: str, **files: str) -> str:
        """A folder with a program or tests over the crate."""
        folder = os.path.join(self.folder, name)
        files["Cargo.toml"] = PROJECT.format(name=name, needs=needs)
        for path, text in files.items():
            os.makedirs(os.path.dirname(os.path.join(folder, path)), exist_ok=True)
            with open(os.path.join(folder, path), "w", encoding="utf-8") as file:
                file.write(text)
        return folder


def tests_of_0_2_2() -> Dict[str, str]:
    """The test files of the crate 0.2.2 by their names, but the one that runs an example of its
    own."""
    folder = os.environ.get("SIMPLECSS_TESTS")
    found: Dict[str, str] = {}
    for path in sorted(glob.glob(os.path.join(folder, "*"))) if folder else []:
        with open(path, encoding="utf-8") as file:
            text = file.read()
        if path.endswith(".rs"):
            found["tests/" + os.path.basename(path)] = text
        parts = re.split(r"(?m)^// ===== (tests/\S+\.rs|\S+) =====\n", text)
        found.update(
            (name, body)
            for name, body in zip(parts[1::2], parts[2::2])
            if name.startswith("tests/")
        )
    return {name: text for name, text in found.items() if not name.endswith("warnings.rs")}


WARNINGS = """
use std::sync::Mutex;
static SEEN: Mutex<Vec<String>> = Mutex::new(Vec::new());
struct Keeps;
impl log::Log for Keeps {
    fn enabled(&self, _: &log::Metadata) -> bool { true }
    fn log(&self, record: &log::Record) {
        SEEN.lock().unwrap().push(format!("{}: {}", record.level(), record.args()))
    }
    fn flush(&self) {}
}
fn main() {
    log::set_logger(&Keeps).unwrap();
    log::set_max_level(log::LevelFilter::Trace);
    for text in ["> {}", "@import 'subs.css';", "a:x {}"] { simplecss::StyleSheet::parse(text); }
    print!("{}", SEEN.lock().unwrap().join("\\n"));
}
"""
WARNED = """WARN: Selector parsing failed cause unexpected combinator.
WARN: The @import rule is not supported. Skipped.
WARN: ':x' is not supported. Selector skipped."""
DRAWING = (
    b"<svg><style>.a { fill: red } path { fill: blue !important; x: 1 }</style>"
    b"<path class='a' style='fill: none; x: 2'/></svg>"
)


class Crate(Release):
    """The erased crate."""

    def setUp(self) -> None:
        super().setUp()
        unpack(self.made("simplecss-0.2.2.crate"), self.folder)
        self.cargo, self.package = Cargo(self), os.path.join(self.folder, "simplecss-0.2.2")
        self.needed = f'simplecss = {{ path = "{self.package}" }}\n'
        why = self.cargo.lacks(self.package)
        if why:
            self.skipTest(f"the Rust crate was not compiled: {why}")

    def test_package(self) -> None:
        self.cargo(["doc", "--no-deps"], self.package, "cargo doc")
        self.cargo(["test", "--doc"], self.package, "the crate's doc tests")
        self.cargo(["package", "--allow-dirty"], self.package, "cargo package")

    def test_clippy(self) -> None:
        if run(["cargo", "clippy", "--version"], env=self.cargo.environment).returncode:
            self.skipTest("clippy of the Rust crate: there is none")
        self.cargo(["clippy", "--all-features"], self.package, "cargo clippy")
        self.cargo(
            ["clippy", "--no-default-features"], self.package, "cargo clippy without features"
        )

    def test_example(self) -> None:
        words = ["run", "-q", "--example", "drawing"]
        done = self.cargo(words, self.package, "the example", input=DRAWING)
        self.assertEqual(done.stdout.decode().splitlines()[-1:], ['path fill="blue" x="2"'])

    def test_own_tests(self) -> None:
        """The tests of the crate 0.2.2 pass, unchanged."""
        self.cargo.pass_tests_of_0_2_2(self.needed)

    def test_warnings(self) -> None:
        project = self.cargo.project(
            "warnings", self.needed + 'log = "0.4"\n', **{"src/main.rs": WARNINGS}
        )
        done = self.cargo(["run", "-q"], project, "warnings")
        self.assertEqual(done.stdout.decode(), WARNED)

    def test_answers(self) -> None:
        """The crate answers as the proved library does, and has the tokens of the proved
        program."""
        files = {"src/main.rs": read("tests", "release", "compare.rs")}
        project = self.cargo.project("compare", self.needed, **files)
        texts, wanted = answered()
        done = self.cargo(
            ["run", "-q", "--release"], project, "the comparison", input=framed(texts)
        )
        tokens = tokens_of(program("tests_driver"), texts)
        due = [as_text(*it) for it in zip(texts, wanted, tokens)]
        self.compare("the Rust crate and the proved sources", texts, due, parts_of(done.stdout, 6))

    def test_speed(self) -> None:
        """Shows how long the crate and the one of Debian take to parse a sheet, and to test each
        rule on each element."""
        # The sheet of Debian's package libjs-bootstrap4.
        sheets = glob.glob("/usr/share/javascript/bootstrap4/css/bootstrap.css")
        if "SPEED" not in os.environ:
            return
        if not self.cargo.has("simplecss") or not sheets:
            self.skipTest(
                "the speed of the Rust crate: there is no librust-simplecss-dev or no"
                " libjs-bootstrap4"
            )
        # Two crates of one name cannot be linked by one program.
        peer = os.path.join(self.folder, "peer")
        shutil.copytree(glob.glob(os.path.join(REGISTRY, "simplecss-0.2.0"))[0], peer)
        with open(os.path.join(peer, "Cargo.toml"), encoding="utf-8") as file:
            stated = file.read().replace('name = "simplecss"', 'name = "peer"')
        write(os.path.join(peer, "Cargo.toml"), stated)
        files = {"src/main.rs": read("tests", "release", "speed.rs")}
        project = self.cargo.project(
            "speed", self.needed + f'peer = {{ path = "{peer}" }}\n', **files
        )
        words = ["cargo", "run", "-q", "--release", "--offline", "--", sheets[0]]
        print(
            self.works(words, "the speed", project, env=self.cargo.environment).stdout.decode(),
            end="",
        )


# ---- the other packages


class Wheel(Release):
    """The wheel's package passes its tests where nothing else of this repository is."""

    def setUp(self) -> None:
        super().setUp()
        self.environment = {
            "PATH": os.environ["PATH"],
            "HOME": self.folder,
            "PYTHONDONTWRITEBYTECODE": "1",
        }

    def install(self) -> str:
        """Installs the wheel. Returns the folder of its programs."""
        wheel = self.made("simplecss-*-manylinux_2_5_x86_64*.whl")
        venv = os.path.join(self.folder, "venv")
        if run(
            [sys.executable, "-m", "venv", "--without-pip", os.path.join(self.folder, "probe")]
        ).returncode:
            self.skipTest("the wheel was not installed: there is no python3-venv")
        self.works([sys.executable, "-m", "venv", venv], "venv")
        words = [
            "-m",
            "pip",
            "install",
            "-q",
            "--no-index",
            "--no-deps",
            "--disable-pip-version-check",
            wheel,
        ]
        python = os.path.join(venv, "bin", "python")
        self.works([python, *words], "pip install", self.folder, env=self.environment)
        return os.path.join(venv, "bin")

    def test_own_tests(self) -> None:
        """The tests with the files that they read, and no package beside them."""
        folder = self.install()
        for name in ("python/tests", "examples", "include", "tests/cases", "tests/mails"):
            shutil.copytree(os.path.join(TOP, name), os.path.join(self.folder, "copy", name))
        os.mkdir(os.path.join(self.folder, "copy", "docs"))
        for name in ("python/README.md", "docs/PYTHON.md"):
            shutil.copy(os.path.join(TOP, name), os.path.join(self.folder, "copy", name))
        words = [
            os.path.join(folder, "python"),
            "-m",
            "unittest",
            "discover",
            "-s",
            "copy/python/tests",
        ]
        done = run(words, self.folder, env=self.environment)
        text = done.stderr.decode()
        found = re.search(r"Ran (\d+) tests", text)
        self.assertTrue(done.returncode == 0 and found and int(found[1]) > 0, text[-1500:])
        print(f"the package's tests on the wheel: {found[1] if found else 0}")

    def test_installed(self) -> None:
        """The command, and the library that is loaded: it imports no more than memory."""
        folder = self.install()
        words = [os.path.join(folder, "simplecss"), "--help"]
        self.works(words, "simplecss --help", self.folder, env=self.environment)
        line = "import simplecss; print(simplecss.library_path(), simplecss.__version__)"
        words = [os.path.join(folder, "python"), "-c", line]
        done = self.works(words, "where the library is", self.folder, env=self.environment)
        path, _, shown = done.stdout.decode().strip().rpartition(" ")
        self.assertEqual((path[: len(self.folder)], shown), (self.folder, version()))
        self.needs("nm", "what the library imports")
        imported = re.findall(r" U (\S+)", run(["nm", "-D", path]).stdout.decode())
        allowed = {"free", "malloc", "memcpy", "memmove", "memset", "realloc"}
        self.assertEqual(set(imported) - allowed, set())

    def pip_wheel(self, checkout: str) -> List[str]:
        """The words by which pip makes a wheel of a checkout, without the C library in it."""
        able = [
            it for it in (sys.executable, DEBIAN) if has_modules(it, "setuptools", "wheel", "pip")
        ]
        if not able:
            packages = "(python3-setuptools, python3-wheel, python3-pip)"
            self.skipTest(
                f"pip install from a checkout: there is no setuptools, wheel or pip {packages}"
            )
        second_checkout(checkout, ())
        words = [able[0], "-m", "pip", "wheel", "-q", "--no-build-isolation", "--no-deps"]
        return [*words, "--disable-pip-version-check", "-w", "made", "./python"]

    def has_library(self, checkout: str) -> None:
        """The wheel of a checkout is one, for this system, and has the library."""
        found = glob.glob(os.path.join(checkout, "made", "simplecss-*-py3-none-linux_*.whl"))
        self.assertEqual(len(found), 1)
        self.assertIn(
            b"simplecss/libsimplecss.so",
            run([sys.executable, "-m", "zipfile", "-l", *found]).stdout,
        )

    def test_checkout(self) -> None:
        """From a checkout pip makes a wheel with the proved library. Where there is none and no
        cargo, it says what to do."""
        checkout = os.path.join(self.folder, "checkout")
        words = self.pip_wheel(checkout)
        done = run(
            words, checkout, env={**os.environ, "PATH": "/usr/bin:/bin", "CARGO_HOME": self.folder}
        )
        if not shutil.which("cargo", path="/usr/bin:/bin"):
            self.assertNotEqual(done.returncode, 0)
            self.assertIn(
                b"run ./build library with the toolchain first", done.stdout + done.stderr
            )
        os.makedirs(os.path.join(checkout, "out"))
        shutil.copy(library_path(), os.path.join(checkout, "out"))
        self.works(words, "pip with a library", checkout)
        self.has_library(checkout)

    def test_arm(self) -> None:
        """The library for aarch64 answers as the proved one, in an emulator."""
        self.needs("qemu-aarch64", "the wheel for aarch64 was not run")
        wheel = self.made("simplecss-*aarch64*.whl")
        shutil.unpack_archive(wheel, os.path.join(self.folder, "arm"), "zip")
        folder = os.path.join(self.folder, "arm", "simplecss")
        library = os.path.join(folder, "libsimplecss.so")
        shutil.copy(library, library + ".0")
        self.emulate(folder, "qemu-aarch64", "aarch64-linux-gnu")


CMAKE = """cmake_minimum_required(VERSION 3.13)
project(page C CXX)
find_package(simplecss %s REQUIRED)
foreach(kind simplecss static)
  foreach(end c cpp)
    add_executable(page_${kind}_${end} page.${end})
    target_link_libraries(page_${kind}_${end} PRIVATE simplecss::${kind})
  endforeach()
endforeach()
"""
# What `examples/c/page.c` prints.
PRINTED = b"1:\n2: 1 2\n3:\n"
# What `examples/c/unused.c` does.
UNUSED = b"p\nol li\n& b\n"
# What `examples/c/values.c` does: without the values that no browser takes, and in quirks mode.
VALUES = b"position: sticky; width: 2em; style[0] \nposition: sticky; width: 34; style[0] \n"


class Program(Release):
    """The tarball and the Debian packages work where they are unpacked."""

    def prefixes(self) -> List[Tuple[str, str]]:
        """The folders into which they are unpacked, and in each that of the libraries."""
        unpack(self.made("cssq-*-linux-x86_64.tar.gz"), self.folder)
        (found,) = glob.glob(os.path.join(self.folder, "cssq-*"))
        root = os.path.join(self.folder, "root")
        if not shutil.which("dpkg-deb"):
            return [(found, os.path.join(found, "lib"))]
        for path in self.packages():
            self.works(["dpkg-deb", "-x", path, root], "dpkg-deb")
        system = os.path.join(root, "usr")
        libraries = os.path.join(system, "lib", "x86_64-linux-gnu")
        return [(found, os.path.join(found, "lib")), (system, libraries)]

    def packages(self) -> List[str]:
        """The Debian packages: of the program, the library, and its callers."""
        return [self.made(f"{it}_*_amd64.deb") for it in ("cssq", "libsimplecss[0-9]", "*-dev")]

    def test_fields(self) -> None:
        self.needs("dpkg-deb", "the Debian packages were not unpacked")
        program, library, callers = self.packages()
        name = os.path.basename(library).partition("_")[0]
        rows = [
            (program, "cssq", "Section: web"),
            (library, name, "Multi-Arch: same"),
            (callers, "libsimplecss-dev", f"Depends: {name} (= {version()})"),
        ]
        for path, package, field in rows:
            done = self.works(["dpkg-deb", "-I", path], "dpkg-deb -I")
            for wanted in (f"Version: {version()}", f"Package: {package}", field):
                with self.subTest(path=path, wanted=wanted):
                    self.assertIn(f" {wanted}\n", done.stdout.decode())
        # The program needs no other package.
        self.assertNotIn(
            b" Depends:", self.works(["dpkg-deb", "-I", program], "dpkg-deb -I").stdout
        )
        done = self.works(["dpkg-deb", "-I", library, "shlibs"], "dpkg-deb -I")
        number = name.removeprefix("libsimplecss")
        due = f"libsimplecss {number} {name} (>= {version()})\n"
        self.assertEqual(done.stdout.decode(), due)

    def test_lintian(self) -> None:
        """Lintian finds no error in the packages."""
        self.needs("lintian", "the Debian packages before lintian")
        done = run(["lintian", "--allow-root", *self.packages()], TOP)
        found = re.findall(r"^E: .*", done.stdout.decode(), re.MULTILINE)
        if not metadata.read_metadata().authors:
            found = [it for it in found if not re.search("(?i)maintainer|changelog", it)]
        self.assertEqual(found, [])

    def test_hardened(self) -> None:
        """What is linked is written only before it runs, at any address, and no stack runs."""
        self.needs("readelf", "how the program and the library are linked")
        for prefix, libraries in self.prefixes():
            shared = glob.glob(os.path.join(libraries, "libsimplecss.so*"))
            self.assertEqual(len(shared), 2)
            for path in (os.path.join(prefix, "bin", "cssq"), *shared):
                text = self.works(["readelf", "-hldW", path], "readelf").stdout.decode()
                with self.subTest(path=path):
                    self.assertRegex(text, r"Type: +DYN ")
                    self.assertRegex(text, r"GNU_STACK +(0x\w+ +){5}RW +\w+\n")
                    self.assertRegex(text, r"GNU_RELRO ")
                    self.assertRegex(text, r"\(FLAGS_1\) .*\bNOW\b")
                    self.assertNotIn("INTERP", text)

    def test_answers(self) -> None:
        write(os.path.join(self.folder, "page.css"), ".note { color: red }\n")
        write(os.path.join(self.folder, "page.html"), "<div><p class=note></div>")
        write(os.path.join(self.folder, "page.tree"), "0\tdiv\n1\tp\tclass=note\n")
        rows = [
            (["cssq", "style", "page.css", "page.tree", "color"], "1:\n2: red\n"),
            (["cssq", "style", "page.css", "page.html", "color"], "1:\n2: red\n"),
            (["cssq", "--version"], f"cssq {version()}\n"),
        ]
        for prefix, _ in self.prefixes():
            for words, wanted in rows:
                with self.subTest(prefix=prefix, words=words):
                    path = os.path.join(prefix, "bin", words[0])
                    done = run([path, *words[1:]], self.folder, env={"PATH": "/usr/bin:/bin"})
                    self.assertEqual((done.returncode, done.stdout.decode()), (0, wanted))
            with self.subTest(prefix=prefix, words=["--help"]):
                done = run([os.path.join(prefix, "bin", "cssq"), "--help"], self.folder, env={})
                self.assertEqual((done.returncode, done.stdout[:18]), (0, b"cssq reads CSS 2.1"))
            with self.subTest(prefix=prefix):
                page = read(prefix, "share", "doc", "cssq", "PROGRAM.md")
                self.assertIn("| `cssq selector 'a > .b'` | `a > *", page)
                self.assertEqual(re.findall(r"\./|tools/|build|toolchain", page), [])

    def test_completion(self) -> None:
        self.needs("bash", "completion")
        write(os.path.join(self.folder, "page.tree"), "")
        for prefix, _ in self.prefixes():
            completion = os.path.join(prefix, "share/bash-completion/completions/cssq")
            tried = "; ".join(
                f'COMP_WORDS=({words}); COMP_CWORD={number}; _cssq; echo "${{COMPREPLY[*]}}"'
                for words, number in (("cssq s", 1), ("cssq match page.css page.t", 3))
            )
            with self.subTest(prefix=prefix):
                done = run(["bash", "-c", f". {completion}; {tried}"], self.folder)
                self.assertEqual(done.stdout, b"selector sheet style\npage.tree\n", done.stderr)

    def test_manual(self) -> None:
        self.needs("man", "the manual")
        for prefix, _ in self.prefixes():
            path = os.path.join(prefix, "share/man/man1/cssq.1.gz")
            with self.subTest(prefix=prefix):
                environment = {**os.environ, "MANWIDTH": "120", "LC_ALL": "C.UTF-8"}
                done = run(["man", "--warnings", "-l", path], env=environment)
                self.assertEqual((done.returncode, done.stderr), (0, b""))
                self.assertIn(b"cssq selector TEXT", done.stdout)

    def test_example_in_c(self) -> None:
        """The example that is in the packages, as C and as C++, as docs/C.md says."""
        self.needs("gcc", "the C example over the tarball")
        self.needs("pkg-config", "the C example over the tarball")
        compilers = [["gcc", "-std=c99"], ["g++", "-x", "c++", "-std=c++11"]]
        for prefix, libraries in self.prefixes():
            (source,) = glob.glob(os.path.join(prefix, "share", "doc", "*", "examples", "page.c"))
            path = os.path.join(self.folder, "page")
            environment = {**os.environ, "PKG_CONFIG_PATH": os.path.join(libraries, "pkgconfig")}
            words = ["pkg-config", "--cflags", "--libs", "simplecss"]
            done = self.works(words, "pkg-config", env=environment)
            flags = done.stdout.decode().split()
            for compiler in compilers:
                self.needs(compiler[0], "the C example as C++")
                for more in ("-static", f"-Wl,-rpath,{libraries}"):
                    words = [*compiler, "-Wall", "-Werror", source, "-x", "none", "-o", path]
                    self.works([*words, *flags, more], f"page.c {more}")
                    with self.subTest(prefix=prefix, compiler=compiler, more=more):
                        ran = run([path], env={})
                        self.assertEqual((ran.returncode, ran.stdout), (0, PRINTED))

    def test_cmake(self) -> None:
        """CMake finds the libraries; not for another version."""
        for tool in ("cmake", "g++", "make"):
            self.needs(tool, "the libraries by CMake")
        first, second, *_ = version().split(".")
        rows = [(f"{first}.{second}", 0), (f"{first}.{int(second) + 1}", 1), (f"{first}", 0)]
        for number, (prefix, libraries) in enumerate(self.prefixes()):
            source = os.path.join(self.folder, f"source{number}")
            os.makedirs(source)
            for end in ("c", "cpp"):
                shutil.copy(os.path.join(TOP, "examples/c/page.c"), f"{source}/page.{end}")
            for wanted, status in rows:
                write(os.path.join(source, "CMakeLists.txt"), CMAKE % wanted)
                built = os.path.join(source, wanted)
                words = ["cmake", "-S", source, "-B", built, f"-DCMAKE_PREFIX_PATH={prefix}"]
                words.append(f"-Dsimplecss_DIR={libraries}/cmake/simplecss")
                with self.subTest(prefix=prefix, version=wanted):
                    done = run(words)
                    self.assertEqual(min(done.returncode, 1), status, done.stderr.decode()[-1500:])
            self.works(["cmake", "--build", os.path.join(source, rows[0][0])], "cmake --build")
            for path in glob.glob(os.path.join(source, rows[0][0], "page_*")):
                with self.subTest(path=path):
                    self.assertEqual(run([path], env={}).stdout, PRINTED)


# Sheets with mistakes of each kind, and some without.
SHEETS = [
    "",
    "a { color: red }\n",
    ".note { color: a !important } p { color: b; COLOR: c; x: y } * { color: d !important; x: z }",
    "#x { color: a } @media { a { color: b !important } } @media print { * { color: c } } a { b: c }",
    "a < b { x: y }\n@media print { c { d: e } }\n",
    "a { b }\r\nc { d: e; f; g: h }\r\n",
    "\ufeffa { b: c;; d }",
    "é > < ü { x: y }\n  é { \U0001F600 } \U0001F600 < { }\n",
    "a { b: url(c d); e: f }",
    "a { b: 'c\n; d: e } f { g: h }",
    "@media screen { a { b: c",
    "@media screen",
    "@media screen { @supports (a: b) { c { d: e } }",
    "a { b: c } /* d",
    "/* a */ b { c: d(e",
    "@font-face { a: b; c; d: url(e f) } @page { f }",
    "@font-face { a: b",
    "@charset 'x'; @import url(a); b { c: d }",
    "a:has(b) { c: d } ::-x-y { e: f } a::before::after { }",
    "a, b:nth-child(2n { c: d } e { f: g }",
    "} a { b: c } ) d { e: f }",
    "a { b: \x01\x7f\x9b } \t\t c d < e f g h i j k l m n o p q r s t u v w x y z a b c d e f g { }",
    "@layer a { @layer b { c { d: e } } } f { &:hover { g: h } i }",
    "@layer y, x; @layer x { p { color: a; b: c !important } * { d: e } } p { color: f }",
    "@layer x { #x { color: a !important } } @layer y { p, * { color: b !important } } * { color: c }",
    "@layer x { @layer z { p { color: a } } p { color: b } @layer w { p { color: c } } }",
    "@media (device-width: 400px) and (device-height: 9px) and (forced-colors) { * { a: b } }"
    "@media (prefers-contrast: more) and (prefers-reduced-transparency) { * { b: c } }"
    "@media (color-gamut: p3) and (dynamic-range: high) and (grid) { * { c: d } }"
    "@media (color: 9) and (color-index: 2) and (monochrome: 3) { * { d: e } }"
    "@media (update: slow) and (scripting: initial-only) { * { e: f } }"
    "@media (display-mode: standalone) and (any-hover) { * { f: g } }"
    "@media (any-pointer: coarse) and (any-pointer: fine) { * { g: h } }",
    "@media print { @layer y; } @layer x { p { color: a } } @layer y { p { color: b } } @layer { p { b: c } }",
    "p { color: a; & b { color: c } @media screen { d: e; & { color: f } } color: g }",
    "p { @layer x { color: a; &.note { b: c } } color: d; @media print { color: e } }",
    "ul, p { > li { color: a; &:first-child, .b & { color: b } } & + & { color: c !important } }",
    "a{b:c}" * 2000 + "d < e{}",
    "@media a{" * 70 + "b { c: d }",
    "@font-face{" * 3000,
    "a:hoverr, b::befor, c:nth-chidl(2n), [d=':e'] { colr: red; top: 0; left: 0; top: 1px } @medai { }",
    "a { } @media print { } b { top: 0 !importnat; left: 0\n right: 0 } c { content: 'x }\nd { top: 0 }",
    "a { background: url(b; top: 0 }\nc { left: 0 }",
    "a { colr: red } /* simplecss-ignore unknown */\nb { colr: red } c { content: 'd /* ' e",
    "a { top: 0; /* b }",
    '@media é, (hover) and (MIN-WIDHT: 1px), (foo: bar) { a { top: 0 } } @media ("(widht") { }',
    "a { *zoom: 1; _height: 1px; @media print { tpo: 0 } &:hover { tpo: 0 } } @scope (a) { b { tpo: 0 } }",
]
# A sheet with classes in rules, in rules in these, and with escapes, and what `edit` is asked for of it.
NAMED_SHEET = """@namespace svg url(http://www.w3.org/2000/svg);
/* .a */ .a, p > .b\\:c:not(.d é) , [class=".e"] { color: red; .e & { top: 0; .f { x: y } } } {} .é{
@media print { #x.y { color: blue } @layer { .\\31 a, svg|*::before { top: 0 } } } @font-face { src: url(.g) }
"""
MARKED_PAGE = "\ufeff<!DOCTYPE html><html><head><style>p{top:1px}</style></head><body><p class=a>é</p></body></html>"
SCOPES: Sequence[Sequence[str]] = (
    [],
    ["--scope", ".m > *"],
    ["--prefix", "1-"],
    ["--prefix", "q-", "--scope", "#é, b"],
)
PAGES = [
    (
        "text/html",
        "<!DOCTYPE html><title>a</title><p class='Note b'>1<a HREF='#x' lang=en-GB><b>2</b></a>"
        "<ul><li><li class=note id=X> <li>3<!-- c --></ul><input type=TEXT><svg><a xlink:href=x />"
        "<g id=g></g></svg><p lang=de>",
    ),
    ("text/html", "<p class=NOTE id=x>1<p class='a&#10;b'><table><tr><td><a><i></i></a></table>"),
    ("application/xml", "<a xmlns:x='u'><b x:c='d' c='e'/><B C='D'>x</B><x:b class='n'/></a>"),
    (
        "application/xhtml+xml",
        "<html xmlns='http://www.w3.org/1999/xhtml'><body dir='rtl'><input type='CHECKBOX' checked=''/>"
        "<INPUT checked=''/><button disabled='x'/><p dir='ltr'>1</p><select required=''/>"
        "<svg xmlns='http://www.w3.org/2000/svg'><input checked=''/></svg></body></html>",
    ),
]
# A document in XML, with names that differ in case, prefixes and a text.
XML_PAGE = """<svg xmlns="http://www.w3.org/2000/svg" xmlns:l="http://www.w3.org/1999/xlink">
<g class="note" id="x"/><G><!-- c --><l:g l:href="#x">&lt;</l:g></G>
<a href="b" class="a b"><![CDATA[<g>]]></a></svg>
"""
# fmt: off
SELECTORS = [
    "*", "p", "P", ".note", ".NOTE", "#x", "#X", "[type=text]", "[class~=b]", "a:link",
    ":any-link", "li:nth-child(2n+1)", "li:nth-last-of-type(2)", "li:empty",
    "p ~ ul > li:not(.note, :empty)", "p + p", ":root > *", ":scope > *", ":checked, :disabled",
    ":enabled", ":required", ":dir(rtl)", "ul > :scope, & b", ":is(ul, p) :where(a, li)",
    "[href^='#' i]", "[lang|=en]", ":lang(en)", ":lang(de)", "b:only-child", "i:first-of-type",
    "td > a, [c=e]", "[class='a\\a b']", ".b",
]
# fmt: on
# Rules that match something of the pages, and rules that do not.
USED = """
p, .note { color: red !important } li { top: 0 } .none, ul { left: 0 } .none:hover { top: 0 }
@media print { b { top: 0 } } @media (max-width: 500px) { #X { top: 1px } }
a:hover, b::before, p:hover > a:not(:focus), a:visited, li:not(.note:hover), i:visited { color: blue }
td:not(:is(:hover, a)), ::selection, :checked, :focus-within > u, é, "x" { top: 0 }
u:nth-child(2 of .b), .\\4e ote, [type=TEXT]:hover, a:link:not(:hover) { color: green }
"""
STYLED = [
    (
        "p { z-index: 1 } .a { z-index: 2 } .b { z-index: 3 !important } #c { z-index: 4 }"
        " @media print { * { z-index: 9 !important } } @media screen { i { Z-INDEX: 5 } }",
        "<body><p>1<p class=a>2<p class='b' id=c>3<p id=c><i></i>",
    ),
    (
        "div div { z-index: 7 } div > div { z-index: 8 } :where(#x) { z-index: 9 } div:not(#y) + b"
        " { z-index: 10; z-index: 11 !important; z-index: 12 } b { z-index: 13 !important }",
        "<body><div><div id=x></div><b></b></div><b></b>",
    ),
    (
        "@layer y, x; @layer x { p { z-index: 1 } i { z-index: 2 !important } p.a { z-index: 3 } }"
        " @layer y { #c { z-index: 4 } i { z-index: 5 !important } @layer z { b { z-index: 6 } } }"
        " i { z-index: 7 !important } @media print { @layer w; } @layer { #c.a { z-index: 8 } }"
        " @layer w { .a { z-index: 9 } } @layer y { b { z-index: 10 } @layer v { b { z-index: 11 } } }",
        "<body><p>1<p id=c>2<p class=a><i></i><b></b><p id=c class=a>3",
    ),
]
NODES = """
<!DOCTYPE html><meta charset=utf-8><body><script id=input type="application/json">%s</script>
<script type=module>
import * as css from "PACKAGE/index.mjs";
import { compared } from "SCRIPT";
const work = JSON.parse(document.getElementById("input").textContent);
document.documentElement.textContent = "ANS" + "WER" + JSON.stringify(compared(css, work)) + "END";
</script>
"""
# What a program does with the package where node finds it by its name, and what it prints.
PROGRAM = """
import css, { Tree, select } from 'simplecss';
const tree = new Tree([{ name: 'a' }, { name: 'b', parent: 0, text: 'x' }]);
console.log(select(tree, 'a > b:not(:empty)').length, css.select === select, css.version(), css.isProved());
console.log(Object.keys(css).join(' '));
"""
# The same in a module of the other kind: an import, and what is there in its place.
REQUIRED = (
    "import css, { Tree, select } from 'simplecss';",
    "const { default: css, Tree, select } = require('simplecss');",
)
# What TypeScript allows in a module of the other kind, and what it refuses.
TYPED = """
import css, { Selector, Tree, select } from 'simplecss';
const found: Selector = new Selector('a'), tree: Tree = new Tree([]);
select(tree, 'a', { grammar: 'modern' }).length + css.version().length + found.specificity[0];
// @ts-expect-error
select(tree, 3);
"""
LOADING = """
import { createRequire } from 'node:module';
import { readFileSync } from 'node:fs';
import { lint, load, loadSecond, rules } from 'simplecss/load';
const { resolve } = createRequire(import.meta.url), module = readFileSync(resolve('simplecss/simplecss.wasm'));
try { rules('a { b: c }'); } catch (error) { console.log(error.message); }
await load(Promise.resolve(module));
console.log(rules('a { b: c }')[0].declarations[0].value);
await load(new WebAssembly.Module(module));
await load(new Response(module, { headers: { 'Content-Type': 'application/wasm' } }));
console.log(rules('a { b: c }').length);
for (let number = 0; number < 2; number += 1) {
  try { console.log(lint('a { colr: red }')[0].hint); } catch (error) { console.log(error.message); }
  if (number === 0) await loadSecond(readFileSync(resolve('simplecss/second.wasm')));
}
console.log(rules('a { b: c }').length);
"""
# What is loaded when it is called, and what a program that only selects elements has in it.
CORE = """
import * as css from 'simplecss/core';
console.log(css.select('<p><i>', 'p > i').length, (await css.lint('a { colr: red }'))[0].hint);
console.log((await css.clean('a { color: red }', { scope: '.m' })).text, Object.keys(css).join(' '));
"""
SELECTING = """
import { select } from 'simplecss';
console.log(select('<p><i>', 'p > i').length);
"""
# The document is what parse5 makes of a page: a tree of plain objects, here by hand.
TREES = """
import css, { Selector, Tree, closest, matches, select, styles } from 'simplecss';
const made = (tagName, attrs, ...childNodes) => {
  const node = { nodeName: tagName, tagName, attrs, namespaceURI: 'http://www.w3.org/1999/xhtml', childNodes };
  for (const each of childNodes) each.parentNode = node;
  return node;
};
const text = value => ({ nodeName: '#text', value });
const link = made('a', [{ name: 'href', value: 'x' }, { name: 'class', value: 'N' }], text('1'));
const list = made('ul', [], made('li', [], link), { nodeName: '#comment', data: '' }, made('li', []));
const page = { nodeName: '#document', mode: 'quirks', childNodes: [list] };
list.parentNode = page;
const shown = nodes => nodes.map(node => node.tagName).join(' ');
console.log(shown(select(page, 'li:empty, .n:link')), shown(select(list, 'ul > li')), matches(link, '[href]'));
const drawing = made('svg', [], made('a', []));
for (const each of [drawing, ...drawing.childNodes]) each.namespaceURI = 'http://www.w3.org/2000/svg';
const READ = new Selector('LI:empty'), PORT = new Selector('LI', { grammar: 'simplecss' }), [found] = select(page, READ);
console.log(shown([found, closest(link, new Selector('ul > *'))]), matches(found, READ), READ.matches(link), matches(found, PORT));
const read = Tree.from(page), item = read.elementOf(found);
console.log([read.select(READ), read.elements[0].select(READ), [read.selectOne(READ)], [item.closest(READ)]].flat().every(
  each => each === item), item.matches(new Selector(':scope')), select(read, PORT, { grammar: 'modern' }).length);
const svg = Tree.from(made('p', [], made('a', []), drawing)), namespaces = { s: 'http://www.w3.org/2000/svg', n: '' };
const indices = (text, declared = namespaces) => svg.select(text, { namespaces: declared }).map(each => each.index).join('');
console.log(indices('s|*'), indices('s|a'), indices('*|a:not(s|*)'), indices('a'), `-${indices('|*, n|*')}-`);
console.log(indices('a', { '': namespaces.s }), indices('a', new Map([['', 'x']])) === '', svg.select('a').length);
console.log(svg.elements[2].select(':scope > s|a', { namespaces }).length, svg.elements[3].matches('s|a', { namespaces }));
console.log(svg.elements[2].select(':scope > a').length, svg.elements[1].matches(':scope'));
console.log(closest(link, 'ul') === list, closest(link, 'p'), styles(page, 'a { b: c }').get(link)[0].value);
// Halves of a character in two values, and one alone.
const halves = new Tree([{ name: 'a', attributes: [['x', 'q\\ud83d'], ['y', '\\ude00é']] }]);
console.log(halves.select('[x="q\\ufffd"][y="\\ufffdé"]').length, halves.select('[x="q\\ud83d"]').length);
let items = [{ name: 'a' }];
for (let index = 0; index < 20000; index += 1) items.push({ name: index % 2 ? 'a' : 'b', parent: index });
const deep = new Tree(items);
console.log(deep.select('a b:nth-child(1) > a').length, deep.elements.at(-1).closest(':root').index);
for (const call of [
  () => new Tree([{ name: '' }]), () => new Tree([{ name: 'a' }, { name: 'b' }, { name: 'c', parent: 0 }]),
  () => select(halves, 'a,\\n\\u{1F600}:nth-child(2x)'), () => select({}, 'a'), () => css.lint(3),
  () => css.rules('a{b:c}'.repeat(9), { limit: 8 }), () => styles(halves, '*{b:c;e:f}a{b:d}', { answerLimit: 1 }),
  () => select(halves, 'a', { grammar: 'today' }), () => select(halves, PORT, { namespaces }), () => svg.select('x|a', { namespaces }),
  () => svg.select('a', { namespaces: { a: null } }), () => svg.select('a', { namespaces: 3 }),
  () => svg.select('a', { namespaces, grammar: 'simplecss' }),
]) {
  try { call(); } catch (error) { console.log(error.name, error.row ?? error.element, error.message); }
}
"""
PARSED = """
import { readFileSync } from 'node:fs';
import { parse } from 'parse5';
import { Tree, select } from 'simplecss';
const [pages, selectors] = JSON.parse(readFileSync('work.json', 'utf8'));
const found = pages.flatMap(text => {
  const page = parse(text), tree = Tree.from(page);
  return selectors.map(each => select(page, each).map(node => tree.elementOf(node).index));
});
console.log(JSON.stringify(found));
"""
# The nodes of a page as cheerio has them, of what parse5 reads; and of what htmlparser2 reads, if it is there.
DOMHANDLER = """
import { readFileSync } from 'node:fs';
import { DomHandler } from 'domhandler';
import { parse } from 'parse5';
import { Tree, closest, matches, select } from 'simplecss';
const [pages, selectors] = JSON.parse(readFileSync('work.json', 'utf8'));
function feed(handler, node) {
  for (const each of node.childNodes) {
    if (each.nodeName === '#text') handler.ontext(each.value);
    if (each.nodeName === '#comment') handler.oncomment(each.data);
    if (!each.tagName) continue;
    const names = each.attrs.map(({ prefix, name }) => (prefix ? `${prefix}:${name}` : name)), spaces = each.attrs.map(it => it.namespace);
    handler.onopentag(each.tagName, Object.fromEntries(names.map((name, at) => [name, each.attrs[at].value])));
    const made = handler.tagStack.at(-1);
    made.namespace = each.namespaceURI;
    made['x-attribsNamespace'] = Object.fromEntries(names.map((name, at) => [name, spaces[at]]));
    feed(handler, each);
    handler.onclosetag();
  }
}
const documentOf = text => {
  const handler = new DomHandler(), page = parse(text);
  handler.onparserinit({});
  feed(handler, page);
  handler.onend();
  handler.root['x-mode'] = page.mode;
  return handler.root;
};
const found = pages.flatMap(text => {
  const page = documentOf(text), tree = Tree.from(page);
  return selectors.map(each => select(page, each).map(node => tree.elementOf(node).index));
});
const page = documentOf('<!doctype html><ul><li class=A><li><template><li></template></ul>'), list = select(page, 'ul')[0];
const bare = new DomHandler(), drawing = new DomHandler();
for (const each of [bare, drawing]) each.onparserinit({});
bare.onopentag('P', { CLASS: 'A' });
bare.onend();
drawing.onprocessinginstruction('?xml', '?xml version="1.0"');
drawing.onopentag('s:G', { a: 'B' });
drawing.onend();
console.log(JSON.stringify([
  found, select(list, 'li').length, select(list, 'ul > li').length, matches(list, ':has(.A):not(:has(.a))'),
  closest(list.children[0], 'body') === list.parent, select(bare.root, 'p.a').length, select(drawing.root, 'G[a=B]').length,
  select(drawing.root, 'g, [a=b]').length,
]));
"""
# Wrong options, and what a sheet is as a text.
KEPT = """
const Plain = WebAssembly.Instance;
let library;
WebAssembly.Instance = function (...words) {
  const made = new Plain(...words);
  library = made.exports;
  return made;
};
const { SelectorError, Tree, select } = await import('simplecss');
const text = '<div class=card><div><a href=x>t</a></div><p>x</div>';
const tree = Tree.fromHTML(text.repeat(99)), cards = tree.select('.card'), count = ask => cards.filter(ask).length;
const ask = () => console.log(
  count(each => each.select(':scope > div > a')[0] === each.children[0].children[0]), count(each => each.closest(':scope, .zzz') === each),
  count(each => each.matches('.card:has(> p)')), count(each => each.closest('div:not(:scope)')), cards[9].select('& a').length);
ask();
tree.close();
ask();
tree[Symbol.dispose]();
for (const each of [cards[0], cards[0].children[1], new Tree()]) {
  try { each.select('a, b >> c'); } catch (error) { console.log(error instanceof SelectorError, error.message); }
}
const size = () => library.memory.buffer.byteLength, node = { nodeName: '#document', childNodes: [] };
const asked = () => {
  const one = Tree.fromHTML(text.repeat(20));
  select(node, 'a');
  one.select('a');
  return one;
};
for (let number = 0; number < 20; number += 1) asked().close();
const before = size();
for (let number = 0; number < 500; number += 1) asked().close();
console.log(size() === before);
// Those that nobody has any more are let go, too.
for (let number = 0; number < 500; number += 1) {
  asked();
  if (number % 100 === 0) { gc(); await new Promise(done => setTimeout(done)); }
}
console.log(size() < before + 2 ** 24);
const { load } = await import('simplecss/load');
await load(Promise.resolve((await import('node:fs')).readFileSync(new URL(import.meta.resolve('simplecss/simplecss.wasm')))));
ask();
"""
KEPT_PRINTED = """99 99 99 0 1
99 99 99 0 1
true 1:7: `>` begins no selector
true 1:7: `>` begins no selector
true 1:7: `>` begins no selector
true
true
99 99 99 0 1
"""
EDITS = """
import css, { EditError, StyleSheet, edit, placeOf } from 'simplecss';
const text = '/* \\u{1f600} */ a, b { c: d !important; e: f } /**/ @media x { g { h: i } }\\n@font-face { src: url(j) }';
const { rules, atRules } = new StyleSheet(text), [a] = rules, [c, e] = a.declarations.map(placeOf), g = placeOf(rules.at(-1));
const font = placeOf(atRules[0]), at = text.indexOf('d !'), head = text.indexOf('a, b');
for (const edits of [
  [], [{ ...c, part: 'contents', text: '' }], [{ start: at, end: at + 1, part: 'value', text: 'red' }],
  [{ ...font, part: 'statements', text: 'k { l: m }' }, { ...g, part: 'statements', text: '' }],
  [{ start: head, end: head + 4, part: 'prelude', text: '.n' }, { start: font.end, end: font.end, part: 'statements', text: ' o {}' }],
  [{ start: at, end: at + 1, part: 'value', text: 'd; p: q' }], [{ ...e, part: 'contents', text: '} r {' }],
  [{ ...g, part: 'statements', text: 'x{}' }, { start: head, end: head + 4, part: 'prelude', text: '{' }],
]) {
  const given = edits.map(({ start, end, part, text }) => ({ start, end, part, text }));
  try {
    console.log(edit(text, given).replace(text.slice(0, head), ''));
  } catch (error) {
    console.log(error instanceof EditError, error.index, error.text, error.start - head);
  }
}
for (const wrong of [{ start: 0, end: 1, part: 'x', text: '' }, { start: 0, end: 99.5, part: 'value', text: '' }, { from: 1 }]) {
  try { edit(text, [wrong]); } catch (error) { console.log(error.name, error.message); }
}
console.log(placeOf(rules[0]).row, placeOf(rules[0]).column, placeOf({}), placeOf(css.declarations(' a: b')[0]).start);
"""
EDITED = """a, b { c: d !important; e: f } /**/ @media x { g { h: i } }
@font-face { src: url(j) }
a, b { ; e: f } /**/ @media x { g { h: i } }
@font-face { src: url(j) }
a, b { c: red !important; e: f } /**/ @media x { g { h: i } }
@font-face { src: url(j) }
a, b { c: d !important; e: f } /**/ @media x {  }
k { l: m }
.n { c: d !important; e: f } /**/ @media x { g { h: i } }
@font-face { src: url(j) } o {}
true 0 d; p: q 10
true 0 } r { 24
true 1 { 0
TypeError a part is prelude, value, block, statements, contents
TypeError an edit has a start and an end
TypeError unknown option: from
1 9 null 1
"""
OPTIONS = """
import css, { Selector, StyleSheet, Tree } from 'simplecss';
const tree = new Tree([{ name: 'a' }]), sheet = new StyleSheet('a{b:c}');
for (const call of [
  () => new StyleSheet('a{}', { limits: 1 }), () => sheet.match(tree, { meda: 'print' }), () => sheet.styles(tree, { media: 'tv' }),
  () => sheet.style(tree, 'b', { media: { widht: 1 } }), () => css.styles(tree, 'a{}', { x: 1 }), () => css.rules('a{}', 5),
  () => css.lint('a{}', { ignored: 'x' }), () => css.select(tree, 'a', { namespace: {} }), () => new Selector('a', { y: 1 }),
  () => tree.elements[0].matches('a', { z: 1 }), () => css.resolve([], [], { longest: 1 }), () => sheet.match(tree, { media: 5 }),
]) {
  try { console.log(call()); } catch (error) { console.log(error.name, error.message); }
}
console.log(css.styles(tree, 'a{b:c}', { limit: 9, media: 'print' }).get(tree.elements[0])[0].value);
console.log(css.styles(tree, 'a{b:c}', undefined).size, css.lint('a{}', null).length, new StyleSheet('a{}', { grammar: 'modern' }).rules.length);
console.log(`${sheet}${new StyleSheet(['@layer x;a{b:c', '/* 1 */@import "y";d{e:f}'])}${new StyleSheet([])}`);
console.log(String(new StyleSheet('a{b:c}', { grammar: 'simplecss' })), JSON.stringify(sheet));
console.log(JSON.stringify(css.resolve([['x', '[var(--a)]'], ['--a', 'b']], [], { limit: 2 })));
"""
OPTIONS_PRINTED = """TypeError unknown option: limits
TypeError unknown option: meda
RangeError the type of a device is screen, print, speech, not tv
TypeError unknown option: widht
TypeError unknown option: x
TypeError options are an object
TypeError unknown option: ignored
TypeError unknown option: namespace
TypeError unknown option: y
TypeError unknown option: z
TypeError unknown option: longest
TypeError options are an object
c
1 1 1
a {
  b: c;
}
@layer x;
@import "y";
a {
  b: c;
}
/* 1 */
d {
  e: f;
}

a { b:c; } {"rules":[{"selector":"a","specificity":[0,0,1],"declarations":[{"name":"b","value":"c","important":false}],\
"conditions":[],"pseudoElement":null,"parents":[]}],"unsupported":[],"atRules":[]}
[null,"b"]
"""
TREES_PRINTED = """a li li li true
li li true false false
true true 0
23 3 1 13 --
3 true 2
1 true
1 true
true null c
1 1
10000 0
TreeError 0 element 0: its name is empty
TreeError 2 element 2: its parent is not one of the open elements
SelectorError 2 2:13: `2x` is no An+B
TypeError undefined a node of a DOM, of parse5 or of domhandler, a page as a text, or a tree is expected
TypeError undefined a text is expected, not number
LimitError undefined the rules would hold more declarations than the limit
LimitError undefined more declarations than `limit`, or a longer answer than `answerLimit` allows
TypeError undefined unknown grammar: today
TypeError undefined the grammar of the Rust crate has no namespaces
SelectorError 1 1:1: `x` is no declared prefix
TypeError undefined a text is expected, not null
TypeError undefined namespaces are texts by their prefixes
TypeError undefined the grammar of the Rust crate has no namespaces
"""


# A sheet that is explained, in which each criterion decides once.
# What the first module answers, of pages, sheets and selectors, asked twice.
FIRST_ALONE = """
import { readFileSync } from 'node:fs';
import * as css from 'simplecss/core';

const [pages, sheets, selectors] = JSON.parse(readFileSync('work.json', 'utf8'));
const OPTIONS = [{ grammar: 'modern' }, { grammar: 'simplecss' }];

function* asked() {
  const trees = pages.map(([isHTML, page]) => isHTML ? css.Tree.fromHTML(page) : css.Tree.fromXML(page));
  for (const tree of trees) {
    for (const selector of selectors) for (const each of OPTIONS) yield () => tree.select(selector, each).map(it => it.index);
  }
  for (const [index, text] of sheets.entries()) {
    const tree = trees[index % trees.length], data = new TextEncoder().encode(text);
    for (const each of OPTIONS) yield () => new css.StyleSheet(text, each);
    for (const each of OPTIONS) yield () => [...new css.StyleSheet(text, each).styles(tree).values()];
    yield () => [...new css.StyleSheet(text).explain(tree, 'color').values()];
    yield () => [...new css.StyleSheet(text).match(tree, { media: 'print' }).values()];
    yield () => new css.StyleSheet(text).unused(tree);
    for (const call of ['minify', 'prettify', 'taken', 'declarations', 'escape', 'quote']) yield () => css[call](text);
    yield () => [...css.tokens(text)];
    yield () => css.encodingOf(data);
  }
}

function answers() {
  return JSON.stringify([...asked()].map(call => {
    try {
      return call();
    } catch (error) {
      return `${error.name}: ${error.message}`;
    }
  }));
}

const before = answers();
await css.lint('a { tpo: 0; color: x }');
console.log(JSON.stringify([[...asked()].length, before === answers()]));
"""
EXPLAINED = """@layer base { li { color: red !important } }
@layer x { @layer { li, p { color: blue; background: red } } }
body { color: black } li { color: green } li { color: lime } :is(li) a { color: teal }
p { color: revert } @media print { li { background-color: white } }
"""
# What is found of pages that are texts, and of values; and what is printed of that.
ON_TEXTS = """
import css, { StyleSheet, matches, select, styles } from 'simplecss';
const page = '<!doctype html><ul><li class=a>1<li>2</ul><p>';
console.log(select(page, 'li').map(each => each.attributes.get('class') ?? each.name).join(' '), matches(select(page, 'p')[0], 'ul + p'));
const won = [...styles(page, 'li { color: red } P { color: blue }')].filter(([, found]) => found.length > 0);
console.log(won.map(([element, [first]]) => `${element.name} ${first.value}`).join(', '));
const sheet = new StyleSheet(['li, é { top: 0 }', 'p:hover, i:hover { top: 0 }']);
console.log(JSON.stringify(sheet.unused(page)), sheet.unused(page, '<i>').length, sheet.unused().length);
console.log([...sheet.style(page, 'TOP').values()].map(each => each?.value ?? '-').join(' '));
const values = [['color', 'red'], ['color', 'reed'], ['color', 'f()'], ['a:b', 'c'], ['color', 'red\\nred']];
console.log(values.map(each => css.takesValue(...each)).join());
const sized = new StyleSheet('p { width: 2em; width: 34 }'), own = 'style="left: 0; left: 34"';
for (const head of ['', '<!doctype html>']) {
  const drawn = `${head}<p ${own}><svg ${own}>`, widths = [...sized.style(drawn, 'width').values()].filter(Boolean);
  const lefts = [...sized.explain(drawn, 'left').values()].flatMap(({ winner }) => winner ? winner.declaration.value : []);
  console.log(widths.map(each => each.value).join(), lefts.join());
}
for (const call of [
  () => select('page.html', 'p'), () => css.takesValue('color', 3), () => new StyleSheet('', { grammar: 'simplecss' }).unused(page),
  () => new StyleSheet('', { grammar: 'simplecss' }).explain(page, 'top'), () => sheet.explain(page, 'top', { mediums: 'tv' }),
]) {
  try { console.log(call()); } catch (error) { console.log(error.name, error.message); }
}
"""
ON_TEXTS_PRINTED = """a li true
li red, li red, p blue
[{"selector":"é","row":1,"column":5,"isWhole":false,"source":0,"start":4,"end":5},\
{"selector":"i:hover","row":1,"column":10,"isWhole":false,"source":1,"start":9,"end":16}] 1 4
- - - - 0 0 -
true,false,,,
34 34,34
2em 0,34
TypeError 'page.html' is the name of a page, not its text
TypeError a text is expected, not number
TypeError a sheet of the modern grammar is expected
TypeError a sheet of the modern grammar is expected
TypeError unknown option: mediums
"""


# Debian's node, what it is linked to, and the modules that it reads in the folder `NODE_MODULES`. A
# program runs where they are that folder.
OLD_NODE = [
    *("nodejs=18.*", "libnode108", "libuv1", "libc-ares2", "libnghttp2-14", "libbrotli1"),
    *("libicu72", "libssl3", "node-acorn", "node-cjs-module-lexer", "node-undici"),
]
WITH_MODULES = f'mount --bind "$1" {NODE_MODULES} && shift && exec "$@"'
# A page that selects its elements, a worker that does so in a tree, and what they find.
URL_PAGE = """<!doctype html><meta charset=utf-8><ul><li>1<li>2</ul><pre></pre>
<script type=module>
import css from './index.mjs';
import { load, select } from './load.mjs';
const show = text => { document.querySelector('pre').textContent += `${text}\\n`; };
show(`module: ${css.select(document, 'ul > li').length}`);
await load(fetch('./simplecss.wasm'));
show(`fetched: ${select(document, 'ul > li').length}`);
const worker = new Worker('./worker.mjs', { type: 'module' });
worker.onmessage = event => show(`worker: ${event.data}`);
</script>
"""
# A page that loads the second module when it calls it.
CORE_PAGE = """<!doctype html><meta charset=utf-8><ul><li>1<li>2</ul><pre></pre>
<script type=module>
import { lint, select } from './core.mjs';
const found = select(document, 'ul > li').length;
await fetch('./README.md');
document.querySelector('pre').textContent = `core: ${found} ${(await lint('a { colr: red }'))[0].hint}`;
</script>
"""
URL_WORKER = """
import { Tree } from './index.mjs';
const tree = new Tree([{ name: 'ul' }, { name: 'li', parent: 0 }, { name: 'li', parent: 0 }]);
postMessage(tree.select('ul > li').length);
"""


class Quiet(http.server.SimpleHTTPRequestHandler):
    """Serves files, and keeps which, in order."""

    served: List[str] = []

    def log_message(self, *_: Any) -> None:
        """Prints nothing, and keeps the path."""
        self.served.append(self.path)


class Npm(Release):
    """The npm package."""

    IS_PROVED = "true"
    # The most bytes, compressed, of what selects elements and finds what wins.
    MOST = 400_000

    def unpacked(self) -> str:
        """The folder of the package, where node finds it by its name."""
        self.needs("node", "the npm package was not run")
        folder = os.path.join(self.folder, "node_modules", "simplecss")
        os.makedirs(os.path.dirname(folder))
        self.put(folder)
        return folder

    def put(self, folder: str) -> None:
        """Writes the package into a folder."""
        unpack(self.made("simplecss-*.tgz"), self.folder)
        os.rename(os.path.join(self.folder, "package"), folder)

    def program(self, text: str, *options: str, name: str = "main.mjs") -> str:
        """What a program over the package prints, which node runs with these options."""
        path = write(os.path.join(self.folder, name), text)
        return self.works(["node", *options, path], name, self.folder).stdout.decode()

    def test_answers(self) -> None:
        """The npm package answers as the proved library does."""
        package = self.unpacked()
        tree = write(os.path.join(self.folder, "page.json"), json.dumps(items_of_page()))
        texts, due = random_texts(), all_answered()
        words = ["node", os.path.join(TOP, "tests", "release", "compare.mjs"), package, tree]
        done = self.works(words, "node", input=framed(texts))
        found = parts_of(done.stdout, len(due[0]))
        self.compare("the npm package and the proved library", texts, due, found)

    def test_python(self) -> None:
        """The npm package answers as the Python package does."""
        package, number = self.unpacked(), count(TEXTS) // 10
        texts = [*SHEETS, *modern_texts(number), *nested_texts(number)]
        answers = python_answers(texts)
        words = ["node", os.path.join(TOP, "tests", "release", "answers.mjs"), package]
        work = json.dumps({"items": items_of_page(), "texts": texts}).encode()
        done = self.works(words, "answers.mjs", input=work)
        got = json.loads(done.stdout)
        shown = [it.encode() for it in texts]
        self.compare("the npm and the Python package", shown, answers, got)

    def test_cases(self) -> None:
        """The rows that each package answers alike."""
        words = ["node", os.path.join(TOP, "tests", "release", "cases.mjs"), self.unpacked()]

        def answers(asked: List[tables.Asked]) -> List[str]:
            work = {**tables.TABLE, "rows": [[one.question, one.fields] for one in asked]}
            found = json.loads(self.works(words, "cases", input=json.dumps(work).encode()).stdout)
            return list(found)

        self.against(answers, tables.asked_of("npm"), tables.answered)

    def test_places(self) -> None:
        """Elements of pages and of documents have what they have in the Python package."""
        from tests import checkout

        pages: List[Tuple[Optional[str], str]] = []
        pages += [(None, text) for text, _ in checkout.html_pages(count(100))]
        pages += [(context, text) for context in ("td", "tr", "svg") for _, text in pages[:30]]
        pages += [
            ("xml", XML_PAGE),
            ("xml", "<a xmlns:p='é' p:b='1' c = \"é\" p:c='2'>é<p:d/></a >"),
        ]
        words = ["node", os.path.join(TOP, "tests", "release", "places.mjs"), self.unpacked()]
        done = self.works(words, "places.mjs", input=json.dumps(pages).encode())
        due = [json.loads(json.dumps(elements_in_python(*each))) for each in pages]
        shown = [text.encode() for _, text in pages]
        self.compare(
            "places in the npm and the Python package", shown, due, json.loads(done.stdout)
        )

    def test_lint(self) -> None:
        """The commands `lint` of both packages print the same."""
        cli, paths = os.path.join(self.unpacked(), "cli.mjs"), []
        for number, text in enumerate(SHEETS):
            paths.append(write(os.path.join(self.folder, f"{number:02}.css"), text))
        environment = {**os.environ, "PYTHONPATH": os.path.join(TOP, "python", "src")}
        python = [sys.executable, "-m", "simplecss", "lint"]
        grammars: List[List[str]] = [[], ["--grammar", "simplecss"]]
        for words in grammars:
            due = run([*python, *words, *paths], env=environment)
            got = run(["node", cli, "lint", *words, *paths])
            with self.subTest(words=words):
                self.assertEqual((got.returncode, got.stderr), (due.returncode, due.stderr))
                self.assertEqual(got.stdout.decode(), due.stdout.decode())
                self.assertGreater(got.stdout.count(b"\n"), 20)

    def test_command(self) -> None:
        good = write(os.path.join(self.folder, "good.css"), "a { top: 0 }\n")
        bad = write(os.path.join(self.folder, "bad.css"), "a < b { x: y }\n")
        page = write(os.path.join(self.folder, "good.html"), "<p>a")
        cli = os.path.join(self.unpacked(), "cli.mjs")
        line = f"{bad}:1:1: 'a < b {{ x: y }}': invalid selector\n"
        rows: List[Tuple[List[str], Tuple[int, str]]] = [
            (["lint", good], (0, "")),
            (["lint", bad, good], (1, line)),
            (["lint", "--ignore", "invalid", "--ignore", "x", bad, good], (0, "")),
            (["lint", bad, os.path.join(self.folder, "none.css")], (4, line)),
            (["lint", bad, os.path.join(self.folder, "page.html")], (4, line)),
            (["lint"], (2, "")),
            (["lint", "--grammar", "today", bad], (2, "")),
            (["lint", "--x", bad], (2, "")),
            (["lint", "-o", "x", bad], (2, "")),
            (["lint", "--select", "unknown", bad], (0, "")),
            (["lint", "--select", "invalid", bad], (1, line)),
            (["lint", "--explain", "nothing"], (2, "")),
            (["lint", "--explain", "empty-rule", bad], (2, "")),
            (["completions", "csh"], (2, "")),
            (["select", bad], (2, "")),
            (["select", "--count", "--quiet", "a", bad], (2, "")),
            (["match", bad], (2, "")),
            (["match", "--width", "-1", good, bad], (2, "")),
            (["match", "--media", "tv", good, bad], (2, "")),
            (["style", good, "top"], (2, "")),
            (["explain", "a", "top", bad], (2, "")),
            (["explain", "--sheet", good, "a", "top"], (2, "")),
            (["match", os.path.join(self.folder, "page.svg"), good], (2, "")),
            (["match", good, os.path.join(self.folder, "page.svg")], (4, "")),
            (["unused", "--grammar", "simplecss", good, bad], (2, "")),
            (["toString", bad], (2, "")),
            (["minify", good, bad], (2, "")),
            (["minify", os.path.join(self.folder, "page.html")], (4, "")),
            (["minify", "-o", os.path.join(self.folder, "none", "a"), good], (4, "")),
            (["clean", good], (2, "")),
            (["clean", "--style", "--scope", ".m", good], (2, "")),
            (["clean", "--scope", "a > b", good], (2, "")),
            (["clean", "--style", "--policy", "today", good], (2, "")),
            (["clean", "--scope", ".m", good, bad], (2, "")),
            (["minify", "--style", good], (2, "")),
            (["inline"], (2, "")),
            (["inline", "--json", page], (2, "")),
            (["inline", page, page], (2, "")),
            (["inline", "-o", self.folder, page, page], (2, "")),
            (["inline", good, os.path.join(self.folder, "none.css")], (4, "")),
            (["inline", os.path.join(self.folder, "page.svg")], (4, "")),
            (["inline", "-o", os.path.join(self.folder, "new", "a"), page], (0, "")),
            (["inline", "-o", os.path.join(good, "a"), page], (4, "")),
            (["edit"], (2, "")),
            (["edit", "--style", good], (2, "")),
            (["edit", "--scope", "a {", good], (1, "")),
            (["edit", good, bad], (2, "")),
            (["lsp", good], (2, "")),
            (["lsp", "--json"], (2, "")),
            (["--version"], (0, f"simplecss {version()}\n")),
            ([], (2, "")),
        ]
        for words, wanted in rows:
            with self.subTest(words=words):
                done = run(["node", cli, *words])
                self.assertEqual((done.returncode, done.stdout.decode()), wanted)
                is_silent = wanted[0] < 2 and words[:2] != ["edit", "--scope"]
                self.assertEqual(done.stderr == b"", is_silent)

    def test_printing(self) -> None:
        """The commands `minify` and `prettify` of both packages write the same."""
        cli = os.path.join(self.unpacked(), "cli.mjs")
        environment = {**os.environ, "PYTHONPATH": os.path.join(TOP, "python", "src")}
        text = "/* a */ b { c : d }\n/*! e */ @media f { g { h: i;; j: k } } l { }"
        path = write(os.path.join(self.folder, "a.css"), text)
        out = os.path.join(self.folder, "out.css")
        for command in ("minify", "prettify"):
            words = [sys.executable, "-m", "simplecss", command, path]
            due = self.works(words, command, env=environment).stdout
            with self.subTest(command=command):
                self.assertEqual(run(["node", cli, command, path]).stdout, due)
                self.assertEqual(run(["node", cli, command, "-"], input=text.encode()).stdout, due)
                self.assertEqual(run(["node", cli, command, "-o", out, path]).stdout, b"")
                self.assertEqual(read(out).encode(), due)

    def test_cleaning(self) -> None:
        """The commands `clean` of both packages write the same."""
        cli = os.path.join(self.unpacked(), "cli.mjs")
        environment = {**os.environ, "PYTHONPATH": os.path.join(TOP, "python", "src")}
        text = "p, a:hover { color: red; top: 0 }\n@import 'x'; é { margin: u\\72l(x) }"
        text += "@layer a { p { color: red } } @supports (top: 0) { p { color: red } }"
        path = write(os.path.join(self.folder, "a.css"), text)
        kept = write(os.path.join(self.folder, "b.css"), ".m p {color: red;}\n")
        out = os.path.join(self.folder, "out.css")
        for words in (
            ["--scope", ".m", path],
            ["--scope", ".m", "--policy", "comment", "--report", path],
            ["--scope", ".m", "--json", path],
            ["--scope", ".m", "--add", "TOP", "--limit", "top=0,5", "--prefix", "q-", path],
            ["--scope", ".m", "--add", "top", "--remove", "Color", "--limit", "top=1,2", path],
            [
                "--scope",
                ".m",
                "--at-rule",
                "layer",
                "--at-rule",
                "supports",
                "--prefix",
                "q-",
                path,
            ],
            ["--style", path],
            ["--scope", ".m", "-o", out, path],
            ["--scope", ".m", "--check", kept],
            ["--scope", ".m", "--check", kept, path],
            ["--style", "--check", path],
        ):
            due = run([sys.executable, "-m", "simplecss", "clean", *words], env=environment)
            written = read(out) if "-o" in words else ""
            done = run(["node", cli, "clean", *words])
            with self.subTest(words=words):
                shown = [
                    json.loads(it.stdout) if "--json" in words else it.stdout for it in (due, done)
                ]
                self.assertEqual(shown[1], shown[0])
                said = due.stderr.replace(b"simplecss: ", b"")
                self.assertEqual((done.returncode, done.stderr), (due.returncode, said))
                self.assertEqual(read(out) if "-o" in words else "", written)

    def test_writing(self) -> None:
        """The commands `inline` and `edit` of both packages write the same, of mails those that both write alike."""
        from tests.inlined import MORE_STAYS

        cli = os.path.join(self.unpacked(), "cli.mjs")
        environment = {**os.environ, "PYTHONPATH": os.path.join(TOP, "python", "src")}
        sheet = write(os.path.join(self.folder, "a.css"), NAMED_SHEET)
        given = write(os.path.join(self.folder, "b.css"), "p { margin: 0 } a:hover { top: 0 }")
        marked = write(os.path.join(self.folder, "a.html"), MARKED_PAGE)
        mails = glob.glob(os.path.join(TOP, "tests", "mails", "*.html"))
        alike = [it for it in sorted(mails) if pathlib.Path(it).stem not in MORE_STAYS]
        inlined = ["inline", "--no-important"]
        rows = [
            *([*inlined, each] for each in alike[: count(5)]),
            *([*inlined, *words, marked, given] for words in ((), ("--keep-style",))),
            *(["edit", *words, sheet] for words in SCOPES),
        ]
        for words in rows:
            due = self.works([sys.executable, "-m", "simplecss", *words], "", env=environment)
            with self.subTest(words=words):
                self.assertEqual(run(["node", cli, *words]).stdout, due.stdout)
        outputs: List[Dict[str, bytes]] = []
        for command in ([sys.executable, "-m", "simplecss"], ["node", cli]):
            to = os.path.join(self.folder, f"made{len(outputs)}")
            done = run([*command, *inlined, "-o", to, marked, alike[0]], env=environment)
            self.assertEqual((done.returncode, done.stdout), (0, b""))
            outputs.append({it.name: it.read_bytes() for it in pathlib.Path(to).iterdir()})
        self.assertEqual(outputs[1], outputs[0])
        self.assertEqual(len(outputs[0]), 2)

    def test_kept_files(self) -> None:
        """A file is written whole or not at all: what it leads to, with its mode, and no other is left."""
        cli = os.path.join(self.unpacked(), "cli.mjs")
        room = os.path.join(self.folder, "room")
        os.mkdir(room)
        sheet = write(os.path.join(room, "a.css"), "\ufeffa { colr: red }\n")
        link = os.path.join(room, "link.css")
        os.symlink("a.css", link)
        os.chmod(sheet, 0o640)
        node = os.stat(sheet).st_ino
        self.assertEqual(run(["node", cli, "lint", "--fix", link]).returncode, 0)
        self.assertEqual(pathlib.Path(sheet).read_bytes(), b"\xef\xbb\xbfa { color: red }\n")
        self.assertTrue(os.path.islink(link))
        self.assertEqual(os.stat(sheet).st_mode & 0o777, 0o640)
        self.assertNotEqual(os.stat(sheet).st_ino, node)
        # A folder in which nothing is made, and an output that is no file.
        done = run(["node", cli, "minify", "-o", "/proc/self/a.css", sheet])
        self.assertEqual((done.returncode, done.stdout), (4, b""))
        done = run(["node", cli, "minify", "-o", "/dev/stdout", sheet])
        self.assertEqual((done.returncode, done.stdout), (0, b"a{color:red}\n"))
        # No room: what was there stays.
        words = [shutil.which("node"), cli, "prettify", "-o", sheet, sheet]
        limited = ["sh", "-c", 'trap "" XFSZ; ulimit -f 0; exec "$@"', "sh", *map(str, words)]
        self.assertEqual(run(limited).returncode, 4)
        self.assertEqual(pathlib.Path(sheet).read_bytes(), b"\xef\xbb\xbfa { color: red }\n")
        self.assertEqual(sorted(os.listdir(room)), ["a.css", "link.css"])

    def test_server(self) -> None:
        """The servers of both packages write the same, whatever comes in whatever parts."""
        inputs = list(served.inputs())
        script = os.path.join(TOP, "tests", "release", "served.mjs")
        work = [[base64.b64encode(part).decode() for part in parts] for parts in inputs]
        words = ["node", script, self.unpacked()]
        done = self.works(words, "served.mjs", input=json.dumps(work).encode())
        for parts, (status, written) in zip(inputs, json.loads(done.stdout)):
            due, messages = served.answered(parts)
            with self.subTest(b"".join(parts)[66:200]):
                found = served.replies(base64.b64decode(written))
                self.assertEqual((status, found), (due, served.replies(messages)))

    def test_served(self) -> None:
        """The command answers through pipes while the next message has not come, and ends with its input."""
        words = ["node", os.path.join(self.unpacked(), "cli.mjs"), "lsp", "--stdio"]
        pipes = {"stdin": subprocess.PIPE, "stdout": subprocess.PIPE}
        with subprocess.Popen(words, bufsize=0, **pipes) as server:  # type: ignore[call-overload]
            timer = threading.Timer(120, server.kill)
            timer.start()
            found = []
            for message in (served.START, served.opened("a{colr:red}"), served.SHUT):
                data = served.frame(message)
                server.stdin.write(data[:30])
                server.stdin.write(data[30:])
                head = server.stdout.readline()
                server.stdout.readline()
                found.append(json.loads(server.stdout.read(int(head.split(b":")[1]))))
            server.stdin.write(served.frame(served.EXIT))
            self.assertEqual(server.wait(), 0)
            timer.cancel()
        self.assertEqual(found[1]["params"]["diagnostics"][0]["code"], "unknown-property")
        for data, status in ((served.frame(served.START), 1), (b"\0" * 10_000, 1), (b"", 1)):
            self.assertEqual(run(words, input=data).returncode, status)

    def test_urls(self) -> None:
        """In a browser, without a bundler, by its urls: as a module, in a worker of modules, with the
        WebAssembly module fetched, and with the second one loaded when it is called."""
        browser = shutil.which("chromium") or shutil.which("chromium-browser")
        if not browser:
            self.skipTest("the npm package by urls: there is no chromium")
        folder = self.unpacked()
        write(os.path.join(folder, "page.html"), URL_PAGE)
        write(os.path.join(folder, "core.html"), CORE_PAGE)
        write(os.path.join(folder, "worker.mjs"), URL_WORKER)
        handler = functools.partial(Quiet, directory=folder)
        server = http.server.ThreadingHTTPServer(("127.0.0.1", 0), handler)
        self.addCleanup(server.server_close)
        threading.Thread(target=server.serve_forever, daemon=True).start()
        self.addCleanup(server.shutdown)
        words = [browser, "--headless", "--no-sandbox", "--disable-gpu", "--dump-dom"]
        words += [f"--user-data-dir={self.folder}/profile", "--virtual-time-budget=30000"]
        url = f"http://127.0.0.1:{server.server_port}"
        dom = run([*words, f"{url}/page.html"]).stdout.decode()
        for wanted in ("module: 2", "worker: 2", "fetched: 2"):
            with self.subTest(wanted=wanted):
                self.assertIn(wanted, dom)
        Quiet.served.clear()
        # Nothing of the pages before is kept.
        words[-2] += "-of-core"
        self.assertIn("core: 2 color", run([*words, f"{url}/core.html"]).stdout.decode())
        marks = ("/bytes.mjs", "/README.md", "/second_bytes.mjs")
        self.assertEqual([it for it in Quiet.served if it in marks], list(marks))

    def test_entries(self) -> None:
        """By its name in node and in a bundle, and from the module beside it."""
        package = self.unpacked()
        stated = read(package, "index.d.ts")
        self.assertEqual(re.findall(r"\bany\b", re.sub(r"/\*.*?\*/", "", stated, flags=re.S)), [])
        members = re.findall(r"^  readonly (\w+): typeof \1;", stated, re.MULTILINE)
        named = re.findall(r"^export (?:class|function) (\w+)", stated, re.MULTILINE)
        self.assertEqual(sorted(set(named)), members)
        due = f"1 true {version()} {self.IS_PROVED}\n{' '.join(members)}\n"
        self.assertEqual(self.program(PROGRAM), due)
        unread = "simplecss: call load first\nc\n1\nsimplecss: call loadSecond first\ncolor\n1\n"
        self.assertEqual(self.program(LOADING, name="loading.mjs"), unread)
        required = PROGRAM.replace(*REQUIRED)
        self.assertEqual(self.program(required, name="main.cjs"), due)
        core = f"1 color\n.m a {{color: red;}}\n {' '.join(members)}\n"
        self.assertEqual(self.program(CORE, name="core.mjs"), core)
        self.needs("esbuild", "the npm package in a bundle")
        bundle = os.path.join(self.folder, "alone", "bundle.js")
        for form in ("iife", "esm", "cjs"):
            words = ["esbuild", "--bundle", "--log-level=error", f"--format={form}"]
            words += [f"--outfile={bundle}", os.path.join(self.folder, "main.mjs")]
            self.works(words, f"esbuild, {form}", self.folder)
            with self.subTest(form=form):
                os.replace(bundle, f"{bundle}.mjs") if form == "esm" else None
                path = f"{bundle}.mjs" if form == "esm" else bundle
                self.assertEqual(self.works(["node", path], form).stdout.decode(), due)
        path = write(os.path.join(self.folder, "selecting.mjs"), SELECTING)
        words = ["esbuild", "--bundle", "--metafile=meta.json", f"--outfile={bundle}", path]
        self.works([*words, "--log-level=error"], "esbuild", self.folder)
        self.assertEqual(self.works(["node", bundle], "bundle").stdout, b"1\n")
        (made,) = json.loads(read(self.folder, "meta.json"))["outputs"].values()
        packed = {
            os.path.basename(name): it["bytesInOutput"] for name, it in made["inputs"].items()
        }
        self.assertGreater(packed["bytes.mjs"], 0)
        self.assertEqual(packed.get("second_bytes.mjs", 0), 0)

    def test_old_node(self) -> None:
        """By Debian's node, which is older than that of most systems."""
        # It needs the library.
        from tests import judges_tests

        folder, top = self.unpacked(), os.path.join(TOP, "out", "judges")
        project = judges_tests.Project("node", [], OLD_NODE, lambda top, judge: None, 0)
        why = judges_tests.fetch(project, top)
        if why:
            self.skipTest(f"the npm package by Debian's node: {why}")
        names = [it.partition("=")[0] for it in OLD_NODE]
        folders = [os.path.join(top, judges_tests.PACKAGES, it, "usr") for it in names]
        libraries = ":".join(os.path.join(it, "lib", "x86_64-linux-gnu") for it in folders)
        environment = {**os.environ, "LD_LIBRARY_PATH": libraries}
        modules = os.path.join(self.folder, "modules")
        for each in folders:
            if os.path.isdir(os.path.join(each, "share", "nodejs")):
                found = os.path.join(each, "share", "nodejs")
                shutil.copytree(found, modules, symlinks=True, dirs_exist_ok=True)
        alone = ["unshare", "--map-root-user", "--mount", "sh", "-c", WITH_MODULES, "sh", modules]
        if run([*alone, "true"]).returncode:
            self.skipTest("the npm package by Debian's node: no folder is put in another's place")
        node = [*alone, os.path.join(folders[0], "bin", "node")]
        done = self.works([*node, "--version"], "node", env=environment)
        self.assertTrue(done.stdout.startswith(b"v18."))
        first = f"1 true {version()} {self.IS_PROVED}\n"
        rows = (
            ("main.mjs", PROGRAM, first),
            ("main.cjs", PROGRAM.replace(*REQUIRED), first),
            ("core.mjs", CORE, "1 color\n"),
            ("loading.mjs", LOADING, "simplecss: call load first\nc\n"),
        )
        for name, text, wanted in rows:
            path = write(os.path.join(self.folder, name), text)
            done = self.works([*node, path], name, self.folder, env=environment)
            with self.subTest(program=name):
                self.assertTrue(done.stdout.decode().startswith(wanted), done.stdout)
        words = [*node, os.path.join(folder, "cli.mjs"), "--version"]
        done = self.works(words, "the command", env=environment)
        self.assertEqual(done.stdout.decode(), f"simplecss {version()}\n")

    def test_first_alone(self) -> None:
        """What the first module answers is the same before and after the second one is loaded, with its data."""
        self.unpacked()
        pages = [[kind == "text/html", page] for kind, page in PAGES] + [[False, XML_PAGE]]
        sheets = [*SHEETS, *modern_texts(count(100)), *nested_texts(count(100)), USED, EXPLAINED]
        write(os.path.join(self.folder, "work.json"), json.dumps([pages, sheets, SELECTORS]))
        asked, is_same = json.loads(self.program(FIRST_ALONE))
        self.assertGreater(asked, 500)
        self.assertTrue(is_same)

    def test_size(self) -> None:
        """What `simplecss/core` imports is as small, compressed, as the documents say."""
        package, found, left = self.unpacked(), set(), ["core.mjs"]
        while left:
            name = left.pop()
            found.add(name)
            named = re.findall(r"(?m)^(?:import|export) .* from '\./(.*)';", read(package, name))
            left += set(named) - found
        self.assertNotIn("second_bytes.mjs", found)
        sizes = [len(gzip.compress(read(package, name).encode())) for name in found]
        print(f"{self.id()}: {sum(sizes)} bytes, compressed")
        self.assertLess(sum(sizes), self.MOST)

    def test_types(self) -> None:
        """The types allow what tests/release/types.mts does, and refuse what it says."""
        self.unpacked()
        self.needs("tsc", "the types of the npm package")
        shutil.copy(os.path.join(TOP, "tests", "release", "types.mts"), self.folder)
        words = ["tsc", "--noEmit", "--strict", "--target", "es2022", "--lib", "es2022,dom"]
        words += ["--module", "nodenext", "--moduleResolution", "nodenext"]
        write(os.path.join(self.folder, "types.cts"), TYPED)
        words += ["--noUncheckedIndexedAccess", "types.mts", "types.cts"]
        self.works(words, "tsc", self.folder)

    def test_pages(self) -> None:
        """The commands for pages of both packages print the same."""
        cli = os.path.join(self.unpacked(), "cli.mjs")
        environment = {**os.environ, "PYTHONPATH": os.path.join(TOP, "python", "src")}
        page, other = (
            write(os.path.join(self.folder, f"{number}.html"), PAGES[number][1])
            for number in range(2)
        )
        sheet = write(os.path.join(self.folder, "a.css"), USED)
        explained = write(os.path.join(self.folder, "b.css"), EXPLAINED)
        missing = os.path.join(self.folder, "none.html")
        drawing = write(os.path.join(self.folder, "a.svg"), XML_PAGE)
        broken = write(os.path.join(self.folder, "b.xhtml"), "<p>\n</P>")
        rows = [
            *(["select", each, drawing, page] for each in ("g, G", "[href]", ":root > *")),
            *(
                ["style", sheet, drawing, "color"],
                ["unused", sheet, drawing],
                ["select", "p", broken],
            ),
            *(["select", each, page, other] for each in SELECTORS),
            *(["match", sheet, page, other], ["style", sheet, page, other, "COLOR"]),
            *(["match", "--media", "print", sheet, page], ["match", "--width", "400", sheet, page]),
            *(["unused", sheet, page], ["unused", sheet, page, other]),
            *(
                ["explain", "--sheet", explained, "--media", media, "li, p, ul, a", name, page]
                for name in ("color", "background-color")
                for media in ("screen", "print")
            ),
            ["explain", "--sheet", explained, "none", "color", page],
            ["explain", "--sheet", missing, "li", "color", page],
            *(["select", "--count", "li", page], ["select", "--count", "li", page, other]),
            *(["select", "--attr", "class", "*", page], ["select", "--quiet", "none", page]),
            *(["select", "--quiet", "li", page], ["select", "a >", page], ["select", "a", missing]),
            *(
                ["match", f"{missing}.css", page],
                ["style", "--grammar", "simplecss", sheet, page, "color"],
            ),
        ]
        for words in rows:
            due = run([sys.executable, "-m", "simplecss", *words], env=environment)
            done = run(["node", cli, *words])
            with self.subTest(words=words):
                found = (done.returncode, done.stdout.decode(), done.stderr == b"")
                self.assertEqual(found, (due.returncode, due.stdout.decode(), due.stderr == b""))

    def test_texts(self) -> None:
        self.unpacked()
        self.assertEqual(self.program(ON_TEXTS), ON_TEXTS_PRINTED)

    def test_trees(self) -> None:
        self.unpacked()
        self.assertEqual(self.program(TREES), TREES_PRINTED)

    def found_by(
        self, program: str, text: str, names: Sequence[str]
    ) -> Tuple[Any, List[List[int]]]:
        """What a program finds on pages with these packages of Debian beside it, and what the package for
        Python does."""
        self.unpacked()
        if not all(os.path.exists(os.path.join(NODE_MODULES, name)) for name in names):
            self.skipTest(f"{program}: of {', '.join(names)} not all are there")
        package()
        import simplecss

        pages = [page for kind, page in PAGES if kind == "text/html"]
        trees = map(simplecss.Tree.from_html, pages)
        due = [[it.index for it in tree.select(each)] for tree in trees for each in SELECTORS]
        write(os.path.join(self.folder, "work.json"), json.dumps([pages, SELECTORS]))
        for name in names:
            to = os.path.join(self.folder, "node_modules", name)
            shutil.copytree(os.path.join(NODE_MODULES, name), to)
        return json.loads(self.program(text, name=program)), due

    def test_parse5(self) -> None:
        """Nodes of parse5 are found as the package for Python finds those of the page."""
        found, due = self.found_by("parsed.mjs", PARSED, ("parse5", "entities"))
        self.assertEqual(found, due)

    def test_domhandler(self) -> None:
        """Nodes of domhandler, as cheerio has them, are found as the package for Python finds those of the page."""
        names = ("parse5", "entities", "domhandler", "domelementtype")
        found, due = self.found_by("domhandler.mjs", DOMHANDLER, names)
        self.assertEqual(found, [due, 2, 2, True, True, 1, 1, 0])

    def test_kept_pages(self) -> None:
        """What the library keeps of trees is let go, and made again where it is asked for."""
        self.unpacked()
        self.assertEqual(self.program(KEPT, "--expose-gc"), KEPT_PRINTED)

    def test_edits(self) -> None:
        self.unpacked()
        self.assertEqual(self.program(EDITS), EDITED)

    def test_options(self) -> None:
        self.unpacked()
        self.assertEqual(self.program(OPTIONS), OPTIONS_PRINTED)

    def test_browser(self) -> None:
        """Elements of a DOM are found as a browser finds them, and of declarations the same win."""
        script = os.path.join(TOP, "tests", "release", "nodes.mjs")
        work = {"pages": PAGES, "selectors": SELECTORS, "sheets": STYLED, "depth": 20_000}
        page = NODES
        for name, path in (("PACKAGE", self.unpacked()), ("SCRIPT", script)):
            page = page.replace(name, pathlib.Path(path).as_uri())
        found = browser_answers(page, work, ("--allow-file-access-from-files",))
        if found is None:
            self.skipTest("the nodes of a DOM: there is no chromium")
        self.sweep(found[1], found[0])
        self.assertGreater(found[1], 1000)


class Publish(Release):
    def test_place(self) -> None:
        """Before what is made is published, nothing but the place is missing."""
        self.made("SHA256SUMS")
        if not_made():
            self.skipTest("; ".join(not_made()))
        project, found = metadata.read_metadata(), publish.check(pathlib.Path(MADE))
        self.assertEqual(list(found), [])
        self.assertEqual(found.has_no_place, not (project.authors and project.repository))


class Page(Release):
    def test_page(self) -> None:
        """The page works from a file."""
        self.opens_page(self.made("playground.html"))


def items_of_page() -> List[Dict[str, Any]]:
    """The elements of `PAGE` as items of a tree."""
    items: List[Dict[str, Any]] = []
    opened: List[int] = []
    for index, (depth, name, pairs) in enumerate(PAGE):
        del opened[depth:]
        parent = opened[-1] if opened else None
        items.append({"name": name, "attributes": dict(pairs), "parent": parent})
        opened.append(index)
    return items


def elements_in_python(context: Optional[str], text: str) -> List[Any]:
    """What the elements of a page have in the Python package, as places.mjs prints it."""
    package()
    from simplecss import Tree

    tree = Tree.from_xml(text) if context == "xml" else Tree.from_html(text, context=context)
    return [
        [
            *(each.name, each.namespace, each.is_drawn, each.text, each.start_tag, each.end_tag),
            sorted([name, *span] for name, span in each.attribute_places.items()),
        ]
        for each in tree
    ]


def python_answers(texts: Sequence[str]) -> List[Any]:
    """What the Python package answers to each text by both grammars, as answers.mjs prints it."""
    package()
    import simplecss

    tree = simplecss.Tree(simplecss.Item(**it) for it in items_of_page())
    return [
        json.loads(json.dumps([answers_to(text, tree, it) for it in ("modern", "simplecss")]))
        for text in texts
    ]


# A device with none of the usual choices.
DEVICE: Dict[str, Any] = {
    "hover": False,
    "pointer": "none",
    "device_width": 400,
    "device_height": 9,
    "color": 9,
    "color_index": 2,
    "monochrome": 3,
    "color_gamut": "p3",
    "high_dynamic_range": True,
    "grid": True,
    "update": "slow",
    "scripting": "initial-only",
    "display_mode": "standalone",
    "reduced_transparency": True,
    "contrast": "more",
    "forced_colors": True,
    "any_hover": True,
    "any_pointer": "coarse fine",
}


def answers_to(text: str, tree: Any, grammar: str) -> List[Any]:
    """What the Python package answers to a text by a grammar."""
    import simplecss
    from simplecss import _lint

    found = _lint.findings("a.css", text, False, grammar)
    sheet = simplecss.StyleSheet(text, text + "é", grammar=grammar)
    return [
        [[*it[1:], it.kind, it.message] for it in found],
        simplecss.declarations(text),
        simplecss.minify(text),
        simplecss.prettify(text),
        places_in(sheet),
        sheet.rules,
        sheet.unsupported,
        sheet.at_rules,
        sheet.skipped,
        sheet.match(tree),
        sheet.match(tree, media=simplecss.Device(width=375, type="print", dark=True)),
        sheet.match(tree, media=simplecss.Device(**DEVICE)),
        sheet.styles(tree, media=lambda query: len(query) % 2 == 0, any_value=True),
        sheet.style(tree, "color"),
        tried(lambda: [it.index for it in tree.select(text, grammar=grammar)]),
        tried(lambda: shown_selector(simplecss.Selector(text, grammar=grammar), tree)),
        tried(lambda: [index_of(it.closest(text, grammar=grammar)) for it in tree]),
    ]


def places_in(sheet: Any) -> List[Any]:
    """Where the rules of a sheet and their declarations are, and then its at-rules."""

    def place_of(one: Any) -> Any:
        return one.place and (one.place.source, *one.place[2:])

    rules = [
        [place_of(rule), *map(place_of, rule.declarations)]
        for rule in (*sheet.rules, *sheet.unsupported)
    ]
    return [*rules, *map(place_of, sheet.at_rules)]


def tried(call: Callable[[], Any]) -> Any:
    """What a call returns, or where a selector is refused, and why."""
    from simplecss import SelectorError

    try:
        return call()
    except SelectorError as error:
        return [error.row, error.column, error.reason]


def index_of(element: Any) -> Optional[int]:
    """The index of an element, if there is one."""
    return None if element is None else int(element.index)


def shown_selector(selector: Any, tree: Any) -> List[Any]:
    """What a selector is, and which elements it matches."""
    matches = [selector.matches(it) for it in tree]
    return [str(selector), selector.specificity, selector.pseudo_element, matches]


def second_checkout(folder: str, built: Sequence[str]) -> None:
    """The files of this checkout elsewhere, as new ones in another order, with links to parts that
    are built."""
    words = ["ls-files", "-z", "--cached", "--others", "--exclude-standard"]
    names = run(["git", "-c", f"safe.directory={TOP}", *words]).stdout.decode().split("\0")
    for name in reversed(names[:-1]):
        path, copy = os.path.join(TOP, name), os.path.join(folder, name)
        os.makedirs(os.path.dirname(copy), exist_ok=True)
        if os.path.isfile(path):
            shutil.copy(path, copy)
    for name in built:
        os.symlink(os.path.join(TOP, name), os.path.join(folder, name))


class Twice(Release):
    def test_second_checkout(self) -> None:
        """A second checkout of the commit makes the same bytes."""
        self.made("SHA256SUMS")
        self.needs("git", "the second release")
        checkout, again = os.path.join(self.folder, "checkout"), os.path.join(self.folder, "again")
        second_checkout(checkout, ("out", "crates/cssq_cli/out"))
        when = (
            run(["git", "-c", f"safe.directory={TOP}", "log", "-1", "--format=%ct"])
            .stdout.decode()
            .strip()
        )
        environment = {"SOURCE_DATE_EPOCH": when, **os.environ, "LC_ALL": "C", "TZ": "Asia/Tokyo"}
        words = [sys.executable, os.path.join(checkout, "tools", "release.py"), kit(), again]
        done = run(words, env=environment, umask=0o077)
        self.assertEqual(done.returncode, int(b"not made" in done.stderr), done.stderr[-1500:])
        self.assertEqual(sorted(os.listdir(again)), sorted(os.listdir(MADE)))
        for path in sorted(glob.glob(os.path.join(again, "*"))):
            with self.subTest(name=os.path.basename(path)):
                made = pathlib.Path(MADE, os.path.basename(path)).read_bytes()
                self.assertTrue(pathlib.Path(path).read_bytes() == made, "it has other bytes")

    def test_sums(self) -> None:
        for line in pathlib.Path(self.made("SHA256SUMS")).read_text(encoding="utf-8").splitlines():
            total, _, name = line.strip().partition("  ")
            with self.subTest(name=name):
                self.assertEqual(
                    hashlib.sha256(pathlib.Path(MADE, name).read_bytes()).hexdigest(), total
                )
