"""Compares the documents with the sources and the program `cssq`.

A block of code below a line `<!-- from FILE -->` is in that file, apart from indentation; so is one
in the documentation of an item. The table of commands of docs/PROGRAM.md shows what the program
prints, with the files of the blocks below lines `<!-- file NAME -->`, of which page.tree is the tree of
page.html. The words of the lines of examples/README.md, and of the
README's lines of a shell, are files of the repository. What docs/DIFFERENCES.md shows of sheets is what the program prints. The files that
the recipes of docs/ARCHITECTURE.md name exist, and so do those that links lead to. The lines of
docs/RATTLE.md below `<!-- run -->` are run in an empty folder. What docs/first_steps/PYTHON.md and
docs/RECIPES.md show is run over the built C library (shown.py); the first steps in other languages are
run by checkout.py. There are no other blocks. `./build docs` makes a site of all pages, without a link that
leads nowhere, and with each name of the Python package. docs/CONTRACTS.md and docs/crates.svg are what tools write. The claims of tests/claims.txt are in
their documents, and carried by clauses of functions that the program or the C library reaches
(claims.py). A count of tests is raised in two places only, where an element is tested. Sentences
have at most 20 words on average in each document, half of the first sentences of what documents
public names at most ten, the README at most 900 words, and it, docs/, SECURITY.md and CONTRIBUTING.md
at most 19,800 words in all. Some phrases are in none of these. The README's figures are those of the sources. A file that
begins with `#!` may be run, and no other. The version is the same everywhere.
"""
from __future__ import annotations

import ast
import contextlib
import importlib
import io
import json
import os
import re
import shlex
import statistics
import subprocess
import sys
import tempfile
import unittest
from pathlib import Path
from typing import Dict, Iterator, List, Sequence, Tuple
from unittest import mock

from tests import claims, shown
from tests.common import (
    TOP,
    Case,
    answer,
    kit,
    library_path,
    package,
    program,
    read,
    version,
    write,
)
from tools import make_site

# How many words a sentence has at most, on average, and how many the documents have in all: what has a
# letter or a digit is a word, and the strokes of a table are none. How many words the first sentence of
# what documents a name has at most, in the middle.
LONGEST, MOST, FIRST = 20, 21_700, 10
# How many words the README has at most.
FIRST_PAGE = 900
# The page of what lint reports, which python/tests/test_lint.py compares with the library.
LINT = "docs/LINT.md"
# Where the version stands, besides include/simplecss.h.
VERSIONS = (
    ("include/simplecss.h", r'as "(\d.*)"\.'),
    ("README.md", r"^Status: version (\d[^ ,]*)"),
    ("CHANGELOG.md", r"^## (\d\S+)"),
    ("crates/simplecss_c/src/exports.rt", r'b?"(\d+\.\d+\.\d+)"'),
    ("crates/cssq_cli/src/help.rt", r'"cssq (\d\S+?)\\n'),
    ("release/c/crate/Cargo.toml", r'^version = "(.*)"'),
    ("python/src/simplecss/_library.py", r'^__version__ = "(.*)"'),
    ("examples/pre-commit/pyproject.toml", r'^version = "(.*)"'),
    ("examples/pre-commit/pyproject.toml", r'"simplecss==(.*)"'),
    ("docs/INSTALL.md", r"PWD/cssq-(\d[^/\s]*)/"),
)

# Phrases that the documents, the header, the types of JavaScript and what Python documents do not
# have, and what they have instead.
PHRASES = {
    r"(?<![Tt]here )\b(?:is|are) no (?!longer|more)": "is not a",
    r", as `x`(?! (?:does|do|is|has)\b)": "such as",
    r"\b(?:of which|asked (?:by|of)|for everyone)\b": "a sentence with a subject that does something",
    r"\b(?:today's|level 3|3rd level)\b": "modern, Level 3",
    r"\b(?:want of memory|what is wanting|let go of|gives on|whoever|in turn|lawful)\b": "Rust's words",
}

# What carries what the README's table says that users of each language get, and of which CSS: a test
# of this folder or of the Python package, or a crate whose tests or output `rt ci` checks.
# fmt: off
CARRIED: Dict[str, Dict[str, str]] = {
    "Python": {
        "`inline`": "states.States.test_pages", "`select`": "judges.Judges.test_cssselect",
        "`styles`": "test_simplecss.Modern.test_the_cascade",
        "`lint`": "test_simplecss.CommandLine.test_lint", "HTML": "trees.Trees.test_html5lib",
        "modern": "sheets.Sheets.test_real_sheets", "the port": "test_simplecss.Port.test_rules"},
    "Rust": {
        "the crate": "release.Crate.test_answers", "`modern`": "checkout.Rust.test_answers",
        "modern": "checkout.Rust.test_answers", "the port": "release.Crate.test_answers"},
    "C": {
        "`libsimplecss`": "library_calls.Calls.test_answers",
        "modern": "library_calls.Calls.test_answers", "the port": "library_calls.Calls.test_answers"},
    "JavaScript": {
        "`css.select`": "release.Npm.test_browser", "`css.styles`": "release.Npm.test_browser",
        "`css.lint`": "release.Npm.test_lint", "modern": "release.Npm.test_python",
        "the port": "release.Npm.test_answers"},
    "a shell": {
        "`simplecss`": "test_simplecss.CommandLine.test_lint", "`cssq`": "program.Words.test_answers",
        "modern": "test_simplecss.CommandLine.test_lint", "the port": "program.Words.test_answers"},
    "Rattle": {
        "the crates": "tests_port", "contracts": "example_modern",
        "modern": "modern_selectors.Index.test_random_selectors", "the port": "tests_port"},
}
# fmt: on


def flush(lines: Sequence[str]) -> List[str]:
    """The lines with no indentation that they share."""
    depth = min((len(line) - len(line.lstrip(" ")) for line in lines if line.strip()), default=0)
    return [line[depth:].rstrip() for line in lines]


def is_within(block: Sequence[str], text: str) -> bool:
    """Whether the lines of a block follow one another in a text, apart from indentation."""
    lines = text.split("\n")
    wanted = flush(block)
    size = len(wanted)
    return size > 0 and any(
        flush(lines[i : i + size]) == wanted for i in range(len(lines) - size + 1)
    )


def blocks(text: str) -> List[Tuple[str, List[str]]]:
    """Of each block of code the line above it, and its lines."""
    found = []
    lines = text.split("\n")
    at = 0
    while at < len(lines):
        if lines[at].startswith("```"):
            end = lines.index("```", at + 1)
            found.append((lines[at - 1] if at else "", lines[at + 1 : end]))
            at = end
        at += 1
    return found


def files_in(page: str) -> Iterator[Tuple[str, List[str]]]:
    """The names and the lines of the blocks of a page that are files."""
    for above, block in blocks(read(page)):
        file = re.fullmatch(r"<!-- file (\S+) -->", above)
        if file:
            yield file[1], block


def documentation(text: str) -> str:
    """The lines of a source file that document its items or itself, without their marks."""
    lines = (line.strip() for line in text.split("\n"))
    return "\n".join(
        line[3:].removeprefix(" ") if re.match("//[/!]", line) else "" for line in lines
    )


def names_of_files() -> List[str]:
    """The names of the files of the repository."""
    words = [
        "git",
        "-c",
        f"safe.directory={TOP}",
        "ls-files",
        "--cached",
        "--others",
        "--exclude-standard",
    ]
    listed = subprocess.run(words, cwd=TOP, stdout=subprocess.PIPE, text=True, check=True).stdout
    return [name for name in listed.split("\n") if os.path.isfile(os.path.join(TOP, name))]


NAMES = names_of_files()
EXPORTED = re.findall(r'^    "(\w+)",$', read("python/src/simplecss/__init__.py"), re.MULTILINE)
PAGES = [
    (name, read(name))
    for name in NAMES
    if re.fullmatch(r"(docs/(first_steps/)?|examples/)?\w+\.md", name)
]


def documents() -> List[Tuple[str, str]]:
    """The pages, and the documentation of sources with blocks that name where they are from."""
    sources = [(name, read(name)) for name in NAMES if name.endswith(".rt")]
    pages = [page for page in PAGES if page[0] != LINT]
    return pages + [(name, documentation(text)) for name, text in sources if "<!-- from " in text]


def choices(path: str) -> List[str]:
    """The paths that a path with alternatives in braces means."""
    braces = re.search(r"\{([^{}]*)\}", path)
    if not braces:
        return [path]
    front, back = path[: braces.start()], path[braces.end() :]
    return [whole for part in braces[1].split(",") for whole in choices(front + part + back)]


def sentences(text: str) -> List[List[str]]:
    """The sentences of a page outside code, tables and headings, as lists of words. A block of text
    ends a sentence."""
    text = re.sub(r"^```.*?^```$|<!--.*?-->", "", text, flags=re.MULTILINE | re.DOTALL)
    text = re.sub(r"^(?:    |\||#|!\[).*$", "", text, flags=re.MULTILINE)
    parts = [
        part
        for block in re.split(r"\n\s*\n|\n(?=- |\d+\. )", text)
        for part in re.split(r"(?<=[.?!])[*)]*\s+", block)
    ]
    found = ([word for word in part.split() if re.search(r"\w", word)] for part in parts)
    return [words for words in found if words]


class Sources(Case):
    """What the documents show of the sources."""

    def test_blocks(self) -> None:
        """Blocks name their source, and are in it."""
        named = 0
        for name, text in documents():
            found = blocks(text)
            marks = sum(above.startswith("<!-- from ") for above, _ in found)
            with self.subTest(document=name):
                self.assertEqual(
                    text.count("<!-- from "), marks, "a source is named and no block follows"
                )
            for above, block in found:
                with self.subTest(document=name, block=block[:1]):
                    source = re.fullmatch(r"<!-- from (\S+) -->", above)
                    if source:
                        self.assertTrue(is_within(block, read(source[1])), source[1])
                    else:
                        is_known = above == "<!-- run -->" or bool(shown.MARK.fullmatch(above))
                        self.assertTrue(is_known, "no source is named")
                named += above.startswith("<!-- from ")
        self.assertGreater(named, 0, "no document names a source")

    def test_recipes(self) -> None:
        """The files that the recipes of docs/ARCHITECTURE.md name."""
        recipes = read("docs/ARCHITECTURE.md").split("## How to add a rule", 1)[-1]
        rows = re.findall(r"^\| (`\w+`|tests, documents) \| (.*) \|$", recipes, re.MULTILINE)
        for crate, files in rows:
            folders = [os.path.join("crates", crate.strip("`"))] if "`" in crate else ["crates", ""]
            for words in re.findall(r"`([^` *]+/[^` *]*)`", files):
                for path in choices(words):
                    with self.subTest(crate=crate, path=path):
                        ends = [path + ending for ending in ("", ".antt", ".rt")]
                        paths = [
                            os.path.join(TOP, folder, end) for folder in folders for end in ends
                        ]
                        self.assertTrue(any(map(os.path.exists, paths)))

    def test_links(self) -> None:
        for name, text in PAGES:
            for target in re.findall(r"\]\(([^)#:]+)(?:#[^)]*)?\)", text):
                with self.subTest(document=name, target=target):
                    self.assertTrue(
                        os.path.exists(os.path.join(TOP, os.path.dirname(name), target))
                    )

    def test_written_pages(self) -> None:
        """The pages that tools write."""
        for tool, page in (
            ("draw_crates.py", "docs/crates.svg"),
            ("list_contracts.py", "docs/CONTRACTS.md"),
        ):
            with self.subTest(page=page):
                written = answer([sys.executable, os.path.join(TOP, "tools", tool)])
                self.assertEqual(written, (0, read(page), ""))

    def test_claims(self) -> None:
        """Claims are in their documents, and what carries them is reached and says so."""
        found = list(claims.claims_of(read("tests/claims.txt")))
        for claim in found:
            with self.subTest(claim=claim.words):
                is_said = claims.spaced(claim.words) in claims.spaced(read(claim.document))
                self.assertTrue(is_said, f"{claim.document} does not say it")
                self.assertTrue(claim.carriers, "nothing carries it")
        self.are_carried(found, claims.reached(Path(TOP)))
        self.assertGreater(len(found), 15)

    def are_carried(self, found: Sequence[claims.Claim], shipped: set[claims.Function]) -> None:
        """Whether what carries claims is among the functions that are reached, and says so."""
        for claim in found:
            for carrier in claim.carriers:
                with self.subTest(claim=claim.words, carrier=carrier):
                    self.assertEqual(claims.fault_of(carrier, Path(TOP), shipped), "")

    def test_claims_by_type(self) -> None:
        """What carries the claims is called on its own type, by the compiled code."""
        compiled = claims.compiled_below(Path(TOP))
        if compiled is None:
            self.skipTest(
                "the calls of the claims by type: ./build library has not proved the libraries"
            )
        found = list(claims.claims_of(read("tests/claims.txt")))
        self.are_carried(found, claims.reached_by_type(Path(TOP), compiled))

    def test_compiled_calls(self) -> None:
        """A method of another type with the same name is not reached, nor another method of the
        type; a closure is, and all of an `impl` that is handed on."""
        code = [
            [
                "a::f",
                {
                    "types": ["a::Other"],
                    "body": ["Seq", {"Call": [{"Fn": ["a::One::read", {"dicts": []}]}]}],
                },
            ],
            [
                "a::One::read",
                {"body": [{"Fn": ["b::each", {"dicts": [{"Impl": ["a::OneShow", []]}]}]}]},
            ],
            ["a::OneShow::show", {"body": [{"Impl": ["a::fn::show::map+FnMut", []]}]}],
            ["a::fn::show::map+FnMut::call_mut", {"body": [{"Fn": ["a::last", {}]}]}],
            ["a::last", {"body": []}],
            ["a::One::write", {"body": []}],
            ["a::Other::read", {"body": []}],
            ["a::OtherShow::show", {"body": []}],
        ]
        compiled = claims.read_compiled(json.dumps(code))
        left = sorted(set(compiled) - claims.named_from(["a::f"], compiled))
        self.assertEqual(left, ["a::One::write", "a::Other::read", "a::OtherShow::show"])

    def test_ticks(self) -> None:
        """Counts of tests are raised in three places only, where an element is tested: anybody may
        call `Tests::tick`, whose clause says no more than that it adds one. A search of
        `css_matching` counts its own tests, and all."""
        sources = [name for name in NAMES if re.fullmatch(r"crates/\w+/src/.*\.rt", name)]
        ticks = [name for name in sources for _ in range(read(name).count(".tick()"))]
        places = [
            "crates/css_matching/src/matching.rt",
            "crates/css_matching/src/matching.rt",
            "crates/css_selectors/src/after_key.rt",
            "crates/simplecss_selector/src/matching.rt",
        ]
        self.assertEqual(sorted(ticks), places)

    def test_version(self) -> None:
        """The version stands in include/simplecss.h, and is the same elsewhere."""
        for path, pattern in VERSIONS:
            with self.subTest(path=path):
                found = re.search(pattern, read(path), re.MULTILINE)
                self.assertEqual(found and found[1], version())

    def test_files_that_run(self) -> None:
        """A file that begins with `#!` may be run, and no other."""
        for folder in ("", "tests", "tools", "bench", ".ci"):
            for entry in sorted(
                os.scandir(os.path.join(TOP, folder)), key=lambda entry: entry.name
            ):
                if entry.is_file():
                    with self.subTest(file=os.path.join(folder, entry.name)):
                        with open(entry.path, "rb") as file:
                            runs = file.read(2) == b"#!"
                        self.assertEqual(os.access(entry.path, os.X_OK), runs)


def is_in_gate(test: str) -> bool:
    """Whether `.ci/run` has a test of this name."""
    module, _, rest = test.partition(".")
    if not rest:
        return re.search(rf"^{module}: ", read("crates.txt"), re.MULTILINE) is not None
    kind, name = rest.split(".")
    is_package = module.startswith("test_")
    text = read("python/tests" if is_package else "tests", f"{module}.py")
    body = text.partition(f"\nclass {kind}(")[2].partition("\nclass ")[0]
    is_run = is_package or f'("{module}", (' in read("tests/all.py")
    return is_run and f"    def {name}(self)" in body


class Interfaces(Case):
    def test_table(self) -> None:
        """A test of the gate carries what the README's table says that users get."""
        (table,) = re.findall(r"^\| You write .*\n\|[-|]+\n((?:\|.*\n)+)", read("README.md"), re.M)
        rows = [[it.strip() for it in line.split("|")[1:-1]] for line in table.splitlines()]
        self.assertEqual([row[0] for row in rows], list(CARRIED))
        for name, got, css, _ in rows:
            self.assertEqual([*got.split(", "), *css.split(", ")], list(CARRIED[name]))
            for what, test in CARRIED[name].items():
                with self.subTest(row=name, what=what):
                    self.assertTrue(is_in_gate(test))


def plain(text: str) -> str:
    """The text in one line, without the content of code."""
    text = re.sub(r"^```.*?^```$|^    .*$", "", text, flags=re.MULTILINE | re.DOTALL)
    return " ".join(re.sub(r"`[^`]*`", "`x`", text).split())


def documented() -> Iterator[Tuple[str, str]]:
    """What people read: pages, and what the header, the types and the package say of each name."""
    yield from ((name, text) for name, text in PAGES if name != "docs/CONTRACTS.md")
    for name in NAMES:
        if re.fullmatch(r"(python|release/\w+)/README\.md|.*/index\.d\.ts|include/.*\.h", name):
            yield name, re.sub(r"^ *\*(?!/)", "", read(name), flags=re.MULTILINE)
        elif re.fullmatch(r"python/src/simplecss/\w+\.py", name):
            public = [
                it for it in ast.parse(read(name)).body if getattr(it, "name", "") in EXPORTED
            ]
            within = [it for each in public for it in getattr(each, "body", ())]
            for it in (*public, *within):
                if isinstance(it, (ast.ClassDef, ast.FunctionDef)) and it.name[0] != "_":
                    yield f"{name}: {it.name}", ast.get_docstring(it) or ""


def first_words(text: str) -> int:
    """How many words the first sentence of a documentation has."""
    return len(re.split(r"(?<=[.?!])\s", " ".join(text.split()))[0].split())


def documentation_of(name: str) -> List[str]:
    """What documents each public name of sources in Rattle, Rust or TypeScript."""
    if name.endswith(".ts"):
        found = re.findall(r"/\*\*(.*?)\*/", read(name), re.DOTALL)
        return [re.sub(r"^ *\* ", "", each, flags=re.MULTILINE) for each in found]
    found = re.findall(r"((?:^ *///.*\n)+)(?: *#\[.*\n)*(?= *pub )", read(name), re.MULTILINE)
    return [re.sub(r"^ *///", "", each, flags=re.MULTILINE) for each in found]


def numbers_of_sources() -> Dict[str, int]:
    """How many crates, functions, clauses, lines of each kind and mutations the sources have."""
    code = [read(name) for name in NAMES if re.fullmatch(r"crates/\w+/src/.*\.rt", name)]
    logic = {
        kind: sum(
            read(name).count("\n")
            for name in NAMES
            if re.fullmatch(rf"crates/\w+/{kind}/.*\.antt", name)
        )
        for kind in ("specs", "proofs")
    }
    return {
        "crates": len(re.findall(r"^\w+(?: \w+)?:", read("crates.txt"), re.MULTILINE)),
        "functions": sum(
            len(re.findall(r"^ *(?:pub\S* |extern \S+ )*fn \w", it, re.M)) for it in code
        ),
        "clauses": sum(len(re.findall(r"^ *(?:ensures|requires) ", it, re.M)) for it in code),
        "code": sum(it.count("\n") for it in code),
        "definitions": logic["specs"],
        "proofs": logic["proofs"],
        "mutations": sum(
            bool(re.search(r"/(?:must-fail|mutants)/.*\.edit$", name)) for name in NAMES
        ),
    }


class Figures(Case):
    def test_lines_of_a_shell(self) -> None:
        """The files that the README's lines of a shell name are here, or an earlier line writes them."""
        found = re.search(r"\*\*A shell\*\*(?:.+\n)+\n((?:    .+\n)+)", read("README.md"))
        assert found
        made = set()
        for line in found[1].splitlines():
            words = shlex.split(line)
            for before, word in zip(["", *words], words):
                if before == ">":
                    made.add(word)
                elif "." in word and word not in made:
                    with self.subTest(line=line, word=word):
                        self.assertTrue(os.path.isfile(os.path.join(TOP, word)))

    def test_figures(self) -> None:
        """The README's figures of the proofs are within a tenth of those of the sources."""
        number = r"(\d[\d,]*)"
        said = re.search(
            rf"In {number} crates, about {number} functions have {number} clauses: {number} lines of"
            rf" code with contracts, {number} of definitions and {number} of proofs\. {number} mut",
            " ".join(read("README.md").split()),
        )
        self.assertTrue(said, "README.md has no figures")
        numbers = [int(it.replace(",", "")) for it in said.groups()] if said else []
        for (what, counted), told in zip(numbers_of_sources().items(), numbers):
            with self.subTest(what=what):
                self.assertLessEqual(abs(counted - told) * 10, told, f"{counted}, not {told}")

    def test_believed(self) -> None:
        """So are the figures of docs/PROOFS.md of what must be believed."""
        row = r"^\| .* \| ([\d,]+) \| ([\d,]+) \| `(\w+)/(\S+) (\w+)` \|$"
        rows = re.findall(row, read("docs/PROOFS.md"), re.MULTILINE)
        for *said, crate, file, function in rows:
            with self.subTest(function=function):
                words = [sys.executable, os.path.join(TOP, "tools", "believed.py")]
                first = answer([*words, crate, file, function]).out.split("\n")[0].split()
                for told, counted in zip(said, first):
                    number, due = (int(it.replace(",", "")) for it in (told, counted))
                    self.assertLessEqual(abs(due - number) * 10, number, f"{due}, not {number}")
        self.assertEqual(len(rows), 5)
        (most,) = re.findall(r"([\d,]+) lines of definitions and not", read("README.md"))
        lines = max(int(it[1].replace(",", "")) for it in rows)
        self.assertLessEqual(abs(lines - int(most.replace(",", ""))) * 10, lines)


class Lengths(Case):
    def test_sentences(self) -> None:
        for name, text in PAGES:
            if name != "CHANGELOG.md":
                with self.subTest(document=name):
                    lengths = [len(words) for words in sentences(text)]
                    self.assertLessEqual(sum(lengths) / max(1, len(lengths)), LONGEST)

    def test_phrases(self) -> None:
        for name, text in documented():
            for phrase, instead in PHRASES.items():
                with self.subTest(document=name, instead=instead):
                    found = re.search(rf".{{0,40}}(?:{phrase}).{{0,20}}", plain(text))
                    self.assertIsNone(found and found[0])

    def test_first_sentences(self) -> None:
        """Half of the first sentences of what documents public names have at most ten words."""
        python = [text for name, text in documented() if ".py: " in name and text]
        for what, names in (
            ("the crates", r"crates/(?!tests_|example_)\w+/src/.*\.rt"),
            ("the Rust crate", r"release/rust/src/(modern/)?\w+\.rs"),
            ("the npm package", r"release/npm/index\.d\.ts"),
        ):
            texts = [
                it for name in NAMES if re.fullmatch(names, name) for it in documentation_of(name)
            ]
            with self.subTest(what=what):
                self.assertLessEqual(statistics.median(map(first_words, texts)), FIRST)
        with self.subTest(what="the Python package"):
            self.assertLessEqual(statistics.median(map(first_words, python)), FIRST)

    def test_words(self) -> None:
        counted = {
            name: sum(bool(re.search(r"\w", word)) for word in text.split())
            for name, text in PAGES
            if re.fullmatch(r"(README|SECURITY|CONTRIBUTING|docs/[\w/]+)\.md", name)
            and name != LINT
        }
        self.assertLessEqual(counted["README.md"], FIRST_PAGE)
        self.assertLessEqual(sum(counted.values()), MOST)


class Shown(Case):
    """What the documents show of the programs."""

    def setUp(self) -> None:
        folder = tempfile.TemporaryDirectory()
        self.addCleanup(folder.cleanup)
        self.folder = folder.name

    def test_differences(self) -> None:
        """The sheets of docs/DIFFERENCES.md."""
        shown = read("docs/DIFFERENCES.md").split("## What surprises", 1)[-1]
        rows = re.findall(r"^\| `([^`]+)` \| ([^|]*) \|[^|]*\| [^|]* \|$", shown, re.MULTILINE)
        for text, cell in rows:
            with self.subTest(text=text):
                sheet = write(os.path.join(self.folder, "text.css"), text)
                wanted = "".join(line + "\n" for line in re.findall(r"`([^`]+)`", cell))
                got = answer([program("cssq_cli"), "sheet", sheet])
                self.assertEqual((got.status, got.out), (0, wanted))
        self.assertGreater(len(rows), 20)

    def test_commands(self) -> None:
        """The table of commands of docs/PROGRAM.md."""
        for name, block in files_in("docs/PROGRAM.md"):
            write(os.path.join(self.folder, name), "\n".join(block) + "\n")
        tried = set()
        rows = re.findall(
            r"^\| `\./cssq ([^`]*)` \| (.*) \|$", read("docs/PROGRAM.md"), re.MULTILINE
        )
        for line, cell in rows:
            with self.subTest(words=line):
                spans = re.findall(r"`([^`]*)`([^`]*)", cell)
                text = "".join(
                    span + {"TAB": "\t", "<br>": "\n", "": "\n"}[it.strip()] for span, it in spans
                )
                words = shlex.split(line)
                tried.add(words[0])
                for tree in ("page.html", "page.tree"):
                    named = [tree if it == "page.html" else it for it in words]
                    got = answer([program("cssq_cli"), *named], cwd=self.folder)
                    self.assertEqual((got.status, got.out), (0, text))
        usage = answer([program("cssq_cli"), "--no-such-word"]).err
        self.assertEqual(tried, set(re.findall(r"[\[|] *(\w+)", usage)))

    def test_examples(self) -> None:
        """The lines of examples/README.md."""
        lines = re.findall(r"^    out/(\w+)(.*)$", read("examples/README.md"), re.MULTILINE)
        examples = {
            name.split("/")[1]
            for name in NAMES
            if re.fullmatch(r"crates/example_\w+/src/main.rt", name)
        }
        self.assertEqual({name for name, _ in lines}, examples)
        for name, words in lines:
            for word in shlex.split(words):
                if "/" in word:
                    with self.subTest(program=name, word=word):
                        self.assertTrue(os.path.isfile(os.path.join(TOP, word)))


class Site(Case):
    def test_missing(self) -> None:
        """Where Sphinx is missing, a line says what to install."""
        shown_line = io.StringIO()
        with mock.patch.object(make_site, "find_python", return_value=""):
            with contextlib.redirect_stderr(shown_line):
                self.assertEqual(make_site.main([]), 1)
        packages = " ".join(make_site.NEEDED.values())
        self.assertEqual(
            shown_line.getvalue(),
            f"build: no site is made: it needs Debian's packages {packages}\n",
        )

    def test_site(self) -> None:
        """The site has all pages, whose links lead somewhere, and a search."""
        if not make_site.find_python():
            self.skipTest(
                f"the site of the documents: {' or '.join(make_site.NEEDED.values())} is missing"
            )
        with tempfile.TemporaryDirectory() as folder:
            made = answer([os.path.join(TOP, "build"), "docs", folder], cwd=TOP)
            self.assertEqual(made.status, 0, made.err[-2000:])
            for name in ["index", "search", *(name[:-3] for name, _ in PAGES)]:
                with self.subTest(page=name):
                    self.assertTrue(os.path.isfile(os.path.join(folder, f"{name}.html")))
            with open(os.path.join(folder, "searchindex.js"), encoding="utf-8") as file:
                self.assertIn("newslett", file.read())
            self.documents(read(folder, "docs", "REFERENCE.html"))

    def documents(self, page: str) -> None:
        """A page has each name of the Python package, and nothing that Python itself documents."""
        package()
        names = importlib.import_module("simplecss").__all__
        for name in [it for it in names if not it.startswith("__")] + ["sieve.select"]:
            with self.subTest(name=name):
                self.assertIn(f'id="simplecss.{name}"', page)
        self.assertNotIn("Alias for field", page)


class Sessions(Case):
    """What pages show of the Python package and its command."""

    def setUp(self) -> None:
        folder = tempfile.TemporaryDirectory()
        self.addCleanup(folder.cleanup)
        self.folder = folder.name
        try:
            library = library_path()
        except FileNotFoundError as why:
            self.skipTest(f"the sessions of the documents: {why}")
        package()
        command = os.path.join(self.folder, "bin", "simplecss")
        os.makedirs(os.path.dirname(command))
        write(command, f'#!/bin/sh\nexec {shlex.quote(sys.executable)} -m simplecss "$@"\n')
        os.chmod(command, 0o755)
        path = os.pathsep.join((os.path.dirname(command), os.environ["PATH"]))
        source = os.path.join(TOP, "python", "src")
        self.environment = {**os.environ, "PATH": path, "PYTHONPATH": source}
        self.environment["SIMPLECSS_LIBRARY"] = library

    def run_page(self, name: str, compared: int) -> None:
        """Runs a page, of which this many blocks are compared."""
        folder = os.path.join(self.folder, "page")
        os.makedirs(folder)
        page = shown.Page(self, name, folder, self.environment)
        self.assertEqual(page.run(read(name)), compared)

    def test_first_steps(self) -> None:
        self.run_page("docs/first_steps/PYTHON.md", 6)

    def test_recipes(self) -> None:
        self.run_page("docs/RECIPES.md", 18)


class Rattle(Case):
    def test_lines(self) -> None:
        """The lines of docs/RATTLE.md, from an empty folder to two programs that run."""
        if os.path.dirname(program("cssq_cli")).endswith("unproved"):
            raise unittest.SkipTest(
                "docs/RATTLE.md: its lines prove the libraries, which takes minutes"
            )
        kit()
        script = ["set -eu"]
        for above, block in blocks(read("docs/RATTLE.md")):
            file = re.fullmatch(r"<!-- file (\S+) -->", above)
            if file:
                script += [f"cat >{file[1]} <<'END'", *block, "END"]
            elif above == "<!-- run -->":
                script += block
        with tempfile.TemporaryDirectory() as folder:
            environment = {**os.environ, "CHECKOUT": TOP}
            got = answer(["sh", "-c", "\n".join(script)], cwd=folder, env=environment)
        wanted = read("crates/example_first/stdout") + "0: false\n1: false\n2: true\n"
        printed = "".join(line + "\n" for line in got.out.splitlines() if line + "\n" in wanted)
        self.assertEqual((got.status, printed), (0, wanted), got.err[-1000:])
