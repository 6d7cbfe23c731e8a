"""From a checkout and stock tools: what Python and cargo make of the files of the repository where
there is no toolchain on the PATH and nothing is built. That is the crate of Rust with and without
its features, the C library as a crate, the Python package from the checkout and from a source
distribution, and the npm package.

The module `modern` of the crate answers as the proved crates do on random texts, whose number
`COUNT` sets, on a document and on a page of elements of another type. Drawings over the tree of
roxmltree look as in Chromium. What needs a tool or a package of Debian that is missing is left out.
"""
from __future__ import annotations

import ctypes
import functools
import glob
import json
import os
import random
import re
import shutil
import sys
import tempfile
import unittest
import zipfile
from typing import Any, Dict, List, Optional, Sequence, Set, Tuple

from tests import (
    judges_tests,
    linted,
    modern_selectors,
    nested_rules,
    release,
    shown,
    syntax,
    tables,
)
from tests.common import (
    DEBIAN,
    TOP,
    browser_answers,
    check_kept,
    check_objects,
    count,
    has_modules,
    library_path,
    package,
    read,
    version,
    write,
)
from tests.release import (
    CMAKE,
    Done,
    DRAWING,
    PIECES,
    PRINTED,
    UNUSED,
    VALUES,
    PROJECT,
    Cargo,
    Release,
    framed,
    parts_of,
    run,
    second_checkout,
    unpack,
)

# A program over the crate `simplecss`.
OF_PATCHED = """fn main() {
    let selector = simplecss::Selector::parse(".note").unwrap();
    println!("{} {:?}", selector, selector.specificity());
}
"""
# Where a bare Debian comes from.
MIRROR = "http://deb.debian.org/debian"
FEATURES = ("", "std", "log", "modern", "std,log,modern", "bits32")
# Targets of 32 bits, of which one may be installed.
WASM, ARM = "wasm32-unknown-unknown", "armv7-unknown-linux-gnueabihf"
NARROW = (WASM, "i686-unknown-linux-gnu", ARM)
# Debian's Rust with the standard library for WebAssembly, and what its cargo needs. It is 1.63, for
# which `let .. else` alone is too new in the erased sources.
RUST = judges_tests.Project(
    "Rust",
    [],
    [
        *("rustc", "cargo", "libstd-rust-1.63", "libstd-rust-dev", "libstd-rust-dev-wasm32"),
        *("libgit2-1.5", "libhttp-parser2.9", "libmbedcrypto7", "libmbedtls14", "libmbedx509-1"),
    ],
    lambda top, judge: None,
    0,
)
STOCK_CARGO = """#!/bin/sh
export LD_LIBRARY_PATH={usr}/lib/x86_64-linux-gnu RUSTC={usr}/bin/rustc RUSTC_BOOTSTRAP=1
export RUSTFLAGS='-Zcrate-attr=feature(let_else) -Aunused-unsafe'
export CARGO_TARGET_WASM32_UNKNOWN_UNKNOWN_LINKER=wasm-ld
exec {usr}/bin/cargo "$@" --ignore-rust-version
"""
# What the erased sources may use of the standard library that is newer than the Rust of
# `Cargo.toml`: for older versions `rattle_std` has it. They all use the first.
NEWER = ("split_first_chunk", "is_some_and")
# The drawing of the example `modern`, and what Chromium 156 computes for its elements, but for what
# they inherit. `Drawing.test_browser` compares the two where there is a browser.
MODERN_DRAWING = "tests/release/modern.svg"
WINNERS = """svg
style
style
g opacity="0.5" stroke="rgb(0, 0, 255)"
circle fill="rgb(1, 2, 3)" stroke-width="3px"
circle fill="rgb(10, 11, 12)" stroke-width="5px"
g
rect stroke="rgb(255, 0, 0)"
rect fill="rgb(0, 128, 0)" opacity="0.5" stroke="rgb(255, 0, 0)" stroke-width="7px"
rect fill="rgb(4, 5, 6)" stroke="rgb(255, 0, 0)"
g opacity="0.9"
rect fill="rgb(0, 128, 0)" opacity="0.4" stroke-width="2px"
title opacity="0.3"
rect fill="rgb(200, 0, 0)" stroke="rgb(0, 0, 200)" stroke-width="2px"
"""
# What an element has of a property that no declaration sets, and whether children inherit it.
UNSET = {
    "fill": ("rgb(0, 0, 0)", True),
    "opacity": ("1", False),
    "stroke": ("none", True),
    "stroke-width": ("1px", True),
}
COMPUTED = """
<!DOCTYPE html><meta charset=utf-8><script id=input type="application/json">%s</script>
<script>
const [text, names] = JSON.parse(document.getElementById("input").textContent);
const drawing = new DOMParser().parseFromString(text, "image/svg+xml").documentElement;
document.documentElement.append(document.importNode(drawing, true));
const found = [];
for (const element of document.querySelectorAll("svg, svg *")) {
    let depth = 0;
    for (let at = element; at.localName != "svg"; at = at.parentElement) depth += 1;
    const style = getComputedStyle(element);
    found.push([element.localName, depth, names.map(name => style.getPropertyValue(name))]);
}
document.documentElement.textContent = "ANS" + "WER" + JSON.stringify(found) + "END";
</script>
"""
# Pieces of random texts, beside those of the port: of lists of declarations, and of sheets. A zero
# byte separates texts.
# fmt: off
DECLARED = [
    "color:red;", "color:blue!important;", "COLOR: green ;", "--x:{a};", "--x:1 !IMPORTANT;",
    "\\63 olor:x;", "color:calc(1px + (2));", "color:url(a;b);", "a:'b';", "--X: ;", "@y z{w:v}",
    "color:'", "color:a(b", "bad;", "color:url(a b);", "/**/;", "--x:\\61 ", "color:!important;",
]
OTHERS = [it for it in PIECES if it != "\x00"] + [
    ":nth-child(2n+1)", ":is(a, p)", ":not(.note)", ":where(", ")", "[a^=b]", "[a$=c i]",
    "::before", "@media print{", "@media screen{", "@layer x{", "}", ":root", "*{", ".note,p{",
    ":empty{",
]
PYTHON_CALL = """
import json, simplecss
tree = simplecss.Tree.from_html("<ul><li class=a>one<li>two</ul>")
sheet = simplecss.StyleSheet("li:nth-child(2) { color: red }")
found = tree.select("ul > .a")
print(json.dumps([
    simplecss.library_path(), simplecss.is_proved(), [str(it) for it in found],
    [winner and winner.value for winner in sheet.style(tree, "color")][-2:],
    simplecss.inline("<style>li { color: red }</style><ul><li>a</ul>"),
]))
"""
# fmt: on


def stock_environment() -> Dict[str, str]:
    """The environment of one who has cargo and what the system has, and no toolchain."""
    cargo = shutil.which("cargo", path=os.environ["PATH"] + os.pathsep + "~/.cargo/bin")
    folders = [os.path.dirname(cargo)] if cargo else []
    path = os.pathsep.join([*folders, "/usr/bin", "/bin"])
    assert not shutil.which("rt", path=path), "the toolchain is on the PATH of the system"
    kept = {name: os.environ[name] for name in ("HOME", "RUSTUP_HOME") if name in os.environ}
    return {**kept, "PATH": path, "PYTHONDONTWRITEBYTECODE": "1", "LC_ALL": "C.UTF-8"}


def nothing() -> None:
    """Makes nothing."""


@functools.lru_cache(maxsize=None)
def clean_folder() -> str:
    """A folder with a copy of the checkout in which nothing is built."""
    folder = tempfile.TemporaryDirectory()
    unittest.addModuleCleanup(folder.cleanup)
    unittest.addModuleCleanup(clean_folder.cache_clear)
    second_checkout(os.path.join(folder.name, "checkout"), ())
    return folder.name


class Checkout(Release):
    """Tests over a clean copy of the checkout."""

    def setUp(self) -> None:
        super().setUp()
        self.top = os.path.join(clean_folder(), "checkout")
        self.environment = stock_environment()
        if not shutil.which("cargo", path=self.environment["PATH"]):
            self.skipTest("from a checkout: there is no cargo")

    def erased(self, name: str, *words: str) -> str:
        """The folder of the crate that the eraser makes with these words."""
        folder = os.path.join(clean_folder(), name)
        if not os.path.isdir(folder):
            erase = os.path.join(self.top, "tools", "erase.py")
            words = (sys.executable, erase, *words, folder)
            self.works(words, f"erase.py: {name}", self.top, env=self.environment)
        return folder

    def stock_rust(self) -> Dict[str, str]:
        """Where cargo is that compiles by Debian's Rust, and for WebAssembly."""
        top = os.path.join(TOP, "out", "judges")
        why = judges_tests.fetch(RUST, top)
        if why:
            self.skipTest(f"{self.id().partition('.')[2]} by Debian's Rust: {why}")
        folder = os.path.join(clean_folder(), "debian")
        for name in RUST.packages if not os.path.isdir(folder) else ():
            source = os.path.join(top, judges_tests.PACKAGES, name)
            shutil.copytree(source, folder, symlinks=True, dirs_exist_ok=True)
        path = write(os.path.join(folder, "cargo"), STOCK_CARGO.format(usr=f"{folder}/usr"))
        os.chmod(path, 0o755)
        return {"PATH": folder + os.pathsep + self.environment["PATH"]}

    def run_page(self, language: str, made: Dict[str, str], compared: int) -> None:
        """Runs the first steps in a language, of which this many blocks are compared. `made` has what lines
        of the page make, by the paths of those that other tests have made; what has none is there then.
        """
        folder = os.path.join(self.folder, "first")
        os.makedirs(folder)
        # npm asks no registry about a package that it takes from a folder.
        quiet = {"npm_config_audit": "false", "npm_config_update_notifier": "false"}
        environment = {**self.environment, **quiet, "CHECKOUT": self.top}
        page = shown.Page(self, f"docs/first_steps/{language}.md", folder, environment)
        for line, path in made.items():
            to = os.path.join(folder, line.split()[-1])
            page.made[line] = nothing
            if path:
                page.made[line] = functools.partial(os.symlink, path, to)
        self.assertEqual(page.run(read(self.top, page.name)), compared)

    def offline_cargo(self) -> Cargo:
        """Cargo without the toolchain, which takes other crates from Debian's packages and keeps
        what it compiles."""
        cargo = Cargo(self)
        cargo.environment.update(self.environment)
        cargo.environment["CARGO_TARGET_DIR"] = os.path.join(clean_folder(), "target")
        return cargo


class Rust(Checkout):
    """The erased crate."""

    def setUp(self) -> None:
        super().setUp()
        self.package = self.erased("rust")
        self.cargo = self.offline_cargo()
        self.needed = f'simplecss = {{ path = "{self.package}", features = ["modern"] }}\n'
        why = self.cargo.lacks(self.package)
        if why:
            self.skipTest(f"the crate from a checkout: {why}")

    def test_features(self) -> None:
        for features in FEATURES:
            words = ["check", "--no-default-features", "--features", features]
            self.cargo(words, self.package, f"cargo check with the features {features!r}")

    def test_documentation(self) -> None:
        """Its examples run, and it names only what the crate exports."""
        self.cargo(["test", "--doc", "--features", "modern"], self.package, "doc tests")
        links = ("broken-intra-doc-links", "private-intra-doc-links")
        self.cargo.environment["RUSTDOCFLAGS"] = " ".join(f"-D rustdoc::{it}" for it in links)
        for features in ("std", "std,log,modern"):
            words = ["doc", "--no-deps", "--no-default-features", "--features", features]
            self.cargo(words, self.package, f"cargo doc with the features {features!r}")
        folder = os.path.join(self.cargo.environment["CARGO_TARGET_DIR"], "doc", "simplecss")
        self.assertEqual(unknown_names(folder), set())

    def test_versions(self) -> None:
        """The sources need no Rust newer than `Cargo.toml` states, and no later edition."""
        packages = (self.package, self.erased("c", "--c"))
        for package in packages:
            self.assertIn('edition = "2021"', read(package, "Cargo.toml"))
        if run(["cargo", "clippy", "--version"], env=self.cargo.environment).returncode:
            self.skipTest("what the erased sources use of newer versions: there is no clippy")
        words = ["cargo", "clippy", "--all-features", "--all-targets", "--message-format", "json"]
        words += ["--offline", "--", "--force-warn", "clippy::incompatible_msrv"]
        for package in packages:
            done = self.works(words, "cargo clippy", package, env=self.cargo.environment)
            with self.subTest(package=os.path.basename(package)):
                named = named_by(done.stdout, "clippy::incompatible_msrv")
                self.assertIn(NEWER[0], named)
                self.assertEqual(named - set(NEWER), set())

    def test_debian(self) -> None:
        """Debian's Rust, which is older than what `Cargo.toml` states but for one feature, builds
        the crate and the C library."""
        self.cargo.environment.update(self.stock_rust())
        for package in (self.package, self.erased("c", "--c")):
            self.cargo(["check", "--all-features"], package, "cargo check by Debian's rustc")

    def test_narrow(self) -> None:
        """Targets of 32 bits are refused, unless the feature for them is on."""
        able = [it for it in NARROW if has_target(self.cargo.environment, it)]
        if not able:
            self.cargo.environment.update(self.stock_rust())
        packages = ((self.package, "std,modern"), (self.erased("c", "--c"), "std"))
        for package, features in packages:
            check = ["cargo", "check", "--offline", "--target", [*able, WASM][0]]
            check += ["--no-default-features", "--features", features]
            done = run(check, package, env=self.cargo.environment)
            self.assertIn(b"there is the feature `bits32`", done.stderr)
            check[-1] += ",bits32"
            self.works(check, "cargo check for 32 bits", package, env=self.cargo.environment)

    def test_own_tests(self) -> None:
        """The tests of the crate 0.2.2 pass, unchanged."""
        self.cargo.pass_tests_of_0_2_2(self.needed)

    def test_answers(self) -> None:
        """The module `modern` answers as the proved crates do, and alike on a document and on a page of
        elements of another type."""
        files = sources("compare_modern.rs", "own.rs")
        project = self.cargo.project("compare", self.needed, **files)
        source = modern_selectors.Source(11)
        tree, texts = source.tree(), modern_texts(source)
        lines = "\n".join(modern_selectors.lines_of(tree))
        # Of what is after these texts a document and a page answer alike, which the program expects.
        data = framed([it.encode() for it in (lines, *texts, *plain_texts(len(texts) // 4))])
        done = self.cargo(["run", "-q", "--release"], project, "the comparison", input=data)
        parts = parts_of(done.stdout, 7)[: len(texts)]
        got = [[answer.decode() for answer in it] for it in parts]
        due = proved_answers(tree, texts)
        kinds = ("declarations", "names", "printing", "sheets", "matches", "index", "winners")
        shown = [it.encode() for it in texts]
        for number, kind in enumerate(kinds):
            rows = [it for it in zip(shown, due, got) if it[1][number] is not None]
            self.assertLess(len(shown) - len(rows), 2 + len(shown) / 1000)
            wanted, found = ([it[side][number] for it in rows] for side in (1, 2))
            self.compare(
                f"modern {kind} and the proved crates", [it[0] for it in rows], wanted, found
            )

    def test_cases(self) -> None:
        """The rows that each package answers alike."""
        project = self.cargo.project("cases", self.needed, **sources("cases.rs"))

        def answers(asked: List[tables.Asked]) -> List[str]:
            data = b"".join(map(tables.for_rust, asked))
            done = self.cargo(["run", "-q"], project, "cases", input=data)
            return list(map(tables.from_rust, asked, done.stdout.split(b"\0")[:-1]))

        self.against(answers, tables.asked_of("rust"), tables.answered)

    def test_pages(self) -> None:
        """Pages in HTML have the elements, the places and the texts that Python's have, and the same elements match."""
        project = self.cargo.project("html", self.needed, **sources("html.rs"))
        work = html_pages(count(2_000))
        data = framed([it.encode() for pair in work for it in pair])
        done = self.cargo(["run", "-q"], project, "pages in HTML", input=data)
        got = [part.decode() for (part,) in parts_of(done.stdout, 1)]
        due = [answered_in_python(*it) for it in work]
        self.compare("pages in HTML and Python's", [it[0].encode() for it in work], due, got)

    def test_lint(self) -> None:
        """Random sheets have the mistakes that the C library finds."""
        project = self.cargo.project("linted", self.needed, **sources("linted.rs"))
        texts = [it.encode() for it in linted.sheets()]
        done = self.cargo(["run", "-q", "--release"], project, "mistakes", input=framed(texts))
        due = [linted.lines_of(it) for it in linted.sheets()]
        got = [part.decode() for (part,) in parts_of(done.stdout, 1)]
        self.compare("mistakes and the C library's", texts, due, got)

    def test_counts(self) -> None:
        """Calls that take a person's own elements test them as often as they say, and no more."""
        project = self.cargo.project("counting", self.needed, **sources("counting.rs", "own.rs"))
        done = self.cargo(["run", "-q"], project, "how often elements are tested")
        self.assertGreater(len(done.stdout.splitlines()), 30)

    def test_unanswered(self) -> None:
        """No call answers for a single element what a page answers."""
        project = self.cargo.project("unanswered", self.needed, **sources("unanswered.rs"))
        self.cargo(["run", "-q"], project, "answers that need a page")

    def test_speed(self) -> None:
        """Shows how long the index takes, and a test of each rule."""
        # The sheet of Debian's package libjs-bootstrap4.
        sheets = glob.glob("/usr/share/javascript/bootstrap4/css/bootstrap.css")
        if "SPEED" not in os.environ or not sheets:
            return
        files = {"src/main.rs": read("tests", "release", "speed_modern.rs")}
        project = self.cargo.project("speed", self.needed, **files)
        words = ["cargo", "run", "-q", "--release", "--offline", "--", sheets[0]]
        done = self.works(words, "the speed", project, env=self.cargo.environment)
        print(done.stdout.decode(), end="")


# What random pages and lists of selectors are made of.
MARKUP = (
    "<!DOCTYPE html>|<html lang=de>|<html a=1 lang=x>|<head>|<body B='&lt;'>|<p class=A id=X>|<p>|</p>|<b c=d C=e>|</b>"
    "|<table>|<tr><td>|</table>|<svg viewBox=1 xlink:href=a>|<CLIPPATH>|</svg>|<math definitionurl=u>|<mi>|<a href=x>"
    "|<template><i>|</template>|<input type=CHECKBOX checked>|<select><option selected>|<title>&amp;</title>|text|&copy;"
    "|<style>p{}</style>|<noscript><u></noscript>|<!-- c -->|<br>|<ul><li>|<i title='a\tb'>|<h1>|<font color=RED>|\n|</"
).split("|")
SELECTORS = (
    "*|P|p.a|.A|#x|#X|:root|[TYPE=checkbox]|:checked|[Color=red i]|B > *|svg *|clippath|clipPath|a:link|:any-link"
    "|p:has(b)|:nth-child(2 of p, li)|:empty|:lang(DE)|[c=d]|:is(B, i) + *|li:not(:has(*))|:scope > *|[viewbox]"
).split("|") + ["[*|href]"]


def html_pages(number: int) -> List[Tuple[str, str]]:
    """Random pages, each with a list of selectors."""
    rng = random.Random(5)
    pages = ("".join(rng.choices(MARKUP, k=rng.randrange(12))) for _ in range(number))
    return [(page, ", ".join(rng.choices(SELECTORS, k=rng.randrange(1, 3)))) for page in pages]


def answered_in_python(text: str, selectors: str) -> str:
    """What html.rs answers, by the package."""
    package()
    from simplecss import Tree
    from simplecss._html import HtmlPage

    page = HtmlPage(text)
    lines = [f"{page.is_quirky} {page.is_doubtful}".lower()]
    rows = zip(
        page.depths(), page.names(), page.spaces(), page.tags(), page.ends(), page.attributes()
    )
    for depth, name, space, tag, end, attributes in rows:
        start = "None" if tag[0] < 0 else f"Some({tag[0]}..{tag[1]})"
        fields = [str(depth), name, str(space), start, f"{end[0]}..{end[1]}"]
        lines.append("\t".join([*fields, *(f"{key}={value}" for key, value in attributes.items())]))
    for _, owner, said in zip(*page.texts()):
        lines.append(f"{'None' if owner < 0 else f'Some({owner})'}\t{said}")
    found = [it.index for it in Tree.from_html(text).select(selectors)]
    return "\n".join([*lines, str(found)])


def sources(name: str, *modules: str) -> Dict[str, str]:
    """The files of a program of tests/release, whose first one is its main source."""
    files = {f"src/{it}": read("tests", "release", it) for it in modules}
    return {"src/main.rs": read("tests", "release", name), **files}


def has_target(environment: Dict[str, str], target: str) -> bool:
    """Whether the Rust of an environment has the standard library for a target."""
    words = ["rustc", "--print", "target-libdir", "--target", target]
    return os.path.isdir(run(words, env=environment).stdout.decode().strip())


def unknown_names(folder: str) -> Set[str]:
    """The names in the text of a documentation that nothing in it has. What it repeats of Rust's
    own is left out."""
    pages = glob.glob(os.path.join(folder, "**", "*.html"), recursive=True)
    known = {os.path.basename(path).split(".")[-2] for path in pages}
    named: Set[str] = set()
    for page in map(read, pages):
        for part in page.split('<section id="'):
            known |= set(re.findall(r"\b(\w+): ", re.sub(r"<[^>]*>", "", part)))
            if 'href="https://doc.rust-lang.org/' not in part[:400]:
                named |= set(re.findall(r"<code>(\w+_\w+)(?:\(\))?</code>", part))
        known |= set(re.findall(r'id="\w+\.(\w+)"', page))
    return named - known


def named_by(messages: bytes, lint: str) -> Set[str]:
    """What a lint warns of: the names in the source that it marks."""
    found = set()
    for line in messages.decode().splitlines():
        message = json.loads(line).get("message") or {}
        if (message.get("code") or {}).get("code") == lint:
            for span in message["spans"]:
                text = span["text"][0]
                marked = text["text"][text["highlight_start"] - 1 : text["highlight_end"] - 1]
                found |= set(re.findall(r"\w+", marked.partition("(")[0].partition("::<")[0]))
    return found


# ---- random texts, and what the proved crates answer


def modern_texts(source: modern_selectors.Source) -> List[str]:
    """Random lists of selectors, sheets and lists of declarations."""
    texts = []
    for number in range(count(8_000)):
        if number % 3 == 0:
            texts.append(source.changed() if number % 9 == 0 else source.listed())
        elif number % 3 == 1:
            texts.append("".join(random_rule(source) for _ in range(source.randrange(1, 5))))
        else:
            texts.append(pieces(source, source.randrange(1, 9), 0.7))
    return texts


def random_rule(source: modern_selectors.Source) -> str:
    """A rule set, which may be in a group rule, or other pieces."""
    if source.random() < 0.1:
        return pieces(source, source.randrange(1, 9), 0.2)
    front = source.choice(("", "", "", "@media print{", "@media screen{", "@supports (a:b){"))
    selectors = source.changed() if source.random() < 0.1 else source.listed()
    block = pieces(source, source.randrange(0, 5), 0.97)
    return f"{front}{selectors} {{{block}}}{'}' if front else ''}"


def pieces(source: modern_selectors.Source, length: int, share: float) -> str:
    """A text of so many pieces, of which this share is of lists of declarations."""
    kinds = (DECLARED if source.random() < share else OTHERS for _ in range(length))
    return "".join(map(source.choice, kinds))


def by_texts(what: str, groups: Sequence[Sequence[str]]) -> List[List[str]]:
    """What the proved program replies to each text of each group."""
    replies = iter(syntax.replies_of(what, [it for group in groups for it in group]))
    return [[next(replies) for _ in group] for group in groups]


def best(items: Sequence[Tuple[str, ...]], name: str) -> Optional[Tuple[str, bool]]:
    """The value of a property that wins in a list, and whether it is important."""
    found: Optional[Tuple[str, bool]] = None
    for kind, stated, value, flags in items:
        is_its = stated == name or stated.lower() == name and not name.startswith("--")
        if kind == "declaration" and is_its:
            is_important = "important" in flags
            if is_important or not found or not found[1]:
                found = (value, is_important)
    return found


def proved_answers(
    tree: modern_selectors.Element, texts: Sequence[str]
) -> List[List[Optional[str]]]:
    """The answers of compare_modern.rs, of what the proved program replies. Those about rules are
    missing where nested rules stand for selectors that are nested too deep."""
    declarations = syntax.replies_of("declarations", texts)
    names = ["".join(f"{it[1]}\1" for it in items) for items in syntax.fields_of("names", texts)]
    printed = syntax.printed_of(texts)
    matches = modern_selectors.answers_of("match", tree, texts)
    order = list(syntax.fields_of(f"order {2**64 - 1}", texts))
    blocks = by_texts("block", [[rule[2] for rule in rules] for rules in order])
    selected = list(map(selectors_of, order, syntax.fields_of("nesting", texts)))
    plain = sorted({one for row in selected for one in row if one})
    replies = modern_selectors.answers_of("match", tree, plain) if plain else []
    found = dict(zip(plain, map(modern_selectors.found_of, replies)))
    size = len(modern_selectors.lines_of(tree))
    answers: List[List[Optional[str]]] = []
    for row in zip(declarations, names, printed, order, blocks, matches, selected):
        sheet = "".join(f"{rule[0]}\1{rule[1]}\1{items}" for rule, items in zip(row[3], row[4]))
        elements = elements_of(row[6], found)
        on_page = (None, None) if elements is None else found_on(size, elements, row[4])
        answers.append([*row[:3], sheet, row[5], *on_page])
    return answers


def elements_of(
    selectors: Sequence[Optional[str]], found: Dict[str, modern_selectors.Found]
) -> Optional[List[List[int]]]:
    """The elements of each rule, of which one with a pseudo-element has none. Returns None if a
    selector is refused."""
    rows = [[] if it is None else found[it] for it in selectors]
    known = [it for it in rows if isinstance(it, list)]
    return known if len(known) == len(rows) else None


def selectors_of(
    order: Sequence[Sequence[str]], nesting: Sequence[Sequence[str]]
) -> List[Optional[str]]:
    """For each rule without a pseudo-element a selector that matches the same elements and is in no
    rule."""
    lists = ["&"]
    for selectors, number in nested_rules.rules_of(nesting).lists:
        lists.append(f":is({', '.join(selectors)})".replace("&", lists[number]))
    found: List[Optional[str]] = []
    for rule, (_, selector, place, _) in zip(order, nesting):
        whole = selector.replace("&", lists[int(place.split()[0])])
        found.append(None if rule[1] else whole)
    return found


def found_on(
    size: int, elements: Sequence[Sequence[int]], blocks: Sequence[str]
) -> Tuple[str, str]:
    """Which rules match each element, given the elements of each rule, and what wins on it of two
    properties."""
    fields = [block.split("\1")[:-1] for block in blocks]
    items = [[tuple(it[at : at + 4]) for at in range(0, len(it), 4)] for it in fields]
    index, winners = "", ""
    for element in range(size):
        matching = [number for number, it in enumerate(elements) if element in it]
        index += "".join(f" {number}" for number in matching) + "\n"
        for name in ("color", "--x"):
            winner = best([it for number in matching for it in items[number]], name)
            if winner:
                winners += f"{name}={winner[0]}={str(winner[1]).lower()};"
        winners += "\n"
    return index, winners


# What the selectors of random drawings have. Each compound selector has a name, so that none is of what is
# around the drawing.
MORE = (".k", ".l", ":first-child", ":nth-child(2n+1)", ":last-of-type", ":empty", ":not(.k)")
OF = ("1", "2", "odd", "2n", "-n+2", "n+2")
SIGNS = ("", "", "> ", "+ ", "~ ")


class DrawingSource(random.Random):
    """Random drawings, the same in each run."""

    def compound(self) -> str:
        """A compound selector without lists."""
        more = self.choices(MORE, k=self.choice((0, 0, 1, 2)))
        return self.choice(("g", "rect", "path")) + "".join(more)

    def complex(self) -> str:
        """One or two of them, joined."""
        last = self.choice(SIGNS) + self.compound()
        return self.compound() + " " + last if self.random() < 0.4 else last.lstrip("+~> ")

    def tested(self) -> str:
        """A pseudo-class with a list."""
        listed = ", ".join(self.complex() for _ in range(self.choice((1, 1, 2))))
        kind = self.choice(("has", "has", "nth-child", "nth-last-child", "is"))
        if kind == "has":
            listed = self.choice(SIGNS) + listed
        elif kind != "is":
            listed = f"{self.choice(OF)} of {listed}"
        return f":not(:{kind}({listed}))" if self.random() < 0.4 else f":{kind}({listed})"

    def selector(self, depth: int) -> str:
        """A selector of a rule, of which so many are around it."""
        text = self.compound() + (self.tested() if self.random() < 0.7 else "")
        if depth and self.random() < 0.5:
            return self.choice(("& ", "& > ", "& + ", "> ", "~ ")) + text
        if depth:
            return self.choice(("&:not(.k)", "&.l", f"{text} &", f"&{self.tested()}"))
        return self.choice(("", "", self.compound() + self.choice((" ", " > ", " ~ ")))) + text

    def declaration(self) -> str:
        """A declaration of one of the four properties."""
        name = self.choice(list(UNSET))
        value = f"{self.randrange(1, 99)}px"
        if name in ("fill", "stroke"):
            value = f"rgb({self.randrange(256)}, {self.randrange(256)}, 0)"
        elif name == "opacity":
            value = self.choice(("0.5", "0.25", "0.75", "0.125"))
        return f"{name}: {value}{self.choice(('', '', '', ' !important'))};"

    def rule(self, depth: int = 0) -> str:
        """A rule, with rules in it."""
        selectors = ", ".join(self.selector(depth) for _ in range(self.choice((1, 1, 2))))
        inner = [self.rule(depth + 1) for _ in range(self.choice((0, 0, 1, 2)) if depth < 3 else 0)]
        front = self.choice(
            ("", "", "", "@layer x", "@layer y", "@media (width > 1px)", "@media print")
        )
        text = f"{selectors} {{ {self.declaration()} {' '.join(inner)} {self.declaration()} }}"
        return f"{front} {{ {text} }}" if front else text

    def elements(self, depth: int = 0) -> str:
        """Elements in one another."""
        text = ""
        for _ in range(self.randrange(1, 6) if depth < 4 else 0):
            classes = self.choice(("", "", ' class="k"', ' class="l"', ' class="k l"'))
            name = self.choice(("g", "g", "rect", "path"))
            inner = self.elements(depth + 1) if self.random() < 0.7 else ""
            text += f"<{name}{classes}>{inner}</{name}>"
        return text

    def drawing(self) -> str:
        """A drawing with a sheet."""
        rules = "\n".join(self.rule() for _ in range(40))
        elements = "".join(self.elements() for _ in range(4))
        head = '<svg xmlns="http://www.w3.org/2000/svg">'
        return f"{head}<style><![CDATA[{rules}]]></style>{elements}</svg>"


def plain_texts(number: int) -> List[str]:
    """Lists of selectors and sheets in turn, such as match many elements of other trees."""
    source, names = DrawingSource(6), {"g": "li", "rect": "a", "path": "b", "k": "c", "l": "d"}
    names.update({"fill:": "color:", "stroke:": "--x:"})
    texts = []
    for at in range(number):
        text = source.rule() + source.rule() if at % 2 else source.selector(0)
        words = r"\b(?:(?:g|rect|path|k|l)\b|fill:|stroke:)"
        texts.append(re.sub(words, lambda it: names[str(it[0])], text))
    return texts


class Drawing(Checkout):
    """The examples over the tree of roxmltree."""

    def setUp(self) -> None:
        super().setUp()
        self.package = self.erased("rust")
        self.cargo = self.offline_cargo()
        why = self.cargo.lacks(self.package)
        if why:
            self.skipTest(f"the examples of the crate from a checkout: {why}")

    def printed(self, name: str, drawing: bytes) -> str:
        """What an example prints of a drawing."""
        words = ["run", "-q", "--features", "modern", "--example", name]
        return self.cargo(words, self.package, name, input=drawing, timeout=250).stdout.decode()

    def test_port(self) -> None:
        lines = self.printed("drawing", DRAWING).splitlines()
        self.assertEqual(lines[-1:], ['path fill="blue" x="2"'])

    def test_modern(self) -> None:
        self.assertEqual(self.printed("modern", read(MODERN_DRAWING).encode()), WINNERS)

    def test_browser(self) -> None:
        """A browser computes what the example prints, and what elements inherit of it."""
        self.computed(read(MODERN_DRAWING), WINNERS)

    def test_random(self) -> None:
        """So it does of random drawings, with `:has()`, lists after `An+B` and nested rules."""
        source = DrawingSource(5)
        for _ in range(3):
            drawing = source.drawing()
            self.computed(drawing, self.printed("modern", drawing.encode()))

    def computed(self, drawing: str, winners: str) -> None:
        """Compares what the example prints with what a browser computes."""
        found = browser_answers(COMPUTED, [drawing, list(UNSET)])
        if found is None:
            self.skipTest("drawings of the example: there is no chromium")
        lines = winners.splitlines()
        self.assertEqual([it[0] for it in found], [line.split()[0] for line in lines])
        above: List[List[str]] = []
        for line, (element, depth, values) in zip(lines, found):
            set_here = dict(re.findall(r' ([\w-]+)="([^"]*)"', line))
            due = [
                set_here.get(name, above[depth - 1][at] if depth and inherits else initial)
                for at, (name, (initial, inherits)) in enumerate(UNSET.items())
            ]
            above[depth:] = [due]
            with self.subTest(element=element, line=line):
                self.assertEqual(values, due)

    def test_many_siblings(self) -> None:
        """Siblings are counted once: with 100,000 the example ends."""
        style = "<style>rect:nth-last-of-type(2n+1) { fill: red }</style>"
        drawing = f"<svg>{style}{'<rect/>' * 100_000}</svg>".encode()
        red = self.printed("modern", drawing).count('rect fill="red"\n')
        self.assertEqual(red, 50_000)


# ---- the C library, and Python


class FirstSteps(Checkout):
    def test_rust(self) -> None:
        """Those in Rust need no other crate."""
        self.run_page("RUST", {}, 2)


class Library(Checkout):
    """The C library as a crate of Rust."""

    def built(self) -> Tuple[str, str]:
        """The folder of the crate, and the one with the libraries that cargo makes of it."""
        package, cargo = self.erased("c", "--c"), self.offline_cargo()
        cargo(["build", "--release"], package, "the C library")
        return package, os.path.join(cargo.environment["CARGO_TARGET_DIR"], "release")

    def test_library(self) -> None:
        package, folder = self.built()
        header = read(package, "simplecss.h")
        declared = set(re.findall(r"^(?:uint32_t|void) (simplecss_\w+)\(", header, re.MULTILINE))
        loaded = ctypes.CDLL(os.path.join(folder, "libsimplecss.so"))
        self.assertGreater(len(declared), 15)
        for name in sorted(declared):
            with self.subTest(call=name):
                self.assertTrue(hasattr(loaded, name))
        for words in (["cc", "-std=c99"], ["c++", "-x", "c++", "-std=c++11"]):
            with self.subTest(words=words):
                self.needs(words[0], "examples/c/page.c over the C library of a checkout")
                self.assertEqual(self.page_by(words, package, folder), PRINTED)
                self.assertEqual(self.page_by(words, package, folder, "unused.c"), UNUSED)
                self.assertEqual(self.page_by(words, package, folder, "values.c"), VALUES)
        if os.path.exists(os.path.join(TOP, "out", "libsimplecss.so")):
            folder = os.path.dirname(library_path())
            self.assertEqual(self.page_by(["cc", "-std=c99"], package, folder), PRINTED)

    def test_first_steps(self) -> None:
        self.needs("cc", "the first steps in C")
        package, folder = self.built()
        target = os.path.join(package, "target")
        if not os.path.exists(target):
            os.symlink(os.path.dirname(folder), target)
        made = {
            "$CHECKOUT/tools/erase.py --c simplecss-c": package,
            "cargo build --release --manifest-path simplecss-c/Cargo.toml": "",
        }
        self.run_page("C", made, 2)

    def test_kept(self) -> None:
        package, folder = self.built()
        self.needs("cc", "what the C library of a checkout keeps")
        archive = os.path.join(folder, "libsimplecss.a")
        for name in ("kept_lists.c", "kept_sheets.c", "kept_pages.c", "kept_queries.c"):
            with self.subTest(program=name):
                check_kept(self, ["cc", f"-I{package}"], archive, name)
        check_objects(self, package, folder)

    def test_arm(self) -> None:
        """The library for armv7 answers as the proved one, and no sum of it leaves 32 bits."""
        package, cargo, machine = (
            self.erased("c", "--c"),
            self.offline_cargo(),
            "arm-linux-gnueabihf",
        )
        self.needs(f"{machine}-gcc", "the C library for armv7")
        if not has_target(cargo.environment, ARM):
            self.skipTest("the C library for armv7: no such target of Rust is installed")
        variable = f"CARGO_TARGET_{ARM.replace('-', '_').upper()}_LINKER"
        cargo.environment[variable] = f"{machine}-gcc"
        cargo.environment["CARGO_PROFILE_RELEASE_OVERFLOW_CHECKS"] = "true"
        words = ["build", "--release", "--features", "bits32", "--target", ARM]
        cargo(words, package, "the C library for armv7")
        made = os.path.join(cargo.environment["CARGO_TARGET_DIR"], ARM, "release")
        self.emulate(made, "qemu-arm", machine)

    def page_by(
        self, words: Sequence[str], package: str, folder: str, name: str = "page.c"
    ) -> bytes:
        """What an example prints where a compiler links it with the library of a folder."""
        source, made = os.path.join(self.top, "examples/c", name), os.path.join(self.folder, "p")
        words = [*words, "-Wall", "-Wextra", "-pedantic", "-Werror", f"-I{package}", source]
        self.works([*words, "-o", made, f"-L{folder}", "-lsimplecss"], name)
        return run([made], env={"LD_LIBRARY_PATH": folder}).stdout


class Prefix(Checkout):
    """The C library below a prefix, with what pkg-config and CMake read."""

    def installed(self) -> str:
        """The prefix. It is made once."""
        prefix = os.path.join(clean_folder(), "prefix")
        if not os.path.isdir(prefix):
            self.environment["CARGO_PROFILE_RELEASE_LTO"] = "off"
            self.environment["CARGO_PROFILE_RELEASE_OPT_LEVEL"] = "0"
            self.environment["SOURCE_DATE_EPOCH"] = "1700000000"
            words = [sys.executable, os.path.join(self.top, "tools", "release.py"), "--c", prefix]
            self.works(words, "release.py --c", self.top, env=self.environment)
        return prefix

    def test_name(self) -> None:
        """A program asks for the name of the library, and finds it in the prefix alone."""
        for tool in ("gcc", "pkg-config", "readelf"):
            self.needs(tool, "the C library below a prefix")
        prefix, made = self.installed(), os.path.join(self.folder, "page")
        source = os.path.join(self.top, "examples", "c", "page.c")
        environment = {**os.environ, "PKG_CONFIG_PATH": os.path.join(prefix, "lib", "pkgconfig")}
        words = ["pkg-config", "--cflags", "--libs", "simplecss"]
        flags = self.works(words, "pkg-config", env=environment).stdout.decode().split()
        self.works(["gcc", "-Wall", "-Werror", source, "-o", made, *flags], "page.c")
        shown = self.works(["readelf", "-d", made], "readelf").stdout.decode()
        self.assertIn("Shared library: [libsimplecss.so.1]", shown)
        done = run([made], env={"LD_LIBRARY_PATH": os.path.join(prefix, "lib")})
        self.assertEqual((done.returncode, done.stdout), (0, PRINTED))

    def test_cmake(self) -> None:
        """CMake finds both libraries in the prefix."""
        for tool in ("cmake", "g++", "make"):
            self.needs(tool, "the C library below a prefix by CMake")
        prefix, source = self.installed(), os.path.join(self.folder, "source")
        for end in ("c", "cpp"):
            text = read(self.top, "examples", "c", "page.c")
            os.makedirs(source, exist_ok=True)
            write(os.path.join(source, f"page.{end}"), text)
        write(os.path.join(source, "CMakeLists.txt"), CMAKE % ".".join(version().split(".")[:2]))
        built = os.path.join(self.folder, "built")
        self.works(["cmake", "-S", source, "-B", built, f"-DCMAKE_PREFIX_PATH={prefix}"], "cmake")
        self.works(["cmake", "--build", built], "cmake --build")
        for path in glob.glob(os.path.join(built, "page_*")):
            with self.subTest(path=os.path.basename(path)):
                self.assertEqual(run([path], env={}).stdout, PRINTED)


class Python(Checkout):
    """The package, from the checkout and from a source distribution."""

    def setUp(self) -> None:
        super().setUp()
        if not has_modules(DEBIAN, "setuptools", "wheel", "ensurepip"):
            packages = "(python3-setuptools, python3-wheel, python3-venv)"
            self.skipTest(f"pip install from a checkout: a package is missing {packages}")
        # What is compiled is not fast, but soon.
        self.environment["CARGO_PROFILE_RELEASE_LTO"] = "off"
        self.environment["CARGO_PROFILE_RELEASE_OPT_LEVEL"] = "0"
        venv = os.path.join(self.folder, "venv")
        self.works([DEBIAN, "-m", "venv", "--system-site-packages", venv], "venv")
        self.python = os.path.join(venv, "bin", "python")

    def installed(self, source: str) -> List[Any]:
        """What the package answers that pip makes of a source."""
        words = ["-m", "pip", "install", "-q", "--no-index", "--no-build-isolation", "--no-deps"]
        words += ["--disable-pip-version-check", source]
        self.works([self.python, *words], "pip install", self.top, env=self.environment)
        words = [self.python, "-c", PYTHON_CALL]
        done = self.works(words, "the package", self.folder, env=self.environment)
        answers: List[Any] = json.loads(done.stdout)
        return answers

    def answers(self, is_proved: bool, found: List[Any]) -> None:
        """The answers are those of the package in the virtual environment."""
        self.assertEqual(found[0][: len(self.folder)], self.folder)
        self.assertEqual(found[1:4], [is_proved, ['<li class="a">'], [None, "red"]])
        self.assertIn('<li style="color: red', found[4])

    def test_checkout(self) -> None:
        self.answers(False, self.installed("./python"))

    def test_sources(self) -> None:
        """The source distribution needs no checkout."""
        python = os.path.join(self.folder, "python")
        checkout = os.path.join(self.folder, "checkout")
        shutil.copytree(self.top, checkout)
        words = ["setup.py", "-q", "sdist", "--dist-dir", self.folder]
        cwd = os.path.join(checkout, "python")
        self.works([self.python, *words], "sdist", cwd, env=self.environment)
        shutil.rmtree(checkout)
        (packed,) = glob.glob(os.path.join(self.folder, "simplecss-*.tar.gz"))
        unpack(packed, python)
        (source,) = glob.glob(os.path.join(python, "simplecss-*"))
        self.answers(False, self.installed(source))

    def test_proved(self) -> None:
        """Where there is a proved library, the package has it."""
        proved = os.path.join(TOP, "out", "libsimplecss.so")
        if not os.path.exists(proved) or hasattr(ctypes.CDLL(proved), "simplecss_is_erased"):
            self.skipTest("pip install with a proved library: there is none")
        checkout = os.path.join(self.folder, "checkout")
        shutil.copytree(self.top, checkout)
        os.makedirs(os.path.join(checkout, "out"))
        shutil.copy(proved, os.path.join(checkout, "out"))
        self.answers(True, self.installed(os.path.join(checkout, "python")))


class Setup(Checkout):
    """What setup.py does before anything is compiled, and what it packs."""

    def setUp(self) -> None:
        super().setUp()
        if not has_modules(DEBIAN, "setuptools", "wheel"):
            self.skipTest("setup.py: there is no python3-setuptools or python3-wheel")
        self.checkout = os.path.join(self.folder, "checkout")
        shutil.copytree(self.top, self.checkout)

    def wheel(self) -> Done:
        """Runs setup.py."""
        words = [DEBIAN, "setup.py", "-q", "bdist_wheel", "--dist-dir", self.folder]
        return run(words, os.path.join(self.checkout, "python"), env=self.environment)

    def with_rust(self, version: str) -> None:
        """Puts a rustc of a version on the PATH, and a cargo that notes that it ran."""
        folder = os.path.join(self.folder, "bin")
        os.makedirs(folder, exist_ok=True)
        rows = (("rustc", f"echo 'rustc {version}'"), ("cargo", f"touch {self.folder}/ran; exit 1"))
        for name, line in rows:
            os.chmod(write(os.path.join(folder, name), f"#!/bin/sh\n{line}\n"), 0o755)
        self.environment["PATH"] = f"{folder}:/usr/bin:/bin"

    def test_old_rust(self) -> None:
        """A Rust that is too old is named before cargo runs."""
        for version in ("1.63.0", "1.64.9 (x)", "nothing"):
            with self.subTest(version=version):
                self.with_rust(version)
                done = self.wheel()
                self.assertEqual(done.returncode, 1)
                wanted = f"rustc says rustc {version}, and Rust 1.65 is needed: install Rust"
                self.assertIn(wanted, done.stderr.decode())
                self.assertFalse(os.path.exists(f"{self.folder}/ran"))

    def test_new_rust(self) -> None:
        """With another one setup.py says what cargo does, and what to do if that fails."""
        self.with_rust("1.65.0")
        done = self.wheel()
        self.assertEqual((done.returncode, os.path.exists(f"{self.folder}/ran")), (1, True))
        for wanted in (
            "cargo compiles one by rustc 1.65.0, in about two minutes",
            "cargo did not build the library: install Rust",
        ):
            self.assertIn(wanted, done.stderr.decode())

    def test_stale(self) -> None:
        """A wheel has no module that an earlier build left, and has the licences."""
        os.makedirs(os.path.join(self.checkout, "out"))
        write(os.path.join(self.checkout, "out", "libsimplecss.so"), "")
        module = os.path.join(self.checkout, "python", "src", "simplecss", "_gone.py")
        names: List[Set[str]] = []
        for text in ("", None):
            write(module, text) if text is not None else os.remove(module)
            done = self.wheel()
            self.assertEqual(done.returncode, 0, done.stderr[-1500:])
            (wheel,) = glob.glob(os.path.join(self.folder, "*.whl"))
            with zipfile.ZipFile(wheel) as packed:
                names.append(set(packed.namelist()))
            os.remove(wheel)
        self.assertEqual(names[0] - names[1], {"simplecss/_gone.py"})
        info = {os.path.basename(it) for it in names[1] if ".dist-info/" in it}
        self.assertLessEqual({"LICENSE-MIT", "LICENSE-APACHE", "METADATA"}, info)


class Bare(Checkout):
    """The lines of the documents in a bare Debian 12, as they are written there. For JavaScript it has no
    Rust that is new enough and compiles for WebAssembly."""

    LINES = r"<!-- on Debian 12 -->\n((?: {4}.*\n)+)"

    def setUp(self) -> None:
        super().setUp()
        what = "the lines of the documents in a bare Debian"
        for tool in ("debootstrap", "chroot"):
            self.needs(tool, what)
        if os.geteuid() != 0:
            self.skipTest(f"{what}: only root makes one")
        self.root = os.path.join(clean_folder(), "root")
        if not os.path.isdir(self.root):
            words = ["debootstrap", "--variant=minbase", "bookworm", self.root]
            done = run([*words, MIRROR])
            if done.returncode:
                shutil.rmtree(self.root, ignore_errors=True)
                self.skipTest(f"{what}: debootstrap: {done.stdout.decode().strip()[-200:]}")
            shutil.copytree(self.top, os.path.join(self.root, "checkout"))
            # Nobody answers what apt-get asks.
            assumed = 'APT::Get::Assume-Yes "true";\nAPT::Install-Recommends "false";\n'
            write(os.path.join(self.root, "etc/apt/apt.conf.d/assumed"), assumed)
            self.types("apt-get -q update")

    def types(self, line: str) -> str:
        """Runs a line in the bare system, in the checkout. Returns what it prints."""
        environment = {
            **{"PATH": "/usr/sbin:/usr/bin:/sbin:/bin", "HOME": "/root", "LC_ALL": "C.UTF-8"},
            # What is compiled is not fast, but soon.
            **{"CARGO_PROFILE_RELEASE_LTO": "off", "CARGO_PROFILE_RELEASE_OPT_LEVEL": "0"},
            "DEBIAN_FRONTEND": "noninteractive",
        }
        words = ["chroot", self.root, "/bin/sh", "-c", f"cd /checkout && {line}"]
        return self.works(words, line, env=environment).stdout.decode()

    def lines(self) -> List[str]:
        """Those of INSTALL, of which the first installs packages."""
        (lines,) = re.findall(self.LINES, read(self.top, "docs", "INSTALL.md"))
        return [line.strip() for line in lines.splitlines()]

    def test_rust(self) -> None:
        """The README's lines for Rust, for a program that names the crate 0.2."""
        self.types(self.lines()[0])
        page = read(self.top, "README.md")
        (line,), (patch,) = re.findall(r"`(tools/erase\.py vendor/\S+)`", page), re.findall(
            r"```toml\n(.*?)```", page, re.DOTALL
        )
        folder = os.path.join(self.root, "first")
        os.makedirs(os.path.join(folder, "src"))
        needed = 'simplecss = { version = "0.2", default-features = false, features = ["std"] }\n'
        write(
            os.path.join(folder, "Cargo.toml"), PROJECT.format(name="first", needs=needed) + patch
        )
        write(os.path.join(folder, "src", "main.rs"), OF_PATCHED)
        shown = self.types(f"cd /first && /checkout/{line} && cargo run -q --offline")
        self.assertEqual(shown, "*[class~='note'] [0, 1, 0]\n")

    def test_lines(self) -> None:
        """Those of INSTALL for Python, and those of the README for the command and for C."""
        shown = [self.types(line) for line in self.lines()]
        self.assertEqual(shown[-1], read(self.top, "examples", "pages", "mail.inlined.html"))
        page = read(self.top, "README.md")
        for name in ("inline", "style", "lint"):
            for line in re.findall(rf"(?m)^    (simplecss {name} .*)", page):
                self.assertTrue(self.types(f"PATH=$PWD/venv/bin:$PATH; {line}"), line)
        in_c = re.findall(r"(?m)^    ((?:tools/erase.py --c|cc) .*)", page)
        self.assertEqual(len(in_c), 2)
        folder = "DIR=$PWD/out/c; "
        found = [self.types(folder + re.sub(r"\bDIR\b", "$DIR", line)) for line in in_c]
        self.assertEqual(found[-1].encode(), PRINTED)


class JavaScript(Checkout, release.Npm):
    """The npm package that a checkout makes. Its module stops where a sum leaves 32 bits."""

    IS_PROVED = "false"

    def put(self, folder: str) -> None:
        made = os.path.join(clean_folder(), "npm")
        if not os.path.isdir(made):
            self.environment["CARGO_PROFILE_RELEASE_OVERFLOW_CHECKS"] = "true"
            if not has_target(self.environment, WASM):
                self.needs("wasm-ld", "the npm package from a checkout")
                self.needs("wasm-split", "the npm package from a checkout")
                self.environment.update(self.stock_rust())
            tool = os.path.join(self.top, "tools", "release.py")
            words = [sys.executable, tool, "--npm", made]
            self.works(words, "release.py --npm", self.top, env=self.environment)
        shutil.copytree(made, folder)

    def test_first_steps(self) -> None:
        for tool in ("node", "npm"):
            self.needs(tool, "the first steps in JavaScript")
        package = os.path.join(self.folder, "package")
        self.put(package)
        self.run_page("JAVASCRIPT", {"$CHECKOUT/tools/release.py --npm simplecss-npm": package}, 3)

    def test_random_sheets(self) -> None:
        """They have the mistakes that the Python package finds, and are corrected alike."""
        words = ["node", os.path.join(TOP, "tests", "release", "linted.mjs"), self.unpacked()]
        from simplecss._lint import fixed

        work = json.dumps(linted.sheets()).encode()
        got = json.loads(self.works(words, "linted.mjs", input=work).stdout)
        due = [[linted.in_python(it), fixed(it)] for it in linted.sheets()]
        self.compare("mistakes and Python's", [it.encode() for it in linted.sheets()], due, got)

    def test_page(self) -> None:
        """The page beside the package works from a file."""
        self.opens_page(os.path.join(self.unpacked(), "playground.html"))
