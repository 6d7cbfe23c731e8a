"""Judges the trees of `Tree.from_html` by html5lib-tests, the tests of trees that the authors of
browsers and of other readers of HTML share.

They are in Debian's source of html5lib, which apt-get fetches once into out/judges. What a `Tree`
does not have is left out of what they expect: comments, doctypes and the content of a `template`.
Those of `DIFFERENCES` do not hold, for the reasons that it names; one that holds again fails. The
library is built by `./build library`.
"""
from __future__ import annotations

import glob
import itertools
import os
import re
from typing import Callable, Dict, Iterator, List, NamedTuple, Optional, Sequence, Tuple

from tests.common import TOP, Case, package

package()
from simplecss import LimitError, Tree  # noqa: E402
from simplecss._elements import Elements  # noqa: E402
from simplecss._tree import elements_of  # noqa: E402
from tests import judges_tests  # noqa: E402

PROJECT = judges_tests.Project("html5lib", ["html5lib=1.2-2"], [], lambda top, judge: None, 0)
FILES = "sources/html5lib/html5lib*/html5lib/tests/testdata/tree-construction/*.dat"
# How many tests are judged at least.
LEAST = 1300
# The tests that do not hold, by the front of their text, and why.
IN_SELECT = "a `select` may have any elements (HTML Standard of 2025)"
DIFFERENCES: Dict[str, Sequence[str]] = {
    IN_SELECT: (
        "<select><b><option>",
        "<!DOCTYPE html><body><select><svg>",
        "<!DOCTYPE html><body><select><math>",
        "<!DOCTYPE html><body><select><option><svg>",
        "<!DOCTYPE html><body><select><option><math>",
        "<!DOCTYPE html><body><table><tr><td><select><svg>",
        "<!DOCTYPE html><body><table><tr><td><select><math>",
        "<!DOCTYPE html><body><table><select><svg>",
        "<!DOCTYPE html><body><table><select><math>",
        "<!doctype html><select><plaintext>",
        "<!doctype html><table><select><plaintext>",
        "<!DOCTYPE html><select><menuitem>",
        "<select><keygen>",
    )
}
# The namespaces of attributes.
SPACED = re.compile("^(xlink|xml|xmlns) ")

# An element or a text, with its depth.
Line = Tuple[int, str]


class Test(NamedTuple):
    """A test: its file, its text, the element that it is the content of, whether scripts run, and
    the lines of the tree that it expects."""

    file: str
    data: str
    context: str
    has_scripts: bool
    document: List[str]


def tests_of(path: str) -> Iterator[Test]:
    """Yields the tests of a file."""
    with open(path, encoding="utf-8", newline="") as file:
        text = "\n" + file.read()
    for part in text.split("\n#data\n")[1:]:
        data, _, rest = part.partition("\n#errors\n")
        if part.startswith("#errors\n"):
            data, rest = "", part[len("#errors\n") :]
        rest, _, document = rest.partition("#document\n")
        context = rest.partition("#document-fragment\n")[2].partition("\n")[0]
        lines = document.rstrip("\n").split("\n")
        yield Test(os.path.basename(path), data, context, "#script-on" in rest, lines)


def nodes_of(lines: Sequence[str]) -> Iterator[Line]:
    """Yields the nodes of a tree that a test expects; one may be on several lines."""
    node: Optional[str] = None
    for line in lines:
        if line.startswith("| "):
            if node is not None:
                yield parted(node)
            node = line[2:]
        elif node is not None:
            node += "\n" + line
    if node is not None:
        yield parted(node)


def parted(node: str) -> Line:
    """Returns the depth of a node, and its text."""
    text = node.lstrip(" ")
    return (len(node) - len(text)) // 2, text


def wanted_of(lines: Sequence[str]) -> List[Line]:
    """Returns what a test expects of elements and texts."""
    found: List[Line] = []
    attributes: List[Line] = []
    skipped: Optional[int] = None
    for depth, text in nodes_of(lines):
        if skipped is not None and depth > skipped:
            continue
        skipped = depth if text == "content" else None
        if text == "content" or text.startswith("<!"):
            continue
        if text[:1] not in ('"', "<"):
            attributes.append((depth, SPACED.sub(r"\1:", text)))
            continue
        found += sorted(attributes)
        attributes = []
        add(found, depth, text)
    return found + sorted(attributes)


def add(found: List[Line], depth: int, text: str) -> None:
    """Adds an element or a text, which may join the one before it."""
    if found and text[0] == '"' and found[-1][0] == depth and found[-1][1][0] == '"':
        found[-1] = (depth, found[-1][1][:-1] + text[1:])
    else:
        found.append((depth, text))


def found_of(tree: Tree) -> List[Line]:
    """Returns the elements and texts of a tree."""
    elements = elements_of(tree)
    texts = [*zip(elements.texts.begun, elements.texts.owners, range(len(elements.texts.begun)))]
    found: List[Line] = []
    at = 0
    for index in range(len(elements) + 1):
        while at < len(texts) and texts[at][0] == index:
            owner = texts[at][1]
            text = elements.texts[texts[at][2]]
            if text:
                add(found, elements.depths[owner] + 1 if owner >= 0 else 0, f'"{text}"')
            at += 1
        if index < len(elements):
            found += lines_of(elements, index)
    return found


def lines_of(elements: Elements, index: int) -> List[Line]:
    """Returns the lines of an element and of its attributes."""
    space = "svg " if index in elements.drawn else "math " if index in elements.formulas else ""
    depth = elements.depths[index]
    attributes = elements.attributes[index].items()
    return [
        (depth, f"<{space}{elements.names[index]}>"),
        *sorted((depth + 1, f'{key}="{value}"') for key, value in attributes),
    ]


def difference(test: Test) -> str:
    """Returns how the tree of a test differs from what it expects, or nothing."""
    try:
        found = found_of(Tree.from_html(test.data, is_part=test.context == "body"))
    except LimitError as error:
        return str(error)
    for ours, theirs in itertools.zip_longest(found, wanted_of(test.document)):
        if ours != theirs:
            return f"{ours}, and not {theirs}"
    return ""


def failures_of(
    every: Sequence[Test],
    differences: Dict[str, Sequence[str]],
    difference_of: Callable[[Test], str],
) -> Iterator[str]:
    """Yields the tests that do not hold and are not known to, and what is known and holds."""
    known = {front for fronts in differences.values() for front in fronts}
    unused = set(known)
    for test in every:
        how = difference_of(test)
        named = {front for front in known if test.data.startswith(front)}
        unused -= named if how else set()
        if how and not named:
            yield f"{test.file}: {test.data!r}: {how}"
    for front in sorted(unused):
        yield f"{front!r} is no difference any more"


class Trees(Case):
    def test_html5lib(self) -> None:
        """The trees that html5lib-tests expect."""
        folder = os.path.join(TOP, "out", "judges")
        why = judges_tests.fetch(PROJECT, folder)
        if why:
            self.skipTest(f"the tests of html5lib: {why}")
        every = [
            test
            for path in sorted(glob.glob(os.path.join(folder, FILES)))
            for test in tests_of(path)
            if test.context in ("", "body") and not test.has_scripts
        ]
        failures = list(failures_of(every, DIFFERENCES, difference))
        self.sweep(len(every), failures)
        self.assertGreaterEqual(len(every), LEAST)
