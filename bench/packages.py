"""Packages of Python that match the rules of a sheet on a tree that is there, for `speed.py`: what each
runs, and how much of the package's time is the C library's."""
from __future__ import annotations

import os
import subprocess
import sys
from html import escape
from typing import Dict, Iterable, List, Mapping, NamedTuple, Optional, Sequence, Tuple

# After so many seconds a process is stopped.
PATIENCE = 20
# Makes a call up to five times, and writes the least processor time of one in milliseconds, the time
# of the library in it, and what the call returned.
RUN = """
import gc, sys, time
page, css = (open(name, encoding="utf-8").read() for name in sys.argv[1:3])
lines = css.splitlines()
inside = 0.0
{prepare}
found = []
while len(found) < 5 and sum(each[0] for each in found) < 3:
    gc.collect()
    inside, start = 0.0, time.process_time()
    made = {expression}
    found.append((time.process_time() - start, inside))
    count = made if isinstance(made, int) else -1
    del made
total, inside = min(found)
print(1000 * total, 1000 * inside, count)
"""
# Measures the calls of the C library.
TIMED = """
from simplecss import _library

plain = _library._function

def timed(name):
    function = plain(name)
    def call(*words):
        global inside
        start = time.process_time()
        status = function(*words)
        inside += time.process_time() - start
        return status
    return call

_library._function = timed
"""
# Makes the selectors that a package reads.
READ = """
def read(one):
    made = []
    for line in lines:
        try:
            made.append(one(line))
        except Exception:
            pass
    return made
"""
# For each package what comes first, and a call that returns how many rules match elements.
MATCHING: Dict[str, Tuple[str, str]] = {
    "simplecss": (
        TIMED
        + """
from simplecss import StyleSheet, Tree
tree = Tree.from_xml(page)
sheet = StyleSheet("".join(f"{line}{{a:b}}" for line in lines), answer_limit=None)
""",
        "sum(map(len, sheet.match(tree)))",
    ),
    "soupsieve": (
        READ
        + """
import bs4, soupsieve
made_of = read(soupsieve.compile)
soup = bs4.BeautifulSoup(page, "xml")
""",
        "sum(len(each.select(soup)) for each in made_of)",
    ),
    "lxml": (
        READ
        + """
import lxml.etree
from lxml.cssselect import CSSSelector
made_of = read(CSSSelector)
root = lxml.etree.fromstring(page.encode(), lxml.etree.XMLParser(huge_tree=True))
""",
        "sum(len(each(root)) for each in made_of)",
    ),
    "cssselect2": (
        """
import cssselect2
from xml.etree import ElementTree
matcher = cssselect2.Matcher()
for line in lines:
    try:
        for selector in cssselect2.compile_selector_list(line):
            if selector.pseudo_element is None and not selector.never_matches:
                matcher.add_selector(selector, line)
    except cssselect2.SelectorError:
        pass
root = cssselect2.ElementWrapper.from_xml_root(ElementTree.fromstring(page))
""",
        "sum(len(matcher.match(each)) for each in root.iter_subtree())",
    ),
}
# Calls of which the time is compared with that of the library in them.
SHARED: Dict[str, Tuple[str, str]] = {
    "`select` of a selector": (
        "tree = simplecss.Tree.from_html(page); tree.select('x')\n"
        "selectors = (f'div > p a[href]:not(.x{number})' for number in range(99))",
        "tree.select(next(selectors))",
    ),
    "`select` of all elements": (
        "tree = simplecss.Tree.from_html(page); tree.select('x')\n"
        "selectors = (f'*:not(.x{number})' for number in range(99))",
        "tree.select(next(selectors))",
    ),
    "`match` of a sheet": (
        "tree = simplecss.Tree.from_html(page); sheet = simplecss.StyleSheet(css); sheet.match(tree)",
        "sheet.match(tree)",
    ),
    "`styles` of a sheet": (
        "tree = simplecss.Tree.from_html(page); sheet = simplecss.StyleSheet(css); sheet.match(tree)",
        "sheet.styles(tree)",
    ),
    "`inline` of a sheet that is read": (
        "sheet = simplecss.StyleSheet(css); simplecss.inline('<p>', sheet)",
        "simplecss.inline(page, sheet)",
    ),
}


class Spent(NamedTuple):
    """The milliseconds of a call, those of the library in it, and how many matches it returned."""

    total: float
    inside: float
    matches: int


def spent(
    prepare: str, expression: str, files: Sequence[str], environment: Mapping[str, str]
) -> Optional[Spent]:
    """Returns what a call takes, or `None` if it takes too long, the package is missing, or it cannot
    read the page."""
    words = [sys.executable, "-c", RUN.format(prepare=prepare, expression=expression), *files]
    try:
        done = subprocess.run(
            words,
            capture_output=True,
            text=True,
            check=False,
            env={**os.environ, **environment},
            timeout=PATIENCE,
        )
    except subprocess.TimeoutExpired:
        return None
    if done.returncode:
        return None
    total, inside, matches = done.stdout.split()
    return Spent(float(total), float(inside), int(matches))


def xml_of(lines: Iterable[str]) -> str:
    """Returns a page in XML, by its lines of `cssq`, in an element of its own."""
    parts: List[str] = ["<all>"]
    opened: List[str] = []
    for line in lines:
        depth, name, *attributes = line.split("\t")
        while len(opened) > int(depth):
            parts.append(f"</{opened.pop()}>")
        opened.append(name)
        pairs = (attribute.partition("=") for attribute in attributes)
        parts.append(f"<{name}" + "".join(f' {key}="{escape(it)}"' for key, _, it in pairs) + ">")
    parts += (f"</{name}>" for name in reversed(opened))
    return "".join([*parts, "</all>"])


def times_of(others: Mapping[str, Optional[Spent]], own: Spent) -> str:
    """Returns the times of other packages as multiples of this one's, and which count otherwise."""
    return ", ".join(
        f"{name} {it.total / own.total:.2f}"
        + (" (other answers)" if it.matches != own.matches else "")
        for name, it in others.items()
        if it is not None
    )
