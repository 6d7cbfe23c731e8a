"""Random style sheets and pages: the rules that the program `cssq` finds by its index are those
that a plain search for placements finds.

The search is written from CSS 2.1 sections 5.2 to 5.11, and the order from 6.4.3, but that `[id=x]`
counts as `#x`. The inputs are equal in each run.
"""
from __future__ import annotations

import os
import random
import tempfile
from typing import Dict, List, NamedTuple, Optional, Sequence, Tuple

from tests.common import Case, answer, count, program, write

# What a subselector requires: a kind, a name and a value.
Condition = Tuple[str, str, str]
# The combinator before a compound, the compound's name or None for any, and its conditions.
Component = Tuple[str, Tuple[Optional[str], List[Condition]]]

PAIRS = 600
NAMES = ("a", "b", "c")
WORDS = ("x", "y", "z", "w1")
KEYS = ("t", "u", "type")
VALUES = ("", "x", "y", "x y", "x-y", "x x", " x", "x  y")
random_of = random.Random(2_1)


class Element(NamedTuple):
    """An element of a page."""

    depth: int
    name: str
    attributes: Dict[str, str]
    parent: Optional[int]
    previous: Optional[int]


def condition() -> Condition:
    """What a subselector requires: a kind, a name and a value."""
    kind = random_of.choice((".", ".", "#", ":", "", "=", "~=", "|="))
    if kind == ".":
        return kind, "class", random_of.choice(WORDS)
    if kind == "#":
        return kind, "id", random_of.choice(WORDS)
    if kind == ":":
        return kind, "first-child", ""
    return kind, random_of.choice(KEYS + ("class", "id")), random_of.choice(VALUES)


def compound() -> Tuple[Optional[str], List[Condition]]:
    """A name or None for any, and conditions, of which there is one at least where there is no
    name."""
    name: Optional[str] = random_of.choice((None, None) + NAMES)
    return name, [condition() for _ in range(random_of.choice((0, 0, 1, 1, 2)))]


def selector() -> List[Component]:
    """Compounds, each with the combinator before it."""
    length = random_of.choice((1, 1, 2, 2, 3, 4))
    return [(random_of.choice(" >+") if i else "", compound()) for i in range(length)]


def printed(components: Sequence[Component]) -> str:
    """The text of a selector."""
    text = ""
    for combinator, (name, conditions) in components:
        text += combinator + (name or "*")
        for kind, key, value in conditions:
            forms = {".": "." + value, "#": "#" + value, ":": ":" + key, "": f"[{key}]"}
            text += forms.get(kind, f"[{key}{kind}'{value}']")
    return text


def specificity(components: Sequence[Component]) -> Tuple[int, int, int]:
    """How many conditions on the attribute `id`, other conditions and names the selector has."""
    conditions = [key for _, (_, conditions) in components for _, key, _ in conditions]
    ids = conditions.count("id")
    return ids, len(conditions) - ids, sum(name is not None for _, (name, _) in components)


def class_value() -> str:
    """The value of an attribute `class`: words, some of them repeated or empty, sometimes a
    thousand of them."""
    if random_of.random() < 0.02:
        return " ".join(f"w{i}" for i in range(1000))
    return " ".join(random_of.choice(WORDS + ("",)) for _ in range(random_of.randrange(5)))


def page() -> List[Element]:
    """Elements, each after its parent."""
    elements: List[Element] = []
    path: List[int] = []
    for _ in range(random_of.choice((1, 8, 25))):
        depth = random_of.randrange(min(len(path), 6) + 1) if elements else 0
        attributes = {key: random_of.choice(VALUES) for key in KEYS if random_of.random() < 0.25}
        if random_of.random() < 0.6:
            attributes["class"] = class_value()
        if random_of.random() < 0.4:
            attributes["id"] = random_of.choice(WORDS + ("",))
        parent = path[depth - 1] if depth else None
        previous = path[depth] if depth < len(path) else None
        path[depth:] = [len(elements)]
        elements.append(Element(depth, random_of.choice(NAMES), attributes, parent, previous))
    return elements


def line(element: Element) -> str:
    """The line of an element in a tree text."""
    fields = [f"{key}={value}" for key, value in element.attributes.items()]
    return "\t".join([str(element.depth), element.name, *fields]) + "\n"


def holds(element: Element, kind: str, key: str, value: str) -> bool:
    """Whether an element meets a condition."""
    if kind == ":":
        return element.previous is None
    if key not in element.attributes:
        return False
    own = element.attributes[key]
    if kind in ("#", "="):
        return own == value
    if kind in (".", "~="):
        return value in own.split(" ")
    if kind == "|=":
        return own == value or own.startswith(value + "-")
    return True


def has_placement(elements: Sequence[Element], index: int, components: Sequence[Component]) -> bool:
    """Whether the components can be placed, the last of them on the element at this index."""
    combinator, (name, conditions) = components[-1]
    element = elements[index]
    if name not in (None, element.name) or not all(holds(element, *each) for each in conditions):
        return False
    if not combinator:
        return True
    nodes = [element.previous if combinator == "+" else element.parent]
    while combinator == " " and nodes[-1] is not None:
        nodes.append(elements[nodes[-1]].parent)
    return any(has_placement(elements, node, components[:-1]) for node in nodes if node is not None)


class Pages(Case):
    def test_random_pairs(self) -> None:
        """`cssq match` of each pair of a sheet and a page prints the rules that the search
        finds."""
        failures = []
        pairs = count(PAIRS)
        with tempfile.TemporaryDirectory() as folder:
            for number in range(pairs):
                selectors = [selector() for _ in range(random_of.choice((1, 6, 20)))]
                elements = page()
                text = "".join(printed(each) + " { p:q }\n" for each in selectors)
                sheet = write(os.path.join(folder, "text.css"), text)
                tree = write(os.path.join(folder, "text.tree"), "".join(map(line, elements)))
                rules = sorted(selectors, key=specificity)
                wanted = ""
                for index in range(len(elements)):
                    found = [
                        i for i, rule in enumerate(rules, 1) if has_placement(elements, index, rule)
                    ]
                    wanted += f"{index + 1}:" + "".join(f" {i}" for i in found) + "\n"
                got = answer([program("cssq_cli"), "match", sheet, tree])
                if (got.status, got.out) != (0, wanted):
                    failures.append(f"pair {number}: {text}\n{got}, not {wanted!r}")
        self.sweep(pairs, failures)
