"""What the package answers to each row of tests/cases/calls.json, which other packages answer, too."""

from __future__ import annotations

import json
import os
import re
import sys
import unittest
from typing import Any, Callable, Dict, List

sys.path.insert(0, os.path.join(os.path.dirname(os.path.abspath(__file__)), "..", "src"))

import simplecss  # noqa: E402
from simplecss._device import says  # noqa: E402

TABLE = os.path.join(os.path.dirname(os.path.abspath(__file__)), "../../tests/cases/calls.json")
with open(TABLE, encoding="utf-8") as _file:
    CASES: Dict[str, Any] = json.load(_file)


def page(name: str) -> simplecss.Tree:
    """The tree of a page: of its text if it is HTML, else of its elements."""
    stated = CASES["pages"][name]
    if "html" in stated:
        return simplecss.Tree.from_html(stated["html"])
    if "xml" in stated:
        return simplecss.Tree.from_xml(stated["xml"])
    items: List[simplecss.Item] = []
    path: List[int] = []
    for depth, element, attributes, has_text in stated["elements"]:
        del path[depth:]
        parent = path[-1] if path else None
        path.append(len(items))
        items.append(simplecss.Item(element, attributes, parent, text="x" * has_text))
    return simplecss.Tree(items)


def device(name: str) -> simplecss.Device:
    return simplecss.Device(**CASES["devices"][name])


def selector(text: str) -> str:
    try:
        found = simplecss.Selector(text)
    except simplecss.SelectorError as error:
        return error.message
    return f"{found} {','.join(map(str, found.specificity))}"


def select(name: str, selectors: str) -> str:
    return " ".join(str(each.index) for each in page(name).select(selectors))


def in_namespaces(name: str, prefixes: str, selectors: str) -> str:
    found = page(name).select(selectors, namespaces=CASES["prefixes"][prefixes])
    return " ".join(str(each.index) for each in found)


def styles(name: str, on: str, sheet: str) -> str:
    found = simplecss.StyleSheet(sheet).styles(page(name), media=device(on))
    return "\n".join("; ".join(map(str, each)) for each in found)


def any_value(name: str, on: str, sheet: str) -> str:
    found = simplecss.StyleSheet(sheet).styles(page(name), media=device(on), any_value=True)
    return "\n".join("; ".join(map(str, each)) for each in found)


def alike(name: str, on: str, sheet: str, other: str) -> str:
    return "alike" if styles(name, on, sheet) == styles(name, on, other) else "different"


def resolve(own: str, inherited: str, registered: str) -> str:
    values = simplecss.resolve(
        json.loads(own), json.loads(inherited), registered=json.loads(registered)
    )
    return json.dumps(values, ensure_ascii=False, separators=(",", ":"))


def word(is_so: bool) -> str:
    return "true" if is_so else "false"


def cleaned(found: simplecss.Cleaned) -> str:
    return f"{found.text}|{' '.join(each.reason for each in found.dropped)}"


ANSWERS: Dict[str, Callable[..., str]] = {
    "selector": selector,
    "select": select,
    "any_case": select,
    "namespaces": in_namespaces,
    "styles": styles,
    "any_value": any_value,
    "alike": alike,
    "declarations": lambda text: "; ".join(map(str, simplecss.declarations(text))),
    "name": lambda text: next(simplecss.tokens(text)).value,
    "media": lambda queries, on: says(simplecss.Condition("media", queries), device(on)),
    "supports": lambda text: says(simplecss.Condition("supports", text), simplecss.Device()),
    "longhands": lambda name: " ".join(simplecss.longhands(name)),
    "shorthands": lambda name: " ".join(simplecss.shorthands(name)),
    "inherited": lambda name: word(simplecss.is_inherited(name)),
    "valid": lambda value: word(simplecss.has_valid_references(value)),
    "takes": lambda name, value: {True: "true", False: "false", None: "not known"}[
        simplecss.takes_value(name, value)
    ],
    "resolve": resolve,
    "escape": simplecss.escape,
    "quote": simplecss.quote,
    "minify": simplecss.minify,
    "prettify": simplecss.prettify,
    "comments": simplecss.prettify,
    "licences": simplecss.minify,
    "clean": lambda scope, sheet: cleaned(simplecss.clean(sheet, scope=scope)),
    "clean_style": lambda policy, text: cleaned(simplecss.clean_style(text, policy=policy)),
    "is_clean": lambda scope, sheet: word(simplecss.is_clean(sheet, scope=scope)),
}


class Cases(unittest.TestCase):
    def test_rows(self) -> None:
        self.assertEqual(list(ANSWERS), list(CASES["questions"]))
        for name, question in CASES["questions"].items():
            for *fields, due in question["rows"]:
                with self.subTest(question=name, fields=fields):
                    self.assertEqual(ANSWERS[name](*fields), due)

    def test_printed(self) -> None:
        """What is printed is printed as it is, and a printed selector is read as the same."""
        for name in ("minify", "prettify", "comments", "licences"):
            for text, printed in CASES["questions"][name]["rows"]:
                with self.subTest(text=text):
                    self.assertEqual(ANSWERS[name](printed), printed)
                    self.assertEqual(simplecss.minify(printed), simplecss.minify(text))
        for text, due in CASES["questions"]["selector"]["rows"]:
            if not re.match(r"\d+:\d+: ", due):
                with self.subTest(text=text):
                    again = simplecss.Selector(str(simplecss.Selector(text)))
                    self.assertEqual(again, simplecss.Selector(text))

    def test_elements(self) -> None:
        """An element matches what finds it, and so it is by the rules of a sheet."""
        every = [CASES["questions"][name]["rows"] for name in ("select", "any_case")]
        for name, text, due in (row for rows in every for row in rows):
            tree, sheet = page(name), simplecss.StyleSheet(f"{text} {{ a: b }}")
            found = [str(each.index) in due.split() for each in tree]
            with self.subTest(page=name, text=text):
                self.assertEqual([each.matches(text) for each in tree], found)
                self.assertEqual([each is not None for each in sheet.style(tree, "a")], found)

    def test_rules(self) -> None:
        """What matches an element has the same declarations in sheets that are alike, also those that win no
        more."""
        for name, on, *texts, _ in CASES["questions"]["alike"]["rows"]:
            stated = []
            for sheet in map(simplecss.StyleSheet, texts):
                every = [{str(it) for it in rule.declarations} for rule in sheet.rules]
                matched = sheet.match(page(name), media=device(on))
                stated.append([set().union(*(every[at] for at in each)) for each in matched])
            with self.subTest(sheet=texts[0], device=on):
                # One declares `color` twice in a rule.
                if "article" not in texts[0]:
                    self.assertEqual(*stated)

    def test_errors(self) -> None:
        for text, due in CASES["questions"]["selector"]["rows"]:
            if re.match(r"\d+:\d+: ", due):
                with self.subTest(text=text), self.assertRaises(ValueError) as found:
                    simplecss.Selector(text)
                error = found.exception
                self.assertEqual(f"{error.row}:{error.column}: {error.reason}", due)

    def test_pages(self) -> None:
        """The elements of a page are those that are stated for other packages."""
        for name, stated in CASES["pages"].items():
            found = [[each.depth, each.name] for each in page(name)]
            self.assertEqual(found, [each[:2] for each in stated["elements"]])
            for each, (_, _, attributes, *_) in zip(page(name), stated["elements"]):
                self.assertEqual({**each.attributes, **attributes}, each.attributes)


if __name__ == "__main__":
    unittest.main()
