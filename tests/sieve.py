"""`simplecss.sieve` beside soupsieve: what random selectors find in random soups, which change between questions.

soupsieve is Debian's `python3-soupsieve`, used by /usr/bin/python3. The library is built by `./build library`. The soups
and the selectors are equal in each run; `COUNT` says how many soups there are. How selectors are read is judged in
tests/modern_selectors.py: what one of the two refuses is left out here.
"""
from __future__ import annotations

import signal
from typing import Any, Callable, Iterator, List, Optional, Tuple

from tests.common import LEFT_OUT, Case, by_debian, count, package
from tests.modern_selectors import ODD_IN_SOUP, WORDS, Element, Source, is_open, plain

package()
from simplecss import Selector, SelectorError, sieve  # noqa: E402

try:
    import bs4
    import soupsieve
    from soupsieve import css_match

    HAS_SOUPS = True
except ImportError:
    HAS_SOUPS = False

# How many selectors a soup is asked for, and after how many it changes.
TEXTS, LASTING = 24, 3
# Selectors as many write them, of which several are asked of the path of an element alone.
USUAL = (
    *(
        "a",
        "li.c",
        "#d",
        "a b",
        "a > b",
        ".c .d",
        "[title]",
        "[data-x=c] > li",
        "b:not(.c)",
        "a, b",
    ),
    *(
        ":scope > a",
        ":scope > b > *",
        ":is(a, b) > li",
        "a:scope",
        "b + a",
        "li ~ a",
        "a:first-child",
    ),
    *("li:nth-child(2)", "a:has(> b)", "b:last-of-type", "a:not(:has(*))", "x-y", "*|a"),
)


class Slow(Exception):
    """soupsieve takes too long for an answer."""


def stop(number: int, frame: Any) -> None:
    """Ends a question."""
    raise Slow


def asked(call: Callable[[], Any]) -> Any:
    """What a call returns: of tags their identities. None is no answer."""
    signal.setitimer(signal.ITIMER_REAL, 0.5)
    try:
        found = call()
    except (soupsieve.SelectorSyntaxError, SelectorError, NotImplementedError, Slow, ValueError):
        return None
    finally:
        signal.setitimer(signal.ITIMER_REAL, 0)
    if isinstance(found, list):
        return [id(each) for each in found]
    return found if isinstance(found, bool) else (found is not None and id(found))


def is_nested(text: str) -> bool:
    """Whether a text may have `:has()` in `:has()`, which is invalid in CSS and not in soupsieve."""
    return text.lower().count(":has(") > 1


def named(root: Any, found: Any) -> Any:
    """What a call returns, with places in place of identities."""
    places = {id(tag): place for place, tag in enumerate([root, *root.find_all(True)])}
    if isinstance(found, list):
        return [places.get(each, each) for each in found]
    return found if isinstance(found, bool) else f"the one at {places.get(found, found)}"


class Parent:
    """The parent that soupsieve gives a detached root, with as many comments as each tag has here."""

    def __init__(self, element: Any) -> None:
        self.contents = [element, *comments()]

    def __len__(self) -> int:
        return len(self.contents)


def comments() -> List[Any]:
    """What ends each tag: soupsieve does not find the child B by `An+B` if B is the number of nodes."""
    return [bs4.Comment("") for _ in range(8)]


class Soups(Source):
    """Random soups, and changes of them."""

    def soup(self, element: Element, is_xml: bool) -> Any:
        """A tag without a document, with others in it."""
        name, attributes, children = element
        tag = bs4.Tag(name=name, is_xml=is_xml)
        for key, value in attributes.items():
            tag[key] = value.split() if key == "class" and self.random() < 0.5 else value
        for child in children:
            tag.append(child if isinstance(child, str) else self.soup(child, is_xml))
        tag.extend(comments())
        return tag

    def change(self, root: Any) -> None:
        """Changes something of a soup."""
        tags = [root, *root.find_all(True)]
        tag, other = self.choice(tags), self.choice(tags)
        kind = self.randrange(7)
        if kind == 0:
            tag[self.choice(("class", "id", "title"))] = self.choice(WORDS)
        elif kind == 1:
            tag["class"] = [*tag.get_attribute_list("class"), "c"][1:]
        elif kind == 2:
            tag.name = self.choice(("a", "b", "li"))
        elif kind == 3:
            tag.insert(0, self.choice(("text", "")))
        elif kind == 4:
            tag.insert(self.randrange(3), self.soup(self.tree(3), bool(root._is_xml)))
        elif kind == 5 and tag is not root:
            tag.extract()
        elif tag is not root and tag not in other.parents and tag is not other:
            other.insert(0, tag)


def answers_of(judge: Any, text: Any, root: Any, tag: Any) -> Iterator[Tuple[str, Any]]:
    """Yields what one of the two says of selectors, and by which call."""
    tags = [root, *root.find_all(True)]
    yield "select", asked(lambda: judge.select(text, root))
    yield "select within", asked(lambda: judge.select(text, tag))
    yield "select two", asked(lambda: judge.select(text, tag, limit=2))
    yield "iselect", asked(lambda: list(judge.iselect(text, tag)))
    yield "select_one", asked(lambda: judge.select_one(text, tag))
    yield "match", asked(lambda: judge.match(text, tag))
    yield "closest", asked(lambda: judge.closest(text, tag))
    yield "filter", asked(lambda: judge.filter(text, tag))
    yield "filter tags", asked(lambda: judge.filter(text, tags[:9]))
    yield "compile", asked(lambda: judge.compile(text).select(tag))


class Beside(Case):
    def compare(self, kind: str, is_xml: bool, is_in_document: bool = False) -> None:
        """Compares what both find in random soups, detached or in a document."""
        if not HAS_SOUPS:
            return by_debian(self, "soupsieve", "`simplecss.sieve` beside soupsieve")
        signal.signal(signal.SIGALRM, stop)
        setattr(css_match, "_FakeParent", Parent)
        source = Soups(f"{kind} {is_xml} {is_in_document}")
        rows: List[Optional[str]] = []
        for _ in range(count(40)):
            root = source.soup(source.tree(), is_xml)
            if is_in_document:
                bs4.BeautifulSoup("", "html.parser").append(root)
            for number in range(TEXTS):
                text = source.choice(USUAL) if kind == "usual" else getattr(source, kind)()
                rows += self.rows(text, root, source.choice([root, *root.find_all(True)]))
                if number % LASTING == 0:
                    source.change(root)
        compared = [row for row in rows if row is not LEFT_OUT]
        self.assertGreater(len(compared), len(rows) // 4)
        self.sweep(len(compared), [row for row in compared if row is not None])

    def rows(self, text: str, root: Any, tag: Any) -> Iterator[Optional[str]]:
        """Yields a row for each call."""
        is_odd = (
            is_open(text) or is_nested(text) or any(map(ODD_IN_SOUP.search, (text, plain(text))))
        )
        # HTML compares more values without case than soupsieve does.
        is_odd = is_odd or not root._is_xml and "lang" in plain(text).lower()
        ours, theirs = answers_of(sieve, text, root, tag), answers_of(soupsieve, text, root, tag)
        for (name, found), (_, due) in zip(ours, theirs):
            if is_odd or found is None or due is None:
                yield LEFT_OUT
            else:
                is_same = found == due
                yield None if is_same else f"{name}: {text!r} finds {named(root, found)}, not {named(root, due)}, of {tag} in {root}"

    def test_xml(self) -> None:
        self.compare("listed", True)

    def test_html(self) -> None:
        self.compare("listed", False)

    def test_usual(self) -> None:
        self.compare("usual", False)

    def test_documents(self) -> None:
        """For soupsieve a document is an element that a root is in."""
        self.compare("usual", False, True)
