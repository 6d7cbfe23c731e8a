"""Random selectors of CSS 2.1 on random trees, by both grammars of the library: the port's and the
modern one match the same elements, but for the reasons of `Reason`.

Every text here is one that the port reads. A part of it that the modern grammar may read as another,
or that may mean another thing on the tree, is marked with its reason when it is made. Texts without a
mark must match the same elements. Those with a mark are counted, and each reason must really be one: some
text differs for it and for no other. Trees are those of XML, whose names and values are compared as they
are written. The trees and the texts are equal in each run; `COUNT` says how many texts there are. The
library is built by `./build library`.
"""
from __future__ import annotations

import collections
import enum
import random
from typing import Counter, Dict, FrozenSet, List, NamedTuple, Optional, Sequence, Tuple

from tests.common import Case, count, package

package()
import simplecss  # noqa: E402

PORT, MODERN = "simplecss", "modern"
# How many texts are tried on one tree.
ON_A_TREE = 50


class Reason(enum.Enum):
    """Why the grammars may differ on a text."""

    EMPTY_WORD = "an empty word may match with `~=`"
    WHITE_SPACE = "`~=` splits a value only at spaces"
    BACKSLASH = "a backslash in a string is no escape"
    BROKEN_STRING = "a string may have a newline"
    HYPHEN = "a hyphen at the end is a name"
    QUOTED_LANGUAGE = "`:lang()` keeps quotes"
    SUBTAGS = "`:lang(a-b)` matches `a-b` and `a-b-c`, not `a-c-b`"
    ODD_LANGUAGE = "`:lang()` takes any text as one language"
    NUL = "U+0000 in a string is itself"


class Part(NamedTuple):
    """A part of a selector: its text, and the reasons why it may mean another thing."""

    text: str
    reasons: FrozenSet[Reason] = frozenset()


NAMES = ("a", "b", "li", "x-y", "\xe9", "A", "_n", "-h")
WORDS = ("c", "c", "d", "d", "C", "e-f", "\xe9t\xe9", "_1", "-w", "c-")
SPACED = ("c d", " c", "d  c ", "", " ", "e-f g", "c-d", "x.y", "c'd", "*", "1", "c\0", "\0", "d>c")
LINED = ("c\td", "c\n", "d\rc", "\fc d", "\t", "c d\n")
BROKEN = ("c\nd", "\n", "c\r", "\fd")
BACKSLASHED = ("c\\64", "\\63", "c\\", "\\e9 ", "c\\ d")
ATTRIBUTES = ("class", "id", "title", "lang", "data-x", "\xe9")
OPERATORS = ("=", "~=", "|=")
STATES = ("link", "visited", "hover", "active", "focus")
# fmt: off
LANGUAGES = (
    "en", "en-US", "EN-us", "en-Latn-US", "de", "de-1996", "", "en-", "x", "de-x-en", "\xe9",
)
# fmt: on
ONE_SUBTAG = ("en", "EN", "de", "fr", "x", "\xe9", " en ", "\nde")
SUBTAGS = ("en-US", "en-us", "de-en", "de-1996", "en-Latn", "x-y")
QUOTED = ("'en'", '"de"', "'en-US'")
ODD = ("*", "en, de", "5", "en de", "*-US", "en|de", "\\65n", "(", "en,")
# fmt: off
COMBINATORS = (
    " ", "  ", "\n", "\t\r\f", " > ", ">", "\n>", " + ", "+", "+ ", " /**/ ", "/* .c */ ",
)
# fmt: on
HYPHENS = ("-", ".-", "#-", "*.-")
COMMENTS = ("/**/", "/* .c */", "/*\n*/", "/***//**/")
COMMENTED = ("/**/>/* a */", " /**/+", "> /***/", " /*\n*//**/")


def reasons_of(parts: Sequence[Part]) -> FrozenSet[Reason]:
    """The reasons of all parts."""
    return frozenset(reason for part in parts for reason in part.reasons)


def has_lines(value: str) -> bool:
    """Whether a value has white space that is no space."""
    return not set(value).isdisjoint("\t\n\f\r")


class Source(random.Random):
    """Random trees and selectors, the same in each run."""

    def value(self) -> str:
        """A value of an attribute."""
        kind = self.random()
        if kind < 0.55:
            return self.choice(WORDS)
        return self.choice(SPACED if kind < 0.9 else LINED + BACKSLASHED)

    def attributes(self, is_plain: bool) -> Dict[str, str]:
        """The attributes of an element, on a plain tree without white space that is no space."""
        found: Dict[str, str] = {}
        for name in ATTRIBUTES:
            if self.random() < 0.45:
                value = self.choice(LANGUAGES) if name == "lang" else self.value()
                # The package itself replaces such white space in classes.
                if not (has_lines(value) and (is_plain or name == "class")):
                    found[name] = value
        return found

    def items(self, is_plain: bool) -> List[simplecss.Item]:
        """The elements of a tree, in document order, which may have several roots."""
        found: List[simplecss.Item] = []
        path: List[int] = []
        for _ in range(self.randrange(1, 40)):
            del path[self.randrange(len(path) + 1) :]
            states = frozenset(state for state in STATES if self.random() < 0.3)
            parent = path[-1] if path else None
            attributes = self.attributes(is_plain)
            found.append(simplecss.Item(self.choice(NAMES), attributes, parent, states=states))
            path.append(len(found) - 1)
        return found

    def string(self, value: str) -> str:
        """A value as a string, in quotes that it does not have."""
        quote = '"' if "'" in value else self.choice("'\"")
        return quote + value + quote

    def attribute(self, lined: FrozenSet[str]) -> Part:
        """An attribute selector. The values of some attributes have white space that is no space."""
        name, operator = self.choice(ATTRIBUTES), self.choice(OPERATORS)
        kind, reasons = self.random(), set()
        if kind < 0.15:
            return Part(f"[{name}]")
        value = self.choice(WORDS if kind < 0.6 else SPACED + LANGUAGES)
        if 0.9 < kind:
            reason, values = self.choice(
                ((Reason.BROKEN_STRING, BROKEN), (Reason.BACKSLASH, BACKSLASHED))
            )
            value = self.choice(values)
            # A string cannot end in a backslash, nor can another one be within it.
            value += "c" if value.endswith("\\") else ""
            reasons.add(reason)
        elif operator == "~=" and kind > 0.85:
            value = ""
        reasons |= {Reason.NUL} if "\0" in value else set()
        if operator == "~=":
            reasons |= {Reason.EMPTY_WORD} if not value else set()
            reasons |= {Reason.WHITE_SPACE} if name in lined else set()
        is_name = kind < 0.3
        text = value if is_name else self.string(value)
        return Part(f"[{name}{operator}{text}]", frozenset(reasons))

    def language(self) -> Part:
        """A pseudo-class `:lang()`."""
        reason, values = self.choice(
            (
                (None, ONE_SUBTAG),
                (None, ONE_SUBTAG),
                (Reason.SUBTAGS, SUBTAGS),
                (Reason.QUOTED_LANGUAGE, QUOTED),
                (Reason.ODD_LANGUAGE, ODD),
            )
        )
        return Part(f":lang({self.choice(values)})", frozenset([reason] if reason else []))

    def simple(self, lined: FrozenSet[str]) -> Part:
        """A simple selector that is no type selector."""
        kind = self.random()
        if kind < 0.2:
            reasons = {Reason.WHITE_SPACE} if "class" in lined else set()
            return Part("." + self.choice(WORDS), frozenset(reasons))
        if kind < 0.3:
            return Part("#" + self.choice(WORDS))
        if kind < 0.6:
            return self.attribute(lined)
        if kind < 0.75:
            return Part(":first-child")
        if kind < 0.9:
            return Part(":" + self.choice(STATES))
        return self.language()

    def compound(self, lined: FrozenSet[str]) -> Part:
        """A type selector or none, and other simple selectors."""
        front = self.choice(("", "", "*", self.choice(NAMES), self.choice(NAMES)))
        number = self.choice((0, 0, 1, 1, 2) if front else (1, 1, 2))
        parts = [self.simple(lined) for _ in range(number)]
        text = front
        for part in parts:
            comment = self.choice(COMMENTS) if text and self.random() < 0.05 else ""
            text += comment + part.text
        return Part(text, reasons_of(parts))

    def selector(self, lined: FrozenSet[str]) -> Part:
        """A selector of one to four compound selectors."""
        parts = [self.compound(lined) for _ in range(self.choice((1, 1, 2, 2, 3, 4)))]
        if self.random() < 0.02:
            parts[-1] = Part(self.choice(HYPHENS), frozenset([Reason.HYPHEN]))
        text = parts[0].text
        for part in parts[1:]:
            text += self.choice(COMBINATORS + COMMENTED) + part.text
        return Part(text, reasons_of(parts))


def lined_attributes(items: Sequence[simplecss.Item]) -> FrozenSet[str]:
    """The attributes that have a value with white space that is no space."""
    return frozenset(
        name for item in items for name, value in item.attributes.items() if has_lines(value)
    )


def found(tree: simplecss.Tree, text: str, grammar: str) -> Optional[Tuple[int, ...]]:
    """The indices of the elements that a text matches, or None if it is refused."""
    try:
        return tuple(each.index for each in tree.select(text, grammar=grammar))
    except simplecss.SelectorError:
        return None


class Tally:
    """What was compared."""

    def __init__(self) -> None:
        self.failures: List[str] = []
        # Texts, those that match, and those with each reason that differ and that have it.
        self.texts = self.matching = 0
        self.marked: Counter[Reason] = collections.Counter()
        self.differing: Counter[Reason] = collections.Counter()
        self.alone: Counter[Reason] = collections.Counter()

    def compare(self, items: Sequence[simplecss.Item], tree: simplecss.Tree, part: Part) -> None:
        """Compares the answers of the two grammars on a text."""
        port, modern = found(tree, part.text, PORT), found(tree, part.text, MODERN)
        self.texts += 1
        self.matching += bool(port)
        self.marked.update(part.reasons)
        if port is None:
            self.failures.append(f"the port refuses {part.text!r}")
        elif port != modern and not part.reasons:
            self.failures.append(f"{part.text!r}: {port} and {modern} of {items}")
        elif port != modern:
            self.differing.update(part.reasons)
            self.alone.update(part.reasons if len(part.reasons) == 1 else ())

    def lines(self) -> List[str]:
        """What was counted."""
        return [f"{self.texts} texts, {self.matching} match"] + [
            f"{reason.value}: {self.differing[reason]} of {self.marked[reason]} texts differ"
            for reason in Reason
        ]


class Alike(Case):
    def test_same_elements(self) -> None:
        source, tally, total = Source(21), Tally(), count(20000)
        for number in range(-(-total // ON_A_TREE)):
            items = source.items(is_plain=number % 4 != 0)
            tree, lined = simplecss.Tree(items), lined_attributes(items)
            for _ in range(min(ON_A_TREE, total - tally.texts)):
                tally.compare(items, tree, source.selector(lined))
        print("\n".join(tally.lines()))
        self.sweep(total, tally.failures)
        if total >= 2000:
            self.assertGreater(tally.matching, total // 10)
            for reason in Reason:
                with self.subTest(reason=reason.value):
                    self.assertGreater(tally.alone[reason], 0)
