"""Selectors, what the library reads of them, and what it matches."""

from __future__ import annotations

import enum
import functools
import itertools
from typing import (
    Any,
    Callable,
    Dict,
    FrozenSet,
    Iterable,
    List,
    NamedTuple,
    Optional,
    Sequence,
    Set,
    Tuple,
    Union,
)

from . import _library as library
from ._deprecated import warn_of_old
from ._output import marked
from ._found_names import find_names, names_in, pseudo_names
from ._kept import KeptList
from ._tokens import decoded
from ._words import lower

# The names of the grammars: that of browsers, and that of the Rust crate.
MODERN = "modern"
PORT = "simplecss"
# What the first of them is named in an earlier version.
TODAY = "today"

# The attributes whose values HTML compares without case (HTML Standard, "Case-sensitivity of
# selectors").
_WITHOUT_CASE = frozenset(
    "accept accept-charset align alink axis bgcolor charset checked clear codetype color compact"
    " declare defer dir direction disabled enctype face frame hreflang http-equiv lang language"
    " link media method multiple nohref noresize noshade nowrap readonly rel rev rules scope"
    " scrolling selected shape target text type valign valuetype vlink".split()
)
# The pseudo-classes that depend only on the tree.
OF_TREE = frozenset(
    "root empty first-child last-child only-child first-of-type last-of-type only-of-type nth-child"
    " nth-last-child nth-of-type nth-last-of-type lang not is where has".split()
)

# The kinds of names of which an element has each in an attribute of its own.
_ON_ELEMENTS = frozenset(("class", "id"))


class SelectorError(ValueError):
    """A text is not a selector.

    `reason` says why; `row` and `column` say where, and begin at 1. Columns count characters. `str` has
    the line of `text` with a caret below the place, if the text is known.
    """

    def __init__(self, reason: str, row: int, column: int, text: str = "") -> None:
        super().__init__(reason, row, column, text)
        self.reason = reason
        self.row = row
        self.column = column
        self.text = text

    @property
    def message(self) -> str:
        """The place and the reason, in one line."""
        return f"{self.row}:{self.column}: {self.reason}"

    def __str__(self) -> str:
        return self.message + marked(self.text, self.row, self.column)


class ReadText:
    """A text of selectors that was read by a grammar: it is taken where a text is."""

    def __init__(self, source: str, grammar: str) -> None:
        self.source = source
        self.grammar = grammar


# A list of selectors, or a `Selector`.
Selectors = Union[str, ReadText]


class Reading(enum.IntEnum):
    """How names and values of modern selectors are compared, as the library numbers it among its
    grammars. In HTML a tree is passed with names, and values that compare without case, in lower
    case."""

    AS_WRITTEN = 0
    HTML = 1
    QUIRKS = 2

    def compared_name(self, name: str) -> str:
        """Returns a name as it is compared."""
        return name if self == Reading.AS_WRITTEN else lower(name)

    def compared_value(self, key: str, value: str) -> str:
        """Returns the value of an attribute, which has this name in a selector, as it is
        compared."""
        return lower(value) if key in _CASELESS[self] else value

    def attributes(self, attributes: Dict[str, str]) -> Dict[str, str]:
        """Returns attributes as they are compared. Of two that have one name then, the first."""
        found: Dict[str, str] = {}
        for key, value in attributes.items():
            key = self.compared_name(key)
            found.setdefault(key, self.compared_value(key, value))
        return found

    def may_change(self, keys: Iterable[str]) -> FrozenSet[str]:
        """Returns the names of attributes that are compared as others, or whose values are."""
        caseless = _CASELESS[self]
        return frozenset(key for key in keys if key in caseless or self.compared_name(key) != key)


# The attributes whose values compare without case.
_CASELESS: Dict[Reading, FrozenSet[str]] = {
    Reading.AS_WRITTEN: frozenset(),
    Reading.HTML: _WITHOUT_CASE,
    Reading.QUIRKS: _WITHOUT_CASE | {"class", "id"},
}


# The grammars, as the library numbers them where no document is read.
NUMBERS = {MODERN: int(Reading.AS_WRITTEN), PORT: 3}


def grammar_of(grammar: str) -> str:
    """Returns the name of a grammar. What is none raises `ValueError`."""
    if grammar == TODAY:
        warn_of_old(f"grammar={TODAY!r}", f"grammar={MODERN!r}")
        return MODERN
    if grammar not in (MODERN, PORT):
        raise ValueError(f"unknown grammar: {grammar!r}")
    return grammar


Specificity = Tuple[int, int, int]


class Listed(NamedTuple):
    """A selector of a list: its text as the library prints it, its specificity, and the name of its
    pseudo-element, if it has one."""

    text: str
    specificity: Specificity
    pseudo_element: Optional[str]


def listed(text: str, grammar: str = MODERN) -> List[Listed]:
    """Returns the selectors of a list. A text that is no list raises `SelectorError`."""
    grammar = grammar_of(grammar)
    data = library.encode(text)
    try:
        kept = KeptList(data, NUMBERS[grammar])
    except ValueError:
        raise selector_error(text, grammar) from None
    with kept:
        rows, texts = kept.rows(), kept.text()
    found = []
    at = 0
    for row in rows:
        start, length, _, ids, classes, types, element, name, _, printed_length = row
        text = texts[at : at + printed_length].decode("utf-8")
        at += printed_length
        end = start + length
        pseudo_element = None if element == end else decoded(data[name:end].decode("utf-8"))
        found.append(Listed(text, (ids, classes, types), pseudo_element))
    return found


class SelectorTexts(List[str]):
    """The texts of selectors, which must not be changed, as calls of the library take them."""

    @functools.cached_property
    def encoded(self) -> Tuple[bytes, Any]:
        """The texts one after another, and where each ends."""
        joined = "".join(self)
        # The length of a text of ASCII is that of its bytes.
        is_ascii = joined.isascii()
        ends = library.ends_of(len(each if is_ascii else library.encode(each)) for each in self)
        return library.encode(joined), ends

    @functools.cached_property
    def _needed(self) -> List[FrozenSet[str]]:
        """The classes and ids, in lower case, that a tree has in which each of them matches."""
        find_names(self)
        return [
            frozenset(
                lower(name.name)
                for name in names_in(each)
                if name.depth == 0 and name.kind in _ON_ELEMENTS
            )
            for each in self
        ]

    @functools.cached_property
    def _by_need(self) -> Dict[str, List[int]]:
        """Their indices by one of the classes and ids that each needs, or by no name."""
        found: Dict[str, List[int]] = {}
        for at, needed in enumerate(self._needed):
            found.setdefault(min(needed, default=""), []).append(at)
        return found

    # Whether it is known which of them may match in a tree.
    _is_asked = False

    def possible(self, names_in_tree: Callable[[], Set[str]]) -> Sequence[int]:
        """Returns the indices of those that may match in a tree, by its classes and ids in lower case.

        Of the first tree that is all: to find out what they need takes as long as some trees take.
        """
        if not self._is_asked:
            self._is_asked = True
            return range(len(self))
        needed, present = self._needed, names_in_tree()
        groups = [self._by_need.get(name, ()) for name in {"", *present}]
        some = itertools.chain.from_iterable(groups)
        return sorted(at for at in some if needed[at] <= present)


def matched(
    tree: library.TreeArrays,
    selectors: Sequence[str],
    number: int,
    limit: int,
) -> List[bytes]:
    """Returns for each element the numbers of the selectors that match it, which begin at 1, with
    spaces between them. The selectors are of the grammar of this number. More numbers than `limit`
    raise `LimitError`."""
    texts = selectors if isinstance(selectors, SelectorTexts) else SelectorTexts(selectors)
    words = "simplecss_match_selectors", *texts.encoded, number, tree
    ask = functools.partial(library.call, *words, with_fault=True)
    return _lines_of(ask, tree, len(selectors), limit)


def matched_of_port(
    tree: library.TreeArrays, texts: Sequence[bytes], most: int, count: int, limit: int
) -> List[bytes]:
    """Returns for each element the numbers of the rules that match it, of the style sheet of texts by the
    grammar of the Rust crate, as `matched` does. They are so many rules, with `most` declarations at most.
    """
    words = library.PORT_MATCHES, texts, most, tree
    return _lines_of(functools.partial(library.port, *words), tree, count, limit)


def _lines_of(
    ask: Callable[..., library.Answer], tree: library.TreeArrays, count: int, limit: int
) -> List[bytes]:
    """Returns the numbers, of so many, that a call writes of each element. More than `limit` raise
    `LimitError`."""
    # A line is the number of an element, a colon, the numbers with a space before each, and its
    # end.
    numbers = limit * (1 + len(str(count)))
    most = min(tree.count * (2 + len(str(tree.count))) + numbers, library.NO_LIMIT)
    room = library.Room(limit)
    try:
        answer = ask(room=1024 + 32 * tree.count, most=most)
    except library.LimitError:
        raise room.passed() from None
    output = library.output_of("the lines of elements", answer)
    room.take(output.count(b" "))
    # The numbers of elements, of which nothing more is needed, and the lines are in turn.
    return output.replace(b":", b"\n").split(b"\n")[1::2]


class Numbers(Dict[bytes, List[int]]):
    """What each text of numbers from 1 denotes among these: most elements share few texts."""

    def __init__(self, numbered: Sequence[int]) -> None:
        super().__init__()
        self._numbered = numbered

    def __missing__(self, numbers: bytes) -> List[int]:
        found = [self._numbered[int(number) - 1] for number in numbers.split()]
        self[numbers] = found
        return found


def selector_error(
    text: str, grammar: str, tree: Optional[library.TreeArrays] = None
) -> SelectorError:
    """Returns the error of a list of selectors that was refused, where a tree declares names."""
    words = (library.encode(text), NUMBERS[grammar], tree or library.TreeArrays([], []))
    answer = library.call("simplecss_refusal", *words, room=4096, with_fault=True)
    if not answer.output:
        return SelectorError("refused", 1, 1, text)
    row, column, reason = answer.output.decode("utf-8").split(" ", 2)
    return SelectorError(reason, int(row), int(column), text)


def states_in(selector: str) -> List[str]:
    """Returns the names of the pseudo-classes of a selector that depend on more than the tree, and of
    its pseudo-elements, in lower case."""
    names = pseudo_names(selector)
    return [each.name for each in names if each.is_element or each.name not in OF_TREE]
