"""The names in selectors, as the library finds them by their tokens."""

from __future__ import annotations

from typing import (
    Callable,
    Dict,
    FrozenSet,
    Iterable,
    Iterator,
    List,
    NamedTuple,
    Optional,
    Sequence,
    Set,
    Tuple,
    cast,
)

from . import _library as library
from ._tokens import decoded, tokens
from ._words import lower

# The kinds of names, as the library numbers them.
_KINDS = (
    ("type", False),
    ("class", False),
    ("id", False),
    ("attribute", False),
    ("pseudo-class", False),
    ("pseudo-class", True),
    ("pseudo-element", False),
    ("pseudo-element", True),
    ("namespace", False),
)
_CLOSE = len(_KINDS)
_PSEUDO = frozenset(("pseudo-class", "pseudo-element"))
# How many texts are kept with their names, and how long they may be.
_MOST_KEPT, _LONG = 8192, 400


class Name(NamedTuple):
    """A name in a selector.

    It has its kind, what it is without escapes, the indices at which it begins with its sign (such
    as `.` or `::`) and ends, and the one after the parentheses of a function; how many parentheses
    are around it, and whether `:not()` is.

    The kinds are "type", "class", "id", "attribute", "pseudo-class", "pseudo-element" and "namespace".
    """

    kind: str
    name: str
    start: int
    end: int
    after: int
    depth: int
    is_negated: bool
    is_function: bool

    @property
    def is_pseudo(self) -> bool:
        """Whether it is of a pseudo-class or a pseudo-element."""
        return self.kind in _PSEUDO

    @property
    def is_element(self) -> bool:
        """Whether it is of a pseudo-element."""
        return self.kind == "pseudo-element"


Names = Tuple[Name, ...]
# The numbers of a name: its kind, where its sign, it and what follows it begin, and its depths.
_Row = Tuple[int, int, int, int, int, int]
# Those that were found last, by the texts that they are in.
_kept: Dict[str, Names] = {}


def names_in(selector: str) -> Names:
    """Returns the names in a selector, or in any other text, in order."""
    found = _kept.get(selector)
    return _read((selector,))[0] if found is None else found


def pseudo_names(selector: str) -> Names:
    """Returns the names of pseudo-classes and pseudo-elements in a selector, in order."""
    if ":" not in selector:
        return ()
    return tuple(each for each in names_in(selector) if each.is_pseudo)


def find_names(selectors: Iterable[str]) -> None:
    """Finds the names in selectors, of which `names_in` is asked later, at once."""
    new = [each for each in dict.fromkeys(selectors) if each not in _kept and len(each) <= _LONG]
    if new:
        _read(new)


def _read(texts: Sequence[str]) -> List[Names]:
    """Returns the names in texts, and keeps those of short ones."""
    encoded = [library.encode(each) for each in texts]
    data = b"".join(encoded)
    ends = library.ends_of(map(len, encoded))
    numbers = iter(library.numbers_of("simplecss_names", data, ends, room=64 + 2 * len(data)))
    rows = cast(List[_Row], list(zip(*[numbers] * 6)))
    found: List[Names] = []
    at = start = 0
    for text, one in zip(texts, encoded):
        end, first = start + len(one), at
        while at < len(rows) and rows[at][1] < end:
            at += 1
        found.append(tuple(_names_at(text, one, start, rows[first:at])))
        start = end
    if len(_kept) + len(texts) > _MOST_KEPT:
        _kept.clear()
    _kept.update((text, names) for text, names in zip(texts, found) if len(text) <= _LONG)
    return found


def _names_at(text: str, data: bytes, base: int, rows: Sequence[_Row]) -> Iterator[Name]:
    """Yields the names of a text by their numbers, which count bytes from `base` on."""
    after = _ends_of_functions(rows)
    index_of = _indices(text, data, base, rows)
    for number, (kind, start, inside, end, depth, negated) in enumerate(rows):
        if kind == _CLOSE:
            continue
        sort, is_function = _KINDS[kind]
        name = text[index_of(inside) : index_of(end)]
        name = decoded(name) if "\\" in name else name
        name = lower(name) if sort in _PSEUDO else name
        close = after.get(number, base + len(data)) if is_function else end
        places = index_of(start), index_of(end), index_of(close)
        yield Name(sort, name, *places, depth, negated > 0, is_function)


def _indices(text: str, data: bytes, base: int, rows: Sequence[_Row]) -> Callable[[int], int]:
    """Returns what returns the index of the character at an offset of the numbers of names."""
    if len(text) == len(data):
        return lambda offset: offset - base
    found: Dict[int, int] = {}
    last = index = 0
    for offset in sorted({base + len(data), *(each for row in rows for each in row[1:4])}):
        index += len(data[last : offset - base].decode())
        last = offset - base
        found[offset] = index
    return found.__getitem__


def _ends_of_functions(rows: Sequence[_Row]) -> Dict[int, int]:
    """Returns where the parentheses of functions end that are closed, by their numbers."""
    found: Dict[int, int] = {}
    open_at: Dict[int, int] = {}
    for number, (kind, _, _, rest, depth, _) in enumerate(rows):
        if kind == _CLOSE:
            if depth in open_at:
                found[open_at.pop(depth)] = rest
        elif _KINDS[kind][1]:
            open_at[depth] = number
    return found


def classes_in(sheets: Iterable[str]) -> Optional[FrozenSet[str]]:
    """Returns the classes that sheets name, or `None` if one names the attribute `class`."""
    found: Set[str] = set()
    for css in sheets:
        before = ""
        for token in tokens(css):
            if token.kind == "ident" and before == ".":
                found.add(token.value)
            elif token.kind == "ident" and lower(token.value) == "class":
                return None
            before = before if token.kind == "comment" else token.text
    return frozenset(found)
