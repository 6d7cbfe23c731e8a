"""Calls of the C library by ctypes, for `speed.py` and `cost.py`."""
from __future__ import annotations

import ctypes
import itertools
import time
from typing import Any, List, Sequence, Tuple

SIZE = ctypes.c_size_t
# The grammars.
MODERN, PORT = 0, 3
# The most bytes of an answer, and the room for it.
ROOM = 1 << 27


class TreeElement(ctypes.Structure):
    """An element of a tree."""

    _fields_ = [("depth", SIZE), ("attributes", SIZE), ("states", SIZE), ("namespace", SIZE)]


class TreeFault(ctypes.Structure):
    """A fault of a tree."""

    _fields_ = [("fault", ctypes.c_uint32), ("element", SIZE)]


def buffer_of(texts: Sequence[str]) -> List[Any]:
    """The words of a call for texts: these one after another, where each ends, and how many."""
    parts = [text.encode() for text in texts]
    ends = (SIZE * len(parts))(*itertools.accumulate(map(len, parts)))
    whole = b"".join(parts)
    return [whole, SIZE(len(whole)), ends, SIZE(len(parts))]


class TreeArrays(ctypes.Structure):
    """A tree: its elements, its strings, and where each ends, each with its length."""

    _fields_ = [
        ("elements", ctypes.POINTER(TreeElement)),
        ("elements_count", SIZE),
        ("strings", ctypes.c_char_p),
        ("strings_len", SIZE),
        ("string_ends", ctypes.POINTER(SIZE)),
        ("string_ends_count", SIZE),
        ("attributes", ctypes.POINTER(SIZE)),
        ("attributes_count", SIZE),
        ("states_count", SIZE),
        ("prefixes", ctypes.POINTER(SIZE)),
        ("prefixes_count", SIZE),
    ]


def tree_of(text: str) -> Any:
    """The word of a call for a page, by its lines of `cssq`."""
    shapes: List[Tuple[int, int, int]] = []
    strings: List[str] = []
    for line in text.splitlines():
        depth, name, *attributes = line.split("\t")
        shapes.append((int(depth), len(attributes), 0))
        strings.append(name)
        for attribute in attributes:
            strings += attribute.split("=", 1) if "=" in attribute else [attribute, ""]
    elements = (TreeElement * len(shapes))(*(TreeElement(*shape) for shape in shapes))
    whole, length, ends, count = buffer_of(strings)
    first = ctypes.cast(elements, ctypes.POINTER(TreeElement))
    last = ctypes.cast(ends, ctypes.POINTER(SIZE))
    return ctypes.byref(TreeArrays(first, len(shapes), whole, length, last, count))


class Library:
    """The library, and room for its answers."""

    def __init__(self, path: str) -> None:
        self.calls = ctypes.CDLL(path)
        self.out = ctypes.create_string_buffer(ROOM)
        self.length = SIZE()

    def milliseconds(self, name: str, words: Sequence[Any], runs: int) -> float:
        """The least processor time of some calls."""
        best = float("inf")
        for _ in range(runs):
            fault = TreeFault()
            start = time.process_time()
            status = getattr(self.calls, name)(
                *words,
                SIZE(ROOM),
                self.out,
                SIZE(ROOM),
                ctypes.byref(self.length),
                ctypes.byref(fault),
            )
            best = min(best, 1000 * (time.process_time() - start))
            if status:
                raise ValueError(f"{name}: status {status}, element {fault.element}")
        return best

    def match(self, selectors: Sequence[str], page: str, is_modern: bool, runs: int = 5) -> float:
        """The time of matching selectors on a page, by the grammar of CSS 2.1 or as written in a modern
        sheet."""
        words = [*buffer_of(selectors), SIZE(MODERN if is_modern else PORT), tree_of(page)]
        return self.milliseconds("simplecss_match_selectors", words, runs)
