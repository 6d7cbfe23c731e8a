"""Lists of selectors, style sheets, trees, and trees with style sheets, that the library keeps."""

from __future__ import annotations

import array
import ctypes
import os
import threading
import weakref
from types import TracebackType
from typing import Iterator, Optional, Type

from . import _library as library

# How many numbers the library writes of a selector of a list.
_OF_LISTED = 10
_NO_NUMBER = array.array(library.SIZE, (0,))
# What a query is asked: what wins, what wins of some properties, which rules match, what applies of a property, and the
# rules.
WINNERS, WINNERS_NAMED, MATCHES, EXPLAINED, RULES = range(5)
NO_NAMES = library.AskedArrays([])
# What a sheet is asked: its statements and what is in its style rules, in numbers; and its imports, as a text.
STATEMENTS, CONTENTS, IMPORTS = 0, 1, 2


class _Handle(ctypes.Structure):
    """What the library keeps, or nothing: one pointer."""

    _fields_ = [("at", ctypes.c_void_p)]


def _free_list(handle: _Handle, lock: threading.Lock) -> None:
    """Lets a list go, when nobody asks it."""
    with lock:
        library.run("simplecss_list_free", handle)


class KeptList:
    """The list of selectors that a text is by the grammar of a number. Another text raises `ValueError`.

    The library has it until `close`, the end of a `with`, or the last reference to it. Threads may
    share it: one asks at a time.
    """

    def __init__(self, data: bytes, number: int) -> None:
        self._numbers, self._bytes = _OF_LISTED * (2 + data.count(b",")), 64 + 4 * len(data)
        self._handle = _Handle()
        self._lock = threading.Lock()
        self.close = weakref.finalize(self, _free_list, self._handle, self._lock)
        # The end of the process frees it, even if a lock was taken by a thread that a fork left behind.
        self.close.atexit = False
        status = library.status_of("simplecss_list_new", data, number, self._handle)
        if status == library.REFUSED:
            raise ValueError("not a list of selectors")
        library.expect_done("simplecss_list_new", status)

    def __enter__(self) -> KeptList:
        return self

    def __exit__(
        self,
        kind: Optional[Type[BaseException]],
        error: Optional[BaseException],
        trace: Optional[TracebackType],
    ) -> None:
        self.close()

    def rows(self) -> Iterator["array.array[int]"]:
        """Yields the ten numbers of each selector: where it is, its specificity, its pseudo-element, and the
        length of its printed text."""
        with self._lock:
            numbers = library.numbers_of("simplecss_list_numbers", self._handle, room=self._numbers)
        return library.rows_of(numbers, _OF_LISTED)

    def text(self) -> bytes:
        """Returns the printed texts of the selectors, one after another."""
        with self._lock:
            answer = library.call("simplecss_list_text", self._handle, room=self._bytes)
        return library.output_of("simplecss_list_text", answer)


class KeptSheet:
    """A style sheet, of which the library has a copy until the end of a `with`. It is for one thread."""

    def __init__(self, data: bytes) -> None:
        self._size, self._handle = len(data), _Handle()
        name = "simplecss_sheet_new"
        library.expect_done(name, library.status_of(name, data, self._handle))

    def __enter__(self) -> KeptSheet:
        return self

    def __exit__(
        self,
        kind: Optional[Type[BaseException]],
        error: Optional[BaseException],
        trace: Optional[TracebackType],
    ) -> None:
        library.run("simplecss_sheet_free", self._handle)

    def statements(self) -> "array.array[int]":
        """Returns the numbers of the statements. Too many for the length of the sheet raise `LimitError`."""
        return self._numbers(STATEMENTS, library.most_numbers(self._size), 1024 + self._size)

    def contents(self) -> "array.array[int]":
        """Returns the numbers of what is in the style rules."""
        return self._numbers(CONTENTS, library.NO_LIMIT, 1024 + 2 * self._size)

    def text(self, asked: int) -> bytes:
        """Returns the text of what is asked by a number: the imports, or the sheet in a layout."""
        name, room = "simplecss_sheet_text", 256 + 2 * self._size
        return library.output_of(name, library.call(name, self._handle, asked, room=room))

    def _numbers(self, asked: int, most: int, room: int) -> "array.array[int]":
        name = "simplecss_sheet_numbers"
        return library.numbers_of(name, self._handle, asked, room=room, most=most)


class KeptPage:
    """A tree that is asked which of its elements selectors match, whose names compare as the grammar of a number says.

    The library has a copy of it until the last reference to this. Threads may share it: one asks at a time.
    """

    def __init__(self, tree: library.TreeArrays, number: int) -> None:
        handle = _Handle()
        self._handle = ctypes.byref(handle)
        # What a thread does while it asks, such as to collect garbage, may ask, too.
        self._lock = threading.RLock()
        self._process = os.getpid()
        weakref.finalize(self, library.run, "simplecss_page_free", handle).atexit = False
        name = "simplecss_page_new"
        status = library.status_of(name, tree, number, handle, library.FaultOfTree())
        library.expect_done(name, status)

    @property
    def is_left(self) -> bool:
        """Whether a fork left it behind, perhaps while another thread asked it."""
        return self._process != os.getpid()

    def select(
        self, selectors: bytes, scope: int, start: int, end: int
    ) -> Optional["array.array[int]"]:
        """Returns the numbers, from 1, of the elements from an index up to another that match, or `None`
        if the selectors are refused. `:scope` matches the element of the number `scope`, or with 0 the root.
        """
        name, room = "simplecss_page_select", end - start
        # Each element is written once at most. An array of nothing may be nowhere.
        numbers = _NO_NUMBER * (room + 1)
        length = ctypes.c_size_t(0)
        words = (self._handle, selectors, len(selectors), scope, start, end, library.NO_LIMIT)
        out = (numbers.buffer_info()[0], room, ctypes.byref(length))
        with self._lock:
            status = library.status_of(name, *words, *out)
        if status == library.REFUSED:
            return None
        library.expect_done(name, status)
        return numbers[: length.value]


class KeptQuery:
    """A tree with style sheets and elements' own declarations, whose names compare as the grammar of a number says.

    The library has copies of all until the last reference to this. Threads may share it: one asks at a time. Sheets
    with more declarations than `limit`, or with too many layers, raise `LimitError`.
    """

    def __init__(
        self,
        tree: library.TreeArrays,
        number: int,
        sheets: library.SheetArrays,
        limit: int,
        own: library.OwnArrays,
    ) -> None:
        handle = _Handle()
        self._handle = handle
        self._lock = threading.RLock()
        self._process = os.getpid()
        weakref.finalize(self, library.run, "simplecss_query_free", handle).atexit = False
        name, words = "simplecss_query_new", (tree, number, sheets, limit, own)
        status = library.status_of(name, *words, handle, library.FaultOfTree())
        library.expect_within(status)
        library.expect_done(name, status)

    @property
    def is_left(self) -> bool:
        """Whether a fork left it behind, perhaps while another thread asked it."""
        return self._process != os.getpid()

    def numbers(
        self,
        asked: int,
        start: int,
        end: int,
        most: int = library.NO_LIMIT,
        *,
        names: library.AskedArrays = NO_NAMES,
        room: int,
    ) -> "array.array[int]":
        """Returns the numbers of what is asked by a number, of the elements from an index up to another."""
        name, words = "simplecss_query_numbers", (self._handle, asked, names, start, end)
        with self._lock:
            return library.numbers_of(name, *words, room=room, most=most)

    def texts(self, most: int, room: int) -> bytes:
        """Returns the texts of the selectors of the rules, one after another. More bytes raise `LimitError`."""
        name = "simplecss_query_text"
        with self._lock:
            answer = library.call(name, self._handle, room=room, most=most)
        return library.output_of(name, answer)


def sheets_query(sheets: library.SheetArrays, limit: int) -> KeptQuery:
    """Returns what the library keeps of sheets on no elements."""
    return KeptQuery(library.NO_TREE, 0, sheets, limit, library.OwnArrays([]))
