"""The C library: where it is, and how it is called."""

from __future__ import annotations

import array
import copy
import ctypes
import functools
import itertools
import os
import sys
from typing import Any, Iterable, Iterator, List, NamedTuple, Optional, Sequence, Tuple

# That of the library, which `include/simplecss.h` states.
__version__ = "0.3.0"

DONE = 0
REFUSED = 1
TREE_FAULT = 2
OUT_OF_MEMORY = 3
TOO_MANY_DECLARATIONS = 4
NOT_UTF8 = 5
TOO_SMALL = 6
TOO_MANY_LAYERS = 7

# A limit that allows any number, and those that hold where none is named: of the declarations of
# rules, and of what an answer has.
NO_LIMIT: int = 2 ** (8 * ctypes.sizeof(ctypes.c_size_t)) - 1
USUAL_LIMIT = 1_000_000
USUAL_ANSWER_LIMIT = 10_000_000
# What may be written of a text: so many bytes or numbers, or so many for each byte of a longer text.
_MOST_WRITTEN, _MOST_FOR_BYTE = 2**26, 32
_MOST_NUMBERS, _MOST_NUMBERS_FOR_BYTE = 2**23, 8

# The name of the library on this system.
_NAME = {"win32": "simplecss.dll", "darwin": "libsimplecss.dylib"}.get(
    sys.platform, "libsimplecss.so"
)
# Pointers to numbers, and what has one of an array without a type for its length.
_SIZES = ctypes.POINTER(ctypes.c_size_t)
_NO_SIZES = ctypes.c_size_t * 0
# The type code of arrays whose items are as wide as a `size_t`.
SIZE = next(c for c in "QLI" if array.array(c).itemsize == ctypes.sizeof(ctypes.c_size_t))
# How many bytes such a number has.
WIDTH = ctypes.sizeof(ctypes.c_size_t)


class LibraryError(OSError):
    """The C library is missing, or this package cannot use it."""


class InternalError(RuntimeError):
    """The library or this package contradicts itself, which is a mistake in them."""


class LimitError(ValueError):
    """A style sheet or an answer would be larger than its limit."""


def limit_of(limit: Optional[int]) -> int:
    """Returns a limit as a number. `None` is no limit."""
    if limit is not None and not isinstance(limit, int):
        raise TypeError(f"a limit is a whole number or None, not {type(limit).__name__}")
    return NO_LIMIT if limit is None else int(min(max(limit, 0), NO_LIMIT))


class Room:
    """How much an answer may yet have: rules and declarations of elements, or characters."""

    def __init__(self, limit: int, unit: str = "rules and declarations") -> None:
        self.limit = limit
        self.left = limit
        self.unit = unit

    def take(self, count: int) -> None:
        """Takes a part of the room. More than is left raises `LimitError`."""
        self.left -= count
        if self.left < 0:
            raise self.passed()

    def passed(self) -> LimitError:
        """Returns the error that says that there is no room."""
        return LimitError(f"the answer would have more than {self.limit} {self.unit}")


def most_written(length: int) -> int:
    """Returns how much may be written of a text of this length."""
    return max(_MOST_WRITTEN, _MOST_FOR_BYTE * length)


def most_numbers(length: int) -> int:
    """Returns how many numbers may be written of a text of this length."""
    return max(_MOST_NUMBERS, _MOST_NUMBERS_FOR_BYTE * length)


class TreeFault(NamedTuple):
    """Where a tree has a fault: the number of its kind, and of the element from 1."""

    number: int
    element: int


class Answer(NamedTuple):
    """The status of a call, what it wrote, and the fault of the tree if that is why it failed."""

    status: int
    output: bytes
    fault: Optional[TreeFault]


class FaultOfTree(ctypes.Structure):
    _fields_ = [("fault", ctypes.c_uint32), ("element", ctypes.c_size_t)]


class _Element(ctypes.Structure):
    _fields_ = [
        ("depth", ctypes.c_size_t),
        ("attributes", ctypes.c_size_t),
        ("states", ctypes.c_size_t),
        ("namespace_number", ctypes.c_size_t),
    ]


class _Attribute(ctypes.Structure):
    _fields_ = [("element", ctypes.c_size_t), ("namespace_number", ctypes.c_size_t)]


class _Tree(ctypes.Structure):
    _fields_ = [
        ("elements", ctypes.POINTER(_Element)),
        ("elements_count", ctypes.c_size_t),
        ("strings", ctypes.c_char_p),
        ("strings_len", ctypes.c_size_t),
        ("string_ends", _SIZES),
        ("string_ends_count", ctypes.c_size_t),
        ("attributes", ctypes.POINTER(_Attribute)),
        ("attributes_count", ctypes.c_size_t),
        ("states_count", ctypes.c_size_t),
        ("prefixes", _SIZES),
        ("prefixes_count", ctypes.c_size_t),
    ]


class _Sheets(ctypes.Structure):
    _fields_ = [
        ("texts", ctypes.c_char_p),
        ("texts_len", ctypes.c_size_t),
        ("ends", _SIZES),
        ("ends_count", ctypes.c_size_t),
        ("origins", _SIZES),
        ("origins_count", ctypes.c_size_t),
        ("groups", ctypes.c_char_p),
        ("groups_len", ctypes.c_size_t),
        ("group_ends", _SIZES),
        ("group_ends_count", ctypes.c_size_t),
        ("around", _SIZES),
        ("around_count", ctypes.c_size_t),
        ("depths", _SIZES),
        ("depths_count", ctypes.c_size_t),
        ("namespaces", ctypes.c_char_p),
        ("namespaces_len", ctypes.c_size_t),
        ("namespace_ends", _SIZES),
        ("namespace_ends_count", ctypes.c_size_t),
    ]


class SheetArrays:
    """The texts of style sheets and of the group rules that hold, which a call takes as a
    structure."""

    def __init__(
        self,
        texts: Sequence[bytes],
        groups: Sequence[bytes],
        origins: Sequence[int] = (),
        around: Sequence[Sequence[int]] = (),
    ) -> None:
        """Takes the texts of sheets, the keyword and the prelude of each group rule, the numbers of the
        origins of the sheets, and those of the group rules that each sheet is in. No namespaces are
        known."""
        ends, group_ends = ends_of(map(len, texts)), ends_of(map(len, groups))
        numbers, depths = sizes(origins), sizes(map(len, around))
        outer = sizes(itertools.chain.from_iterable(around))
        joined, joined_groups = b"".join(texts), b"".join(groups)
        self._whole: Optional[SheetArrays] = None
        self.structure = _Sheets(
            joined,
            len(joined),
            pointer_to(ends),
            len(ends),
            pointer_to(numbers),
            len(numbers),
            joined_groups,
            len(joined_groups),
            pointer_to(group_ends),
            len(group_ends),
            pointer_to(outer),
            len(outer),
            pointer_to(depths),
            len(depths),
            b"",
            0,
            pointer_to(sizes(())),
            0,
        )

    def with_namespaces(self, spaces: Sequence[bytes]) -> "SheetArrays":
        """Returns the same sheets, where these namespaces are known."""
        found = copy.copy(self)
        # The other arrays are those of this one.
        found._whole = self
        ends, joined = ends_of(map(len, spaces)), b"".join(spaces)
        found.structure = _Sheets.from_buffer_copy(self.structure)
        found.structure.namespaces, found.structure.namespaces_len = joined, len(joined)
        found.structure.namespace_ends = pointer_to(ends)
        found.structure.namespace_ends_count = len(ends)
        return found


class _Own(ctypes.Structure):
    _fields_ = [
        ("texts", ctypes.c_char_p),
        ("texts_len", ctypes.c_size_t),
        ("ends", _SIZES),
        ("ends_count", ctypes.c_size_t),
    ]


class OwnArrays:
    """The texts of elements' declarations that are in no rule, which a call takes as a structure."""

    def __init__(self, texts: Sequence[bytes]) -> None:
        """Takes two texts for each element, or none at all: the `style` attribute, and the presentation
        declarations."""
        ends, joined = ends_of(map(len, texts)), b"".join(texts)
        self.structure = _Own(
            joined,
            len(joined),
            pointer_to(ends),
            len(ends),
        )


class _Asked(ctypes.Structure):
    _fields_ = [
        ("names", ctypes.c_char_p),
        ("names_len", ctypes.c_size_t),
        ("ends", _SIZES),
        ("ends_count", ctypes.c_size_t),
        ("counts", _SIZES),
        ("counts_count", ctypes.c_size_t),
    ]


class AskedArrays:
    """The names of properties that are asked for, which a call takes as a structure."""

    def __init__(self, properties: Sequence[Sequence[bytes]]) -> None:
        """Takes the names of each property."""
        names = list(itertools.chain.from_iterable(properties))
        ends, joined = ends_of(map(len, names)), b"".join(names)
        counts = sizes(map(len, properties))
        self.structure = _Asked(
            joined,
            len(joined),
            pointer_to(ends),
            len(ends),
            pointer_to(counts),
            len(counts),
        )


class _Policy(ctypes.Structure):
    _fields_ = [
        ("texts", ctypes.c_char_p),
        ("texts_len", ctypes.c_size_t),
        ("ends", _SIZES),
        ("ends_count", ctypes.c_size_t),
        ("properties", ctypes.c_size_t),
        ("functions", ctypes.c_size_t),
        ("strings", ctypes.c_size_t),
        ("pseudos", ctypes.c_size_t),
        ("urls", ctypes.c_size_t),
        ("named", ctypes.c_size_t),
        ("words", ctypes.c_size_t),
        ("limits", ctypes.c_size_t),
        ("important", ctypes.c_size_t),
        ("itself", ctypes.c_size_t),
        ("longest", ctypes.c_size_t),
    ]


class PolicyArrays:
    """The texts of a policy, which a call takes as a structure."""

    def __init__(
        self, heads: Sequence[bytes], lists: Sequence[Sequence[bytes]], *numbers: int
    ) -> None:
        """Takes a scope and a prefix, eleven lists, of properties, functions, properties with strings,
        pseudo-classes, urls, their answers, properties whose words are names, words that are none, properties
        with limits, these limits and words of media queries, and the numbers after how many there are.
        """
        names = [*heads, *itertools.chain.from_iterable(lists)]
        ends, joined = ends_of(map(len, names)), b"".join(names)
        self.structure = _Policy(
            joined,
            len(joined),
            pointer_to(ends),
            len(ends),
            *map(len, (*lists[:5], *lists[6:9])),
            *numbers,
        )


class TreeArrays:
    """The arrays of a tree, which a call takes as a structure."""

    def __init__(
        self,
        shapes: Sequence[int],
        strings: Sequence[str],
        states: Sequence[str] = (),
        prefixes: Sequence[Tuple[str, int]] = (),
        attributes: Sequence[int] = (),
    ) -> None:
        """Takes the depth, the number of attributes, the states and the number of the namespace of
        each element, the strings of all, names of states, prefixes with the numbers of namespaces,
        and for each attribute in a namespace the index of its element and the number of the
        namespace.

        The strings of an element are its name, and a key and a value for each attribute. Those of
        attributes in namespaces are after them, a local name and a value for each. A lone surrogate
        raises `UnicodeEncodeError`.
        """
        strings = [*strings, *states, *(name for name, _ in prefixes)]
        self.count = len(shapes) // 4
        elements = (_Element * self.count).from_buffer_copy(sizes(shapes))
        joined = "".join(strings).encode("utf-8")
        is_ascii = len(joined) == sum(map(len, strings))
        ends = ends_of(
            map(len, strings) if is_ascii else (len(each.encode("utf-8")) for each in strings)
        )
        numbers = sizes(number for _, number in prefixes)
        count = len(attributes) // 2
        places = (_Attribute * count).from_buffer_copy(sizes(attributes))
        self.structure = _Tree(
            ctypes.cast(elements, ctypes.POINTER(_Element)),
            self.count,
            joined,
            len(joined),
            pointer_to(ends),
            len(ends),
            ctypes.cast(places, ctypes.POINTER(_Attribute)),
            count,
            len(states),
            pointer_to(numbers),
            len(numbers),
        )


# The types of what a call takes that is made often: to wrap each number would take long.
_ARGUMENTS = {
    "simplecss_page_select": (
        *(ctypes.c_void_p, ctypes.c_char_p, *[ctypes.c_size_t] * 5),
        *(ctypes.c_void_p, ctypes.c_size_t, ctypes.c_void_p),
    )
}
# What has a structure that a call takes.
_ARRAYS = (SheetArrays, OwnArrays, AskedArrays, PolicyArrays, TreeArrays)


def library_path() -> str:
    """Returns the path or name of the library that is used.

    It is that of the environment variable `SIMPLECSS_LIBRARY`, else the one beside this package,
    in the `out` folder of the checkout, or where the system's loader finds it.
    """
    named = os.environ.get("SIMPLECSS_LIBRARY")
    if named:
        return named
    here = os.path.dirname(os.path.realpath(__file__))
    top = os.path.dirname(os.path.dirname(os.path.dirname(here)))
    for folder in (here, os.path.join(top, "out")):
        if os.path.isfile(os.path.join(folder, _NAME)):
            return os.path.join(folder, _NAME)
    # A module that takes long to import.
    from ctypes.util import find_library

    found = find_library("simplecss")
    if found:
        return found
    raise LibraryError(
        f"{_NAME} not found: install the package (`pip install ./python` in a checkout), run"
        " `./build library`, or set SIMPLECSS_LIBRARY to its path"
    )


@functools.lru_cache(maxsize=None)
def _library() -> ctypes.CDLL:
    path = library_path()
    try:
        loaded = ctypes.CDLL(path)
    except OSError as error:
        raise LibraryError(f"{path}: {error}") from None
    version = _version_of(loaded)
    if version != __version__:
        raise LibraryError(f"{path} has version {version}, and this package {__version__}")
    return loaded


def is_proved() -> bool:
    """Whether the toolchain that proves the library also built it.

    One that cargo compiled from the same sources gives the same answers. Then you also trust the
    eraser, the names of Rattle's library over Rust's, and rustc, and the process may abort if an
    allocation fails.
    """
    return not hasattr(_library(), "simplecss_is_erased")


def _version_of(loaded: ctypes.CDLL) -> str:
    """Returns the version of a library."""
    buffer = ctypes.create_string_buffer(64)
    length = ctypes.c_size_t(0)
    try:
        loaded.simplecss_version(buffer, ctypes.c_size_t(64), ctypes.byref(length))
    except AttributeError:
        return "none"
    return ctypes.string_at(buffer, length.value).decode()


@functools.lru_cache(maxsize=None)
def _function(name: str) -> Any:
    try:
        function = getattr(_library(), name)
    except AttributeError:
        raise LibraryError(f"{library_path()} has no {name}") from None
    function.restype = ctypes.c_uint32
    if name in _ARGUMENTS:
        function.argtypes = _ARGUMENTS[name]
    return function


def sizes(numbers: Iterable[int]) -> "array.array[int]":
    """Returns an array of numbers as wide as a `size_t`."""
    return array.array(SIZE, numbers)


def expect_text(text: object) -> None:
    """Raises `TypeError` for what is not a `str`."""
    if not isinstance(text, str):
        hint = ": decode it first" if isinstance(text, (bytes, bytearray)) else ""
        hint = ": read the file first" if isinstance(text, os.PathLike) else hint
        raise TypeError(f"a text (str) is expected, not {type(text).__name__}{hint}")


def encode(text: str) -> bytes:
    """Returns the text in UTF-8. A lone surrogate raises `UnicodeEncodeError`, a `ValueError`."""
    expect_text(text)
    return text.encode("utf-8")


def pointer_to(numbers: "array.array[int]") -> Any:
    """Returns a pointer to the first of numbers, which are there as long as it."""
    return ctypes.cast(_NO_SIZES.from_buffer(numbers), _SIZES)


def ends_of(lengths: Iterable[int]) -> "array.array[int]":
    """Returns where each text ends in the buffer that has texts of these lengths one after
    another."""
    return sizes(itertools.accumulate(lengths))


@functools.lru_cache(maxsize=None)
def _buffer_type(bits: int) -> Any:
    """Returns the type of a buffer of 2**bits bytes. To make a type takes longer than to make a buffer."""
    return ctypes.c_char * 2**bits


def _words_of(arguments: Sequence[Any]) -> List[Any]:
    """Returns arguments as a function of the library takes them."""
    words: List[Any] = []
    for argument in arguments:
        if isinstance(argument, int):
            words.append(ctypes.c_size_t(argument))
            continue
        if isinstance(argument, (ctypes.Structure, *_ARRAYS)):
            structure = argument if isinstance(argument, ctypes.Structure) else argument.structure
            words.append(ctypes.byref(structure))
            continue
        words.append(pointer_to(argument) if isinstance(argument, array.array) else argument)
        words.append(ctypes.c_size_t(len(argument)))
    return words


def _expect_memory(name: str, status: int) -> None:
    """Raises `MemoryError` if an allocation of a call failed."""
    if status == OUT_OF_MEMORY:
        raise MemoryError(name)


def status_of(name: str, *arguments: Any) -> int:
    """Calls a function of the library that is given all that it takes, and returns its status."""
    words = arguments if name in _ARGUMENTS else _words_of(arguments)
    status = int(_function(name)(*words))
    _expect_memory(name, status)
    return status


def run(name: str, *arguments: Any) -> None:
    """Calls a function of the library that says nothing."""
    _function(name)(*_words_of(arguments))


def call(
    name: str,
    *arguments: Any,
    room: int,
    with_fault: bool = False,
    most: Optional[int] = None,
    width: int = 1,
) -> Answer:
    """Calls a function of the library.

    An argument is a text, an array of ends, a tree, a structure, or a number. `room` is the length
    of the first buffer, of items of `width` bytes; a call that needs a longer one is made again. `most`
    is passed last to a function that takes it: an answer of more items raises `LimitError`.
    """
    function, words = _function(name), _words_of(arguments)
    if most is not None:
        words.append(ctypes.c_size_t(most))
    found = FaultOfTree()
    length = ctypes.c_size_t(0)
    tail: Tuple[Any, ...] = (ctypes.byref(found),) if with_fault else ()
    while True:
        buffer = _buffer_type((room * width).bit_length())()
        status = function(*words, buffer, ctypes.c_size_t(room), ctypes.byref(length), *tail)
        if status != TOO_SMALL:
            break
        room = length.value
    _expect_memory(name, status)
    unit = "bytes" if width == 1 else "numbers"
    expect_within(
        status, None if most is None else f"the answer would have more than {most} {unit}"
    )
    fault = TreeFault(found.fault, found.element) if status == TREE_FAULT else None
    output = ctypes.string_at(buffer, length.value * width) if status == DONE else b""
    return Answer(status, output, fault)


def expect_within(status: int, longer: Optional[str] = None) -> None:
    """Raises `LimitError` if style sheets are beyond a limit, or an answer is, as `longer` says."""
    if status == TOO_MANY_LAYERS:
        raise LimitError("the sheets have more than 1,024 layers")
    if status == TOO_MANY_DECLARATIONS:
        raise LimitError(longer or "the rules would hold more declarations than the limit")


def expect_done(name: str, status: int) -> None:
    """Raises `InternalError` where a call, which had no reason to, failed."""
    if status != DONE:
        raise InternalError(f"{name}: unexpected status {status}")


def output_of(name: str, answer: Answer) -> bytes:
    """Returns what a call wrote, which had no reason to fail."""
    expect_done(name, answer.status)
    return answer.output


class NotWellFormed(ValueError):
    """A text is not an XML document: the number of the reason, and the offset of what is wrong."""

    def __init__(self, reason: int, offset: int) -> None:
        super().__init__(reason, offset)
        self.reason = reason
        self.offset = offset


# What says that a text is XML.
IS_XML = 4


def document_of(text: bytes) -> Tuple["array.array[int]", bytes]:
    """Returns the numbers and the strings of an XML document. One that is not well-formed raises `NotWellFormed`."""
    return page_of(text, 0, b"", IS_XML)


def page_of(
    text: bytes, space: int, context: bytes, flags: int
) -> Tuple["array.array[int]", bytes]:
    """Returns the numbers and the strings of an HTML page, or of the content of an element in a namespace. One
    whose elements are nested in a way that takes time or elements out of proportion raises `LimitError`.
    """
    name = "simplecss_html"
    function = _function(name)
    words: List[Any] = [
        *(text, ctypes.c_size_t(len(text)), ctypes.c_size_t(space)),
        *(context, ctypes.c_size_t(len(context)), ctypes.c_size_t(flags)),
    ]
    count, size = ctypes.c_size_t(len(text) // 2 + 1024), ctypes.c_size_t(len(text) + 1024)
    while True:
        numbers = array.array(SIZE, bytes(count.value * WIDTH))
        strings = _buffer_type(size.value.bit_length())()
        rooms = ctypes.c_size_t(count.value), ctypes.c_size_t(size.value)
        status = function(
            *(*words, pointer_to(numbers), rooms[0], ctypes.byref(count)),
            *(strings, rooms[1], ctypes.byref(size)),
        )
        if status != TOO_SMALL:
            break
    if status == OUT_OF_MEMORY:
        raise MemoryError(name)
    if status == TOO_MANY_DECLARATIONS:
        raise LimitError(
            "more than 4,096 namespaces, 1,000 in scope, or one of more than 1,000 bytes"
            if flags == IS_XML
            else "elements are nested in a way that takes time or elements out of proportion"
        )
    if status == REFUSED and flags == IS_XML:
        raise NotWellFormed(size.value, count.value)
    expect_done(name, status)
    return numbers[: count.value], ctypes.string_at(strings, size.value)


def numbers_of(
    name: str,
    *arguments: Any,
    room: int,
    with_fault: bool = False,
    most: Optional[int] = None,
) -> "array.array[int]":
    """Returns the numbers that a call wrote, which had no reason to fail."""
    answer = call(name, *arguments, room=room, with_fault=with_fault, most=most, width=WIDTH)
    return numbers_in(output_of(name, answer))


def rows_of(numbers: "array.array[int]", width: int) -> "Iterator[array.array[int]]":
    """Yields the rows of numbers, each of so many."""
    return (numbers[at : at + width] for at in range(0, len(numbers), width))


def numbers_in(output: bytes) -> "array.array[int]":
    """Returns the numbers in bytes that a call wrote."""
    found = sizes(())
    found.frombytes(output)
    return found


# A tree without elements.
NO_TREE = TreeArrays((), ())
# What is asked by the grammar of the Rust crate: the printed sheet of texts, its rules, what is skipped of a text,
# which rules match each element, what wins on each, and which elements a list of selectors matches.
PORT_SHEET, PORT_RULES, PORT_SKIPPED, PORT_MATCHES, PORT_STYLES, PORT_SELECTED = range(6)


def port(
    asked: int,
    texts: Sequence[bytes],
    limit: int = NO_LIMIT,
    tree: TreeArrays = NO_TREE,
    *,
    room: int,
    most: int = NO_LIMIT,
) -> Answer:
    """Asks the library by the grammar of the Rust crate, of texts and of the elements of a tree."""
    words = b"".join(texts), ends_of(map(len, texts)), limit, asked, tree
    return call("simplecss_port", *words, room=room, with_fault=True, most=most)
