"""The calls of the C library by ctypes: each call with each of its statuses, with a buffer of each
length up to the one that the answer needs, in eight threads at once, and on texts of 10 MB. The
library is built by `./build library`.
"""
from __future__ import annotations

import contextlib
import ctypes
import itertools
import resource
import threading
from typing import Any, Callable, Dict, Iterator, List, Sequence, Tuple

from tests.common import Case, library_path, version

# The strings of a buffer, and where each ends; and a tree: its elements, its strings, and where
# each ends.
Sizes = Any
Buffer = Tuple[bytes, Sizes]
Tree = Tuple["Elements", bytes, Sizes]
# A call's status, what is in its buffer, the length of its answer, and the fault of its tree with
# the element.
Outcome = Tuple[int, bytes, int, Tuple[int, int]]

DONE, REFUSED, TREE_FAULT, LIMIT, NOT_UTF8, TOO_SMALL, TOO_MANY_LAYERS = 0, 1, 2, 4, 5, 6, 7
NO_OBJECT = 8
NO_LIMIT = 2**64 - 1
SIZE = ctypes.c_size_t
MARK = 0xA5


class TreeFault(ctypes.Structure):
    """A fault of a tree."""

    _fields_ = [("fault", ctypes.c_uint32), ("element", SIZE)]


def texts_fields(name: str, ends: str) -> List[Tuple[str, Any]]:
    """The fields of texts with their length, and of where each ends with how many there are."""
    return [(name, ctypes.c_char_p), (f"{name}_len", SIZE), *numbers_fields(ends)]


def numbers_fields(*names: str) -> List[Tuple[str, Any]]:
    """The fields of numbers, and of how many there are."""
    pairs = (((name, ctypes.POINTER(SIZE)), (f"{name}_count", SIZE)) for name in names)
    return list(itertools.chain.from_iterable(pairs))


class TreeArrays(ctypes.Structure):
    """A tree: its elements, its strings, where each ends, and its attributes in namespaces, each with its
    length; how many states it names; and the numbers of the namespaces of its prefixes."""

    _fields_ = [
        *numbers_fields("elements"),
        *texts_fields("strings", "string_ends"),
        *numbers_fields("attributes"),
        ("states_count", SIZE),
        *numbers_fields("prefixes"),
    ]


class KeptList(ctypes.Structure):
    """The handle of a list of selectors that the library keeps."""

    _fields_ = [("at", ctypes.c_void_p)]


class KeptSheet(ctypes.Structure):
    """The handle of a style sheet that the library keeps."""

    _fields_ = [("at", ctypes.c_void_p)]


class KeptPage(ctypes.Structure):
    """The handle of a page that the library keeps."""

    _fields_ = [("at", ctypes.c_void_p)]


class KeptQuery(ctypes.Structure):
    """The handle of a query that the library keeps."""

    _fields_ = [("at", ctypes.c_void_p)]


class Device(ctypes.Structure):
    """A device: the numbers of `simplecss_device`, in their order."""

    _fields_ = [(f"number_{each}", ctypes.c_uint32) for each in range(25)]


class SheetArrays(ctypes.Structure):
    """Sheets, the keyword and the prelude of each group rule that holds, and the urls of namespaces: each as
    texts with their length, and where each ends with how many there are; the numbers of the sheets'
    origins; and those of the group rules that each is in, with how many these are."""

    _fields_ = [
        *texts_fields("texts", "ends"),
        *numbers_fields("origins"),
        *texts_fields("groups", "group_ends"),
        *numbers_fields("around", "depths"),
        *texts_fields("namespaces", "namespace_ends"),
    ]


class OwnArrays(ctypes.Structure):
    """Two texts for each element, of its style attribute and of its presentation declarations."""

    _fields_ = texts_fields("texts", "ends")


class AskedArrays(ctypes.Structure):
    """The names of properties, and how many each has."""

    _fields_ = [*texts_fields("names", "ends"), *numbers_fields("counts")]


class PolicyArrays(ctypes.Structure):
    """A scope, a prefix and the names of a policy, as texts with their length, and where each ends with how many
    there are; how many names there are of each kind but the last one; whether declarations may be important, and
    rules for the scope itself; and the most bytes of a text."""

    _fields_ = [
        *texts_fields("texts", "ends"),
        *((name, SIZE) for name in ("properties", "functions", "strings", "pseudos")),
        *((name, SIZE) for name in ("urls", "named", "words", "limits")),
        *((name, SIZE) for name in ("important", "itself", "longest")),
    ]


def sizes(numbers: Sequence[int]) -> Sizes:
    """An array of sizes."""
    return (SIZE * len(numbers))(*numbers)


def buffer_of(texts: Sequence[bytes]) -> Buffer:
    """The texts one after another, and where each ends."""
    return b"".join(texts), sizes(list(itertools.accumulate(map(len, texts))))


def tree_of(
    *elements: Any,
    attributes: Sequence[Tuple[int, int, bytes, bytes]] = (),
    states: Sequence[bytes] = (),
    prefixes: Sequence[Tuple[bytes, int]] = (),
) -> Tree:
    """The arrays of a tree: each element is a depth, or a depth, states and the number of a
    namespace, a name, and keys and values. Each attribute in a namespace is the index of its element,
    the number of the namespace, a name and a value. The tree names states and prefixes."""
    shapes: List[int] = []
    spaces = []
    for place, _, *fields in elements:
        depth, own, space = (*place, 0, 0)[:3] if isinstance(place, tuple) else (place, 0, 0)
        shapes += [depth, len(fields) // 2, own]
        spaces.append(space)
    texts = [string for _, *strings in elements for string in strings]
    texts += [string for _, _, *strings in attributes for string in strings]
    strings, ends = buffer_of([*texts, *states, *(name for name, _ in prefixes)])
    numbers = [number for _, number in prefixes]
    places = [number for each in attributes for number in each[:2]]
    return Elements(shapes, len(states), spaces, numbers, places), strings, ends


class Elements:
    """The depth, the number of attributes, the states and the namespace of each element, how many
    states the tree names, the numbers of the namespaces of its prefixes, and the element and the
    namespace of each attribute in one."""

    def __init__(
        self,
        shapes: Sequence[int],
        states: int = 0,
        spaces: Sequence[int] = (),
        prefixes: Sequence[int] = (),
        attributes: Sequence[int] = (),
    ) -> None:
        rows = zip(*[iter(shapes)] * 3, itertools.chain(spaces, itertools.repeat(0)))
        self.array = sizes(list(itertools.chain.from_iterable(rows)))
        self.states = states
        self.prefixes = sizes(list(prefixes))
        self.attributes = sizes(list(attributes))

    def __len__(self) -> int:
        return len(self.array) // 4


def arrays_of(tree: Tree) -> TreeArrays:
    """The structure of a tree."""
    elements, strings, ends = tree
    first, last = (ctypes.cast(each, ctypes.POINTER(SIZE)) for each in (elements.array, ends))
    lengths = len(elements), len(strings), len(ends)
    attributes, number = counted(elements.attributes)
    more = attributes, number // 2, elements.states, *counted(elements.prefixes)
    return TreeArrays(first, lengths[0], strings, lengths[1], last, lengths[2], *more)


def counted(numbers: Sizes) -> Tuple[Any, int]:
    """A pointer to numbers, and how many they are."""
    return ctypes.cast(numbers, ctypes.POINTER(SIZE)), len(numbers)


def fields_of(texts: Buffer) -> Tuple[Any, ...]:
    """Texts with their length, and where each ends with how many there are."""
    return (texts[0], len(texts[0]), *counted(texts[1]))


def sheets_of(
    texts: Buffer,
    groups: Buffer,
    origins: Sequence[int] = (),
    around: Sequence[int] = (),
    depths: Sequence[int] = (),
    namespaces: Buffer = (b"", (SIZE * 0)()),
) -> SheetArrays:
    """The structure of sheets, of the group rules that hold, and of the urls of namespaces."""
    numbers = (*counted(sizes(around)), *counted(sizes(depths)), *fields_of(namespaces))
    return SheetArrays(*fields_of(texts), *counted(sizes(origins)), *fields_of(groups), *numbers)


def own_of(*texts: bytes) -> OwnArrays:
    """The structure of two texts for each element."""
    return OwnArrays(*fields_of(buffer_of(texts)))


def asked_of(*properties: Sequence[bytes]) -> AskedArrays:
    """The structure of the names of each property."""
    names = buffer_of(list(itertools.chain.from_iterable(properties)))
    return AskedArrays(*fields_of(names), *counted(sizes(list(map(len, properties)))))


# What a call takes by a pointer.
STRUCTURES = (
    *(
        Device,
        KeptList,
        KeptSheet,
        KeptPage,
        KeptQuery,
        SheetArrays,
        OwnArrays,
        AskedArrays,
        PolicyArrays,
    ),
)


def policy_of(
    scope: bytes,
    *lists: Sequence[bytes],
    prefix: bytes = b"",
    urls: Sequence[Tuple[bytes, bytes]] = (),
    named: Sequence[bytes] = (),
    words: Sequence[bytes] = (),
    limits: Sequence[Tuple[bytes, bytes]] = (),
    important: int = 1,
    itself: int = 0,
    longest: int = 1 << 20,
) -> PolicyArrays:
    """The structure of a policy, of five lists of names, and what is changed in values: urls with their answers,
    properties whose words are names, words that are none, and limits of properties."""
    *others, media = lists
    asked, answers = [one for one, _ in urls], [answer for _, answer in urls]
    limited, bounds = [one for one, _ in limits], [bound for _, bound in limits]
    names = itertools.chain(*others, asked, answers, named, words, limited, bounds, media)
    texts = [scope, prefix, *names]
    counts = [len(each) for each in (*others, asked, named, words, limited)]
    return PolicyArrays(*fields_of(buffer_of(texts)), *counts, important, itself, longest)


# What a policy of the library has of names, in the order of its arrays.
LISTS = ("properties", "functions", "strings", "pseudos", "media")
# The numbers of its policies.
POLICIES = {"mail": 4, "comment": 5}


def lines_of(library: ctypes.CDLL, policy: str) -> Dict[str, List[bytes]]:
    """The lines that the library writes of one of its policies, by their first words."""
    nothing = policy_of(b"", (), (), (), (), ())
    arguments = b"", nothing, POLICIES[policy]
    status, out, length, _ = call(library, "simplecss_clean", arguments, 1 << 13)
    assert status == DONE, status
    rows = (line.split(b" ") for line in out[:length].splitlines())
    return {head.decode(): rest for head, *rest in rows}


def listed_policy(library: ctypes.CDLL, scope: bytes, policy: str) -> PolicyArrays:
    """A policy of the library, for a scope."""
    lines = lines_of(library, policy)
    limits = list(zip(lines["limited"], lines["limits"]))
    return policy_of(scope, *(lines[each] for each in LISTS), limits=limits)


def words_of(arguments: Sequence[Any]) -> List[Any]:
    """Each argument as a pointer and a length, a structure and a tree as a pointer, and a number as a
    size."""
    words: List[Any] = []
    for argument in arguments:
        if isinstance(argument, int):
            words.append(SIZE(argument))
            continue
        if isinstance(argument, STRUCTURES):
            words.append(ctypes.byref(argument))
            continue
        if isinstance(argument, tuple):
            elements, strings, ends = argument
            words.append(ctypes.byref(arrays_of((elements, strings, ends))))
            continue
        words += (argument, SIZE(len(argument)))
    return words


def port_arguments(asked: int, text: bytes, *more: Any) -> Tuple[Any, ...]:
    """The arguments of the call of the port, by those of what is asked: of the ends and the limit of a sheet and of a
    tree those that it has."""
    sheet = [each for each in more if not isinstance(each, tuple)]
    tree = [each for each in more if isinstance(each, tuple)]
    return (text, *(sheet or (sizes([]), 0)), asked, *(tree or (tree_of(),)))


@contextlib.contextmanager
def given(
    library: ctypes.CDLL, name: str, arguments: Sequence[Any], fault: TreeFault
) -> Iterator[Tuple[int, List[Any]]]:
    """The status of what a call needs first, and what it is given. A question to a list is given the
    handle of one that is made of the arguments, and let go after it, one to a sheet that of one that is made of the
    first, one to a page that of one that is made of the first two, and one to a query that of one that is made of all but properties; of others nothing is needed.
    """
    if name in ASKED or name == "simplecss_query_text":
        query = KeptQuery()
        sheets, grammar, limit, tree, *more = arguments
        own, asked = [*more, NO_OWN][0], [*more[1:], asked_of()][0]
        place = ctypes.byref(query)
        words = words_of((tree, grammar, sheets, limit, own))
        made = library.simplecss_query_new(*words, place, ctypes.byref(fault))
        question = (ASKED[name], asked, 0, NO_LIMIT) if name in ASKED else ()
        yield made, words_of((query, *question))
        library.simplecss_query_free(place)
        return
    if name in SHEET_ASKED:
        sheet = KeptSheet()
        text, *more = arguments
        made = library.simplecss_sheet_new(*words_of((text,)), ctypes.byref(sheet))
        yield made, words_of((sheet, *(more or (SHEET_ASKED[name],))))
        library.simplecss_sheet_free(ctypes.byref(sheet))
        return
    if name in PORT_ASKED:
        yield DONE, words_of(port_arguments(PORT_ASKED[name], *arguments))
        return
    if name.startswith("simplecss_page_"):
        page = KeptPage()
        place = ctypes.byref(page)
        made = library.simplecss_page_new(*words_of(arguments[:2]), place, ctypes.byref(fault))
        yield made, words_of((page, *arguments[2:]))
        library.simplecss_page_free(place)
        return
    if not name.startswith("simplecss_list_"):
        yield DONE, words_of(arguments)
        return
    kept = KeptList()
    made = library.simplecss_list_new(*words_of(arguments), ctypes.byref(kept))
    yield made, words_of((kept,))
    library.simplecss_list_free(ctypes.byref(kept))


def call(
    library: ctypes.CDLL, name: str, arguments: Sequence[Any], room: int, most: int = NO_LIMIT
) -> Outcome:
    """The status, the buffer, the length, and the fault of a call with a buffer of `room` bytes.
    Its answer has at most `most` bytes, if the call has such a limit."""
    out = (ctypes.c_uint8 * (room + 4))(*([MARK] * (room + 4)))
    status, length, fault = filled(library, name, arguments, out, most)
    return status, bytes(out), length, (fault.fault, fault.element)


def filled(
    library: ctypes.CDLL, name: str, arguments: Sequence[Any], out: Any, most: int
) -> Tuple[int, int, TreeFault]:
    """The status, the length, and the fault of a call that writes into a buffer, whose last four items it is
    not told of."""
    length, fault = SIZE(77), TreeFault(88, 99)
    limit = (SIZE(most),) if name in (*LIMITED, *PORT_ASKED, *ASKED) else ()
    tail = (ctypes.byref(fault),) if name in (*WITH_TREE, *PORT_ASKED, *WITH_EDITS) else ()
    with given(library, name, arguments, fault) as (made, words):
        status = getattr(library, called(name))(
            *words, *limit, out, SIZE(len(out) - 4), ctypes.byref(length), *tail
        )
    return answered_status(made, status), length.value, fault


def called(name: str) -> str:
    """The call of a question that has a number."""
    if name in PORT_ASKED:
        return "simplecss_port"
    if name in SHEET_ASKED:
        return "simplecss_sheet_numbers" if name in IN_NUMBERS else "simplecss_sheet_text"
    return "simplecss_query_numbers" if name in ASKED else name


def answered_status(made: int, status: int) -> int:
    """The status of a call: of a question to no object that of why there is none."""
    if made == DONE:
        return status
    return made if status == NO_OBJECT else status


SHEET = (*buffer_of((b"ul > li { color: red }", b".new { color: blue !important }")), 2)
PAGE = tree_of(
    (0, b"ul"),
    (1, b"li", b"class", b"new"),
    (1, b"li", b"title", b"a\tb\n=\x01\0", b"alt", b"a\tb"),
)
# Elements in the states link, visited, hover and active, one in all states and other numbers, and
# one in none.
STATES = tree_of(
    ((0, 1), b"a"),
    ((0, 2), b"b"),
    ((0, 4), b"c"),
    ((0, 8), b"d"),
    ((0, 31 + 2**40), b"e"),
    (0, b"f"),
)
# A list of four items: one that is empty, one of a class and a type, one with a text, and one with
# an element.
TREE3 = tree_of(
    (0, b"ul"),
    (1, b"li"),
    (1, b"li", b"class", b"new", b"type", b"text"),
    ((1, 32), b"li"),
    (1, b"li", b"class", b"new"),
    (2, b"a"),
)
# Of two elements that are named, `:scope` matches the first.
SCOPED = tree_of((0, b"ul"), ((1, 64), b"li"), (2, b"a"), ((1, 64 + 32), b"li"), (2, b"a"))
# States that the tree names: the 55th is of the last bit but one, the 57th of none.
NAMED = tree_of(
    ((0, 128), b"a"),
    ((1, 256 + 4), b"b"),
    ((1, 2**62), b"c"),
    ((1, 2**63), b"d"),
    (1, b"e", b"dir", b"rtl"),
    states=(b"target", b"dir(rtl)", *(b"x" for _ in range(53)), b"Focus-Within", b"fullscreen"),
)
# Elements in namespaces, of which prefixes are declared, one of them twice, and a default one.
SPACES = (
    ((0, 0, 1), b"a"),
    ((1, 0, 2), b"a", b"class", b"c"),
    ((2, 0, 3), b"b"),
    ((1, 0, 0), b"a"),
    ((1, 0, 1), b"b", b"class", b"c"),
)
SPACED = tree_of(*SPACES, states=(b"own",), prefixes=((b"n", 3), (b"s", 2), (b"n", 1)))
DEFAULT = tree_of(*SPACES, prefixes=((b"", 1), (b"s", 2)))
# Attributes in namespaces: two elements with two of one name, and a third with one of that name in no namespace,
# too. Those of the namespace 0, and of an element that is not there, are ignored.
ATTRIBUTED = tree_of(
    (0, b"a"),
    (1, b"b"),
    (1, b"c", b"k", b"1"),
    (1, b"d"),
    attributes=(
        (1, 1, b"k", b"v w"),
        (0, 2, b"k", b"x"),
        (1, 2, b"k", b"y"),
        (2, 1, b"l", b""),
        (2, 1, b"k", b"2"),
        (3, 0, b"k", b""),
        (4, 1, b"k", b""),
    ),
    states=(b"own",),
    prefixes=((b"n", 1), (b"m", 2), (b"o", 0), (b"p", 3)),
)
MODERN, HTML, QUIRKS, PORT = range(4)
SELECTORS3 = buffer_of(
    (
        b"LI:nth-child(2n + 1)",
        b"li:empty",
        b".NEW",
        b"[TYPE=TEXT]",
        b"ul > li ~ li:not(.new, ul)",
        b"li::before",
        b":is(a, [class^=n]):last-of-type",
    )
)
# Lists of media queries, and what they say on two devices.
SCREEN = Device(
    *(1280, 800, 2000, 0, 2, 1, 1, 0, 1920, 1080, 8, 0, 0),
    *(1, 1, 0, 2, 2, 2, 1, 1, 1, 1, 1, 1),
)
PAPER = Device(
    *(794, 1123, 1000, 1, 0, 0, 0, 1, 0, 0, 0, 0, 1),
    *(2, 0, 1, 0, 0, 0, 0, 3, 0, 0, 0, 0),
)
MEDIA = (
    (b"", b"true", b"true"),
    (b"print", b"false", b"true"),
    (b"(foo)", b"unknown", b"unknown"),
    (b"(width: calc(1e3px + 2 * (1dppx / 1dppx) * 140px))", b"true", b"false"),
)
# Conditions of `@supports`, and the names of properties.
NAMES = buffer_of((b"color", b"display"))
# The names and the values of properties.
_PAIRS = (
    *(b"--a", b"var(--b)", b"--b", b"1", b"x", b"var(--a) var(--b) var(--\\61)"),
    *(b"y", b"var(--q)", b"--b", b"2"),
)
PAIRS = buffer_of(_PAIRS)
# The same of two that are declared, two rules, and two that the parent has.
_REGISTERED = (
    *(b"x", b"var(--a) var(--b)", b"--b", b"var(--q)"),
    *(b"--a", b'syntax:"*";inherits:false;initial-value:1'),
    *(b"--b", b"Syntax: '<n>'; INHERITS: true; initial-value: 2"),
    *(b"--a", b"3", b"--b", b"4"),
)
REGISTERED = buffer_of(_REGISTERED)
SUPPORTS = ((b"(DISPLAY: grid)", b"true"), (b"(width: 1px)", b"false"))
# The calls that edit, those on trees, and those with a limit on the answer.
WITH_EDITS = ("simplecss_html_edit", "simplecss_edit")
WITH_TREE = ("simplecss_match_selectors", "simplecss_refusal")
# What is asked by the grammar of the port, and the number of it.
PORT_ASKED = {
    "simplecss_port_sheet": 0,
    "simplecss_port_rules": 1,
    "simplecss_port_skipped": 2,
    "simplecss_port_match": 3,
    "simplecss_port_styles": 4,
    "simplecss_port_selected": 5,
    "simplecss_port_none": 6,
}
# What a style sheet is asked, in numbers and as a text, and the number of it, which is given to print one.
IN_NUMBERS = ("simplecss_sheet_statements", "simplecss_sheet_contents")
SHEET_ASKED = {
    "simplecss_sheet_statements": 0,
    "simplecss_sheet_contents": 1,
    "simplecss_sheet_printed": 0,
    "simplecss_sheet_imports": 2,
}
# What a query is asked, and the number of it.
ASKED = {
    "simplecss_query_winners": 0,
    "simplecss_query_winners_named": 1,
    "simplecss_query_matches": 2,
    "simplecss_query_explained": 3,
    "simplecss_query_rules": 4,
}
LIMITED = (
    "simplecss_match_selectors",
    *("simplecss_port_match", "simplecss_port_styles", "simplecss_port_selected"),
    *set(ASKED).difference(("simplecss_query_rules",)),
    "simplecss_page_select",
    *IN_NUMBERS,
    "simplecss_query_text",
    "simplecss_values",
)
RED, BLUE = b"5 3 0\ncolorred\n", b"5 4 1\ncolorblue\n"
MODERN_SHEET = b"@media x { a, b:not(c), d::before { e: f; g } } h , { } @i;"
# The numbers of its three statements: a rule in a group rule, with three selectors and two items; a rule
# that is skipped; and an at-rule.
MODERN_NUMBERS = (
    (3, 11, 34, 1, 11, 22, 36, 7, 0, 0, 6, 27, 20),
    (0, 47, 1, 5, 7, 1),
    (11, 1, 1, 0, 0, 1, 12, 12, 0),
    (14, 8, 1, 0, 0, 2, 22, 22, 0),
    (24, 9, 1, 0, 0, 2, 25, 27, 0),
    (0, 36, 4, 1, 36, 1, 39, 1, 0, 0),
    (4, 42, 1, 0, 0, 0, 0, 0, 0, 0),
    (11, 48, 7, 0, 0, 0, 0, 0, 0, 0, 0, 0, 0),
    (2, 56, 3, 1, 57, 1, 58, 0, 0, 0, 0, 0, 0),
)
# Offsets are in bytes, and the end of the text closes the rule.
BYTES_NUMBERS = (
    (3, 0, 8, 0, 0, 2, 3, 5, 0, 0, 0, 9, 10),
    (0, 2, 1, 0, 0, 1, 2, 2, 0),
    (0, 3, 5, 1, 3, 2, 6, 2, 0, 0),
)
# A selector that is valid and unsupported; and pseudo-elements of any element, with one colon, after a
# combinator, and with an argument of an unsupported selector.
UNREAD_NUMBERS = (
    (3, 0, 56, 1, 0, 53, 55, 0, 0, 0, 0, 36, 0),
    (0, 9, 0, 0, 0, 0, 9, 9, 0),
    (11, 7, 1, 0, 0, 1, 11, 12, 1),
    (20, 14, 1, 0, 0, 2, 27, 29, 1),
    (36, 17, 0, 0, 0, 0, 44, 46, 1),
)
DECLARATIONS = b"a: b !important; c; --x:; @a b { c };d:url(x"
DECLARATION_NUMBERS = (
    (0, 0, 15, 1, 0, 1, 3, 1, 1, 0),
    (4, 17, 1, 0, 0, 0, 0, 0, 0, 0),
    (0, 20, 4, 1, 20, 3, 24, 0, 0, 0),
    (1, 26, 10, 1, 27, 1, 29, 1, 33, 1),
    (0, 37, 7, 0, 37, 1, 39, 5, 0, 0),
)
# A text for each reason why an item is skipped, and the number of the reason.
SKIPPED = (
    (b"a", 4),
    (b"a:'\n", 5),
    (b"a:url(x y)", 6),
    (b"a:)", 7),
    (b"a:" + b"(" * 65, 8),
    (b"a{}", 4),
)
SKIPPED_STATEMENTS = ((b"a", 9), (b"a,{}", 11), (b"a'\n{}", 5))

# A value, and its text with what closes it.
CLOSED = (
    (b"", b""),
    (b"red", b"red"),
    (b"a(b)", b"a(b)"),
    (b"url(x", b"url(x)"),
    (b'"x', b'"x"'),
    (b"'x", b"'x'"),
    (b"f(g[{h", b"f(g[{h}])"),
    (b"f('(", b"f('(')"),
    (b"f(/*", b"f(/**/)"),
    (b'"\\', b'"\\\n"'),
    (b"f(\\", b"f(\\\xef\xbf\xbd)"),
    ("f('é".encode(), "f('é')".encode()),
    (b"(" * 63 + b"/*", b"(" * 63 + b"/**/" + b")" * 63),
    (b"(" * 64, b"(" * 64 + b")" * 64),
)
# Values that no more text makes whole.
UNCLOSED = (b" a", b"a ", b"a/*", b"a)", b"f(]", b'"\n', b"(" * 65, b"a;b", b"a}")

# A call, its arguments, and the answer.
# Sheets with imports, and the lines of those that are in force.
IMPORTS = (
    (b'@import "a" layer(b) print;', b"0 27 1 1 2 1 0 0 5\nabprint\n"),
    (
        b"@layer x; @import url( a ) layer supports(b: c) not print; @import 'd\\'';"
        b"e{}@import 'f';",
        b"10 48 0 1 1 0 1 4 9\nab: cnot print\n59 14 1 3 0 0 0 0 0\nd\\'\n",
    ),
    ("/*é*/@import 'é'".encode(), "6 12 1 2 0 0 0 0 0\né\n".encode()),
    (
        b"@import '' supports();@import b;@import'';",
        b"0 22 1 0 0 0 1 0 0\n\n32 10 1 0 0 0 0 0 0\n\n",
    ),
    (b"a{}@import 'b';", b""),
)
# Sheets, and the numbers of what is in style rules and of where blocks begin and end.
CONTENTS = (
    (
        "é{ b:c!important;@\\6d edia /**/ (d) {e:f} ;g}".encode(),
        (
            (3, 0, 3, 0, 0, 2, 3, 0, 0, 0),
            (0, 4, 13, 1, 4, 1, 6, 1, 1, 0),
            (12, 18, 20, 0, 19, 8, 33, 3, 38, 0),
            (0, 38, 3, 1, 38, 1, 40, 1, 0, 0),
            (13, 41, 1, *[0] * 7),
            (4, 44, 1, *[0] * 7),
            (13, 45, 1, *[0] * 7),
        ),
    ),
    (
        b"@import 'a';@layer{b{@c{d{}}&:e{f",
        (
            (12, 12, 7, 0, 13, 5, 18, 0, 19, 0),
            (3, 19, 2, 0, 19, 1, 21, 0, 0, 0),
            (1, 21, 7, 1, 22, 1, 23, 0, 24, 3),
            (3, 28, 4, 0, 28, 3, 32, 0, 0, 0),
            (4, 32, 1, *[0] * 7),
        ),
    ),
    (b"@font-face{a:b}", ()),
)
# Sheets, a layout of each, and the printed texts.
LINTED = (
    (b"a{}", 0, b"empty rule\t0\t3\t\n"),
    (b"a{colr:b}", 0, b"unknown property\t2\t6\tcolor\t2\t6\tcolor\n"),
    (b"a{*zoom:1}", 1, b"unsupported hack\t2\t9\t\n"),
    (b"a{*zoom:1}", 0, b""),
    (b"tpo:0", 2, b"unknown property\t0\t3\ttop\t0\t3\ttop\n"),
    (b"a{top:0 left:0}", 0, b"semicolon missing\t2\t7\t\t7\t7\t;\n"),
    (b"color:red\nwidth:1px 2px\n\ntop:x()", 8, b"valid\ninvalid\nunknown\nunknown\n"),
)
# Texts, whether each is an attribute, and where its declarations are whose values no browser takes.
# A text, what is said of it, and the text without the declarations whose values no browser takes.
TAKEN = (
    (b"a{top:x;top:1px;TOP : y}", 0, b"a{     ;top:1px;       }"),
    (b"a{b{top:x}@media c{top:'d'}&{}float:e}", 0, b"a{b{     }@media c{       }&{}       }"),
    (
        b"@media a{b{top:c!important}}@font-face{top:x}",
        4,
        b"@media a{b{               }}@font-face{top:x}",
    ),
    (b"a{top:calc(b);--top:x;unknown:y}", 0, b"a{top:calc(b);--top:x;unknown:y}"),
    (b"a{top:x}", 1, b"a{top:x}"),
    (b"top:x;left:1px;left:y", 1, b"     ;left:1px;      "),
    (b"top:3;gap:3;top:0;color:abc;color:x", 1, b"     ;     ;top:0;         ;       "),
    (b"top:3;gap:3;top:0;color:abc;color:x", 3, b"top:3;     ;top:0;color:abc;       "),
    ("a{color:é;é:x;top:é}".encode(), 2, "a{        ;é:x;      }".encode()),
    (b"", 3, b""),
)
PRINTED = (
    (b"/**/ @media ( a : b ) { a > b , c { d : e ; } }", 0, b"@media(a :b){a>b,c{d:e}}"),
    (b"a{b:c!important;--d:  e  f", 1, b"a {\n  b: c !important;\n  --d: e  f;\n}\n"),
    # What does not read back.
    (b"a { b : c\\", 0, b"a { b : c\\"),
    (b" ", 1, b""),
)
# The policy of tests/release/compare.c.
COMPARED = policy_of(
    b".x",
    (b"color", b"x"),
    (b"rgb",),
    (b"color",),
    (b"hover",),
    (b"print",),
    urls=((b"a", b"b"),),
    longest=NO_LIMIT,
)
# A policy, what is asked of a text, and the answer.
POLICY = policy_of(b".m", (b"color", b"font"), (b"rgb",), (b"font",), (b"hover",), (b"print",))
ITSELF = policy_of(b".m", (b"color",), (), (), (), (), itself=1)
CHANGED = policy_of(
    b".m",
    (b"color", b"font"),
    (b"rgb", b"url", b"image-set"),
    (b"font",),
    (),
    (),
    prefix=b"q-",
    urls=((b"a", b"b"), (b"x", b"c\n")),
    named=(b"color",),
    words=(b"none",),
)
BOUNDED = policy_of(
    b".m",
    (b"margin", b"position", b"x", b"color"),
    (b"rgb", b"calc"),
    (),
    (),
    (),
    limits=((b"margin", b"-50 96.5px Auto"), (b"position", b"static,relative"), (b"x", b"1,2")),
)
NO_IMPORTANT = policy_of(b".m", (b"color",), (), (), (), (), important=0, longest=30)
CLEANED = (
    (POLICY, 0, b"p,a:hover{COLOR:rgb(0 0 0)}", b".m p, .m a:hover {COLOR: rgb(0 0 0);}\n"),
    (POLICY, 0, b"@media print{p{color:a;x:y}}", b"@media print {\n.m p {color: a;}\n}\n"),
    (POLICY, 0, b"p,~a{color:a}@import 'a';a:active{color:a}", b""),
    (POLICY, 0, b"BODY>p,:root html a{color:a}", b".m > p, .m a {color: a;}\n"),
    (
        POLICY,
        0,
        b"body{color:a}body>{color:a}body+p{color:a}body.a p{color:a}",
        b".m body.a p {color: a;}\n",
    ),
    (ITSELF, 0, b"body,:host{color:a}body>{color:a}", b".m, .m {color: a;}\n"),
    (ITSELF, 2, b".m,.m > p{color:a}", b"true"),
    (POLICY, 2, b".m{color:a}", b"false"),
    (POLICY, 2, b".m > p{color:a}", b"true"),
    (POLICY, 2, b".m ~ p{color:a}", b"false"),
    (POLICY, 2, b".m  > p{color:a}", b"false"),
    (POLICY, 2, b".m > > p{color:a}", b"false"),
    (
        POLICY,
        1,
        b"color:a;color:url(b);font:'c'!important;--a:b",
        b"color: a; font: 'c'!important;",
    ),
    (NO_IMPORTANT, 1, b"color:a;color:b!important", b"color: a;"),
    (NO_IMPORTANT, 1, b"color:" + b"a" * 25, b""),
    (POLICY, 2, b".m p{color:a}", b"true"),
    (POLICY, 6, b"a{b:url(c\\29 )}@import 'x';d:src('e') f('g');h:'i'", b"c)\0e\0g\0"),
    (CHANGED, 1, b"font:url( a )", b'font: url("b");'),
    (CHANGED, 1, b"font:url('a') URL(\"\\61\") image-set(' a')", b""),
    (CHANGED, 1, b"font:url('a') URL(\"\\61\")", b'font: url("b") URL("b");'),
    (
        CHANGED,
        1,
        b"font:url(b);font:url(c);font:url('c');font:url(a) rgb(0 0 0)",
        b'font: url("b") rgb(0 0 0);',
    ),
    (
        CHANGED,
        0,
        b"p{--x:url(a)!important;font:--x a}",
        b'.m p {--q-x: url("b")!important; font: --q-x a;}\n',
    ),
    (CHANGED, 1, b"Color:a NONE b;color:'a';color:--a", b"Color: q-a NONE q-b; color: --q-a;"),
    (CHANGED, 3, b'font:url("b");color:q-a none;--q-b:c', b"true"),
    (CHANGED, 3, b'font:url("a")', b"false"),
    (CHANGED, 3, b"font:url(b)", b"false"),
    (CHANGED, 3, b"color:a", b"false"),
    (CHANGED, 3, b"--b:c", b"false"),
    (CHANGED, 3, b"font:--b", b"false"),
    (POLICY, 2, b"p{color:a}", b"false"),
    (
        BOUNDED,
        1,
        b"margin:1in -50% 96.5/.5em;Margin:AUTO,0",
        b"margin: 1in -50% 96.5/.5em; Margin: AUTO,0;",
    ),
    (BOUNDED, 1, b"margin:1.006in;margin:-50.1px;margin:96.51;margin:2.6cm", b""),
    (BOUNDED, 1, b"margin:73pt;margin:25.6mm;margin:.0000000000000001px", b""),
    (
        BOUNDED,
        1,
        b"margin:72.3pt 6pc 2.55cm 25.5mm 102Q",
        b"margin: 72.3pt 6pc 2.55cm 25.5mm 102Q;",
    ),
    (
        BOUNDED,
        1,
        b"margin:1e1px;margin:calc(0px);margin:none;margin:#fff;margin:1px+2px",
        b"margin: 1px+2px;",
    ),
    (
        BOUNDED,
        1,
        b"position:fixed;position:relative;position:1;x:-0;x:1;x:2.0;x:2.1;x:.9",
        b"position: relative; x: 1; x: 2.0;",
    ),
    (BOUNDED, 1, b"color:rgb(300 0 0)", b"color: rgb(300 0 0);"),
    (BOUNDED, 3, b"margin:1in", b"true"),
    (BOUNDED, 3, b"margin:2in", b"false"),
    (POLICY, 2, b".m p{color:a", b"false"),
    (POLICY, 3, b"color:a; font : 'b'", b"true"),
    (POLICY, 3, b"color:'a'", b"false"),
    (POLICY, 3, b"color:a/**/", b"false"),
    (POLICY, 3, b"color:a;<", b"false"),
)
# The same of what is dropped: where it begins and ends, and the number of the reason.
DROPPED = (
    (
        POLICY,
        1,
        b"x:y;color:f();color:url(a);color:'a'",
        ((0, 3, 0), (4, 13, 1), (14, 26, 2), (27, 36, 3)),
    ),
    (
        POLICY,
        1,
        b"color:a/**/b;color:<;@a;b;color:(",
        ((0, 12, 4), (13, 20, 5), (21, 24, 9), (24, 25, 10), (26, 33, 7)),
    ),
    (
        CHANGED,
        1,
        b"font:url(b);font:url('c');--a:'b';font:url(x)",
        ((0, 11, 2), (12, 25, 3), (26, 33, 3), (34, 45, 3)),
    ),
    (
        BOUNDED,
        1,
        b"margin:2in;margin:calc(1px);margin:2in url(a)",
        ((0, 10, 14), (11, 27, 14), (28, 45, 2)),
    ),
    (NO_IMPORTANT, 1, b"color:b!important", ((0, 17, 6),)),
    (NO_IMPORTANT, 0, b"a" * 31, ((0, 31, 12),)),
    (POLICY, 0, b"&{color:a}p{x:y}", ((0, 10, 8), (12, 15, 0), (10, 16, 11))),
)
# Pages and labels that come with them, and the encodings that they are in.
ENCODED = (
    (b"\xef\xbb\xbf<meta charset=koi8-r>", b"latin1", b"mark\tUTF-8"),
    (b"\xff\xfe<\0", b"", b"mark\tUTF-16LE"),
    (b"<meta charset=koi8-r>", b" Latin1\n", b"label\twindows-1252"),
    (b"<meta charset=' KOI '>\xff", b"koi 8", b"meta\tKOI8-R"),
    (b"<meta charset=utf-16>", b"\xff", b"meta\tUTF-8"),
    (b"<?xml encoding='sjis'?><!--><p>", b"", b"declaration\tShift_JIS"),
    (b"\0<\0?\0x", b"", b"declaration\tUTF-16BE"),
    (b"<!-- <meta charset=koi8-r>", b"", b"default\twindows-1252"),
    (b"", b"", b"default\twindows-1252"),
    # A `meta` of the head after the first 1,024 bytes, which a browser reads the page again for; elsewhere none counts.
    (b"<!--%b--><meta charset=koi8-r>" % (b" " * 1024), b"", b"meta\tKOI8-R"),
    (b"<!--%b--><title>a<meta charset=koi8-r>" % (b" " * 1024), b"", b"default\twindows-1252"),
    (b"<!--%b--><p><meta charset=koi8-r>" % (b" " * 1024), b"", b"default\twindows-1252"),
    (b"<!--%b--><meta charset=x><meta charset=UTF-16>" % (b" " * 1024), b"", b"meta\tUTF-8"),
    (b"<!--%b--><meta charset=koi8-r>" % (b" " * 1024), b"latin1", b"label\twindows-1252"),
)


# The numbers of an edit of a page, and its strings.
Edit = Tuple[int, int, int, bytes, bytes]


IS_XML = 4


def edit_of(page: bytes, *edits: Edit, flags: int = 0) -> Tuple[bytes, int, Sizes, bytes, Sizes]:
    """The arguments of the call that edits a page."""
    numbers = [number for edit in edits for number in edit[:3]]
    return page, flags, sizes(numbers), *buffer_of([text for edit in edits for text in edit[3:]])


def inline_of(page: bytes, *sheets: bytes) -> Tuple[bytes, bytes, Sizes, int, int]:
    """The arguments of the call that writes sheets into the attributes of a page."""
    return page, *buffer_of(list(sheets)), 0, 10000


SheetEdit = Tuple[int, int, int, bytes]


def sheet_edit_of(text: bytes, *edits: SheetEdit) -> Tuple[bytes, Sizes, bytes, Sizes]:
    """The arguments of the call that edits a sheet."""
    numbers = [number for edit in edits for number in edit[:3]]
    return text, sizes(numbers), *buffer_of([edit[3] for edit in edits])


# Pages with edits: attributes that are set, put before their own, and removed; texts of `style` elements, and
# these elements put in, taken out, and in place of a link.
EDITED = (
    (b"<p class=a>b", ((1, 0, 0, b"style", b'"<&'),), b'<p class=a style="&quot;&lt;&amp;">b'),
    (b"<p STYLE='a'/>b", ((2, 0, 0, b"style", b"b; '"),), b"<p style='b; &#39;a'/>b"),
    (b"<b c=d e>f", ((3, 0, 0, b"c", b""), (1, 0, 0, b"e", b"g")), b'<b e="g">f'),
    (b"<style>a</style>", ((4, 0, 8, b"", b"c<b"),), b"<style>c<b</style>"),
    (b"\xef\xbb\xbf<p>a", ((5, 3, 0, b"", b"c"),), b"\xef\xbb\xbf<style>c</style><p>a"),
    (b"<style>a</style><p>", ((6, 0, 16, b"", b""),), b"<p>"),
    (b"<link><p>", ((7, 0, 6, b"", b"c"),), b"<style>c</style><p>"),
)
# Documents in XML with edits: names have case and prefixes, a tab and a newline are no spaces, and texts are escaped.
EDITED_XML = (
    (b"<a B='1'/>", ((1, 0, 0, b"b", b'\t\n\r"<'),), b"<a B='1' b=\"&#9;&#10;&#13;&quot;&lt;\"/>"),
    (b"<a style='b'></a>", ((2, 0, 0, b"style", b"c;"),), b"<a style='c;b'></a>"),
    (b"<a b='&lt;' c='d'/>", ((3, 0, 0, b"b", b""),), b"<a c='d'/>"),
    (
        b"<s:style xmlns:s='t'>a</s:style>",
        ((4, 0, 22, b"", b"b&<]]>c"),),
        b"<s:style xmlns:s='t'>b&amp;&lt;]]&gt;c</s:style>",
    ),
    (
        b"<a><style><![CDATA[b]]><!-- c --></style></a>",
        ((4, 1, 33, b"", b"d\r\n"),),
        b"<a><style>d\r\n</style></a>",
    ),
    (
        b"\xef\xbb\xbf<s:a xmlns:s='t'>b</s:a>",
        ((5, 20, 0, b"s", b"c"),),
        b"\xef\xbb\xbf<s:a xmlns:s='t'><s:style>c</s:style>b</s:a>",
    ),
    (b"<a><style/><b/></a>", ((6, 1, 11, b"", b""),), b"<a><b/></a>"),
    (b"<a><h:link xmlns:h='t'> </h:link></a>", ((6, 1, 33, b"", b""),), b"<a></a>"),
    (
        b"<s:a xmlns:s='t'><s:link/></s:a>",
        ((7, 1, 26, b"", b"b"),),
        b"<s:a xmlns:s='t'><s:style>b</s:style></s:a>",
    ),
    (b"<?xml-stylesheet href='a'?><b/>", ((8, 0, 27, b"", b""),), b"<b/>"),
)
# Sheets with edits: of selectors, a value, a block, statements and what is in a rule.
EDITED_SHEETS = (
    (b"a{b:c}/* x */", ((1, 0, 1, b"d, e"), (2, 4, 5, b"f")), b"d, e{b:f}/* x */"),
    (
        b"@media x{a{}}@font-face{b:c}",
        ((1, 7, 8, b"y"), (3, 24, 27, b"d:e")),
        b"@media y{a{}}@font-face{d:e}",
    ),
    (b"a{} b{}", ((4, 0, 3, b""), (4, 7, 7, b" c{d:e}")), b" b{} c{d:e}"),
    (b"a{b:c;d:e}", ((5, 2, 6, b""), (5, 9, 9, b";f{g:h}")), b"a{d:e;f{g:h}}"),
)
ANSWERS: Sequence[Tuple[str, Tuple[Any, ...], bytes]] = (
    *(("simplecss_edit", sheet_edit_of(text, *edits), new) for text, edits, new in EDITED_SHEETS),
    *(("simplecss_html_edit", edit_of(page, *edits), text) for page, edits, text in EDITED),
    (
        "simplecss_inline",
        inline_of(b"<p class=a>b", b".a{left:0}"),
        b'<p class=a style="left: 0">b',
    ),
    (
        "simplecss_inline",
        inline_of(b"\xef\xbb\xbf<p>b", b"p{left:0}"),
        b'\xef\xbb\xbf<p style="left: 0">b',
    ),
    *(
        ("simplecss_html_edit", edit_of(page, *edits, flags=IS_XML), text)
        for page, edits, text in EDITED_XML
    ),
    *(("simplecss_html_encoding", (page, label), line) for page, label, line in ENCODED),
    *(("simplecss_clean", (text, policy, asked), kept) for policy, asked, text, kept in CLEANED),
    ("simplecss_version", (), version().encode()),
    (
        "simplecss_list_text",
        (b"a, #b", PORT),
        b"a*[id='b']",
    ),
    ("simplecss_refusal", (b"a, b", PORT, PAGE), b""),
    (
        "simplecss_refusal",
        (b"a,\n b:none", PORT, PAGE),
        b"2 3 unknown pseudo-class ':none'",
    ),
    # What follows an unknown pseudo-class is not read.
    ("simplecss_refusal", (b"a:foo <", PORT, PAGE), b"1 2 unknown pseudo-class ':foo'"),
    ("simplecss_refusal", (b"a:foo >", PORT, PAGE), b"1 2 unknown pseudo-class ':foo'"),
    # A position in an item counts from the start of the list.
    ("simplecss_refusal", (b"a,\nb, c[d=]", PORT, PAGE), b"2 8 invalid ident"),
    ("simplecss_refusal", (b"a, b >", PORT, PAGE), b"1 7 selector missing"),
    ("simplecss_refusal", (b"a, b/c", PORT, PAGE), b"1 5 unexpected text after a selector"),
    (
        "simplecss_port_sheet",
        SHEET,
        b"ul > li { color:red; }\n*[class~='new'] { color:blue !important; }\n",
    ),
    ("simplecss_port_sheet", (b"", sizes([]), 0), b""),
    (
        "simplecss_port_rules",
        SHEET,
        b"0 0 2 7 1\nul > li\n" + RED + b"0 1 0 15 1\n*[class~='new']\n" + BLUE,
    ),
    (
        "simplecss_port_rules",
        (*buffer_of((b"a{b:c\nd}e{}f{}",)), NO_LIMIT),
        b"0 0 1 1 1\na\n1 3 0\nbc\nd\n",
    ),
    (
        "simplecss_port_skipped",
        (b"a { b: c }\n @media print { }",),
        b"2 2 12 at-rule not supported\n@media print\n",
    ),
    *(("simplecss_sheet_imports", (text,), answer) for text, answer in IMPORTS),
    *(("simplecss_sheet_printed", (text, layout), printed) for text, layout, printed in PRINTED),
    *(("simplecss_lint", (text, asked), lines) for text, asked, lines in LINTED),
    *(("simplecss_taken", (text, asked), taken) for text, asked, taken in TAKEN),
    *(("simplecss_close", (value,), closed) for value, closed in CLOSED),
    ("simplecss_spell", (b"-1\0 a", 2), b"-\\31 \xef\xbf\xbd\\ a"),
    ("simplecss_spell", (b"", 2), b""),
    ("simplecss_spell", (b'a"\n\\\0', 3), b'"a\\"\\a \\\\\xef\xbf\xbd"'),
    ("simplecss_spell", (b"\\61\\\n", 0), b"a\\\n"),
    ("simplecss_spell", (b"\\61\\\n", 1), b"a"),
    (
        "simplecss_match_selectors",
        (*buffer_of((b"li", b".new", b"ul")), PORT, PAGE),
        b"1: 3\n2: 1 2\n3: 1\n",
    ),
    (
        "simplecss_query_text",
        (
            sheets_of(buffer_of((b'a{>b,c "d"{e:f}> b::before , &.c{g:h}}',)), buffer_of(())),
            *(MODERN, NO_LIMIT, PAGE),
        ),
        b"> b::before&.c",
    ),
    ("simplecss_port_match", (*SHEET, PAGE), b"1:\n2: 1 2\n3: 1\n"),
    ("simplecss_port_selected", (b"li", PAGE), b"2\n3\n"),
    ("simplecss_port_selected", (b"[alt='a\tb'], .new", PAGE), b"2\n3\n"),
    ("simplecss_port_selected", (b":link", STATES), b"1\n5\n"),
    ("simplecss_port_selected", (b":visited", STATES), b"2\n5\n"),
    ("simplecss_port_selected", (b":hover", STATES), b"3\n5\n"),
    ("simplecss_port_selected", (b":active", STATES), b"4\n5\n"),
    ("simplecss_port_selected", (b":focus", STATES), b"5\n"),
    (
        "simplecss_list_text",
        (b" a > b, c:/**/BEFORE,d:not(.e, #f) ", MODERN),
        b"a > bc::BEFOREd:not(.e, #f)",
    ),
    ("simplecss_list_text", ("é/*,*/,[b=',']".encode(), HTML), 'é[b=","]'.encode()),
    ("simplecss_refusal", (b"a, b:nth-child(2n+1) ~ c", MODERN, PAGE), b""),
    (
        "simplecss_refusal",
        (b"a,\n b:nth-child(2x", MODERN, PAGE),
        b"2 14 `2x` is no An+B",
    ),
    (
        "simplecss_refusal",
        (b"a,", MODERN, PAGE),
        b"1 3 a blank or the end of the text begins no selector",
    ),
    (
        "simplecss_match_selectors",
        (*SELECTORS3, MODERN, TREE3),
        b"1:\n2: 2\n3: 2\n4: 5\n5: 7\n6: 7\n",
    ),
    (
        "simplecss_match_selectors",
        (*SELECTORS3, HTML, TREE3),
        b"1:\n2: 1 2\n3: 2 4\n4: 1 5\n5: 7\n6: 7\n",
    ),
    (
        "simplecss_match_selectors",
        (*SELECTORS3, QUIRKS, TREE3),
        b"1:\n2: 1 2\n3: 2 3 4\n4: 1 5\n5: 3 7\n6: 7\n",
    ),
    ("simplecss_port_selected", (b":hover", NAMED), b"2\n"),
    ("simplecss_port_selected", (b"a", SPACED), b"1\n2\n4\n"),
    ("simplecss_port_selected", (b"[k]", ATTRIBUTED), b"3\n"),
    ("simplecss_refusal", (b"s|a, n|*", MODERN, SPACED), b""),
    ("simplecss_refusal", (b"s|a,\n m|b", MODERN, SPACED), b"2 2 `m` is no declared prefix"),
    ("simplecss_refusal", (b"[s|a], [m|b]", MODERN, SPACED), b"1 9 `m` is no declared prefix"),
    ("simplecss_refusal", (b"a", PORT, (Elements([0, 0, 0]), b"\xff", sizes([1]))), b""),
    *(
        ("simplecss_media", (text, device), answer)
        for text, *answers in MEDIA
        for device, answer in zip((SCREEN, PAPER), answers)
    ),
    *(("simplecss_supports", (text, *NAMES), answer) for text, answer in SUPPORTS),
    ("simplecss_values", (*PAIRS, 4, 0, NO_LIMIT), b"1\n11\n15\n1 1 1\n"),
    ("simplecss_values", (*PAIRS, 9, 0, NO_LIMIT), b"1\n11\n15\n1 1 1\n1\n2"),
    ("simplecss_values", (*PAIRS, 9, 9, 4), b"1\n11\n1\n\n1\n2"),
    ("simplecss_values", (b"", sizes([]), 1, 1, 1), b""),
    ("simplecss_values", (*REGISTERED, 2, 2, NO_LIMIT), b"3\n1 41\n4"),
    ("simplecss_values", (*REGISTERED, 2, 9, NO_LIMIT), b"3\n1 21\n2"),
    ("simplecss_values", (*REGISTERED, 2, 1, NO_LIMIT), b"\n\n"),
    ("simplecss_valid_value", (b"var(--a, var(--b))",), b"true"),
    ("simplecss_valid_value", (b"var(--a, var(b))",), b"false"),
    ("simplecss_property", (b"margin", 0), b"margin-top margin-right margin-bottom margin-left"),
    ("simplecss_property", (b"margin-top", 1), b"all\nmargin\n"),
    ("simplecss_property", (b"margin", 1), b""),
    ("simplecss_property", (b"margin-top", 2), b"margin-block-start"),
    ("simplecss_property", (b"margin-block-start", 2), b"margin-top"),
    ("simplecss_property", (b"color", 3), b"true"),
    ("simplecss_property", (b"--color", 3), b"true"),
    ("simplecss_property", (b"margin", 3), b"false"),
    ("simplecss_port_styles", (*SHEET, PAGE), b"0\n1\n" + BLUE + b"1\n" + RED),
)

BROKEN = b"\xff"
BAD_PAGES: Sequence[Tuple[Tree, int, int]] = (
    (tree_of((1, b"a")), 1, 1),
    (tree_of((0, b"a"), (2, b"b")), 1, 2),
    (tree_of((0, b"a"), (0, b"")), 2, 2),
    ((Elements([0, 0, 0]), b"", sizes([])), 3, 1),
    ((Elements([0, 1, 0]), b"ak", sizes([1, 2])), 3, 1),
    ((Elements([0, 2**63, 0]), b"a", sizes([1])), 3, 1),
    ((Elements([0, 0, 0]), b"a", sizes([2])), 3, 1),
    ((Elements([0, 1, 0]), b"akv", sizes([2, 1, 3])), 3, 1),
    ((Elements([0, 0, 0]), "é".encode(), sizes([1])), 3, 1),
    ((Elements([0, 0, 0]), b"ab", sizes([1])), 3, 2),
    ((Elements([0, 0, 0]), b"ab", sizes([1, 2])), 3, 2),
    ((Elements([]), b"", sizes([0])), 3, 1),
    # More names of states than strings, one too few, and one in bytes that no character has.
    ((Elements([0, 0, 0], 2), b"a", sizes([1])), 3, 1),
    ((Elements([0, 0, 0], 1), b"abc", sizes([1, 2, 3])), 3, 2),
    ((Elements([0, 0, 0], 1), "aé".encode(), sizes([1, 2])), 3, 1),
    # An attribute in a namespace with one string, and one with three.
    ((Elements([0, 0, 0], attributes=[0, 1]), b"ak", sizes([1, 2])), 3, 1),
    ((Elements([0, 0, 0], attributes=[0, 1]), b"akvw", sizes([1, 2, 3, 4])), 3, 2),
    (tree_of((0, b"a"), (1, b"b", b"k", b"1", b"k", b"2")), 4, 2),
    (tree_of((0, b"a", *[b"k%d" % (n // 2 % 40) for n in range(82)])), 4, 1),
)

# A call, its arguments, and the status that is no answer.
FAILURES: List[Tuple[str, Tuple[Any, ...], int]] = []
_GRAMMARS = (MODERN, HTML, QUIRKS, PORT)
for _text, _status in ((b"", REFUSED), (b"a:none(b)", REFUSED), (BROKEN, NOT_UTF8)):
    FAILURES += [
        (f"simplecss_{name}", (_text, each), _status)
        for name, each in itertools.product(("list_numbers", "list_text"), _GRAMMARS)
    ]
FAILURES += [("simplecss_refusal", (BROKEN, each, PAGE), NOT_UTF8) for each in _GRAMMARS]
FAILURES += [
    (f"simplecss_{name}", (BROKEN,), NOT_UTF8)
    for name in (
        *("port_skipped", "sheet_statements", "declarations", "sheet_imports", "close", "tokens"),
        *("sheet_contents", "valid_value"),
    )
]
FAILURES += [
    (f"simplecss_{name}", (BROKEN, each), REFUSED if each == 4 else NOT_UTF8)
    for name, each in itertools.product(("spell", "property"), range(5))
]
# What is no grammar is refused before anything else.
FAILURES += [(f"simplecss_{name}", (BROKEN, 4), REFUSED) for name in ("list_numbers", "list_text")]
FAILURES += [("simplecss_refusal", (BROKEN, 4, PAGE), REFUSED)]
FAILURES += [
    ("simplecss_sheet_printed", (b"a{}", 3), REFUSED),
    ("simplecss_sheet_printed", (BROKEN, 0), NOT_UTF8),
    ("simplecss_sheet_statements", (b"a{}", 2), REFUSED),
]
FAILURES += [("simplecss_close", (value,), REFUSED) for value in UNCLOSED]
FAILURES += [
    ("simplecss_page_select", (SPACED, MODERN, text, 0, 0, NO_LIMIT), REFUSED)
    for text in (b"m|a", b"[m|a]", b"N|a")
]
FAILURES += [
    ("simplecss_media", (BROKEN, SCREEN), NOT_UTF8),
    *(
        (
            "simplecss_media",
            (b"all", Device(*(most + 1 if each == at else 0 for each in range(25)))),
            REFUSED,
        )
        for at, most in ((3, 2), (4, 2), (13, 2), (16, 2), (17, 2), (18, 6), (20, 3))
    ),
    ("simplecss_supports", (BROKEN, *NAMES), NOT_UTF8),
    ("simplecss_supports", (b"(a:b)", b"ab", sizes([1])), REFUSED),
    ("simplecss_supports", (b"(a:b)", BROKEN, sizes([1])), NOT_UTF8),
    ("simplecss_values", (b"--a", sizes([3]), 1, 1, 1), REFUSED),
    ("simplecss_values", (b"--a", sizes([3, 1]), 1, 1, 1), REFUSED),
    ("simplecss_values", (BROKEN, sizes([1]), 1, 1, 1), NOT_UTF8),
    ("simplecss_property", (b"color", 0), REFUSED),
    ("simplecss_property", (b"margin", 2), REFUSED),
]
# Of two faults of texts the first is reported.
for _sheet, _status in (
    ((b"ab", sizes([1]), NO_LIMIT), REFUSED),
    ((b"ab", sizes([2, 1]), NO_LIMIT), REFUSED),
    ((b"ab", sizes([3]), NO_LIMIT), REFUSED),
    ((BROKEN, sizes([1]), NO_LIMIT), NOT_UTF8),
    (("é".encode(), sizes([1, 2]), NO_LIMIT), NOT_UTF8),
    ((BROKEN + b"a", sizes([1, 3]), NO_LIMIT), NOT_UTF8),
    ((b"a" + BROKEN, sizes([1, 0, 2]), NO_LIMIT), REFUSED),
    ((b"a,b{c:d}e{f:g}", sizes([8, 14]), 2), LIMIT),
):
    FAILURES += [
        ("simplecss_port_sheet", _sheet, _status),
        ("simplecss_port_rules", _sheet, _status),
        ("simplecss_port_match", (*_sheet, PAGE), _status),
        ("simplecss_port_styles", (*_sheet, PAGE), _status),
    ]
_BROKEN_PAGE = (Elements([0, 0, 0]), BROKEN, sizes([1]))
for _texts, _status in (
    (buffer_of((b"a", b"b:none(c)")), REFUSED),
    (buffer_of((b"a", b"")), REFUSED),
    ((b"ab", sizes([1])), REFUSED),
    ((b"ab", sizes([2, 1])), REFUSED),
    ((b"ab", sizes([3])), REFUSED),
    (buffer_of((b"a", BROKEN)), NOT_UTF8),
):
    FAILURES += [
        ("simplecss_match_selectors", (*_texts, PORT, PAGE), _status),
        ("simplecss_match_selectors", (*_texts, HTML, PAGE), _status),
    ]
# Ends that are not those of texts, fewer texts than are counted, a scope that is no compound, what is no number
# of a question, and texts that are not UTF-8.
BAD_POLICIES = (
    (policy_of(b"a > b", (b"a",), (), (), (), ()), REFUSED),
    (PolicyArrays(*fields_of((b"ab", sizes([1, 1]))), *[0] * 8, 1, 0, 9), REFUSED),
    (PolicyArrays(*fields_of((b".a", sizes([2, 2]))), 1, *[0] * 7, 1, 0, 9), REFUSED),
    (PolicyArrays(*fields_of((b".ab", sizes([2, 2, 3]))), *[0] * 4, 1, 0, 0, 0, 1, 0, 9), REFUSED),
    (PolicyArrays(*fields_of((b".ab", sizes([2, 2, 3]))), *[0] * 6, NO_LIMIT, 0, 1, 0, 9), REFUSED),
    (PolicyArrays(*fields_of((b".ab", sizes([2, 2, 3]))), *[0] * 7, 1, 1, 0, 9), REFUSED),
    (PolicyArrays(*fields_of((b".a", sizes([2]))), *[0] * 8, 1, 0, 9), REFUSED),
    (PolicyArrays(*fields_of((b"", sizes([]))), *[0] * 8, 1, 0, 9), REFUSED),
    (policy_of(b".a", (BROKEN,), (), (), (), ()), NOT_UTF8),
)
for _policy, _status in BAD_POLICIES:
    FAILURES += [
        ("simplecss_clean", (b"p{}", _policy, 0), _status),
        ("simplecss_clean", (b"p{}", _policy, 2), _status),
        ("simplecss_dropped", (b"p{}", _policy, 0), _status),
    ]
FAILURES += [
    *(("simplecss_clean", (BROKEN, POLICY, asked), NOT_UTF8) for asked in (0, 1, 2, 3, 6)),
    *(("simplecss_dropped", (BROKEN, POLICY, form), NOT_UTF8) for form in range(2)),
    *(("simplecss_taken", (BROKEN, asked), NOT_UTF8) for asked in range(4)),
    ("simplecss_clean", (BROKEN, POLICY, 7), REFUSED),
    ("simplecss_dropped", (BROKEN, POLICY, 2), REFUSED),
]
FAILURES += [
    ("simplecss_names", (b"ab", sizes([1])), REFUSED),
    ("simplecss_names", buffer_of((b"a", BROKEN)), NOT_UTF8),
]

# The lists that `&` stands for count a test for each element, and one for each of their selectors.
_NESTED = sheets_of(
    buffer_of((b"ul{>li{a:b}li&{c:d}li{e:f}}", b"ul{>li{--a:b}.new{A:e}li{g:h}}")), buffer_of(())
)
_MANY_NESTED = sheets_of(buffer_of((b"b{&{c:d}}" * 10_000,)), buffer_of(()))
_RULES = sheets_of(
    buffer_of((b"a,.new{b:c;d:e}@media x{li{f:g!important}}", b"@layer y{li{F:h;--i:'j}}")),
    buffer_of((b"media", b"x")),
)
_NO_GROUPS = buffer_of(())
# A sheet in a layer without a name, one in no group rule, one in that layer again, one in an unnamed layer of it and
# in `@media x`, one in a group rule that does not hold, and one of which the depth is missing.
_AROUND = sheets_of(
    buffer_of((b"*{a:1}", b"*{a:2}", b"}*{}*{a:3", b"*{a:4}", b"*{a:5}", b"*{a:6}")),
    buffer_of((b"layer", b"", b"layer", b"", b"media", b"x")),
    (),
    (0, 0, 0, 1, 2, 9, 2),
    (1, 0, 1, 3, 1),
)
# Sheets that declare namespaces, of which one is not known; the rules of the same where none is; and a page whose
# elements have attributes in namespaces.
_DECLARED = buffer_of(
    (
        b"@namespace url(u);@namespace n'v';@namespace m 'w';"
        b"a{c:1}n|b{c:2}m|*{c:3}[n|k]{c:4}*|*{c:5}q|a{c:6}",
        b"b{c:7}n|b{c:8}",
    )
)
_KNOWN = sheets_of(_DECLARED, _NO_GROUPS, namespaces=buffer_of((b"u", b"v")))
_UNKNOWN = sheets_of(_DECLARED, _NO_GROUPS)
_KNOWN_PAGE = tree_of(
    ((0, 0, 1), b"a"),
    ((1, 0, 2), b"a"),
    ((1, 0, 2), b"b"),
    ((1, 0, 0), b"a"),
    ((1, 0, 1), b"b"),
    attributes=((4, 2, b"k", b""), (2, 2, b"k", b"")),
)
NO_OWN = own_of()
# Of the second element: its attribute, and its presentation declarations.
_OWN = own_of(b"", b"", b"B:x;y:z", b"b:v;f:w;u:v!important")
_ORIGINS = sheets_of(
    buffer_of((b"*{a:b;c:d!important}", b"*{a:e;c:f!important}", b"*{a:g;c:h!important}")),
    _NO_GROUPS,
    (0, 2, 1),
)
# A rule in a layer, and three of rising specificity that are in none.
_EXPLAINED = sheets_of(
    buffer_of((b"@layer x{*{a:1!important;a:2}} z{a:3;A:4} .y{b:5;c:6} #w{a:7}",)), _NO_GROUPS
)
_EXPLAINED_OWN = own_of(b"d:e;a:f", b"b:g")
_EXPLAINED_PAGE = tree_of((0, b"z", b"class", b"y", b"id", b"w"), (0, b"p"))
for _texts, _status in (
    ((b"ab", sizes([1])), REFUSED),
    (buffer_of((b"a", BROKEN)), NOT_UTF8),
    (buffer_of((b"a,b{c:d}e{f:g}",)), LIMIT),
    (buffer_of(tuple(b"@layer l%d{}@layer m%d;" % (n, n) for n in range(513))), TOO_MANY_LAYERS),
):
    _sheets = sheets_of(_texts, _NO_GROUPS)
    FAILURES += [
        ("simplecss_query_rules", (_sheets, HTML, 2, PAGE), _status),
        ("simplecss_query_text", (_sheets, HTML, 2, PAGE), _status),
        ("simplecss_query_winners", (_sheets, HTML, 2, PAGE, NO_OWN), _status),
        ("simplecss_query_winners_named", (_sheets, HTML, 2, PAGE, NO_OWN, asked_of()), _status),
        ("simplecss_query_matches", (_sheets, HTML, 2, PAGE), _status),
        ("simplecss_query_explained", (_sheets, HTML, 2, PAGE, NO_OWN, asked_of()), _status),
    ]
    if _status in (REFUSED, NOT_UTF8):
        _sheets = sheets_of(_NO_GROUPS, _texts)
        FAILURES += [
            ("simplecss_query_winners", (_sheets, HTML, 2, PAGE, NO_OWN), _status),
        ]
        _sheets = sheets_of(_NO_GROUPS, _NO_GROUPS, namespaces=_texts)
        FAILURES += [("simplecss_query_matches", (_sheets, HTML, 2, PAGE), _status)]
        _own, _asked = OwnArrays(*fields_of(_texts)), AskedArrays(*fields_of(_texts))
        FAILURES += [
            ("simplecss_query_winners", (_RULES, HTML, NO_LIMIT, PAGE, _own), _status),
            (
                "simplecss_query_winners_named",
                (_RULES, HTML, NO_LIMIT, PAGE, _own, asked_of()),
                _status,
            ),
            (
                "simplecss_query_winners_named",
                (_RULES, HTML, NO_LIMIT, PAGE, NO_OWN, _asked),
                _status,
            ),
            ("simplecss_query_explained", (_RULES, HTML, NO_LIMIT, PAGE, NO_OWN, _asked), _status),
        ]
FAILURES += [
    ("simplecss_query_winners", (_RULES, PORT, NO_LIMIT, PAGE, NO_OWN), REFUSED),
    ("simplecss_query_winners", (_RULES, 4, NO_LIMIT, _BROKEN_PAGE, NO_OWN), REFUSED),
    ("simplecss_query_winners", (_RULES, MODERN, NO_LIMIT, _BROKEN_PAGE, NO_OWN), NOT_UTF8),
]
# Pages, and which of their elements lists of selectors match, by their numbers.
SELECTED = (
    (TREE3, MODERN, b"LI, a", (6,)),
    (TREE3, HTML, b":scope > li", (2, 3, 4, 5)),
    (TREE3, HTML, b"LI, a", (2, 3, 4, 5, 6)),
    (STATES, MODERN, b":any-link, :HOVER", (1, 2, 3, 5)),
    (NAMED, MODERN, b":Target, :hover", (1, 2)),
    (NAMED, MODERN, b":dir(rtl)", (2,)),
    (NAMED, HTML, b":dir(rtl)", (2, 5)),
    (NAMED, MODERN, b":focus-within", (3,)),
    (NAMED, MODERN, b":fullscreen", ()),
    (SPACED, MODERN, b"n|a, s|*", (1, 2)),
    (SPACED, MODERN, b"|a", (4,)),
    (SPACED, MODERN, b"*|a", (1, 2, 4)),
    (SPACED, MODERN, b":not(n|*)", (2, 3, 4)),
    (SPACED, MODERN, b"a > s|a > b", (3,)),
    (DEFAULT, MODERN, b"b", (5,)),
    (DEFAULT, MODERN, b".c", (5,)),
    (DEFAULT, MODERN, b":is(.c)", (5,)),
    (DEFAULT, MODERN, b"s|*:is(.c)", (2,)),
    (DEFAULT, MODERN, b"s|*:is(*)", ()),
    (DEFAULT, MODERN, b"*|*:not(a)", (2, 3, 4, 5)),
    (SPACED, MODERN, b":own", ()),
    (ATTRIBUTED, MODERN, b"[n|k]", (2, 3)),
    (ATTRIBUTED, MODERN, b"[m|k]", (1, 2)),
    (ATTRIBUTED, MODERN, b"[*|k]", (1, 2, 3)),
    (ATTRIBUTED, MODERN, b"[k]", (3,)),
    (ATTRIBUTED, MODERN, b"[|k]", (3,)),
    (ATTRIBUTED, MODERN, b"[o|k]", (3,)),
    (ATTRIBUTED, MODERN, b"[p|k]", ()),
    (ATTRIBUTED, MODERN, b"[n|k~=w], [*|l]", (2, 3)),
    (ATTRIBUTED, MODERN, b"[n|k='V W' i], [n|k='1']", (2,)),
    (ATTRIBUTED, MODERN, b"[*|k='1']", (3,)),
    (ATTRIBUTED, MODERN, b"[m|K]", ()),
    (ATTRIBUTED, HTML, b"[m|K]", (1, 2)),
    (ATTRIBUTED, MODERN, b":not([*|k])", (4,)),
)
# A call that writes numbers, its arguments, and what they are.
NUMBERS: Sequence[Tuple[str, Tuple[Any, ...], Sequence[Sequence[int]]]] = (
    ("simplecss_tokens", (b"",), ()),
    (
        "simplecss_tokens",
        ("\xe9:1.5e3em 'x' url( y )#1".encode(),),
        (
            (2, 0, 2, 0, 2),
            (16, 2, 3, 2, 3),
            (13, 3, 10, 8, 10),
            (0, 10, 11, 10, 11),
            (7, 11, 14, 12, 13),
            (0, 14, 15, 14, 15),
            (9, 15, 23, 20, 21),
            (5, 23, 25, 24, 25),
        ),
    ),
    ("simplecss_tokens", (b"'a\n",), ((8, 0, 2, 1, 2), (0, 2, 3, 2, 3))),
    (
        "simplecss_query_rules",
        (_RULES, HTML, NO_LIMIT, PAGE),
        (
            (1, 12, 0, 2, 0, 0, 0, 1, 2, 12, 1, 14, 1, 0, 1, 16, 3, 20, 4, 0, 0),
            (0, 7, 1, 1, 0, 0, 0, 1, 2, 7, 1, 9, 1, 0, 1, 11, 1, 13, 1, 0, 1),
            (0, 27, 1, 2, 0, 0, 0, 1, 1, 27, 1, 29, 1, 1, 1),
            (0, 7, 1, 4, 0, 0, 1, 0, 2, 7, 1, 9, 1, 0, 1, 11, 1, 13, 1, 0, 1),
        ),
    ),
    (
        "simplecss_query_rules",
        (
            sheets_of(buffer_of((b"a,#b{> c:/**/before , &.d{e:f}}",)), _NO_GROUPS),
            *(MODERN, NO_LIMIT, PAGE),
        ),
        (
            (0, 26, 0, 14, 6, 1, 0, 2, 1, 26, 1, 28, 1, 0, 1),
            (0, 26, 0, 3, 0, 1, 1, 0, 1, 26, 1, 28, 1, 0, 1),
        ),
    ),
    (
        "simplecss_query_rules",
        (_AROUND, QUIRKS, NO_LIMIT, PAGE),
        (
            (3, 2, 0, 1, 0, 0, 0, 0, 1, 2, 1, 4, 1, 0, 1),
            (0, 2, 1, 1, 0, 0, 0, 0, 1, 2, 1, 4, 1, 0, 1),
            (2, 6, 1, 1, 0, 0, 0, 0, 1, 6, 1, 8, 1, 0, 1),
            (1, 2, 2, 1, 0, 0, 0, 0, 1, 2, 1, 4, 1, 0, 1),
            (5, 2, 2, 1, 0, 0, 0, 0, 1, 2, 1, 4, 1, 0, 1),
        ),
    ),
    (
        "simplecss_list_numbers",
        (b"a, #b, .c > d", PORT),
        (
            (0, 0, 1, 0, 0, 1, 0, 0, 0, 1),
            (0, 0, 1, 1, 0, 0, 0, 0, 0, 9),
            (0, 0, 1, 0, 1, 1, 0, 0, 0, 17),
        ),
    ),
    (
        "simplecss_list_numbers",
        (" é > b, c:/**/BEFORE,d:not(.e, #f) , a ::after".encode(), MODERN),
        (
            (1, 6, 1, 0, 0, 2, 7, 7, 0, 6),
            (9, 12, 1, 0, 0, 2, 10, 15, 0, 9),
            (22, 13, 1, 1, 0, 1, 35, 35, 0, 13),
            (38, 9, 1, 0, 0, 2, 40, 42, 1, 9),
        ),
    ),
    # `:scope` matches the element of a number, or the root, and no element that the tree names.
    *(
        ("simplecss_page_select", (SCOPED, MODERN, b":scope, :scope > *", *asked), (found,))
        for asked, found in (
            ((0, 0, NO_LIMIT), (1, 2, 4)),
            ((0, 1, 3), (2,)),
            ((2, 0, NO_LIMIT), (2, 3)),
            ((4, 2, 4), (4,)),
            ((4, 4, 4), ()),
            ((4, 5, NO_LIMIT), ()),
            ((6, 0, NO_LIMIT), ()),
        )
    ),
    ("simplecss_page_select", (SCOPED, MODERN, b":scope, & > a", 2, 0, NO_LIMIT), ((2, 3),)),
    ("simplecss_page_select", (SPACED, HTML, b"n|b, s|a, :own", 0, 1, 9), ((2, 5),)),
    *(
        ("simplecss_page_select", (page, grammar, text, 0, 0, NO_LIMIT), (found,))
        for page, grammar, text, found in SELECTED
    ),
    ("simplecss_page_select", (TREE3, QUIRKS, b".NEW, LI:empty", 0, 0, 4), ((2, 3),)),
    (
        "simplecss_query_winners",
        (_RULES, HTML, NO_LIMIT, PAGE, NO_OWN),
        ((0,), (4, 0, 1, 3, 0, 3, 1, 2, 0), (2, 0, 1, 2, 0)),
    ),
    (
        "simplecss_query_winners",
        (_RULES, HTML, NO_LIMIT, PAGE, _OWN),
        ((0,), (6, 0, 1, 3, 1, 4, 0, 4, 1, 2, 0, 5, 2), (2, 0, 1, 2, 0)),
    ),
    (
        "simplecss_query_winners_named",
        (_RULES, HTML, NO_LIMIT, PAGE, _OWN, asked_of((b"d", b"y"), (), (b"F", b"b"))),
        ((6, 0, 6, 0, 6, 0), (4, 1, 6, 0, 2, 0), (6, 0, 6, 0, 2, 0)),
    ),
    (
        "simplecss_query_winners",
        (_ORIGINS, MODERN, NO_LIMIT, PAGE, NO_OWN),
        ((2, 2, 0, 0, 1),) * 3,
    ),
    ("simplecss_query_matches", (_RULES, HTML, NO_LIMIT, PAGE), ((0,), (3, 0, 2, 3), (2, 0, 2))),
    # By importance, the attribute, a layer, the specificity, and the order; a hint is before all of the author's.
    (
        "simplecss_query_explained",
        (_EXPLAINED, MODERN, NO_LIMIT, _EXPLAINED_PAGE, _EXPLAINED_OWN, asked_of((b"a",), (b"B",))),
        (
            (8, 0, 0, 0, 4, 1, 1, 3, 0, 2, 2, 0, 4, 1, 1, 4, 1, 0, 5, 0, 1, 3, 5, 0, 1),
            (2, 0, 0, 0, 0, 1, 1),
        ),
    ),
    (
        "simplecss_query_explained",
        (_EXPLAINED, HTML, 8, _EXPLAINED_PAGE, NO_OWN, asked_of((b"b",))),
        ((1, 2, 0, 0), (0,)),
    ),
    (
        "simplecss_query_explained",
        (_EXPLAINED, HTML, 8, _EXPLAINED_PAGE, _EXPLAINED_OWN, asked_of()),
        ((0,), (0,)),
    ),
    (
        "simplecss_query_winners",
        (_NESTED, MODERN, NO_LIMIT, PAGE, NO_OWN),
        ((0,), (4, 2, 0, 3, 0, 4, 0, 5, 0), (4, 0, 0, 2, 0, 3, 0, 4, 0)),
    ),
    (
        "simplecss_query_matches",
        (_NESTED, HTML, NO_LIMIT, PAGE),
        ((0,), (5, 0, 2, 3, 4, 5), (4, 0, 2, 3, 4)),
    ),
    # The rules are `m|*`, `*|*`, `a`, `n|b`, `b` and `[n|k]`; without namespaces `*|*`, `a` and `b`.
    (
        "simplecss_query_matches",
        (_KNOWN, MODERN, NO_LIMIT, _KNOWN_PAGE),
        ((2, 1, 2), (1, 1), (3, 1, 3, 4), (1, 1), (3, 1, 4, 5)),
    ),
    (
        "simplecss_query_matches",
        (_UNKNOWN, MODERN, NO_LIMIT, _KNOWN_PAGE),
        ((2, 0, 1), (2, 0, 1), (2, 0, 2), (2, 0, 1), (2, 0, 2)),
    ),
    (
        "simplecss_query_winners",
        (_KNOWN, MODERN, NO_LIMIT, _KNOWN_PAGE, NO_OWN),
        ((1, 2, 0), (1, 1, 0), (1, 4, 0), (1, 1, 0), (1, 5, 0)),
    ),
    (
        "simplecss_sheet_statements",
        (b"@namespace n 'u';n|a,b{c:d}m|a{}[n|k]{}",),
        (
            (2, 0, 17, 1, 1, 9, 11, 5, 0, 0, 0, 0, 0),
            (3, 17, 10, 1, 17, 5, 23, 3, 0, 0, 0, 18, 10),
            (17, 3, 0, 0, 0, 0, 20, 20, 0),
            (21, 1, 1, 0, 0, 1, 22, 22, 0),
            (0, 23, 3, 1, 23, 1, 25, 1, 0, 0),
            (11, 27, 5, *[0] * 10),
            (3, 32, 7, 1, 32, 5, 38, 0, 0, 0, 0, 9, 0),
            (32, 5, 0, 0, 0, 0, 37, 37, 0),
        ),
    ),
    ("simplecss_sheet_statements", (MODERN_SHEET,), MODERN_NUMBERS),
    ("simplecss_sheet_statements", ("é{é:é".encode(),), BYTES_NUMBERS),
    (
        "simplecss_sheet_statements",
        (b"a:dir(b,), :before, c >/**/::after, :host > ::part(e) {}",),
        UNREAD_NUMBERS,
    ),
    ("simplecss_sheet_statements", (b" /* */ <!-- ",), ()),
    *(("simplecss_sheet_contents", (text,), numbers) for text, numbers in CONTENTS),
    *(("simplecss_dropped", (text, policy, form), rows) for policy, form, text, rows in DROPPED),
    ("simplecss_declarations", (DECLARATIONS,), DECLARATION_NUMBERS),
    *(
        ("simplecss_declarations", (text,), ((kind, 0, len(text), *[0] * 7),))
        for text, kind in SKIPPED
    ),
    *(
        ("simplecss_sheet_statements", (text,), ((kind, 0, len(text), *[0] * 10),))
        for text, kind in SKIPPED_STATEMENTS
    ),
    (
        "simplecss_sheet_statements",
        (b"a{b{}}",),
        (
            (3, 0, 6, 1, 0, 1, 2, 3, 0, 0, 0, 9, 10),
            (0, 1, 1, 0, 0, 1, 1, 1, 0),
            (10, 2, 3, 0, 0, 0, 0, 0, 0, 0),
        ),
    ),
    ("simplecss_names", (b"", sizes([])), ()),
    (
        "simplecss_names",
        buffer_of((b".a#b", b"", b"c|d:not(e::f)[g]")),
        (
            (1, 0, 1, 2, 0, 0),
            (2, 2, 3, 4, 0, 0),
            (8, 4, 4, 5, 0, 0),
            (0, 6, 6, 7, 0, 0),
            (5, 7, 8, 11, 0, 0),
            (0, 12, 12, 13, 1, 1),
            (6, 13, 15, 16, 1, 1),
            (9, 16, 17, 17, 0, 0),
            (3, 18, 18, 19, 0, 0),
        ),
    ),
)
FAILURES += [
    ("simplecss_match_selectors", (*buffer_of((b"a,b",)), MODERN, PAGE), REFUSED),
    ("simplecss_match_selectors", (*buffer_of((b"a",)), 4, PAGE), REFUSED),
    ("simplecss_match_selectors", (*buffer_of((b"a",)), MODERN, _BROKEN_PAGE), NOT_UTF8),
    ("simplecss_refusal", (b"a", MODERN, _BROKEN_PAGE), NOT_UTF8),
    ("simplecss_refusal", (b"a", HTML, _BROKEN_PAGE), NOT_UTF8),
    ("simplecss_page_select", (PAGE, 4, b"a", 0, 0, 1), REFUSED),
    ("simplecss_page_select", (PAGE, PORT, b"a", 0, 0, 1), REFUSED),
    ("simplecss_page_select", (PAGE, MODERN, b"a,", 0, 0, 1), REFUSED),
    ("simplecss_page_select", (PAGE, MODERN, BROKEN, 0, 0, 1), NOT_UTF8),
    ("simplecss_page_select", (_BROKEN_PAGE, HTML, b"a", 0, 0, 1), NOT_UTF8),
    ("simplecss_match_selectors", (*buffer_of((b"a",)), PORT, _BROKEN_PAGE), NOT_UTF8),
    ("simplecss_port_selected", (b"a,", PAGE), REFUSED),
    ("simplecss_port_selected", (BROKEN, PAGE), NOT_UTF8),
    ("simplecss_port_selected", (b"a", _BROKEN_PAGE), NOT_UTF8),
    ("simplecss_port_match", (*SHEET, _BROKEN_PAGE), NOT_UTF8),
    ("simplecss_port_styles", (*SHEET, _BROKEN_PAGE), NOT_UTF8),
    # What is asked by no number is refused before anything else.
    ("simplecss_port_none", (BROKEN, sizes([9]), 0, _BROKEN_PAGE), REFUSED),
]


def numbers_call(
    library: ctypes.CDLL, name: str, arguments: Sequence[Any], room: int, most: int
) -> Tuple[int, int, List[int]]:
    """Calls a function that writes numbers, at most so many. Returns its status, how many numbers the
    answer has, and a buffer with room for so many and four more."""
    out = sizes([MARK] * (room + 4))
    status, length, _ = filled(library, name, arguments, out, most)
    return status, length, list(out)


class Calls(Case):
    """The calls, with their answers and their failures."""

    library: ctypes.CDLL

    @classmethod
    def setUpClass(cls) -> None:
        cls.library = ctypes.CDLL(library_path())

    def test_answers(self) -> None:
        """Each call's answer, in a buffer of each length up to what it needs and one more."""
        for name, arguments, expected in ANSWERS:
            need = len(expected)
            failures = []
            for room in range(need + 2):
                fits = room >= need
                front = expected if fits else b""
                whole = front + bytes([MARK] * (room + 4 - len(front)))
                due = (DONE if fits else TOO_SMALL, whole, need, (88, 99))
                found = call(self.library, name, arguments, room)
                if found != due:
                    failures.append(f"{name} with {arguments} and room {room}: {found}, not {due}")
            self.sweep(need + 2, failures)

    def test_numbers(self) -> None:
        """The same of each call that writes numbers."""
        for name, arguments, rows in NUMBERS:
            expected = [number for row in rows for number in row]
            need = len(expected)
            for room in range(need + 2):
                fits = room >= need
                front = expected if fits else []
                due = (DONE if fits else TOO_SMALL, need, front + [MARK] * (room + 4 - len(front)))
                with self.subTest(call=name, room=room):
                    self.assertEqual(numbers_call(self.library, name, arguments, room, need), due)

    def test_failures(self) -> None:
        """Each status that is no answer: nothing is written, and the length is 0."""
        for name, arguments, status in FAILURES:
            self.fails(name, arguments, status, (88, 99))

    def test_trees(self) -> None:
        """Each fault of a tree, in each call that takes one."""
        for page, fault, element in BAD_PAGES:
            for name, arguments in (
                ("simplecss_port_match", (*SHEET, page)),
                ("simplecss_port_styles", (*SHEET, page)),
                ("simplecss_port_selected", (b"a", page)),
                ("simplecss_match_selectors", (b"a", sizes([1]), PORT, page)),
                ("simplecss_match_selectors", (b"a", sizes([1]), HTML, page)),
                ("simplecss_refusal", (b"a", HTML, page)),
                ("simplecss_page_select", (page, HTML, b"a", 0, 0, 1)),
                ("simplecss_query_winners", (_RULES, HTML, NO_LIMIT, page, NO_OWN)),
            ):
                self.fails(name, arguments, TREE_FAULT, (fault, element))

    def test_edits(self) -> None:
        """Edits out of order, outside of tags and elements, and of texts that would end their element; and
        those that would change the tree, of which the tag is named."""
        name = "simplecss_html_edit"
        refused: List[Tuple[bytes, Sequence[Edit]]] = [
            (b"<p>a", [(1, 1, 0, b"a", b"")]),
            (b"<p><b>a", [(1, 1, 0, b"a", b""), (1, 0, 0, b"a", b"")]),
            (b"<p>a", [(9, 0, 0, b"a", b"")]),
            (b"<?xml-stylesheet href='a'?><p>a", [(8, 0, 27, b"", b"")]),
            (b"<p>a", [(5, 0, 0, b"s", b"a")]),
            (b"<p>a", [(5, 5, 0, b"", b"")]),
            (b"<p>a", [(5, 0, 0, b"", b"a</STYLE>")]),
            (b"<p>a</p>", [(4, 0, 4, b"", b"")]),
            (b"<p>a</p>", [(6, 0, 8, b"", b"")]),
            (b"<style>a</style>b", [(6, 0, 17, b"", b"")]),
            (b"<link>a", [(6, 0, 7, b"", b"")]),
            # What is put in would be in a comment, a value, a text, and the comment that `</<` begins.
            (b"<!-- a -->", [(5, 5, 0, b"", b"b")]),
            (b"<p a='b'>", [(5, 6, 0, b"", b"c")]),
            (b"<title>a</title>", [(5, 8, 0, b"", b"b")]),
            (b"<p>a</", [(5, 6, 0, b"", b"b")]),
        ]
        for page, edits in refused:
            self.fails(name, edit_of(page, *edits), REFUSED, (88, 99))
        for page, edit, tag in (
            (b"<p><b><b><b><b>x</p><p>y", (1, 4, 0, b"a", b""), 2),
            (b"<p>a", (1, 0, 0, b"a", b"\0"), 1),
            (b"<p>a", (1, 0, 0, b"a b", b""), 1),
            (b"<p>a<b>c", (5, 5, 0, b"", b"a"), 2),
        ):
            self.fails(name, edit_of(page, edit), TREE_FAULT, (5, tag))
        self.fails(name, edit_of(BROKEN), NOT_UTF8, (88, 99))
        self.fails(name, edit_of(b"a", (5, 0, 0, b"", BROKEN)), NOT_UTF8, (88, 99))

    def test_edits_of_xml(self) -> None:
        """Those of a text that is no document, or none with the edits; of texts and elements that are not where they say;
        and those by which a tag is not read as they say."""
        name = "simplecss_html_edit"
        refused: List[Tuple[bytes, Edit]] = [
            (b"<p>a", (1, 0, 0, b"a", b"")),
            (b"<p/>", (1, 0, 0, b"a:b", b"")),
            (b"<p xmlns:a='c' xmlns:b='c' a:d=''/>", (1, 0, 0, b"b:d", b"")),
            (b"<p/>", (5, 0, 0, b"", b"")),
            (b"<p></p>", (5, 3, 0, b"s", b"")),
            (b"<p></p>", (5, 3, 0, b"s><t", b"")),
            (b"<p><STYLE></STYLE></p>", (4, 1, 10, b"", b"a")),
            (b"<p><style/></p>", (4, 1, 11, b"", b"a")),
            (b"<p><style>a<b/></style></p>", (6, 1, 23, b"", b"")),
            (b"<p><style>a</style></p>", (4, 1, 10, b"", b"\1")),
            (b"<?xml-style href='a'?><p/>", (8, 0, 22, b"", b"")),
        ]
        for page, edit in refused:
            self.fails(name, edit_of(page, edit, flags=IS_XML), REFUSED, (88, 99))
        for page, edit, tag in (
            (b"<p/>", (1, 0, 0, b"a b", b""), 1),
            (b"<p/>", (1, 0, 0, b"a", b"\1"), 1),
            (b"<p><q/></p>", (1, 1, 0, b"", b""), 2),
        ):
            self.fails(name, edit_of(page, edit, flags=IS_XML), TREE_FAULT, (5, tag))

    def test_sheet_edits(self) -> None:
        """Edits that are none, those out of order or outside of the sheet, and those that would be read as
        something else, of which the number is named."""
        name, text = "simplecss_edit", b"a{b:c}@media x{d{}}"
        self.fails(name, sheet_edit_of(text, (6, 0, 1, b"e")), REFUSED, (88, 99))
        self.fails(name, (text, sizes([1, 0]), b"e", sizes([1])), REFUSED, (88, 99))
        for edits, number in (
            ([(1, 1, 0, b"e")], 1),
            ([(2, 4, 5, b"f"), (1, 0, 1, b"e")], 2),
            ([(4, 19, 20, b"")], 1),
        ):
            self.fails(name, sheet_edit_of(text, *edits), TREE_FAULT, (6, number))
        for edits, number in (
            ([(1, 0, 1, b"e{")], 1),
            ([(2, 4, 5, b"f;g:h")], 1),
            ([(1, 0, 1, b"e"), (2, 4, 5, b"}")], 2),
            ([(4, 0, 6, b"e{f:g")], 1),
            ([(4, 2, 2, b"e:f;")], 1),
            ([(5, 0, 0, b"e{}")], 1),
            ([(4, 0, 2, b"")], 1),
        ):
            self.fails(name, sheet_edit_of(text, *edits), TREE_FAULT, (7, number))
        self.fails(name, sheet_edit_of(BROKEN), NOT_UTF8, (88, 99))

    def fails(
        self, name: str, arguments: Sequence[Any], status: int, fault: Tuple[int, int]
    ) -> None:
        """A call ends with this status, and writes nothing."""
        for room in (0, 64):
            with self.subTest(call=name, arguments=arguments, room=room):
                found = call(self.library, name, arguments, room)
                self.assertEqual(found, (status, bytes([MARK] * (room + 4)), 0, fault))

    def test_threads(self) -> None:
        """Eight threads at once get the answers that one gets."""
        found: List[bool] = []

        def work() -> None:
            for _ in range(10):
                found.append(
                    all(
                        call(self.library, name, arguments, 4096)[1][: len(expected)] == expected
                        for name, arguments, expected in ANSWERS
                    )
                )

        threads = [threading.Thread(target=work) for _ in range(8)]
        for thread in threads:
            thread.start()
        for thread in threads:
            thread.join()
        self.assertEqual(found, [True] * 80)


def memory_of(work: Callable[[], object]) -> int:
    """How many bytes of memory a call of a function adds to the most that the process had."""
    before = resource.getrusage(resource.RUSAGE_SELF).ru_maxrss
    work()
    return 1024 * (resource.getrusage(resource.RUSAGE_SELF).ru_maxrss - before)


class Limits(Case):
    """Limits on the bytes of an answer."""

    def setUp(self) -> None:
        self.library = ctypes.CDLL(library_path())

    def test_lengths(self) -> None:
        """A limit of the answer's length and any greater one change nothing, and any other refuses
        the answer."""
        for name, arguments, expected in ANSWERS:
            if name in LIMITED:
                need, failures = len(expected), []
                rows = [(most, room) for most in range(need + 2) for room in (0, need)]
                for most, room in rows:
                    front = expected if room >= need and most >= need else b""
                    due = LIMIT if most < need else DONE if room >= need else TOO_SMALL
                    whole = front + bytes([MARK] * (room + 4 - len(front)))
                    wanted = (due, whole, need if most >= need else 0, (88, 99))
                    found = call(self.library, name, arguments, room, most)
                    if found != wanted:
                        failures.append(f"{name}, most {most}, room {room}: {found}")
                self.sweep(len(rows), failures)

    def test_counts(self) -> None:
        """The same of how many numbers an answer has."""
        for name, arguments, rows in NUMBERS:
            expected = [number for row in rows for number in row]
            need = len(expected)
            for most in range(need + 2 if name in LIMITED else 0):
                fits = most >= need
                with self.subTest(call=name, most=most):
                    found = numbers_call(self.library, name, arguments, need, most)
                    front = expected if fits else []
                    whole = front + [MARK] * (need + 4 - len(front))
                    due = (DONE if fits else LIMIT, need if fits else 0, whole)
                    self.assertEqual(found, due)

    def test_products(self) -> None:
        """What would be answered with hundreds of megabytes is refused with little memory: rules
        times elements, and group rules times items."""
        count, most = 10_000, 1_000_000
        page = Elements([0, 0, 0] * count), b"a" * count, sizes(list(range(1, count + 1)))
        rules = b"*{a:b}" * count
        sheet = (rules, sizes([len(rules)]), NO_LIMIT)
        stars = (b"*" * count, sizes(list(range(1, count + 1))))
        value = b"*{a:" + b"b" * count + b"}"
        long_sheet = (value, sizes([len(value)]), NO_LIMIT)
        nested = b"@media{" * 63 + b"{}" * 20_000
        calls: Sequence[Tuple[str, Tuple[Any, ...]]] = (
            ("simplecss_port_match", (*sheet, page)),
            ("simplecss_match_selectors", (*stars, PORT, page)),
            ("simplecss_match_selectors", (*stars, HTML, page)),
            ("simplecss_sheet_statements", (nested,)),
            ("simplecss_port_styles", (*long_sheet, page)),
            (
                "simplecss_query_matches",
                (sheets_of((rules, sheet[1]), buffer_of(())), HTML, NO_LIMIT, page),
            ),
            ("simplecss_query_winners", (_MANY_NESTED, HTML, NO_LIMIT, page, NO_OWN)),
        )
        for name, arguments in calls:
            with self.subTest(call=name):
                found: List[Any] = []
                used = memory_of(lambda: found.extend(call(self.library, name, arguments, 0, most)))
                self.assertEqual((found[0], found[2]), (LIMIT, 0))
                self.assertLess(used, 50_000_000)

    def test_nested(self) -> None:
        """So many tests of the lists that `&` stands for are within the limit, and no fewer."""
        for most, status in ((11, LIMIT), (12, TOO_SMALL)):
            with self.subTest(most=most):
                arguments = (_NESTED, MODERN, NO_LIMIT, PAGE)
                found = call(self.library, "simplecss_query_matches", arguments, 0, most)
                self.assertEqual(found[0], status)


MANY = 300_000
# A page of many elements without attributes, and one of a single element.
_MANY_ELEMENTS = Elements([0, 0, 0] * MANY), b"p" * MANY, sizes(list(range(1, MANY + 1)))
_ONE_ELEMENT = tree_of((0, b"p"))


def many_texts(text: bytes, number: int = MANY) -> Buffer:
    """A text so many times, and where each ends."""
    return text * number, sizes(list(range(len(text), (number + 1) * len(text), len(text))))


def digits(number: int) -> int:
    """How many digits the numbers from 1 to this one have together."""
    return sum(len(str(n)) for n in range(1, number + 1))


def large_sheets() -> Iterator[Tuple[str, Tuple[Any, ...], int]]:
    """Questions on sheets with many rules, many sheets, a rule with many declarations, and a page with many
    elements."""
    none, asked = buffer_of(()), asked_of((b"a",))
    for texts in (many_texts(b"p{a:b}" * MANY, 1), many_texts(b"p{a:b}")):
        sheets = (sheets_of(texts, none), HTML, NO_LIMIT)
        yield "simplecss_query_rules", (*sheets, _ONE_ELEMENT), (9 + 6) * MANY
        yield "simplecss_query_text", (*sheets, _ONE_ELEMENT), MANY
        yield "simplecss_query_winners", (*sheets, _ONE_ELEMENT, NO_OWN), 3
        yield "simplecss_query_winners_named", (*sheets, _ONE_ELEMENT, NO_OWN, asked), 2
        yield "simplecss_query_matches", (*sheets, _ONE_ELEMENT), 1 + MANY
        yield "simplecss_query_explained", (*sheets, _ONE_ELEMENT, NO_OWN, asked), 1 + 3 * MANY
    sheets = (sheets_of(many_texts(b"p{" + b"a:b;" * MANY + b"}", 1), none), HTML, NO_LIMIT)
    yield "simplecss_query_rules", (*sheets, _ONE_ELEMENT), 9 + 6 * MANY
    yield "simplecss_query_winners", (*sheets, _ONE_ELEMENT, NO_OWN), 3
    sheets = (sheets_of(many_texts(b"p{a:b}", 1), none), HTML, NO_LIMIT)
    yield "simplecss_query_winners", (*sheets, _MANY_ELEMENTS, NO_OWN), 3 * MANY
    yield "simplecss_query_winners_named", (*sheets, _MANY_ELEMENTS, NO_OWN, asked), 2 * MANY
    yield "simplecss_query_matches", (*sheets, _MANY_ELEMENTS), 2 * MANY


def large_questions() -> Iterator[Tuple[str, Tuple[Any, ...], int]]:
    """Calls of large inputs, and how long the answer of each is, in bytes or in numbers: at least one for
    each call that may be out of memory, and for each kind of thing of which its input may have many.
    """
    listed = b"p," * (MANY - 1) + b"p"
    yield "simplecss_list_numbers", (listed, MODERN), 10 * MANY
    yield "simplecss_list_text", (listed, MODERN), MANY
    yield "simplecss_refusal", (listed, MODERN, PAGE), 0
    yield "simplecss_names", many_texts(b".a"), 6 * MANY
    yield "simplecss_match_selectors", (*many_texts(b"p"), MODERN, _ONE_ELEMENT), 3 + digits(
        MANY
    ) + MANY
    one = (*many_texts(b"p", 1), MODERN, _MANY_ELEMENTS)
    yield "simplecss_match_selectors", one, digits(MANY) + 4 * MANY
    yield "simplecss_page_select", (_MANY_ELEMENTS, MODERN, b"p", 0, 0, NO_LIMIT), MANY
    yield "simplecss_page_select", (_ONE_ELEMENT, MODERN, listed, 0, 0, 1), 1
    yield "simplecss_page_select", (_MANY_ELEMENTS, MODERN, b":has(a)", 0, 0, 1), 0
    rules, many_declarations = b"p{a:b}" * MANY, b"p{" + b"a:b;" * MANY + b"}"
    yield "simplecss_sheet_statements", (rules,), (13 + 9 + 10) * MANY
    yield "simplecss_sheet_statements", (many_declarations,), 13 + 9 + 10 * MANY
    yield "simplecss_declarations", (b"a:b;" * MANY,), 10 * MANY
    imports = sum(len(f"{12 * n} 12 1 1 0 0 0 0 0\na\n") for n in range(MANY))
    yield "simplecss_sheet_imports", (b"@import 'a';" * MANY,), imports
    yield "simplecss_sheet_printed", (rules, 0), len(rules)
    empty = sum(len(f"empty rule\t{3 * n}\t{3 * n + 3}\t\n") for n in range(MANY))
    again = sum(len(f"repeated rule\t{3 * n}\t{3 * n + 1}\t\n") for n in range(1, MANY))
    yield "simplecss_lint", (b"a{}" * MANY, 0), empty + again
    policy = policy_of(b".m", (b"a",), (), (), (), (), longest=NO_LIMIT)
    yield "simplecss_clean", (b"a:b;" * MANY, policy, 1), len(b"a: b; ") * MANY - 1
    yield "simplecss_clean", (b"p{a:b}" * MANY, policy, 0), len(b".m p {a: b;}\n") * MANY
    yield "simplecss_dropped", (b"b:c;" * MANY, policy, 1), 3 * MANY
    yield "simplecss_taken", (b"top:x;" * MANY, 1), 6 * MANY
    yield "simplecss_taken", (b"a{top:x;" * MANY, 0), 8 * MANY
    unnamed = len(b"default\twindows-1252")
    yield "simplecss_html_encoding", (b"<meta " * MANY, b" " * MANY), unnamed
    yield "simplecss_close", (b"a" * MANY + b"(",), MANY + 2
    yield "simplecss_media", (b"print," * MANY + b"print", SCREEN), len(b"false")
    yield "simplecss_supports", (b"(a:b) and " * MANY + b"(a:b)", *many_texts(b"a", 1)), len(
        b"true"
    )
    yield "simplecss_valid_value", (b"var(--a) " * MANY,), len(b"true")
    pairs = many_texts(b"a", 2 * MANY)
    yield "simplecss_values", (*pairs, MANY, 0, NO_LIMIT), 3 * MANY
    yield "simplecss_tokens", (b"a " * MANY,), 5 * 2 * MANY
    yield "simplecss_spell", (b"a" * MANY, 0), MANY
    yield "simplecss_spell", (b"a" * MANY, 2), MANY
    yield "simplecss_spell", (b"a" * MANY, 3), MANY + 2
    yield from large_sheets()
    yield "simplecss_list_text", (b"a " * MANY, PORT), len(b"a ") * MANY - 1
    for sheet in (many_texts(rules, 1), many_texts(b"p{a:b}")):
        yield "simplecss_port_sheet", (*sheet, NO_LIMIT), len(b"p { a:b; }\n") * MANY
        yield "simplecss_port_match", (*sheet, NO_LIMIT, _ONE_ELEMENT), 3 + digits(MANY) + MANY
        yield "simplecss_port_styles", (*sheet, NO_LIMIT, _ONE_ELEMENT), len(b"1\n1 1 0\nab\n")
    sheet = many_texts(many_declarations, 1)
    yield "simplecss_port_styles", (*sheet, NO_LIMIT, _ONE_ELEMENT), len(b"1\n1 1 0\nab\n")
    skipped = sum(len(f"1 {3 * n + 1} 2 at-rule not supported\n@x\n") for n in range(MANY))
    yield "simplecss_port_skipped", (b"@x;" * MANY,), skipped


class Pages(Case):
    """The call that reads a page, which writes to two buffers."""

    # A page after a mark of the order of bytes, and what the header says of it: two start tags, of the first
    # of which there are two elements, two attributes, six elements in quirks mode, and two texts.
    page = b"\xef\xbb\xbf<B A=&lt; a>x<p></b>y"
    tags = [2, 3, 15, 16, 19]
    heads = [2, 6, 2, 0, 1, 0, 4]
    counts = [2, 0]
    attributes = [*(6, 7, 8, 12, 12), *(13, 14, 14, 14, 14)]
    strings = b"a<ahtmlheadbodybpbxy"

    def setUp(self) -> None:
        self.library = ctypes.CDLL(library_path())

    def read(self, text: bytes, room: int, size: int) -> Tuple[int, int, int, List[int], bytes]:
        """The status of a call, the two lengths, and the two buffers."""
        out, strings = sizes([MARK] * (room + 2)), ctypes.create_string_buffer(bytes([MARK] * size))
        lengths = SIZE(7), SIZE(8)
        status = self.library.simplecss_html(
            *(text, SIZE(len(text)), SIZE(0), b"", SIZE(0), SIZE(0)),
            *(out, SIZE(room), ctypes.byref(lengths[0])),
            *(strings, SIZE(size), ctypes.byref(lengths[1])),
        )
        return status, lengths[0].value, lengths[1].value, list(out), strings.raw[:size]

    def test_answer(self) -> None:
        status, count, size, numbers, strings = self.read(self.page, 200, 100)
        self.assertEqual(status, DONE)
        front = self.tags + self.heads + self.counts + self.attributes
        self.assertEqual(numbers[: len(front)], front)
        self.assertEqual(strings[:size], self.strings)
        self.assertEqual(numbers[count - 3 : count], [size, 0, 0])
        self.assertEqual(numbers[count:], [MARK] * (202 - count))

    def test_sheets(self) -> None:
        """The numbers end with the sheets that a page names: HTML Standard, sections 4.2.3, 4.2.4 and 4.2.6."""
        linked = b"<link rel=stylesheet href=a>"
        rows = {
            b"<style>b</style><base href=x>": [2, 1, 1, 4],
            b"<base href=x><style>b</style>" + linked: [1, 2, 2, 12, 3, 13],
            b"<base>"
            + linked
            + b"<link rel='alternate stylesheet' href=a title=t>": [0, 2, 2, 5, 3, 3],
            b"<link rel=stylesheet title=t href=a><link rel=stylesheet title=u href=a>": [
                0,
                2,
                1,
                5,
                2,
                1,
            ],
            b"<style type=text/plain>b</style><link rel=icon href=a><link rel=stylesheet>": [0, 0],
        }
        for page, due in rows.items():
            with self.subTest(page=page):
                _, count, _, numbers, _ = self.read(page, 200, 100)
                self.assertEqual(numbers[count - len(due) : count], due)

    def test_rooms(self) -> None:
        """With too little room in one of the buffers nothing is written."""
        _, count, size, _, _ = self.read(self.page, 200, 100)
        for room, length in ((count - 1, size), (count, size - 1), (0, 0), (count, 0)):
            with self.subTest(room=room, size=length):
                numbers, strings = [MARK] * (room + 2), bytes([MARK] * length)
                due = (TOO_SMALL, count, size, numbers, strings)
                self.assertEqual(self.read(self.page, room, length), due)
        self.assertEqual(self.read(self.page, count, size)[0], DONE)

    def test_failures(self) -> None:
        deep = b"".join(b"<b id=%d><p>" % number for number in range(20_000))
        for text, status in ((b"<p>\xff", NOT_UTF8), (deep, LIMIT)):
            self.assertEqual(self.read(text, 2, 3), (status, 0, 0, [MARK] * 4, bytes([MARK] * 3)))


class Large(Case):
    """Large texts: no call gives up while there is memory."""

    count = 10_000_000

    def setUp(self) -> None:
        self.library = ctypes.CDLL(library_path())

    def ends(self, name: str, *arguments: Any, room: int = 0) -> Tuple[int, int]:
        """The status and the length of a call."""
        status, _, length, _ = call(self.library, name, arguments, room)
        return status, length

    def test_calls(self) -> None:
        for name, arguments, length in large_questions():
            with self.subTest(call=name, length=length):
                status = DONE if length == 0 else TOO_SMALL
                self.assertEqual(self.ends(name, *arguments), (status, length))

    def test_sheet(self) -> None:
        sheet = b"a { b: c }\n" * (self.count // 11)
        length = len(sheet) // 11 * len(b"a { b:c; }\n")
        self.assertEqual(
            self.ends("simplecss_port_sheet", sheet, sizes([len(sheet)]), NO_LIMIT),
            (TOO_SMALL, length),
        )

    def test_list(self) -> None:
        listed = b"a," * (self.count // 2) + b"a"
        self.assertEqual(self.ends("simplecss_refusal", listed, PORT, PAGE), (DONE, 0))

    def test_tree(self) -> None:
        number = 400_000
        strings = b"elementclassmore-of-it-to-come"[:25] * number
        ends = sizes([25 * (n // 3) + (7, 12, 25)[n % 3] for n in range(3 * number)])
        length = sum(len(str(n)) + 1 for n in range(1, number + 1))
        page = Elements([0, 1, 0] * number), strings, ends
        found = self.ends("simplecss_port_selected", b"element", page)
        self.assertEqual(found, (TOO_SMALL, length))

    def test_value(self) -> None:
        page = tree_of((0, b"a", b"class", b"x " * (self.count // 2) + b"y"))
        found = self.ends("simplecss_port_selected", b".y", page, room=8)
        self.assertEqual(found, (DONE, 2))
