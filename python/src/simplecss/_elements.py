"""The elements of a tree in columns, and what selectors match of them.

`Tree` and `Element` show them to users of the package; its other modules use the names here.
"""

from __future__ import annotations

import array
import bisect
import ctypes
import functools
import itertools
import re
from typing import (
    Any,
    Callable,
    Dict,
    FrozenSet,
    Iterable,
    Iterator,
    List,
    Mapping,
    Optional,
    Sequence,
    Set,
    Tuple,
    TypeVar,
    Union,
)

from . import _library as library
from ._html import MATH, SVG, HtmlPage
from ._kept import KeptPage, KeptQuery
from ._patterns import pattern
from ._selectors import (
    MODERN,
    NUMBERS,
    PORT,
    Reading,
    ReadText,
    Selectors,
    SelectorError,
    grammar_of,
    listed,
    matched,
    matched_of_port,
    selector_error,
)
from ._spaced import HTML_SPACE, MATH_SPACE, SVG_SPACE, Attributes, has_link, parted_in_html
from ._words import BLANKS, lower, words_of
from ._xml import SheetLink, XmlPage

# The states of an element that the library numbers.
STATES = {"link": 1, "visited": 2, "hover": 4, "active": 8, "focus": 16}
# Two more that `:dir(ltr)` and `:dir(rtl)` test, and the number of the first state that a tree names.
_DIRECTIONS = frozenset(("dir(ltr)", "dir(rtl)"))
_FIRST_NAMED = 128
# The states of elements of HTML that attributes decide, those of them that elements without one are in, too,
# and a name of an element that is in no more.
_DECIDED = (
    *("checked", "disabled", "enabled", "required", "optional", "read-only", "read-write"),
    *("placeholder-shown", "default", "indeterminate", "open", "defined", "dir(ltr)", "dir(rtl)"),
)
_OF_ALL = _DIRECTIONS | {"defined"}
_OF_NO_HTML = "svg"
# How many states a tree may name, since a number of the library has no bits for more.
_MOST_NAMED = 8 * ctypes.sizeof(ctypes.c_size_t) - 8
NO_STATES: FrozenSet[str] = frozenset()
LINK = frozenset(("link",))
# The number of the library for an element that has a text of its own.
_HAS_TEXT = 32
# How many lists of selectors have their answers kept.
_MOST_QUESTIONS = 32
# For how many sets of prefixes the library keeps the page of a tree.
_MOST_PAGES = 4
# To ask about some elements takes as long as to test so many. A caller that may want the first match alone is
# answered about as many at first.
_OF_QUESTION = 64
# What a text has if `:has()`, `of` or `&` may be in it.
_LISTED = pattern(r"[hH][aA][sS]\(|[^-][oO][fF]|[&\\]")
_LINK_NAMES = ("a", "area")
_TO_SPACES = str.maketrans(BLANKS, " " * len(BLANKS))

# What is kept of elements.
_Kept = TypeVar("_Kept")
# Selectors, and the states of the elements that each matches.
States = Mapping[Selectors, Iterable[str]]
# Prefixes of selectors and the namespaces of each. That of the empty prefix is the default one.
Namespaces = Mapping[str, str]
# The same in order.
Prefixes = Tuple[Tuple[str, str], ...]
# The namespaces of a document in HTML, in the order of their numbers from 1 on. They have these numbers in any
# tree.
_SPACES_OF_HTML = (HTML_SPACE, SVG_SPACE, MATH_SPACE)
# How many namespaces the library knows in sheets. The number after them is of those that no element is in.
_MOST_KNOWN = 1024


class TreeError(ValueError):
    """A document is not a tree that selectors can match.

    `row` and `column` begin at 1, and are `None` where the position is not known.
    """

    def __init__(self, reason: str, row: Optional[int], column: Optional[int]) -> None:
        super().__init__(reason, row, column)
        self.reason = reason
        self.row = row
        self.column = column

    def __str__(self) -> str:
        return self.reason if self.row is None else f"{self.row}:{self.column}: {self.reason}"


class _Texts:
    """The texts of a document that are not empty, in order: for each how many elements begin before
    it, in which element it is, and what it says.
    """

    def __init__(
        self, begun: Iterable[int] = (), owners: Iterable[int] = (), values: Sequence[str] = ()
    ) -> None:
        self.begun = array.array("l", begun)
        self.owners = array.array("l", owners)
        self._own: List[str] = []
        self._values = values or self._own

    def add(self, begun: int, owner: int, value: str) -> None:
        """Adds a text to those that were added."""
        self.begun.append(begun)
        self.owners.append(owner)
        self._own.append(value)

    def __getitem__(self, at: int) -> str:
        return self._values[at]

    def within(self, start: int, end: int) -> Iterator[Tuple[int, str]]:
        """Yields the texts of the elements from one index up to another, each after its element."""
        for at in range(bisect.bisect_left(self.begun, start + 1), len(self.begun)):
            # Those of an element and of the elements in it are one after another.
            if self.begun[at] > end or not start <= self.owners[at] < end:
                break
            yield self.owners[at], self[at]


class Question:
    """A list of selectors that elements are asked about: its grammar, the prefixes that are declared, and the index
    of the element that `:scope` matches, or -1 if it matches the root."""

    __slots__ = ("text", "grammar", "prefixes", "scope", "is_of_all", "found", "tested")

    def __init__(self, text: str, grammar: str, prefixes: Prefixes, scope: int = -1) -> None:
        self.text = text
        self.grammar = grammar
        self.prefixes = prefixes
        self.scope = scope
        # Whether it may take as long to ask one element as to ask all: what `:has()`, `of` and `&` are about is tested
        # on each.
        self.is_of_all = grammar == PORT or _LISTED.search(text) is not None
        # What matches of all elements, once they were asked, and how many were until then.
        self.found: Optional[List[int]] = None
        self.tested = 0


def _prefixes_of(namespaces: Namespaces) -> Prefixes:
    """Returns prefixes with their namespaces in order."""
    if not isinstance(namespaces, Mapping):
        raise TypeError("namespaces are a mapping of prefixes to namespaces")
    for word in itertools.chain.from_iterable(namespaces.items()):
        library.encode(word)
    return tuple(sorted(namespaces.items()))


def states_of(names: Iterable[str]) -> FrozenSet[str]:
    """Returns names of states as a set. Another name raises `ValueError`."""
    states = frozenset(names)
    for name in sorted(states - STATES.keys() - _DIRECTIONS):
        if not _is_pseudo_class(name):
            raise ValueError(f"unknown state: {name!r}")
    return states


@functools.lru_cache(maxsize=256)
def _is_pseudo_class(name: str) -> bool:
    """Whether a name has letters and hyphens alone, and the library reads `:name` or two hyphens
    begin it: such a name is the caller's own."""
    if not name.isascii() or not name.replace("-", "").isalpha():
        return False
    if name.startswith("--"):
        return True
    try:
        listed(f":{name}")
    except SelectorError:
        return False
    return True


class _Computed:
    """What is computed of elements when it is needed."""

    def __init__(self) -> None:
        self.arrays: Dict[str, library.TreeArrays] = {}
        self.pages: Dict[Prefixes, KeptPage] = {}
        self.questions: Dict[Tuple[str, str, Prefixes], Question] = {}
        # What style sheets were asked last, and of what.
        self.last: Optional[Tuple[object, Any]] = None
        # The numbers of namespaces, of which nothing stands for none.
        self.numbers: Optional[Dict[str, int]] = None
        self.states: Optional[Dict[int, FrozenSet[str]]] = None
        self.plain: Optional[List[Dict[str, str]]] = None
        self.lines: Optional[List[int]] = None
        self.ends: Optional[List[int]] = None
        self.children: Optional[List[List[int]]] = None


class Elements:
    """The elements of a tree, in document order: an item of each list is what one of them has. Those of a page
    in HTML are made when they are asked for."""

    def __init__(self, page: Optional[HtmlPage] = None) -> None:
        """Takes a page in HTML, or no elements."""
        self._page = page
        # The namespace of each element, but in a document that was read as HTML here. That of an element of
        # HTML may not be known.
        self.spaces: List[str] = []
        # The row and column where each element begins, but in a document that was read as HTML here.
        self.places: List[Tuple[Optional[int], Optional[int]]] = []
        self.source: Optional[str] = None
        # The document in XML that was read.
        self.document: Optional[XmlPage] = None
        # The elements of the tree that these were made from.
        self.nodes: Optional[List[Any]] = None
        # What instructions of an XML document name.
        self.links: List[SheetLink] = []
        # How selectors are read for the elements.
        self.reading = Reading.AS_WRITTEN
        self._computed = _Computed()
        if page is not None:
            self.source = page.text
            self.reading = Reading.QUIRKS if page.is_quirky else Reading.HTML

    @functools.cached_property
    def names(self) -> List[str]:
        """The names."""
        return [] if self._page is None else self._page.names()

    @functools.cached_property
    def attributes(self) -> List[Dict[str, str]]:
        """The attributes."""
        return [] if self._page is None else self._page.attributes()

    @functools.cached_property
    def parents(self) -> List[int]:
        """The indices of the parents, and -1 of an element without one."""
        return [] if self._page is None else self._page.parents()

    @functools.cached_property
    def depths(self) -> List[int]:
        """How many ancestors each has."""
        return [] if self._page is None else self._page.depths()

    @functools.cached_property
    def states(self) -> Dict[int, FrozenSet[str]]:
        """The states of those that are in some."""
        if self._page is None:
            return {}
        named = enumerate(self.names)
        links = (index for index, name in named if name in _LINK_NAMES and self._is_link(index))
        return dict.fromkeys(links, LINK)

    @functools.cached_property
    def drawn(self) -> Set[int]:
        """The elements of SVG."""
        return self._in_space(SVG)

    @functools.cached_property
    def formulas(self) -> Set[int]:
        """The elements of MathML in HTML."""
        return self._in_space(MATH)

    @functools.cached_property
    def page_sheets(self) -> Optional[Dict[int, int]]:
        """Of each element of a page in HTML that is a style sheet, or a link to one, what it is."""
        return None if self._page is None else self._page.sheets()[1]

    @functools.cached_property
    def base(self) -> int:
        """The index of the `base` whose url counts, or -1."""
        if self._page is not None:
            return self._page.sheets()[0]
        bases = (index for index, name in enumerate(self.names) if name == "base")
        return next((at for at in bases if at not in self.drawn and "href" in self.plain[at]), -1)

    @functools.cached_property
    def spaced(self) -> Dict[int, Attributes]:
        """Of each element with attributes in namespaces, these and the others."""
        found: Dict[int, Attributes] = {}
        for index in sorted(self.drawn | self.formulas) if self._page is not None else ():
            attributes = parted_in_html(self.attributes[index])
            if attributes is not None:
                found[index] = attributes
        return found

    @functools.cached_property
    def spans(self) -> Optional[List[Tuple[int, int, int]]]:
        """Where each element's start tag begins and ends in `source`, and where the element ends."""
        if self._page is None:
            return None
        return [(*tag, end) for tag, (_, end) in zip(self._page.tags(), self._page.ends())]

    @functools.cached_property
    def end_tags(self) -> Optional[List[Tuple[int, int]]]:
        """Where each element's end tag begins and ends in `source`, or twice where it ends without one."""
        return None if self._page is None else self._page.ends()

    @functools.cached_property
    def texts(self) -> _Texts:
        """The texts."""
        return _Texts() if self._page is None else _Texts(*self._page.texts())

    def _in_space(self, space: int) -> Set[int]:
        """Returns the indices of the elements of a page that are in a namespace."""
        spaces = b"" if self._page is None else self._page.spaces()
        return {index for index, each in enumerate(spaces) if each == space}

    def _is_link(self, index: int) -> bool:
        """Whether an element of a page whose name is that of a link is one."""
        attributes = self.attributes[index]
        if self.names[index] == "a":
            return "href" in attributes or index in self.drawn and "xlink:href" in attributes
        is_html = index not in self.drawn and index not in self.formulas
        return is_html and "href" in attributes

    def __len__(self) -> int:
        return len(self.parents) if self._page is None else len(self._page)

    def __getstate__(self) -> Dict[str, Any]:
        state = {**self.__dict__, "nodes": None}
        del state["_computed"]
        return state

    def __setstate__(self, state: Dict[str, Any]) -> None:
        self.__dict__.update(state)
        self._computed = _Computed()

    def add(self, name: str, attributes: Dict[str, str], parent: int) -> int:
        """Adds an element. Returns its index."""
        if not name:
            raise TreeError("the name is empty", None, None)
        self.names.append(name)
        self.attributes.append(attributes)
        self.parents.append(parent)
        self.depths.append(0 if parent < 0 else self.depths[parent] + 1)
        return len(self.names) - 1

    def take_spaced(self, index: int, attributes: Optional[Attributes]) -> None:
        """Takes the attributes of an element, if some are in namespaces."""
        if attributes is not None:
            self.spaced[index] = attributes

    @property
    def plain(self) -> List[Dict[str, str]]:
        """Of each element the attributes that are in no namespace."""
        plain = self._computed.plain
        if plain is None:
            plain = self._computed.plain = self.attributes.copy()
            for index, attributes in self.spaced.items():
                plain[index] = attributes.plain
        return plain

    def take_document(self, page: XmlPage) -> None:
        """Takes the elements of a document in XML."""
        self.source = page.text
        self.links = list(page.links())
        self.document = page
        self.end_tags = page.ends()
        self.spans = [(*tag, end) for tag, (_, end) in zip(page.tags(), self.end_tags)]
        self.places += page.positions()
        names, spaces = page.names(), page.spaces_of_elements()
        rows = zip(names, spaces, page.every_attribute(), page.parents())
        for index, (name, space, attributes, parent) in enumerate(rows):
            plain = {key: value for of, key, value in attributes if not of}
            spaced = [each for each in attributes if each[0]]
            others = {key: value for _, key, value in spaced}
            self.add(name, {**others, **plain} if spaced else plain, parent)
            if has_link(name, space, plain, spaced):
                self.states[index] = LINK
            if space == SVG_SPACE or not space and names[0] == "svg":
                self.drawn.add(index)
            self.spaces.append(space)
            self.take_spaced(index, Attributes(plain, spaced).with_language() if spaced else None)
        for begun, owner, value in zip(*page.texts()):
            self.texts.add(begun, owner, value)

    def set_states(self, states: Optional[States]) -> None:
        """Adds states to the elements that selectors match."""
        if states is None:
            return
        if not isinstance(states, Mapping):
            raise TypeError("states are a mapping of selectors to names of states")
        more: Dict[int, FrozenSet[str]] = {}
        for selectors, names in states.items():
            if isinstance(names, bytes):
                raise TypeError("names of states are texts (str), not bytes")
            named = states_of((names,) if isinstance(names, str) else names)
            for index in self.found(self.question(selectors)):
                more[index] = more.get(index, self.states.get(index, NO_STATES)) | named
        for index, named in more.items():
            # A link is visited or not.
            self.states[index] = named - LINK if "visited" in named else named
        self._computed = _Computed()

    def end_of(self, index: int) -> int:
        """Returns the index after the last element within an element."""
        ends = self._computed.ends
        if ends is None:
            ends = self._computed.ends = list(range(1, len(self.parents) + 1))
            for at in range(len(ends) - 1, -1, -1):
                parent = self.parents[at]
                if parent >= 0:
                    ends[parent] = max(ends[parent], ends[at])
        return ends[index]

    def children_of(self, index: int) -> List[int]:
        """Returns the indices of the children of an element."""
        children = self._computed.children
        if children is None:
            children = self._computed.children = [[] for _ in self.names]
            for child, parent in enumerate(self.parents):
                if parent >= 0:
                    children[parent].append(child)
        return children[index]

    def text_of(self, index: int) -> str:
        """Returns the text of an element and of all elements in it."""
        found = self.texts.within(index, self.end_of(index))
        return "".join(value for _, value in found)

    def own_text_of(self, index: int) -> str:
        """Returns the text of an element without those of the elements in it."""
        found = self.texts.within(index, self.end_of(index))
        return "".join(value for owner, value in found if owner == index)

    def end_at(self, index: int) -> int:
        """Returns where an element ends in the source, or -1 if that is not known."""
        return -1 if self.spans is None else self.spans[index][2]

    def source_of(self, index: int) -> Optional[str]:
        """Returns the text of the document from the start tag of an element to its end."""
        if self.spans is None or self.source is None:
            return None
        start, _, end = self.spans[index]
        return None if start < 0 else self.source[start:end]

    def start_tag_of(self, index: int) -> Optional[Tuple[int, int]]:
        """Returns where the start tag of an element is in the source, if it is there."""
        if self.spans is None or self.spans[index][0] < 0:
            return None
        return self.spans[index][:2]

    def end_tag_of(self, index: int) -> Optional[Tuple[int, int]]:
        """Returns where the end tag of an element is in the source, if it is there."""
        if self.end_tags is None or self.end_tags[index][0] == self.end_tags[index][1]:
            return None
        return self.end_tags[index]

    def attribute_places_of(self, index: int) -> Dict[str, Tuple[int, int]]:
        """Returns where the attributes of an element are in the source."""
        page = self.document or self._page
        return {} if page is None else page.attribute_places(index)

    def namespace_of(self, index: int) -> Optional[str]:
        """Returns the namespace of an element, if it is in one. One of HTML of which it is not known is in that of
        HTML."""
        if self.spaces:
            space = self.spaces[index]
        else:
            space = (
                SVG_SPACE if index in self.drawn else MATH_SPACE if index in self.formulas else ""
            )
        return space or (None if self.reading == Reading.AS_WRITTEN else HTML_SPACE)

    def position(self, index: int) -> Tuple[Optional[int], Optional[int]]:
        """Returns the row and column where an element begins, as far as they are known."""
        if self.places:
            return self.places[index]
        if self.spans is None or self.spans[index][0] < 0:
            return None, None
        lines = self._computed.lines
        if lines is None:
            ends = re.finditer("\n", self.source or "")
            lines = self._computed.lines = [0, *(found.end() for found in ends)]
        offset = self.spans[index][0]
        row = bisect.bisect_right(lines, offset)
        return row, offset - lines[row - 1] + 1

    # ---- selectors

    def question(
        self,
        selectors: Selectors,
        grammar: str = MODERN,
        namespaces: Optional[Namespaces] = None,
        scope: int = -1,
    ) -> Question:
        """Returns the question for selectors. The grammar of a `Selector` is its own, and `:scope` matches the element
        at an index, or the root."""
        if isinstance(selectors, ReadText):
            text, own = selectors.source, selectors.grammar
        else:
            text, own = selectors, grammar
        library.expect_text(text)
        own = grammar_of(own)
        if own == PORT and namespaces is not None:
            raise ValueError("the grammar of the Rust crate has no namespaces")
        key = text, own, () if namespaces is None else _prefixes_of(namespaces)
        if scope >= 0 and own == MODERN and _may_name_scope(text):
            return Question(*key, scope)
        return self._kept_question(key)

    def _kept_question(self, key: Tuple[str, str, Prefixes]) -> Question:
        """Returns the question that was asked before, or a new one."""
        questions = self._computed.questions
        question = questions.get(key)
        if question is None:
            if len(questions) >= _MOST_QUESTIONS:
                questions.clear()
            question = questions[key] = Question(*key)
        return question

    def found(self, question: Question, start: int = 0, end: Optional[int] = None) -> Sequence[int]:
        """Returns the indices of the elements from one up to another that match, in order. When as many were asked
        as there are, all are: then an answer takes no longer than to look."""
        count = len(self)
        end = count if end is None else end
        if question.found is None:
            question.tested += count if question.is_of_all else _OF_QUESTION + end - start
            if question.tested < count:
                return self._ask(question, start, end)
            question.found = self._ask(question, 0, count)
        found = question.found
        return found[bisect.bisect_left(found, start) : bisect.bisect_left(found, end)]

    def found_when_wanted(self, question: Question, start: int, end: int) -> Iterator[int]:
        """Yields what `found` returns, which is asked for in parts. Selectors that are refused raise their error at
        once."""
        parts = _growing(start, end)
        first = self.found(question, *next(parts))
        others = (self.found(question, *part) for part in parts)
        return itertools.chain(first, itertools.chain.from_iterable(others))

    def found_set(self, selectors: Selectors) -> FrozenSet[int]:
        """Returns the indices of the elements that one of the selectors matches."""
        return frozenset(self.found(self.question(selectors)))

    def _ask(self, question: Question, start: int, end: int) -> List[int]:
        """Returns the indices of the elements from one up to another that match, and by the grammar of the Rust
        crate of all."""
        if question.grammar == PORT:
            return self._ask_port(question)
        page, data = self._kept_page(question.prefixes), library.encode(question.text)
        numbers = page.select(data, question.scope + 1, start, end)
        if numbers is None:
            raise self._error(question)
        return [number - 1 for number in numbers]

    def _ask_port(self, question: Question) -> List[int]:
        """Returns the indices of the elements that selectors of the Rust crate match."""
        words = [library.encode(question.text)], library.NO_LIMIT, self._arrays(PORT)
        answer = library.port(library.PORT_SELECTED, *words, room=1024 + 8 * len(self))
        if answer.status == library.REFUSED:
            raise self._error(question)
        output = library.output_of("simplecss_port", answer)
        return [int(number) - 1 for number in output.split()]

    def _error(self, question: Question) -> SelectorError:
        """Returns the error of selectors that were refused, which are read with the names that the tree declares."""
        names = library.TreeArrays((), (), self._named_states(), self._numbered(question.prefixes))
        return selector_error(question.text, question.grammar, names)

    def _kept_page(self, prefixes: Prefixes) -> KeptPage:
        """Returns the page of the tree that the library keeps, where these prefixes are declared."""
        pages = self._computed.pages
        page = pages.get(prefixes)
        if page is None or page.is_left:
            if len(pages) >= _MOST_PAGES:
                pages.clear()
            arrays = self._arrays_for(MODERN, prefixes) if prefixes else self._arrays(MODERN)
            page = pages[prefixes] = KeptPage(arrays, self.reading)
        return page

    def classes_and_ids(self) -> Set[str]:
        """Returns the words of all `class` and the values of all `id`, in lower case."""
        values = {each["class"] for each in self.attributes if "class" in each}
        words = words_of(lower(" ".join(values)))
        return {
            *words,
            *(lower(each["id"]) for each in self.attributes if "id" in each),
        }

    def matched(self, selectors: Sequence[str], limit: int, grammar: str = MODERN) -> List[bytes]:
        """Returns for each element the numbers of the selectors that match it, which begin at 1,
        with spaces between them. More numbers than `limit` raise `LimitError`."""
        return matched(self._arrays(grammar), selectors, self._number_of(grammar), limit)

    def matched_of_port(
        self, texts: Sequence[bytes], most: int, count: int, limit: int
    ) -> List[bytes]:
        """Returns the same of the rules of a style sheet by the grammar of the Rust crate, of which there
        are so many, with `most` declarations at most."""
        return matched_of_port(self._arrays(PORT), texts, most, count, limit)

    def query(self, sheets: library.SheetArrays, limit: int, own: library.OwnArrays) -> KeptQuery:
        """Returns what the library keeps to be asked of the elements, of sheets with at most so many declarations, and
        of declarations of the elements' own."""
        known = sheets.with_namespaces(list(map(library.encode, self.namespaces())))
        return KeptQuery(self._arrays(MODERN), self.reading, known, limit, own)

    def asked_last(self, key: object, make: Callable[[], _Kept]) -> _Kept:
        """Returns what was made for this key if it was the last, and else makes it."""
        last = self._computed.last
        if last is None or last[0] != key:
            last = self._computed.last = key, make()
        found: _Kept = last[1]
        return found

    def _number_of(self, grammar: str) -> int:
        """Returns the number of a grammar for the library: of the modern one as the document reads
        it."""
        return NUMBERS[grammar] if grammar == PORT else self.reading

    def _arrays(self, grammar: str) -> library.TreeArrays:
        """Returns the arrays of the tree, as calls of the library for a grammar take them."""
        arrays = self._computed.arrays
        if grammar not in arrays:
            arrays[grammar] = self._arrays_for(grammar, ())
        return arrays[grammar]

    def _arrays_for(self, grammar: str, prefixes: Prefixes) -> library.TreeArrays:
        """Returns the arrays of the tree, where these prefixes are declared."""
        try:
            return self._make_arrays(grammar, prefixes)
        except UnicodeEncodeError as error:
            raise TreeError(f"a text is not Unicode: {error.reason}", None, None) from None

    def _make_arrays(self, grammar: str, prefixes: Prefixes) -> library.TreeArrays:
        # By the grammar of the Rust crate, no attribute is in a namespace.
        spaced = {} if grammar == PORT else self.spaced
        own = self.attributes if grammar == PORT else self.plain
        pairs = self._compared_attributes(own, grammar == PORT)
        compared = [pairs[id(each)] for each in own]
        counts = [len(each) // 2 for each in compared]
        numbers = self._space_numbers()
        shaped = zip(self.depths, counts, self._numbered_states(), self._numbered_spaces())
        shapes = array.array(library.SIZE, itertools.chain.from_iterable(shaped))
        names = {name: self.reading.compared_name(name) for name in set(self.names)}
        strings: List[str] = []
        for name, each in zip(self.names, compared):
            strings.append(names[name])
            strings += each
        places: List[int] = []
        for index, attributes in spaced.items():
            for space, name, value in attributes.spaced:
                places += (index, numbers[space])
                strings += (self.reading.compared_name(name), value)
        declared = self._numbered(prefixes)
        return library.TreeArrays(shapes, strings, self._named_states(), declared, places)

    def _numbered(self, prefixes: Prefixes) -> List[Tuple[str, int]]:
        """Returns prefixes with the numbers of their namespaces. One that no element is in has a number of none."""
        numbers = self._space_numbers()
        return [(name, numbers.get(space, len(numbers) + 1)) for name, space in prefixes]

    def namespaces(self) -> List[str]:
        """Returns the namespaces of elements and attributes that the library may know in sheets, in the
        order of their numbers from 1 on."""
        return list(self._space_numbers())[1 : 1 + _MOST_KNOWN]

    def _space_numbers(self) -> Dict[str, int]:
        """Returns the numbers of namespaces. That of no namespace is 0."""
        numbers = self._computed.numbers
        if numbers is None:
            of_attributes = (one[0] for each in self.spaced.values() for one in each.spaced)
            every = itertools.chain(("", *_SPACES_OF_HTML), self.spaces, of_attributes)
            numbers = {
                space: number + (number > _MOST_KNOWN)
                for number, space in enumerate(dict.fromkeys(every))
            }
            self._computed.numbers = numbers
        return numbers

    def _numbered_spaces(self) -> Iterable[int]:
        """Returns the number of the namespace of each element. An element of HTML of which it is not known is
        in that of HTML."""
        is_html = self.reading != Reading.AS_WRITTEN
        if self.spaces:
            numbers = {**self._space_numbers(), "": 1 if is_html else 0}
            return [numbers[space] for space in self.spaces]
        if not is_html:
            return itertools.repeat(0)
        found = [1] * len(self)
        for index in self.drawn:
            found[index] = 2
        for index in self.formulas:
            found[index] = 3
        return found

    def _compared_attributes(
        self, own: Iterable[Dict[str, str]], is_port: bool
    ) -> Dict[int, List[str]]:
        """Returns the keys and values of attributes as they are compared, by their identity: equal
        tags have the same. By the grammar of the Rust crate, spaces alone part the words of a
        class."""
        reading = self.reading
        every = {id(attributes): attributes for attributes in own}
        changing = reading.may_change(set(itertools.chain.from_iterable(every.values())))
        found: Dict[int, List[str]] = {}
        for key, attributes in every.items():
            if not changing.isdisjoint(attributes):
                attributes = reading.attributes(attributes)
            if is_port and "class" in attributes:
                attributes = {
                    **attributes,
                    "class": attributes["class"].translate(_TO_SPACES),
                }
            found[key] = list(itertools.chain.from_iterable(attributes.items()))
        return found

    def _all_states(self) -> Dict[int, FrozenSet[str]]:
        """Returns the states of elements, with those that attributes decide of elements of HTML in XML."""
        found = self._computed.states
        if found is None:
            found = self._computed.states = self.states.copy()
            is_xml = self.reading == Reading.AS_WRITTEN and HTML_SPACE in self.spaces
            for index, states in enumerate(self._decided_states() if is_xml else ()):
                found[index] = found.get(index, NO_STATES) | states
        return found

    def _decided_states(self) -> Iterator[FrozenSet[str]]:
        """Yields the states of each element that attributes decide, where those in the namespace of HTML
        have its names. Any other element is in a state that all elements of HTML share, alone.
        """
        is_html = [space == HTML_SPACE for space in self.spaces]
        own = [each if is_own else {} for each, is_own in zip(self.attributes, is_html)]
        values = [
            {key: Reading.HTML.compared_value(key, value) for key, value in each.items()}
            for each in own
        ]
        with_text = frozenset(self.texts.owners)
        shapes = array.array(library.SIZE)
        strings: List[str] = []
        for index, attributes in enumerate(values):
            has_text = _HAS_TEXT * (index in with_text)
            shapes.extend((self.depths[index], len(attributes), has_text, 1))
            strings.append(self.names[index] if is_html[index] else _OF_NO_HTML)
            strings += itertools.chain.from_iterable(attributes.items())
        selectors = [f":{name}" for name in _DECIDED]
        tree = library.TreeArrays(shapes, strings)
        lines = matched(tree, selectors, Reading.HTML, len(self) * len(selectors))
        for line, is_own in zip(lines, is_html):
            found = frozenset(_DECIDED[int(number) - 1] for number in line.split())
            yield found if is_own else found & _OF_ALL

    def _named_states(self) -> List[str]:
        """Returns the names of states that elements are in and the library does not number."""
        named = sorted(NO_STATES.union(*self._all_states().values()) - STATES.keys())
        if len(named) > _MOST_NAMED:
            raise ValueError(f"more than {_MOST_NAMED} states: {named[_MOST_NAMED]!r}")
        return named

    def _numbered_states(self) -> List[int]:
        """Returns the states of each element, as the library numbers them."""
        of_states = {name: _FIRST_NAMED << at for at, name in enumerate(self._named_states())}
        of_states.update(STATES)
        numbers = [0] * len(self)
        for owner in set(self.texts.owners):
            # That of a text without an element is -1.
            if owner >= 0:
                numbers[owner] = _HAS_TEXT
        for index, states in self._all_states().items():
            numbers[index] += sum(map(of_states.__getitem__, states))
        return numbers


def _may_name_scope(selectors: str) -> bool:
    """Whether a text may have `:scope` in it, or `&`, which denotes it outside of style sheets."""
    return "\\" in selectors or "&" in selectors or "scope" in lower(selectors)


def _growing(start: int, end: int) -> Iterator[Tuple[int, int]]:
    """Yields parts from an index up to another, each much greater than the one before, and at least one."""
    size = _OF_QUESTION
    while end - start > size:
        yield start, start + size
        start, size = start + size, 4 * size
    yield start, end
