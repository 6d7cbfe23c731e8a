"""Trees of elements, from HTML, XML, and the trees of other packages."""

from __future__ import annotations

import itertools
from typing import (
    Any,
    Dict,
    FrozenSet,
    Iterable,
    Iterator,
    List,
    Mapping,
    NamedTuple,
    Optional,
    Sequence,
    Tuple,
    Union,
)

from . import _library as library
from ._elements import (
    LINK,
    NO_STATES,
    Elements,
    Namespaces,
    States,
    TreeError,
    states_of,
)
from ._encoding import text_of_page
from ._given import expect_page
from ._html import HtmlPage
from ._selectors import MODERN, Reading, Selectors
from ._spaced import SVG_SPACE, has_link, parted
from ._words import words_of
from ._xml import SheetLink, XmlError, XmlPage

# The nodes of BeautifulSoup that are no elements and no texts.
_NO_TEXTS = frozenset(
    (
        "Comment",
        "Doctype",
        "Declaration",
        "ProcessingInstruction",
        "XMLProcessingInstruction",
    )
)


class Item(NamedTuple):
    """An element for `Tree`.

    It has its name and attributes, the index of its parent if it has one, where its start tag
    begins if that is known, its states, such as `link`, and the text before its first child.
    """

    name: str
    attributes: Dict[str, str] = {}
    parent: Optional[int] = None
    row: Optional[int] = None
    column: Optional[int] = None
    states: FrozenSet[str] = NO_STATES
    text: str = ""


class _Within:
    """What elements are selected of: a tree, or what is within an element."""

    __slots__ = ()

    def _part(self) -> Tuple["Tree", int, int, int]:
        """Returns the tree, the index of the element that `:scope` matches, or -1 for the root, and from which
        index on and up to which the elements are."""
        raise NotImplementedError

    def select(
        self,
        selectors: Selectors,
        *,
        grammar: str = MODERN,
        namespaces: Optional[Namespaces] = None,
    ) -> List["Element"]:
        """Returns the elements of a tree, or within an element, that one of the selectors matches, in order.

        The selectors are separated by commas. A text that is not such a list raises `SelectorError`. `:scope`
        matches the element itself, or the root of a tree: `element.select(":scope > p")` returns its children.
        `grammar` is that of `Selector`. `namespaces` maps prefixes of modern selectors to namespaces, such as
        `{"svg": "http://www.w3.org/2000/svg"}`; the empty prefix is that of names without one.
        """
        tree, scope, start, end = self._part()
        question = tree._elements.question(selectors, grammar, namespaces, scope)
        return list(tree._at(tree._elements.found(question, start, end)))

    def iselect(
        self,
        selectors: Selectors,
        *,
        grammar: str = MODERN,
        namespaces: Optional[Namespaces] = None,
    ) -> Iterator["Element"]:
        """Yields what `select` returns, each when it is wanted."""
        tree, scope, start, end = self._part()
        question = tree._elements.question(selectors, grammar, namespaces, scope)
        return tree._at(tree._elements.found_when_wanted(question, start, end))

    def select_one(
        self,
        selectors: Selectors,
        *,
        grammar: str = MODERN,
        namespaces: Optional[Namespaces] = None,
    ) -> Optional["Element"]:
        """Returns the first of what `select` returns, or `None`."""
        return next(self.iselect(selectors, grammar=grammar, namespaces=namespaces), None)


class Element(_Within):
    """An element of a tree. Two are equal if they are the same element of the same tree."""

    __slots__ = ("tree", "index")

    def __init__(self, tree: "Tree", index: int) -> None:
        self.tree = tree
        # Its number in the tree, from 0, in document order.
        self.index = index

    @property
    def name(self) -> str:
        """The name, in lower case in HTML."""
        return self.tree._elements.names[self.index]

    @property
    def namespace(self) -> Optional[str]:
        """The namespace, if it is in one."""
        return self.tree._elements.namespace_of(self.index)

    @property
    def attributes(self) -> Dict[str, str]:
        """The attributes, which must not be changed."""
        return self.tree._elements.attributes[self.index]

    @property
    def states(self) -> FrozenSet[str]:
        """The states, such as `link`."""
        return self.tree._elements.states.get(self.index, NO_STATES)

    @property
    def is_drawn(self) -> bool:
        """Whether it is an element of SVG."""
        return self.index in self.tree._elements.drawn

    @property
    def parent(self) -> Optional["Element"]:
        """The parent, if there is one."""
        parent = self.tree._elements.parents[self.index]
        return None if parent < 0 else Element(self.tree, parent)

    @property
    def depth(self) -> int:
        """How many ancestors the element has."""
        return self.tree._elements.depths[self.index]

    @property
    def children(self) -> List["Element"]:
        """The children, in order."""
        return [Element(self.tree, index) for index in self.tree._elements.children_of(self.index)]

    @property
    def text(self) -> str:
        """The text of the element and of all elements in it."""
        return self.tree._elements.text_of(self.index)

    @property
    def source(self) -> Optional[str]:
        """The source of the element, or `None` if the tree was not read from a text."""
        return self.tree._elements.source_of(self.index)

    @property
    def start_tag(self) -> Optional[Tuple[int, int]]:
        """Where its start tag begins and ends in the text that the tree was read from, if it has one there. Several
        elements may have one."""
        return self.tree._elements.start_tag_of(self.index)

    @property
    def end_tag(self) -> Optional[Tuple[int, int]]:
        """Where its end tag begins and ends there, if it has one."""
        return self.tree._elements.end_tag_of(self.index)

    @property
    def attribute_places(self) -> Dict[str, Tuple[int, int]]:
        """Where its attributes are there, by their names: each from its name to the end of its value, with quotes."""
        return self.tree._elements.attribute_places_of(self.index)

    @property
    def row(self) -> Optional[int]:
        """The row of the start tag, from 1, if there is one."""
        return self.tree._elements.position(self.index)[0]

    @property
    def column(self) -> Optional[int]:
        """The column of the start tag, from 1, if there is one."""
        return self.tree._elements.position(self.index)[1]

    @property
    def node(self) -> Any:
        """The node that the element was made from, or `None`."""
        nodes = self.tree._elements.nodes
        return None if nodes is None else nodes[self.index]

    def get(self, name: str, default: Optional[str] = None) -> Optional[str]:
        """Returns the value of an attribute, or the default if there is no such attribute."""
        return self.attributes.get(name, default)

    def __getitem__(self, name: str) -> str:
        """The value of an attribute. A name that the element does not have raises `KeyError`."""
        if not isinstance(name, str):
            raise TypeError(f"the name of an attribute is a text (str), not {type(name).__name__}")
        return self.attributes[name]

    def __contains__(self, name: object) -> bool:
        """Whether the element has an attribute."""
        return name in self.attributes

    # Its children are `children`, and what it has are `attributes`.
    __iter__ = None

    def matches(
        self,
        selectors: Selectors,
        *,
        grammar: str = MODERN,
        namespaces: Optional[Namespaces] = None,
    ) -> bool:
        """Whether one of the selectors matches the element, which is also what `:scope` matches."""
        elements, index = self.tree._elements, self.index
        question = elements.question(selectors, grammar, namespaces, index)
        return len(elements.found(question, index, index + 1)) > 0

    def closest(
        self,
        selectors: Selectors,
        *,
        grammar: str = MODERN,
        namespaces: Optional[Namespaces] = None,
    ) -> Optional["Element"]:
        """Returns the closest of the element and its ancestors that matches, or `None`. `:scope`
        matches the element itself."""
        elements, index = self.tree._elements, self.index
        question = elements.question(selectors, grammar, namespaces, index)
        while index >= 0:
            if elements.found(question, index, index + 1):
                return Element(self.tree, index)
            index = elements.parents[index]
        return None

    def _part(self) -> Tuple["Tree", int, int, int]:
        return self.tree, self.index, self.index + 1, self.tree._elements.end_of(self.index)

    def __eq__(self, other: object) -> bool:
        return isinstance(other, Element) and self.tree is other.tree and self.index == other.index

    def __hash__(self) -> int:
        return hash((id(self.tree), self.index))

    def __reduce__(self) -> Tuple[Any, ...]:
        return (Element, (self.tree, self.index))

    def __repr__(self) -> str:
        words = [self.name]
        for key in ("id", "class"):
            if key in self.attributes:
                words.append(f'{key}="{" ".join(words_of(self.attributes[key]))}"')
        return f"<{' '.join(words)}>"


class Tree(_Within):
    """Elements in document order, which selectors are matched against."""

    def __init__(self, items: Iterable[Item] = ()) -> None:
        """Takes elements in document order: a parent comes before its children."""
        elements = self._elements = Elements()
        last: List[int] = []
        for index, item in enumerate(items):
            self._check(index, item, last)
            elements.add(item.name, item.attributes, -1 if item.parent is None else item.parent)
            elements.places.append((item.row, item.column))
            states = states_of(item.states)
            if states:
                elements.states[index] = states
            if item.text:
                elements.texts.add(index + 1, index, item.text)

    def _check(self, index: int, item: Item, last: List[int]) -> None:
        """Raises an error for an element whose parent is not one of the elements still open."""
        depth = 0
        if not isinstance(item, Item):
            raise TypeError(f"an Item is expected, not {type(item).__name__}")
        if not isinstance(item.name, str) or not isinstance(item.attributes, Mapping):
            raise TypeError("an element has a text as its name and a mapping as its attributes")
        for key, value in item.attributes.items():
            if not isinstance(key, str) or not isinstance(value, str):
                raise TypeError("the names and values of attributes are texts (str)")
        library.expect_text(item.text)
        if item.parent is not None:
            if not 0 <= item.parent < index:
                raise TreeError("the parent is not an earlier element", item.row, item.column)
            depth = self._elements.depths[item.parent] + 1
            if depth > len(last) or last[depth - 1] != item.parent:
                raise TreeError("the elements are not in document order", item.row, item.column)
        del last[depth:]
        last.append(index)
        if not item.name:
            raise TreeError("the name is empty", item.row, item.column)

    # ---- documents

    @classmethod
    def from_html(
        cls,
        text: Union[str, bytes],
        states: Optional[States] = None,
        *,
        is_part: bool = False,
        context: Optional[str] = None,
        encoding: Optional[str] = None,
    ) -> "Tree":
        """Reads an HTML document, as a browser does without scripts.

        One in bytes is read in `encoding`, the label that a server names, or in the encoding that it
        names itself, or else in UTF-8 if all of it can be, and in windows-1252 if not. A mark of the order
        of bytes comes before these. Bytes without a meaning are U+FFFD. A label of no encoding raises
        `ValueError`.

        Names are in lower case, and the elements that a text leaves out (`html`, `head`, `body`,
        `tbody`) are added. The content of a `template` is left out. `a` and `area` with `href` are
        links. `states` maps selectors to the states of the elements that they match.

        `context` is the element of HTML whose content the text is, such as "td", or its start tag without `<` and
        `>`. `is_part` is the context "body".
        """
        if is_part and context is not None:
            raise TypeError("is_part is a context of its own")
        if context is not None:
            library.expect_text(context)
        within = "body" if is_part else context
        if encoding is not None:
            library.expect_text(encoding)
        if isinstance(text, bytes):
            text = text_of_page(text, encoding)
        elif encoding is not None:
            raise TypeError("a text has no encoding: pass the bytes")
        else:
            library.expect_text(text)
            expect_page(text)
        tree = cls()
        try:
            tree._elements = Elements(HtmlPage(text, context=within))
        except UnicodeEncodeError as error:
            raise TreeError(f"a text is not Unicode: {error.reason}", None, None) from None
        return tree._with_states(states)

    @classmethod
    def from_xml(cls, text: str, states: Optional[States] = None) -> "Tree":
        """Reads an XML document, such as SVG or XHTML.

        Names are local names, without a namespace. `a` and `area` with `href` are links.
        """
        library.expect_text(text)
        expect_page(text)
        tree = cls()
        try:
            page = XmlPage(text)
        except XmlError as error:
            raise TreeError(error.reason, error.row, error.column) from None
        tree._elements.take_document(page)
        return tree._with_states(states)

    @classmethod
    def from_etree(cls, root: Any, states: Optional[States] = None) -> "Tree":
        """Takes an element of `xml.etree.ElementTree`, or a whole tree of one.

        Comments and processing instructions are left out. `.node` of an element is the one that it
        was made from.
        """
        if hasattr(root, "getroot"):
            root = root.getroot()
        if not hasattr(root, "tag") or not hasattr(root, "attrib"):
            raise TypeError(f"an element of ElementTree is expected, not {type(root).__name__}")
        tree = cls()
        elements = tree._elements
        elements.nodes = []
        waiting: List[Tuple[Any, int]] = [(root, -1)]
        while waiting:
            node, parent = waiting.pop()
            if isinstance(node, str):
                if node:
                    elements.texts.add(len(elements), parent, node)
            elif isinstance(node.tag, str):
                index = _take_element(elements, node, parent)
                for child in reversed(list(node)):
                    waiting.append((child.tail or "", index))
                    waiting.append((child, index))
                waiting.append((node.text or "", index))
        return tree._with_states(states)

    @classmethod
    def from_lxml(cls, root: Any, states: Optional[States] = None) -> "Tree":
        """Takes an element or a whole tree of lxml. One that `lxml.html` made is HTML."""
        tree = cls.from_etree(root, None)
        top = root.getroot() if hasattr(root, "getroot") else root
        tree._elements.links = list(_links_beside(top))
        if type(top).__module__.partition(".")[0] == "lxml" and "html" in type(top).__module__:
            doctype = getattr(getattr(top.getroottree(), "docinfo", None), "doctype", "")
            tree._elements.reading = Reading.HTML if doctype else Reading.QUIRKS
        return tree._with_states(states)

    @classmethod
    def from_soup(cls, root: Any, states: Optional[States] = None) -> "Tree":
        """Takes a document or an element of BeautifulSoup.

        It is HTML unless it was read as XML.
        """
        if not hasattr(root, "contents") or not hasattr(root, "attrs"):
            raise TypeError(f"an element of BeautifulSoup is expected, not {type(root).__name__}")
        tree = cls()
        elements = tree._elements
        elements.nodes = []
        has_doctype = False
        waiting: List[Tuple[Any, int]] = [(root, -1)]
        while waiting:
            node, parent = waiting.pop()
            if isinstance(node, str):
                kind = type(node).__name__
                has_doctype = has_doctype or kind == "Doctype"
                if kind == "XMLProcessingInstruction" and parent < 0:
                    elements.links += _links_in_soup(str(node), bool(elements))
                if kind not in _NO_TEXTS and node:
                    elements.texts.add(len(elements), parent, str(node))
                continue
            index = parent if node.name == "[document]" else _take_tag(elements, node, parent)
            waiting.extend((child, index) for child in reversed(node.contents))
        if not getattr(root, "_is_xml", False):
            tree._elements.reading = Reading.HTML if has_doctype else Reading.QUIRKS
        return tree._with_states(states)

    def _with_states(self, states: Optional[States]) -> "Tree":
        """Returns the tree, with states for the elements that selectors match."""
        self._elements.set_states(states)
        return self

    # ---- elements

    @property
    def elements(self) -> Sequence[Element]:
        """The elements, in document order."""
        return [Element(self, index) for index in range(len(self._elements))]

    def __getitem__(self, index: int) -> Element:
        """Returns the element at an index."""
        return Element(self, range(len(self._elements))[index])

    def __iter__(self) -> Iterator[Element]:
        return (Element(self, index) for index in range(len(self._elements)))

    def __len__(self) -> int:
        return len(self._elements)

    def __repr__(self) -> str:
        return f"<Tree of {len(self)} elements>"

    def _part(self) -> Tuple["Tree", int, int, int]:
        return self, -1, 0, len(self)

    def _at(self, indices: Iterable[int]) -> Iterator[Element]:
        return map(Element, itertools.repeat(self), indices)


def elements_of(tree: Tree) -> Elements:
    """Returns the elements of a tree as the other modules of the package use them."""
    return tree._elements


def plain_attributes(element: Element) -> Dict[str, str]:
    """Returns the attributes of an element that are in no namespace."""
    return element.tree._elements.plain[element.index]


def _take_element(elements: Elements, node: Any, parent: int) -> int:
    """Takes an element of ElementTree or lxml. Returns its index."""
    space, _, name = node.tag.rpartition("}")
    attributes = _local_attributes(node.attrib.items())
    index = elements.add(name, attributes, parent)
    spaced = parted((*_cut(str(key)), str(value)) for key, value in node.attrib.items())
    elements.take_spaced(index, spaced and spaced.with_language())
    row = getattr(node, "sourceline", None)
    elements.places.append((row, None if row is None else 1))
    plain, others = spaced or (attributes, [])
    if has_link(name, space[1:], plain, others):
        elements.states[index] = LINK
    elements.spaces.append(space[1:])
    if space[1:] == SVG_SPACE:
        elements.drawn.add(index)
    if elements.nodes is not None:
        elements.nodes.append(node)
    return index


def _take_tag(elements: Elements, node: Any, parent: int) -> int:
    """Takes an element of BeautifulSoup. Returns its index."""
    attributes = {
        str(key): " ".join(value)
        if isinstance(value, list)
        else str("" if value is None else value)
        for key, value in node.attrs.items()
    }
    index = elements.add(node.name.rpartition(":")[2], attributes, parent)
    values = attributes.values()
    spaced = parted((*_name_in_soup(key), value) for key, value in zip(node.attrs, values))
    elements.take_spaced(index, spaced)
    # A tag has as any other name what it finds in it.
    row, column = map(vars(node).get, ("sourceline", "sourcepos"))
    elements.places.append((row, None if column is None else column + 1))
    if node.name in ("a", "area") and "href" in attributes:
        elements.states[index] = LINK
    elements.spaces.append(getattr(node, "namespace", None) or "")
    if elements.spaces[-1] == SVG_SPACE:
        elements.drawn.add(index)
    if elements.nodes is not None:
        elements.nodes.append(node)
    return index


def _links_beside(root: Any) -> Iterator[SheetLink]:
    """Yields the instructions beside the root of a document of lxml that name style sheets."""
    for is_last in (False, True) if root.getparent() is None else ():
        found = list(root.itersiblings(preceding=not is_last))
        for each in found if is_last else reversed(found):
            if getattr(each, "target", "") == "xml-stylesheet":
                yield from SheetLink.of(each.text or "", is_last)


def _links_in_soup(text: str, is_last: bool) -> Iterator[SheetLink]:
    """Yields the instruction that a text of BeautifulSoup is, if it names a style sheet."""
    words = text.rstrip("?").split(None, 1)
    if words[:1] == ["xml-stylesheet"]:
        yield from SheetLink.of("".join(words[1:]), is_last)


def _cut(name: str) -> Tuple[str, str]:
    """Returns the namespace and the local name of a name of ElementTree."""
    space, _, local = name.rpartition("}")
    return space[1:], local


def _name_in_soup(key: Any) -> Tuple[str, str]:
    """Returns the namespace and the local name of an attribute of BeautifulSoup."""
    space = getattr(key, "namespace", None)
    return (space, key.name or str(key)) if space else ("", str(key))


def _local_attributes(items: Iterable[Tuple[Any, Any]]) -> Dict[str, str]:
    """Returns attributes by local name. One without a namespace comes before one that has one."""
    found: Dict[str, str] = {}
    spaced: Dict[str, str] = {}
    for key, value in items:
        local = str(key).rpartition("}")[2]
        (spaced if str(key).startswith("{") else found)[local] = str(value)
    for key, value in spaced.items():
        found.setdefault(key, value)
    return found
