"""A document whose text is edited: its elements, where their tags are, and its style elements."""

from __future__ import annotations

import array
import bisect
import functools
import re
from typing import (
    AbstractSet,
    Callable,
    Dict,
    FrozenSet,
    Iterable,
    Iterator,
    List,
    Match,
    NamedTuple,
    Optional,
    Set,
    Tuple,
)

from . import _edits
from ._edits import Edit
from ._elements import Elements, TreeError
from ._html import ALTERNATIVE, HTML, IN_USE, MATH, SHEET_LINK, SVG, HtmlPage, attributes_of
from ._library import LimitError
from ._linked import in_use, is_alternate, is_sheet_link, links_in_use
from ._patterns import pattern
from ._tokens import replaced, tokens
from ._words import BLANKS, lower
from ._xml import SheetLink, XmlError, XmlPage

_HEAD_PARTS = frozenset("head title meta link base style script noscript template".split())
# The elements of HTML whose content is text up to an end tag of theirs, for some browsers at least.
_RAW = frozenset("iframe noembed noframes noscript script style textarea title xmp".split())
# The element of which older browsers take the tags of a `style` away.
_SELECT = "select"
_NOTED = _RAW | {_SELECT}
# The elements of HTML without an end tag.
_VOID = frozenset(
    (
        *(
            "area base basefont bgsound br col embed frame hr img input keygen link meta param".split()
        ),
        *("source track wbr".split()),
    )
)
_STYLE = "style"
# The elements of HTML that are made anew where tags are nested wrongly.
_FORMATTING = frozenset("a b big code em font i nobr s small strike strong tt u".split())
# How often the elements of one tag are left as they are, before all formatting elements are.
_MOST_LEFT = 8
# The tokens in which a backslash escapes what else is markup.
_ESCAPABLE = frozenset("comment string bad-string url bad-url".split())
# What is written as an escape of CSS: control characters, which XML may not have, and which some
# encodings read as marks.
_CONTROLS = r"\0-\x08\x0b\x0e-\x1f\x7f-\x9f\ufffe\uffff"
_DECLARED = pattern(r"\ufeff?[\t\n\r ]*<\?xml[\t\n\r ]")
# What begins a tag, a comment or another declaration.
_MARKUP = pattern("<(?=[A-Za-z/!?])")
_MARKUP_OF_NAME = pattern("<(?=[A-Za-z])")
# What a page has if not all browsers may take the tag of a `style` for one of HTML.
_DRAWN = pattern("<(?:svg|math|frameset|select)", re.IGNORECASE | re.ASCII)
_NOSCRIPT = pattern("<noscript", re.IGNORECASE | re.ASCII)
_TAG_NAME = pattern(r"<[^\t\n\f\r />]+")

Span = Tuple[int, int]
_NONE: FrozenSet[str] = frozenset()
_NO_INDICES: FrozenSet[int] = frozenset()
# The namespace that is noted of every element of XML, whatever its own is.
_XML = MATH + 1
# The head of a page in HTML, which has one, comes after its root.
_HEAD = 1


class Content(NamedTuple):
    """A `style` element: its index, where it is, and where its content is. Of a `link` to a sheet
    also its `href`; an instruction that names one has that, and as its index -1, or after the root how many
    elements there are."""

    element: int
    span: Span
    inner: Span
    href: Optional[str] = None
    link: Optional[SheetLink] = None


_CONTROL = pattern(f"[{_CONTROLS}]")
_FOREIGN = pattern("[^\\t\\n\\f\\r -~]")
_WITHOUT_BLANKS = str.maketrans("", "", BLANKS)


def _escaped(found: Match[str]) -> Tuple[int, int, str]:
    """Returns where a character is, and its escape."""
    return found.start(), found.end(), f"\\{ord(found.group()):x} "


def written(css: str, lacking: FrozenSet[str] = _NONE) -> str:
    """Returns css with escapes for its control characters and for those that are lacking, which are
    not ASCII, and with a newline for each form feed."""
    if lacking:
        found = (each for each in _FOREIGN.finditer(css) if _is_unwritten(each.group(), lacking))
        css = replaced(css, map(_escaped, found))
    elif not css.translate(_WITHOUT_BLANKS).isprintable():
        css = replaced(css, map(_escaped, _CONTROL.finditer(css)))
    return css.replace("\f", "\n")


def _is_unwritten(character: str, lacking: FrozenSet[str]) -> bool:
    return character in lacking or _CONTROL.match(character) is not None


def style_text(css: str, names: FrozenSet[str], is_drawn: bool = False) -> str:
    """Returns css as the content of a `style` element, which nothing in it may end.

    Of HTML in which no references are read, `names` are the elements that an end tag could end: in
    a string, a comment or a `url()` it gets a backslash; anywhere else it raises `ValueError`. So
    does what could begin any markup, with an escape for its `<`, if the page has SVG or the like
    (`is_drawn`): some browsers end these elsewhere, and the style is one of theirs. Before a name a
    blank is enough. Without names, references are read.
    """
    if not names:
        return css.replace("&", "&amp;").replace("<", "&lt;").replace("]]>", "]]&gt;")
    if "<" not in css:
        return css
    if is_drawn:
        text = _with_escapes(css, lambda text: replaced(text, map(_marked, _MARKUP.finditer(text))))
        # As in `(400px<width)`.
        text = _MARKUP_OF_NAME.sub("< ", text)
        found = _MARKUP.search(text)
        if found:
            raise ValueError(f"`<{text[found.end()]}` outside of a string could begin markup")
        return text
    end = re.compile(f"<(?=(/(?:{'|'.join(sorted(names))})))", re.IGNORECASE | re.ASCII)
    text = _with_escapes(css, lambda text: end.sub(r"<\\", text))
    found = end.search(text)
    if found:
        raise ValueError(f"`<{found[1]}` outside of a string would end the element that it is in")
    return text


def _with_escapes(css: str, escaped: Callable[[str], str]) -> str:
    """Returns css with escapes in those of its tokens that may have some for markup."""
    return "".join(
        escaped(each.text) if each.kind in _ESCAPABLE else each.text for each in tokens(css)
    )


def _marked(found: Match[str]) -> Tuple[int, int, str]:
    return found.start(), found.end(), "\\3c "


class _Other:
    """What another reader than that of a page reads of its text as HTML: a browser whose scripts
    run, for which a `noscript` has no elements but text, or one that takes a drawing in XML for a
    page."""

    def __init__(self, text: str, has_scripts: bool) -> None:
        self._length = len(text)
        self._elements: Dict[Span, Tuple[str, int, Span]] = {}
        page = HtmlPage(text, has_scripts=has_scripts, leaves_templates=False)
        of_elements = zip(page.names(), page.spaces(), page.ends())
        for tag, element in zip(page.tags(), of_elements):
            self._elements.setdefault(tag, element)
        noscripts = (
            (tag[1], end[0])
            for tag, (name, space, end) in self._elements.items()
            if has_scripts and name == "noscript" and space == HTML and tag[0] >= 0
        )
        self._texts: List[Span] = sorted(noscripts)

    def is_text(self, tag: Span, end: int) -> bool:
        """Whether a tag, and what is up to an end, are in the text of a `noscript`."""
        at = bisect.bisect_right(self._texts, (tag[0], self._length))
        return at > 0 and max(tag[1], end) <= self._texts[at - 1][1]

    def is_alike(self, tag: Span, name: str, space: int, end: Span) -> bool:
        """Whether it reads the tag of an element alike, and where a `style` ends."""
        found = self._elements.get(tag)
        if found is None or name != "style":
            return found is not None and (space == _XML or found[:2] == (name, space))
        return found == (name, SVG if space == _XML else space, end)


# A mark of the order of bytes.
_MARK = "\ufeff"
# What a part of a table is in, by the name of its first element.
_FRONTS = {
    **dict.fromkeys(("caption", "colgroup", "tbody", "tfoot", "thead"), "<table>"),
    "col": "<table><colgroup>",
    "tr": "<table><tbody>",
    **dict.fromkeys(("td", "th"), "<table><tbody><tr>"),
}


def _front_of(text: str) -> str:
    """Returns what a part of a page is read after: it is HTML of the standard, and may be of a
    table."""
    try:
        page = HtmlPage("<template>" + text, leaves_templates=False)
    except LimitError:
        # Reading what is after it says so.
        return "<!DOCTYPE html>"
    names, parents = page.names(), page.parents()
    template = names.index("template")
    inner = (name for name, parent in zip(names, parents) if parent == template)
    first = next((name for name in inner if name not in _HEAD_PARTS), "")
    return "<!DOCTYPE html>" + _FRONTS.get(first, "")


class EditedPage:
    """A document in HTML or XML, which is edited in place."""

    def __init__(
        self,
        text: str,
        lacks: Callable[[str], bool] = lambda character: False,
        *,
        is_xml: bool = False,
        is_part: bool = False,
    ) -> None:
        """Takes a text, which characters its encoding lacks, whether it is XML, and whether it is a
        part of a page."""
        # Where what is before a part, and is not of it, begins and ends.
        start = len(_MARK) if is_part and text.startswith(_MARK) else 0
        front = _front_of(text[start:]) if is_part else ""
        self._front = (start, start + len(front))
        text = text[:start] + front + text[start:]
        self.text = text
        self.is_xml = is_xml
        # Whether browsers may read the document in different ways.
        self.is_doubtful = False
        # Where each element's start tag is, if the document has it for this element only or first,
        # and others read it alike: browsers with and without scripts, and those that show a drawing
        # in a page.
        self.tags: List[Optional[Span]] = []
        # Where each element's content ends.
        self._inner_ends = array.array("l")
        self._lacks = lacks
        # Some programs take what begins as XML for XML.
        self._is_drawn = bool(_DRAWN.search(text) or _DECLARED.match(text))
        # The namespace of each element, and which elements of raw text it is or is in.
        self._spaces = bytearray()
        self._raw: List[FrozenSet[str]] = []
        self.elements = Elements()
        # What is written in place of what.
        self._edits: List[Edit] = []
        # The index of each element's start tag among those of the page, or -1.
        self._tag_numbers: List[int] = []
        self._declared: Dict[int, Tuple[str, ...]] = {}
        # The elements whose own declarations are among those.
        self._with_own: Set[int] = set()
        self._changes: Dict[int, Dict[str, Optional[str]]] = {}
        # How often elements were left as they are, so that the tree stays the same.
        self._left = 0
        self._head_end = 0
        line_end = text.find("\n")
        self.newline = "\r\n" if line_end > 0 and text[line_end - 1] == "\r" else "\n"
        if is_xml:
            self._read_xml()
        else:
            self._read_html()
        self._having_elements = frozenset(self.elements.parents)

    def _read_html(self) -> None:
        page = HtmlPage(self.text)
        other = _Other(self.text, True) if _NOSCRIPT.search(self.text) else None
        self.is_doubtful = page.is_doubtful
        self.elements = Elements(page)
        self._head_end = max(page.head_end, self._front[1])
        self._spaces = page.spaces()
        ends = page.ends()
        self._inner_ends.extend(start for start, _ in ends)
        self._tag_numbers = page.tag_numbers()
        self._take_tags(page.tags())
        self._note_raw(_NO_INDICES if other is None else self._compared(ends, other))

    def _take_tags(self, tags: List[Span]) -> None:
        """Takes the start tags: each is of the first element that has it."""
        first = self._front[1]
        seen: Set[int] = set()
        for tag in tags:
            is_own = tag[0] >= first and tag[0] not in seen
            seen.add(tag[0])
            self.tags.append(tag if is_own else None)

    def _note_raw(self, texts: AbstractSet[int]) -> None:
        """Notes which elements of raw text each element is or is in, of which `texts` are in the text
        of a `noscript`."""
        raw = self._raw
        for index, (name, parent) in enumerate(zip(self.elements.names, self.elements.parents)):
            found = raw[parent] if parent >= 0 else _NONE
            if name in _NOTED and self._spaces[index] == HTML:
                found |= {name}
            raw.append(found | {"noscript"} if index in texts else found)

    def _compared(self, ends: List[Span], other: _Other) -> Set[int]:
        """Leaves out the tags that another reader reads otherwise. Returns the elements that are in
        the text of a `noscript` for it."""
        texts: Set[int] = set()
        names, spaces = self.elements.names, self._spaces
        for index, tag in enumerate(self.tags):
            if tag is None:
                continue
            if other.is_text(tag, ends[index][1] if names[index] == _STYLE else tag[1]):
                texts.add(index)
            elif not other.is_alike(tag, names[index], spaces[index], ends[index]):
                self.tags[index] = None
        return texts

    def _read_xml(self) -> None:
        try:
            page = XmlPage(self.text)
        except XmlError as error:
            raise TreeError(error.reason, error.row, error.column) from None
        other = None if _DECLARED.match(self.text) else _Other(self.text, False)
        self.elements.take_document(page)
        self._tag_numbers = list(range(len(page)))
        self._raw = [_NONE] * len(page)
        self._spaces = bytearray([_XML]) * len(page)
        for tag, end, name in zip(page.tags(), page.ends(), page.names()):
            is_alike = other is None or other.is_alike(tag, name, _XML, end)
            self.tags.append(tag if is_alike else None)
            self._inner_ends.append(end[0])

    def _end(self, index: int) -> Span:
        """Returns where the end tag of an element is, or twice where it ends without one."""
        return self._inner_ends[index], self.elements.end_at(index)

    def _has_end(self, index: int) -> bool:
        """Whether an element has an end tag."""
        start, end = self._end(index)
        return start < end

    # ---- style elements

    @functools.cached_property
    def styles(self) -> List[Content]:
        """The `style` elements that the document has tags for."""
        return [
            Content(index, (tag[0], self._end(index)[1]), (tag[1], self._end(index)[0]))
            for index, (name, tag) in enumerate(zip(self.elements.names, self.tags))
            if name == _STYLE and tag is not None and self._spaces[index] != MATH
        ]

    @functools.cached_property
    def sources(self) -> List[Content]:
        """The `style` elements and the links to style sheets that may be written anew, in order."""
        links = [
            Content(
                index,
                tag,
                tag,
                self.elements.plain[index].get("href", "").strip(BLANKS),
            )
            for index, (name, tag) in enumerate(zip(self.elements.names, self.tags))
            if name == "link" and tag is not None and self._is_sheet_link(index)
        ]
        found = (each for each in (*self.styles, *links) if _SELECT not in self._raw[each.element])
        every = [*found, *self._instructions(False), *self._instructions(True)]
        return sorted(every, key=lambda each: each.element)

    def _instructions(self, is_last: bool) -> Iterator[Content]:
        """Yields the instructions before the root, or after it, whose sheets are in use."""
        index = len(self.elements) if is_last else -1
        for each in links_in_use(self.elements, is_last):
            yield Content(index, each.span, each.span, each.href, each)

    def _is_sheet_link(self, index: int) -> bool:
        """Whether a link is one to a style sheet that may be in use."""
        if self.elements.page_sheets is not None:
            kind = self.elements.page_sheets.get(index, 0)
            return bool(kind & SHEET_LINK) and kind & (ALTERNATIVE | IN_USE) != ALTERNATIVE
        attributes = self.elements.plain[index]
        is_link = self._spaces[index] in (HTML, _XML) and is_sheet_link(attributes)
        return is_link and (not is_alternate(attributes) or index in self._in_use)

    @functools.cached_property
    def _in_use(self) -> FrozenSet[int]:
        """The elements whose sheets are in use, also alternates of the title that is."""
        return frozenset(in_use(self.elements))

    def sheet_of(self, content: Content) -> str:
        """Returns the sheet of a `style` element."""
        if self._spaces[content.element] == SVG:
            return self.elements.own_text_of(content.element)
        if self.is_xml:
            return self.elements.own_text_of(content.element).replace("\n", self.newline)
        return self.text[content.inner[0] : content.inner[1]]

    def set_sheet(self, content: Content, css: str) -> None:
        """Replaces the sheet of a `style` element; without one the element goes, if it is in the
        head, where no selector can notice."""
        if content.href is not None:
            self._replace_link(content, css)
        elif css:
            text = self._style_text(css, content.element)
            self._edit(_edits.TEXT, content.inner, f"{self.newline}{text}{self.newline}", content)
        elif self._may_go(content):
            self._edit(_edits.TAKE_OUT, content.span, "", content)
        else:
            self._edit(_edits.TEXT, content.inner, "", content)

    def _replace_link(self, content: Content, css: str) -> None:
        if content.link is not None:
            self._edit(_edits.TAKE_OUT_INSTRUCTION, content.span, "")
            if css:
                self.add_sheet(css)
        elif css or not self._may_go(content):
            self._edit(_edits.REPLACE, content.span, self._new_text(css, content.element), content)
        else:
            self._edit(_edits.TAKE_OUT, content.span, "", content)

    def _style_text(self, css: str, index: int) -> str:
        """Returns css as the content of the `style` element of this index, or that takes its
        place."""
        others = () if css.isascii() else set(css)
        lacking = (each for each in others if not each.isascii() and self._lacks(each))
        css = written(css, frozenset(lacking))
        if self.is_xml:
            return css
        if self._spaces[index] != HTML:
            return style_text(css, _NONE)
        return style_text(css, self._raw[index] | {"style"}, self._is_drawn)

    def _new_text(self, css: str, index: int) -> str:
        """Returns the text of a new `style` element beside the element of this index."""
        text = self._style_text(css, index).replace("\r\n", "\n")
        return f"\n{text}\n".replace("\n", self.newline) if css else ""

    def _is_in_head(self, index: int) -> bool:
        """Whether an element is where a new `style` element may be: in the head, or in a drawing
        that is the document."""
        parent = self.elements.parents[index]
        if parent < 0 or self._spaces[parent] not in (HTML, _XML):
            return False
        is_drawing = self._spaces[0] == _XML and self.elements.names[0] == "svg"
        return self.elements.names[parent] in (("svg", "defs") if is_drawing else ("head",))

    def _may_go(self, content: Content) -> bool:
        """Whether no selector notices that an element is missing, and no text joins another
        then."""
        start = content.span[0]
        parent = self.elements.parents[content.element]
        is_drawn = parent >= 0 and self.elements.names[parent] in ("svg", "defs")
        is_apart = self.text[start - 1 : start] in ("", "\ufeff", ">", *BLANKS)
        return is_apart and (is_drawn or self._is_in_head(content.element))

    def add_sheet(self, css: str) -> None:
        """Adds a `style` element before the others, else at the end of the head."""
        if self.is_xml:
            offset, prefix = self._place_in_xml()
        else:
            offset, prefix = self._place_in_head(), ""
        text = self._new_text(css, 0 if self.is_xml else _HEAD)
        self._edits.append(Edit(_edits.PUT_IN, offset, offset, -1, prefix, text))

    def _place_in_head(self) -> int:
        """Returns where a new `style` element goes: before the other sheets of the head, and before
        what would take it in, as an element that the end of the document closes."""
        names = self.elements.names
        sheets = {each.element for each in self.sources}
        for index in range(_HEAD + 1, len(names)):
            tag, parent = self.tags[index], self.elements.parents[index]
            if parent < _HEAD:
                break
            if parent != _HEAD or tag is None:
                continue
            is_closed = names[index] in _VOID or self._has_end(index)
            if index in sheets or names[index] in ("noscript", "template") or not is_closed:
                return min(tag[0], self._head_end)
        return self._head_end

    def _place_in_xml(self) -> Tuple[int, str]:
        """Returns where a new `style` element goes in XML, and its prefix."""
        for content in self.sources:
            if content.link is None and self._is_in_head(content.element):
                return content.span[0], self._prefix(content.span[0])
        is_drawing = self.elements.names[0] == "svg"
        for index, name in enumerate(() if is_drawing else self.elements.names):
            tag = self.tags[index]
            if name == "head" and tag is not None and self._has_end(index):
                return self._inner_ends[index], self._prefix(tag[0])
        root = self.tags[0]
        if root is None or self.text.endswith("/>", 0, root[1]):
            raise ValueError("the document has no content that a style element could be in")
        return root[1], self._prefix(root[0])

    def _prefix(self, start: int) -> str:
        """Returns the prefix of the name of a tag."""
        name = _TAG_NAME.match(self.text, start)
        return name.group()[1:].rpartition(":")[0] if name else ""

    def is_plain(self, content: Content) -> bool:
        """Whether a `style` element is a style sheet for all media that no title names, and has no
        elements."""
        if content.link is not None:
            # One after the root comes after all `style` elements.
            is_alone = not content.link.is_last and not content.link.title
            return is_alone and self._media(content) in ("", "all")
        attributes = self.elements.plain[content.element]
        if "title" in attributes or "disabled" in attributes:
            return False
        if content.element in self._having_elements:
            return False
        return self.is_style_sheet(content) and self._media(content) in ("", "all")

    def is_style_sheet(self, content: Content) -> bool:
        """Whether an element is a style sheet, for some media at least."""
        if content.href is not None:
            return True
        kind = self.elements.plain[content.element].get("type", "")
        return lower(kind) in ("", "text/css")

    def _media(self, content: Content) -> str:
        attributes = self.elements.plain[content.element] if content.link is None else {}
        media = content.link.media if content.link is not None else attributes.get("media", "")
        return lower(media.strip(BLANKS))

    # ---- attributes

    def shown(self) -> List[bool]:
        """Returns of each element whether it may be shown: is not in the head, and no style."""
        found: List[bool] = []
        for name, parent in zip(self.elements.names, self.elements.parents):
            found.append((parent < 0 or found[parent]) and name not in _HEAD_PARTS)
        return found

    def add_declarations(
        self, indices: Iterable[int], declarations: List[str], *, has_own: bool
    ) -> None:
        """Writes declarations into the `style` attributes of elements, before their own, or in place
        of them if they are among these."""
        texts = tuple(map(written, declarations))
        self._declared.update(dict.fromkeys(indices, texts))
        if has_own:
            self._with_own.update(indices)

    def set_attribute(self, index: int, name: str, value: Optional[str]) -> None:
        """Sets an attribute of an element that has a tag, or removes it for `None`."""
        self._changes.setdefault(index, {})[name] = value

    def _edit(self, kind: int, span: Span, text: str, content: Optional[Content] = None) -> None:
        """Notes an edit, of the element of a sheet if it is one."""
        has_tag = content is not None and bool(self._tag_numbers)
        tag = self._tag_numbers[content.element] if content is not None and has_tag else -1
        self._edits.append(Edit(kind, *span, tag, "", text))

    def leave(self, tag: int) -> bool:
        """Leaves elements as they are, and forgets all edits: those with this tag, or near it, and where many
        were left, all formatting elements, and then all but sheets. Returns whether one was edited.
        """
        sheets = {each.element for each in self.sources}
        free = [index for index in range(len(self.tags)) if index not in sheets]
        names = self.elements.names
        self._left += 1
        kinds = (
            self._edited_near(tag) if self._left <= _MOST_LEFT else [],
            [index for index in free if names[index] in _FORMATTING],
            free,
        )
        return any(self._leave(indices) for indices in kinds)

    def _edited_near(self, tag: int) -> List[int]:
        """Returns the edited element with this tag, or the formatting element that is nearest to it."""
        numbers, names, changed = self._tag_numbers, self.elements.names, self._changed()
        own = [index for index in changed if numbers[index] == tag]
        formatting = [index for index in changed if names[index] in _FORMATTING]
        return own or sorted(formatting, key=lambda index: abs(numbers[index] - tag))[:1]

    def _leave(self, indices: List[int]) -> bool:
        """Leaves elements as they are, and forgets all edits. Returns whether one of them was edited."""
        found = any(self.tags[index] is not None for index in indices)
        for index in indices:
            self.tags[index] = None
        self._edits, self._declared, self._changes = [], {}, {}
        self._with_own = set()
        return found

    def edited(self) -> str:
        """Returns the text with all edits."""
        changes = [each for index in self._changed() for each in self._changes_of(index)]
        text = _edits.edited(self.text, [*self._edits, *changes], self.is_xml)
        return text[: self._front[0]] + text[self._front[1] :]

    def _changed(self) -> List[int]:
        """Returns the elements whose tags change."""
        return [each for each in sorted({*self._declared, *self._changes}) if self.tags[each]]

    def _changes_of(self, index: int) -> Iterator[Edit]:
        """Yields the changes of the attributes of an element."""
        tag, number = self.tags[index], self._tag_numbers[index]
        if tag is None:
            return
        declared = "; ".join(self._declared.get(index, ()))
        if declared:
            kind, text = self._new_style_of(index, declared, self.text[tag[0] : tag[1]])
            yield Edit(kind, *tag, number, _STYLE, text)
        for name, value in self._changes.get(index, {}).items():
            yield Edit(
                _edits.REMOVE if value is None else _edits.SET, *tag, number, name, value or ""
            )

    def _new_style_of(self, index: int, declared: str, tag: str) -> Tuple[int, str]:
        """Returns what becomes of the attribute `style` of an element that gets declarations."""
        own = self.elements.plain[index].get(_STYLE, "")
        if index in self._with_own or not own.strip(BLANKS):
            return _edits.SET, declared
        # That of a second tag of the element, if its own tag has none.
        is_own = self.is_xml or any(each.name == _STYLE for each in attributes_of(tag))
        return (_edits.BEFORE, f"{declared}; ") if is_own else (_edits.SET, f"{declared}; {own}")
