"""The sheets of a page: those in it, those that it links to, and those that these import."""

from __future__ import annotations

import itertools
import os
from typing import (
    TYPE_CHECKING,
    Callable,
    Dict,
    Iterable,
    Iterator,
    List,
    NamedTuple,
    Optional,
    Sequence,
    Tuple,
    Union,
)

from . import _library as library
from ._elements import Elements
from ._html import IN_USE
from ._kept import IMPORTS, KeptSheet
from ._lines import Lines
from ._device import LAYER
from ._reading import (
    Condition,
    Fault,
    Outer,
    ReadAtRule,
    Source,
    Span,
    Statement,
    read_sheet,
)
from ._tokens import decoded
from ._urls import SCHEME, joined
from ._words import BLANKS, lower, words_of
from ._xml import SheetLink

if TYPE_CHECKING:
    from pathlib import Path

# How deep sheets import one another, and how many that a page names are read.
_DEEPEST, _MOST_SHEETS = 16, 256
# How many times a character counts of a sheet that was read before.
_AGAIN = 10
_DATA = "data:"

Name = Union[str, "os.PathLike[str]"]
Load = Callable[[str], Optional[str]]


class Unread(NamedTuple):
    """A sheet that a page names and that was not read.

    `url` is as the page writes it, and `reason` says why.
    """

    url: str
    reason: str


class _Refused(Exception):
    """Why a sheet is not read."""


def _url_of(name: Name) -> str:
    """Returns the url of a page or a folder, of which a path or the url itself is given."""
    text = os.fspath(name)
    # A letter and a colon begin a path on Windows.
    has_scheme = SCHEME.match(text) and not text[1:2] == ":"
    if has_scheme:
        return text
    from pathlib import Path

    return Path(os.path.abspath(text)).as_uri()


def _of_data(url: str) -> str:
    """Returns the sheet that a url of data has."""
    import base64
    import urllib.parse

    kind, comma, text = url[len(_DATA) :].partition("#")[0].partition(",")
    data = urllib.parse.unquote_to_bytes(text)
    words = [each.strip(BLANKS) for each in lower(kind).split(";")]
    if not comma or words[0] != "text/css":
        raise _Refused("its type is not text/css")
    return (base64.b64decode(data) if words[-1] == "base64" else data).decode("utf-8-sig")


def _is_of_data(url: str) -> bool:
    """Whether a url has the sheet itself."""
    return lower(url[: len(_DATA)]) == _DATA


def _is_of_top(url: str) -> bool:
    """Whether a url is taken from the top folder."""
    return url.startswith("/") and not url.startswith("//")


class Shelf:
    """Where the sheets that a page names are: in a folder, or what a callable returns for their
    urls. Without these, only those of data are read."""

    def __init__(
        self,
        at: Optional[Name] = None,
        folder: Optional[Name] = None,
        load: Optional[Load] = None,
        limit: int = library.USUAL_ANSWER_LIMIT,
    ) -> None:
        """Takes where the page is, which is the folder itself if it is not said."""
        self._folder: Optional[Path] = None
        if folder is not None:
            # This module and some others take long to import.
            from pathlib import Path

            self._folder = Path(folder).resolve()
        self._load = load
        top = "" if folder is None else _url_of(folder).rstrip("/") + "/"
        self._base = self._page = top if at is None else _url_of(at)
        # What all together may have.
        self.room = library.Room(limit, "characters of linked sheets")
        self.unread: List[Unread] = []
        # How many sheets the page has named.
        self._count = 0
        # The sheets that were asked for, or why there is none, by their names; and their files.
        self._answers: Dict[str, Tuple[Optional[str], str]] = {}
        self.files: Dict[str, Path] = {}
        # The numbers of the layers without a name that sheets are imported into.
        self.layers = itertools.count(1)

    def take_base(self, elements: Elements) -> None:
        """Takes what the `base` of a page says, if it has one."""
        href = elements.plain[elements.base]["href"].strip(BLANKS) if elements.base >= 0 else ""
        self._base = joined(self._base, href) if href else self._base

    def before_base(self, url: str) -> str:
        """Returns a url that a page names before its `base`, which is not taken from that."""
        return url if self._base == self._page else joined(self._page, url)

    def place_of(self, url: str) -> str:
        """Returns the whole url of a sheet."""
        return joined(self._base, url)

    def name_of(self, url: str) -> str:
        """Returns the whole url of a sheet without its fragment, and that of a file without its query: of
        two urls that differ in that alone the sheet is the same."""
        if self._load is not None or _is_of_data(url):
            return self.place_of(url).partition("#")[0]
        place = url if _is_of_top(url) else self.place_of(url)
        return place.partition("#")[0].partition("?")[0]

    @property
    def is_full(self) -> bool:
        """Whether the page has named as many sheets as are read."""
        return self._count >= _MOST_SHEETS

    def may_add(self, url: str) -> bool:
        """Whether one more sheet may be read that the page names. If not, notes that it is not read."""
        if self.is_full:
            self.refuse(url, f"the page names more than {_MOST_SHEETS} sheets")
            return False
        self._count += 1
        return True

    def read(self, url: str) -> Optional[str]:
        """Returns the sheet that the page names by a url, or `None`, and notes why it is not read."""
        return self.find(url) if self.may_add(url) else None

    def find(self, url: str) -> Optional[str]:
        """Returns the sheet at a url, or `None`, and notes why it is not read. Each is asked for once."""
        name = self.name_of(url)
        known = self._answers.get(name)
        if known is None:
            known = self._answers[name] = self._answer(url, name)
        elif known[0] is not None:
            self.room.take(_AGAIN * len(known[0]))
        css, reason = known
        if css is None:
            self.refuse(url, reason)
        return css

    def _answer(self, url: str, name: str) -> Tuple[Optional[str], str]:
        """Returns the sheet at a url, or `None` and why it is not read."""
        try:
            if _is_of_data(url):
                self.room.take(len(url))
                return _of_data(url), ""
            return (self._loaded(url) if self._load is not None else self._of_file(url, name), "")
        except library.LimitError:
            raise
        except _Refused as error:
            return None, str(error)
        except UnicodeDecodeError:
            return None, "its file is not UTF-8"
        except (OSError, RuntimeError, ValueError):
            return None, "its file cannot be read"

    def refuse(self, url: str, reason: str) -> None:
        """Notes why a sheet is not read."""
        self.unread.append(Unread(url, reason))

    def _loaded(self, url: str) -> str:
        assert self._load is not None
        css = self._load(self.place_of(url))
        if css is None:
            raise _Refused("`load` has no sheet for it")
        library.expect_text(css)
        self.room.take(len(css))
        return css

    def _of_file(self, url: str, name: str) -> str:
        file = self._file_of(url)
        self.room.take(file.stat().st_size)
        css = file.read_bytes().decode("utf-8-sig")
        self.files[name] = file
        return css

    def _file_of(self, url: str) -> Path:
        """Returns the file in the folder that a url leads to, if there is one whose name is that of
        a style sheet. One that the system refuses raises an error."""
        if self._folder is None:
            raise _Refused("no folder is given for it")
        import urllib.parse
        from pathlib import PurePosixPath

        is_of_top = _is_of_top(url)
        found = urllib.parse.urlsplit(url if is_of_top else self.place_of(url))
        base = urllib.parse.urlsplit(self._base)
        path = urllib.parse.unquote(found.path)
        if not is_of_top and (found.scheme, found.netloc) != (base.scheme, base.netloc):
            raise _Refused("it is elsewhere, and nothing is fetched")
        if lower(PurePosixPath(path).suffix) != ".css":
            raise _Refused("its name does not end in .css")
        # On Windows a backslash begins the name of another machine, which would be asked.
        if "\\" in path or path.startswith("//"):
            raise _Refused("it is not in the folder")
        is_path = base.scheme == "file" and not is_of_top
        # On Windows the path of a file's url is `/C:/..`.
        name = path if is_path and path[2:3] != ":" else path.lstrip("/")
        file = (self._folder / name).resolve()
        if self._folder not in file.parents:
            raise _Refused("it is not in the folder")
        if not file.is_file():
            raise _Refused("there is no such file")
        return file


class PageSheet(NamedTuple):
    """A sheet of a page: what it has, the group rules that all of it is in, and its url, if it has
    one; where the first sheet is imported that it imports, and how many sheets before it come from
    that and others; and where it imports sheets that were not read."""

    source: Source
    statements: List[Statement]
    around: Tuple[Outer, ...]
    url: Optional[str]
    start: int = 0
    imports: int = 0
    left: Tuple[Span, ...] = ()


class Import(NamedTuple):
    """An `@import` that is in force: where it is, its url, the name of its layer, which is empty if it
    has none, its condition of `supports()` and its media queries."""

    span: Span
    url: str
    layer: Optional[str]
    supports: Optional[str]
    media: str

    def conditions(self) -> Tuple[Outer, ...]:
        """Returns the group rules that its conditions are."""
        found = around_of(self.media)
        if self.supports is None:
            return found
        return (*found, Outer(Condition("supports", f"({self.supports})")))

    def around(self, shelf: Shelf) -> Tuple[Outer, ...]:
        """Returns the group rules that the sheet is in: its layer is in its conditions."""
        if self.layer is None:
            return self.conditions()
        number = 0 if self.layer else next(shelf.layers)
        return (*self.conditions(), Outer(Condition(LAYER, self.layer), number))


def imports_in(css: str) -> List[Import]:
    """Returns the `@import`s of a sheet that are in force."""
    data = library.encode(css)
    if b"@" not in data:
        return []
    with KeptSheet(data) as sheet:
        lines = Lines(sheet.text(IMPORTS))
    found: List[Import] = []
    while lines.are_left():
        (
            start,
            size,
            is_string,
            url,
            layer,
            layer_length,
            is_supports,
            supports,
            media,
        ) = lines.numbers()
        address = decoded(lines.text(url), is_string == 1)
        name, condition, queries = map(lines.text, (layer_length, supports, media))
        lines.end_line()
        found.append(
            Import(
                (start, start + size),
                address,
                name if layer else None,
                condition if is_supports else None,
                queries,
            )
        )
    return found


def is_sheet_link(attributes: Dict[str, str]) -> bool:
    """Whether a `link` with these attributes is one to a style sheet."""
    words = words_of(lower(attributes.get("rel", "")))
    kind = lower(attributes.get("type", "")).partition(";")[0].strip(BLANKS)
    return "stylesheet" in words and "disabled" not in attributes and kind in ("", "text/css")


def is_alternate(attributes: Dict[str, str]) -> bool:
    """Whether a sheet is used only where its title is chosen."""
    return "alternate" in words_of(lower(attributes.get("rel", "")))


def around_of(media: str) -> Tuple[Outer, ...]:
    """Returns the group rule that the attribute `media` is."""
    media = media.strip(BLANKS)
    return () if lower(media) in ("", "all") else (Outer(Condition("media", media)),)


def _is_style(attributes: Dict[str, str]) -> bool:
    """Whether a `style` element is a style sheet."""
    return lower(attributes.get("type", "")) in ("", "text/css")


def _is_sheet(elements: Elements, index: int) -> bool:
    """Whether an element is a style sheet or a link to one."""
    name, attributes = elements.names[index], elements.plain[index]
    if name == "link":
        has_url = bool(attributes.get("href", "").strip(BLANKS))
        return has_url and is_sheet_link(attributes) and index not in elements.drawn
    return name == "style" and _is_style(attributes)


def in_use(elements: Elements) -> List[int]:
    """Returns the elements `style` and `link` whose sheets are in use (CSSOM, "add a CSS style
    sheet"): those without a title, and those of the first title of one that is no alternate. Of a page in
    HTML the library says it.
    """
    if elements.page_sheets is not None:
        return [index for index, kind in elements.page_sheets.items() if kind & IN_USE]
    found = [
        (index, elements.plain[index].get("title", ""))
        for index, name in enumerate(elements.names)
        if name in ("style", "link") and index not in elements.formulas
        if _is_sheet(elements, index)
    ]
    others = {
        index
        for index, _ in found
        if elements.names[index] == "link" and is_alternate(elements.plain[index])
    }
    titles = [title for index, title in found if index not in others]
    preferred = next(filter(None, _with_links(elements, titles)), "")
    return [
        index for index, title in found if (title == preferred if title else index not in others)
    ]


def _with_links(elements: Elements, titles: Sequence[str]) -> Iterator[str]:
    """Yields titles of elements, and those of the instructions before and after these, that are no
    alternates."""
    links = [each for each in elements.links if not each.is_alternate]
    yield from (each.title for each in links if not each.is_last)
    yield from titles
    yield from (each.title for each in links if each.is_last)


def links_in_use(elements: Elements, is_last: bool) -> List[SheetLink]:
    """Returns the instructions before the root of a document, or after it, whose sheets are in use."""
    if not elements.links:
        return []
    used = in_use(elements)
    titles = [elements.plain[index].get("title", "") for index in used]
    preferred = next(filter(None, _with_links(elements, titles)), "")
    return [
        each
        for each in elements.links
        if each.is_last == is_last
        if (each.title == preferred if each.title else not each.is_alternate)
    ]


def _sheets_of_links(links: Iterable[SheetLink], shelf: Shelf) -> Iterator[PageSheet]:
    """Yields the sheets that instructions name."""
    for each in links:
        url = each.href if each.is_last else shelf.before_base(each.href)
        css = shelf.read(url)
        if css is not None:
            yield from _with_imports(css, url, around_of(each.media), shelf, ())


def sheets_of(elements: Elements, shelf: Shelf) -> Iterator[PageSheet]:
    """Yields the sheets of a page in the order of the cascade."""
    shelf.take_base(elements)
    yield from _sheets_of_links(links_in_use(elements, False), shelf)
    for index in in_use(elements):
        attributes = elements.plain[index]
        url = attributes.get("href", "").strip(BLANKS) if elements.names[index] == "link" else None
        css = elements.own_text_of(index) if url is None else None
        if url:
            css = shelf.read(shelf.before_base(url) if index < elements.base else url)
        if css is not None:
            yield from _with_imports(css, url, around_of(attributes.get("media", "")), shelf, ())
    yield from _sheets_of_links(links_in_use(elements, True), shelf)


def _with_imports(
    css: str,
    url: Optional[str],
    around: Tuple[Outer, ...],
    shelf: Shelf,
    above: Tuple[str, ...],
) -> Iterator[PageSheet]:
    """Yields a sheet after those that it imports. One that is being imported is not imported again. One
    that is not read is as an empty one, if it is in a layer."""
    source, statements = read_sheet(css)
    above = (*above, shelf.name_of(url or ""))
    rules, count = imports_in(css), 0
    left: List[Span] = []
    for each in rules:
        found = imported(each, url, shelf, above)
        if found is None:
            left.append(each.span)
        if found is None and (each.layer is None or shelf.is_full):
            continue
        inner = around + each.around(shelf)
        text, place = ("", None) if found is None else found
        for sheet in _with_imports(text, place, inner, shelf, above):
            count += 1
            yield sheet
    start = rules[0].span[0] if rules else 0
    yield PageSheet(source, statements, around, url, start, count, tuple(left))


class Piece(NamedTuple):
    """A piece of a text: the number of the text, and the bytes from which and before which it is."""

    text: int
    start: int
    end: int


def pieces_of(sheets: Sequence[PageSheet]) -> Tuple[Piece, ...]:
    """Returns the pieces of sheets in the order of the cascade: what is before the imports of a sheet
    is before the sheets that it imports, too."""
    fronts: Dict[int, List[Piece]] = {}
    for number, each in reversed(list(enumerate(sheets))):
        if each.imports and each.start:
            piece = Piece(number, 0, each.start)
            fronts.setdefault(number - each.imports, []).append(piece)
    found: List[Piece] = []
    for number, each in enumerate(sheets):
        found += fronts.get(number, [])
        start = each.start if each.imports else 0
        found.append(Piece(number, start, len(each.source.data)))
    return tuple(found)


class Imported(NamedTuple):
    """A sheet that another one imports: its text and its url."""

    css: str
    url: str


def in_force(statements: Iterable[Statement], imports: Iterable[Import]) -> Iterator[Statement]:
    """Yields statements without each `@import` that is not one of these, and each `@namespace` that is
    too late to say anything: it would say it if what is before it were not there."""
    front = ["charset", "layer", "import", "namespace"]
    spans = {each.span for each in imports}
    for each in statements:
        name = each.rule.name if isinstance(each, ReadAtRule) and not each.levels else ""
        is_late = each.span not in spans if name == "import" else name not in front
        if name in ("import", "namespace") and is_late:
            continue
        if name == "namespace":
            front = ["charset", "namespace"]
        elif name not in front and not (isinstance(each, Fault) and not each.levels):
            front = []
        yield each


def imported(
    found: Import, url: Optional[str], shelf: Shelf, above: Tuple[str, ...]
) -> Optional[Imported]:
    """Returns the sheet that a rule imports into that of a url, within those above, or `None`. One
    of those above is imported as an empty one."""
    if not found.url:
        shelf.refuse(found.url, "its url is empty")
        return None
    if not shelf.may_add(found.url):
        return None
    place = joined(url or "", found.url)
    if shelf.name_of(place) in above:
        return Imported("", place)
    if len(above) >= _DEEPEST:
        shelf.refuse(found.url, f"it is imported through {_DEEPEST} others")
        return None
    css = shelf.find(place)
    return None if css is None else Imported(css, place)
