"""What the commands do with one page or sheet, each apart from the others."""

from __future__ import annotations

import argparse
import codecs
import functools
import os
import sys
from pathlib import Path
from typing import Any, Dict, Iterator, List, NamedTuple, Optional

from . import _explained, _lint
from ._bundling import bundled, prefixed, rebase_urls, scoped
from ._clean import Cleaned, Policy, clean, clean_style, is_clean, is_clean_style
from ._compare import compare
from ._declaration import Declaration
from ._device import Device, Media
from ._elements import TreeError
from ._editing import Edit
from ._explaining import Explanation
from ._placed import Place
from ._imports import LOSES
from ._inline import inline
from ._library import InternalError, LibraryError, LimitError, Room, most_written
from ._linked import Name, Shelf, Unread, sheets_of
from ._maps import data_url
from ._minify import prettify, short_text
from ._output import json_line, printable, printable_lines
from ._selectors import SelectorError
from ._sheet import StyleSheet, explaining_of, sheet_of_texts
from ._split import NotWritten
from ._tree import Element, Tree, elements_of
from ._words import words_of
from ._writing import write_file
from ._xml import is_xml
from ._encoding import EncodingError, decode_page, text_of_page

# The fields of a device that are its size.
_SIZE = frozenset(("width", "height"))

DONE = 0
REFUSED = 1
USAGE = 2
OUT_OF_MEMORY = 3
UNREADABLE = 4

_CHILD = " > "
# How many characters the path of an element may have.
_LONGEST_PATH = 2_000
# The name of standard input.
INPUT = "-"


class Failure(Exception):
    """What to say on standard error, and the exit status."""

    def __init__(self, message: str, status: int) -> None:
        super().__init__(message)
        self.status = status


class Outcome(NamedTuple):
    """What comes of a page: its name, what is written, what to say on standard error, the status,
    how many elements were found, and the mistakes that were."""

    name: str
    output: bytes = b""
    messages: List[str] = []
    status: int = DONE
    found: int = 0
    mistakes: List[_lint.Finding] = []


class Job:
    """What a command does with a page, which may be in another process."""

    def __init__(self, words: argparse.Namespace, is_terminal: bool) -> None:
        # Another process has no use for the functions.
        kept = {key: value for key, value in vars(words).items() if not callable(value)}
        self.words = argparse.Namespace(**kept)
        self._is_terminal = is_terminal
        self._parts: List[str] = []
        self._messages: List[str] = []

    def __call__(self, name: str) -> Outcome:
        """Does it with the page of a name."""
        self._parts, self._messages = [], []
        try:
            return self._do(name)
        except Failure as failure:
            message, status = str(failure), failure.status
        except (LimitError, TreeError) as error:
            message, status = str(error), REFUSED
        except UnicodeEncodeError:
            message, status = "a word or a name of a file is not UTF-8", USAGE
        except MemoryError:
            message, status = "out of memory", OUT_OF_MEMORY
        except LibraryError as error:
            message, status = str(error), UNREADABLE
        except InternalError as error:
            message, status = f"a mistake in simplecss itself: {error}", UNREADABLE
        return Outcome(name, b"", [*self._messages, message], status)

    def _do(self, name: str) -> Outcome:
        raise NotImplementedError

    def _outcome(self, name: str, **more: Any) -> Outcome:
        """Returns what was written and said."""
        # A name of a file may be no text.
        output = "".join(self._parts).encode("utf-8", "surrogateescape")
        return Outcome(name, output, self._messages, **more)

    # ---- what is read

    def _is_xml(self, name: str) -> bool:
        return self.words.xml or is_xml(name)

    def _place(self, name: str) -> Optional[str]:
        """Returns where a page is, if it is a file."""
        return None if name == INPUT else name

    def _folder(self, name: str) -> Optional[Name]:
        """Returns the folder of the sheets that a page names: that of the words, or its own."""
        folder: Optional[str] = self.words.folder
        is_named = folder is not None or name == INPUT
        return folder if is_named else os.path.dirname(name) or "."

    def _page(self, name: str) -> str:
        """Returns the text of a page."""
        return read_page(name, self._is_xml(name))

    def _tree(self, name: str, text: str) -> Tree:
        """Returns the tree of a page."""
        return tree_of(name, text, self._is_xml(name))

    def _sheet(self, name: str, tree: Tree) -> StyleSheet:
        """Returns the sheet of files, or of a page if there are none."""
        grammar = self.words.grammar
        if self.words.sheets:
            return sheet_of_texts(map(read, self.words.sheets), grammar=grammar)
        place, folder = self._place(name), self._folder(name)
        sheet = StyleSheet.of_page(tree, at=place, folder=folder, grammar=grammar)
        self._say_unread(name, sheet.unread)
        return sheet

    def _device(self) -> Device:
        """Returns the device that the words name."""
        words = self.words
        return Device(words.width, words.height, words.media, dark=words.dark)

    def _say_unread(self, name: str, unread: "tuple[Unread, ...]") -> None:
        """Says which sheets were not read."""
        for each in unread:
            self._messages.append(f"{name}: '{each.url}' is not read: {each.reason}")

    # ---- what is written

    def _write(self, text: str) -> None:
        self._parts.append(text)

    def _bold(self, text: str) -> str:
        """Returns the text in bold on a terminal."""
        return f"\033[1m{text}\033[0m" if self._is_terminal else text

    def _position(self, name: str, element: Element) -> str:
        """Returns `file:row:column`, as far as it is known."""
        row = element.row
        name = printable(name)
        return self._bold(name if row is None else f"{name}:{row}:{element.column}")

    def _shown(self, text: str) -> str:
        """Returns data of a page as it is, or on a terminal without what could be a command to
        it."""
        return printable_lines(text) if self._is_terminal else text


class Match(Job):
    """Writes which rules match each element."""

    def _do(self, name: str) -> Outcome:
        text = self._page(name)
        tree = self._tree(name, text)
        sheet = self._sheet(name, tree)
        room = Room(most_written(len(text)), "characters")
        for element, found in zip(tree, sheet.match(tree, media=self._device())):
            if self.words.json:
                value = {"element": element.index, "name": element.name, "rules": found}
                self._write(json_line(value))
                continue
            selectors = ", ".join(_taken(room, sheet.rules[rule].selector) for rule in found)
            # A selector may be on several lines of its sheet.
            line = printable(f"{element} {' '.join(words_of(selectors))}")
            self._write(f"{self._position(name, element)}: {line}\n")
        return self._outcome(name)


class Style(Job):
    """Writes which declaration of a name wins on each element."""

    def _do(self, name: str) -> Outcome:
        text = self._page(name)
        tree = self._tree(name, text)
        sheet = self._sheet(name, tree)
        room = Room(most_written(len(text)), "characters")
        found = sheet.style(tree, self.words.name, media=self._device())
        for element, winner in zip(tree, found):
            room.take(0 if winner is None else len(winner.value))
            if self.words.json:
                value = None if winner is None else winner._asdict()
                line = {"element": element.index, "name": element.name, "winner": value}
                self._write(json_line(line))
            elif winner is not None:
                shown = printable(f"{element} {winner}")
                self._write(f"{self._position(name, element)}: {shown}\n")
        return self._outcome(name)


class Explain(Job):
    """Explains which declaration of a property wins on the elements that selectors match."""

    def _do(self, name: str) -> Outcome:
        text = self._page(name)
        tree = self._tree(name, text)
        sheet = self._sheet(name, tree)
        room = Room(most_written(len(text)), "characters")
        words = self.words

        every = list(self._explanations(sheet, tree))
        if words.html is not None:
            title = f"{words.name} of {words.selectors} in {name}"
            self._write(_taken(room, _explained.as_page(every, title, self._shown_place)))
        for each in every if words.html is None else ():
            if words.json:
                self._write(_taken(room, json_line(_explained.as_json(each, self._shown_place))))
                continue
            paint = _explained.coloured if self._has_colours else _explained.plain
            head = name if each.element.row is None else _of_place(name, each.element)
            self._write(_taken(room, _explained.as_text(each, head, self._shown_place, paint)))
        return self._outcome(name, found=len(every))

    @property
    def _has_colours(self) -> bool:
        """Whether text is written in colours."""
        return self._is_terminal and not os.environ.get("NO_COLOR")

    def _explanations(self, sheet: StyleSheet, tree: Tree) -> Iterator[Explanation]:
        """Returns what explains the property on each element."""
        words = self.words
        try:
            found = tree.select(words.selectors)
        except SelectorError as error:
            raise Failure(f"selector refused: {error.message}", REFUSED) from None
        explaining = explaining_of(sheet, tree, words.name, self._device(), words.ua)
        return map(explaining.explanation, found)

    def _shown_place(self, place: Place) -> str:
        """Returns the file, the row and the column of a declaration of a sheet: of a `style` element, in
        that."""
        if place.source is None:
            return ""
        sheets = self.words.sheets
        file = sheets[place.source] if sheets else place.url or "<style>"
        return f"{file}:{place.row}:{place.column}"


class Select(Job):
    """Writes what is asked for of the elements that selectors match."""

    def _do(self, name: str) -> Outcome:
        tree = self._tree(name, self._page(name))
        try:
            found = tree.select(self.words.selectors, grammar=self.words.grammar)
        except SelectorError as error:
            raise Failure(f"selector refused: {error.message}", REFUSED) from None
        if self.words.count:
            count = str(len(found))
            self._write(f"{printable(name)}:{count}\n" if self.words.is_of_many else f"{count}\n")
        elif not self.words.quiet:
            self._show(name, found)
        return self._outcome(name, found=len(found))

    def _show(self, name: str, found: List[Element]) -> None:
        """Writes what is asked for of the elements that were found in a page."""
        words = self.words
        places = _places(found[0].tree) if words.json and found else []
        # An element is written with those within it, which may be written, too.
        length = len(elements_of(found[0].tree).source or "") if found else 0
        room = Room(most_written(length), "characters")
        for element in found:
            if words.json:
                self._write(json_line(_described(name, element, places)))
            elif words.text:
                self._write(self._shown(" ".join(words_of(_taken(room, element.text)))) + "\n")
            elif words.html:
                self._write(self._shown(_taken(room, element.source or "")) + "\n")
            elif words.attr is None:
                self._write(f"{self._position(name, element)}: {printable(str(element))}\n")
            elif words.attr in element.attributes:
                self._write(self._shown(element.attributes[words.attr]) + "\n")


class Compare(Job):
    """Writes the longhands that two style sheets set differently on the elements of a page."""

    def _do(self, name: str) -> Outcome:
        text, words = self._page(name), self.words
        tree = self._tree(name, text)
        old, new = map(_sheet_in, (words.old, words.new))
        room = Room(most_written(len(text)), "characters")
        found = compare(old, new, tree, media=self._device(), all_conditions=words.all_conditions)
        for each in found:
            both = each.old, each.new
            room.take(sum(len(one.value) for one in both if one is not None))
            files = zip(both, (words.old, words.new))
            if words.json:
                row = {"file": name, "element": each.element.index, "name": each.name}
                values = [None if one is None else _placed_json(one, file) for one, file in files]
                row.update(zip(("old", "new", "device"), (*values, _unusual(each.device))))
                self._write(json_line(row))
                continue
            before, after = (_shown_declaration(*one) for one in files)
            on = f" ({_shown_device(each.device)})" if words.all_conditions else ""
            shown = printable(f"{each.element} {each.name}: {before} -> {after}{on}")
            self._write(f"{self._position(name, each.element)}: {shown}\n")
        return self._outcome(name, found=len(found))


@functools.lru_cache(maxsize=2)
def _sheet_in(file: str) -> StyleSheet:
    """Returns the sheet of a file, which is read once for all pages."""
    return sheet_of_texts((read(file),))


def _placed_json(declaration: Declaration, file: str) -> Dict[str, object]:
    """Returns a declaration as JSON has it, with its place if it is in a file."""
    place = declaration.place
    where = None if place is None else {"file": file, "row": place.row, "column": place.column}
    return {**declaration._asdict(), "place": where}


def _shown_declaration(declaration: Optional[Declaration], file: str) -> str:
    """Returns a declaration as it is shown, with its place in a file."""
    if declaration is None:
        return "nothing"
    place = declaration.place
    where = "style attribute" if place is None else f"{file}:{place.row}:{place.column}"
    return f"{declaration} ({where})"


def _unusual(device: Media) -> Dict[str, object]:
    """Returns the fields of a device that differ from those of the usual one."""
    usual = Device()._asdict()
    fields = device._asdict() if isinstance(device, Device) else {}
    return {name: value for name, value in fields.items() if value != usual[name]}


def _shown_device(device: Media) -> str:
    """Returns a device as it is shown: by its size, and what differs from the usual one."""
    assert isinstance(device, Device)
    others = {name: value for name, value in _unusual(device).items() if name not in _SIZE}
    words = (f"{name.replace('_', '-')}: {str(value).lower()}" for name, value in others.items())
    return ", ".join((f"{device.width} x {device.height}", *words))


class Inline(Job):
    """Writes style sheets into the style attributes of a page."""

    def _do(self, name: str) -> Outcome:
        left: List[NotWritten] = []
        result = self._inlined(name, left)
        for each in left:
            if self.words.report:
                self._messages.append(f"{name}: '{each.text}': {each.reason}")
            elif each.reason.endswith(LOSES):
                self._messages.append(f"{name}: '{each.text}' is not read: {each.reason}")
        if self.words.json:
            html, rest = decode_page(result)[0], [each._asdict() for each in left]
            self._write(json_line({"html": html, "left": rest}))
        elif self._is_terminal:
            self._write(self._shown(decode_page(result)[0]))
        else:
            return Outcome(name, result, self._messages)
        return self._outcome(name)

    def _inlined(self, name: str, left: List[NotWritten]) -> bytes:
        """Returns a page with its sheets written, and notes what is not."""
        words = self.words
        try:
            return inline(
                read_bytes(name),
                list(map(read, words.sheets)),
                at=self._place(name),
                folder=self._folder(name),
                base_url=words.base_url,
                preserve=words.preserve,
                ignore=words.ignore,
                keep_style=words.keep_style,
                remove_classes=words.remove_classes,
                attributes=words.attributes,
                as_attributes=words.as_attributes,
                important=not words.no_important,
                is_xml=self._is_xml(name) and not words.part,
                is_part=words.part,
                report=left,
            )
        except EncodingError as error:
            raise Failure(f"cannot read {name}: {error.reason}", UNREADABLE) from None
        except UnicodeDecodeError as error:
            raise Failure(f"cannot read {name}: not {error.encoding}", UNREADABLE) from None
        except (LimitError, UnicodeEncodeError):
            raise
        except TreeError as error:
            raise Failure(f"{name}: {error}", REFUSED) from None
        except ValueError as error:
            raise Failure(str(error), REFUSED) from None


class Lint(Job):
    """Finds the mistakes in a sheet, or in those of a page."""

    def _do(self, name: str) -> Outcome:
        words = self.words
        # Standard input is read and reported by this name.
        known = words.stdin_filename or name if name == INPUT else name
        if _lint.is_page(known):
            return self._page_linted(name, known)
        text = read(name)
        if words.fix and not _lint.is_component(known):
            text = self._fixed(name, text)
        if words.fix and name == INPUT:
            self._write(self._shown(text))
        found = _lint.findings(known, text, words.all, words.grammar)
        return self._outcome(known, mistakes=found)

    def _page_linted(self, name: str, known: str) -> Outcome:
        """Finds the mistakes in the sheets of a page, which is reported by another name."""
        shelf = Shelf(self._place(known), self._folder(known))
        has_xml = self._is_xml(known)
        try:
            text = read_page(name, has_xml)
            if self.words.fix and name == INPUT:
                self._write(self._shown(text))
            all_, grammar = self.words.all, self.words.grammar
            found = _lint.findings(known, text, all_, grammar, shelf=shelf, has_xml=has_xml)
        except TreeError as error:
            raise Failure(f"{known}:{error}", UNREADABLE) from None
        self._say_unread(known, tuple(shelf.unread))
        return self._outcome(known, mistakes=found)

    def _fixed(self, name: str, text: str) -> str:
        """Corrects the sheet of a file in place, and returns it. That of standard input is written."""
        result, count = _lint.corrected(text)
        if count:
            self._messages.append(f"{name}: {count} corrected")
        if result != text and name != INPUT:
            has_mark = read_bytes(name).startswith(codecs.BOM_UTF8)
            try:
                write_file(name, codecs.BOM_UTF8 * has_mark + result.encode("utf-8"))
            except OSError as error:
                raise Failure(f"cannot write {name}: {error.strerror}", UNREADABLE) from None
        return result


class Minify(Job):
    """Writes the short text of a sheet."""

    def _do(self, name: str) -> Outcome:
        text = short_text(read(name))
        shown = f"{self._shown(text)}\n"
        self._write(json_line({"file": name, "css": text}) if self.words.json else shown)
        return self._outcome(name)


class Prettify(Job):
    """Writes a sheet in lines."""

    def _do(self, name: str) -> Outcome:
        text = prettify(read(name))
        shown = self._shown(text)
        self._write(json_line({"file": name, "css": text}) if self.words.json else shown)
        return self._outcome(name)


class EditSheet(Job):
    """Writes a sheet with edits."""

    def _do(self, name: str) -> Outcome:
        text, words = read(name), self.words
        try:
            edit = self._edit(name, text)
            css = edit.text
        except UnicodeEncodeError:
            raise
        except ValueError as error:
            raise Failure(f"{name}: {error}", REFUSED) from None
        for each in edit.left:
            self._messages.append(f"{name}:{each.row}:{each.column}: left as it is: {each.reason}")
        if words.map:
            css += f"\n/*# sourceMappingURL={data_url(edit.source_map())} */"
        self._write(json_line({"file": name, "css": css}) if words.json else self._shown(css))
        return self._outcome(name)

    def _edit(self, name: str, text: str) -> Edit:
        """Returns the edit that the words ask for."""
        words = self.words
        edit = Edit(text, name=name)
        if words.bundle:
            edit = bundled(text, name=name, at=self._place(name), folder=self._folder(name))
        if words.flatten:
            edit.flatten()
        if words.base_url is not None:
            rebase_urls(edit, words.base_url)
        if words.prefix is not None:
            prefixed(edit, words.prefix)
        return edit if words.scope is None else scoped(edit, words.scope)


class Clean(Job):
    """Writes what a policy allows of a sheet or a style attribute, or says whether it is clean."""

    def _do(self, name: str) -> Outcome:
        text, words = read(name), self.words
        try:
            if words.check:
                return Outcome(name, status=DONE if self._is_clean(text) else REFUSED)
            found = self._cleaned(text)
        except UnicodeEncodeError:
            raise
        except ValueError as error:
            raise Failure(str(error), USAGE) from None
        if words.json:
            dropped = [each._asdict() for each in found.dropped]
            self._write(json_line({"file": name, "css": found.text, "dropped": dropped}))
            return self._outcome(name)
        self._write(self._shown(found.text))
        for each in found.dropped if words.report else ():
            place = f"{name}:{each.row}:{each.column}"
            self._messages.append(f"{place}: '{each.text}' is dropped: {each.reason}")
        return self._outcome(name)

    def _cleaned(self, text: str) -> Cleaned:
        words = self.words
        if words.style:
            return clean_style(text, policy=self._policy())
        return clean(text, scope=words.scope, policy=self._policy())

    def _is_clean(self, text: str) -> bool:
        words = self.words
        if words.style:
            return is_clean_style(text, policy=self._policy())
        return is_clean(text, scope=words.scope, policy=self._policy())

    def _policy(self) -> Policy:
        """Returns the policy that the words name, with what they change of it."""
        words = self.words
        limits = dict(each.partition("=")[::2] for each in words.limit)
        media = [f"@{each}" for each in words.at_rule]
        return Policy.of(words.policy).changed(
            add=words.add, remove=words.remove, media=media, limits=limits, prefix=words.prefix
        )


class Linked(Job):
    """Writes the files of the sheets that a page links to, each with a NUL after it."""

    def _do(self, name: str) -> Outcome:
        elements = elements_of(self._tree(name, self._page(name)))
        shelf = Shelf(self._place(name), self._folder(name))
        for _ in sheets_of(elements, shelf):
            # Each is read as it is asked for.
            pass
        self._say_unread(name, tuple(shelf.unread))
        for file in shelf.files.values():
            self._write(f"{os.path.relpath(file)}\0")
        return self._outcome(name)


def read_bytes(name: str) -> bytes:
    """Returns the bytes of a file, or of standard input for `-`."""
    try:
        if name != INPUT:
            return Path(name).read_bytes()
        if sys.stdin is None:
            raise Failure("cannot read -: standard input is closed", UNREADABLE)
        return sys.stdin.buffer.read()
    except OSError as error:
        raise Failure(f"cannot read {name}: {error.strerror}", UNREADABLE) from None


def read(name: str) -> str:
    """Returns the text of a file in UTF-8."""
    try:
        return read_bytes(name).decode("utf-8-sig")
    except UnicodeDecodeError:
        raise Failure(f"cannot read {name}: not UTF-8", UNREADABLE) from None


def read_page(name: str, has_xml: bool) -> str:
    """Returns the text of a page as a browser reads it, which refuses bytes of XML that are not in the
    encoding that it names."""
    if not has_xml:
        return text_of_page(read_bytes(name))
    try:
        return decode_page(read_bytes(name))[0]
    except UnicodeDecodeError as error:
        raise Failure(f"cannot read {name}: not {error.encoding}", UNREADABLE) from None


def tree_of(name: str, text: str, has_xml: bool) -> Tree:
    """Returns the tree of a page."""
    try:
        return Tree.from_xml(text) if has_xml else Tree.from_html(text)
    except TreeError as error:
        raise Failure(f"{name}:{error}", REFUSED) from None


def _taken(room: Room, text: str) -> str:
    """Returns a text that is written, if there is room for it."""
    room.take(len(text))
    return text


def _of_place(name: str, element: Element) -> str:
    """Returns `file:row:column` of an element."""
    return f"{name}:{element.row}:{element.column}"


def _described(name: str, element: Element, places: List[int]) -> "dict[str, Any]":
    """Returns what JSON has of an element."""
    return {
        "file": name,
        "element": element.index,
        "name": element.name,
        "row": element.row,
        "column": element.column,
        "path": _path(element, places),
        "attributes": element.attributes,
    }


def _places(tree: Tree) -> List[int]:
    """Returns of each element which child of its parent it is, from 1."""
    # The last counts the roots.
    counts = [0] * (len(tree) + 1)
    found: List[int] = []
    for parent in elements_of(tree).parents:
        counts[parent] += 1
        found.append(counts[parent])
    return found


def _path(element: Element, places: List[int]) -> Optional[str]:
    """Returns a selector that matches the element only, or `None` for one that would be long: it is
    as long as the element is deep."""
    steps: List[str] = []
    room = _LONGEST_PATH
    for node in _with_ancestors(element):
        is_root = node.parent is None
        steps.append(node.name if is_root else f"{node.name}:nth-child({places[node.index]})")
        room -= len(steps[-1]) + len(_CHILD)
        if room < 0:
            return None
    return _CHILD.join(reversed(steps))


def _with_ancestors(element: Element) -> Iterator[Element]:
    """Yields an element and its ancestors."""
    node: Optional[Element] = element
    while node is not None:
        yield node
        node = node.parent
