"""A server for editors, which speaks the Language Server Protocol 3.17: it reports what `lint` finds by the
settings of the project that a document is in, offers the corrections, and says how specific a selector is."""

from __future__ import annotations

import functools
import json
import os
import re
import urllib.parse
import urllib.request
from pathlib import Path
from typing import Any, Callable, Dict, List, NamedTuple, Optional, Sequence, Tuple, Union

from . import _lint
from ._elements import TreeError
from ._frames import FrameError, Frames, framed
from ._library import InternalError, LimitError, __version__
from ._output import printable
from ._places import ENCODINGS, Places
from ._pointed import selector_at
from ._project import Project, ProjectError, is_excluded, project_of
from ._reading import Source
from ._words import lower, words_of

# The numbers of errors: JSON-RPC's, and the protocol's own.
_NO_JSON, _NO_REQUEST, _NO_METHOD, _NO_PARAMS = -32700, -32600, -32601, -32602
_NOT_READY, _FAILED = -32002, -32803
# How many characters all documents have at most, one that is read, a url, a selector that is shown, and a
# number; and how many mistakes of a document are reported.
_MOST, _MOST_READ, _LONGEST_URL, _SHOWN, _DIGITS = 1 << 26, 1 << 22, 4096, 200, 18
_MOST_MARKS = 1000
_SEVERITIES = {"error": 1, "warning": 2, "note": 3}
_QUICK, _FIX_ALL = "quickfix", "source.fixAll.simplecss"
# The name that a document of a language is read by, if its own says nothing.
_NAMES = {
    **{"css": "a.css", "html": "a.html", "xhtml": "a.xhtml", "svg": "a.svg"},
    **{"vue": "a.vue", "svelte": "a.svelte"},
}
_SURROGATE = re.compile("[\ud800-\udfff]")
Json = Dict[str, Any]


class _Refused(Exception):
    """A request that is not answered, and the number of the error."""

    def __init__(self, code: int, reason: str) -> None:
        super().__init__(reason)
        self.code = code


def _member(params: Any, *keys: str) -> Any:
    """Returns what objects in objects have of these keys, or `None`."""
    for key in keys:
        params = params.get(key) if isinstance(params, dict) else None
    return params


def _text(params: Any, *keys: str) -> str:
    found = _member(params, *keys)
    if not isinstance(found, str):
        raise _Refused(_NO_PARAMS, f"{'.'.join(keys)} must be a string")
    return found


def _number(params: Any, *keys: str) -> int:
    found = _member(params, *keys)
    if not isinstance(found, int) or isinstance(found, bool) or found < 0:
        raise _Refused(_NO_PARAMS, f"{'.'.join(keys)} must be a number, 0 or more")
    return found


def _version(params: Any) -> Optional[int]:
    """Returns the version of a document, which some editors do not say."""
    found = _member(params, "textDocument", "version")
    return found if isinstance(found, int) and not isinstance(found, bool) else None


def _path_of(url: str) -> Optional[str]:
    """Returns the path of a file, by its url."""
    try:
        parts = urllib.parse.urlsplit(url if len(url) <= _LONGEST_URL else "")
        path = urllib.request.url2pathname(parts.path) if parts.scheme == "file" else ""
        return path if path and Path(path).resolve() else None
    except (OSError, ValueError, RuntimeError):
        # It is none that the system takes.
        return None


def _name_of(language: str, path: Optional[str]) -> Optional[str]:
    """Returns the name that a document is read by, or `None` for one that `lint` does not read."""
    known = path and (
        lower(path).endswith(".css") or _lint.is_page(path) or _lint.is_component(path)
    )
    return path if known else _NAMES.get(language)


class _Mark(NamedTuple):
    """Something that is found: where its characters begin and end, how it is reported, and what corrects it."""

    start: int
    end: int
    diagnostic: Json
    edit: Optional[Tuple[int, int, str]]


class _Document:
    """A document that is open in an editor."""

    def __init__(
        self, url: str, language: str, version: Optional[int], text: str, encoding: str
    ) -> None:
        self.url, self.language, self.version = url, language, version
        self.text = _SURROGATE.sub("\ufffd", text)
        self.path = _path_of(url)
        self.name = _name_of(language, self.path)
        self.marks: List[_Mark] = []
        self._encoding = encoding

    @property
    def size(self) -> int:
        return len(self.text) + len(self.url)

    @functools.cached_property
    def _places(self) -> Places:
        return Places(self.text, self._encoding)

    def range(self, start: int, end: int) -> Json:
        """Returns where characters are, as the protocol writes it."""
        places = (self._places.of(start), self._places.of(end))
        first, last = ({"line": line, "character": unit} for line, unit in places)
        return {"start": first, "end": last}

    def offset(self, params: Any, *keys: str) -> int:
        """Returns the offset of a position."""
        return self._places.offset(
            _number(params, *keys, "line"), _number(params, *keys, "character")
        )

    def look(self, project: Project) -> None:
        """Finds the mistakes."""
        is_left = self.path is not None and is_excluded(self.path, project)
        self.marks = [] if self.name is None or is_left else self._marks(self.name, project)

    def _marks(self, name: str, project: Project) -> List[_Mark]:
        if len(self.text) > _MOST_READ:
            return [
                self._mark(0, 0, "error", "unread", f"it has more than {_MOST_READ} characters")
            ]
        try:
            found = _lint.found_in(name, self.text)
        except TreeError as error:
            at = self._at(error.row or 1, error.column or 1)
            return [self._mark(at, at, "error", "unread", str(error))]
        except (LimitError, InternalError) as error:
            return [self._mark(0, 0, "error", "unread", str(error))]
        wanted = [each for each in found if project.reports(each.finding.kind)]
        marks = [self._marked(each, project) for each in wanted[:_MOST_MARKS]]
        if len(wanted) > _MOST_MARKS:
            text = f"{len(wanted) - _MOST_MARKS} more mistakes are not shown"
            marks.append(self._mark(0, 0, "note", "unread", text))
        return marks

    def _marked(self, found: _lint.Found, project: Project) -> _Mark:
        """Returns a finding as it is reported."""
        one = found.finding
        start, end = self._at(one.row, one.column), self._at(one.end_row, one.end_column)
        level = project.level(one.kind) or one.severity
        return self._mark(start, end, level, one.kind, one.message, found.edit)

    def _mark(
        self,
        start: int,
        end: int,
        level: str,
        kind: str,
        message: str,
        edit: Optional[Tuple[int, int, str]] = None,
    ) -> _Mark:
        place = {"range": self.range(start, end), "severity": _SEVERITIES[level]}
        more = {"code": kind, "source": "simplecss", "message": message}
        return _Mark(start, end, {**place, **more}, edit)

    @functools.cached_property
    def _lines(self) -> List[int]:
        return Source(self.text).lines

    def _at(self, row: int, column: int) -> int:
        """Returns the offset of a place, as `lint` counts."""
        start = self._lines[min(row, len(self._lines)) - 1]
        return min(start + column - 1, len(self.text))

    def fixes(self, start: int, end: int) -> List[Json]:
        """Returns the corrections of what is between two offsets."""
        touched = (it for it in self.marks if it.edit and it.start <= end and start <= it.end)
        return [self._fix(mark, *mark.edit) for mark in touched if mark.edit]

    def _fix(self, mark: _Mark, start: int, end: int, text: str) -> Json:
        shown = printable(text)[:_SHOWN]
        title = f"Insert `{shown}`" if start == end else f"Replace with `{shown}`"
        about = {"diagnostics": [mark.diagnostic], "isPreferred": True}
        return {"title": title, "kind": _QUICK, **about, "edit": self._edit(start, end, text)}

    def fix_all(self) -> List[Json]:
        """Returns what corrects a sheet, as `lint --fix` does."""
        if self.name is None or _lint.is_page(self.name) or _lint.is_component(self.name):
            return []
        text = _lint.fixed(self.text)
        edit = self._edit(0, len(self.text), text)
        title = {"title": "Correct all that has one right answer", "kind": _FIX_ALL}
        return [{**title, "edit": edit}] if text != self.text else []

    def _edit(self, start: int, end: int, text: str) -> Json:
        return {"changes": {self.url: [{"range": self.range(start, end), "newText": text}]}}

    def hover(self, offset: int) -> Optional[Json]:
        """Returns how specific the selector at an offset is."""
        try:
            parts = list(_lint.parts_in(self.name, self.text)) if self.name else []
        except TreeError:
            return None
        for part in parts:
            within = offset - part.at
            if 0 <= within <= len(part.css) and not part.is_attribute and part.is_in(self.text):
                found = selector_at(part.css, within)
                if found is not None:
                    shown = printable(" ".join(words_of(found.text)))[:_SHOWN]
                    text = f"{shown}\nspecificity {','.join(map(str, found.specificity))}"
                    where = self.range(part.at + found.start, part.at + found.end)
                    return {"contents": {"kind": "plaintext", "value": text}, "range": where}
        return None


def _is_asked(kind: str, only: Any) -> bool:
    """Whether a kind of actions is among those that are asked for."""
    return isinstance(only, list) and any(f"{kind}.".startswith(f"{each}.") for each in only)


class Server:
    """Answers the messages of an editor."""

    def __init__(self, read: Callable[[int], bytes], write: Callable[[bytes], object]) -> None:
        """Takes what reads at most so many bytes, as soon as there are some, and what writes all of them."""
        self._frames = Frames(read)
        self._write = write
        self._documents: Dict[str, _Document] = {}
        # The urls of those that have changed since they were looked at.
        self._changed: Dict[str, None] = {}
        self._size = 0
        self._encoding: Optional[str] = None
        self._is_shut = False
        self._said = ""

    def run(self) -> int:
        """Answers until it is to end, or the input does. Returns the exit status."""
        while True:
            try:
                data = self._frames.next()
            except FrameError as error:
                self._refuse(None, _NO_JSON, str(error))
                if error.is_last:
                    return 1
                continue
            if data is None or self._take(data):
                return int(not self._is_shut)
            # Of a document that is changed at once again nothing is reported.
            if not self._frames.has_more:
                self._report()

    # ---- messages

    def _send(self, **message: Any) -> None:
        self._write(framed({"jsonrpc": "2.0", **message}))

    def _refuse(self, number: Union[int, str, None], code: int, reason: str) -> None:
        self._send(id=number, error={"code": code, "message": reason})

    def _say(self, reason: str) -> None:
        """Shows a message to the person, once."""
        if reason != self._said:
            self._said = reason
            message = printable(f"simplecss: {reason}")
            self._send(method="window/showMessage", params={"type": 1, "message": message})

    def _take(self, data: bytes) -> bool:
        """Takes a message. Returns whether it says to end."""
        try:
            message = json.loads(data.decode("utf-8"), parse_int=_integer, parse_constant=_integer)
        except (ValueError, RecursionError):
            self._refuse(None, _NO_JSON, "a message is not JSON in UTF-8")
            return False
        method, number = _member(message, "method"), _member(message, "id")
        is_request = isinstance(message, dict) and "id" in message
        is_numbered = isinstance(number, (int, str)) and not isinstance(number, bool)
        if not isinstance(method, str) or is_request and not is_numbered:
            if not is_numbered or "result" not in message and "error" not in message:
                self._refuse(None, _NO_REQUEST, "a message is not a request")
            return False
        params = message.get("params")
        if not is_request and method == "exit":
            return True
        try:
            if is_request:
                self._send(id=number, result=self._answer(method, params))
            else:
                self._note(method, params)
        except _Refused as error:
            if is_request:
                self._refuse(number, error.code, str(error))
            else:
                self._say(f"{method}: {error}")
        except (LimitError, InternalError) as error:
            self._refuse(number if is_request else None, _FAILED, str(error))
        return False

    def _answer(self, method: str, params: Any) -> Any:
        """Returns the result of a request."""
        if method == "initialize" and self._encoding is None:
            return self._initialize(params)
        if self._encoding is None:
            raise _Refused(_NOT_READY, "the server is not initialized")
        if self._is_shut or method == "initialize":
            raise _Refused(_NO_REQUEST, f"{method} is not expected now")
        if method == "shutdown":
            self._is_shut = True
            return None
        if method == "textDocument/hover":
            document = self._document(params)
            return document.hover(document.offset(params, "position"))
        if method == "textDocument/codeAction":
            return self._corrections(params)
        raise _Refused(_NO_METHOD, f"unknown method {method}")

    def _note(self, method: str, params: Any) -> None:
        """Takes a notification. Others than these are of nothing that the server does."""
        if self._encoding is None or self._is_shut:
            return
        if method == "textDocument/didOpen":
            url, language, text = (
                _text(params, "textDocument", key) for key in ("uri", "languageId", "text")
            )
            self._keep(url, language, _version(params), text)
        elif method == "textDocument/didChange":
            self._change(params)
        elif method == "textDocument/didClose":
            self._close(self._document(params))

    def _initialize(self, params: Any) -> Json:
        offered = _member(params, "capabilities", "general", "positionEncodings")
        known = [it for it in offered if isinstance(it, str)] if isinstance(offered, list) else []
        self._encoding = next((it for it in known if it in ENCODINGS), "utf-16")
        does = {
            "positionEncoding": self._encoding,
            "textDocumentSync": {"openClose": True, "change": 1},
            "hoverProvider": True,
            "codeActionProvider": {"codeActionKinds": [_QUICK, _FIX_ALL]},
        }
        return {"capabilities": does, "serverInfo": {"name": "simplecss", "version": __version__}}

    # ---- documents

    def _document(self, params: Any) -> _Document:
        found = self._documents.get(_text(params, "textDocument", "uri"))
        if found is None:
            raise _Refused(_NO_PARAMS, "the document is not open")
        return found

    def _keep(self, url: str, language: str, version: Optional[int], text: str) -> None:
        """Keeps a document, in place of an earlier one."""
        old = self._documents.get(url)
        size = self._size - (old.size if old else 0) + len(url) + len(text)
        if size > _MOST:
            raise _Refused(_NO_PARAMS, f"the documents have more than {_MOST} characters")
        encoding = self._encoding or "utf-16"
        self._documents[url] = _Document(url, language, version, text, encoding)
        self._size = size
        self._changed[url] = None

    def _change(self, params: Any) -> None:
        document, changes = self._document(params), _member(params, "contentChanges")
        if not isinstance(changes, list) or not changes or _member(changes[-1], "range"):
            raise _Refused(_NO_PARAMS, "contentChanges has no whole text")
        text = _text(changes[-1], "text")
        self._keep(document.url, document.language, _version(params), text)

    def _close(self, document: _Document) -> None:
        self._size -= document.size
        del self._documents[document.url]
        self._changed.pop(document.url, None)
        self._publish(document.url, [])

    def _corrections(self, params: Any) -> List[Json]:
        document = self._document(params)
        start, end = (document.offset(params, "range", each) for each in ("start", "end"))
        self._report()
        only = _member(params, "context", "only")
        fixes = document.fixes(start, end) if only is None or _is_asked(_QUICK, only) else []
        return [*fixes, *(document.fix_all() if _is_asked(_FIX_ALL, only) else [])]

    def _report(self) -> None:
        """Reports what is found in the documents that have changed."""
        for url in self._changed:
            document = self._documents[url]
            document.look(self._project(document.path))
            self._publish(url, [mark.diagnostic for mark in document.marks], document.version)
        self._changed.clear()

    def _project(self, path: Optional[str]) -> Project:
        """Returns the settings of the project that a file is in."""
        try:
            return project_of(os.path.dirname(path) if path else ".")
        except ProjectError as error:
            self._say(str(error))
        except (OSError, ValueError, RuntimeError):
            # There is no such folder.
            pass
        return Project()

    def _publish(
        self, url: str, diagnostics: Sequence[Json], version: Optional[int] = None
    ) -> None:
        params: Json = {"uri": url, "diagnostics": diagnostics}
        if version is not None:
            params["version"] = version
        self._send(method="textDocument/publishDiagnostics", params=params)


def _integer(digits: str) -> int:
    """Returns a number of JSON, if it is one that a message has."""
    if len(digits) > _DIGITS or not digits.lstrip("-").isdigit():
        raise ValueError(digits)
    return int(digits)
