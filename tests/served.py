"""What editors write to the servers of both packages: messages of the Language Server Protocol 3.17 about style sheets, and
what is none. Each input is a list of parts, which come one after another."""

from __future__ import annotations

import json
from typing import Any, Dict, Iterator, List, Sequence, Tuple

from tests.common import package

Json = Dict[str, Any]
URL = "file:///none/a.css"
START: Json = {"id": 0, "method": "initialize", "params": {"capabilities": {}}}
SHUT: Json = {"id": 9, "method": "shutdown"}
EXIT: Json = {"method": "exit"}
# Line ends of each kind, characters of one and of two units, rules in rules, namespaces, and mistakes with corrections and without.
SHEETS = (
    "@namespace s url(x);\n.a, p > .b:c { colr: red; .e & , s|q { tpo: 1px } }\r\n"
    "@media print { #x.y { colr: blue } }\r@charset 'x';\n/* \U0001f600 */ a { colr: red }\n",
    "/* \U0001f600 */ é\U0001f600 { colr: red; tpo: 0 }",
    "a{colr:0} b{} c{top:0} d{top:0} c{left:0}",
    "a{}" * 600 + "b{}" * 600,
    "\ud800 { colr: 0 }\0\ufeffa{colr:0}",
    "a { color: red b: c",
    "",
)
UNITS = (0, 1, 3, 7, 8, 9, 10, 13, 99)
# Heads after which it is not known where the next message begins, and the beginnings of messages.
HEADS = (
    b"\r\n\r\n",
    b"Content-Length\r\n\r\n",
    b"Content-Length: x\r\n\r\n",
    b"Content-Length: -1\r\n\r\n",
    b"Content-Length: 1\r\nContent-Length: 1\r\n\r\n1",
    b"Content-Type: text/plain\r\n\r\n{}",
    b"Content-Length: 1" + b"0" * 20 + b"\r\n\r\n",
    b"a: " + b"x" * 100_000,
    b"Content-Length: 5\r\n\r\n{}",
    b"Content-Len",
    b"{}\n",
    b"\0" * 10_000,
    b"Content-Length: 16777217\r\n\r\n",
)
NO_JSON = (b"", b"{", b"\xff", "{}".encode("utf-16"), b"[" * 100_000, b'{"id": NaN}')
_NO_NUMBERS: Sequence[Any] = (None, True, [], 1.5)
STRANGE: Sequence[Any] = (
    *([], 1, "x", None, {}, {"id": 1}, {"method": 1}),
    *({"id": each, "method": "shutdown"} for each in _NO_NUMBERS),
    *({"id": "a", "method": each} for each in ("textDocument/rename", "$/x", "initialize")),
    *({"method": each} for each in ("$/x", "initialized", "textDocument/didOpen")),
    *({"id": 1, "result": None}, {"id": 1, "error": {}}),
    {"id": 1, "method": "textDocument/hover", "params": [1]},
    {"method": "textDocument/didOpen", "params": {"textDocument": {"uri": URL}}},
)
# How documents are named, and their languages.
NAMED = (
    *(("untitled:1", "css"), ("untitled:1", "scss"), ("file:///none/a.scss", "scss")),
    *(("file:///none/a.CSS", "plaintext"), ("file:///none/a.css?x", "plaintext")),
    *(("http://x/a.css", "plaintext"), ("", "css"), ("\ud800", "css"), ("http://[", "css")),
    *(("file:///a\0.css", "plaintext"), ("x" * 100_000, "css")),
)


def frame(message: Any) -> bytes:
    """Returns a message as an editor writes it, or bytes with their length."""
    data = message if isinstance(message, bytes) else json.dumps(message).encode("utf-8")
    return b"Content-Length: %d\r\n\r\n%s" % (len(data), data)


def opened(text: str, url: str = URL, language: str = "css") -> Json:
    document = {"uri": url, "languageId": language, "version": 1, "text": text}
    return {"method": "textDocument/didOpen", "params": {"textDocument": document}}


def changed(*changes: Any, version: Any = 2) -> Json:
    document = {"uri": URL, "version": version}
    params = {"textDocument": document, "contentChanges": list(changes)}
    return {"method": "textDocument/didChange", "params": params}


def asked(method: str, line: Any, unit: Any, **context: Any) -> Json:
    """Returns a request about a place, and for corrections about what is from there on."""
    place = {"line": line, "character": unit}
    where: Json = {"position": place}
    if method == "codeAction":
        where = {"range": {"start": place, "end": {"line": line, "character": unit + 4}}}
        where["context"] = context
    params = {"textDocument": {"uri": URL}, **where}
    return {"id": 5, "method": f"textDocument/{method}", "params": params}


def _about(text: str) -> Iterator[Json]:
    """Yields requests about many places of a sheet."""
    yield opened(text)
    for line in range(6):
        for unit in UNITS:
            yield asked("hover", line, unit)
            yield asked("codeAction", line, unit, diagnostics=[])
        for only in ([], ["source"], ["source.fixAll"], ["quickfix", "source.fixAll.simplecss"]):
            yield asked("codeAction", line, 0, only=only)


def _talks() -> Iterator[Sequence[Any]]:
    """Yields the messages of editors after the first one."""
    yield from ([*_about(text), SHUT, EXIT] for text in SHEETS)
    yield [*NO_JSON, *STRANGE, asked("hover", 0, 0), SHUT, START, EXIT]
    whole, part = {"text": "a{}"}, {"text": "", "range": {"start": {}}}
    changes = [changed(*each) for each in ((), (1,), ({},), (part,), (part, whole))]
    places = ((-1, 0), (0, -1), ("0", 0), (0, None), (True, 0), (1.5, 0), (0, 99), (9, 0))
    closed = {"method": "textDocument/didClose", "params": {"textDocument": {"uri": URL}}}
    wrong = [asked("hover", *each) for each in places]
    yield [opened("a{colr:0}"), *changes, changed(whole, version=None), *wrong, closed, closed]
    yield [opened("x" * ((1 << 22) + 1)), asked("hover", 0, 0), SHUT, EXIT]
    yield [*(opened("a{}", *each) for each in NAMED), EXIT]
    yield [opened("a{}"), frame(SHUT), SHUT, changed(whole), EXIT]


def inputs() -> Iterator[List[bytes]]:
    """Yields inputs: messages each by itself, all at once, and in parts of a few bytes, and heads that are none."""
    for talk in _talks():
        yield [frame(each) for each in (START, *talk)]
    few = [frame(each) for each in (START, *_about(SHEETS[1]), changed({"text": "b{}"}), EXIT)]
    whole = b"".join(few)
    yield [whole]
    yield from ([whole[at : at + size] for at in range(0, len(whole), size)] for size in (7, 1000))
    yield [frame(opened("a{}")), frame(asked("hover", 0, 0)), frame(START), frame(EXIT)]
    yield from ([frame(START), each] for each in HEADS)
    long = [b"Content-Length: 16777217\r\n\r\n", *[b"x" * (1 << 16)] * 256, b"x" + frame(SHUT)]
    yield [frame(START), *long, frame(EXIT)]


def answered(parts: Sequence[bytes]) -> Tuple[int, bytes]:
    """Returns the status of the server of the package for Python, and what it writes."""
    package()
    from simplecss import _server

    left = list(parts)
    written: List[bytes] = []

    def read(count: int) -> bytes:
        part = left.pop(0) if left else b""
        if len(part) > count:
            left.insert(0, part[count:])
        return part[:count]

    status = _server.Server(read, written.append).run()
    return status, b"".join(written)


def replies(data: bytes) -> List[Any]:
    """Returns the messages that a server wrote."""
    found, at = [], 0
    while at < len(data):
        end = data.index(b"\r\n\r\n", at) + 4
        length = int(data[at:end].split(b":")[1])
        found.append(json.loads(data[end : end + length]))
        at = end + length
    return found
