"""Tests of the server for editors: the messages of the Language Server Protocol 3.17, whose lines and units
begin at 0. The expected places are counted by hand; the bounds are those of the frames."""

import io
import json
import os
import subprocess
import sys
import tempfile
import threading
import unittest
import unittest.mock
from pathlib import Path

SOURCES = str(Path(__file__).resolve().parents[1] / "src")
sys.path.insert(0, SOURCES)
from simplecss import _frames  # noqa: E402
from simplecss import _server  # noqa: E402
from simplecss._places import Places  # noqa: E402
from simplecss._pointed import selector_at  # noqa: E402

URL = "file:///none/a.css"
START = {"id": 0, "method": "initialize", "params": {"capabilities": {}}}
END = ({"id": 9, "method": "shutdown"}, {"method": "exit"})


def frame(message):
    """A message as an editor writes it."""
    data = message if isinstance(message, bytes) else json.dumps(message).encode("utf-8")
    return b"Content-Length: %d\r\n\r\n%s" % (len(data), data)


def opened(text, url=URL, language="css"):
    document = {"uri": url, "languageId": language, "version": 1, "text": text}
    return {"method": "textDocument/didOpen", "params": {"textDocument": document}}


def changed(text, url=URL, version=2):
    params = {"textDocument": {"uri": url, "version": version}, "contentChanges": [{"text": text}]}
    return {"method": "textDocument/didChange", "params": params}


def asked(method, line, unit, end=None, url=URL, **more):
    """A request about a place, or about what is from there to an end in the line."""
    place = {"line": line, "character": unit}
    params = {"textDocument": {"uri": url}, "position": place, **more}
    if end is not None:
        params["range"] = {"start": place, "end": {"line": line, "character": end}}
    return {"id": 5, "method": f"textDocument/{method}", "params": params}


class Piped:
    """A stream whose parts are read one after another, as from a pipe."""

    def __init__(self, parts):
        self._parts = list(parts)

    def read(self, count):
        if not self._parts:
            return b""
        part = self._parts.pop(0)
        if len(part) > count:
            self._parts.insert(0, part[count:])
        return part[:count]


def replies(data):
    """The messages that a server wrote."""
    found, at = [], 0
    while at < len(data):
        head, end = data[at:].split(b"\r\n\r\n", 1)[0], data.index(b"\r\n\r\n", at) + 4
        at = end + int(head[len("Content-Length: ") :])
        found.append(json.loads(data[end:at]))
    return found


def run(*messages):
    """The exit status of a server, and what it wrote, if each message comes after the answer to the last one."""
    parts = [each if isinstance(each, bytes) else frame(each) for each in messages]
    written = []
    status = _server.Server(Piped(parts).read, written.append).run()
    return status, replies(b"".join(written))


def answers(*messages, start=START):
    """What a server wrote between the answer to the first message and that to the last one."""
    status, found = run(start, *messages, *END)
    assert status == 0 and found[0]["id"] == 0 and found[-1] == due(9, None), found
    return found[1:-1]


def due(number, result):
    return {"jsonrpc": "2.0", "id": number, "result": result}


def errors(found):
    """The numbers of the errors among messages, each with the number of its request."""
    return [(each["id"], each["error"]["code"]) for each in found if "error" in each]


def place(line, first, last, last_line=None):
    end = {"line": line if last_line is None else last_line, "character": last}
    return {"start": {"line": line, "character": first}, "end": end}


class Frames(unittest.TestCase):
    def test_parts(self):
        """A message may come in any parts, with other fields in its head."""
        data = (
            b"content-length:2\r\nContent-Type: application/vscode-jsonrpc; charset=utf-8\r\n\r\n{}"
        )
        for size in (1, 3, 1000):
            whole = data + frame(b"[1]") + frame(b"")
            parts = [whole[at : at + size] for at in range(0, len(whole), size)]
            frames = _frames.Frames(Piped(parts).read)
            self.assertEqual([frames.next() for _ in range(4)], [b"{}", b"[1]", b"", None])

    def test_broken(self):
        """A head that does not say where the next message begins ends the server, with an error."""
        for data in (
            b"\r\n\r\n",
            b"Content-Length\r\n\r\n",
            b"Content-Length: x\r\n\r\n",
            b"Content-Length: -1\r\n\r\n",
            b"Content-Length: 1\r\nContent-Length: 1\r\n\r\n1",
            b"Content-Type: text/plain\r\n\r\n{}",
            b"Content-Length: 1" + b"0" * 20 + b"\r\n\r\n",
            b"a: " + b"x" * 100_000,
            b"Content-Length: 5\r\n\r\n{}",
            b"Content-Len",
            b"{}\n",
            b"\0" * 10_000,
        ):
            with self.subTest(data[:40]):
                status, found = run(START, data)
                self.assertEqual((status, errors(found)), (1, [(None, -32700)]))

    def test_long(self):
        """A message that is too long is left out, and answered before all of it is there."""
        status, found = run(START, b"Content-Length: 16777217\r\n\r\n")
        self.assertEqual((status, errors(found)), (1, [(None, -32700)] * 2))
        parts = [b"Content-Length: 16777217\r\n\r\n", *[b"x" * (1 << 16)] * 256, b"x"]
        frames = _frames.Frames(Piped([*parts, frame(b"{}")]).read)
        with self.assertRaises(_frames.FrameError) as caught:
            frames.next()
        self.assertFalse(caught.exception.is_last)
        self.assertEqual(frames.next(), b"{}")

    def test_no_messages(self):
        for data in (
            b"",
            b"{",
            b"\xff",
            "{}".encode("utf-16"),
            b"[" * 100_000,
            b'{"id": 1, "method": "shutdown", "x": NaN}',
            b'{"id": ' + b"9" * 1_000_000 + b', "method": "shutdown"}',
        ):
            with self.subTest(data[:40]):
                self.assertEqual(errors(answers(frame(data))), [(None, -32700)])
        for message in (
            [],
            1,
            "x",
            None,
            {},
            {"id": 1},
            {"method": 1},
            {"id": None, "method": "shutdown"},
            {"id": True, "method": "shutdown"},
            {"id": [], "method": "shutdown"},
            {"id": 1.5, "method": "shutdown"},
        ):
            with self.subTest(message):
                self.assertEqual(errors(answers(message)), [(None, -32600)])

    def test_program(self):
        """The program answers through pipes, and ends with its input."""
        with tempfile.TemporaryDirectory() as folder:
            for messages, status in (((START, opened("a{colr:red}"), *END), 0), ((START,), 1)):
                words = [sys.executable, "-m", "simplecss", "lsp", "--stdio"]
                environment = {**os.environ, "PYTHONPATH": SOURCES}
                done = subprocess.run(
                    words,
                    input=b"".join(map(frame, messages)),
                    capture_output=True,
                    cwd=folder,
                    env=environment,
                    timeout=60,
                )
                self.assertEqual((done.returncode, done.stderr), (status, b""))
                self.assertEqual(
                    replies(done.stdout)[0]["result"]["serverInfo"]["name"], "simplecss"
                )

    def test_open_pipe(self):
        """A message is answered while the next one has not come."""
        words = [sys.executable, "-m", "simplecss", "lsp"]
        environment = {**os.environ, "PYTHONPATH": SOURCES}
        pipes = {"stdin": subprocess.PIPE, "stdout": subprocess.PIPE}
        with subprocess.Popen(words, env=environment, **pipes) as process:
            timer = threading.Timer(60, process.kill)
            timer.start()
            found = []
            for message in (START, opened("a{colr:red}"), END[0]):
                process.stdin.write(frame(message))
                process.stdin.flush()
                head = process.stdout.readline()
                process.stdout.readline()
                found.append(json.loads(process.stdout.read(int(head.split(b":")[1]))))
            process.stdin.write(frame(END[1]))
            process.stdin.close()
            self.assertEqual(process.wait(), 0)
            timer.cancel()
        self.assertEqual(found[1]["params"]["diagnostics"][0]["code"], "unknown-property")


class Life(unittest.TestCase):
    def test_order(self):
        request = {"id": "a", "method": "textDocument/hover", "params": {}}
        status, found = run(request, opened("a{colr:red}"), START, *END)
        self.assertEqual((status, errors(found)), (0, [("a", -32002)]))
        self.assertEqual(len(found), 3)
        status, found = run(START, {**START, "id": 1}, END[0], {**request, "id": 2}, END[1])
        self.assertEqual((status, errors(found)), (0, [(1, -32600), (2, -32600)]))
        self.assertEqual(run(START, END[1])[0], 1)
        self.assertEqual(run(END[1])[0], 1)
        self.assertEqual(run(START, END[0])[0], 0)

    def test_others(self):
        """What the server does not do is refused, and what it need not know is taken."""
        for message, found in (
            ({"id": 1, "method": "textDocument/rename"}, [(1, -32601)]),
            ({"id": 1, "method": "$/x"}, [(1, -32601)]),
            ({"method": "$/x"}, []),
            ({"method": "initialized", "params": {}}, []),
            ({"id": 1, "result": None}, []),
            ({"id": 1, "error": {}}, []),
            (asked("hover", 0, 0), [(5, -32602)]),
            ({"id": 1, "method": "textDocument/hover", "params": [1]}, [(1, -32602)]),
        ):
            with self.subTest(message):
                self.assertEqual(errors(answers(message)), found)

    def test_wrong_parameters(self):
        texts = ({"uri": URL}, {**opened("")["params"]["textDocument"], "text": 1}, 1, None)
        for text in texts:
            found = answers({"method": "textDocument/didOpen", "params": {"textDocument": text}})
            self.assertEqual([each["method"] for each in found], ["window/showMessage"])
        for changes in (None, [], [1], [{"text": "", "range": place(0, 0, 0)}], [{}]):
            message = changed("")
            message["params"]["contentChanges"] = changes
            found = answers(opened("a{}"), message)
            kinds = [each["method"] for each in found]
            self.assertEqual(kinds, ["textDocument/publishDiagnostics", "window/showMessage"])
        for line, unit in ((-1, 0), (0, -1), ("0", 0), (0, None), (True, 0), (1.5, 0)):
            found = answers(opened("a{}"), asked("hover", line, unit))
            self.assertEqual(errors(found), [(5, -32602)], (line, unit))


class Encodings(unittest.TestCase):
    def test_places(self):
        """A character above U+FFFF has two units of UTF-16, and four of UTF-8; \\r alone ends a line."""
        text = "é😀x\r\ny\rz\n\nw"
        for encoding, units in (
            ("utf-8", (0, 2, 6, 7)),
            ("utf-16", (0, 1, 3, 4)),
            ("utf-32", (0, 1, 2, 3)),
        ):
            places = Places(text, encoding)
            found = [places.of(at) for at in range(4)]
            self.assertEqual(found, [(0, unit) for unit in units])
            rest = [places.of(text.index(each)) for each in "yzw"]
            self.assertEqual(rest, [(1, 0), (2, 0), (4, 0)])
            for at in (0, 1, 2, 3, 5, 7, 9, 10, 11):
                self.assertEqual(places.offset(*places.of(at)), at, (encoding, at))
            self.assertEqual(places.offset(0, 99), 3)
            self.assertEqual(places.offset(9, 0), len(text))
        # Within a pair is before it.
        self.assertEqual(Places(text, "utf-16").offset(0, 2), 1)
        self.assertEqual(
            [Places("", "utf-16").of(0), Places("", "utf-8").offset(0, 5)], [(0, 0), 0]
        )

    def test_long_line(self):
        text = "é😀" * 50_000
        places = Places(text, "utf-16")
        for at in (0, 1, 4095, 4096, 4097, 99_999, 100_000):
            units = len(text[:at].encode("utf-16-le")) // 2
            self.assertEqual(places.of(at), (0, units))
            self.assertEqual(places.offset(0, units), at)

    def test_negotiated(self):
        text = "/* 😀 */ a { colr: red }"
        for offered, encoding, first in (
            (None, "utf-16", 13),
            (["utf-8"], "utf-8", 15),
            (["x", "utf-32", "utf-8"], "utf-32", 12),
            ([1], "utf-16", 13),
            ("utf-8", "utf-16", 13),
        ):
            able = {"general": {"positionEncodings": offered}} if offered else {}
            start = {**START, "params": {"capabilities": able}}
            status, (made, *_) = run(start, *END)
            self.assertEqual(made["result"]["capabilities"]["positionEncoding"], encoding)
            (found,) = answers(opened(text), start=start)
            (one,) = found["params"]["diagnostics"]
            self.assertEqual(one["range"], place(0, first, first + 4))


class Reports(unittest.TestCase):
    def reported(self, *messages):
        """What is reported, for each time of the document and what was found."""
        return [
            (each["params"].get("version"), [it["code"] for it in each["params"]["diagnostics"]])
            for each in answers(*messages)
        ]

    def test_diagnostics(self):
        (found,) = answers(opened("a {\r\n  colr: red;\r\n}\n"))
        self.assertEqual(found["method"], "textDocument/publishDiagnostics")
        self.assertEqual((found["params"]["uri"], found["params"]["version"]), (URL, 1))
        (one,) = found["params"]["diagnostics"]
        self.assertEqual(one["range"], place(1, 2, 6))
        rest = (one["severity"], one["code"], one["source"])
        self.assertEqual(rest, (1, "unknown-property", "simplecss"))
        self.assertIn("did you mean 'color'?", one["message"])

    def test_severities(self):
        (found,) = answers(opened("a{colr:0} b{} c{top:0} d{top:0} c{left:0}"))
        levels = [each["severity"] for each in found["params"]["diagnostics"]]
        self.assertEqual(levels, [1, 2, 3])

    def test_changes(self):
        closed = {"method": "textDocument/didClose", "params": {"textDocument": {"uri": URL}}}
        found = self.reported(
            opened("a{colr:0}"), changed("a{top:0}"), changed("a{}", version=3), closed
        )
        wanted = [(1, ["unknown-property"]), (2, []), (3, ["empty-rule"]), (None, [])]
        self.assertEqual(found, wanted)
        # Some editors say no version.
        self.assertEqual(self.reported(opened("a{}"), changed("", version=None))[1], (None, []))
        # Of texts that come at once the last one is read.
        both = frame(opened("a{colr:0}")) + frame(changed("a{}"))
        self.assertEqual(self.reported(both), [(2, ["empty-rule"])])
        self.assertEqual(self.reported(frame(opened("a{}")) + frame(closed)), [(None, [])])

    def test_languages(self):
        page = "<style>a{colr:0}</style><p style='tpo:0'>"
        for url, language, text, found in (
            ("untitled:Untitled-1", "css", "a{colr:0}", 1),
            ("untitled:Untitled-1", "html", page, 2),
            ("untitled:Untitled-1", "vue", page, 1),
            ("untitled:Untitled-1", "scss", "a{colr:0}", 0),
            ("file:///none/a.scss", "scss", "a{colr:0}", 0),
            ("file:///none/a.CSS", "plaintext", "a{colr:0}", 1),
            ("file:///none/a.html", "plaintext", page, 2),
            ("file:///none/a%20b.svelte", "plaintext", page, 1),
            ("file:///none/a.svg", "xml", "<svg><style>a{colr:0}</style></svg>", 1),
            ("file:///none/a.svg", "xml", "<svg>", 1),
        ):
            with self.subTest(url=url, language=language):
                ((_, kinds),) = self.reported(opened(text, url, language))
                self.assertEqual(len(kinds), found)

    def test_settings(self):
        with tempfile.TemporaryDirectory() as folder:
            text = {"simplecss": {"lint": {"ignore": ["empty"], "severity": {"unknown": "note"}}}}
            text["simplecss"]["lint"]["exclude"] = ["old/"]
            path = Path(folder, "package.json")
            path.write_text(json.dumps(text), encoding="utf-8")
            sheet = "a{} b{colr:0}"
            url = Path(folder, "in", "a.css").as_uri()
            (found,) = answers(opened(sheet, url))
            rows = [(each["code"], each["severity"]) for each in found["params"]["diagnostics"]]
            self.assertEqual(rows, [("unknown-property", 3)])
            old = Path(folder, "old", "a.css").as_uri()
            self.assertEqual(self.reported(opened(sheet, old)), [(1, [])])
            path.write_text("{", encoding="utf-8")
            found = answers(opened(sheet, url), changed(sheet, url))
            shown = [each["method"].split("/")[1] for each in found]
            self.assertEqual(shown, ["showMessage", "publishDiagnostics", "publishDiagnostics"])
            self.assertIn("package.json", found[0]["params"]["message"])

    def test_strange_urls(self):
        for url in (
            "",
            "file:",
            "file:///a\0.css",
            "file:///%00",
            "\ud800",
            "http://[",
            "x" * 100_000,
        ):
            self.assertEqual(self.reported(opened("a{}", url)), [(1, ["empty-rule"])], url[:20])
        long = "file:///" + "a/" * 2000 + "b.css"
        self.assertEqual(self.reported(opened("a{}", long)), [(1, ["empty-rule"])])

    def test_strange_texts(self):
        for text in ("\ud800 { colr: 0 }", "\0{colr:0}", "\ufeffa{colr:0}", "a{colr:0}\r"):
            ((_, kinds),) = self.reported(opened(text))
            self.assertEqual(kinds, ["unknown-property"], text)

    def test_bounds(self):
        """Of many mistakes the first ones are reported, and a long text is not read: both are said."""
        ((_, kinds),) = self.reported(opened("a{}" * 600 + "b{}" * 600))
        self.assertEqual((len(kinds), kinds[-1]), (1001, "unread"))
        ((_, kinds),) = self.reported(opened("x" * ((1 << 22) + 1)))
        self.assertEqual(kinds, ["unread"])
        names = [f"file:///none/{number}.css" for number in range(5)]
        with unittest.mock.patch.object(_server, "_MOST", 4 * (1000 + len(names[0]))):
            found = answers(*(opened("/" * 1000, each) for each in names))
            kinds = [each["method"].split("/")[1] for each in found]
            self.assertEqual(kinds, [*["publishDiagnostics"] * 4, "showMessage"])
            closed = {"method": "textDocument/didClose"}
            closed["params"] = {"textDocument": {"uri": names[0]}}
            rest = [opened("/" * 1000, names[1]), closed, opened("/" * 1000, names[4])]
            found = answers(*(opened("/" * 1000, each) for each in names[:4]), *rest)
            self.assertEqual({each["method"].split("/")[1] for each in found}, {kinds[0]})


class Actions(unittest.TestCase):
    def actions(self, text, first, last, language="css", **context):
        more = {"context": {"diagnostics": [], **context}}
        message = asked("codeAction", 0, first, last, **more)
        return answers(opened(text, language=language), message)[1]["result"]

    def test_fixes(self):
        text = "a { colr: red; tpo: 0 }"
        (one,) = self.actions(text, 5, 5)
        self.assertEqual((one["title"], one["kind"]), ("Replace with `color`", "quickfix"))
        (edit,) = one["edit"]["changes"][URL]
        self.assertEqual(edit, {"range": place(0, 4, 8), "newText": "color"})
        self.assertEqual(one["diagnostics"][0]["range"], place(0, 4, 8))
        self.assertEqual(len(self.actions(text, 0, 23)), 2)
        self.assertEqual(self.actions(text, 9, 13), [])
        self.assertEqual(self.actions("a { b: 0 }", 0, 10), [])
        (one,) = self.actions("a { top: 0\n left: 0 }", 4, 8)
        self.assertEqual(one["title"], "Insert `;`")

    def test_kinds(self):
        text = "a { colr: red }"
        for only, kinds in (
            (None, ["quickfix"]),
            (["quickfix"], ["quickfix"]),
            (["source.fixAll"], ["source.fixAll.simplecss"]),
            (["source"], ["source.fixAll.simplecss"]),
            (["refactor", "quick"], []),
            (1, []),
        ):
            context = {} if only is None else {"only": only}
            self.assertEqual([each["kind"] for each in self.actions(text, 4, 8, **context)], kinds)
        (one,) = self.actions(text, 0, 0, only=["source.fixAll"])
        (edit,) = one["edit"]["changes"][URL]
        self.assertEqual(edit, {"range": place(0, 0, 15), "newText": "a { color: red }"})
        self.assertEqual(self.actions("a { top: 0 }", 0, 0, only=["source.fixAll"]), [])

    def test_changed(self):
        """What is corrected is the text that came last."""
        request = asked("codeAction", 0, 0, 99, context={"diagnostics": []})
        both = frame(changed("a { top: 0 } b { colr: 0 }")) + frame(request)
        found = answers(opened("a { tpo: 0 }"), both)
        (one,) = next(each["result"] for each in found if each.get("id") == 5)
        self.assertEqual(one["edit"]["changes"][URL][0]["range"], place(0, 17, 21))

    def test_pages(self):
        """In a page it is in its place, unless that has references."""
        url = "file:///none/a.html"
        for text, first in (
            ("<style>a{colr:0}</style>", 9),
            ("<p title=&amp; style='colr: 0'>", 22),
            ("<p style='/*&amp;*/colr: 0'>", None),
        ):
            message = asked("codeAction", 0, 0, 99, url, context={"diagnostics": []})
            found = answers(opened(text, url, "html"), message)[1]["result"]
            places = [each["edit"]["changes"][url][0]["range"] for each in found]
            self.assertEqual(places, [] if first is None else [place(0, first, first + 4)], text)


class Hover(unittest.TestCase):
    def hovered(self, text, unit, line=0, url=URL):
        found = answers(opened(text, url), asked("hover", line, unit, url=url))[1]["result"]
        return found and (found["contents"]["value"], found["range"])

    def test_selectors(self):
        text = "ul > li.a, #b::before { top: 0 } @media print { i:not(.x, #y) { } }"
        for unit, shown, first, last in (
            (0, "ul > li.a\nspecificity 0,1,2", 0, 9),
            (9, "ul > li.a\nspecificity 0,1,2", 0, 9),
            (12, "#b::before\nspecificity 1,0,1", 11, 21),
            (50, "i:not(.x, #y)\nspecificity 1,0,1", 48, 61),
        ):
            self.assertEqual(self.hovered(text, unit), (shown, place(0, first, last)))
        for unit in (26, 36, 66, 99):
            self.assertIsNone(self.hovered(text, unit))

    def test_nested(self):
        text = ".a, #b { top: 0; & > i, .c { left: 0; @media print { u & { top: 0 } } } }"
        for part, shown in (
            ("& > i", "& > i\nspecificity 1,0,1"),
            (".c", ".c\nspecificity 1,1,0"),
            ("u &", "u &\nspecificity 1,1,1"),
        ):
            first = text.index(part)
            self.assertEqual(self.hovered(text, first), (shown, place(0, first, first + len(part))))

    def test_namespaces(self):
        text = "@namespace svg 'http://www.w3.org/2000/svg'; svg|a { top: 0 } x|a { top: 0 }"
        self.assertEqual(self.hovered(text, 46)[0], "svg|a\nspecificity 0,0,1")
        self.assertIsNone(self.hovered(text, text.index("x|a")))

    def test_no_selectors(self):
        for text in (
            "a",
            "a:foo {}",
            "@media print {}",
            "",
            "a { top: 0",
            "é😀",
            "@keyframes a { from { top: 0 } }",
        ):
            for unit in range(len(text) + 2):
                found = self.hovered(text, unit)
                if found is not None:
                    self.assertEqual(found[0], "a\nspecificity 0,0,1")

    def test_pages(self):
        url = "file:///none/a.html"
        text = "<title>é</title>\n<style>\n.b { top: 0 }</style><p style='top: 0'>"
        self.assertEqual(self.hovered(text, 0, 2, url), (".b\nspecificity 0,1,0", place(2, 0, 2)))
        self.assertIsNone(self.hovered(text, 0, 0, url))
        self.assertIsNone(self.hovered(text, 31, 2, url))

    def test_deep(self):
        """A selector within many rules is looked for in a time that grows with the text."""
        text = "a{" * 2000 + "b{top:0}" + "}" * 2000
        self.assertIsNone(selector_at(text, 2 * 2000))
        text = "".join(f".a{number}{{}}" for number in range(20_000))
        self.assertEqual(selector_at(text, len(text) - 4).specificity, (0, 1, 0))


if __name__ == "__main__":
    unittest.main()
