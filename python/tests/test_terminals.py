"""Tests of what is written to a terminal, of Ctrl-C, and of names of files that are not UTF-8."""

import io
import json
import os
import subprocess
import sys
import tempfile
import unittest
import unittest.mock
import xml.etree.ElementTree
from contextlib import redirect_stderr, redirect_stdout

FOLDER = os.path.join(os.path.dirname(os.path.abspath(__file__)), "..", "src")
sys.path.insert(0, FOLDER)

from simplecss import __main__ as command  # noqa: E402

# What changes the order of characters (Unicode Standard Annex 9), ends lines, or is invisible.
HIDDEN = (
    "\u202a\u202e\u2066\u2069\u200b\u200e\u200f\u2028\u2029\ufeff\u061c\u00ad\U000e0001\U000e0041"
)
ESCAPE = "\x1b]0;pwn\x07"


class Terminal(io.StringIO):
    """A stream that says that it is a terminal."""

    def isatty(self) -> bool:
        return True


class Terminals(unittest.TestCase):
    def setUp(self) -> None:
        folder = tempfile.TemporaryDirectory()
        self.addCleanup(folder.cleanup)
        self.folder = folder.name

    def file(self, name, text):
        path = os.path.join(os.fsencode(self.folder), os.fsencode(name))
        with open(path, "wb") as file:
            file.write(text.encode())
        return os.fsdecode(path)

    def run_on(self, output, *words):
        """Runs the command line. Returns what it writes."""
        with redirect_stdout(output), redirect_stderr(Terminal()) as errors:
            self.status = command.main(list(words))
        return output.getvalue() + errors.getvalue()

    def test_no_command_reaches_a_terminal(self) -> None:
        css = self.file("a.css", f'p{{a:"{ESCAPE}"}}')
        page = self.file("a.html", f"<meta charset=utf-8><p title='{ESCAPE}'>{ESCAPE}")
        fixed = self.file("b.css", f'p{{color:red !importnt;a:"{ESCAPE}"}}')
        for words in (
            ("minify", css),
            ("inline", page),
            ("inline", "--xml", self.file("a.svg", "<svg a='\x7f'/>")),
            ("unused", "--print", css, page),
            ("unused", css, page),
            ("select", "--html", "p", page),
            ("select", "--text", "p", page),
            ("match", css, page),
            ("style", css, page, "a"),
            ("lint", fixed),
        ):
            shown = self.run_on(Terminal(), *words)
            self.assertNotIn("]0;pwn\x07", shown, words)
            self.assertNotIn("\x1b]", shown, words)
            self.assertNotIn("\x7f", shown, words)
        # A file or a pipe gets all of it.
        for words in (("minify", css), ("inline", page), ("unused", "--print", css, page)):
            self.assertIn(ESCAPE, self.run_on(io.StringIO(), *words), words)

    def test_colours(self) -> None:
        css = self.file("a.css", "a { colr: red } b { }")
        with unittest.mock.patch.dict(os.environ):
            os.environ.pop("NO_COLOR", None)
            shown = self.run_on(Terminal(), "lint", css)
            self.assertIn("\x1b[1;31m", shown)
            self.assertIn("\x1b[1;33m", shown)
            self.assertNotIn("\x1b[1", self.run_on(io.StringIO(), "lint", css))
            os.environ["NO_COLOR"] = "1"
            self.assertNotIn("\x1b[1;", self.run_on(Terminal(), "lint", css))

    def test_what_is_hidden_is_shown(self) -> None:
        """In each line for people, each is U+FFFD; JSON has an escape of each."""
        css = self.file("a.css", f"p[a='{HIDDEN}']{{colr{HIDDEN[0]}:'{HIDDEN}';bb:'{HIDDEN}'}}")
        page = self.file("a.html", f"<meta charset=utf-8><p a='{HIDDEN}' class='{HIDDEN}'>")
        unmatched = self.file("b.css", f".x[a='{HIDDEN}']{{b:c}}")
        named = self.file(f"{HIDDEN[1]}.html", "<p>")
        seen = 0
        for words in (
            ("match", css, page),
            ("style", css, page, "bb"),
            ("select", "p", page),
            ("select", "p", named),
            ("select", "--count", "p", named, page),
            ("unused", unmatched, page),
            ("lint", css),
            ("lint", "--format", "github", css),
            ("lint", "--format", "checkstyle", css),
            ("lint", os.path.join(self.folder, f"{HIDDEN[1]}.css")),
        ):
            for output in (Terminal(), io.StringIO()):
                shown = self.run_on(output, *words)
                self.assertTrue(set(HIDDEN).isdisjoint(shown), (words, shown))
                seen += shown.count("\ufffd")
        self.assertGreater(seen, 20)
        with redirect_stderr(io.StringIO()) as errors, self.assertRaises(SystemExit):
            command.main(["select", "p", page, f"--{HIDDEN[1]}"])
        self.assertTrue(set(HIDDEN).isdisjoint(errors.getvalue()))
        for words in (("style", "--json", css, page, "bb"), ("lint", "--json", css)):
            shown = self.run_on(io.StringIO(), *words)
            self.assertTrue(set(HIDDEN).isdisjoint(shown), words)
            values = [json.loads(each) for each in shown.splitlines()]
            self.assertIn(HIDDEN[0], json.dumps(values, ensure_ascii=False))

    def test_a_name_that_is_not_utf_8_is_taken(self) -> None:
        """By each command, and shown with U+FFFD."""
        if sys.platform in ("win32", "darwin"):
            self.skipTest("there are no such names")
        css = self.file(b"\xff.css", "p{colr:red}b{c:d}")
        page = self.file(b"\xff.html", "<link rel=stylesheet href=%FF.css><p>")
        out = self.file(b"\xfe.out", "")
        for words, status in (
            (("match", css, page), 0),
            (("match", page), 0),
            (("style", css, page, "colr"), 0),
            (("style", "--json", css, page, "colr"), 0),
            (("select", "p", page), 0),
            (("select", "--json", "p", page), 0),
            (("select", "--count", "p", page, page), 0),
            (("lint", css), 1),
            (("lint", "--json", css), 1),
            (("lint", "--format", "github", css), 1),
            (("lint", "--format", "sarif", css), 1),
            (("lint", "--format", "checkstyle", css), 1),
            (("minify", css), 0),
            (("minify", "--json", css), 0),
            (("minify", css, "-o", out), 0),
            (("inline", page, css), 0),
            (("inline", page, css, "-o", out), 0),
            (("unused", css, page), 0),
            (("unused", "--json", css, page), 0),
            (("unused", page), 0),
            (("select", "p", self.folder), 0),
            (("lint", self.folder), 1),
        ):
            shown = self.run_on(io.StringIO(), *words)
            self.assertEqual(self.status, status, (words, shown))
            shown.encode("utf-8")
            if "json" in words[1] and words[0] != "minify":
                self.assertTrue(all(map(json.loads, shown.splitlines())))
        xml.etree.ElementTree.fromstring(
            self.run_on(io.StringIO(), "lint", "--format", "checkstyle", css)
        )

    def test_ctrl_c_while_modules_load(self) -> None:
        """It ends the program with its status, and without a word."""
        code = """if True:
            import os, signal, sys
            signal.signal(signal.SIGINT, signal.default_int_handler)
            sys.path.insert(0, sys.argv.pop(1))
            at = sys.argv.pop(1)
            class Finder:
                def find_spec(self, name, path=None, target=None):
                    if name == at:
                        os.kill(os.getpid(), signal.SIGINT)
            sys.meta_path.insert(0, Finder())
            sys.argv = ["simplecss", "--help"]
            from simplecss.__main__ import main
            sys.exit(main())"""
        # The folder of the package, which may be an installed one.
        package = os.path.dirname(os.path.dirname(os.path.abspath(command.__file__)))
        for module in ("argparse", "simplecss._jobs", "simplecss._sheet", "simplecss._xml"):
            words = [sys.executable, "-S", "-c", code, package, module]
            made = subprocess.run(words, capture_output=True, check=False)
            self.assertEqual((made.returncode, made.stdout, made.stderr), (130, b"", b""), module)


if __name__ == "__main__":
    unittest.main()
