"""The order of arguments, `prettify`, `--watch` and the completions of shells."""

import os
import pathlib
import shutil
import signal
import subprocess
import sys
import tempfile
import time
import unittest

SOURCES = os.path.join(os.path.dirname(os.path.abspath(__file__)), "..", "src")
DRAWING = '<svg xmlns="http://www.w3.org/2000/svg"><style>rect{fill:red}</style><rect/></svg>'
ENVIRONMENT = {**os.environ, "PYTHONPATH": os.path.abspath(SOURCES), "PYTHONUNBUFFERED": "1"}
COMMAND = [sys.executable, "-m", "simplecss"]
# What bash completes of the words that it is called with.
BASH = """
. ./simplecss.bash
COMP_WORDS=("$@") COMP_CWORD=$(($# - 1)) COMPREPLY=()
_simplecss
printf '%s\\n' "${COMPREPLY[@]}"
"""


class Commands(unittest.TestCase):
    def setUp(self):
        folder = tempfile.TemporaryDirectory()
        self.addCleanup(folder.cleanup)
        self.folder = pathlib.Path(folder.name)
        (self.folder / "a.svg").write_text(DRAWING)
        (self.folder / "a.css").write_text("/* b */ a { top: 0 } rect{fill:blue}")

    def run_words(self, *words):
        """Runs the command in the folder. Returns its status and what it writes."""
        done = subprocess.run(
            [*COMMAND, *words], cwd=self.folder, env=ENVIRONMENT, capture_output=True, text=True
        )
        return done.returncode, done.stdout, done.stderr

    def test_order(self):
        """The name comes last, as for cssq; first it is taken with a warning. Options may be
        anywhere."""
        red, blue = "a.svg:1:70: <rect> fill: red\n", "a.svg:1:70: <rect> fill: blue\n"
        rows = [
            (["a.svg", "fill"], red, False),
            (["fill", "a.svg"], red, True),
            (["a.css", "a.svg", "fill"], blue, False),
            (["fill", "a.css", "a.svg"], blue, True),
            (["a.css", "--width", "9", "a.svg", "fill"], blue, False),
            (["--dark", "fill", "--width", "9", "a.svg"], red, True),
        ]
        for words, printed, is_old in rows:
            with self.subTest(words=words):
                status, output, errors = self.run_words("style", *words)
                self.assertEqual((status, output), (0, printed))
                line = "simplecss: style NAME PAGE is now style PAGE NAME"
                self.assertEqual(errors.startswith(line), is_old, errors)
        self.assertEqual(self.run_words("style", "fill")[0], 2)
        self.assertEqual(self.run_words("style", "a.svg", "fill", "--bogus")[0], 2)

    def test_prettify(self):
        lines = "/* b */\na {\n  top: 0;\n}\nrect {\n  fill: blue;\n}\n"
        self.assertEqual(self.run_words("prettify", "a.css"), (0, lines, ""))
        self.assertEqual(self.run_words("prettify", "-o", "b.css", "a.css"), (0, "", ""))
        self.assertEqual(self.run_words("prettify", "b.css")[1], lines)
        self.assertEqual((self.folder / "b.css").read_text(), lines)
        self.assertEqual(self.run_words("prettify", "a.svg")[0], 2)

    def waits(self, child, holds):
        """Waits until something holds, while a program runs."""
        end = time.monotonic() + 60
        while not holds():
            self.assertIsNone(child.poll(), "it has ended")
            self.assertLess(time.monotonic(), end, "it takes too long")
            time.sleep(0.1)

    @unittest.skipIf(os.name == "nt", "no interrupts")
    def test_watch(self):
        """A change of a file, and of a sheet that a page links to, is written again."""
        # A program that a shell starts in the background ignores the signal, and so would one that it starts.
        before = signal.signal(signal.SIGINT, signal.default_int_handler)
        self.addCleanup(signal.signal, signal.SIGINT, before)
        (self.folder / "a.html").write_text('<link rel=stylesheet href="a.css"><a>1</a>')
        # The words, the file that changes, and what is then in the output.
        rows = [
            (["minify", "-o", "out", "a.css"], "a{top:0}", "a{top:1px"),
            (["prettify", "-o", "out", "a.css"], "top: 0;", "top: 1px;"),
            (["inline", "-o", "out", "a.html"], "top: 0", "top: 1px"),
            (["lint", "--format", "json", "a.css"], "", "unknown-property"),
        ]
        for words, first, second in rows:
            with self.subTest(words=words):
                out = self.folder / "out"
                (self.folder / "a.css").write_text("a { top: 0 }")
                with open(self.folder / "shown", "wb") as shown:
                    child = subprocess.Popen(
                        [*COMMAND, *words, "--watch"],
                        cwd=self.folder,
                        env=ENVIRONMENT,
                        stdout=shown,
                    )
                try:
                    place = out if "-o" in words else self.folder / "shown"
                    self.waits(child, lambda: place.exists() and first in place.read_text())
                    # It is watched once it was read.
                    time.sleep(2)
                    (self.folder / "a.css").write_text("a { top: 1px; colr: red }")
                    self.waits(child, lambda: second in place.read_text())
                finally:
                    child.send_signal(signal.SIGINT)
                    self.assertEqual(child.wait(30), 130)
                out.unlink(missing_ok=True)
        self.assertEqual(self.run_words("lint", "--watch", "-")[0], 2)

    def test_bash(self):
        """Bash completes commands, options, their values, and files."""
        if not shutil.which("bash"):
            self.skipTest("completion: there is no bash")
        script = self.run_words("completions", "bash")[1]
        (self.folder / "simplecss.bash").write_text(script)
        rows = [
            (["m"], {"match", "minify"}),
            (["style", "--me"], {"--media"}),
            (["style", "--media", ""], {"screen", "print", "speech"}),
            (["lint", "--format", "g"], {"github"}),
            (["inline", "a"], {"a.svg", "a.css"}),
            (["minify", "-o", "a.s"], {"a.svg"}),
            (["--json", "lint", "--f"], {"--fix", "--format", "--folder"}),
            (["completions", "f"], {"fish"}),
            (["--v"], {"--version"}),
        ]
        for words, due in rows:
            with self.subTest(words=words):
                command = ["bash", "-c", BASH, "bash", "simplecss", *words]
                done = subprocess.run(command, cwd=self.folder, capture_output=True, text=True)
                self.assertEqual((set(done.stdout.split()), done.stderr), (due, ""))

    def test_other_shells(self):
        """Zsh and fish read theirs, which have each command and option."""
        options = self.run_words("--help")[1] + self.run_words("inline", "--help")[1]
        for shell in ("bash", "zsh", "fish"):
            status, script, _ = self.run_words("completions", shell)
            self.assertEqual(status, 0)
            for name in ("select", "unused", "prettify", "completions", "remove-classes"):
                with self.subTest(shell=shell, name=name):
                    self.assertIn(name, options)
                    self.assertIn(name, script)
            if shutil.which(shell):
                with self.subTest(shell=shell):
                    done = subprocess.run([shell, "-n"], input=script.encode(), capture_output=True)
                    self.assertEqual((done.returncode, done.stderr), (0, b""))


if __name__ == "__main__":
    unittest.main()
