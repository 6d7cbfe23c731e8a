"""Tests of what a project says of `lint`, and of the files that it leaves out."""

import contextlib
import io
import json
import os
import shutil
import subprocess
import sys
import tempfile
import unittest
from contextlib import redirect_stderr, redirect_stdout
from pathlib import Path

from simplecss import __main__ as command
from simplecss import _project

WRONG = "a { colr: red }\n"
SETTINGS = """[tool.simplecss.lint]
exclude = ["old/", "*.min.css"]
ignore = ["empty"]
severity = {unknown = "note", unknown-property = "error"}
"""
# Lines of `.gitignore`, and files of which git says which it ignores.
IGNORED = (
    "*.min.css",
    "!keep.min.css",
    "/top.css",
    "build/",
    "# not.css",
    "\\#hash.css",
    "a/**/b.css",
    "x/*.css",
    "**/deep/y.css",
    "z[0-2].css",
    "w[!a-c].css",
    "?.css",
    "folder/**",
    "blank.css   ",
    "s*a*e.css",
    "",
)
FILES = (
    *("p.min.css", "keep.min.css", "top.css", "q/top.css", "build/c.css", "q/build/c.css"),
    *("not.css", "#hash.css", "a/b.css", "a/m/b.css", "a/m/n/b.css", "q/a/b.css", "x/c.css"),
    *(
        "x/y/c.css",
        "q/x/c.css",
        "deep/y.css",
        "q/deep/y.css",
        "z1.css",
        "z3.css",
        "wa.css",
        "wd.css",
    ),
    *(
        "i.css",
        "q/ij.css",
        "folder/c.css",
        "folder/m/c.css",
        "blank.css",
        "sale.css",
        "q/sable.css",
    ),
    *("inner/one.css", "inner/two.css", "inner/m/one.css"),
)
HAS_TOML = sys.version_info >= (3, 11)


@contextlib.contextmanager
def folder_of(files):
    """A folder with these files, which the program is in."""
    old = os.getcwd()
    with tempfile.TemporaryDirectory() as folder:
        for name, text in files.items():
            path = Path(folder, name)
            path.parent.mkdir(parents=True, exist_ok=True)
            path.write_text(text, encoding="utf-8")
        os.chdir(folder)
        try:
            yield folder
        finally:
            os.chdir(old)


def run(*words):
    """The status of `lint`, what it writes, and what it says."""
    out, error = io.StringIO(), io.StringIO()
    with redirect_stdout(out), redirect_stderr(error):
        status = command.main(["lint", *words])
    return status, out.getvalue(), error.getvalue()


def names(*words):
    """The files in which `lint` finds something."""
    lines = run("--json", *words)[1].splitlines()
    return sorted({json.loads(line)["file"].replace(os.sep, "/") for line in lines})


class Settings(unittest.TestCase):
    @unittest.skipUnless(HAS_TOML, "Python 3.11 reads TOML")
    def test_each_file(self):
        lint = {"exclude": ["old/", "*.min.css"], "ignore": ["empty"]}
        lint["severity"] = {"unknown": "note", "unknown-property": "error"}
        for name, text in (
            ("pyproject.toml", SETTINGS),
            ("simplecss.toml", SETTINGS),
            ("package.json", json.dumps({"simplecss": {"lint": lint}})),
        ):
            files = {name: text, "a.css": WRONG, "old/b.css": WRONG, "c.min.css": WRONG}
            with folder_of({**files, "in/d.css": "a { } b { top: 1pxx }\n"}):
                self.assertEqual(names("."), ["a.css", "in/d.css"], name)
                # A file that is named is read.
                self.assertEqual(names("c.min.css"), ["c.min.css"])
                self.assertEqual(names("*.css"), ["a.css"])
                self.assertEqual(len(names("--no-project", ".")), 4)
                os.chdir("in")
                lines = run("--json", "d.css", "../a.css")[1].splitlines()
                found = [json.loads(line) for line in lines]
                due = [("unknown-unit", "note"), ("unknown-property", "error")]
                self.assertEqual([(each["kind"], each["severity"]) for each in found], due)
                self.assertIn("::error file=", run("--format", "github", "../a.css")[1])
                self.assertIn('severity="info"', run("--format", "checkstyle", "d.css")[1])

    def test_select(self):
        text = json.dumps({"simplecss": {"lint": {"select": ["empty"]}}})
        with folder_of({"package.json": text, "a.css": WRONG + "b { }\n"}):
            self.assertEqual(run("a.css")[1].count("\n"), 1)
            self.assertIn("unknown property", run("--select", "unknown", "a.css")[1])

    def test_wrong_settings(self):
        for lint, word in (
            ({"exclud": []}, "exclud"),
            ({"exclude": "a"}, "exclude"),
            ({"ignore": [1]}, "ignore"),
            ({"severity": {"empty": "bad"}}, "severity"),
            ([], "table"),
        ):
            text = json.dumps({"simplecss": {"lint": lint}})
            with folder_of({"package.json": text, "a.css": WRONG}):
                status, out, error = run("a.css")
                self.assertEqual((status, out), (2, ""))
                self.assertIn(word, error)
        with folder_of({"package.json": "{", "a.css": WRONG}):
            self.assertEqual(run("a.css")[0], 2)
        with folder_of({"package.json": "{}", "a.css": WRONG}):
            self.assertEqual(run("a.css")[0], 1)


class Left(unittest.TestCase):
    def test_as_git(self):
        """The files that are left out are those that git ignores."""
        if shutil.which("git") is None:
            self.skipTest("git is missing")
        files = {each: WRONG for each in FILES}
        inner = "one.css\n!keep.min.css\n/two.css\n"
        files.update({".gitignore": "\n".join(IGNORED), "inner/.gitignore": inner})
        with folder_of(files):
            subprocess.run(["git", "init", "-q", "."], check=True)
            listed = ["git", "ls-files", "-z", "--others", "--exclude-standard"]
            made = subprocess.run(listed, check=True, capture_output=True, text=True)
            kept = sorted(each for each in made.stdout.split("\0") if each.endswith(".css"))
            self.assertLess(len(kept), len(FILES))
            self.assertEqual(names("."), kept)
            os.chdir("q")
            due = [each[2:] for each in kept if each.startswith("q/")]
            self.assertEqual(names("."), due)

    def test_foreign_folders(self):
        with folder_of(
            {"a.css": WRONG, "node_modules/b.css": WRONG, "in/node_modules/c.css": WRONG}
        ):
            self.assertEqual(names("."), ["a.css"])
            self.assertEqual(len(names("--no-project", ".")), 3)

    def test_long_patterns(self):
        """The time is that of the length of a pattern, times that of a path."""
        for line in ("*a" * 60 + "b", "/".join(["**", "a"] * 60) + "/b"):
            pattern = _project._pattern(line)
            self.assertFalse(pattern.matches(["a" * 200] if "/" not in line else ["a"] * 500))


class Parts(unittest.TestCase):
    def test_standard_input(self):
        for words, text, due in (
            ((), WRONG, "-:1:5:"),
            (("--stdin-filename", "b.css"), WRONG, "b.css:1:5:"),
            (("--stdin-filename", "b.html"), f"<style>{WRONG}</style>", "b.html:1:12:"),
            (("--stdin-filename", "b.vue"), f"<style>{WRONG}</style>", "b.vue:1:12:"),
        ):
            old, sys.stdin = sys.stdin, io.TextIOWrapper(io.BytesIO(text.encode("utf-8")))
            try:
                status, out, _ = run(*words, "-")
            finally:
                sys.stdin = old
            self.assertEqual((status, out[: len(due)]), (1, due))

    def test_components(self):
        style = f"<style>\n{WRONG}</style>\n"
        for name, text, rows in (
            ("a.vue", f"<template><B /><p style='colr: x'></p></template>\n{style}", [3]),
            ("a.vue", f"<script setup>const x = '<style>'</script>\n{style}", [3]),
            ("b.svelte", f"<p style='colr: {{x}}'>\n<style lang='css'>\n{WRONG}</style>", [3]),
            ("b.svelte", f'<style lang="scss">\n{WRONG}</style>', []),
            ("c.VUE", f"<style lang=less>{WRONG}</style>{style}", [3]),
        ):
            with folder_of({name: text}):
                lines = run("--json", ".")[1].splitlines()
                self.assertEqual([json.loads(line)["row"] for line in lines], rows, text)


if __name__ == "__main__":
    unittest.main()
