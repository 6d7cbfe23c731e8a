"""Tests of what a write that fails leaves of the file that it should replace."""

import os
import resource
import stat
import subprocess
import sys
import tempfile
import unittest
import unittest.mock

SRC = os.path.join(os.path.dirname(os.path.abspath(__file__)), "..", "src")
sys.path.insert(0, SRC)

from simplecss import _writing  # noqa: E402

# More than a file may have, so that a write fails after its first bytes.
ROOM = 4096
LONG = "a { b: c; }\n" * 700
PAGE = f"<style>{LONG}</style><a>" + "<p>x" * 2000


def limit_files():
    """Sets how long a file may be."""
    resource.setrlimit(resource.RLIMIT_FSIZE, (ROOM, ROOM))


class Written(unittest.TestCase):
    def setUp(self):
        folder = tempfile.TemporaryDirectory()
        self.addCleanup(folder.cleanup)
        self.folder = folder.name

    def path(self, name):
        return os.path.join(self.folder, name)

    def put(self, name, text, mode=0o644):
        with open(self.path(name), "w", encoding="utf-8") as file:
            file.write(text)
        os.chmod(self.path(name), mode)
        return self.path(name)

    def text(self, name):
        with open(self.path(name), encoding="utf-8") as file:
            return file.read()

    def mode(self, name):
        return stat.S_IMODE(os.stat(self.path(name)).st_mode)

    def run_command(self, *words, before=None):
        """Runs the command line as a program. Returns its status, and what it says."""
        environment = {**os.environ, "PYTHONPATH": SRC}
        words = (sys.executable, "-m", "simplecss", *words)
        found = subprocess.run(
            words,
            cwd=self.folder,
            env=environment,
            capture_output=True,
            preexec_fn=before,
        )
        return found.returncode, found.stderr.decode("utf-8")


class Failing(Written):
    """A file may have 4,096 bytes, and what is to be written has more."""

    def check_kept(self, name, old, *words):
        self.put(name, old)
        names = sorted(os.listdir(self.folder))
        status, errors = self.run_command(*words, before=limit_files)
        self.assertEqual((status, "cannot write" in errors), (4, True), errors)
        self.assertEqual(self.text(name), old)
        self.assertEqual(sorted(os.listdir(self.folder)), names)

    def test_lint_keeps_the_sheet(self):
        self.check_kept("a.css", LONG + "a { colr: red !importnt }", "lint", "--fix", "a.css")

    def test_output_keeps_the_file(self):
        self.put("long.css", LONG.replace("b", "b" * 40))
        self.put("long.html", PAGE)
        for words in (("minify", "long.css"), ("inline", "long.html")):
            self.check_kept("old", "old" * 3000, *words, "-o", "old")

    def test_nothing_is_left_of_a_new_file(self):
        self.put("long.html", PAGE)
        status, errors = self.run_command("inline", "long.html", "-o", "new", before=limit_files)
        self.assertEqual((status, os.listdir(self.folder)), (4, ["long.html"]), errors)

    def test_a_folder_of_files_has_whole_ones(self):
        self.put("long.css", LONG.replace("b", "b" * 40))
        self.put("few.css", "a { b: c }")
        words = ("minify", "few.css", "long.css", "-o", "out/")
        self.assertEqual(self.run_command(*words, before=limit_files)[0], 4)
        self.assertEqual(os.listdir(self.path("out")), ["few.css"])
        self.assertEqual(self.text("out/few.css"), "a{b:c}\n")


class Kept(Written):
    """What a new content leaves as it was."""

    def test_mode(self):
        for mode in (0o600, 0o640, 0o755):
            self.put("a.css", "a { b: c }", mode)
            self.assertEqual(self.run_command("minify", "a.css", "-o", "a.css")[0], 0)
            self.assertEqual((self.text("a.css"), self.mode("a.css")), ("a{b:c}\n", mode))

    def test_a_new_file_has_the_usual_mode(self):
        self.put("a.css", "a { b: c }")
        for mask, mode in ((0o022, 0o644), (0o077, 0o600)):
            words = ("minify", "a.css", "-o", f"new{mask}")
            self.assertEqual(self.run_command(*words, before=lambda: os.umask(mask))[0], 0)
            self.assertEqual(self.mode(f"new{mask}"), mode)

    def test_symbolic_links(self):
        os.mkdir(self.path("inner"))
        self.put("inner/a.css", "a { b: c }")
        os.symlink(os.path.join("inner", "a.css"), self.path("link.css"))
        os.symlink("link.css", self.path("second.css"))
        os.symlink(os.path.join("inner", "new.css"), self.path("dangling.css"))
        for name, target in (
            ("second.css", "inner/a.css"),
            ("dangling.css", "inner/new.css"),
        ):
            self.assertEqual(self.run_command("minify", "link.css", "-o", name)[0], 0)
            self.assertTrue(os.path.islink(self.path(name)))
            self.assertEqual(self.text(target), "a{b:c}\n")
        self.assertEqual(sorted(os.listdir(self.path("inner"))), ["a.css", "new.css"])

    def test_a_link_that_leads_to_itself(self):
        self.put("a.css", "a { b: c }")
        os.symlink("loop.css", self.path("loop.css"))
        self.assertEqual(self.run_command("minify", "a.css", "-o", "loop.css")[0], 4)
        self.assertTrue(os.path.islink(self.path("loop.css")))

    def test_a_hard_link_keeps_the_old_content(self):
        self.put("a.css", "a { b: c }")
        os.link(self.path("a.css"), self.path("b.css"))
        self.assertEqual(self.run_command("minify", "a.css", "-o", "a.css")[0], 0)
        self.assertEqual((self.text("a.css"), self.text("b.css")), ("a{b:c}\n", "a { b: c }"))

    def test_what_is_no_file_is_written_to(self):
        self.put("a.css", "a { b: c }")
        os.mkfifo(self.path("pipe"))
        reader = os.open(self.path("pipe"), os.O_RDONLY | os.O_NONBLOCK)
        self.addCleanup(os.close, reader)
        self.assertEqual(self.run_command("minify", "a.css", "-o", "pipe")[0], 0)
        self.assertEqual(os.read(reader, 100), b"a{b:c}\n")
        self.assertTrue(stat.S_ISFIFO(os.stat(self.path("pipe")).st_mode))
        self.assertEqual(self.run_command("minify", "a.css", "-o", os.devnull)[0], 0)
        self.assertFalse(os.path.isfile(os.devnull))

    def test_a_file_that_may_not_be_written_stays(self):
        path = self.put("a.css", "old", 0o444)
        with unittest.mock.patch.object(os, "access", lambda *words: False):
            with self.assertRaises(PermissionError):
                _writing.write_file(path, b"new")
        self.assertEqual((self.text("a.css"), os.listdir(self.folder)), ("old", ["a.css"]))

    def test_what_ends_at_once_leaves_nothing(self):
        path = self.put("a.css", "old")
        seen = []

        def interrupted(number):
            seen.append(len(os.listdir(self.folder)))
            _writing.abandon()
            seen.append(os.listdir(self.folder))
            raise KeyboardInterrupt

        with unittest.mock.patch.object(os, "fsync", interrupted):
            with self.assertRaises(KeyboardInterrupt):
                _writing.write_file(path, b"new")
        self.assertEqual((seen, self.text("a.css")), ([2, ["a.css"]], "old"))
        self.assertEqual(_writing._begun, set())


if __name__ == "__main__":
    unittest.main()
