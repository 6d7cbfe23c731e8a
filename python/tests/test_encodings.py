"""Tests of pages in bytes: `from_html` and the command line read each of them, as browsers do."""

import io
import os
import sys
import tempfile
import unittest
from contextlib import redirect_stderr, redirect_stdout

sys.path.insert(0, os.path.join(os.path.dirname(__file__), "..", "src"))

import simplecss  # noqa: E402
from simplecss import Tree  # noqa: E402
from simplecss import __main__ as command  # noqa: E402

# Pages, the label that a server names, and their text (HTML Standard, "Determining the character encoding", and
# Encoding Standard).
PAGES = (
    (b"<p>caf\xe9", None, "caf\xe9"),
    (b"<p>\x80\x81\x99", None, "\u20ac\x81\u2122"),
    (b"<p>caf\xc3\xa9", None, "caf\xe9"),
    (b"<p>caf\xc3\xa9\xff", None, "caf\xc3\xa9\xff"),
    (b"<meta charset=utf-8><p>a\xffb\xe2\x82c", None, "a\ufffdb\ufffdc"),
    (b"<meta charset=gbk><p>\x80\xff", None, "\u20ac\ufffd"),
    (b"<meta charset=windows-1253><p>\xd2\xe1", None, "\ufffd\u03b1"),
    (b"<meta charset=euc-jp><p>\xa4\xa2\xff\xa4<b>", None, "\u3042\ufffd\ufffd"),
    (b"<meta charset=utf-8><p>\xe9", "windows-1252", "\xe9"),
    (b"<p>\xe9", " Latin1 ", "\xe9"),
    (b"\xef\xbb\xbf<p>\xc3\xa9", "windows-1252", "\xe9"),
    ("<p>\xe9".encode("utf-16-le"), "utf-16", "\xe9"),
    (b"\xff\xfe" + "<p>\xe9".encode("utf-16-le") + b"\0", None, "\xe9\ufffd"),
    (b"<meta charset=utf-16><p>\xc3\xa9", None, "\xe9"),
    (b"<meta charset=bogus><p>\xe9", None, "\xe9"),
)


class Encodings(unittest.TestCase):
    def test_every_page_is_read(self):
        for data, label, text in PAGES:
            tree = Tree.from_html(data, encoding=label)
            self.assertEqual(tree.select_one("p").text, text, data)

    def test_a_label_of_no_encoding_is_a_value_error(self):
        for label in ("bogus", "", "utf-8-sig", "hz"):
            with self.assertRaisesRegex(ValueError, "unknown encoding"):
                Tree.from_html(b"<p>", encoding=label)

    def test_the_command_line_reads_them(self):
        """But what is written again, and XML, is in the encoding that it names."""
        with tempfile.TemporaryDirectory() as folder:
            for name in ("page.html", "page.svg"):
                with open(os.path.join(folder, name), "wb") as file:
                    file.write(b"<p>caf\xe9</p>")
            html, svg = os.path.join(folder, "page.html"), os.path.join(folder, "page.svg")
            for words, status, output in (
                (("select", "--text", "p", html), 0, "caf\xe9\n"),
                (("select", "--text", "p", svg), 4, ""),
                (("lint", html), 0, ""),
                (("inline", html), 4, ""),
            ):
                out, errors = io.StringIO(), io.StringIO()
                with redirect_stdout(out), redirect_stderr(errors):
                    self.assertEqual(command.main(list(words)), status, words)
                self.assertEqual(out.getvalue(), output, words)
                self.assertEqual("not utf-8" in errors.getvalue(), status == 4, words)

    def test_the_reason_is_said(self):
        """A page in UTF-8 with an escape character is UTF-8, but a browser may read ISO-2022-JP."""
        with tempfile.TemporaryDirectory() as folder:
            page = os.path.join(folder, "page.html")
            with open(page, "wb") as file:
                file.write(b"<p>x\x1by")
            errors = io.StringIO()
            with redirect_stdout(io.StringIO()), redirect_stderr(errors):
                self.assertEqual(command.main(["inline", page]), 4)
            self.assertIn("must name one encoding", errors.getvalue())
            self.assertNotIn("not utf-8", errors.getvalue())

    def test_what_is_written_again_is_refused(self):
        """For a byte without a meaning another would be written."""
        for data, label, text in PAGES:
            if "\ufffd" in text and label is None:
                with self.assertRaises(UnicodeDecodeError, msg=data):
                    simplecss.inline(data)


if __name__ == "__main__":
    unittest.main()
