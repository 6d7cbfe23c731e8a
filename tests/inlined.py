"""What `simplecss_inline` writes, beside Python's `inline` and a browser.

The mails are those of `tests/mails`: what the call writes is what Python writes without `!important` of its own, but for
those that are named here. Random pages look in the browser as they did before, in states of their elements and at
two widths. Long pages take linear time. The browser is Debian's `chromium`; the library is built by `./build library`.
"""
from __future__ import annotations

import ctypes
import glob
import os
import time
from typing import Any, Callable, Iterator, List, Optional, Tuple

from tests.common import TOP, Case, browser_answers, count, library_path, package
from tests.states import SCRIPT, Source, with_states

package()
import simplecss  # noqa: E402

SIZE = ctypes.c_size_t
DONE, REFUSED, TOO_LONG, NOT_UTF8, TOO_SMALL = 0, 1, 4, 5, 6
LIMIT = 10_000_000
# The mails of which more stays in sheets, and why.
MORE_STAYS = {
    "04-broken-declarations": "a rule that the end of the sheet closes stays",
    "05-hover-and-media": "a list of selectors of which one stays is kept whole",
    "11-several-sheets": "statements that stay have a line each",
    "19-comments-and-strings": "an import of a sheet that is not read stays",
    "24-nested-rules": "rules in rules stay, and what they may set",
    "25-layers": "what is in a layer stays",
    "26-values-without-case": "a rule that asks a language stays",
    "29-trees": "elements with tags that are merged are left",
    "34-strings-and-escapes": "what is no rule stays",
    "36-links": "statements that stay have a line each",
    "37-drawings": "a drawing with a sheet of its own is left",
    "40-functions-and-units": "a rule that sets all properties stays",
    "41-wrongly-nested-tags": "elements of which browsers make several are left",
}


class Engine:
    """The call of the library."""

    def __init__(self) -> None:
        self.library = ctypes.CDLL(library_path())

    def call(
        self, page: bytes, *sheets: bytes, limit: int = LIMIT, keep_style: bool = False
    ) -> Tuple[int, bytes]:
        """Returns the status and what is written."""
        texts, ends = b"".join(sheets), [sum(map(len, sheets[: n + 1])) for n in range(len(sheets))]
        room, length = 1024 + 4 * len(page), SIZE()
        while True:
            out = ctypes.create_string_buffer(room)
            status = self.library.simplecss_inline(
                *(page, SIZE(len(page)), texts, SIZE(len(texts))),
                *((SIZE * (len(ends) or 1))(*ends), SIZE(len(ends)), SIZE(keep_style), SIZE(limit)),
                *(out, SIZE(room), ctypes.byref(length)),
            )
            if status != TOO_SMALL:
                return status, out.raw[: length.value]
            room = length.value

    def inline(self, page: str, *sheets: str) -> str:
        """Returns a page with its sheets in its attributes."""
        status, found = self.call(page.encode(), *(each.encode() for each in sheets))
        assert status == DONE, status
        return found.decode()


class Inlined(Case):
    def setUp(self) -> None:
        self.engine = Engine()

    def test_mails(self) -> None:
        """Mails are written as Python writes them, but for those of which more stays."""
        for path in sorted(glob.glob(os.path.join(TOP, "tests", "mails", "*.html"))):
            with open(path, newline="", encoding="utf-8") as file:
                page = file.read()
            name = os.path.basename(path)[: -len(".html")]
            with self.subTest(mail=name):
                found, due = self.engine.inline(page), simplecss.inline(page, important=False)
                self.assertEqual(found == due, name not in MORE_STAYS)

    def test_pages(self) -> None:
        """Random pages look as they did, in any state."""
        source = Source(int(os.environ.get("SEED", 1)))
        pages = [source.page() for _ in range(count(120))]

        def browser(asked: List[str]) -> Optional[List[Any]]:
            work = [
                (number, with_states(page), with_states(self.engine.inline(page)))
                for number, page in enumerate(asked)
            ]
            answer = browser_answers(SCRIPT, work)
            if answer is None or answer[0] != len(work):
                return None
            return [dict(answer[1]).get(number) for number in range(len(asked))]

        def question(page: str, how: Any) -> Iterator[Optional[str]]:
            yield how and f"{how}\n  {page}\n  {self.engine.inline(page)}"

        self.against(browser, pages, question)

    def test_given(self) -> None:
        """Sheets that are given come first, and what stays of them is put in before the page's own."""
        page = "<!DOCTYPE html><html><head><style>p{top:1px}</style></head><body><p>x</p></body></html>"
        found = self.engine.inline(page, "p{left:2px;top:3px} p:hover{color:red}", "b{x:y}")
        due = (
            "<!DOCTYPE html><html><head><style>\np:hover{color:red}\n</style></head><body>"
            '<p style="left: 2px; top: 1px">x</p></body></html>'
        )
        self.assertEqual(found, due)

    def test_refused(self) -> None:
        """What cannot be written is refused, and nothing is written."""
        rows = (
            (b"<p>\xff", (), LIMIT, NOT_UTF8),
            (b"<p>x", (b"p{a:b}\xff",), LIMIT, NOT_UTF8),
            (b"<p>x", (b"p:hover{a:'</style>'}",), LIMIT, REFUSED),
            (b"<p>x" * 99, (b"p{color:red}",), 999, TOO_LONG),
        )
        for page, sheets, limit, due in rows:
            with self.subTest(page=page):
                self.assertEqual(self.engine.call(page, *sheets, limit=limit), (due, b""))

    def test_time(self) -> None:
        """Pages and sheets that are four times as long take at most eight times as long."""
        makers: Tuple[Callable[[int], Tuple[bytes, bytes]], ...] = (
            lambda n: (b"<p class=a>x" * n, b".a{color:red}"),
            lambda n: (b"<style>p{a:b}</style>" * n, b""),
            lambda n: (b"<p>x", b".b{color:red}" * n),
            lambda n: (b"<p a=b " + b"c=d " * n + b">x", b"p{color:red}"),
            lambda n: (b"<p>x", b"p{" + b"color:red;" * n + b"}"),
            lambda n: (b"<p>x", b"@media x{" * n),
        )
        for number, made in enumerate(makers):
            with self.subTest(row=number):
                short, long = (self.seconds(*made(size)) for size in (2000, 8000))
                self.assertLess(long, 8 * short + 0.1)

    def seconds(self, page: bytes, sheet: bytes) -> float:
        """Returns how long a call takes."""
        start = time.process_time()
        self.engine.call(page, sheet, limit=1 << 40)
        return time.process_time() - start
