"""Runs what a page of the documents shows: its files, lines of a shell, sessions of Python, and what
they print.

A line of the page above a block of code says what the block is: `<!-- file NAME -->` a file,
`<!-- run -->` lines of a shell, `<!-- run 1 -->` lines that end with this status, `<!-- prints -->`
what these print on standard output, and `<!-- python -->` a session of Python. All blocks of a page
share a folder, and its sessions their names.
"""
from __future__ import annotations

import doctest
import os
import re
from typing import Any, Callable, Dict, Iterator, List, NamedTuple, Optional

from tests.common import Case, answer, write

MARK = re.compile(r"<!-- (file|run|prints|python)(?: (\S+))? -->")


class Block(NamedTuple):
    """A block of code: what it is, the word beside that, its text, and the line that it begins at."""

    kind: str
    word: str
    text: str
    line: int


def blocks_of(page: str) -> Iterator[Block]:
    """The blocks of a page that have a mark."""
    lines = page.split("\n")
    for number, line in enumerate(lines):
        mark = MARK.fullmatch(line)
        if mark and lines[number + 1].startswith("```"):
            end = lines.index("```", number + 2)
            text = "\n".join(lines[number + 2 : end]) + "\n"
            yield Block(mark[1], mark[2] or "", text, number + 2)


class Page:
    """A page that is run in a folder. `made` has lines of a shell that are not run: what each makes is
    made by a call."""

    def __init__(self, case: Case, name: str, folder: str, environment: Dict[str, str]) -> None:
        self.case, self.name, self.folder, self.environment = case, name, folder, environment
        self.made: Dict[str, Callable[[], object]] = {}
        self.names: Dict[str, Any] = {}
        self.printed: Optional[str] = None

    def run(self, text: str) -> int:
        """Runs all blocks of the page's text, and returns how many printed what the page shows."""
        compared = 0
        for block in blocks_of(text):
            with self.case.subTest(page=self.name, line=block.line):
                compared += self.step(block)
        return compared

    def step(self, block: Block) -> bool:
        """Runs a block. Returns whether something is compared with what it shows."""
        if block.kind == "file":
            path = os.path.join(self.folder, block.word)
            os.makedirs(os.path.dirname(path), exist_ok=True)
            write(path, block.text)
        elif block.kind == "run":
            self.printed = self.typed(block.text, int(block.word or 0))
        elif block.kind == "prints":
            self.case.assertEqual(self.printed, block.text)
        else:
            self.session(block)
        return block.kind in ("prints", "python")

    def typed(self, text: str, status: int) -> str:
        """What lines of a shell print that end with a status."""
        lines = [line for line in text.splitlines() if not self.is_made(line)]
        words = ["sh", "-c", "\n".join(["set -e", *lines])]
        got = answer(words, cwd=self.folder, env=self.environment)
        self.case.assertEqual(got.status, status, got.out[-1000:] + got.err[-1000:])
        return got.out

    def is_made(self, line: str) -> bool:
        """Makes what a line makes, if there is a call for it."""
        if line in self.made:
            self.made[line]()
        return line in self.made

    def session(self, block: Block) -> None:
        """Runs a session of Python in the folder."""
        shown: List[str] = []
        parser, runner = doctest.DocTestParser(), doctest.DocTestRunner(verbose=False)
        test = parser.get_doctest(block.text, self.names, self.name, self.name, block.line)
        before = os.getcwd()
        os.chdir(self.folder)
        try:
            runner.run(test, out=shown.append, clear_globs=False)
        finally:
            os.chdir(before)
        self.names = test.globs
        self.case.assertGreater(runner.tries, 0, "no line of the session is run")
        self.case.assertEqual(shown, [], "".join(shown))
