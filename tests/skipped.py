"""Random style sheets: what `example_linter` and the program `cssq` report as skipped is what a
plain, slow reader of the definitions skips. And what the linter answers to words and to files that
it cannot read.

The reader is written from the definitions in crates/simplecss_grammar/specs (`Skipped` and what it
uses). The sheets are equal in each run.
"""
from __future__ import annotations

import os
import random
import subprocess
import tempfile
from typing import Any, Callable, Dict, Iterable, List, Optional, Sequence, Tuple

from tests.common import Case, answer, count, program, write

# Where something that is skipped begins, where it ends, and why.
Skip = Tuple[int, int, str]

SPACES = " \t\n\r\f"
WHITE = (
    "\t\n\x0b\x0c\r"
    " \x85\xa0\u1680\u2000\u2001\u2002\u2003\u2004\u2005\u2006\u2007\u2008\u2009\u200a\u2028\u2029\u202f\u205f\u3000"
)
DIGITS = "0123456789"
CLASSES = ("first-child", "link", "visited", "hover", "active", "focus")
# The notes of the program on what it keeps.
NOTES = ("a byte order mark is part of the first name", "a parenthesis of the value is left open")


class Fault(Exception):
    """Reading fails: why, and where it stops."""

    def __init__(self, words: str, after: int) -> None:
        super().__init__(words)
        self.words, self.after = words, after


def is_name_start(c: str) -> bool:
    """Whether a name may begin with the character."""
    return c == "_" or c.isascii() and c.isalpha() or c >= "\xa0"


class Reader:
    """The definitions over one text. A rest is the offset where it begins."""

    def __init__(self, text: str) -> None:
        self.text = text
        self.end = len(text)

    def starts(self, i: int, front: str) -> bool:
        return self.text.startswith(front, i)

    def past(self, i: int, test: Callable[[str], bool]) -> int:
        """The offset of the first character from here on of which the test is not true."""
        while i < self.end and test(self.text[i]):
            i += 1
        return i

    def past_byte(self, i: int, byte: str) -> int:
        return i + self.starts(i, byte)

    def from_brace(self, i: int) -> int:
        return self.past(i, lambda c: c != "{")

    # Blanks, names and strings.

    def blank_part(self, i: int) -> Optional[int]:
        """The end of a space byte or a closed comment, if one is here."""
        if i < self.end and self.text[i] in SPACES:
            return i + 1
        close = self.text.find("*/", i + 2) if self.starts(i, "/*") else -1
        return close + 2 if close >= 0 else None

    def past_blank(self, i: int) -> int:
        after = self.blank_part(i)
        while after is not None:
            i, after = after, self.blank_part(after)
        return i

    def has_space(self, i: int) -> bool:
        after = self.blank_part(i)
        while after is not None:
            if self.text[i] in SPACES:
                return True
            i, after = after, self.blank_part(after)
        return False

    def blank(self, i: int) -> int:
        i = self.past_blank(i)
        if self.starts(i, "/*"):
            raise Fault("invalid comment", self.end)
        return i

    def begins_name(self, i: int) -> bool:
        characters = self.text[i : i + 2]
        if not characters:
            return False
        second = characters[1:]
        return (
            is_name_start(characters[0])
            or characters[0] == "-"
            and (not second or is_name_start(second))
        )

    def name(self, i: int) -> int:
        if not self.begins_name(i):
            raise Fault("invalid ident", self.past_byte(i, "-"))
        return self.past(i, lambda c: is_name_start(c) or c in DIGITS or c == "-")

    def byte(self, i: int, byte: str) -> int:
        if i == self.end:
            raise Fault("unexpected end of stream", i)
        if not self.starts(i, byte):
            raise Fault("invalid byte", i)
        return i + 1

    def string_after(self, i: int) -> int:
        """The end of a string, from after its opening quote."""
        quote, start = self.text[i - 1], i
        while i < self.end:
            if self.text[i] == quote and (i == start or self.text[i - 1] != "\\"):
                return i + 1
            i += 1
        raise Fault("unexpected end of stream", self.end)

    def string_or_name(self, i: int) -> int:
        if i == self.end:
            raise Fault("unexpected end of stream", i)
        return self.string_after(i + 1) if self.text[i] in "'\"" else self.name(i)

    # Declarations.

    def past_name(self, i: int) -> int:
        """What is left after a name, or after what is there in place of one."""
        try:
            return self.name(i)
        except Fault as fault:
            return fault.after

    def number(self, i: int) -> int:
        i = self.past(i, lambda c: c in DIGITS)
        if self.starts(i, "."):
            i = self.past(i + 1, lambda c: c in DIGITS)
        return i + 1 if self.starts(i, "%") else self.past_name(i)

    def term(self, i: int) -> int:
        if i == self.end:
            raise Fault("unexpected end of stream", i)
        c = self.text[i]
        if c == "#":
            if self.begins_name(i + 1):
                return self.name(i + 1)
            return self.past(self.past_name(i + 1), lambda c: c in "0123456789abcdefABCDEF")
        if c in "+-." or c in DIGITS:
            return self.number(i + 1)
        if c in "'\"":
            return self.string_after(i + 1)
        if c == "," or c == "/" and not self.starts(i, "/*"):
            return i + 1
        i = self.name(i)
        if not self.starts(i, "("):
            return i
        close = self.text.find(")", i)
        if close < 0:
            raise Fault("unexpected end of stream", self.end)
        return close + 1

    def value(self, i: int) -> Tuple[bool, int, List[int]]:
        """Whether the value is empty, what is left after it, and where a term begins that takes the
        rest of the text."""
        start = last = i
        while True:
            try:
                last = self.term(i)
            except Fault as fault:
                opened = [i] if i < fault.after == self.end else []
                return not self.text[start:last].strip(WHITE), fault.after, opened
            i = self.past_blank(last)

    def trailing(self, i: int) -> int:
        i = self.blank(i)
        if self.starts(i, "!"):
            i = self.blank(i + 1)
            i += len("important") * self.starts(i, "important")
        i = self.blank(i)
        while self.starts(i, ";"):
            i = self.past_blank(i + 1)
        return self.blank(i)

    def declaration(self, i: int) -> Tuple[int, List[int]]:
        i = self.past_byte(self.blank(i), "*")
        i = self.blank(self.name(i))
        i = self.blank(self.byte(i, ":"))
        empty, i, opened = self.value(i)
        i = self.trailing(i)
        if empty:
            raise Fault("invalid value", i)
        return i, opened

    # Selectors.

    def attribute(self, i: int) -> int:
        i = self.name(i)
        if i == self.end:
            raise Fault("unexpected end of stream", i)
        if self.text[i] in "~|":
            i = self.string_or_name(self.byte(i + 1, "="))
        elif self.text[i] == "=":
            i = self.string_or_name(i + 1)
        elif self.text[i] != "]":
            raise Fault("invalid attribute selector", i)
        return self.byte(i, "]")

    def pseudo_class(self, i: int) -> Tuple[bool, int]:
        """Whether its name is known, and its end."""
        start, i = i, self.name(i)
        word = self.text[start:i]
        if word != "lang":
            return word in CLASSES, i
        start = self.byte(i, "(")
        close = self.past(start, lambda c: c != ")")
        i = self.byte(close, ")")
        if not self.text[start:close].strip(WHITE):
            raise Fault("invalid language pseudo-class", i)
        return True, i

    def solid(self, i: int) -> Tuple[bool, int]:
        """Whether the piece is known, and its end."""
        c = self.text[i]
        if c in ">+*":
            return True, i + 1
        if c in "#.":
            return True, self.name(i + 1)
        if c == "[":
            return True, self.attribute(i + 1)
        if c == ":":
            return self.pseudo_class(i + 1)
        return True, self.name(i)

    def selector(self, i: int) -> Tuple[Optional[str], int]:
        """Why the selector is refused, if it is, and where reading ends."""
        opened = True
        while True:
            try:
                spaced, start = self.has_space(i), self.blank(i)
                c = self.text[start : start + 1]
                if not c or c in ",{":
                    return ("selector missing" if opened else None), start
                if c == "/":
                    if opened:
                        return "selector missing", start
                    return ("invalid comment", start + 1) if spaced else (None, start)
                known, after = self.solid(start)
            except Fault as fault:
                return str(fault), fault.after
            if c in ">+":
                if opened:
                    return "unexpected combinator", start
            elif not opened and not spaced and c not in "#.[:":
                return "unexpected selector", start if c == "*" else after
            if not known:
                return "unknown pseudo-class", after
            opened, i = c in ">+", after

    # What is skipped: each where it begins, where it ends, and why.

    def part_skips(self, i: int) -> Tuple[List[Skip], int]:
        """What a part of a rule set skips, and where it ends."""
        refusal, rest = self.selector(i)
        rest = self.past(rest, lambda c: c in SPACES)
        stops = self.starts(rest, ",") or self.starts(rest, "{") and not refusal
        after = rest if stops else self.from_brace(rest)
        if refusal:
            return [(self.past_blank(i), after, refusal)], rest
        if stops:
            return [], rest
        return [
            (
                rest,
                after,
                "block missing" if after == self.end else "unexpected text after a selector",
            )
        ], rest

    def parts_skips(self, i: int) -> Tuple[List[Skip], int]:
        skips = []
        while True:
            more, i = self.part_skips(i)
            skips += more
            if not self.starts(i, ","):
                return skips, i
            i += 1

    def from_block_end(self, i: int) -> int:
        depth = 0
        for offset in range(i, self.end):
            depth += {"{": 1, "}": -1}.get(self.text[offset], 0)
            if depth < 0:
                return offset
        return self.end

    def ends_list(self, i: int) -> bool:
        return i == self.end or self.starts(i, "}")

    def block_skips(self, i: int) -> Tuple[List[Skip], int]:
        """What a block skips, after its opening brace, and its end."""
        skips = []
        try:
            while not self.ends_list(i):
                i, opened = self.declaration(i)
                skips += [(start, self.end, "string or function not closed") for start in opened]
            return skips, self.past_byte(i, "}")
        except Fault as fault:
            after = self.from_block_end(fault.after)
        start = self.past_blank(i)
        if not self.ends_list(start):
            skips.append(
                (
                    start,
                    after,
                    "comment not closed" if self.starts(start, "/*") else "broken declaration",
                )
            )
        end = self.past_byte(after, "}")
        if self.starts(end, "}"):
            skips.append((end, end + 1, "unexpected closing brace"))
        return skips, self.past_byte(end, "}")

    def at_rule_end(self, i: int) -> int:
        try:
            i = self.past(self.name(i), lambda c: c not in ";{")
        except Fault as fault:
            return fault.after
        return (
            self.past_byte(self.from_block_end(i + 1), "}")
            if self.starts(i, "{")
            else self.past_byte(i, ";")
        )

    def statement_skips(self, i: int) -> Tuple[List[Skip], int]:
        if self.starts(i, "@"):
            end = self.at_rule_end(i + 1)
            return [(i, end, "at-rule not supported")], end
        skips = [(i, i + 1, "comma before a selector")] if self.starts(i, ",") else []
        more, i = self.parts_skips(self.past_byte(i, ","))
        skips, i = skips + more, self.from_brace(i)
        more, i = self.block_skips(i + 1) if self.starts(i, "{") else ([], i)
        return skips + more, i

    def skipped(self) -> List[Skip]:
        skips: List[Skip] = []
        i = self.past_blank(0)
        while i < self.end and not self.starts(i, "/*"):
            more, i = self.statement_skips(i)
            skips, i = skips + more, self.past_blank(i)
        return skips + ([(i, self.end, "comment not closed")] if i < self.end else [])


def cut(text: str, characters: Iterable[str]) -> str:
    """The text before the first of the characters."""
    return text[: min((text.find(c) for c in characters if c in text), default=len(text))]


def line(text: str, start: int, after: int, why: str) -> str:
    """The message of something that is skipped, without the file's name."""
    row = text.count("\n", 0, start) + 1
    column = start - (text.rfind("\n", 0, start) + 1) + 1
    quote = cut(
        text[start:after], {"at-rule not supported": "{;", "broken declaration": ";}"}.get(why, "")
    )
    return f"{row}:{column}: '{cut(quote.strip(WHITE), chr(10) + chr(13)).rstrip(WHITE)}': {why}"


HEADS = ("a", "*", "\xe9t\xe9", "b-c", "-d", "")
# fmt: off
TAILS = (
    ".x", "#y", "[a]", "[b=c]", "[d~='e f']", "[g|=h]", ":hover", ":first-child", ":lang(de)", "",
    "", "",
)
# fmt: on
# fmt: off
BAD_TAILS = (
    ":nope", "::before", "[ a ]", "[a^=b]", ":lang()", ":lang(", ".1", "#", "/", "\\", ":", "[a=b",
    "*",
)
# fmt: on
JOINTS = (" ", ">", " > ", "+", " + ", "/**/", " /* x */ ")
BAD_JOINTS = (" ~ ", ">>", "+ >", "/", " / ", "<", "/*", "*/")
# fmt: off
VALUES = (
    "red", "10px", "#abc", "1.5em/2 serif", "url(a.png)", "'b;c'", "-1px", "a, b", "50%", "f(1)",
    "\u3000x",
)
# fmt: on
# fmt: off
BAD_VALUES = (
    "10px\\9", "", "'", "f(", "g 'h", "1px i(j", "f((1))", "-g(1)", "#", "$", "{", "a{b}", "/*",
    "\xa0", "\u3000", "c !x", "d ! important", "e !IMPORTANT",
)
# fmt: on
BITS = "{}{};:,.#*/!@'\"()[]<>+~-\\= \t\n\r\xa0\u3000\ufeffab1"
# fmt: off
ODDS = (
    "/*", "*/", "<!--", "-->", "@media x { a { b:c } }", "@import 'a;b';", "@", "}}", "{ {", ";;",
    "--x", "-", "!important",
)
# fmt: on


class Random:
    """Random sheets: mostly sound, with faults in between, and then with some characters
    changed."""

    def __init__(self, seed: int) -> None:
        self.random = random.Random(seed)
        self.choice = self.random.choice

    def either(self, good: Sequence[str], bad: Sequence[str]) -> str:
        return self.choice(bad if self.random.random() < self.fault_rate else good)

    def selector(self) -> str:
        text = ""
        for i in range(self.choice((1, 1, 2, 3))):
            text += (self.either(JOINTS, BAD_JOINTS) if i else "") + self.choice(HEADS)
            text += "".join(self.either(TAILS, BAD_TAILS) for _ in range(self.choice((1, 1, 2))))
        return text

    def declaration(self) -> str:
        name = self.either(("color", "a-b", " c ", "/*d*/e", "*zoom"), ("", "1", "-", "--f", "g h"))
        mark = self.choice(("", "", "", " !important", "! important", "!"))
        return (
            name
            + self.either((":", ": ", " :/**/"), ("", "=", "::"))
            + self.either(VALUES, BAD_VALUES)
            + mark
        )

    def statement(self) -> str:
        if self.random.random() < self.fault_rate / 2:
            return self.choice(ODDS)
        selectors = self.choice((",", ", ", " ,")).join(
            self.selector() for _ in range(self.choice((1, 1, 2, 3)))
        )
        block = "".join(
            self.declaration() + self.choice((";", "; ", ";\n", " ;; "))
            for _ in range(self.choice((0, 1, 2, 3)))
        )
        return (
            self.either(("", " "), (",", "/* x */"))
            + selectors
            + self.either((" { ", "{"), (" ", "}{"))
            + block
            + self.either(("}\n", " } "), ("", "}}"))
        )

    def sheet(self) -> str:
        self.fault_rate = self.choice((0.02, 0.1, 0.3))
        text = "".join(self.statement() for _ in range(self.random.randrange(7)))
        for _ in range(self.choice((0, 0, 0, 1, 2, 5))):
            offset = self.random.randrange(len(text) + 1)
            text = (
                text[:offset]
                + self.choice((self.choice(BITS), self.choice(ODDS), ""))
                + text[offset + self.random.randrange(2) :]
            )
        return text


USAGE = "usage: example_linter [--hints] FILE..\n"
FAULT = "faulty.css:1:1: '@a': at-rule not supported\n"
UNREAD = "example_linter: cannot read "
# Words of the linter, its status, its output, and the start of what it writes to standard error,
# which is a line for each file that cannot be read.
WORDS: Sequence[Tuple[List[str], int, str, List[str]]] = (
    ([], 2, "", [USAGE]),
    (["--hints"], 2, "", [USAGE]),
    (["--help"], 0, USAGE, []),
    (["sound.css"], 0, "", []),
    (["faulty.css"], 1, FAULT, []),
    (["sound.css", "faulty.css", "sound.css"], 1, FAULT, []),
    (
        ["--hints", "hinted.css", "faulty.css"],
        1,
        "hinted.css:1:1: a byte order mark is part of the first name\n" + FAULT,
        [],
    ),
    (["nosuch.css"], 2, "", [UNREAD + "nosuch.css: "]),
    (["latin.css"], 2, "", [UNREAD + "latin.css: "]),
    (["nosuch.css", "faulty.css", "."], 2, FAULT, [UNREAD + "nosuch.css: ", UNREAD + ".: "]),
)


# The files that the words name.
FILES = {
    "sound.css": b"a { b:c }",
    "faulty.css": b"@a;",
    "hinted.css": b"\xef\xbb\xbfa { b:c }",
    "latin.css": b"a { b:'\xe9' }",
}


class Words(Case):
    """What the linter answers to words and files."""

    def setUp(self) -> None:
        folder = tempfile.TemporaryDirectory()
        self.addCleanup(folder.cleanup)
        self.folder = folder.name
        self.linter = program("example_linter")
        for name, text in FILES.items():
            with open(os.path.join(self.folder, name), "wb") as file:
                file.write(text)

    def test_words(self) -> None:
        for words, status, out, starts in WORDS:
            with self.subTest(words=words):
                got = answer([self.linter, *words], cwd=self.folder)
                self.assertEqual((got.status, got.out), (status, out))
                lines = got.err.splitlines(keepends=True)
                self.assertEqual([line[: len(start)] for line, start in zip(lines, starts)], starts)
                self.assertEqual(len(lines), len(starts))

    def test_full_disk(self) -> None:
        with open("/dev/full", "wb") as full:
            got = answer([self.linter, "faulty.css"], cwd=self.folder, stdout=full)
        self.assertEqual((got.status, got.err.count("\n")), (2, 1))


def peak_of(words: Sequence[str]) -> Tuple[int, int]:
    """The most memory that a program has, in bytes, and its status."""
    quiet: Dict[str, Any] = {
        "stdin": subprocess.DEVNULL,
        "stdout": subprocess.DEVNULL,
        "stderr": subprocess.DEVNULL,
    }
    with subprocess.Popen(list(words), **quiet) as child:
        _, status, usage = os.wait4(child.pid, 0)
        child.returncode = os.waitstatus_to_exitcode(status)
    return 1024 * usage.ru_maxrss, child.returncode


class Memory(Case):
    def test_squares(self) -> None:
        """A rule set of n selectors and n declarations takes memory that is linear in n, with hints
        and without."""
        with tempfile.TemporaryDirectory() as folder:
            path = os.path.join(folder, "square.css")
            for words in ("", "--hints"):
                peaks = []
                for size in (1_000, 4_000):
                    write(path, "a," * (size - 1) + "a{" + "b:c;" * size + "}")
                    with self.subTest(words=words, size=size):
                        peak, status = peak_of([program("example_linter"), *words.split(), path])
                        self.assertEqual(status, 0)
                        peaks.append(peak)
                with self.subTest(words=words):
                    self.assertLess(peaks[1] - peaks[0], 20_000_000)


class Sheets(Case):
    def test_random_sheets(self) -> None:
        source, number = Random(39), count(300)
        failures = []
        with tempfile.TemporaryDirectory() as folder:
            path = os.path.join(folder, "text.css")
            for _ in range(number):
                text = source.sheet()
                write(path, text)
                wanted = "".join(f"{path}:{line(text, *skip)}\n" for skip in Reader(text).skipped())
                got = answer([program("example_linter"), path])
                if (got.out, got.status) != (wanted, int(bool(wanted))):
                    failures.append(f"find_skipped of {text!r}: {got}, not {wanted!r}")
                got = answer([program("cssq_cli"), "sheet", path])
                found = "\n".join(each for each in got.err.split("\n") if not each.endswith(NOTES))
                if (found, got.status) != (wanted, 0):
                    failures.append(f"the warnings of {text!r}: {found!r}, not {wanted!r}")
        self.sweep(2 * number, failures)
