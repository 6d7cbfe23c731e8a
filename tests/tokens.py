"""The Python package's tokens, `escape` and `quote` beside tinycss2 and a browser, on random texts, names
and strings, which are equal in each run.

tinycss2 is Debian's `python3-tinycss2`, used by /usr/bin/python3; the browser is Debian's `chromium`;
what is missing is left out. The library is built by `./build library`. NUL is in no text, since the
library replaces none (`docs/DIFFERENCES.md`), and a lone backslash at no end, which is nothing in a
string and U+FFFD elsewhere.
"""
from __future__ import annotations

import random
import re
from functools import partial
from typing import Any, Iterator, List, Optional, Sequence

from tests.common import LEFT_OUT, Case, browser_answers, count, debian_answers, package, row
from tests.syntax import ESCAPES, MORE, escaped_in_bad_url, random_texts

package()
import simplecss  # noqa: E402

# What is rare in sheets comes first: numbers, signs before names, and what is not closed.
# fmt: off
RARE = (
    "1e3", "1E-3", "1e", "1e+", "+1", "-1", "+.5", "-.5", ".5", "1.", "1.e3", "+", "-", ".", "--", "-->",
    "<!--", "<!-", "\\", "\\\n", "\\-", "-\\", "\\31 ", "%", "em", "e3", "E", "#", "#1", "#-", "#--", "#-1",
    "@", "@-", "@--", "@-1", "@\\", "url(", "url( ", "url(\"", "url( '", "u\\72l(", "URL(\\)", "\r\n",
    "\f", "\r", "'", '"', "'\\\n'", "\"\\\r\n", "/*", "*/", "/", "|", "|=", "||", "\xe9", "\x80", "\ufffd",
    "\U0001f600", "\x7f", "\x0b", "\x01", "u+0-7f", "U+a?",
)
# fmt: on
NAMED = "-0123456789abcXYZ_ \t\n\f\r\\\"'.:#[]()\0\x01\x1f\x7f\x80\x9f\xa0\xe9\u2028\ufffd\ufeff\U0001f600"

# What tinycss2 reads, in the form of the package's tokens: kind, what it denotes, and its number.
THEIRS = r"""
import json, sys
import tinycss2

KINDS = {"url": "url", "string": "string", "ident": "ident", "at-keyword": "at-keyword",
         "comment": "comment", "whitespace": "whitespace", "number": "number",
         "percentage": "percentage", "dimension": "dimension"}
OPEN = {"() block": "(", "[] block": "[", "{} block": "{"}
CLOSE = {"(": ")", "[": "]", "{": "}"}

def flat(nodes):
    for one in nodes:
        kind = one.type
        if kind in OPEN:
            yield ["delim", OPEN[kind]]
            yield from flat(one.content)
            yield ["delim", CLOSE[OPEN[kind]]]
        elif kind == "function":
            yield ["function", one.name]
            yield from flat(one.arguments)
            yield ["delim", ")"]
        elif kind == "literal":
            if one.value in ("<!--", "-->"):
                yield [{"<!--": "cdo", "-->": "cdc"}[one.value], one.value]
            else:
                # It takes two of an operator for one.
                yield from (["delim", each] for each in one.value)
        elif kind == "hash":
            yield ["id" if one.is_identifier else "hash", one.value]
        elif kind == "error":
            yield ["error", one.kind]
        elif kind == "dimension":
            yield [kind, one.unit, one.representation]
        elif kind in ("number", "percentage"):
            yield [kind, one.representation]
        elif kind == "unicode-range":
            yield [kind, one.start, one.end]
        else:
            yield [KINDS[kind], one.value]

json.dump([list(flat(tinycss2.parse_component_value_list(text))) for text in json.load(sys.stdin)],
          sys.stdout)
"""

ESCAPED = """<!DOCTYPE html><meta charset=utf-8><pre id=o></pre><script>
const names = %s;
const codes = names.map(name => Array.from(CSS.escape(name), each => each.codePointAt(0)));
const text = JSON.stringify(codes);
document.getElementById("o").textContent = "ANS" + "WER" + text + "EN" + "D";
</script>"""


def theirs(texts: Sequence[str]) -> Optional[List[Any]]:
    """What tinycss2 reads of each text, or None if it is missing."""
    return debian_answers(THEIRS, texts, "tinycss2")


def is_left_out(text: str) -> bool:
    """Whether tinycss2 may misread a url, in which it also takes a newline for escaped, or the text ends
    with a lone backslash."""
    is_lone = (len(text) - len(text.rstrip("\\"))) % 2 == 1
    is_url = re.search(r"\\[\r\n\f]", text) is not None and "l(" in text.lower()
    return is_lone or is_url or escaped_in_bad_url(text)


def all_tokens(text: str) -> str:
    """The tokens of a text, as they are shown."""
    return str(list(simplecss.tokens(text)))


def one_newline(text: str) -> str:
    """A text with newlines as tinycss2 has them."""
    return re.sub("\r\n|\r|\f", "\n", text)


def ours(text: str) -> List[List[str]]:
    """What the package reads of a text, in the same form, with brackets that are closed."""
    found: List[List[str]] = []
    opened: List[str] = []
    for token in simplecss.tokens(text):
        kind, shown = token.kind, [token.kind, token.value]
        if kind == "function" or token.text in ("(", "[", "{"):
            opened.append({"[": "]", "{": "}"}.get(token.text, ")"))
        elif opened and token.text == opened[-1]:
            opened.pop()
        elif kind == "delim" and token.text in (")", "]", "}"):
            shown = ["error", token.text]
        elif kind in ("bad-string", "bad-url"):
            shown = ["error", kind]
        elif kind == "whitespace":
            shown = [kind, one_newline(token.text)]
        elif kind == "dimension":
            shown.append(token.number)
        elif kind in ("number", "percentage"):
            shown = [kind, token.number]
        elif kind == "comment":
            shown = [kind, one_newline(re.sub(r"\A/\*|\*/\Z", "", token.text))]
        found.append(shown)
    return found + [["delim", close] for close in reversed(opened)]


def random_names(number: int, seed: int) -> List[str]:
    """Random names, each character of which may need an escape."""
    source = random.Random(seed)
    return [
        source.choice(("", "", "-", "--", "1", "-1"))
        + "".join(source.choice(NAMED) for _ in range(source.choice((0, 1, 2, 5))))
        for _ in range(number)
    ]


class Places(Case):
    """What tokens say of themselves."""

    def test_together_they_are_the_text(self) -> None:
        failures = []
        texts = random_texts(RARE + MORE, count(4000), 11, ("",))
        for text in texts:
            found = list(simplecss.tokens(text))
            places = [text[each.start : each.end] for each in found]
            inside = [text[each.inside_start :].startswith(each.inside) for each in found]
            if (
                "".join(places) != text
                or places != [each.text for each in found]
                or not all(inside)
            ):
                failures.append(f"{text!r}: {found}")
        self.sweep(len(texts), failures)


class Tinycss2(Case):
    """Tokens, and what is quoted, beside tinycss2."""

    missing = "tokens beside tinycss2: python3-tinycss2 is missing"

    def beside(self, texts: Sequence[str]) -> None:
        """Compares the tokens of texts."""
        ends = (["error", "eof-in-string"], ["error", "eof-in-url"])

        def question(text: str, wanted: Any) -> Iterator[Optional[str]]:
            if is_left_out(text) or any(each[0] == "unicode-range" for each in wanted):
                yield LEFT_OUT
            else:
                yield row(repr(text), ours(text), [each for each in wanted if each not in ends])

        self.against(theirs, texts, question, self.missing)

    def test_rare(self) -> None:
        self.beside(random_texts(RARE, count(4000), 12, ("", "a", "1", "-")))

    def test_all(self) -> None:
        self.beside(random_texts(RARE + MORE + ESCAPES, count(4000), 13, ("",)))

    def test_quote(self) -> None:
        """What is quoted reads as the string, and what is escaped as the name."""

        def read(names: List[str]) -> Optional[List[Any]]:
            strings = theirs([simplecss.quote(each) for each in names])
            return strings and list(zip(strings, theirs(list(map(simplecss.escape, names))) or ()))

        def question(name: str, found: Any) -> Iterator[Optional[str]]:
            plain = name.replace("\0", "\ufffd")
            wanted = [["ident", plain]] if name else []
            yield row(repr(name), found, ([["string", plain]], wanted))

        self.against(read, random_names(count(4000), 14), question, self.missing)


class Browser(Case):
    """`escape` beside a browser."""

    def test_escape(self) -> None:
        def question(name: str, codes: Any) -> Iterator[Optional[str]]:
            yield row(repr(name), simplecss.escape(name), "".join(map(chr, codes)))

        names, missing = (
            random_names(count(4000), 15),
            "`escape` beside a browser: chromium is missing",
        )
        self.against(partial(browser_answers, ESCAPED), names, question, missing)

    def test_lone_surrogates(self) -> None:
        """They are in no text of UTF-8."""
        for call in (simplecss.escape, simplecss.quote, all_tokens):
            with self.assertRaises(ValueError):
                call("a\ud800")
