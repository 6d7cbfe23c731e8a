"""Tokens of HTML beside html5lib: its tests of tokens, which the authors of browsers share, and its
tokenizer on random texts.

The tests are in Debian's source of html5lib, which apt-get fetches once into out/judges; the tokenizer
is Debian's `python3-html5lib`, used by /usr/bin/python3. What is missing is left out. Of a doctype only
its place is compared, since what it says is read with the tree.
"""
from __future__ import annotations

import glob
import itertools
import json
import os
import random
import re
import subprocess
from typing import Any, Dict, Iterator, List, NamedTuple, Optional, Sequence, Tuple

from tests import judges_tests
from tests.common import DEBIAN, TOP, Case, count, has_modules, program

PROJECT = judges_tests.Project("html5lib", ["html5lib=1.2-2"], [], lambda top, judge: None, 0)
FILES = "sources/html5lib/html5lib*/html5lib/tests/testdata/tokenizer/*.test"
# How many tests are judged at least.
LEAST = 6700
# The letters of the program's modes, by the state and the last start tag.
MODES = {
    ("Data state", ""): "d",
    ("CDATA section state", ""): "f",
    ("RCDATA state", ""): "t",
    ("RCDATA state", "title"): "t",
    ("RCDATA state", "textarea"): "a",
    ("RAWTEXT state", ""): "s",
    ("RAWTEXT state", "xmp"): "x",
    ("RAWTEXT state", "style"): "s",
    ("Script data state", ""): "c",
    ("Script data state", "script"): "c",
    ("PLAINTEXT state", ""): "p",
    ("PLAINTEXT state", "plaintext"): "p",
}
# What is rare comes first: comments and scripts that end in odd ways, references that are cut, quotes.
# fmt: off
RARE = (
    "<!--", "-->", "--!>", "--!", "--", "<!-->", "<!--->", "<!", "<!-", "<?", "</", "</>", "</ ", "<", ">",
    "/", "/>", "=", "==", "'", '"', "`", "\0", "\r", "\r\n", "\n", "\f", "\t", " ", "-", "!", "&", "&#",
    "&#x", "&#X", "&#0;", "&#x0", "&#13;", "&#128;", "&#159", "&#xD800;", "&#x110000;", "&#99999999999",
    "&#x1F600", "&amp", "&amp;", "&ampx", "&not", "&notin", "&notin;", "&notit;", "&lt", "&lt=", "&lt;",
    "&LT", "&copy=", "&copy1", "&acE;", "&bne;", "&fjlig;", "&nGtv;", "&x", "&ngE", ";", "x", "=x", "1",
    "<a", "<a ", "<A/", "</a", "</A b=c>", "<p\0", "<script", "</script", "</script>", "</SCRIPT ",
    "<script>", "</style>", "</style ", "</title", "</title>", "</textarea/>", "</xmp>", "<![CDATA[",
    "]]>", "]]", "<!doctype", "<!DOCTYPE html>", "é", "\u2028", "\U0001f600", "a=b", "a='b'", 'a="b"',
    "a=", "A=&lt;", "b=\"&amp\"", "b", "a",
)
# fmt: on

# What html5lib reads of texts, each with a state and the name of the last start tag.
THEIRS = r"""
import json, sys
from html5lib._tokenizer import HTMLTokenizer
from html5lib.constants import tokenTypes

STATES = {"d": "dataState", "t": "rcdataState", "a": "rcdataState", "s": "rawtextState",
          "x": "rawtextState", "c": "scriptDataState", "p": "plaintextState"}
NAMES = {"t": "title", "a": "textarea", "s": "style", "x": "xmp", "c": "script"}
KINDS = {number: name for name, number in tokenTypes.items()}

def read(mode, text):
    tokenizer = HTMLTokenizer(text)
    tokenizer.state = getattr(tokenizer, STATES[mode])
    if mode in NAMES:
        tokenizer.currentToken = {"type": tokenTypes["StartTag"], "name": NAMES[mode]}
    for token in tokenizer:
        kind = KINDS[token["type"]]
        if kind == "StartTag":
            found = ["StartTag", token["name"], dict(token["data"])]
            yield found + [True] if token["selfClosing"] else found
        elif kind == "EndTag":
            yield ["EndTag", token["name"]]
        elif kind == "Comment":
            yield ["Comment", token["data"]]
        elif kind == "Doctype":
            yield ["DOCTYPE"]
        elif kind in ("Characters", "SpaceCharacters"):
            yield ["Character", token["data"]]

json.dump([list(read(mode, text)) for mode, text in json.load(sys.stdin)], sys.stdout)
"""

Token = List[Any]


class Test(NamedTuple):
    """A test: its name, the letter of its mode, its text and the tokens that it expects."""

    name: str
    mode: str
    text: str
    tokens: List[Token]


def unescaped(value: Any) -> Any:
    """A value whose texts have no escapes as of JSON."""
    if isinstance(value, str):
        return re.sub(r"\\u([0-9A-Fa-f]{4})", lambda found: chr(int(found[1], 16)), value)
    if isinstance(value, list):
        return [unescaped(each) for each in value]
    if isinstance(value, dict):
        return {unescaped(name): unescaped(each) for name, each in value.items()}
    return value


def has_surrogate(value: Any) -> bool:
    """Whether a text has a lone surrogate, which no page has."""
    return re.search("[\ud800-\udfff]", json.dumps(value, ensure_ascii=False)) is not None


def tests_of(path: str) -> Iterator[Test]:
    """Yields the tests of a file that the program can run."""
    with open(path, encoding="utf-8") as file:
        tests = json.load(file).get("tests", [])
    for test in tests:
        if test.get("doubleEscaped"):
            test = {**test, "input": unescaped(test["input"]), "output": unescaped(test["output"])}
        if has_surrogate([test["input"], test["output"]]):
            continue
        for state in test.get("initialStates", ["Data state"]):
            last = test.get("lastStartTag", "")
            mode = MODES.get(
                (state, last if state not in ("Data state", "CDATA section state") else "")
            )
            if mode is not None:
                name = f"{os.path.basename(path)}: {test['description']}"
                yield Test(name, mode, test["input"], test["output"])


def joined(mode: str, tokens: Sequence[Any]) -> List[Token]:
    """Tokens without errors, with texts that follow one another as one, without U+0000 where the tree
    has none, and of a doctype only its place."""
    found: List[Token] = []
    for token in tokens:
        if token[0] == "DOCTYPE":
            found.append(["DOCTYPE"])
        elif token[0] == "Character":
            text = token[1].replace("\0", "\ufffd" if mode == "f" else "")
            if found and found[-1][0] == "Character":
                found[-1] = ["Character", found[-1][1] + text]
            elif text:
                found.append(["Character", text])
        elif token != "ParseError":
            found.append(list(token))
    return found


def lowered(name: bytes) -> str:
    """A name as a browser sees it."""
    return name.lower().decode("utf-8").replace("\0", "\ufffd")


def parts_of(out: bytes) -> Iterator[Tuple[str, bytes]]:
    """Yields the parts of tokens that the program writes."""
    at = 0
    while at < len(out):
        end = out.index(b"\n", at)
        word, size = out[at:end].split(b" ")
        at = end + 2 + int(size)
        yield word.decode(), out[end + 1 : at - 1]


def ours(texts: Sequence[Tuple[str, str]]) -> List[List[Token]]:
    """What the program reads of texts, each with the letter of its mode."""
    marked = [mode + ("<![CDATA[" if mode == "f" else "") + text for mode, text in texts]
    given = b"\xff".join(each.encode("utf-8") for each in marked)
    done = subprocess.run([program("tests_html")], input=given, stdout=subprocess.PIPE, check=True)
    found: List[List[Token]] = [[]]
    name = ""
    for word, value in parts_of(done.stdout):
        if word == "rest":
            assert not value
            found.append([])
        elif word == "name":
            name = lowered(value)
        elif word == "value":
            found[-1][-1][2].setdefault(name, value.decode("utf-8"))
        elif word == "slash":
            found[-1][-1].append(True)
        elif word == "start":
            found[-1].append(["StartTag", lowered(value), {}])
        elif word == "end":
            found[-1].append(["EndTag", lowered(value)])
        elif word == "doctype":
            found[-1].append(["DOCTYPE"])
        else:
            kind = "Comment" if word == "comment" else "Character"
            found[-1].append([kind, value.decode("utf-8")])
    return found[:-1]


def random_texts(number: int) -> List[Tuple[str, str]]:
    """Random texts of rare pieces, each with the letter of a mode."""
    chance = random.Random(8)
    return [
        (
            chance.choice("dddddtascxp"),
            "".join(chance.choice(RARE) for _ in range(chance.randint(1, 12))),
        )
        for _ in range(number)
    ]


def differences(texts: Sequence[Tuple[str, str]], wanted: Sequence[Sequence[Token]]) -> List[str]:
    """The texts whose tokens are others than those that are wanted."""
    found: List[str] = []
    for (mode, text), expected, got in itertools.zip_longest(texts, wanted, ours(texts)):
        expected, got = joined(mode, expected), joined(mode, got)
        if expected != got:
            found.append(f"{mode} {text!r}: {got} in place of {expected}")
    return found


class Tokens(Case):
    """Tokens beside html5lib."""

    def test_tests_of_html5lib(self) -> None:
        """The tests that the authors of browsers share."""
        top = os.environ.get("JUDGES", os.path.join(TOP, "out", "judges"))
        os.makedirs(top, exist_ok=True)
        missing = judges_tests.fetch(PROJECT, top)
        if missing:
            self.skipTest(f"tests of html5lib: {missing}")
        tests = [
            test for path in sorted(glob.glob(os.path.join(top, FILES))) for test in tests_of(path)
        ]
        self.assertGreaterEqual(len(tests), LEAST)
        texts = [(test.mode, test.text) for test in tests]
        self.sweep(len(tests), differences(texts, [test.tokens for test in tests]))

    def test_random_texts(self) -> None:
        """Random texts of rare pieces."""
        if not has_modules(DEBIAN, "html5lib"):
            self.skipTest("python3-html5lib is missing")
        texts = random_texts(count(10000))
        done = subprocess.run(
            [DEBIAN, "-c", THEIRS],
            input=json.dumps(texts),
            stdout=subprocess.PIPE,
            text=True,
            check=True,
        )
        self.sweep(len(texts), differences(texts, json.loads(done.stdout)))
