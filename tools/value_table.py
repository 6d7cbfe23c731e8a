#!/usr/bin/env python3
"""Writes the table of the values that properties take.

  tools/value_table.py           writes it into crates/css_values (some minutes)

The values are those of the standards' value definitions, as Debian's package `node-mdn-data` has
them, and those that Chromium takes (`CSS.supports`), of which the words are read from its program.
What both take is valid, what both refuse is invalid, and what only one takes is not known.
"""

from __future__ import annotations

import html
import json
import re
import shutil
import subprocess
import sys
import tempfile
from collections.abc import Iterator
from pathlib import Path
from typing import NamedTuple, Optional, Union

DATA = Path("/usr/share/nodejs/mdn-data/css")
PROGRAM = Path("/usr/lib/chromium/chromium")
TARGET = Path(__file__).resolve().parent.parent / "crates/css_values/src/value_data.rt"
# What every property takes alone; the last of them only in Chromium.
WIDE = ("inherit", "initial", "unset", "revert", "revert-layer", "revert-rule")
# What shorthands set and have no part for.
RESET = {"border": "border-image"}
# With these words the keywords of Chromium begin.
FIRST_WORDS = b"inherit\0initial\0none\0hidden\0inset\0groove\0"
COLORS = "color"
# The properties that take a number as a length in quirks mode, and those that take three or six hexadecimal
# digits as a colour (Quirks Mode Standard, sections 3.1 and 3.2; `mask-position` only in Chromium).
QUIRKY_LENGTHS = (
    "background-position border-bottom-width border-left-width border-right-width "
    "border-spacing border-top-width border-width bottom font-size height left "
    "letter-spacing margin margin-bottom margin-left margin-right margin-top "
    "mask-position max-height max-width min-height min-width padding padding-bottom "
    "padding-left padding-right padding-top right text-indent top vertical-align "
    "width word-spacing"
)
QUIRKY_COLORS = (
    "background-color border-bottom-color border-color border-left-color "
    "border-right-color border-top-color color"
)
# How many values a keyword is tried beside.
CONTEXTS = 8
WIDTH = 84
UNITS = {
    "l": "px em ex ch ic rem lh rlh cap vw vh vi vb vmin vmax svw svh svi svb svmin svmax lvw lvh "
    "lvi lvb lvmin lvmax dvw dvh dvi dvb dvmin dvmax cqw cqh cqi cqb cqmin cqmax cm mm q in pt pc "
    "rex rch ric rcap",
    "a": "deg grad rad turn",
    "t": "s ms",
    "f": "hz khz",
    "r": "dpi dpcm dppx x",
    "x": "fr",
}
TYPES = {
    "l": "length",
    "a": "angle",
    "t": "time",
    "f": "frequency",
    "r": "resolution",
    "x": "flex",
}


class Number(NamedTuple):
    """A number with what type it is of."""

    type: str
    value: float
    text: str


def numbers(type_: str, texts: str) -> list[Number]:
    return [Number(type_, float(text.rstrip("%")), text) for text in texts.split()]


def samples() -> dict[str, list[Union[Number, str]]]:
    """The classes of values, each with some: capitals are those of negative numbers."""
    found: dict[str, list[Union[Number, str]]] = {
        "0": [Number("integer", 0, "0")],
        "i": [*numbers("integer", "1 2 3 7 16 400 1000 99999")],
        "I": [*numbers("integer", "-1 -3 -400 -1000")],
        "n": [*numbers("number", "1.5 .5 .25 2.75 400.5 99999.5")],
        "N": [*numbers("number", "-1.5 -.5 -400.5")],
        "p": [*numbers("percentage", "0% 1% 50% 100% 150% 99999%")],
        "P": [*numbers("percentage", "-1% -50% -150%")],
        "h": ["#fff", "#abcd", "#1a2b3c", "#1a2b3c4d"],
        "s": ['"x"', "'a b'", '"qqqq"'],
        "u": ["url(x)", "url(a.png)"],
        "w": ["qqqq", "foo-bar-baz", "x1"],
    }
    for letter, units in UNITS.items():
        found[letter] = [
            Number(TYPES[letter], size, f"{size:g}{unit}")
            for unit in units.split()
            for size in (0, 1, 2.5, 400)
        ]
        found[letter.upper()] = [
            Number(TYPES[letter], size, f"{size:g}{unit}")
            for unit in units.split()
            for size in (-1, -2.5)
        ]
    return found


class Terminal(NamedTuple):
    """A keyword, a type with the least and the greatest number, a function or a sign."""

    kind: str
    name: str
    least: float = float("-inf")
    most: float = float("inf")

    def takes(self, sample: Union[Number, str]) -> bool:
        if isinstance(sample, Number):
            if not self.least <= sample.value <= self.most or self.kind != "type":
                return False
            names = {sample.type}
            if sample.type == "integer":
                names.add("number")
                if sample.value == 0:
                    names.add("length")
                    if self.name == "zero":
                        return True
            return self.name in names
        if self.kind != "type":
            return False
        wanted = {"#": "hex-color", '"': "string", "'": "string"}.get(sample[0])
        if wanted is None:
            wanted = "url" if sample.startswith("url(") else "custom-ident"
        return self.name == wanted or wanted == "custom-ident" and self.name == "ident"


class Grammar(NamedTuple):
    """What is known of a value definition: whether it takes nothing, what it takes alone, what may
    be in its values, how many components they have, and the most of the same if it is of these."""

    is_empty: bool
    alone: frozenset[Terminal]
    parts: frozenset[Terminal]
    most: float
    repeats: int = 1


class Unreadable(Exception):
    """A definition that is not there."""


EMPTY = Grammar(True, frozenset(), frozenset(), 0)
PRIMITIVES = (
    "angle custom-ident dimension flex frequency hex-color ident integer length number percentage "
    "resolution string time url zero"
).split()
TOKEN = re.compile(
    r"\s*(<[^>]+>|\|\||&&|\||\[|\]|[*+?#!]|\{\d+(?:,\d*)?\}|'[^']+'|[-\w@]+\(?|[/,()]|∞)"
)


class Reader:
    """Reads value definitions."""

    def __init__(self) -> None:
        self.syntaxes = json.loads((DATA / "syntaxes.json").read_text(encoding="utf-8"))
        self.properties = json.loads((DATA / "properties.json").read_text(encoding="utf-8"))
        self.known: dict[str, Grammar] = {}

    def definition(self, text: str) -> Grammar:
        """The grammar of a definition."""
        words: list[str] = []
        at = 0
        text = text.strip()
        while at < len(text):
            found = TOKEN.match(text, at)
            if not found:
                raise Unreadable(text[at:])
            words.append(found[1])
            at = found.end()
            while at < len(text) and text[at].isspace():
                at += 1
        grammar, rest = self.choice(words)
        if rest:
            raise Unreadable(" ".join(rest))
        return grammar

    def choice(self, words: list[str]) -> tuple[Grammar, list[str]]:
        return self.level(words, 0)

    def level(self, words: list[str], which: int) -> tuple[Grammar, list[str]]:
        """A definition whose parts are between these signs, or those that bind more."""
        signs = ("|", "||", "&&", "")
        if which == 3:
            return self.sequence(words)
        grammars = []
        while True:
            grammar, words = self.level(words, which + 1)
            grammars.append(grammar)
            if not words or words[0] != signs[which]:
                break
            words = words[1:]
        return (one_of, some_of, all_of)[which](grammars), words

    def sequence(self, words: list[str]) -> tuple[Grammar, list[str]]:
        grammars = []
        while words and words[0] not in ("|", "||", "&&", "]", ")"):
            grammar, words = self.repeated(words)
            grammars.append(grammar)
        return all_of(grammars), words

    def repeated(self, words: list[str]) -> tuple[Grammar, list[str]]:
        grammar, words = self.component(words)
        while words and (words[0] in ("*", "+", "?", "#", "!") or words[0][0] == "{"):
            grammar = multiplied(grammar, words[0])
            words = words[1:]
        return grammar, words

    def component(self, words: list[str]) -> tuple[Grammar, list[str]]:
        word, words = words[0], words[1:]
        if word == "[":
            grammar, words = self.choice(words)
            if not words or words[0] != "]":
                raise Unreadable(" ".join(words))
            return grammar, words[1:]
        if word.startswith("<"):
            return self.reference(word[1:-1]), words
        if word.endswith("("):
            depth = 1
            while depth:
                depth += words[0].endswith("(") - (words[0] == ")")
                words = words[1:]
            return terminal(Terminal("function", word)), words
        if word in "/,":
            return terminal(Terminal("sign", word)), words
        if word.startswith("'"):
            raise Unreadable(word)
        return terminal(Terminal("keyword", word.lower())), words

    def reference(self, name: str) -> Grammar:
        if name not in self.known:
            self.known[name] = self.read_reference(name)
        return self.known[name]

    def read_reference(self, name: str) -> Grammar:
        if name.endswith("()"):
            return terminal(Terminal("function", name[:-1]))
        if name.startswith("'"):
            return self.definition(self.properties[name.strip("'")]["syntax"])
        found = re.fullmatch(r"([-\w]+)\s*\[\s*([-\d∞]+)\s*,\s*([-\d∞]+)\s*\]", name)
        if found and found[1] in PRIMITIVES:
            least, most = (float(each.replace("∞", "inf")) for each in (found[2], found[3]))
            return terminal(Terminal("type", found[1], least, most))
        name = found[1] if found else name
        if name in PRIMITIVES:
            return terminal(Terminal("type", name))
        if name not in self.syntaxes:
            raise Unreadable(name)
        return self.definition(self.syntaxes[name]["syntax"])


def terminal(one: Terminal) -> Grammar:
    alone = frozenset() if one.kind == "sign" else frozenset([one])
    return Grammar(False, alone, frozenset([one]), 1)


def union(sets: Iterator[frozenset[Terminal]]) -> frozenset[Terminal]:
    return frozenset().union(*sets)


def one_of(grammars: list[Grammar]) -> Grammar:
    if len(grammars) == 1:
        return grammars[0]
    return Grammar(
        any(each.is_empty for each in grammars),
        union(each.alone for each in grammars),
        union(each.parts for each in grammars),
        max(each.most for each in grammars),
    )


def some_of(grammars: list[Grammar]) -> Grammar:
    if len(grammars) == 1:
        return grammars[0]
    return one_of(grammars)._replace(most=sum(each.most for each in grammars))


def all_of(grammars: list[Grammar]) -> Grammar:
    if len(grammars) == 1:
        return grammars[0]
    alone: frozenset[Terminal] = frozenset()
    for index, each in enumerate(grammars):
        if all(other.is_empty for at, other in enumerate(grammars) if at != index):
            alone |= each.alone
    return Grammar(
        all(each.is_empty for each in grammars),
        alone,
        union(each.parts for each in grammars),
        sum(each.most for each in grammars),
    )


def multiplied(grammar: Grammar, sign: str) -> Grammar:
    """A grammar with a multiplier after it."""
    if sign == "!":
        return grammar._replace(is_empty=False)
    if sign == "?":
        return grammar._replace(is_empty=True, repeats=1)
    if sign in "*+":
        return grammar._replace(
            is_empty=grammar.is_empty or sign == "*", most=float("inf"), repeats=1
        )
    if sign == "#":
        return grammar._replace(
            most=float("inf"), parts=grammar.parts | {Terminal("sign", ",")}, repeats=1
        )
    least, _, most = sign[1:-1].partition(",")
    count = float(most or "inf") if "," in sign else float(least)
    alone = grammar.alone if int(least) <= 1 or grammar.is_empty else frozenset()
    is_simple = grammar.most == 1 and int(least) == 1 and count in (2, 3, 4)
    return Grammar(
        int(least) == 0 or grammar.is_empty,
        alone,
        grammar.parts,
        grammar.most * count,
        int(count) if is_simple else 1,
    )


def keywords_of_program() -> list[str]:
    """The keywords of values that Chromium knows: texts with a zero byte after each, in a row."""
    data = PROGRAM.read_bytes()
    at = data.index(FIRST_WORDS)
    found = re.compile(rb"(?:-?[a-zA-Z][-a-zA-Z0-9]*\0)+").match(data, at)
    assert found
    words = found[0].decode().split("\0")[:-1]
    return sorted({each.lower() for each in words})


PAGE = """
<!DOCTYPE html><meta charset=utf-8><body><script id=input type="application/json">%s</script>
<script>
const input = JSON.parse(document.getElementById("input").textContent);
const takes = (name, value) => CSS.supports(name, value);
const forms = (one, other) => [one + " " + other, other + " " + one, one + "," + other,
    other + "," + one, one + "/" + other, other + "/" + one];
function property(name) {
    if (!takes(name, "inherit")) return null;
    const alone = input.values.filter(each => takes(name, each));
    const contexts = [], sorts = new Set();
    for (const each of [...(input.wholes[name] || []), ...alone]) {
        const sort = /^[-a-z]+$/i.test(each) ? each : each.replace(/[0-9.]+/g, "1");
        if (contexts.length < input.contexts && !sorts.has(sort) && !input.wide.includes(each)) {
            sorts.add(sort);
            contexts.push(each);
        }
    }
    const parts = input.values.filter(each =>
        contexts.some(other => forms(each, other).some(both => takes(name, both))));
    const most = [2, 3, 4, 5].filter(count => contexts.length && contexts.every(each =>
        takes(name, Array(count).fill(each).join(" ")))).length + 1;
    const pairs = contexts.every(each => contexts.every(other => takes(name, each + " " + other)));
    const style = document.createElement("p").style;
    style.setProperty(name, "inherit");
    const signs = contexts.some(each => takes(name, each + "," + each)
        || takes(name, each + "/" + each));
    return {alone, parts, most: pairs && !signs ? most : 0, longhands: [...style]};
}
const answer = {};
for (const name of input.names) answer[name] = property(name);
document.body.textContent = "ANSWER" + JSON.stringify(answer) + "END";
</script>
"""
# Values that are whole, where one component alone is none.
WHOLES = {
    "font": ["12px serif", "bold 12px serif", "12px/1 serif"],
    "background-position": ["left 1px"],
    "grid-template": ["none / none"],
    "transition": ["1s", "color 1s"],
    "animation": ["1s", "1s x"],
    "counter-reset": ["x 1"],
    "text-shadow": ["1px 1px", "1px 1px red"],
    "box-shadow": ["1px 1px", "1px 1px red", "inset 1px 1px"],
    "quotes": ["'a' 'b'"],
    "border-image": ["url(x) 1", "url(x) 1 / 1"],
    "offset": ["path('M0 0')"],
    "rotate": ["x 1deg", "1deg"],
    "font-variation-settings": ["'wght' 1"],
}


def ask(names: list[str], values: list[str]) -> dict[str, Optional[dict[str, list[str]]]]:
    """What Chromium says of properties."""
    answers: dict[str, Optional[dict[str, list[str]]]] = {}
    browser = shutil.which("chromium")
    assert browser
    for start in range(0, len(names), 40):
        work = {
            "names": names[start : start + 40],
            "values": values,
            "wholes": WHOLES,
            "wide": WIDE,
            "contexts": CONTEXTS,
        }
        with tempfile.TemporaryDirectory() as folder:
            page = Path(folder, "page.html")
            page.write_text(PAGE % json.dumps(work).replace("<", "\\u003c"), encoding="utf-8")
            words = [browser, "--headless", "--no-sandbox", "--disable-gpu"]
            words += [f"--user-data-dir={folder}/profile", "--virtual-time-budget=600000"]
            words += ["--dump-dom", f"file://{page}"]
            made = subprocess.run(words, capture_output=True, check=True, timeout=900)
        found = re.search(r"ANSWER(.*)END", made.stdout.decode(), re.DOTALL)
        assert found
        answers.update(json.loads(html.unescape(found[1])))
        print(f"{len(answers)} of {len(names)}", file=sys.stderr)
    return answers


class Judged(NamedTuple):
    """What is valid, and what is not known."""

    valid: frozenset[str]
    unknown: frozenset[str]


def judged(terminals: frozenset[Terminal], taken: frozenset[str], words: list[str]) -> Judged:
    """The classes and the keywords of values, by a definition and by what Chromium takes."""
    valid, unknown = set(), set()
    own = {each.name for each in terminals if each.kind == "keyword"}
    any_word = any(
        each.kind == "type" and each.name in ("custom-ident", "ident") for each in terminals
    )
    for word in words:
        says = [word in own or any_word, word in taken]
        if all(says):
            valid.add(word)
        elif any(says):
            unknown.add(word)
    for letter, those in samples().items():
        texts = [each.text if isinstance(each, Number) else each for each in those]
        answers = {any(one.takes(each) for one in terminals) for each in those}
        answers |= {text in taken for text in texts}
        if answers == {True}:
            valid.add("=" + letter)
        elif answers != {False}:
            unknown.add("=" + letter)
    return Judged(frozenset(valid), frozenset(unknown))


class Row(NamedTuple):
    """The values of properties: how many components they have (0: any number), what is valid alone,
    and what may be in one of several."""

    most: int
    alone: Judged
    parts: Judged


def fields(found: Judged, colors: Judged) -> tuple[str, str]:
    """The letters of classes, and the keywords, each with a sign before what is not known."""
    valid, unknown = set(found.valid), set(found.unknown)
    letters = ""
    known = valid | unknown
    if "=w" in known:
        # Any word may be one.
        valid = {each for each in valid if each[0] == "="}
        unknown = {each for each in unknown if each[0] == "="}
    elif colors.valid <= valid:
        letters += "c"
        valid -= colors.valid
        unknown -= colors.unknown
    elif len(colors.valid & known) * 2 > len(colors.valid):
        letters += "?c"
        valid -= colors.valid | colors.unknown
        unknown -= colors.unknown | colors.valid
    letters += "".join(each[1] for each in sorted(valid) if each[0] == "=")
    letters += "".join("?" + each[1] for each in sorted(unknown) if each[0] == "=")
    words = [each for each in sorted(valid) if each[0] != "="]
    words += ["?" + each for each in sorted(unknown) if each[0] != "="]
    return letters, " ".join(words)


def rows() -> tuple[Judged, dict[str, Row]]:
    """The colours, and the rows of the properties that both know."""
    reader = Reader()
    grammars: dict[str, Grammar] = {}
    for name in sorted(reader.properties):
        if not name.startswith("-"):
            try:
                grammars[name] = reader.reference(f"'{name}'")
            except (Unreadable, KeyError) as error:
                print(f"left out: {name}: {error}", file=sys.stderr)
    words = set(keywords_of_program())
    for each in grammars.values():
        words |= {one.name for one in each.parts if one.kind == "keyword"}
    words = {each for each in words if not each.startswith("-")} - set(WIDE)
    listed = sorted(words)
    texts = [
        each.text if isinstance(each, Number) else each
        for those in samples().values()
        for each in those
    ]
    answers = ask(list(grammars), [*listed, *WIDE, *texts])
    found: dict[str, Row] = {}
    for name, grammar in grammars.items():
        answer = answers[name]
        if answer is None:
            print(f"left out: {name}: not of Chromium", file=sys.stderr)
            continue
        taken = frozenset(answer["alone"])
        parts = taken | frozenset(answer["parts"])
        for longhand in answer["longhands"]:
            if longhand.startswith(RESET.get(name, " ")):
                continue
            other = answers.get(longhand)
            if other is not None:
                parts |= frozenset(other["alone"]) | frozenset(other["parts"])
        most = 0
        if grammar.most == 1 and not answer["parts"]:
            most = 1
        elif grammar.repeats > 1 and int(str(answer["most"])) == grammar.repeats:
            most = grammar.repeats
        alone = judged(grammar.alone, taken, listed)
        several = judged(grammar.parts, parts, listed)
        found[name] = Row(most, alone, several)
    of_color = answers[COLORS]
    assert of_color
    colors = judged(reader.reference(COLORS).alone, frozenset(of_color["alone"]), listed)
    return only_words(colors), found


def only_words(found: Judged) -> Judged:
    valid, unknown = (
        frozenset(each for each in those if each[0] != "=")
        for those in (found.valid, found.unknown)
    )
    return Judged(valid, unknown)


def lines_of(text: str) -> list[str]:
    """A text as lines that are not too long, divided at blanks."""
    lines = [""]
    for word in re.split("(?<= )", text):
        if len(lines[-1]) + len(word) > WIDTH:
            lines.append("")
        lines[-1] += word
    return lines


def literal(text: str) -> str:
    return " \\\n    ".join(each.rstrip(" ") for each in lines_of(text))


def code() -> str:
    colors, found = rows()
    same: dict[str, list[str]] = {}
    for name, row in found.items():
        letters, words = fields(row.alone, colors)
        part = ("", "") if row.most else fields(row.parts, colors)
        text = f"{row.most}|{letters}|{words}|{part[0]}|{part[1]}"
        same.setdefault(text, []).append(name)
    lines = [f"{' '.join(names)}|{text}" for text, names in same.items()]
    table = "\\n\\\n    ".join(literal(line) for line in sorted(lines))
    words = " ".join([*sorted(colors.valid), *("?" + each for each in sorted(colors.unknown))])
    units = "\\n\\\n    ".join(literal(f"{letter} {units}") for letter, units in UNITS.items())
    prefixed = " ".join(each for each in keywords_of_program() if each.startswith("-"))
    return f"""\
//! The values that properties take.
//!
//! They are from the standards' value definitions, as mdn-data 2.0.30 has them, beside what
//! Chromium 156 takes. What only one of them takes has `?` before it: it is not known. Written by
//! `tools/value_table.py`.

/// The words that are colours.
pub const COLOR_WORDS: &str = "\\
    {literal(words)}";

/// The units, after the letters of their classes.
pub const UNIT_CLASSES: &str = "\\
    {units}\\n";

/// The words that every property takes.
pub const WIDE_WORDS: &str = "{' '.join(WIDE)}";

/// The words and the functions with a vendor's prefix that Chromium knows.
pub const PREFIXED: &str = "\\
    {literal(prefixed)}";

/// The functions with another value in their place. With one of them anything may be in a value.
pub const SUBSTITUTED: &str = "attr env if inherit random-item var";

/// The properties that take a number as a length in quirks mode.
pub const QUIRKY_LENGTHS: &str = "\\
    {literal(QUIRKY_LENGTHS)}";

/// The properties that take three or six hexadecimal digits as a colour in quirks mode.
pub const QUIRKY_COLORS: &str = "\\
    {literal(QUIRKY_COLORS)}";

/// For each of some properties, between bars: the names; how many components their values have, or
/// 0 for any number; the classes and the words of what is valid alone; and those of what may be in
/// a value of several, if that is not the same.
///
/// A class is a letter: `c` colours, `h` hexadecimal ones, `0` zero, `i` integers and `n` numbers
/// above it, `p` percentages, `l` lengths, `a` angles, `t` times, `f` frequencies, `r` resolutions,
/// `x` flexible lengths, `s` strings, `u` urls, `w` words that an author chooses. A capital letter
/// is for those below zero.
pub const VALUES: &str = "\\
    {table}\\n";
"""


if __name__ == "__main__":
    TARGET.write_text(code(), encoding="utf-8")
