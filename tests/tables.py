"""The rows of tests/cases/calls.json, which each package answers alike: here by the C library. Those of the
Python package are in python/tests/test_cases.py, those of npm and of Rust in tests/release.py and
tests/checkout.py, which use what is here.

A row is what is asked, as texts, and then what is due; the table says of each question what it asks,
where the answers are from, and which packages lack it. The library is built by `./build library`.
"""
from __future__ import annotations

import ctypes
import json
import re
from typing import Any, Callable, Dict, Iterator, List, NamedTuple, Optional, Sequence, Tuple

from tests.common import Case, library_path, read, row
from tests.library_calls import (
    DONE,
    HTML,
    MODERN,
    NO_LIMIT,
    NO_OWN,
    Device,
    Tree,
    buffer_of,
    call,
    lines_of,
    listed_policy,
    numbers_call,
    sheets_of,
    tree_of,
)

TABLE: Dict[str, Any] = json.loads(read("tests", "cases", "calls.json"))
ROOM = 1 << 14
# What the library is asked for of values, by its header.
LINT_VALUES = 8
# The words of devices whose numbers are their places, and the fields that are numbers as they are.
WORDS = {
    "type": ("screen", "print", "speech"),
    "pointer": ("none", "coarse", "fine"),
    "color_gamut": ("srgb", "p3", "rec2020"),
    "update": ("none", "slow", "fast"),
    "scripting": ("none", "initial-only", "enabled"),
    "display_mode": ("browser", "minimal-ui", "standalone"),
    "contrast": ("no-preference", "more", "less", "custom"),
}
DESKTOP: Dict[str, Any] = {
    **{"width": 1280, "height": 800, "resolution": 1, "type": "screen", "pointer": "fine"},
    **{"hover": True, "dark": False, "reduced_motion": False, "device_width": 0},
    **{"device_height": 0, "color": 8, "color_index": 0, "monochrome": 0, "color_gamut": "srgb"},
    **{"high_dynamic_range": False, "grid": False, "update": "fast", "scripting": "enabled"},
    **{"display_mode": "browser", "reduced_transparency": False, "contrast": "no-preference"},
    **{"forced_colors": False, "any_hover": False, "any_pointer": "none"},
}


class Asked(NamedTuple):
    """A row: the name of its question, what is asked, and what is due."""

    question: str
    fields: List[str]
    due: str


def asked_of(package: str) -> Iterator[Asked]:
    """Yields the rows that a package answers."""
    for name, question in TABLE["questions"].items():
        if package not in question["without"]:
            for *fields, due in question["rows"]:
                yield Asked(name, fields, due)


def device_numbers(name: str) -> List[int]:
    """The numbers of a device, as the C library has them."""
    found = []
    for key, value in {**DESKTOP, **TABLE["devices"][name]}.items():
        if key == "any_pointer":
            found += [int("coarse" in value), int("fine" in value)]
        elif key in WORDS:
            found.append(WORDS[key].index(value))
        else:
            found.append(int(value * (1000 if key == "resolution" else 1)))
    return found


def answered(one: Asked, answer: str, truths: Sequence[str] = ()) -> Iterator[Optional[str]]:
    """Whether an answer is what is due. A package may have no word for what is unknown."""
    due = "false" if one.due == "unknown" and "unknown" not in truths else one.due
    yield row(f"{one.question} {one.fields}", answer, due)


def in_lines(page: str) -> str:
    """A page as tests/release/cases.rs reads it."""
    lines = ["html" if "html" in TABLE["pages"][page] else ""]
    for depth, name, attributes, has_text, *more in TABLE["pages"][page]["elements"]:
        space, spaced = more or (0, ())
        own = [text for pair in attributes.items() for text in pair]
        own += [text for number, key, value in spaced for text in (f"\4{number}\4{key}", value)]
        texts = [str(depth), str(int(has_text)), str(space), name, *own]
        lines.append("".join(text + "\2" for text in texts))
    return "\n".join(lines)


def spaces_of(page: str, prefixes: str) -> List[Tuple[str, int]]:
    """The prefixes with the numbers of their namespaces, of which one that the page has not is another."""
    known = ["", *TABLE["pages"][page].get("namespaces", ())]
    return [
        (prefix, known.index(url) if url in known else len(known))
        for prefix, url in TABLE["prefixes"][prefixes].items()
    ]


def in_texts(pairs: str) -> str:
    """Pairs as tests/release/cases.rs reads them."""
    return "".join(text + "\2" for pair in json.loads(pairs) for text in pair)


# How tests/release/cases.rs reads fields that are no texts.
FOR_RUST: Dict[str, Callable[[str], str]] = {
    "page": in_lines,
    "device": lambda name: " ".join(map(str, device_numbers(name))),
    **{name: in_texts for name in ("properties", "inherited", "registered")},
}


def for_rust(one: Asked) -> bytes:
    """A row as tests/release/cases.rs reads it."""
    kinds = TABLE["questions"][one.question]["fields"]
    fields = [FOR_RUST.get(kind, str)(field) for kind, field in zip(kinds, one.fields)]
    if one.question == "namespaces":
        spaces = spaces_of(*one.fields[:2])
        fields[1] = "".join(f"{prefix}\2{number}\2" for prefix, number in spaces)
    return "\1".join([one.question, *fields, ""])[:-1].encode() + b"\0"


def from_rust(one: Asked, answer: bytes) -> str:
    """An answer of tests/release/cases.rs as the table has it."""
    text = answer.decode()
    if one.question != "resolve":
        return text
    values = [None if value == "\3" else value for value in text.split("\2")[:-1]]
    return json.dumps(values, ensure_ascii=False, separators=(",", ":"))


def elements_of(page: str, prefixes: str = "") -> Tree:
    """A page for the C library, where prefixes are declared."""
    elements, others = [], []
    for at, (depth, name, attributes, has_text, *more) in enumerate(
        TABLE["pages"][page]["elements"]
    ):
        space, spaced = more or (0, ())
        texts = [text.encode() for pair in attributes.items() for text in pair]
        elements.append(((depth, 32 * has_text, space), name.encode(), *texts))
        others += [(at, number, key.encode(), value.encode()) for number, key, value in spaced]
    spaces = spaces_of(page, prefixes) if prefixes else ()
    declared = [(prefix.encode(), number) for prefix, number in spaces]
    return tree_of(*elements, attributes=others, prefixes=declared)


class InC:
    """What the C library answers."""

    def __init__(self) -> None:
        self.library = ctypes.CDLL(library_path())

    def text(self, name: str, *arguments: Any) -> Optional[str]:
        """What a call writes, or None if it refuses."""
        status, out, length, _ = call(self.library, f"simplecss_{name}", arguments, ROOM)
        return out[:length].decode() if status == DONE else None

    def numbers(self, name: str, *arguments: Any) -> Optional[List[int]]:
        """The numbers that a call writes, or None if it refuses."""
        words = self.library, f"simplecss_{name}", arguments, ROOM, NO_LIMIT
        status, length, found = numbers_call(*words)
        return found[:length] if status == DONE else None

    def answer(self, question: str, fields: Sequence[str]) -> str:
        """What is answered to a row."""
        answer: Callable[..., str] = getattr(self, question)
        return answer(*fields)

    def selector(self, text: str) -> str:
        rows = self.numbers("list_numbers", text.encode(), MODERN)
        if rows is None:
            reason = self.text("refusal", text.encode(), MODERN, tree_of()) or ""
            return re.sub(r"\A(\d+) (\d+) ", r"\1:\2: ", reason)
        return f"{self.text('list_text', text.encode(), MODERN)} {rows[3]},{rows[4]},{rows[5]}"

    def grammar(self, page: str) -> int:
        return HTML if "html" in TABLE["pages"][page] else MODERN

    def selected(self, page: Any, grammar: int, selectors: str) -> str:
        """The indices of the elements of a page that a list of selectors matches."""
        words = page, grammar, selectors.encode(), 0, 0, NO_LIMIT
        return " ".join(str(it - 1) for it in self.numbers("page_select", *words) or ())

    def select(self, page: str, selectors: str) -> str:
        return self.selected(elements_of(page), self.grammar(page), selectors)

    any_case = select

    def namespaces(self, page: str, prefixes: str, selectors: str) -> str:
        return self.selected(elements_of(page, prefixes), MODERN, selectors)

    def cleaned(self, scope: str, policy: str, text: str, form: int) -> str:
        """What a policy of the library keeps of a text, and the reasons of what it drops."""
        given = listed_policy(self.library, scope.encode(), policy)
        rows = self.numbers("dropped", text.encode(), given, form) or []
        words = lines_of(self.library, policy)["reasons"]
        kept = self.text("clean", text.encode(), given, form)
        return f"{kept}|{' '.join(words[each].decode() for each in rows[2::3])}"

    def clean(self, scope: str, sheet: str) -> str:
        return self.cleaned(scope, "mail", sheet, 0)

    def clean_style(self, policy: str, text: str) -> str:
        return self.cleaned("", policy, text, 1)

    def is_clean(self, scope: str, sheet: str) -> str:
        policy = listed_policy(self.library, scope.encode(), "mail")
        return self.text("clean", sheet.encode(), policy, 2) or "refused"

    def media(self, queries: str, device: str) -> str:
        return self.text("media", queries.encode(), Device(*device_numbers(device))) or "refused"

    def supports(self, condition: str) -> str:
        names = buffer_of((b"color", b"display"))
        return self.text("supports", condition.encode(), *names) or "refused"

    def declared(self, text: bytes, place: Sequence[int]) -> str:
        """A declaration, by where its name and its value are, and whether it is important."""
        start, size, at, length, important = place
        name, value = text[start : start + size].decode(), text[at : at + length]
        name = name if name.startswith("--") else name.lower()
        return f"{name}: {self.text('close', value)}{' !important' * important}"

    def styles(self, page: str, device: str, sheet: str) -> str:
        return self.any_value(page, device, self.text("taken", sheet.encode(), 0) or "")

    def any_value(self, page: str, device: str, sheet: str) -> str:
        text = sheet.encode()
        held = [
            it for it in re.findall(r"@media ([^{]*) \{", sheet) if self.media(it, device) == "true"
        ]
        groups = buffer_of([word.encode() for it in held for word in ("media", it)])
        sheets = sheets_of(buffer_of((text,)), groups)
        rules: List[List[str]] = []
        words = sheets, self.grammar(page), NO_LIMIT, elements_of(page), NO_OWN
        numbers = iter(self.numbers("query_rules", *words) or ())
        for _ in numbers:
            *_, number = (next(numbers) for _ in range(8))
            places = [[next(numbers) for _ in range(6)] for _ in range(number)]
            rules.append([self.declared(text, place[:5]) for place in places])
        winners, lines = iter(self.numbers("query_winners", *words) or ()), []
        for number in winners:
            won = [(next(winners), next(winners)) for _ in range(number)]
            lines.append("; ".join(rules[rule][at] for rule, at in won))
        return "\n".join(lines)

    def alike(self, page: str, device: str, sheet: str, other: str) -> str:
        found = [self.styles(page, device, each) for each in (sheet, other)]
        return "alike" if found[0] == found[1] else "different"

    def declarations(self, text: str) -> str:
        data, found = text.encode(), []
        items = iter(self.numbers("declarations", data) or ())
        for kind in items:
            _, _, _, *place, _ = (next(items) for _ in range(9))
            found += [self.declared(data, place)] if kind == 0 else []
        return "; ".join(found)

    def name(self, text: str) -> str:
        return self.text("spell", text.encode(), 0) or ""

    def longhands(self, name: str) -> str:
        return self.text("property", name.lower().encode(), 0) or ""

    def shorthands(self, name: str) -> str:
        return " ".join((self.text("property", name.lower().encode(), 1) or "").split())

    def inherited(self, name: str) -> str:
        return self.text("property", name.lower().encode(), 3) or "refused"

    def valid(self, value: str) -> str:
        return self.text("valid_value", value.encode()) or "refused"

    def takes(self, name: str, value: str) -> str:
        said = self.text("lint", f"{name}:{value}".encode(), LINT_VALUES) or ""
        return {"valid": "true", "invalid": "false"}.get(said.strip(), "not known")

    def resolve(self, own: str, inherited: str, registered: str) -> str:
        parts = [json.loads(each) for each in (own, registered, inherited)]
        texts = [text.encode() for part in parts for pair in part for text in pair]
        words = *buffer_of(texts), len(parts[0]), len(parts[1]), NO_LIMIT
        rest, values = (self.text("values", *words) or "").encode(), []
        for _ in parts[0]:
            digits, _, rest = rest.partition(b"\n")
            values.append(rest[: int(digits)].decode() if digits else None)
            rest = rest[int(digits or 0) :]
        return json.dumps(values, ensure_ascii=False, separators=(",", ":"))

    def escape(self, name: str) -> str:
        return self.text("spell", name.encode(), 2) or ""

    def quote(self, text: str) -> str:
        return self.text("spell", text.encode(), 3) or ""

    def minify(self, sheet: str) -> str:
        """A text that is no shorter, or that does not read back, stays."""
        return self.text("sheet_printed", sheet.encode(), 0) or ""

    def prettify(self, sheet: str) -> str:
        return self.text("sheet_printed", sheet.encode(), 1) or ""


class Cases(Case):
    def test_in_c(self) -> None:
        library = InC()

        def answers(every: List[Asked]) -> List[str]:
            return [library.answer(one.question, one.fields) for one in every]

        self.against(answers, asked_of("c"), lambda one, it: answered(one, it, ("unknown",)))
