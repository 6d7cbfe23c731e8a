"""Explanations for people: lines of text, JSON, and a page of HTML."""

from __future__ import annotations

import html
from pathlib import Path
from typing import Any, Callable, Dict, Iterable, List, NamedTuple, Optional, Sequence

from ._explaining import Contender, Explanation
from ._placed import Place
from ._output import printable
from ._words import words_of

# Adds a colour to a text, which a word names.
Paint = Callable[[str, str], str]
# What a place is shown as.
Shown = Callable[[Place], str]

_COLOURS = {"wins": "32", "loses": "2", "rolled back": "33", "place": "1"}
_TITLES = ("", "Declaration", "Selector", "Where", "Origin", "Layer", "Specificity", "Loses by")
_STYLE = Path(__file__).with_name("explained.css")


def plain(text: str, colour: str) -> str:
    """Returns the text."""
    return text


def coloured(text: str, colour: str) -> str:
    """Returns the text in a colour of a terminal."""
    return f"\033[{_COLOURS[colour]}m{text}\033[0m"


class _Row(NamedTuple):
    """What is shown of a declaration."""

    state: str
    declaration: str
    selector: str
    place: str
    origin: str
    layer: str
    specificity: str
    criterion: str


def _one_line(text: str) -> str:
    return " ".join(words_of(text))


def _row(one: Contender, winner: Optional[Contender], shown: Shown) -> _Row:
    state = "wins" if one is winner else "rolled back" if one.is_rolled_back else "loses"
    return _Row(
        state,
        _one_line(str(one.declaration)),
        "" if one.selector is None else _one_line(one.selector),
        shown(one.place),
        one.origin if one.selector is not None or one.origin != "author" else "style attribute",
        one.layer or "",
        "" if one.specificity is None else ",".join(map(str, one.specificity)),
        one.criterion or "",
    )


def _rows(found: Explanation, shown: Shown) -> List[_Row]:
    return [_row(each, found.winner, shown) for each in found.contenders]


def _notes(found: Explanation) -> List[str]:
    """Returns what is said after the declarations."""
    notes: List[str] = []
    if found.inherited is not None:
        notes.append(f"inherited from {found.inherited.element}")
    elif found.winner is None:
        notes.append("all are rolled back" if found.contenders else "nothing sets it")
    elif found.computed is None:
        notes.append("invalid once var() is replaced")
    elif found.computed != found.winner.value:
        notes.append(f"var() replaced: {found.computed}")
    return notes


def as_text(found: Explanation, head: str, shown: Shown, paint: Paint) -> str:
    """Returns lines that explain a property of an element, after one with its place."""
    lines = [f"{paint(printable(head), 'place')}: {printable(f'{found.element} {found.name}')}"]
    rows = _rows(found, shown)
    widths = [max((len(each) for each in column), default=0) for column in zip(*rows)]
    for row in rows:
        cells = (printable(cell).ljust(width) for cell, width in zip(row, widths) if width)
        lines.append(paint(f"  {'  '.join(cells).rstrip()}", row.state))
    lines += (f"  {printable(_one_line(note))}" for note in _notes(found))
    text = "".join(f"{line}\n" for line in lines)
    return text if found.inherited is None else text + as_text(found.inherited, head, shown, paint)


def as_json(found: Explanation, shown: Shown) -> Dict[str, Any]:
    """Returns an explanation as JSON has it."""
    return {
        "element": found.element.index,
        "name": found.name,
        "contenders": [_described(each, shown) for each in found.contenders],
        "winner": None if found.winner is None else found.contenders.index(found.winner),
        "computed": found.computed,
        "inherited": None if found.inherited is None else as_json(found.inherited, shown),
    }


def _described(one: Contender, shown: Shown) -> Dict[str, Any]:
    described = one._asdict()
    described["declaration"] = one.declaration._asdict()
    described["place"] = {**one.place._asdict(), "file": shown(one.place)}
    return described


def _cells(words: Iterable[str], tag: str) -> str:
    return "".join(f"<{tag}>{html.escape(each)}</{tag}>" for each in words)


def _section(found: Explanation, shown: Shown) -> str:
    """Returns the part of a page for an element."""
    rows = "".join(
        f'<tr class="{row.state.replace(" ", "-")}">{_cells(row, "td")}</tr>\n'
        for row in _rows(found, shown)
    )
    table = f"<table>\n<tr>{_cells(_TITLES, 'th')}</tr>\n{rows}</table>\n" if rows else ""
    notes = "".join(f"<p>{html.escape(each)}</p>\n" for each in _notes(found))
    title = f"{found.element} {found.name}"
    inner = "" if found.inherited is None else _section(found.inherited, shown)
    return f"<h2><code>{html.escape(title)}</code></h2>\n{table}{notes}{inner}"


def as_page(every: Sequence[Explanation], title: str, shown: Shown) -> str:
    """Returns a page of HTML, whole in one file and without scripts."""
    style = _STYLE.read_text(encoding="utf-8")
    sections = "".join(_section(each, shown) for each in every)
    head = f'<meta charset="utf-8"><title>{html.escape(title)}</title>\n<style>\n{style}</style>'
    return (
        f'<!DOCTYPE html>\n<html lang="en">\n<head>{head}</head>\n'
        f"<body>\n<h1>{html.escape(title)}</h1>\n{sections}</body>\n</html>\n"
    )
