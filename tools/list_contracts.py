#!/usr/bin/env python3
"""Writes docs/CONTRACTS.md from the sources: how clauses are read, the headline's clauses, and each
law with its sentence.

    list_contracts.py > docs/CONTRACTS.md

A law is a public function without a body. Its sentence is the first of its documentation.
"""
import glob
import os
import re
import sys
from typing import Iterator, List, Tuple

TOP = os.path.dirname(os.path.dirname(os.path.abspath(__file__)))
# Crates whose functions without a body are no laws.
LEFT_OUT = ("tests_", "example_")
HEAD = """# Contracts

`tools/list_contracts.py` writes this page. A contract is at its function, in `crates/*/src`, and names definitions of
`specs/`, such as `Rattle.simplecss.specs.Trees`.

## How to read a clause

`x.now` is the value that a `&` refers to. `x.old` and `x.new` are those of a `&mut` before and after the call.
`λ` is a closure, and `↔` is "exactly if". `IfOk r (λ v. P)` is `P` of the value, if `r` is an `Ok`; `IfSome` is
the same for an option. `OnOk r P` is `P` if `r` is an `Ok`, and `OnErr r P` if it is an `Err`. `this_edition` is
the edition of the rules that is implemented.

No contract says that memory is left, or that a call with memory returns an `Ok`: tests do.

## The headline

"""
QUOTES = (
    (
        "Which declarations win on a device, by `query_law`. Its first premise is the clause of"
        " `simplecss_query_numbers`, and `tools/believed.py` counts what the rest names:",
        "crates/css_laws/src/queries.rt",
        "ensures on_device {",
        7,
    ),
    (
        "The definition that it names:",
        "crates/css_laws/specs/Queries.antt",
        "-- What numbers say of a query",
        19,
    ),
    (
        "What this names:",
        "crates/css_laws/specs/Headline.antt",
        "-- The selector of a rule of the sheets, as the document reads it",
        31,
    ),
    (
        "Matching, by `Selector::matches_counted`, which `matches` calls:",
        "crates/simplecss_selector/src/selector.rt",
        "ensures answer { IsTrue result ↔ HasPlacement",
        7,
    ),
    (
        "Reading into a sheet, by `StyleSheet::parse_more`:",
        "crates/simplecss/src/sheet/style_sheet.rt",
        "ensures sheet { (texts : List (List ℕ)) → rules_in self.old",
        2,
    ),
)
# Laws that are said in one sentence, by words of their names.
GATHERED = {
    "Modern selectors and the modern cascade mean what those of CSS 2.1 do.": (
        "converted_law",
        "page_law",
        "rule_order_law",
    ),
    "A list with a number has exactly the elements that it matches, and `&` is `:is()` of it.": (
        "marking_law",
        "ampersand_law",
        "chain_law",
    ),
    "A selector with numbers matches exactly what it means as it was read.": ("meaning_law",),
    "Rules are in the order of the cascade, and equal ones in that of the texts.": (
        "source_order_law",
        "pieces_law",
    ),
    "A list of selectors is cut at its commas, and each reads as itself from where it begins.": (
        "places_law",
        "cut_law",
        "own_law",
    ),
    "What is rolled back does not win.": ("rollback_law",),
    "Of each property of which a declaration counts exactly one wins.": (
        "one_law",
        "query_law",
        "winners_law",
        "styles_law",
        "device_law",
        "answer_law",
    ),
    "Values are equal exactly if what contracts see of them is.": ("equality",),
    "Blanks and comments are what their definitions say, which do not mention reading.": (
        "blank",
        "comment",
        "space_bytes",
    ),
    "Elements that a selector matches, and their ancestors, have the keys that it requires of them.": (
        "key_law",
        "keys_law",
    ),
}
CALLS = (
    ("cursor", "css_text/src/stream.rt"),
    ("tokens", "simplecss_selector/src/tokenizer.rt"),
    ("selectors and matching", "simplecss_selector/src/selector.rt"),
    ("traits for trees", "simplecss_selector/src/element.rt"),
    ("declarations", "simplecss_declaration/src/tokenizer.rt"),
    ("style sheets", "simplecss/src/sheet/style_sheet.rt"),
    ("index", "simplecss/src/index/rule_index.rt"),
    ("reporters", "simplecss_grammar/src/report.rt"),
    ("what is skipped", "simplecss_grammar/src/quoting.rt"),
    ("hints", "simplecss/src/hints.rt"),
    ("places", "simplecss/src/place.rt"),
    ("ready tree", "css_elements/src/tree.rt"),
    ("tree texts", "cssq_tree/src/tree.rt"),
    ("cascade", "cssq/src/cascade.rt"),
    ("commands", "cssq/src/runs.rt"),
    ("C library", "simplecss_c/src/exports.rt"),
    ("modern sheets", "css_syntax/src"),
    ("which of them are read", "css_sheet/src/selectors.rt"),
    ("rules of a sheet in order", "css_sheet/src/sheet_order.rt"),
    ("what wins by them", "css_styles/src/styles.rt"),
    ("values with `var()`", "css_values/src/setting.rt"),
    ("tables of names", "css_values/src/names.rt"),
    ("media queries", "css_conditions/src/media.rt"),
    ("`@supports`", "css_conditions/src/supports.rt"),
    ("reading modern selectors", "css_selector_text/src/reading.rt"),
    ("printing them", "css_selector_text/src/printing.rt"),
    ("matching them", "css_selectors/src/matching.rt"),
    ("an index of them", "css_index/src/selector_index.rt"),
    ("a walk along a page", "css_index/src/selector_walk.rt"),
    ("matching with `~`", "css_matching/src"),
)


def read(path: str) -> str:
    """The text of a file of the repository."""
    with open(os.path.join(TOP, path), encoding="utf-8") as file:
        return file.read()


def quote(path: str, start: str, count: int) -> List[str]:
    """A block with the lines of a clause and those after it."""
    lines = read(path).split("\n")
    found = [index for index, line in enumerate(lines) if line.strip().startswith(start)]
    if not found:
        raise SystemExit(f"list_contracts.py: {path} has no {start!r}")
    return [f"<!-- from {path} -->", "```rust", *lines[found[0] : found[0] + count], "```", ""]


def first_sentence(documentation: str) -> str:
    """The first sentence of a function's documentation, and the second after a short one."""
    words = " ".join(re.sub(r"^\s*/// ?", "", line) for line in documentation.strip().split("\n"))
    first, *others = re.split(r"(?<=\.) (?=[A-Z])", words)
    # One that only names the subject brings the next with it.
    return " ".join([first, *others[: len(first.split()) < 12]]).replace("|", "\\|")


def laws_in(lines: List[str]) -> Iterator[Tuple[str, str]]:
    """The name and the sentence of each law of a file: a function at the top whose body is `{}` on
    a line of its own."""
    for index, line in enumerate(lines):
        found = re.match(r"pub fn (\w+)", line)
        if found:
            end = next(
                at
                for at in range(index, len(lines))
                if lines[at].startswith(("{", "}")) or lines[at].endswith(" {")
            )
            start = index
            while lines[start - 1].startswith("///"):
                start -= 1
            if lines[end] == "{}":
                yield found[1], first_sentence("\n".join(lines[start:index]))


def laws() -> Iterator[Tuple[str, str, str]]:
    """The file, the name and the sentence of each law."""
    for path in sorted(
        glob.glob(os.path.join(TOP, "crates", "*", "src", "**", "*.rt"), recursive=True)
    ):
        name = os.path.relpath(path, TOP)
        if not name.split(os.sep)[1].startswith(LEFT_OUT):
            yield from ((name, law, sentence) for law, sentence in laws_in(read(name).split("\n")))


def page() -> str:
    """The page."""
    lines = [HEAD.rstrip("\n"), ""]
    for words, path, start, count in QUOTES:
        lines += [words, "", *quote(path, start, count)]
    lines += [
        "## Laws",
        "",
        (
            "Each is the contract of a function that does nothing. A proof calls the function to"
            " have the law."
        ),
        "",
    ]
    lines += ["| Law | Says |", "|---|---|"]
    found = list(laws())
    gathered = {
        said: [law for law in found if any(word in law[1] for word in words)]
        for said, words in GATHERED.items()
    }
    single = [law for law in found if not any(law in several for several in gathered.values())]
    lines += [f"| [`{name}`](../{path}) | {sentence} |" for path, name, sentence in single]
    for said, several in gathered.items():
        lines.append(
            f"| {', '.join(f'[`{name}`](../{path})' for path, name, _ in several)} | {said} |"
        )
    lines += ["", "## Calls", ""]
    missing = [path for _, path in CALLS if not os.path.exists(os.path.join(TOP, "crates", path))]
    if missing:
        raise SystemExit(f"list_contracts.py: there is no {missing[0]}")
    lines.append(
        "The contracts of each: "
        + ",\n".join(f"[{words}](../crates/{path})" for words, path in CALLS)
        + "."
    )
    return "\n".join(lines) + "\n"


if __name__ == "__main__":
    sys.stdout.write(page())
