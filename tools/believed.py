#!/usr/bin/env python3
"""What a reader must believe of a clause: the definitions of `specs/` that it names, those that these name, and so on,
with their lines. Blank lines, comments and imports are not counted, nor is what the standard library and the types of
the code define.

  tools/believed.py                       those of the calls and the laws on what wins
  tools/believed.py CRATE FILE FUNCTION   those of a function's clauses, with each crate's part
  tools/believed.py CRATE FILE NAME       those of a definition, where the file is one of specs/

Of `query_law` its conclusion is counted, `AreWon`: what a call ensures is its premise, which the prover has checked, so
that no one needs to believe it. What conditions add on a device is counted apart.
"""

from __future__ import annotations

import collections
import functools
import re
import sys
from collections.abc import Iterable, Iterator
from pathlib import Path
from typing import List, NamedTuple, Union

CRATES = Path(__file__).resolve().parent.parent / "crates"
# The functions whose clauses say which declaration wins, and the definition of what a call writes.
HEADLINE = (
    ("css_laws", "Queries.antt", "AreWon"),
    ("simplecss_c", "queries.rt", "simplecss_query_numbers"),
    ("css_laws", "headline.rt", "winners_law"),
    ("css_laws", "devices.rt", "device_law"),
    ("css_styles", "styles.rt", "winners"),
    ("css_styles", "style_rules.rt", "read"),
    ("css_tree", "marking.rt", "mark"),
)
# What the same rests on, on a device.
CONDITIONS = (("css_laws", "Devices.antt", "holds_on"), ("css_laws", "Devices.antt", "AreAsked"))
USE = re.compile(r"^ *(?:ghost )?(?:pub )?use (Rattle\.[^\s{;]+?)(?:\.\{([^}]*)\}| as (\S+?))?;?$")
STARTS = re.compile(
    r"^((?:(?:abbrev|unfoldable|pub) )*)(?:(?:record|data) (\S+)|(mutual)$|([^\s:(){}]+) : )"
)
INNER = re.compile(r"^ +(?:pub )?([^\s:(){}]+) : ", re.MULTILINE)
MODULE = re.compile(r"^module _")
RECORD = re.compile(r"(?:abbrev |pub )*record ")
PARTED = re.compile(r"(?:abbrev |pub )*(?:record|data|mutual)\b")
# Where an equation, a signature or a field begins: others go on with one before them.
OUTER_LINE = re.compile(r"\n(?=[^ })])")
INNER_LINE = re.compile(r"\n(?= ? ?[^ })])")
TYPE = re.compile(r"(?:abbrev |pub )*(?:record|data) ")
TOKEN = re.compile(r"\"[^\"]*\"|[(){}\[\]]|;|[^\s(){}\[\],;]+")
OPENING, CLOSING = "([{", ")]}"
# Words, and the same in brackets.
Tree = List[Union[str, "Tree"]]


class Unit(NamedTuple):
    """A definition, or several that name one another, with the file that it is in."""

    path: Path
    name: str
    text: str


class File(NamedTuple):
    """Definitions by their names, and what each imported name stands for: a module, and a name of it."""

    units: dict[str, Unit]
    imports: dict[str, tuple[str, str]]


def imports_in(text: str) -> dict[str, tuple[str, str]]:
    """What names stand for, by the lines that import them."""
    found = {}
    for line in text.splitlines():
        if not (use := USE.match(line)):
            continue
        module, items, alias = use.groups()
        if items is None:
            parent, _, last = module.rpartition(".")
            found[alias or last] = (module, "") if alias else (parent, last)
        for item in filter(None, re.split(r",\s*", items or "")):
            name, _, short = item.partition(" as ")
            found[(short or name).strip()] = (module, name.strip())
    return found


def flattened(lines: list[str]) -> Iterator[str]:
    """The lines that say something, those in the block of a module as far left as others."""
    depths: list[int] = []
    for line in lines:
        if not line.strip() or line.lstrip().startswith(("--", "use ", "pub use ", "pub mod ")):
            continue
        indent = len(line) - len(line.lstrip())
        while depths and indent < depths[-1]:
            depths.pop()
        flat = line[depths[-1] if depths else 0 :]
        if MODULE.match(flat):
            depths.append(indent + 2)
        yield flat


def blocks_in(text: str) -> Iterator[tuple[list[str], str]]:
    """Each definition, with its names."""
    names: list[str] = []
    block: list[str] = []
    for line in flattened(text.splitlines()):
        start = STARTS.match(line)
        if start or MODULE.match(line):
            if names:
                yield names, "\n".join(block)
            names = [name for name in start.groups()[1:] if name] if start else []
            block = []
        block.append(line)
    if names:
        yield names, "\n".join(block)


@functools.lru_cache(maxsize=None)
def read_file(path: Path) -> File:
    """The definitions of a file."""
    text = path.read_text(encoding="utf-8")
    units: dict[str, Unit] = {}
    for names, block in blocks_in(text):
        unit = Unit(path, names[0], block)
        within = (
            INNER.findall(block)
            if block.startswith(("abbrev mutual", "mutual")) or " data " in f" {block[:20]}"
            else []
        )
        for name in [*names, *within]:
            units.setdefault(name, unit)
    return File(units, imports_in(text))


@functools.lru_cache(maxsize=None)
def file_of(module: str) -> tuple[Path, str] | None:
    """The file of definitions of a module, and what of the module's path is in the file."""
    parts = module.split(".")
    if len(parts) < 3 or parts[2] != "specs":
        return None
    for end in range(len(parts), 3, -1):
        path = (CRATES / parts[1] / "specs").joinpath(*parts[3:end]).with_suffix(".antt")
        if path.is_file():
            return path, ".".join(parts[end:])
    return None


def found_in(module: str, name: str) -> Unit | None:
    """The definition of a name of a module, or that of the type which the name is a variant of."""
    if not (found := file_of(module)):
        return None
    path, inner = found
    units = read_file(path).units
    return units.get(inner.split(".")[0]) if inner else units.get(name)


def unit_of(word: str, file: File) -> Unit | None:
    """The definition that a word of a file names."""
    first, _, rest = word.partition(".")
    if first in file.units:
        return file.units[first]
    module, name = file.imports.get(first, ("", ""))
    return found_in(module, name or rest.partition(".")[0])


def is_variant(word: str, file: File) -> bool:
    """Whether a word of a pattern is a variant of a type: another names what it stands for."""
    unit = unit_of(word, file)
    name = file.imports.get(word, ("", word))[1]
    return "." in word or bool(
        unit
        and "data " in unit.text
        and re.search(rf"^ +{re.escape(name)} : ", unit.text, re.MULTILINE)
    )


def tree_of(text: str) -> Tree:
    """The tokens of a text, with those in a pair of brackets in a tree of their own, after the first bracket."""
    open_trees: list[Tree] = [[]]
    for token in TOKEN.findall(text):
        if token in CLOSING and len(open_trees) > 1:
            open_trees.pop()
        elif token not in CLOSING:
            inner: Tree = [token]
            open_trees[-1].append(inner if token in OPENING else token)
            if token in OPENING:
                open_trees.append(inner)
    return open_trees[0]


def words_in(tree: Tree) -> Iterator[str]:
    """All words of a tree."""
    for item in tree:
        if isinstance(item, str):
            yield item
        else:
            yield from words_in(item)


def before(sign: str, tree: Tree) -> Tree:
    """What is before the first of a sign, which is all if there is none."""
    return tree[: tree.index(sign)] if sign in tree else tree


def after(sign: str, tree: Tree) -> Tree:
    """What is after the first of a sign, or all if there is none."""
    return tree[tree.index(sign) + 1 :] if sign in tree else tree


def bound_by(tree: Tree) -> set[str]:
    """The names to which a tree in brackets gives a type."""
    return set(words_in(before(":", tree))) if ":" in tree else set()


def terms_in(tree: Tree, is_record: bool) -> Iterator[Tree]:
    """The terms of a tree in brackets: the values of a record's fields, the type of names, or all of it."""
    sign = "=" if is_record else ":"
    while is_record and ";" in tree:
        field, tree = before(";", tree), tree[tree.index(";") + 1 :]
        yield after(sign, field)
    yield after(sign, tree)


def free_in(tree: Tree, bound: set[str]) -> Iterator[str]:
    """The words of a term that nothing in it binds: no parameter of a function, and no `let`."""
    bound = set(bound)
    binding = ""
    for place, item in enumerate(tree):
        if isinstance(item, list):
            for term in terms_in(item, tree[max(0, place - 1)] == "record"):
                yield from free_in(term, bound)
            bound |= bound_by(item)
        elif item in ("λ", "let"):
            binding = item
        elif binding:
            bound.add(item.rstrip("."))
            binding = "" if item == "=" or binding == "λ" and item.endswith(".") else binding
        elif item.partition(".")[0] not in bound:
            yield item


def free_words(text: str, file: File) -> Iterator[str]:
    """The words of a definition that it does not bind, an equation, a signature or a field at a time."""
    line = INNER_LINE if PARTED.match(text) else OUTER_LINE
    clauses = [tree_of(clause) for clause in line.split(text)]
    shared: set[str] = set()
    if TYPE.match(text):
        shared.update(*(bound_by(item) for item in clauses[0] if isinstance(item, list)))
    for tree in clauses:
        left = before("=", tree)
        if ":" not in left and len(left) < len(tree):
            variants = {word for word in words_in(left) if is_variant(word, file)}
            yield from variants
            yield from free_in(tree[len(left) :], shared | (set(words_in(left)) - variants))
        else:
            named = [item for item in before(":", tree) if isinstance(item, list)]
            yield from free_in([*named, *after(":", tree)], shared)
            shared |= set(words_in(tree[:2])) if RECORD.match(text) else set()


def named_in(words: Iterable[str], file: File) -> Iterator[Unit]:
    """The definitions that words of a file name."""
    return (unit for word in set(words) if (unit := unit_of(word, file)))


def believed(text: str, file: File) -> set[Unit]:
    """The definitions that a text rests on."""
    found: set[Unit] = set()
    waiting = list(named_in(words_in(tree_of(text)), file))
    while waiting:
        unit = waiting.pop()
        if unit not in found:
            found.add(unit)
            of_unit = read_file(unit.path)
            waiting += named_in(free_words(unit.text, of_unit), of_unit)
    return found


def clauses_of(crate: str, name: str, function: str) -> set[Unit]:
    """What the clauses of a function of a file rest on, or a definition of one of specs/."""
    if name.endswith(".antt"):
        module = f"Rattle.{crate}.specs." + name[: -len(".antt")].replace("/", ".")
        return believed(function, File({}, {function: (module, function)}))
    text = (CRATES / crate / "src" / name).read_text(encoding="utf-8")
    head = re.search(rf"fn {function}\b.*?^ *\{{", text, re.DOTALL | re.MULTILINE)
    if not head:
        raise SystemExit(f"{crate}/src/{name} has no function {function}")
    return believed(head.group(), File({}, imports_in(text)))


def lines_of(units: set[Unit]) -> int:
    """How many lines definitions have."""
    return sum(unit.text.count("\n") + 1 for unit in units)


def print_parts(units: set[Unit]) -> None:
    """Prints how much of each crate definitions are."""
    parts = collections.defaultdict(set)
    for unit in units:
        parts[unit.path.relative_to(CRATES).parts[0]].add(unit)
    for crate, own in sorted(parts.items(), key=lambda part: -lines_of(part[1])):
        print(f"{len(own):6,} {lines_of(own):7,}  {crate}")


def main(arguments: list[str]) -> int:
    """Prints the figures that are asked for."""
    if arguments and len(arguments) != 3:
        print(__doc__)
        return 2
    for crate, name, function in [tuple(arguments)] if arguments else HEADLINE:
        units = clauses_of(crate, name, function)
        print(f"{len(units):6,} {lines_of(units):7,}  {crate}::{function}")
        if arguments:
            print_parts(units)
    if not arguments:
        more = set().union(*(clauses_of(*it) for it in CONDITIONS)) - clauses_of(*HEADLINE[0])
        print(f"{len(more):6,} {lines_of(more):7,}  more by conditions, on a device")
    return 0


if __name__ == "__main__":
    raise SystemExit(main(sys.argv[1:]))
