"""Which functions the program and the C library reach, and what carries the claims of claims.txt.

The program begins at its `main`, and the library at what it exports. A function is reached if the
body of one that is reached calls it: `f(..)` any free function of that name, `x.f(..)` any in an
`impl` or a `trait`, and `T::f` those of the type `T`, or, where it has none, as `x.f(..)`. Only
crates count that the program or the library uses. A law has no parameters and an empty body: it is
about definitions alone, and nothing calls it.

So it is by the sources, where `x.f(..)` reaches an `f` of each type. Where the libraries are proved,
their compiled code tells the types: what a function names there is what it calls, a closure that it
makes, or an `impl` that it hands on, of which any function may then be called.
"""
from __future__ import annotations

import json
import re
from collections.abc import Iterable, Iterator
from dataclasses import dataclass
from pathlib import Path
from typing import Any

from tools.mutants import load_build

# The crates whose functions are called from outside, and the file and the names where that begins.
ROOTS = (
    ("cssq_cli", "src/main.rt", re.compile("main")),
    *(
        ("simplecss_c", f"src/{name}.rt", re.compile("simplecss_.*"))
        for name in "clean edits exports html inline lists pages queries sheets".split()
    ),
)

HEAD = re.compile(r"( *)(?:pub(?:\(crate\))? )?(?:extern \"C\" )?fn (\w+)")
OWNER = re.compile(
    r"(?:pub )?(?:impl|trait)\b(?:<[^{]*?>)? (?:(?:\w+::)*(\w+)[^{]*? for )?(?:&mut |&)?(\w+)"
)
CALLS = re.compile(r"(?:(\.)|\b([A-Z]\w*)(?:::<[^>]*>)?::|\b)([a-z_]\w*)(?=\(|::<|(?<=[A-Z]))")


@dataclass(frozen=True)
class Function:
    """A function: its crate, its file, the type or trait that it is of, the trait that it is of by its
    type, its name, its clauses after `ensures`, the lines of its body, and whether it is a law."""

    crate: str
    file: str
    owner: str
    by_trait: str
    name: str
    promises: str
    body: str
    is_law: bool


def spaced(text: str) -> str:
    """The text with one space for each blank."""
    return " ".join(text.split())


def promises_of(contract: Iterable[str]) -> str:
    """The clauses after `ensures` of the lines of a contract, without comments."""
    kept: list[str] = []
    is_promise = False
    for line in contract:
        word = line.split()[0] if line.split() else ""
        if word in ("requires", "ensures"):
            is_promise = word == "ensures"
        if is_promise and not word.startswith("//"):
            kept.append(line)
    return spaced("\n".join(kept))


def function_at(
    lines: list[str], at: int, crate: str, file: str, owner: tuple[str, str]
) -> Function | None:
    """The function that begins at a line, if one does; `owner` is its trait and its type."""
    head = HEAD.match(lines[at])
    if not head:
        return None
    indent, name = head[1], head[2]
    contract: list[str] = []
    end = at
    while not lines[end].endswith((" {", "{}", ";")) or contract:
        end += 1
        if lines[end] in (indent + "{", indent + "{}"):
            break
        if contract or lines[end].split()[0] in ("requires", "ensures"):
            contract.append(lines[end])
            if lines[end].endswith("};"):
                break
    start = end
    while lines[start].endswith("{") and lines[end] != indent + "}":
        end += 1
    body = "\n".join(line.split("//")[0] for line in lines[start + 1 : end])
    is_law = lines[at].endswith("()") and lines[start] == indent + "{}"
    by_trait, of_type = owner
    return Function(crate, file, of_type, by_trait, name, promises_of(contract), body, is_law)


def functions_of(top: Path, crate: str) -> Iterator[Function]:
    """The functions of a crate."""
    for path in sorted((top / "crates" / crate / "src").rglob("*.rt")):
        lines = path.read_text(encoding="utf-8").split("\n")
        owner = ("", "")
        for at, line in enumerate(lines):
            owned = OWNER.match(line)
            if owned:
                owner = (owned[1] or "", owned[2])
            elif line == "}":
                owner = ("", "")
            found = function_at(lines, at, crate, str(path.relative_to(top)), owner)
            if found:
                yield found


def used_by(top: Path, crate: str) -> set[str]:
    """The crate and those that it uses, however far below."""
    text = (top / "crates.txt").read_text(encoding="utf-8")
    uses = dict(line.split(":", 1) for line in text.splitlines() if ":" in line)
    below = {name.split()[0]: words.split() for name, words in uses.items()}
    found: set[str] = set()
    left = [crate]
    while left:
        name = left.pop()
        if name not in found and name in below:
            found.add(name)
            left += below[name]
    return found


def called(body: str, functions: list[Function]) -> Iterator[Function]:
    """The functions that a body calls."""
    for dot, owner, name in CALLS.findall(body):
        named = [function for function in functions if function.name == name]
        if owner:
            owned = [function for function in named if function.owner == owner]
            yield from owned or (function for function in named if function.owner)
        else:
            yield from (function for function in named if bool(function.owner) == bool(dot))


def reached(top: Path) -> set[Function]:
    """The functions that what is shipped reaches."""
    found: set[Function] = set()
    for crate, file, names in ROOTS:
        functions = [one for name in sorted(used_by(top, crate)) for one in functions_of(top, name)]
        start = f"crates/{crate}/{file}"
        left = [one for one in functions if one.file == start and names.fullmatch(one.name)]
        seen: set[Function] = set()
        while left:
            function = left.pop()
            if function not in seen:
                seen.add(function)
                left += called(function.body, functions)
        found |= seen
    return found


# The compiled code of a library: for each function its name, and the names that its body has of
# functions, and of an `impl`, with two colons after it.
Compiled = dict[str, frozenset[str]]


def names_in(value: object) -> Iterator[str]:
    """The names that the compiled code of a function has, as it was read as JSON. What it is itself
    a method of is not called."""
    left = [value]
    while left:
        item = left.pop()
        if isinstance(item, str):
            yield item
        elif isinstance(item, list):
            left += item
        elif isinstance(item, dict):
            left += [part for word, part in item.items() if word != "method_of"]
            if isinstance(item.get("Impl"), list):
                yield f"{item['Impl'][0]}::"


def read_compiled(code: str) -> Compiled:
    """Reads what a library holds as its compiled code."""
    return {name: frozenset(names_in(rest)) for name, *rest in json.loads(code)}


def compiled_below(top: Path) -> Compiled | None:
    """The compiled code of all libraries that the program and the C library use, if `./build` has
    proved them from the sources that are there."""
    build = load_build(top)
    try:
        kit = build.Kit()
    except build.Failed:
        return None
    known = build.read_crates()
    order = build.stamped([known[crate] for crate, _, _ in ROOTS], kit)
    libraries = [it for it in order if it.product.suffix == ".rlib"]
    if not all(it.is_fresh() for it in libraries):
        return None
    found: Compiled = {}
    for library in libraries:
        code = library.product / "toolchain/mir.json"
        found.update(read_compiled(code.read_text(encoding="utf-8")))
    return found


def named_from(start: Iterable[str], compiled: Compiled) -> set[str]:
    """The functions of compiled code that these reach, and they themselves."""
    of_impl: dict[str, list[str]] = {}
    for name in compiled:
        of_impl.setdefault(name.rpartition("::")[0] + "::", []).append(name)
    found: set[str] = set()
    left = list(start)
    while left:
        name = left.pop()
        if name in compiled and name not in found:
            found.add(name)
            for word in compiled[name]:
                left += [word, *of_impl.get(word, [])]
    return found


def compiled_names(function: Function, compiled: Compiled) -> list[str]:
    """The names that a function has in compiled code. A method of a trait has the name of the trait
    after that of its type; and one that the trait has itself, of its types."""
    module = re.sub(
        r"(^|/)(lib|main|mod)$", "", function.file.split("/src/")[1].removesuffix(".rt")
    )
    # The type of a method may stand in another module.
    of_trait = rf"{function.by_trait}\w*" if function.by_trait else ""
    path = rf"(\w+::)*{function.owner}{of_trait}" if function.owner else module.replace("/", "::")
    front = "::".join(filter(None, (function.crate, path)))
    form = re.compile(rf"{front}::{function.name}(\+\w+)?")
    return [name for name in compiled if form.fullmatch(name)]


def reached_by_type(top: Path, compiled: Compiled) -> set[Function]:
    """The functions that what is shipped reaches, by the types of what they are called on. What the
    crates of the roots call, their sources say alone."""
    found: set[Function] = set()
    for crate, file, names in ROOTS:
        functions = [one for name in sorted(used_by(top, crate)) for one in functions_of(top, name)]
        own = [one for one in functions if one.crate == crate]
        left = [
            one for one in own if one.file == f"crates/{crate}/{file}" and names.fullmatch(one.name)
        ]
        roots: set[Function] = set()
        beyond: set[Function] = set()
        while left:
            function = left.pop()
            if function.crate != crate:
                beyond.add(function)
            elif function not in roots:
                roots.add(function)
                left += called(function.body, functions)
        start = [name for one in beyond for name in compiled_names(one, compiled)]
        reached_names = named_from(start, compiled)
        found |= roots | {
            one for one in functions if reached_names.intersection(compiled_names(one, compiled))
        }
    return found


@dataclass(frozen=True)
class Claim:
    """A claim: its document, its words, and its carriers, each a file, a function and a clause."""

    document: str
    words: str
    carriers: tuple[tuple[str, str, str], ...]


def claims_of(text: str) -> Iterator[Claim]:
    """The claims of a text as tests/claims.txt."""
    for block in re.sub(r"^#.*\n", "", text, flags=re.MULTILINE).strip().split("\n\n"):
        first, *lines = block.split("\n")
        document, _, words = first.partition(": ")
        split = (line.strip().split(" ", 2) for line in lines)
        yield Claim(document, words, tuple((file, name, clause) for file, name, clause in split))


def fault_of(carrier: tuple[str, str, str], top: Path, shipped: set[Function]) -> str:
    """Why a carrier does not carry its claim, or nothing."""
    file, name, clause = carrier
    if file.endswith(".antt"):
        laws = (one for one in functions_of(top, file.split("/")[1]) if one.is_law)
        if not any(re.search(rf"\b{name}\b", one.promises) for one in (*shipped, *laws)):
            return f"no contract that is reached names {name}"
        text = spaced((top / file).read_text(encoding="utf-8"))
        return "" if spaced(clause) in text else f"{file} has no {clause!r}"
    crate = file.split("/")[1]
    named = [one for one in functions_of(top, crate) if (one.file, one.name) == (file, name)]
    holding = [one for one in named if spaced(clause) in one.promises]
    if not holding:
        return f"{name} of {file} does not ensure {clause!r}"
    if not any(one.is_law or one in shipped for one in holding):
        return f"the program and the C library do not reach {name} of {file}"
    return ""
