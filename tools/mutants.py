#!/usr/bin/env python3
"""Tries wrong bodies: each edit `crates/CRATE/mutants/*.edit` is a mistake that the prover must
refuse.

  tools/mutants.py CRATE..     tries the edits of these crates
  tools/mutants.py --of-day    tries those of two crates, which the date of the last commit chooses
  tools/mutants.py --list      names the crates that have edits, and how many
  tools/mutants.py --said CRATE..   tries edits, and shows what the prover says
  tools/mutants.py --follow    moves edits whose texts stand in another file or crate now

A function is proved against the contracts of those that it calls, so one check of a crate tries one
edit in each of many functions. Functions that call one another have one proof, and count as one.
There is another check where several edits are in one function, or where a function only calls one
that is not proved, and so shows no fault of its own.

Checks are made on a copy of the crate. The libraries below it are those that ./build has proved, or
that `rt check` left in crates/*/out; a check begins with what `rt check` kept of the crate.

An edit is a file as in must-fail/: a line 'file: src/PATH', then pairs of lines 'old: TEXT', which
is in the file once, and 'new: TEXT'. A line for each edit says what came of it. One that is still
proved, or that cannot be made, read or compiled, fails; the status is then 1. The last line has the
counts.
"""

from __future__ import annotations

import dataclasses
import importlib.machinery
import importlib.util
import os
import re
import shutil
import subprocess
import sys
import tempfile
from collections.abc import Iterator, Sequence
from pathlib import Path
from typing import Any

TOP = Path(__file__).resolve().parent.parent
CRATES = TOP / "crates"
# What is of a crate beside what is made of it.
PARTS = ("src", "specs", "proofs")
HEAD = re.compile(r"( *)(?:pub(?:\([a-z]+\))? )?(?:const )?(?:extern \"C\" )?fn (\w+)")
OWNER = re.compile(
    r"(?:pub )?(?:impl|trait)\b(?:<[^{]*?>)? (?:(?:\w+::)*(\w+)[^{]*? for )?(?:&mut |&)?(\w+)"
)
CYCLE = re.compile(r" *#\[cycle\((\w+)\)\]")
WORDS = r"\w*"
# What the prover says of a function, and the reasons that are none of its own.
VERDICT = re.compile(r"^fn (\S+): (proved|not proved|no proof|could not tell)(.*)$", re.MULTILINE)
OF_OTHERS = re.compile(r"expected answers in \S+|it calls .*, which (?:is|are) not proved")
REFUSED = "refused"


class Fault(Exception):
    """Why an edit cannot be tried."""


@dataclasses.dataclass(frozen=True)
class Edit:
    """An edit of a crate: where it stands, and its replacements, each a file and two texts."""

    path: Path
    pairs: tuple[tuple[str, str, str], ...]

    @property
    def name(self) -> str:
        """How the edit is named."""
        return f"{self.path.parent.parent.name}/{self.path.stem}"


@dataclasses.dataclass(frozen=True)
class Function:
    """A function: the words for `--only`, how the prover may name it, and the name of the proof that
    it has alone or with those that it calls and that call it."""

    only: str
    named: str
    proof: str


def read_edit(path: Path) -> Edit:
    """Reads an edit."""
    file, old, pairs = "", "", []
    for line in path.read_text(encoding="utf-8").splitlines():
        word, _, text = line.partition(":")
        text = text.removeprefix(" ")
        if word == "file":
            file = text.strip()
        elif word == "old":
            old = text
        elif word == "new":
            if not file.startswith(tuple(f"{part}/" for part in PARTS)) or ".." in file or not old:
                raise Fault(
                    "a line 'new:' has no file of src/, specs/ or proofs/ or no text before it"
                )
            pairs.append((file, old, text))
            old = ""
    if not pairs:
        raise Fault("it has no pair of lines 'old:' and 'new:'")
    return Edit(path, tuple(pairs))


def apply(edit: Edit, folder: Path, texts: dict[str, str]) -> dict[str, str]:
    """Returns these texts of a crate's files, and those that an edit changes, as it leaves them."""
    changed = dict(texts)
    for file, old, new in edit.pairs:
        if file not in changed:
            path = folder / file
            if not path.is_file():
                raise Fault(f"there is no file {file}")
            changed[file] = path.read_text(encoding="utf-8")
        found = changed[file].count(old)
        if found != 1:
            raise Fault(f"an 'old:' text is in {file} {found} times, and not once")
        changed[file] = changed[file].replace(old, new)
    if changed == texts:
        raise Fault("it changes nothing")
    return changed


def module_of(file: str) -> str:
    """Returns the path of the module that a file of src/ is."""
    parts = list(Path(file).with_suffix("").parts[1:])
    if parts[-1] in ("lib", "main", "mod"):
        parts.pop()
    return "::".join(parts)


def function_at(file: str, text: str, line: int) -> Function:
    """Returns the function that has a line, counted from 0, of a file of src/."""
    lines = text.split("\n")
    at = next((it for it in range(line, -1, -1) if HEAD.match(lines[it])), None)
    if at is None:
        raise Fault(f"no function of {file} has the text")
    head = HEAD.match(lines[at])
    assert head
    module, name = module_of(file), head[2]
    above = (
        next((lines[it] for it in range(at, -1, -1) if OWNER.match(lines[it])), "")
        if head[1]
        else ""
    )
    owner = OWNER.match(above)
    if not owner:
        only = "::".join(filter(None, (module, name)))
        named = re.escape(only)
    else:
        # The type may stand in another module. A trait's name follows that of the type, and its
        # arguments that; where it has some, all functions of the module are asked for.
        trait, of_type = owner[1] or "", owner[2]
        has_arguments = bool(trait) and f"{trait}<" in above
        only = module if has_arguments else f"{of_type}{trait}::{name}"
        named = rf"(?:\w+::)*{of_type}{trait}{WORDS if has_arguments else ''}::{name}"
    before = next(
        (it for it in range(at - 1, -1, -1) if not lines[it].lstrip().startswith(("#", "//"))), -1
    )
    cycles = [found[1] for it in lines[before + 1 : at] if (found := CYCLE.match(it))]
    return Function(only, named, f"cycle {module} {cycles[0]}" if cycles else named)


def functions_of(edit: Edit, texts: dict[str, str]) -> list[Function]:
    """Returns the functions that an edit changes, by the texts before it."""
    found: list[Function] = []
    for file, old, _ in edit.pairs:
        if file.startswith("src/"):
            text = texts[file]
            before = text[: text.find(old) + len(old) - len(old.lstrip())] if old in text else ""
            found.append(function_at(file, text, before.count("\n")))
    if not found:
        raise Fault("it changes no file of src/")
    return list(dict.fromkeys(found))


def load_build(top: Path = TOP) -> Any:
    """Returns the script `build` of a checkout as a module: what a crate is built from, and with which words."""
    loader = importlib.machinery.SourceFileLoader("build_script", str(top / "build"))
    spec = importlib.util.spec_from_loader(loader.name, loader)
    assert spec
    build = importlib.util.module_from_spec(spec)
    sys.modules[loader.name] = build
    loader.exec_module(build)
    return build


def is_left(library: Any, place: Path) -> bool:
    """Whether `rt` has left a library there after the last change of its files. It may be the one of
    another checkout, so what counts is when it came to be there."""
    made = place / "format"
    if not made.exists():
        return False
    return all(it.stat().st_mtime <= made.stat().st_ctime for it in library.files())


def linked(name: str, folder: Path, build: Any, kit: Any) -> Any:
    """Returns a crate whose libraries stand in a folder, as links to those that were proved: all by
    ./build, or all by `rt`, since a library is of use only with those that it was proved over."""
    proved = build.read_crates()[name]
    crate = build.read_crates(build.Place(folder, folder))[name]
    below = build.stamped([proved], kit)[:-1]
    is_built = all(it.is_fresh() for it in below)
    for library in below:
        place = library.folder / f"out/rlib/{library.name}.rlib"
        if not is_built and not is_left(library, place):
            why = f"the library {library.name} is not proved"
            raise Fault(f"{why}: rt check in crates/{name} proves it")
        (folder / f"{library.name}.rlib").symlink_to(library.product if is_built else place)
    return crate


class Bench:
    """A crate to try edits on: a copy of it, the libraries below it, and what checks have kept."""

    shows = False

    def __init__(self, name: str, room: Path, build: Any, kit: Any) -> None:
        self.name, self.room, self.kit = name, room, kit
        (room / "libraries").mkdir()
        self.crate = linked(name, room / "libraries", build, kit)
        self.kept = room / "kept"
        begun = self.crate.folder / "out/incremental"
        if begun.is_dir():
            # A check replaces such a file, and changes none.
            shutil.copytree(begun, self.kept, copy_function=link_or_copy)
        self.kept.mkdir(exist_ok=True)

    def check(self, texts: dict[str, str], functions: Sequence[Function]) -> str:
        """Returns what the prover says of these functions where files of the crate have these texts."""
        copy = self.room / "copy"
        shutil.rmtree(copy, ignore_errors=True)
        for part in PARTS:
            if (self.crate.folder / part).is_dir():
                shutil.copytree(self.crate.folder / part, copy / part)
        for file, text in texts.items():
            (copy / file).write_text(text, encoding="utf-8")
        words = [self.kit.folder / "bin/rattle", *self.crate.words(self.kit, "check")]
        for only in dict.fromkeys(function.only for function in functions):
            words += ["--only", only]
        words += ["--incremental", self.kept]
        done = subprocess.run(
            list(map(str, words)),
            cwd=copy,
            stdin=subprocess.DEVNULL,
            stdout=subprocess.PIPE,
            stderr=subprocess.STDOUT,
            text=True,
            errors="replace",
            check=False,
        )
        if self.shows:
            print(done.stdout)
        return done.stdout


def link_or_copy(one: str, other: str) -> str:
    """Gives a file a second name, or copies it."""
    try:
        os.link(one, other)
    except OSError:
        shutil.copy2(one, other)
    return other


def outcome_of(functions: Sequence[Function], crate: str, said: str) -> str | None:
    """Returns what came of an edit of these functions: that it is refused, that it is not and why, or
    nothing where its functions are only said to call one that is not proved."""
    states: list[tuple[str, str]] = []
    for function in functions:
        form = re.compile(rf"{crate}::{function.named}")
        states += [(it[2], it[3]) for it in VERDICT.finditer(said) if form.fullmatch(it[1])]
    if not states:
        return "the prover does not name the function: it was not tried"
    for state, why in states:
        reasons = why.removeprefix(":").strip().split("; ")
        own = [it for it in reasons if it and not OF_OTHERS.fullmatch(it)]
        if state in ("no proof", "not proved") and (own or not why):
            return REFUSED
    if all(state == "proved" for state, _ in states):
        return "PROVED: its contract lets the mistake through"
    return None if any(why for _, why in states) else "the prover could not tell"


def fault_lines(said: str) -> Iterator[tuple[str, int, str]]:
    """The lines of what does not compile: the file, the line from 0, and what is said."""
    for file, line, what in re.findall(r"^(src/\S+?):(\d+):\d+: (error\[.*)", said, re.MULTILINE):
        yield file, int(line) - 1, what


def try_round(bench: Bench, edits: Sequence[Edit]) -> dict[Edit, str]:
    """Tries as many edits as one check can, and returns what came of those that it tells of."""
    texts: dict[str, str] = {}
    chosen: dict[Edit, list[Function]] = {}
    found: dict[Edit, str] = {}
    taken: set[str] = set()
    folder = bench.crate.folder
    for edit in edits:
        try:
            apply(edit, folder, {})
            before = {
                file: (folder / file).read_text(encoding="utf-8") for file, _, _ in edit.pairs
            }
            functions = functions_of(edit, before)
        except Fault as why:
            found[edit] = str(why)
            continue
        proofs = {function.proof for function in functions}
        if not taken & proofs:
            try:
                texts = apply(edit, folder, texts)
            except Fault:
                continue
            chosen[edit] = functions
            taken |= proofs
    if not chosen:
        return found
    said = bench.check(texts, [one for functions in chosen.values() for one in functions])
    if re.search(r"^only=\d+ proved=\d+", said, re.MULTILINE):
        for edit, functions in chosen.items():
            outcome = outcome_of(functions, bench.name, said)
            if outcome:
                found[edit] = outcome
    else:
        found.update(not_compiled(chosen, texts, said))
    if not found:
        found = dict.fromkeys(chosen, f"no verdict: {(said.splitlines() or [''])[-1]}")
    return found


def not_compiled(
    chosen: dict[Edit, list[Function]], texts: dict[str, str], said: str
) -> dict[Edit, str]:
    """Returns the edits in whose functions something does not compile, and what."""
    found: dict[Edit, str] = {}
    for file, line, what in fault_lines(said):
        at = function_at(file, texts[file], line) if file in texts else None
        for edit, functions in chosen.items():
            if at in functions:
                found.setdefault(edit, f"it does not compile: {what}")
    return found


def edits_of(crate: str) -> list[Path]:
    """The files of a crate's edits."""
    return sorted((CRATES / crate / "mutants").glob("*.edit"))


def crates_with_edits() -> list[str]:
    """The crates that have edits."""
    return sorted({it.parent.parent.name for it in CRATES.glob("*/mutants/*.edit")})


def try_crate(crate: str) -> Iterator[tuple[str, str]]:
    """Tries the edits of a crate. Gives the name of each, and what came of it."""
    left: list[Edit] = []
    for path in edits_of(crate):
        try:
            left.append(read_edit(path))
        except Fault as why:
            yield f"{crate}/{path.stem}", str(why)
    build = load_build()
    with tempfile.TemporaryDirectory(prefix="mutants-") as room:
        try:
            bench = Bench(crate, Path(room), build, build.Kit())
        except (Fault, build.Failed) as why:
            for edit in left:
                yield edit.name, f"not tried: {why}"
            return
        while left:
            found = try_round(bench, left)
            for edit, outcome in found.items():
                yield edit.name, outcome
            left = [edit for edit in left if edit not in found]


def places_of(part: str, name: str, old: str) -> list[Path]:
    """The files of src/, specs/ or proofs/ of any crate that have a text once: those of a name, if
    one has it."""
    files = [it for it in CRATES.glob(f"*/{part}/**/*") if it.suffix in (".rt", ".antt")]
    found = [it for it in files if it.read_text(encoding="utf-8").count(old) == 1]
    return [it for it in found if it.name == name] or found


def follow(path: Path) -> Path:
    """Moves an edit to where the texts of its files stand now, and returns where that is."""
    edit, text = read_edit(path), path.read_text(encoding="utf-8")
    crates = set()
    for file in dict.fromkeys(file for file, _, _ in edit.pairs):
        old = next(old for other, old, _ in edit.pairs if other == file)
        here = path.parent.parent / file
        if here.is_file() and here.read_text(encoding="utf-8").count(old) == 1:
            found = [here]
        else:
            found = places_of(file.split("/")[0], Path(file).name, old)
        if len(found) != 1:
            raise Fault(f"{len(found)} files have the text of {file}")
        crate, *rest = found[0].relative_to(CRATES).parts
        crates.add(crate)
        text = text.replace(f"file: {file}\n", f"file: {'/'.join(rest)}\n")
    if len(crates) != 1:
        raise Fault(f"its texts are in {len(crates)} crates")
    to = CRATES / crates.pop() / path.parent.name / path.name
    to.parent.mkdir(exist_ok=True)
    path.rename(to)
    to.write_text(text, encoding="utf-8")
    return to


def follow_all() -> int:
    """Moves all edits to where their texts stand now. Returns how many cannot be."""
    left = 0
    for path in sorted([*CRATES.glob("*/mutants/*.edit"), *CRATES.glob("*/must-fail/*.edit")]):
        before = path.read_text(encoding="utf-8")
        try:
            to = follow(path)
        except Fault as why:
            left += 1
            print(f"{path.relative_to(CRATES)}: {why}")
        else:
            if to != path or to.read_text(encoding="utf-8") != before:
                print(f"{path.relative_to(CRATES)}: {to.relative_to(CRATES)}")
    return left


def of_day(crates: Sequence[str], day: int) -> list[str]:
    """Two of the crates by the number of a day: in turn, so that each has its day."""
    return [crates[(2 * day + it) % len(crates)] for it in range(min(2, len(crates)))]


def crates_of_day(crates: Sequence[str]) -> list[str]:
    """Two of the crates by the day of the last commit."""
    words = ["git", "-C", str(TOP), "log", "-1", "--format=%ct"]
    done = subprocess.run(words, stdout=subprocess.PIPE, text=True, check=False)
    return of_day(crates, int(done.stdout or 0) // 86400)


def main(words: list[str]) -> int:
    """Tries the edits that the words name."""
    known = crates_with_edits()
    if words == ["--list"]:
        for crate in known:
            print(f"{crate} {len(edits_of(crate))}")
        return 0
    if words == ["--follow"]:
        return 1 if follow_all() else 0
    Bench.shows = words[:1] == ["--said"]
    words = words[Bench.shows :]
    crates = crates_of_day(known) if words == ["--of-day"] else words
    if not crates or not set(crates) <= set(known):
        print(
            __doc__ if not crates else f"no edits: {' '.join(set(crates) - set(known))}",
            file=sys.stderr,
        )
        return 2
    refused = failed = 0
    for crate in crates:
        for name, outcome in try_crate(crate):
            refused, failed = refused + (outcome == REFUSED), failed + (outcome != REFUSED)
            print(f"{name}: {outcome}", flush=True)
    print(f"{refused} refused, {failed} not")
    return 1 if failed else 0


if __name__ == "__main__":
    sys.exit(main(sys.argv[1:]))
