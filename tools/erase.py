#!/usr/bin/env python3
"""Writes the proved sources as a crate of Rust, by leaving out what only a prover reads.

  tools/erase.py DIR          the crate `simplecss`, with its Cargo.toml, in place of that of others
  tools/erase.py --publish DIR    the same sources as a crate of a name of its own
  tools/erase.py --c DIR      the C library as a crate: `cargo build --release` makes libsimplecss

What is left out is listed here, and any other construct that Rust does not have is refused, with
its file and line, here or by rustc. Nothing that runs is changed but three things: a formatter has no
type parameter, since Rust's has none; paths begin with the module that the erased crate has become;
and what `CHANGED` names, which on a target of 64 bits changes how objects are dropped, and nothing
else. The names of Rattle's `std` are those of `release/rust/src/rattle_std`.
"""

from __future__ import annotations

import json
import re
import shutil
import sys
from pathlib import Path
from typing import Dict, List, NamedTuple, Tuple

TOP = Path(__file__).resolve().parent.parent
sys.path.insert(0, str(TOP))

from tools import metadata

# The names of Rattle's libraries over Rust's, which each package has.
SHARED = TOP / "release/rust/src"


class Package(NamedTuple):
    """A package: the folder with what is written by hand, and the crates that it has with all that
    these use."""

    parts: Path
    crates: Tuple[str, ...]
    # Single sources of other crates, and those that are there with the feature `modern` alone.
    sources: Tuple[str, ...] = ()
    modern_sources: Tuple[str, ...] = ()
    # Crates that are there with this feature alone.
    modern: Tuple[str, ...] = ()
    # What is copied beside the manifest.
    texts: Tuple[Path, ...] = ()


# fmt: off
RUST = Package(TOP / "release/rust", ("simplecss", "simplecss_tree"), ("cssq/src/cascade.rt",),
               ("sheet_calls/src/functions.rt",),
               ("css_styles", "css_explain", "css_values", "css_conditions", "css_lint", "html_calls",
                "html_encodings", "css_clean", "css_edits", "css_inline"))
# fmt: on
HEADERS = (TOP / "include/simplecss.h", TOP / "include/simplecss.hpp")
LIBRARY = Package(TOP / "release/c/crate", ("simplecss_c",), texts=HEADERS)
# The libraries of Rattle besides `std` whose names are there over Rust's, or that only proofs use.
LIBRARIES = ("log", "memchr", "std_alloc")
# Attributes that stay, and that go. Of derived traits, `Drop` says only that a value may be
# dropped.
# fmt: off
KEPT_ATTRIBUTES = (
    "derive", "inline", "cold", "must_use", "allow", "doc", "rustfmt", "repr", "unsafe",
)
# fmt: on
DROPPED_ATTRIBUTES = ("tactic", "cycle")
DERIVED = ("Clone", "Copy", "Debug", "Default", "Eq", "Hash", "Ord", "PartialEq", "PartialOrd")
CLAUSES = ("requires", "ensures", "decreases")
# What is changed, by the source. For targets of 32 bits: a product stays one of 64 bits, and a text
# that is read has a greatest length. Of objects: Rust drops a value where it lies, and Rattle takes
# it.
CHANGED = {
    "css_matching/hashes.rs": {
        "(number_of(text).wrapping_mul(0x9E37_79B9_7F4A_7C15) >> 32)": (
            "((number_of(text) as u64).wrapping_mul(0x9E37_79B9_7F4A_7C15) >> 32) as usize"
        ),
    },
    "css_text/stream.rs": {
        "Stream { text, pos: 0 }": "Stream { text: crate::within(text), pos: 0 }",
    },
    "kept_lists/list.rs": {
        "fn drop(self)": "fn drop(&mut self)",
        """let KeptList {
            grammar: _grammar,
            kept,
            alloc,
        } = self;""": "let (kept, alloc) = (self.kept.take(), self.alloc);",
    },
    "kept_lists/handle.rs": {
        "fn drop(self)": "fn drop(&mut self)",
        "drop(self.into_box())": (
            "drop(core::mem::replace(self, ListHandle::none(self.alloc)).into_box())"
        ),
        "let ListHandle { at, alloc } = self;": (
            "let ListHandle { at, alloc } = *core::mem::ManuallyDrop::new(self);"
        ),
    },
    "kept_sheets/handle.rs": {
        "fn drop(self)": "fn drop(&mut self)",
        "drop(self.into_box())": (
            "drop(core::mem::replace(self, SheetHandle::none(self.alloc)).into_box())"
        ),
        "let SheetHandle { at, alloc } = self;": (
            "let SheetHandle { at, alloc } = *core::mem::ManuallyDrop::new(self);"
        ),
    },
    "kept_pages/page.rs": {
        "fn drop(self)": "fn drop(&mut self)",
        """let KeptPage {
            kind: _kind,
            kept,
            alloc,
        } = self;""": "let (kept, alloc) = (self.kept.take(), self.alloc);",
    },
    "kept_pages/handle.rs": {
        "fn drop(self)": "fn drop(&mut self)",
        "drop(self.into_box())": (
            "drop(core::mem::replace(self, PageHandle::none(self.alloc)).into_box())"
        ),
        "let PageHandle { at, alloc } = self;": (
            "let PageHandle { at, alloc } = *core::mem::ManuallyDrop::new(self);"
        ),
    },
    "kept_queries/query.rs": {
        "fn drop(self)": "fn drop(&mut self)",
        "let KeptQuery { kept, alloc } = self;": "let (kept, alloc) = (self.kept.take(), self.alloc);",
    },
    "kept_queries/handle.rs": {
        "fn drop(self)": "fn drop(&mut self)",
        "drop(self.into_box())": (
            "drop(core::mem::replace(self, QueryHandle::none(self.alloc)).into_box())"
        ),
        "let QueryHandle { at, alloc } = self;": (
            "let QueryHandle { at, alloc } = *core::mem::ManuallyDrop::new(self);"
        ),
    },
}
TOKEN = re.compile(
    r"""(?P<comment>//[^\n]*)
    |(?P<raw>b?r(?P<hashes>\#*)".*?"(?P=hashes))
    |(?P<string>b?"(?:[^"\\]|\\.)*")
    |(?P<char>b?'(?:\\u\{[^}]*\}|\\x..|\\.|[^'\\\n])')
    |(?P<lifetime>'[A-Za-z_]\w*)
    |(?P<attribute>\#!?\[)
    |(?P<word>[A-Za-z_]\w*)
    |(?P<space>\s+)
    |(?P<other>.)""",
    re.X | re.S | re.A,
)
# After `ghost`: an import, a stated item, or the value of one.
GHOST_USE = re.compile(r"\s+use\s[^;]*;")
GHOST_ITEM = re.compile(r"\s+\w+\s*[:=]\s*(?=\{)", re.A)
CLAUSE = re.compile(r"(?:\s*\*)?(?:\s+\w+)?\s*(?=\{)", re.A)
DOCUMENTATION = re.compile(r"(?:[ \t]*///[^\n]*\n)+[ \t]*\Z")
# What stands between a function's head and a clause: comments on clauses.
BODY = re.compile(r"\s*([;{])")
REMARKS = re.compile(r"(?:\s*//(?![/!])[^\n]*(?=\n)|\s)*\Z")


class Unknown(Exception):
    """A construct that is neither left out nor Rust."""


class Eraser:
    """What is left of one source."""

    def __init__(self, path: Path) -> None:
        self.path, self.text, self.at, self.out = path, path.read_text(encoding="utf-8"), 0, ""

    def refuse(self, what: str) -> Unknown:
        """Returns the error at the place that is read."""
        line = self.text.count("\n", 0, self.at) + 1
        return Unknown(f"{self.path.relative_to(TOP)}:{line}: erase.py does not know {what}")

    def skip_group(self, start: int, closing: str) -> int:
        """Returns where the group ends that opens at an index; texts and comments in it are
        skipped."""
        opening, depth, at = self.text[start], 0, start
        while at < len(self.text):
            found = TOKEN.match(self.text, at)
            assert found
            depth += (found.group() == opening) - (found.group() == closing)
            at = found.end()
            if depth == 0:
                return at
        raise self.refuse(f"a group that {closing} does not close")

    def drop_before(self) -> None:
        """Drops what belongs to an item that is left out: its documentation, and that it is
        public."""
        self.out = re.sub(r"\bpub(\([a-z]+\))?\s+\Z", "", self.out)
        self.out = DOCUMENTATION.sub("", self.out)

    def skip_ghost(self) -> None:
        """Skips an item after the word `ghost`."""
        self.drop_before()
        found = GHOST_USE.match(self.text, self.at)
        if not found:
            found = GHOST_ITEM.match(self.text, self.at)
            if not found:
                raise self.refuse("this form of `ghost`")
            end = self.skip_group(found.end(), "}")
            # By which code the logic stores a value of its type.
            found = re.compile(r"\s*by\s+(?=\{)").match(self.text, end)
            if found:
                end = self.skip_group(found.end(), "}")
            found = re.compile(r"\s*[;,]|(?=\s*[})])").match(self.text, end)
            if not found:
                raise self.refuse("what follows an item of `ghost`")
        self.at = found.end()

    def read_attribute(self, start: int) -> None:
        """Copies an attribute, or leaves it out."""
        end = self.skip_group(self.text.index("[", start), "]")
        text, self.at = self.text[start:end], end
        name = re.match(r"#!?\[\s*(\w+)", text)
        if name and name[1] in DROPPED_ATTRIBUTES:
            return
        if not name or name[1] not in KEPT_ATTRIBUTES:
            self.at = start
            raise self.refuse(f"the attribute {text}")
        if name[1] == "derive":
            names = [it.strip() for it in text[text.index("(") + 1 : text.rindex(")")].split(",")]
            names = [it for it in names if it not in ("Drop", "")]
            for it in names:
                if it not in DERIVED:
                    raise self.refuse(f"the derived trait {it}")
            text = f"#[derive({', '.join(names)})]" if names else ""
        self.out += text

    def read(self) -> str:
        """Returns what is left of the source."""
        while self.at < len(self.text):
            found = TOKEN.match(self.text, self.at)
            assert found
            start, kind, self.at = self.at, found.lastgroup, found.end()
            if kind == "attribute":
                self.read_attribute(start)
            elif found.group() == "ghost":
                self.skip_ghost()
            elif found.group() in CLAUSES:
                clause = CLAUSE.match(self.text, self.at)
                if not clause:
                    raise self.refuse(f"this form of `{found.group()}`")
                self.at = self.skip_group(clause.end(), "}")
                self.out = REMARKS.sub("", self.out)
                body = BODY.match(self.text, self.at)
                if body:
                    self.out += " " * (body[1] == "{")
                    self.at = body.start(1)
            elif (
                kind == "other" and not found.group().isascii() or self.text.startswith("/*", start)
            ):
                raise self.refuse(f"`{self.text[start:start + 2]}`")
            else:
                self.out += found.group()
        return self.out


def without_writers(text: str, path: Path) -> str:
    """Gives functions Rust's formatter, which has no type of where it writes."""
    names = r"(fn \w+<)((?:'\w+, )*)W: (?:fmt::)?Write((?:, [^>]*)?>)"
    head = re.compile(names + r"(\((?:[^()]|\([^()]*\))*?\bFormatter)<W>")
    text = head.sub(lambda it: f"{it[1]}{it[2]}{it[3].removeprefix(', ')}{it[4]}<'_>", text)
    text = re.sub(r"(fn \w+)<>", r"\1", re.sub(r"(fn \w+<[^<>]*), >", r"\1>", text))
    if re.search(r"Formatter<W>", text):
        raise Unknown(f"{path.relative_to(TOP)}: erase.py does not know this use of Formatter<W>")
    return text


def without_examples(text: str) -> str:
    """Leaves out of the documentation what is of Rattle: blocks of code, and paragraphs that name
    definitions."""
    out: List[str] = []
    for block in re.split(r"(?m)((?:^[ \t]*//[/!].*\n)+)", text):
        mark = re.match(r"[ \t]*//[/!]", block)
        if not mark or not block.endswith("\n"):
            out.append(block)
            continue
        lines = [it.strip()[3:].removeprefix(" ") for it in block.splitlines()]
        joined = re.sub(r"(?ms)^```.*?^```$", "```", "\n".join(lines))
        parts = [it for it in joined.split("\n\n") if it.strip()]
        kept = [it for it in parts if not re.search(r"```|<!-- |Rattle|specs/|\brt;", it)]
        kept = [it[:-1] + "." if it.endswith(":") else it for it in kept]
        rows = "\n\n".join(kept).split("\n")
        out.append("".join(f"{mark[0]} {row}".rstrip() + "\n" for row in rows) if kept else "")
    return "".join(out)


def erased(path: Path) -> str:
    """Returns a source as Rust, with its own paths."""
    text = without_examples(without_writers(Eraser(path).read(), path))
    if re.search(r"&&\s*let\b|\b(if|while) let\b[^{;]*&&", text):
        raise Unknown(f"{path.relative_to(TOP)}: a condition with `let` and `&&` needs Rust 1.88")
    # A bound that every type meets.
    text = re.sub(r"(?<!\bimpl )\bDrop\b", "Sized", text)
    return re.sub(r"\n\s*\n(\s*\n)+", "\n\n", re.sub(r"[ \t]+\n", "\n", text))


def with_twins(text: str) -> str:
    """Adds to each structure of slices and numbers that C passes one with pointers and lengths, as
    Rattle lays it out."""
    head = re.compile(r"#\[repr\(C\)\]\n(?:#\[derive[^\n]*\n)?pub struct (\w+)<'\w+> \{([^}]*)\}\n")

    def twin(found: "re.Match[str]") -> str:
        parts, read = "", ""
        for name, of, item in re.findall(r"pub (\w+): (&'\w+ \[(\w+)\]|usize),", found[2]):
            is_slice = of != "usize"
            parts += f"    {name}: *const {item},\n    {name}_len: usize,\n" if is_slice else ""
            parts += "" if is_slice else f"    {name}: usize,\n"
            value = f"unsafe {{ crate::read(self.{name}, self.{name}_len) }}"
            read += f"            {name}: {value if is_slice else f'self.{name}'},\n"
        return (
            f"{found[0]}\n#[repr(C)]\npub struct {found[1]}InC {{\n{parts}}}\n"
            f"\nimpl {found[1]}InC {{\n    pub unsafe fn read<'a>(&self) -> {found[1]}<'a> {{\n"
            f"        {found[1]} {{\n{read}        }}\n    }}\n}}\n"
        )

    return head.sub(twin, text)


def with_pointers(text: str) -> str:
    """Returns a source whose exported functions take a slice as a pointer and a length, as Rattle's
    do, and structures of slices likewise."""
    head = re.compile(r'pub extern "C" fn (\w+)\(([^)]*)\)( -> u32)? \{\n')

    def exported(found: "re.Match[str]") -> str:
        parameters, lines = [], []
        for name, _, kind in (
            it.strip().partition(": ") for it in found[2].split(",") if it.strip()
        ):
            is_changed = kind.startswith("&mut [")
            if kind == "Global":
                lines.append(f"let {name} = Global;")
            elif kind.startswith("&[") or is_changed:
                item = kind[kind.index("[") + 1 : -1]
                parameters += [
                    f"{name}: *{'mut' if is_changed else 'const'} {item}",
                    f"{name}_len: usize",
                ]
                lines.append(
                    f"let {name} = unsafe {{ crate::{'filled' if is_changed else 'read'}({name},"
                    f" {name}_len) }};"
                )
            elif kind.endswith("<'_>"):
                word = kind[1:-4]
                place = re.search(rf"use ([\w:]*::)(?:{word}|{{[^}}]*\b{word}\b[^}}]*}});", text)
                parameters.append(f"{name}: &{place and place[1]}{word}InC")
                lines.append(f"let {name} = &unsafe {{ {name}.read() }};")
            else:
                parameters.append(f"{name}: {kind}")
        return (
            f'pub extern "C" fn {found[1]}({", ".join(parameters)}){found[3] or ""} {{\n    '
            + "\n    ".join(lines)
            + "\n"
        )

    return head.sub(exported, with_twins(text)).replace("#[unsafe(no_mangle)]", "#[no_mangle]")


def placed(text: str, crate: str, crates: List[str]) -> str:
    """Returns a source whose paths are those in the package, with the names that Rattle has
    everywhere."""
    text = re.sub(r"(?<![\w:])std::", "crate::rattle_std::", text)
    text = re.sub(r"(?<![\w:$])crate::(?!rattle_std::)", f"crate::erased::{crate}::", text)
    text = re.sub(rf"(?<![\w:$])({'|'.join(crates)})::", r"crate::erased::\1::", text)
    text = re.sub(r"(?<![\w:$])log::", "crate::rattle_log::", text)
    text = re.sub(r"\.(to_ascii_lowercase|to_string)\(((?:\w+\.)?alloc)\)", r".\1_in(\2)", text)
    text = re.sub(r"\.join\(((?:\w+\.)?alloc), ", r".join_in(\1, ", text)
    # Older versions of Rust have it as an unstable method: the name of `rattle_std` is another one.
    text = text.replace(".trim_ascii()", ".without_spaces_around()")
    text = re.sub(r"\bformat!\(in ", "crate::rattle_std::string::format_in!(", text)
    text = re.sub(r"\bvec!\[in ", "crate::rattle_std::vec::vec_in![", text)
    lines = text.split("\n")
    head = 0
    while lines[head].startswith(("//!", "#![")) or not lines[head].strip():
        head += 1
    return "\n".join(
        [
            *lines[:head],
            "#[allow(unused_imports)]",
            "use crate::rattle_std::prelude::*;",
            *lines[head:],
        ]
    )


def changed(text: str, name: str) -> str:
    """Returns a source with what `CHANGED` says of it."""
    for old, new in CHANGED.get(name, {}).items():
        if text.count(old) != 1:
            raise Unknown(f"{name}: erase.py does not find `{old}`")
        text = text.replace(old, new)
    return text


def uses_of() -> Dict[str, List[str]]:
    """Returns the crates of the repository, and the libraries that each uses."""
    rows = [
        it.partition("#")[0].partition(":") for it in (TOP / "crates.txt").read_text().splitlines()
    ]
    return {left.split()[0]: right.split() for left, _, right in rows if left.strip()}


def closure(names: Tuple[str, ...]) -> List[str]:
    """Returns the crates, and those that they use."""
    uses, crates = uses_of(), list(names)
    for crate in crates:
        unknown = [it for it in uses[crate] if it not in uses and it not in LIBRARIES]
        if unknown:
            raise Unknown(
                f"crates.txt: erase.py has no names for the library {unknown[0]}, which"
                f" {crate} uses"
            )
        crates += [it for it in uses[crate] if it in uses and it not in crates]
    return crates


def sources(package: Package) -> List[Tuple[str, Path, str]]:
    """Returns the crate, the path and the place in the package of each source."""
    crates = closure(package.crates + package.modern)
    found = []
    for source in (*package.sources, *package.modern_sources):
        crate, _, name = source.partition("/src/")
        found.append((crate, TOP / "crates" / source, f"{crate}/{Path(name).with_suffix('.rs')}"))
    for crate in sorted(crates):
        top = TOP / "crates" / crate / "src"
        for path in sorted(top.rglob("*.rt")):
            name = (
                "mod.rs" if path.name == "lib.rt" else str(path.relative_to(top).with_suffix(".rs"))
            )
            found.append((crate, path, f"{crate}/{name}"))
    return found


def write_sources(package: Package, to: Path) -> None:
    """Writes the erased sources."""
    found = sources(package)
    crates = sorted({crate for crate, _, _ in found})
    for crate, path, name in found:
        place = to / name
        place.parent.mkdir(parents=True, exist_ok=True)
        text = changed(with_pointers(placed(erased(path), crate, crates)), name)
        place.write_text(text, encoding="utf-8")
    for source in (*package.sources, *package.modern_sources):
        (to / source.partition("/")[0] / "mod.rs").write_text(f"pub mod {Path(source).stem};\n")
    always = {*closure(package.crates), *(it.partition("/")[0] for it in package.sources)}
    gates = ("" if it in always else '#[cfg(feature = "modern")]\n' for it in crates)
    (to / "mod.rs").write_text("".join(f"{gate}pub mod {it};\n" for gate, it in zip(gates, crates)))


def write_package(package: Package, to: Path) -> None:
    """Writes a package."""
    shutil.copytree(package.parts, to, dirs_exist_ok=True)
    shutil.copytree(SHARED / "rattle_std", to / "src/rattle_std", dirs_exist_ok=True)
    shutil.copy(SHARED / "rattle_log.rs", to / "src")
    write_sources(package, to / "src/erased")
    for text in (*TOP.glob("LICENSE-*"), *(package.texts)):
        shutil.copy(text, to)


def state(to: Path, is_own: bool) -> None:
    """Writes into the crate's manifest what python/pyproject.toml states. A crate of its own has its
    name and version, and a library of the name that programs use."""
    stated, path = metadata.read_metadata(), to / "Cargo.toml"
    text = path.read_text(encoding="utf-8")
    more = f'repository = "{stated.repository}"\n' if stated.repository else ""
    if stated.authors:
        more += f"authors = {json.dumps([str(it) for it in stated.authors])}\n"
    text = text.replace("license = ", f"{more}license = ", 1)
    if is_own:
        text = re.sub(r"(?m)^# The crate whose .*\nhomepage = .*\n", "", text)
        text = text.replace('name = "simplecss"', f'name = "{stated.crate}"', 1)
        text = re.sub(r'(?m)^version = ".*"', f'version = "{stated.version}"', text, count=1)
        text = text.replace("[features]", '[lib]\nname = "simplecss"\n\n[features]', 1)
    path.write_text(text, encoding="utf-8")


def main(words: List[str]) -> None:
    """Writes the package that the words name."""
    option = words[0] if words[:1] in (["--c"], ["--publish"]) else ""
    package = LIBRARY if option == "--c" else RUST
    folders = words[1:] if option else words
    if len(folders) != 1 or folders[0].startswith("-"):
        sys.exit("usage: tools/erase.py [--c | --publish] DIR")
    try:
        write_package(package, Path(folders[0]))
    except Unknown as unknown:
        sys.exit(str(unknown))
    if package is RUST:
        state(Path(folders[0]), option == "--publish")


if __name__ == "__main__":
    main(sys.argv[1:])
