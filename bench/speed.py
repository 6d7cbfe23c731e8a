"""Measures the built program on a real style sheet, on a real page and on made ones, beside other
programs of the same commands.

    speed.py PROGRAM [OTHER] [--matcher MATCHER] [--out FOLDER] [--runs N] [--quick]
    speed.py --libraries [--archive ARCHIVE] [--modern MODERN] [--out FOLDER] [--runs N] [--quick]
    speed.py --python [--modern MODERN] [--out FOLDER] [--quick]
    speed.py --all PROGRAM ..    all three, in one run

PROGRAM is the built `cssq`. OTHER and MATCHER, if given, are run on the same files, one run of each
after another. OTHER is called the Rust crate, and MATCHER Servo's crates. Their standard output
must be the same, but MATCHER's of `sheet` and of sheets of other packages, since Servo's crates keep
other rules. The style sheet
is bootstrap.css of Debian's libjs-bootstrap4 and the page that of developers-reference, fetched by
`apt-get download` into FOLDER (cssq-speed in the temporary folder) once; if that fails, both are
made here, and the table says so. FOLDER is outside the repository: packages have links, which the
toolchain refuses there.

Prints a table, and writes it with a picture to FOLDER: speed.md and speed.svg. Each time is the
least of N runs of the whole process, in milliseconds of processor time. The most resident memory,
in megabytes, is that of one more run below GNU `time`, if it is there: of a process that Python
starts the system reports no less than Python's own.

--libraries measures the C library in ARCHIVE (out/libsimplecss.a) and the module `modern` of the Rust
crate, as the programs bench/library.c and bench/library.rs, which gcc and cargo make in FOLDER.
MODERN, if given, is the same over Servo's crates: its `match` must print the same, and its `json` what
sheets have. What wins of flat rules stands beside what it matches of them.

--python measures the Python package beside other packages on the same sheets and pages, and prints
tables. What is not installed or takes too long is left out, and MODERN is a whole process. Each call
is made five times in a process of its own, one package after another, and the least processor time
counts. Run it by the Python that has the packages.
"""
from __future__ import annotations

import argparse
import glob
import html.parser
import os
import platform
import shutil
import subprocess
import sys
import tempfile
import time
from dataclasses import dataclass, field
from math import ceil, floor, log10
from typing import Callable, Dict, Iterable, Iterator, List, Mapping, Optional, Sequence, Tuple

# fmt: off
VOID = {
    "area", "base", "br", "col", "embed", "hr", "img", "input", "link", "meta", "source", "track",
    "wbr",
}
# fmt: on
# As the script `cssq` sets it; and Servo's program reports what is skipped, as `cssq` does. Modules
# of Python are compiled once, as those of an installed package are.
ENVIRONMENT = {
    **os.environ,
    "GLIBC_TUNABLES": "glibc.malloc.hugetlb=1",
    "PEER_WARN": "1",
    "PYTHONDONTWRITEBYTECODE": "",
}
# What takes the Rust crate a minute and more.
SLOW = ("20,000 rule sets", "30,000 children", "a chain")
# Sheets of other packages of Debian, with the names of their files.
SHEETS = {
    "bootstrap 3": ("libjs-bootstrap", "bootstrap.css"),
    "bootstrap 4": ("libjs-bootstrap4", "bootstrap.css"),
    "Read the Docs": ("sphinx-rtd-theme-common", "theme.css"),
    "Font Awesome": ("fonts-font-awesome", "font-awesome.css"),
    "jQuery UI": ("libjs-jquery-ui", "jquery-ui.css"),
}
# After this many seconds a row has no more than three runs.
PATIENCE = 8.0
TOP = os.path.dirname(os.path.dirname(os.path.abspath(__file__)))
sys.path.insert(0, TOP)

from bench import packages  # noqa: E402

PACKAGE = os.path.join(TOP, "python", "src")
# The program over the Rust crate.
PROJECT = """[package]
name = "library"
version = "0.0.0"
edition = "2021"
[dependencies]
simplecss = { path = "../crate", default-features = false, features = ["modern"] }
[profile.release]
lto = true
codegen-units = 1
[workspace]
"""


@dataclass(frozen=True)
class Program:
    """A program, its commands, of which of them its output must be that of the first, and the words that
    it takes in place of those of others."""

    name: str
    colour: str
    path: str
    commands: Tuple[str, ...]
    compared: Tuple[str, ...]
    taken: Mapping[str, Callable[[Sequence[str]], List[str]]] = field(default_factory=dict)

    def words_for(self, words: Sequence[str]) -> List[str]:
        """Returns the words of a command as it takes them."""
        return self.taken.get(words[0], list)(words)


@dataclass(frozen=True)
class Cost:
    """Processor time in milliseconds, and the most resident memory in megabytes, as text."""

    time: float
    memory: str


@dataclass(frozen=True)
class Row:
    """What was run, its size, and what it cost each program that ran it."""

    what: str
    size: int
    costs: List[Optional[Cost]]


@dataclass
class Bench:
    """The programs, where files are put, and the rows so far."""

    programs: List[Program]
    folder: str
    runs: int
    rows: List[Row] = field(default_factory=list)

    def put(self, name: str, text: str) -> str:
        """Writes a file and returns its path."""
        path = os.path.join(self.folder, name)
        with open(path, "w", encoding="utf-8") as file:
            file.write(text)
        return path

    def run(
        self,
        what: str,
        size: int,
        words: Sequence[str],
        leave_out: Sequence[str] = (),
        is_compared: bool = True,
    ) -> Row:
        """Runs a command by each program that has it and is not left out, and adds a row. The output is
        not compared if programs may keep other rules."""
        chosen = [
            it if words[0] in it.commands and it.name not in leave_out else None
            for it in self.programs
        ]
        row = Row(what, size, least(chosen, words, self.runs, is_compared))
        self.rows.append(row)
        print(
            f"{what:52}"
            + "".join(f" {it.time:10.1f} {it.memory:>7}" if it else " " * 19 for it in row.costs),
            flush=True,
        )
        return row


class Elements(html.parser.HTMLParser):
    """The elements of a page as lines: depth, name and attributes."""

    def __init__(self) -> None:
        super().__init__()
        self.open: List[str] = []
        self.lines: List[str] = []

    def handle_starttag(self, tag: str, attrs: List[Tuple[str, Optional[str]]]) -> None:
        """Adds a line."""
        fields = [str(len(self.open)), tag]
        for key, value in dict(attrs).items():
            fields.append(f"{key}={value or ''}".translate({9: " ", 10: " ", 13: " "}))
        self.lines.append("\t".join(fields))
        if tag not in VOID:
            self.open.append(tag)

    def handle_endtag(self, tag: str) -> None:
        """Closes the elements up to this one, if it is open."""
        if tag in self.open:
            while self.open.pop() != tag:
                pass


def fetched(folder: str, package: str, name: str) -> Optional[str]:
    """Returns a file of a Debian package, or none."""
    unpacked = os.path.join(folder, package)
    if not os.path.isdir(unpacked):
        try:
            subprocess.run(
                ["apt-get", "download", package],
                cwd=folder,
                check=True,
                capture_output=True,
                timeout=120,
            )
            archive = glob.glob(os.path.join(folder, package + "_*.deb"))[0]
            subprocess.run(["dpkg-deb", "-x", archive, unpacked], check=True, capture_output=True)
        except (subprocess.SubprocessError, OSError, IndexError):
            return None
    found = sorted(glob.glob(os.path.join(unpacked, "usr", "share", "**", name), recursive=True))
    if not found:
        return None
    with open(found[0], encoding="utf-8") as file:
        return file.read()


def made_sheet(count: int) -> str:
    """Returns a sheet in the usual shape: classes of components, states and elements within
    them."""
    made = []
    for i in range(count):
        a, b = f"c{i % 97}", f"d{i % 61}"
        head = [
            f".{a}-{i % 7}",
            f".{a} .{b}",
            f".{a}:hover, .{a}:focus",
            f"p > a.{b}",
            f"#x{i % 31} {b}",
            f"table.{a} > tr",
        ][i % 6]
        made.append(f"{head} {{\n  color: #{i % 4096:03x};\n  margin: {i % 9}px 0;\n}}\n")
    return "".join(made)


def made_tree(count: int) -> str:
    """Returns a page of about that many lines: sections of paragraphs with links."""
    lines = ["0\thtml", "1\tbody"]
    for i in range((count - 2) // 4):
        lines.append(f"2\tdiv\tclass=c{i % 97} d{i % 61}" + (f"\tid=x{i}" if i % 5 == 0 else ""))
        lines.append(f"3\tp\tclass=c{i % 97}-{i % 7}")
        lines.append(f"4\ta\thref=#x{i}\tclass=d{i % 61}")
        lines.append("3\ttable")
    return tree_of(lines)


def rules(count: int, selector: str) -> str:
    """Returns `count` rules, each with its number in the selector."""
    return "".join(selector.format(i) + " { b:c }\n" for i in range(count))


def tree_of(lines: Iterable[str]) -> str:
    """Returns the text of a page."""
    return "\n".join(lines) + "\n"


def below(ancestors: int, count: int) -> str:
    """Returns leaves under as many ancestors, each with four classes of its own."""
    path = [f"{i}\tdiv\tclass=a{i}w a{i}x a{i}y a{i}z" for i in range(ancestors)]
    return tree_of(path + [f"{ancestors}\tp\tclass=leaf"] * count)


def children(words_of_parent: int, count: int) -> str:
    """Returns children of a parent of so many words."""
    words_of_it = " ".join(f"w{i}" for i in range(words_of_parent))
    return tree_of([f"0\tr\tclass={words_of_it}"] + ["1\ta"] * count)


def utilities(count: int) -> str:
    """Returns elements with 8 of 400 classes, each of which sets one thing, in boxes of eight."""
    lines = []
    for i in range(count):
        chosen = " ".join(f"u-{(i * 37 + 53 * k * k + 11 * k) % 400}" for k in range(8))
        lines.append(f"{min(i, 1 if i % 8 == 1 else 2)}\tdiv\tclass={chosen}")
    return tree_of(lines)


def utility_sheet(count: int) -> str:
    """Returns rules of a sheet of utility classes: alone, in a state, and within another."""
    shapes = [".u-{0}", ".u-{0}:hover", ".u-{1} .u-{0}", ".u-{0} > p", ".u-{0}.u-{1}"]
    return "".join(shapes[i % 5].format(i % 400, i * 7 % 400) + " { b:c }\n" for i in range(count))


def chains(count: int, length: int) -> str:
    """Returns chains of elements, each in the one before."""
    return tree_of(f"{i}\tdiv\tclass=c{i % 97}" for _ in range(count) for i in range(length))


def classed(count: int) -> str:
    """Returns elements with one of 1,000 classes."""
    return tree_of(["0\tbody"] + [f"1\tp\tclass=k{i * 7 % 1000}" for i in range(count)])


def drawing(count: int) -> str:
    """Returns the paths of a drawing, in groups, with attributes of usual lengths."""
    lines = ["0\tsvg\tviewBox=0 0 900 900"]
    for i in range(count):
        if i % 40 == 0:
            lines.append(f"1\tg\tid=g{i}\ttransform=translate({i % 90},{i % 70})")
        d = "".join(f"L{(i * k) % 900}.{k} {(i + k) % 900}" for k in range(2 + i % 9))
        lines.append(
            f"2\tpath\td=M{i % 900} 0{d}z\tfill=#{i % 4096:03x}\tstroke=none\tstroke-width=0.5"
        )
    return tree_of(lines)


def long_values(count: int) -> str:
    """Returns elements with a value of 1,000 bytes before four other attributes."""
    return tree_of(
        ["0\tsvg"]
        + ["1\tpath\td=" + "M0 0L9 9z " * 100 + "\tfill=red\tstroke=none\tx=1\ty=2"] * count
    )


def measured(path: str, words: Sequence[str]) -> Tuple[float, bytes]:
    """Runs a program once, and returns its processor time and its output."""
    with tempfile.TemporaryFile() as output, open(os.devnull, "r+b") as null:
        child = subprocess.Popen(
            [path, *words], stdin=null, stdout=output, stderr=null, env=ENVIRONMENT
        )
        _, status, usage = os.wait4(child.pid, 0)
        child.returncode = os.waitstatus_to_exitcode(status)
        if child.returncode != 0:
            sys.exit(f"{path} ends with {child.returncode} at {words}")
        output.seek(0)
        return 1000 * (usage.ru_utime + usage.ru_stime), output.read()


def memory_of(path: str, words: Sequence[str]) -> str:
    """Runs a program once, and returns its most resident memory, or nothing without GNU `time`."""
    timer = shutil.which("time")
    if not timer:
        return ""
    with tempfile.NamedTemporaryFile("r", encoding="utf-8") as report:
        subprocess.run(
            [timer, "-f", "%M", "-o", report.name, path, *words],
            check=True,
            stdin=subprocess.DEVNULL,
            stdout=subprocess.DEVNULL,
            stderr=subprocess.DEVNULL,
            env=ENVIRONMENT,
        )
        return f"{int(report.read()) / 1024:.1f}"


def least(
    programs: Sequence[Optional[Program]], words: Sequence[str], runs: int, is_compared: bool
) -> List[Optional[Cost]]:
    """Returns the least cost by each program, one run of each after another. Their output must be
    the same if it is compared."""
    times = [float("inf")] * len(programs)
    begun = time.monotonic()
    for number in range(runs):
        first: Optional[bytes] = None
        for place, program in enumerate(programs):
            if not program:
                continue
            spent, output = measured(program.path, program.words_for(words))
            times[place] = min(times[place], spent)
            is_known = is_compared and first is not None and words[0] in program.compared
            if is_known and output != first:
                sys.exit(f"{program.path} answers otherwise to {words}")
            first = output if place == 0 else first
        if number >= 2 and time.monotonic() - begun > PATIENCE:
            break
    return [
        Cost(spent, memory_of(it.path, it.words_for(words))) if it else None
        for it, spent in zip(programs, times)
    ]


def read_sheets(bench: Bench, css: str, is_quick: bool) -> None:
    """Reads the sheet, and texts of it several times."""
    for times in (1, 2, 4) if is_quick else (1, 2, 4, 8, 16):
        path = bench.put(f"sheet{times}.css", css * times)
        size = os.path.getsize(path)
        # The time of the Rust crate grows as the square of the size.
        bench.run(
            f"sheet: {size / 1e6:.1f} MB",
            size,
            ["sheet", path],
            ["the Rust crate"] if times > 4 else [],
        )


def match_parts(bench: Bench, css: str, tree: List[str], is_quick: bool) -> None:
    """Matches the sheet with parts of the page, and with the page several times."""
    sheet = bench.put("sheet.css", css)
    parts = [tree[: len(tree) // part] for part in (8, 4, 2, 1)]
    if not is_quick:
        parts += [tree * 4, tree * 40]
    for lines in parts:
        path = bench.put("part.tree", tree_of(lines))
        leave_out = ["the Rust crate"] if len(lines) > 4 * len(tree) else []
        bench.run(f"match: {len(lines):,} elements", len(lines), ["match", sheet, path], leave_out)


def made_pages(tree: List[str]) -> Iterator[Tuple[str, str, Callable[[], str]]]:
    """Returns what pages of other kinds are, their sheets, and what makes them."""
    states = "path { b:c }\n[fill] { b:c }\ng > path { b:c }\n#g40 path { b:c }\n"
    leaf, deep = rules(200, ".q{0} .leaf"), rules(97, ".x{0} .c{0}") + ".c1 .c5 { b:c }\n"
    yield "20,000 rule sets on the page", made_sheet(20_000), lambda: tree_of(tree)
    yield "10 rule sets on 300,000 elements", made_sheet(10), lambda: made_tree(300_000)
    yield "an empty sheet on 300,000 elements", "", lambda: made_tree(300_000)
    yield "200 rules on 2,000 leaves under 50 ancestors", leaf, lambda: below(50, 2_000)
    yield "200 rules on 300 leaves under 500 ancestors", leaf, lambda: below(500, 300)
    yield "utility classes, 1,800 rules on 8,000 elements", utility_sheet(1_800), lambda: utilities(
        8_000
    )
    yield "30,000 children of a parent of 1,000 words", rules(20, ".x{0} > *"), lambda: children(
        1_000, 30_000
    )
    yield "1,000 classes on 20,000 elements", rules(1_000, ".k{0}"), lambda: classed(20_000)
    yield "40 chains of 500 elements", deep, lambda: chains(40, 500)
    yield "a chain of 20,000 elements", deep, lambda: chains(1, 20_000)
    yield "a drawing of 18,401 elements", states, lambda: drawing(17_952)
    yield "values of 1,000 bytes, 2,000 elements", states, lambda: long_values(2_000)


def other_sheets(folder: str) -> Iterator[Tuple[str, str]]:
    """Returns sheets of other packages that can be fetched, and what they are."""
    for what, (package, name) in SHEETS.items():
        css = fetched(folder, package, name)
        if css:
            yield what, css


def match_sheets(bench: Bench, tree: List[str]) -> None:
    """Reads sheets of other packages, and matches them on the page."""
    for what, css in other_sheets(bench.folder):
        sheet, path = bench.put("sheet.css", css), bench.put("page.tree", tree_of(tree))
        bench.run(f"sheet: {what}", 0, ["sheet", sheet])
        words = ["match", sheet, path]
        bench.run(f"match: {what} on the page", 0, words, is_compared=False)


def match_made(bench: Bench, css: str, tree: List[str]) -> None:
    """Matches pages of other kinds, and says which declarations win on the page."""
    for what, text, page in made_pages(tree):
        sheet, path = bench.put("made.css", text), bench.put("made.tree", page())
        leave_out = ["the Rust crate"] if what.startswith(SLOW) else []
        bench.run(f"match: {what}", 0, ["match", sheet, path], leave_out)
    bench.run(
        "style: color on the page",
        0,
        ["style", bench.put("sheet.css", css), bench.put("page.tree", tree_of(tree)), "color"],
    )


# ---- the libraries


def program_in_c(folder: str, archive: str) -> Optional[str]:
    """Makes the program over the C library. Returns its path, or none if a part is missing."""
    made = os.path.join(folder, "library_c")
    if not shutil.which("gcc") or not os.path.exists(archive):
        return None
    words = ["gcc", "-O2", "-I", os.path.join(TOP, "include"), os.path.join(TOP, "bench/library.c")]
    subprocess.run([*words, archive, "-lm", "-lpthread", "-ldl", "-o", made], check=True)
    return made


def program_in_rust(folder: str) -> Optional[str]:
    """Makes the program over the Rust crate. Returns its path, or none if there is no cargo."""
    if not shutil.which("cargo"):
        return None
    project, source = os.path.join(folder, "library"), os.path.join(folder, "library/src/main.rs")
    os.makedirs(os.path.dirname(source), exist_ok=True)
    shutil.copy(os.path.join(TOP, "bench/library.rs"), source)
    with open(os.path.join(project, "Cargo.toml"), "w", encoding="utf-8") as file:
        file.write(PROJECT)
    erase = os.path.join(TOP, "tools/erase.py")
    shutil.rmtree(os.path.join(folder, "crate"), ignore_errors=True)
    subprocess.run([sys.executable, erase, os.path.join(folder, "crate")], check=True)
    words = ["cargo", "build", "-q", "--release", "--offline", "--target-dir", "target"]
    subprocess.run(words, cwd=project, check=True)
    return os.path.join(project, "target/release/library")


def libraries(folder: str, archive: str, modern: Optional[str]) -> List[Program]:
    """Returns the programs over the libraries, and the one over Servo's crates."""
    every, match = ("read", "match", "winners"), ("match",)
    modern = modern and os.path.abspath(modern)
    # What wins is a command with a sheet, the selectors of the sheet, and a tree.
    of_library: Dict[str, Callable[[Sequence[str]], List[str]]] = {
        "winners": lambda words: ["winners", words[1], words[3]]
    }
    of_peer: Dict[str, Callable[[Sequence[str]], List[str]]] = {
        "read": lambda words: ["json", *words[1:]],
        "winners": lambda words: ["match", *words[2:]],
    }
    named = [
        ("C", "#1764c0", program_in_c(folder, archive), every),
        ("Rust", "#c04a17", program_in_rust(folder), match),
        ("Servo's crates", "#2c8a3a", modern, every),
    ]
    return [
        Program(name, colour, path, commands, match, of_peer if path == modern else of_library)
        for name, colour, path, commands in named
        if path
    ]


def selectors_of(css: str) -> str:
    """Returns the selectors of the rules of a sheet, each on a line."""
    if PACKAGE not in sys.path:
        sys.path.insert(0, PACKAGE)
    from simplecss import StyleSheet

    rules_of_it = StyleSheet(css, limit=sys.maxsize).rules
    return "".join(f"{it.selector}\n" for it in rules_of_it if it.pseudo_element is None)


def modern_pages(tree: List[str]) -> Iterator[Tuple[str, str, Callable[[], str]]]:
    """Returns what pages are, their sheets, and what makes them."""
    yield from made_pages(tree)
    counted = rules(1_000, ".k{0}:nth-child(2n+1)") + rules(20, ".k{0} ~ .k5")
    yield "`:nth-child` and `~` on 20,000 elements", counted, lambda: classed(20_000)
    lists = rules(1_000, ":is(.k{0}, #x):not(.y, body > .z)")
    yield "`:is` and `:not` on 20,000 elements", lists, lambda: classed(20_000)


def show_libraries(bench: Bench, css: str, tree: List[str], is_quick: bool) -> None:
    """Reads sheets, and matches selectors on pages, by the libraries."""
    show_names(bench)
    for times in (1, 4) if is_quick else (1, 4, 16):
        path = bench.put(f"sheet{times}.css", css * times)
        bench.run(f"read: {len(css) * times / 1e6:.1f} MB", 0, ["read", path])
    selectors = bench.put("selectors", selectors_of(css))
    for lines in (tree[: len(tree) // 4], tree) if is_quick else (tree, tree * 4, tree * 40):
        path = bench.put("part.tree", tree_of(lines))
        bench.run(f"match: {len(lines):,} elements", 0, ["match", selectors, path])
    for what, text, page in () if is_quick else modern_pages(tree):
        selectors, path = bench.put("made", selectors_of(text)), bench.put("made.tree", page())
        bench.run(f"match: {what}", 0, ["match", selectors, path])
    for what, text in other_sheets(bench.folder):
        show_sheet(bench, what, text, bench.put("page.tree", tree_of(tree)))


def show_sheet(bench: Bench, what: str, css: str, page: str) -> None:
    """Reads a sheet, matches its selectors on a page, and says which of its flat rules win there."""
    bench.run(f"read: {what}", 0, ["read", bench.put("sheet.css", css)])
    flat = "".join(f"{line} {{ b:c; d:e }}\n" for line in selectors_of(css).splitlines())
    selectors, sheet = bench.put("selectors", selectors_of(css)), bench.put("flat.css", flat)
    bench.run(f"match: {what} on the page", 0, ["match", selectors, page])
    bench.run(f"winners: {what} on the page", 0, ["winners", sheet, selectors, page])


@dataclass(frozen=True)
class Panel:
    """A curve for each program on double logarithmic scales."""

    title: str
    label: str
    rows: List[Row]
    left: int

    def span(self, values: Sequence[float], steps: int) -> Tuple[float, float]:
        """Returns the powers of ten around the values, in so many steps each."""
        return floor(log10(min(values)) * steps) / steps, ceil(log10(max(values)) * steps) / steps

    def scales(self) -> Tuple[Callable[[float], float], Callable[[float], float], range]:
        """Returns where a size and a time are, and the powers of ten of the times."""
        times = [cost.time for row in self.rows for cost in row.costs if cost]
        x0, x1 = self.span([row.size for row in self.rows], 2)
        y0, y1 = self.span(times, 1)
        return (
            lambda x: self.left + 340 * (log10(x) - x0) / (x1 - x0),
            lambda y: 40 + 260 * (1 - (log10(y) - y0) / (y1 - y0)),
            range(int(y0), int(y1) + 1),
        )

    def frame(self) -> Iterator[str]:
        """Returns the title, the names of the axes, the frame and the lines of the scales."""
        x_of, y_of, powers = self.scales()
        left = self.left
        yield f'<text x="{left}" y="24" font-size="14">{self.title}</text>'
        yield f'<text x="{left + 170}" y="340" text-anchor="middle">{self.label}</text>'
        yield (
            f'<text transform="translate({left - 42} 170) rotate(-90)"'
            ' text-anchor="middle">milliseconds</text>'
        )
        yield f'<rect x="{left}" y="40" width="340" height="260" fill="none" stroke="#888"/>'
        for power in powers:
            y = y_of(10.0**power)
            yield f'<line x1="{left}" x2="{left + 340}" y1="{y:.1f}" y2="{y:.1f}" stroke="#ddd"/>'
            yield f'<text x="{left - 6}" y="{y + 4:.1f}" text-anchor="end">{10.0**power:g}</text>'
        for row in self.rows:
            x = x_of(row.size)
            name = f"{row.size / 1e6:.1f}M" if row.size >= 1e5 else f"{row.size / 1e3:.0f}k"
            yield f'<line x1="{x:.1f}" x2="{x:.1f}" y1="40" y2="300" stroke="#eee"/>'
            yield f'<text x="{x:.1f}" y="316" text-anchor="middle">{name}</text>'

    def curve(self, place: int, program: Program) -> Iterator[str]:
        """Returns the curve of a program."""
        x_of, y_of, _ = self.scales()
        line = [
            (x_of(row.size), y_of(cost.time))
            for row in self.rows
            for cost in [row.costs[place]]
            if cost
        ]
        if line:
            points = " ".join(f"{x:.1f},{y:.1f}" for x, y in line)
            yield (
                f'<polyline fill="none" stroke="{program.colour}" stroke-width="2"'
                f' points="{points}"/>'
            )
            yield from (
                f'<circle cx="{x:.1f}" cy="{y:.1f}" r="3" fill="{program.colour}"/>'
                for x, y in line
            )
            x, y = line[-1]
            place_of_name = (
                f'x="{x - 14:.1f}" y="{max(y - 8, 55):.1f}" text-anchor="end"'
                if place
                else f'x="{x:.1f}" y="{y + 20:.1f}" text-anchor="middle"'
            )
            yield f'<text {place_of_name} fill="{program.colour}">{program.name}</text>'


def picture(bench: Bench) -> str:
    """Returns the curves of reading and matching, as SVG."""
    sized = [row for row in bench.rows if row.size]
    parts = [
        (
            '<svg xmlns="http://www.w3.org/2000/svg" width="860" height="360"'
            ' font-family="sans-serif" font-size="12">'
        ),
        '<rect width="860" height="360" fill="white"/>',
    ]
    reading, matching = (
        [row for row in sized if row.what.startswith(kind)] for kind in ("sheet", "match")
    )
    for panel in (
        Panel("reading", "bytes of the style sheet", reading, 60),
        Panel("matching", "elements of the page", matching, 490),
    ):
        parts += panel.frame()
        for place, program in enumerate(bench.programs):
            parts += panel.curve(place, program)
    return "\n".join([*parts, "</svg>"]) + "\n"


def processor() -> str:
    """Returns the name of the processor."""
    try:
        with open("/proc/cpuinfo", encoding="utf-8") as file:
            return next(
                line.split(":")[1].strip() for line in file if line.startswith("model name")
            )
    except (OSError, StopIteration):
        return platform.machine()


def cells(own: Cost, cost: Optional[Cost]) -> str:
    """Returns the time and memory of a program, and how many times that of the first its time
    is."""
    if not cost:
        return "|||"
    times = cost.time / own.time
    return (
        f"{cost.time:.1f}|{cost.memory}|{times:.0f}|"
        if times >= 10
        else f"{cost.time:.1f}|{cost.memory}|{times:.2f}|"
    )


def table(bench: Bench, source: str) -> str:
    """Returns the rows as a table of Markdown."""
    rivals = bench.programs[1:]
    lines = [
        f"Machine: {processor()}, {os.cpu_count()} processors. Date: {time.strftime('%Y-%m-%d')}.",
        f"Texts: {source}.",
        "",
        f"||{bench.programs[0].name}, ms|MB|"
        + "".join(f"{it.name}, ms|MB|times|" for it in rivals),
        "|---|---|---|" + "---|---|---|" * len(rivals),
    ]
    for row in bench.rows:
        own = row.costs[0]
        if own:
            lines.append(
                f"|{row.what}|{own.time:.1f}|{own.memory}|"
                + "".join(cells(own, it) for it in row.costs[1:])
            )
    return "\n".join(lines) + "\n"


# Makes a call some times, and writes the least processor time of one in milliseconds.
CALL = """
import gc, sys, time
page, css = (open(name, encoding="utf-8").read() for name in sys.argv[1:3])
selectors = (f"div > p a[href]:not(.x{{number}})" for number in range(99))
wide = (f"*:not(.x{{number}})" for number in range(99))
# Texts of which nothing is kept, a mail, and its sheet.
fresh = (f"{{css}}/*{{number}}*/" for number in range(99))
mail = "<html><body>" + 10 * "<table class=t><tr><td class=b><a href=x class=l>t</a><p>x"
mail_css = "p{{a:b}}.b{{a:c}}a:hover{{d:e}}td>a{{d:f}}@media print{{a{{d:g}}}}"
unclosed = f"<b {{' '.join(f'a{{i}}' for i in range(31))}} id={{{{}}}}>"
unclosed = "".join(unclosed.format(number % 40) for number in range(2000))
carded = 2000 * "<div class=card><div><a href=x>t</a></div><p>x</div>"
{prepare}
times = []
for _ in range(5):
    gc.collect()
    start = time.process_time()
    made = {expression}
    times.append(time.process_time() - start)
    del made
print(1000 * min(times))
"""
# The declarations that match each element, by cssselect2 and tinycss2.
CSSSELECT2 = """
import cssselect2, html5lib, tinycss2

def styles():
    matcher = cssselect2.Matcher()
    for rule in tinycss2.parse_stylesheet(css):
        if rule.type == "qualified-rule":
            declarations = tinycss2.parse_declaration_list(rule.content)
            try:
                for selector in cssselect2.compile_selector_list(rule.prelude):
                    matcher.add_selector(selector, declarations)
            except cssselect2.SelectorError:
                pass
    root = cssselect2.ElementWrapper.from_html_root(html5lib.parse(page))
    return [matcher.match(element) for element in root.iter_subtree()]
"""
TINYCSS2 = (
    "[tinycss2.parse_declaration_list(rule.content) for rule in tinycss2.parse_stylesheet(css)"
    " if rule.type == 'qualified-rule']"
)
# Pages of Debian, on which a selector is measured beside the same call of soupsieve.
PAGES = (
    ("developers-reference", "developers-reference.html"),
    ("python3.11-doc", "stdtypes.html"),
    ("python3.11-doc", "whatsnew/3.11.html"),
    ("python3.11-doc", "library/index.html"),
)


def of_cards(method: str, selector: str) -> Dict[str, Tuple[str, str]]:
    """A method with a selector, which each package asks of each card of a page."""
    soup = (
        "import bs4, {0} as sieve; soup = bs4.BeautifulSoup(carded, 'lxml'); "
        f"cards = soup.find_all(class_='card'); ask = sieve.compile('{selector}'); ask.select(soup)"
    )
    ours = "from simplecss import Tree; cards = Tree.from_html(carded).select('.card')"
    asked = f"[ask.{method}(each) for each in cards]"
    return {
        "simplecss": (ours, f"[each.{method}('{selector}') for each in cards]"),
        "`sieve`": (soup.format("simplecss.sieve"), asked),
        "soupsieve": (soup.format("soupsieve"), asked),
    }


# What is measured: for each package what comes first, and a call.
CALLS: Dict[str, Dict[str, Tuple[str, str]]] = {
    "the tree of the page": {
        "simplecss": ("from simplecss import Tree", "Tree.from_html(page)"),
        "html5lib": ("import html5lib", "html5lib.parse(page)"),
        "lxml": ("import lxml.html", "lxml.html.document_fromstring(page)"),
    },
    "the tree of 2,000 elements that nothing ends": {
        "simplecss": ("from simplecss import Tree", "Tree.from_html(unclosed)"),
        "lxml": ("import lxml.html", "lxml.html.document_fromstring(unclosed)"),
    },
    "a tree, and its first selector": {
        "simplecss": ("from simplecss import Tree", "Tree.from_html(page).select(next(selectors))"),
        "soupsieve": (
            "import bs4, soupsieve",
            "soupsieve.select(next(selectors), bs4.BeautifulSoup(page, 'html5lib'))",
        ),
    },
    "a selector of all elements": {
        "simplecss": (
            "from simplecss import Tree; tree = Tree.from_html(page)",
            "tree.select(next(wide))",
        ),
        "soupsieve": (
            "import bs4, soupsieve; soup = bs4.BeautifulSoup(page, 'lxml')",
            "soupsieve.select(next(wide), soup)",
        ),
        "lxml": (
            "import lxml.cssselect, lxml.html; root = lxml.html.document_fromstring(page)",
            "lxml.cssselect.CSSSelector(next(wide))(root)",
        ),
    },
    "the styles of a tree by a sheet": {
        "simplecss": (
            "from simplecss import StyleSheet, Tree; "
            "tree = Tree.from_html(page); sheet = StyleSheet(css)",
            "sheet.styles(tree)",
        ),
    },
    "a selector": {
        "simplecss": (
            "from simplecss import Tree; tree = Tree.from_html(page)",
            "tree.select(next(selectors))",
        ),
        "soupsieve": (
            "import bs4, soupsieve; soup = bs4.BeautifulSoup(page, 'lxml')",
            "soupsieve.select(next(selectors), soup)",
        ),
        "lxml": (
            "import lxml.cssselect, lxml.html; root = lxml.html.document_fromstring(page)",
            "lxml.cssselect.CSSSelector(next(selectors))(root)",
        ),
        "cssselect2": (
            CSSSELECT2 + "root = cssselect2.ElementWrapper.from_html_root(html5lib.parse(page))",
            "list(root.query_all(next(selectors)))",
        ),
    },
    "`:scope > div > a` in each of 2,000 cards": of_cards("select", ":scope > div > a"),
    "the closest `:scope, .zzz` of each of 2,000 cards": of_cards("closest", ":scope, .zzz"),
    "whether a selector matches an element, of 99": {
        "simplecss": (
            "from simplecss import Tree; one = Tree.from_html(page)[999]; one.matches('x')",
            "[one.matches(f'div > .x{number}') for number in range(99)]",
        ),
        "soupsieve": (
            "import bs4, soupsieve; one = bs4.BeautifulSoup(page, 'lxml').find_all(True)[999]",
            "[soupsieve.match(f'div > .x{number}', one) for number in range(99)]",
        ),
    },
    "the rules of the sheet": {
        "simplecss": ("from simplecss import StyleSheet", "StyleSheet(css).rules"),
        "tinycss2": ("import tinycss2", TINYCSS2),
    },
    "the styles of the page, with its tree and the sheet": {
        "simplecss": (
            "from simplecss import StyleSheet, Tree",
            "StyleSheet(css).styles(Tree.from_html(page))",
        ),
        "the tree": ("import simplecss", "simplecss.Tree.from_html(page)"),
        "cssselect2": (CSSSELECT2, "styles()"),
    },
    "`inline`": {
        "simplecss": ("import simplecss", "simplecss.inline(page, next(fresh))"),
        "with a sheet that is read": (
            "import simplecss; sheet = simplecss.StyleSheet(css); simplecss.inline('<p>', sheet)",
            "simplecss.inline(page, sheet)",
        ),
        "the tree": ("import simplecss", "simplecss.Tree.from_html(page)"),
        "premailer": ("import premailer", "premailer.transform(page, css_text=css)"),
        "css-inline": ("import css_inline", "css_inline.inline(page, extra_css=css)"),
    },
    "`lint`": {
        "simplecss": ("import simplecss", "simplecss.lint(css)"),
        "cssutils": (
            "import cssutils, logging; cssutils.log.setLevel(logging.CRITICAL)",
            "cssutils.parseString(css)",
        ),
    },
    "`unused`": {
        "simplecss": (
            "import simplecss; tree = simplecss.Tree.from_html(page)",
            "simplecss.StyleSheet(css).unused(tree)",
        ),
    },
    "`minify`": {
        "simplecss": ("import simplecss", "simplecss.minify(css)"),
        "rcssmin": ("import rcssmin", "rcssmin.cssmin(css)"),
    },
    "`tokens`": {
        "simplecss": ("import simplecss", "list(simplecss.tokens(css))"),
        "tinycss2": ("import tinycss2", "tinycss2.parse_component_value_list(css)"),
    },
    "`inline` of 1,000 mails": {
        "simplecss": (
            "import simplecss; inliner = simplecss.Inliner(mail_css)",
            "[inliner.inline(f'{mail}{each}') for each in range(1000)]",
        ),
        "with the sheet as a text": (
            "import simplecss",
            "[simplecss.inline(f'{mail}{each}', mail_css) for each in range(1000)]",
        ),
        "the trees": (
            "import simplecss",
            "[simplecss.Tree.from_html(f'{mail}{each}') for each in range(1000)]",
        ),
    },
}


def measured_call(prepare: str, expression: str, files: Sequence[str]) -> Optional[float]:
    """Returns the least processor time of a call of Python, or `None` if a package is missing."""
    code = CALL.format(prepare=prepare, expression=expression)
    environment = {**os.environ, "PYTHONPATH": PACKAGE}
    words = [sys.executable, "-c", code, *files]
    done = subprocess.run(words, capture_output=True, text=True, check=False, env=environment)
    if (
        done.returncode
        and "ModuleNotFoundError" not in done.stderr
        and "ImportError" not in done.stderr
    ):
        sys.exit(done.stderr)
    return None if done.returncode else float(done.stdout)


def started(code: str) -> float:
    """Returns the least processor time of some processes of Python in milliseconds."""
    words = ["-c", f"import sys; sys.path.insert(0, {PACKAGE!r}); {code}"]
    return min(measured(sys.executable, words)[0] for _ in range(15))


def python_rows(files: Sequence[str]) -> Iterator[str]:
    """Yields the table of the Python package."""
    yield "||simplecss, ms|others, in times of it|\n|---|---|---|"
    plain = started("pass")
    for code in ("import simplecss", "from simplecss import Tree", "from simplecss import inline"):
        yield f"|`{code}`|{started(code) - plain:.1f}|`python3 -c pass` {plain:.1f} ms|"
    for what, calls in CALLS.items():
        times = {name: measured_call(*call, files) for name, call in calls.items()}
        own = times.pop("simplecss")
        if own is not None:
            others = ", ".join(f"{name} {time / own:.2f}" for name, time in times.items() if time)
            yield f"|{what}|{own:.1f}|{others}|"


def selector_rows(bench: Bench, sheet: str) -> Iterator[str]:
    """Yields the table of one selector on a ready tree by page, which says from what to what soupsieve takes."""
    yield "|a selector on a page|simplecss, ms|soupsieve, in times of it|\n|---|---|---|"
    names = ("a selector", "a selector of all elements")
    for package, name in PAGES:
        page = fetched(bench.folder, package, name)
        files = [bench.put("other.html", page or ""), sheet]
        for what in names if page else ():
            own, other = (
                measured_call(*CALLS[what][it], files) for it in ("simplecss", "soupsieve")
            )
            if own and other:
                yield f"|{what}, {name}|{own:.1f}|{other / own:.1f}|"


def pages_of(folder: str, tree: List[str]) -> Iterator[Tuple[str, str, Iterable[str]]]:
    """Returns what pages are, the selectors for each, a line each, and its lines."""
    for what, css in other_sheets(folder):
        yield f"{what} on the page", selectors_of(css), tree
        if what == "bootstrap 4":
            yield f"{what} on the page 4 times", selectors_of(css), tree * 4
    for what, css, page in made_pages(tree):
        yield what, selectors_of(css), page().splitlines()


def ready_rows(bench: Bench, tree: List[str], modern: Optional[str]) -> Iterator[str]:
    """Yields the table of what packages match on trees that are there."""
    yield "|a sheet on a ready tree|simplecss, ms|of the library|others, in times of it|"
    yield "|---|---|---|---|"
    for what, selectors, lines in pages_of(bench.folder, tree):
        files = [bench.put("page.xml", packages.xml_of(lines)), bench.put("selectors", selectors)]
        calls = packages.MATCHING.items()
        found = {
            name: packages.spent(*call, files, {"PYTHONPATH": PACKAGE}) for name, call in calls
        }
        own = found.pop("simplecss")
        if own is None:
            continue
        others = packages.times_of(found, own)
        if modern:
            words = ["match", files[1], bench.put("page.tree", tree_of(lines))]
            times = min(measured(modern, words)[0] for _ in range(3)) / own.total
            others = ", ".join(filter(None, [others, f"Servo's crates, a process {times:.2f}"]))
        yield f"|{what}|{own.total:.1f}|{own.total / max(own.inside, 1e-9):.2f}|{others}|"


def shared_rows(files: Sequence[str]) -> Iterator[str]:
    """Yields the table of calls beside the time of the library in them."""
    yield "|a call on a ready tree|ms|in times of the library's own|\n|---|---|---|"
    for what, (prepare, expression) in packages.SHARED.items():
        prepare = f"{packages.TIMED}\nimport simplecss\n{prepare}"
        found = packages.spent(prepare, expression, files, {"PYTHONPATH": PACKAGE})
        if found:
            yield f"|{what}|{found.total:.1f}|{found.total / max(found.inside, 1e-9):.2f}|"


def programs_of(words: argparse.Namespace) -> List[Program]:
    """Returns the program and the others that were named."""
    every = ("sheet", "match", "style")
    named = [
        ("`cssq`", "#1764c0", words.program, every, every),
        ("the Rust crate", "#c04a17", words.other, every, every),
        ("Servo's crates", "#2c8a3a", words.matcher, ("sheet", "match"), ("match",)),
    ]
    return [
        Program(name, colour, os.path.abspath(path), commands, compared)
        for name, colour, path, commands, compared in named
        if path
    ]


def words_of() -> argparse.Namespace:
    """Returns the words of the command line."""
    parser = argparse.ArgumentParser()
    parser.add_argument("program", nargs="?")
    parser.add_argument("other", nargs="?")
    parser.add_argument("--matcher")
    parser.add_argument("--modern")
    parser.add_argument("--archive", default=os.path.join(TOP, "out", "libsimplecss.a"))
    parser.add_argument("--out", default=os.path.join(tempfile.gettempdir(), "cssq-speed"))
    parser.add_argument("--runs", type=int, default=9)
    parser.add_argument("--quick", action="store_true", help="only small inputs")
    parser.add_argument("--libraries", action="store_true", help="the libraries for C and Rust")
    parser.add_argument("--python", action="store_true", help="the Python package")
    parser.add_argument("--all", action="store_true", help="all of them")
    words = parser.parse_args()
    words.libraries, words.python = words.libraries or words.all, words.python or words.all
    if not words.program and (words.all or not words.python and not words.libraries):
        parser.error("no program")
    return words


def show_names(bench: Bench) -> None:
    """Prints the names of the programs above their columns."""
    named = "".join(f" {it.name:>18}" for it in bench.programs)
    print(f"{'milliseconds and megabytes':52}{named}")


def measure_programs(
    words: argparse.Namespace, css: str, tree: List[str], source: str
) -> Iterator[str]:
    """Measures the programs, writes the picture, and yields the table."""
    bench = Bench(programs_of(words), words.out, words.runs)
    show_names(bench)
    read_sheets(bench, css, words.quick)
    match_parts(bench, css, tree, words.quick)
    if not words.quick:
        match_made(bench, css, tree)
        match_sheets(bench, tree)
    bench.put("speed.svg", picture(bench))
    yield table(bench, source) + "\n"


def measure_libraries(
    words: argparse.Namespace, css: str, tree: List[str], source: str
) -> Iterator[str]:
    """Measures the libraries for C and Rust, and yields the table."""
    programs = libraries(words.out, os.path.abspath(words.archive), words.modern)
    bench = Bench(programs, words.out, words.runs)
    if not bench.programs or bench.programs[0].name != "C":
        sys.exit(f"the C library is not measured: there is no gcc, or no {words.archive}")
    show_libraries(bench, css, tree, words.quick)
    yield table(bench, source) + "\n"


def measure_python(
    words: argparse.Namespace, css: str, page: Optional[str], tree: List[str]
) -> Iterator[str]:
    """Measures the Python package, prints its tables, and yields their lines."""
    if not page:
        sys.exit("the sheet and the page cannot be fetched")
    bench = Bench([], words.out, words.runs)
    files = [bench.put("page.html", page), bench.put("sheet.css", css)]
    rows = [python_rows(files), selector_rows(bench, files[1]), shared_rows(files)]
    if not words.quick:
        rows.append(ready_rows(bench, tree, words.modern and os.path.abspath(words.modern)))
    for table_of_rows in rows:
        for line in table_of_rows:
            print(line, flush=True)
            yield line + "\n"
        yield "\n"


def main() -> None:
    """Makes all rows, the tables and the picture."""
    words = words_of()
    os.makedirs(words.out, exist_ok=True)
    css = fetched(words.out, "libjs-bootstrap4", "bootstrap.css")
    page = fetched(words.out, "developers-reference", "developers-reference.html")
    source = (
        "bootstrap.css of Debian's libjs-bootstrap4, and the page developers-reference.html of"
        " Debian"
    )
    elements = Elements()
    if css and page:
        elements.feed(page)
    else:
        source = "a sheet and a page that this script makes"
        css, page, elements.lines = made_sheet(1400), None, made_tree(8400).splitlines()
    parts: List[str] = []
    if words.program:
        parts += measure_programs(words, css, elements.lines, source)
    if words.libraries:
        parts += measure_libraries(words, css, elements.lines, source)
    if words.python:
        parts += measure_python(words, css, page, elements.lines)
    path = os.path.join(words.out, "speed.md")
    with open(path, "w", encoding="utf-8") as file:
        file.writelines(parts)
    print(f"written: {path}")


if __name__ == "__main__":
    main()
