"""Measures how long pages in HTML take to be read, beside html5ever and in Python.

    html.py [--out FOLDER] [PAGE ..]    pages, or else two that are made

The erased library and html5ever (Debian's librust-html5ever-dev) read each page in turn in one process, which
cargo makes of bench/html.rs in FOLDER (html-speed in the temporary folder). The least processor time counts. Of
the library it is shown for tokens with their attributes, for the tree with places, for all that C's
`simplecss_html` writes, and for `modern::html::Page`; beside html5ever's tokens and its tree, whose nodes are in a
list. Python's `Tree.from_html` reads the same pages, over the library that SIMPLECSS_LIBRARY names.
"""
from __future__ import annotations

import argparse
import os
import shutil
import subprocess
import sys
import tempfile
import time
from pathlib import Path
from typing import Dict, List, Sequence

TOP = Path(__file__).resolve().parent.parent
REGISTRY = "/usr/share/cargo/registry"
PROJECT = """[package]
name = "html"
version = "0.0.0"
edition = "2021"
[dependencies]
simplecss = { path = "../crate", default-features = false, features = ["modern"] }
html5ever = "0.26"
[patch.crates-io]
tendril = { path = "../tendril" }
[profile.release]
lto = true
codegen-units = 1
[workspace]
"""
CONFIG = f"""[source.crates-io]
replace-with = "debian"
[source.debian]
directory = "{REGISTRY}"
"""
# How often Python reads a page.
RUNS = 15


def table(size: int) -> str:
    """Returns a table as of a mail, of about this size: most of it are attributes."""
    cell = (
        '<td align="left" valign="top" style="padding: 0 0 8px 0; font-size: 14px" class="cell c{}">'
        '<a href="https://example.org/{}?a=1&amp;b=2" target="_blank">item {}</a></td>'
    )
    row = "<tr>" + "".join(cell.format(at, at, at) for at in range(6)) + "</tr>\n"
    return f"<!DOCTYPE html><body><table>{row * (size // len(row))}</table>"


def article(size: int) -> str:
    """Returns an article of about this size: most of it is text."""
    words = "Some words of an article, with a reference &mdash; or two &amp; no more. " * 5
    part = f"<h2 id=part>Part</h2><p>{words}<p>{words} <em>and</em> <a href='#x'>a link</a>.<ul><li>{words}</ul>\n"
    return f"<!DOCTYPE html><title>Article</title><body>{part * (size // len(part))}"


def run(words: Sequence[str], folder: Path, **more: str) -> str:
    """Runs a program, and returns what it prints."""
    done = subprocess.run(
        words, cwd=folder, env={**os.environ, **more}, capture_output=True, text=True
    )
    if done.returncode:
        sys.exit(f"bench/html.py: {' '.join(words)}: {(done.stdout + done.stderr)[-3000:]}")
    return done.stdout


def mend_tendril(to: Path) -> None:
    """Copies the strings of html5ever, which newer compilers refuse: a field in a packed structure is borrowed."""
    [found] = Path(REGISTRY).glob("tendril-*")
    shutil.copytree(found, to, dirs_exist_ok=True)
    source = to / "src" / "tendril.rs"
    source.write_text(source.read_text().replace("#[repr(packed)]", "#[repr(C)]"))


def made(folder: Path) -> Path:
    """Returns the program, which it makes of the erased sources."""
    crate, project = folder / "crate", folder / "project"
    mend_tendril(folder / "tendril")
    run([sys.executable, str(TOP / "tools/erase.py"), str(crate)], TOP)
    library = crate / "src" / "lib.rs"
    text = library.read_text()
    for name in ("erased", "rattle_std"):
        text = text.replace(f"\nmod {name};", f"\npub mod {name};")
    library.write_text(text.replace("#![warn(missing_docs)]", "#![allow(missing_docs)]"))
    (project / "src").mkdir(parents=True, exist_ok=True)
    (project / "home").mkdir(exist_ok=True)
    (project / "home" / "config.toml").write_text(CONFIG)
    (project / "Cargo.toml").write_text(PROJECT)
    (project / "src" / "main.rs").write_text((TOP / "bench/html.rs").read_text())
    more = {"CARGO_HOME": str(project / "home")}
    run(["cargo", "build", "--release", "--offline", "-q"], project, **more)
    return project / "target" / "release" / "html"


def pages(folder: Path, names: Sequence[str]) -> List[Path]:
    """Returns the pages that are measured."""
    if names:
        return [Path(it) for it in names]
    for name, text in (("table", table(424_000)), ("article", article(424_000))):
        (folder / f"{name}.html").write_text(text)
    return [folder / "table.html", folder / "article.html"]


def in_python(page: Path) -> float:
    """Returns the least processor time in which Python reads a page, in milliseconds."""
    sys.path.insert(0, str(TOP / "python" / "src"))
    from simplecss import Tree

    text = page.read_text()
    times: Dict[int, float] = {}
    for at in range(RUNS):
        start = time.process_time()
        Tree.from_html(text)
        times[at] = time.process_time() - start
    return 1000 * min(times.values())


def main() -> None:
    """Prints a table."""
    parser = argparse.ArgumentParser()
    parser.add_argument("--out", default=os.path.join(tempfile.gettempdir(), "html-speed"))
    parser.add_argument("pages", nargs="*")
    words = parser.parse_args()
    folder = Path(words.out)
    folder.mkdir(parents=True, exist_ok=True)
    chosen = pages(folder, words.pages)
    lines = run([str(made(folder)), *map(str, chosen)], folder).splitlines()
    print(
        "|page|kB|tokens MB/s|html5ever's time|tree MB/s|C MB/s|Rust MB/s|html5ever's by C|Python ms|"
    )
    print("|---|---|---|---|---|---|---|---|---|")
    for page, line in zip(chosen, lines):
        size, *times = map(int, line.split())
        ours, theirs, tree, call, rust, their_tree = (max(it, 1) for it in times)
        fields = [f"{size / it:.0f}" for it in (ours, tree, call, rust)]
        ratios = [f"{one / other:.2f}" for one, other in ((theirs, ours), (their_tree, call))]
        cells = [fields[0], ratios[0], *fields[1:], ratios[1], f"{in_python(page):.1f}"]
        print(f"|{page.stem}|{size / 1000:.0f}|{'|'.join(cells)}|")


if __name__ == "__main__":
    main()
