#!/usr/bin/env python3
"""Makes a site of the documents, with a search that also works from a file: ./build docs [DIR].

    make_site.py [DIR]    writes DIR/index.html and the pages beside it, by default in out/docs

It needs Sphinx with its readers of Markdown, which Debian has: python3-sphinx, python3-myst-parser
and furo. Sphinx reads the pages where they are, and this file is its extension: it puts a table of
contents after README.md, by the rows of docs/README.md, and into docs/REFERENCE.md what the Python
package documents of its names. A link that leads nowhere is an error.
"""
from __future__ import annotations

import os
import re
import shutil
import subprocess
import sys
from pathlib import Path
from typing import Any, Dict, List, Tuple

TOP = Path(__file__).resolve().parent.parent
FRONT, INDEX, REFERENCE = "README", "docs/README", "docs/REFERENCE"
# The Python that Debian's packages are for.
DEBIAN = "/usr/bin/python3"
NEEDED = {"sphinx": "python3-sphinx", "myst_parser": "python3-myst-parser", "furo": "furo"}
PAGES = ("*.md", "docs/*.md", "docs/first_steps/*.md", "examples/README.md")
SETTINGS = {
    "project": "simplecss",
    "html_title": "simplecss",
    "root_doc": FRONT,
    "extensions": "myst_parser,sphinx.ext.autodoc,make_site",
    "include_patterns": ",".join(PAGES),
    "html_theme": "furo",
    # Of Python: what is between single backquotes is code, and names are those that programs import.
    "default_role": "code",
    "add_module_names": "0",
    "autodoc_typehints_format": "short",
    "autodoc_preserve_defaults": "1",
    "python_use_unqualified_type_names": "1",
    "html_copy_source": "0",
    "html_show_sphinx": "0",
    "html_show_copyright": "0",
    "pygments_style": "friendly",
    # What no reader of code knows is shown as it is.
    "suppress_warnings": "misc.highlighting_failure,myst.header",
}


def contents(index: str) -> str:
    """The table of contents: the index, and for each of its rows the pages that it links to."""
    parts: List[Tuple[str, List[str]]] = [("", [INDEX])]
    for caption, cell in re.findall(r"^\| \*\*(.+?)\*\* \|(.*)\|$", index, re.MULTILINE):
        links = re.findall(r"\]\(([^)#:]+)\.md\)", cell)
        names = [os.path.normpath(os.path.join(os.path.dirname(INDEX), it)) for it in links]
        parts.append((caption, names))
    tables = []
    for caption, names in parts:
        head = ["```{toctree}", ":hidden:", *([f":caption: {caption}"] if caption else [])]
        tables.append("\n".join([*head, "", *(f"/{name}" for name in names), "```"]))
    return "\n\n".join(tables)


def reference() -> str:
    """What the Python package documents of its names."""
    lines = ["```{eval-rst}"]
    for name in ("simplecss", "simplecss.sieve"):
        lines += [f".. automodule:: {name}", "   :members:"]
        lines.append("   :inherited-members: list, tuple, ValueError, RuntimeError, OSError")
    return "\n".join([*lines, "```"])


def drop_numbers(_: Any, __: str, ___: str, ____: Any, _____: Any, lines: List[str]) -> None:
    """Leaves out what Python itself documents of the field of a tuple."""
    if lines and lines[0].startswith("Alias for field number "):
        lines.clear()


def setup(app: Any) -> Dict[str, Any]:
    """Lets Sphinx read pages by this file."""
    app.connect("config-inited", set_anchors)
    app.connect("source-read", put_contents)
    app.connect("html-page-context", put_style)
    app.connect("autodoc-process-docstring", drop_numbers)
    return {"parallel_read_safe": True}


def set_anchors(_: Any, config: Any) -> None:
    """Gives headings the anchors that links name."""
    config.myst_heading_anchors = 4


def put_style(_: Any, __: str, ___: str, context: Dict[str, Any], *____: Any) -> None:
    """Lets a page begin at the edge of its window, as the theme is made for."""
    context["metatags"] = context.get("metatags", "") + "<style>body { margin: 0 }</style>"


def put_contents(_: Any, name: str, source: List[str]) -> None:
    """Puts the contents after the front page, and takes links to files that are no pages as code."""
    folder = TOP / Path(name).parent

    def plain(link: re.Match[str]) -> str:
        target = folder / link[2].partition("#")[0]
        is_page = target.suffix in (".md", ".png", ".svg")
        return link[0] if is_page else link[1] if link[1][0] == "`" else f"`{link[1]}`"

    source[0] = re.sub(r"(?<!!)\[([^]\[]+)\]\((?!\w+:|#)([^)]+)\)", plain, source[0])
    # A picture that is a link to itself opens, and is not stored.
    target = "../" * name.count("/") + r"_images/\2"
    opened = r"```{image} \2\n:alt: \1\n:target: " + target + "\n```"
    source[0] = re.sub(r"\[!\[([^\]]*)\]\((\S+)\)\]\(\2\)", opened, source[0])
    if name == FRONT:
        source[0] += "\n" + contents((TOP / f"{INDEX}.md").read_text())
    elif name == REFERENCE:
        source[0] += "\n" + reference()


def find_python() -> str:
    """A Python that has what is needed, or an empty text."""
    line = "import " + ", ".join(NEEDED)
    for python in (sys.executable, DEBIAN):
        if os.path.exists(python):
            words = [python, "-c", line]
            if not subprocess.run(words, stderr=subprocess.DEVNULL, check=False).returncode:
                return python
    return ""


def main(words: List[str]) -> int:
    """Makes the site."""
    if words[:1] in (["-h"], ["--help"]) or len(words) > 1:
        print(__doc__, end="", file=sys.stdout if len(words) == 1 else sys.stderr)
        return 0 if len(words) == 1 else 2
    python, to = find_python(), Path(words[0] if words else TOP / "out/docs").absolute()
    if not python:
        packages = " ".join(NEEDED.values())
        print(f"build: no site is made: it needs Debian's packages {packages}", file=sys.stderr)
        return 1
    settings = [f"-D{name}={value}" for name, value in SETTINGS.items()]
    call = [python, "-m", "sphinx", "-q", "-W", "--keep-going", "-E", "-C", "-d"]
    paths = [str(to / ".doctrees"), *settings, str(TOP), str(to)]
    folders = map(str, (TOP / "tools", TOP / "python/src"))
    environment = {**os.environ, "PYTHONPATH": os.pathsep.join(folders)}
    done = subprocess.run([*call, *paths], cwd=TOP, env=environment, check=False)
    if done.returncode == 0:
        shutil.copy(to / f"{FRONT}.html", to / "index.html")
        print(f"build: {to / 'index.html'}", file=sys.stderr)
    return done.returncode


if __name__ == "__main__":
    sys.exit(main(sys.argv[1:]))
