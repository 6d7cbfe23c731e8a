"""What every package states of this project: its one source is python/pyproject.toml.

A field that the file leaves out is left out of each package, too: none has a placeholder.
"""

from __future__ import annotations

import re
from pathlib import Path
from typing import Dict, List, NamedTuple, Tuple

TOP = Path(__file__).resolve().parent.parent
STATED = TOP / "python/pyproject.toml"


class Person(NamedTuple):
    """An author."""

    name: str
    email: str

    def __str__(self) -> str:
        """The name, and the address between angle brackets if there is one."""
        return f"{self.name} <{self.email}>" if self.email else self.name


class Metadata(NamedTuple):
    """The fields of the project."""

    version: str
    summary: str
    licence: str
    python: str
    keywords: List[str]
    classifiers: List[str]
    # What each extra requires.
    extras: Dict[str, List[str]]
    scripts: Dict[str, str]
    authors: List[Person]
    # Urls by their labels, such as `Repository`.
    urls: Dict[str, str]
    # The name under which the crate may be published: `simplecss` is that of another one.
    crate: str

    @property
    def repository(self) -> str:
        """The url of the repository, or nothing."""
        return self.urls.get("Repository", "")


def strings(text: str) -> List[str]:
    """Returns the strings of a list."""
    return re.findall(r'"([^"]*)"', text)


def tables_of(text: str) -> Dict[str, Dict[str, str]]:
    """Returns the tables of a file of TOML: the values as they are written, by keys. A value is a
    string or list, which may take several lines, and a table of a list one line."""
    found: Dict[str, Dict[str, str]] = {}
    for part in re.split(r"(?m)^(?=\[[\w.-]+\]$)", text):
        if not part.startswith("["):
            continue
        name, _, body = part.partition("\n")
        pairs = re.findall(r"(?ms)^([\w.-]+) *= *(\[.*?\]$|[^\n]*)", body)
        found[name.strip("[]")] = dict(pairs)
    return found


def read_version() -> str:
    """Returns the version, which the header states."""
    header = (TOP / "include/simplecss.h").read_text(encoding="utf-8")
    return str(re.findall(r'SIMPLECSS_VERSION "(.*)"', header)[0])


def people_of(text: str) -> List[Person]:
    """Returns the authors of a list of tables."""
    found = []
    for table in re.findall(r"\{(.*?)\}", text):
        fields = dict(re.findall(r'(\w+) *= *"([^"]*)"', table))
        found.append(Person(fields.get("name", ""), fields.get("email", "")))
    return found


def read_metadata() -> Metadata:
    """Returns what the file states."""
    tables = tables_of(STATED.read_text(encoding="utf-8"))
    project = tables["project"]

    def one(table: Dict[str, str]) -> Dict[str, str]:
        return {key: strings(value)[0] for key, value in table.items()}

    extras = tables.get("project.optional-dependencies", {})
    return Metadata(
        version=read_version(),
        summary=strings(project["description"])[0],
        licence=strings(tables["tool.simplecss"]["licence"])[0],
        python=strings(project["requires-python"])[0],
        keywords=strings(project["keywords"]),
        classifiers=strings(project["classifiers"]),
        extras={key: strings(value) for key, value in extras.items()},
        scripts=one(tables["project.scripts"]),
        authors=people_of(project.get("authors", "")),
        urls=one(tables.get("project.urls", {})),
        crate=strings(tables["tool.simplecss"]["crate"])[0],
    )
