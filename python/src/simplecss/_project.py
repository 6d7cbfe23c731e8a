"""What a project says of `lint`: in `pyproject.toml` or `simplecss.toml` the table
`[tool.simplecss.lint]`, and in `package.json` the same keys in `simplecss.lint`. And which files of
its folders are not its own: those of `.gitignore` and `node_modules`."""

from __future__ import annotations

import fnmatch
import importlib
import json
import os
import re
from pathlib import Path
from typing import (
    Any,
    Callable,
    Dict,
    Iterable,
    Iterator,
    List,
    Mapping,
    NamedTuple,
    Optional,
    Sequence,
    Tuple,
)

SEVERITIES = ("error", "warning", "note")
# The files that a project may have its settings in; the first one with them counts.
_FILES = (
    ("simplecss.toml", ("tool", "simplecss", "lint")),
    ("pyproject.toml", ("tool", "simplecss", "lint")),
    ("package.json", ("simplecss", "lint")),
)
_LISTS = ("exclude", "select", "ignore")
_KEYS = (*_LISTS, "severity")
# The folders that are never looked into.
_FOREIGN = ("node_modules", ".git")
_GITIGNORE = ".gitignore"
# What is for any number of folders.
_ANY = "**"
_ESCAPED = re.compile(r"\\(.)")


class ProjectError(Exception):
    """Settings that cannot be read, or are none."""


class Project(NamedTuple):
    """The settings of a project: the folder that they are in, patterns of files that are left out,
    the beginnings of kinds that are reported and that are not, and how bad kinds are, by their
    beginnings."""

    folder: str = "."
    exclude: Tuple[str, ...] = ()
    select: Tuple[str, ...] = ()
    ignore: Tuple[str, ...] = ()
    severity: Mapping[str, str] = {}

    def level(self, kind: str) -> Optional[str]:
        """How bad a kind is, if the project says so: by the longest beginning of it."""
        found = [each for each in self.severity if kind.startswith(each)]
        return self.severity[max(found, key=len)] if found else None

    def reports(self, kind: str, select: Iterable[str] = (), ignore: Iterable[str] = ()) -> bool:
        """Whether findings of a kind are reported, where these beginnings of kinds are asked for in place of
        the project's, and these are left out, too."""
        selected = tuple(select) or self.select
        is_selected = not selected or kind.startswith(selected)
        return is_selected and not kind.startswith((*ignore, *self.ignore))


def project_of(folder: str) -> Project:
    """Returns the settings of the project that a folder is in: those of the first folder, from this
    one upwards, that has some."""
    for each in (Path(folder).resolve(), *Path(folder).resolve().parents):
        for name, keys in _FILES:
            path = each / name
            if path.is_file():
                found = _table(path, keys)
                if found is not None:
                    return _project(path, found)
        if (each / ".git").exists():
            break
    return Project()


def _table(path: Path, keys: Sequence[str]) -> Optional[Any]:
    """Returns the table of a file with these keys, one in the other, if it has one."""
    try:
        text = path.read_text(encoding="utf-8")
        if path.suffix == ".toml" and keys[1] not in text:
            return None
        found = json.loads(text) if path.suffix == ".json" else _toml(text)
    except OSError as error:
        raise ProjectError(f"cannot read {path}: {error.strerror}") from None
    except ValueError as error:
        raise ProjectError(f"{path}: {error}") from None
    except RecursionError:
        raise ProjectError(f"{path}: too deep") from None
    for key in keys:
        if not isinstance(found, dict) or key not in found:
            return None
        found = found[key]
    return found


def _toml(text: str) -> Any:
    """Returns what a text in TOML has. Python reads it from version 3.11 on."""
    for name in ("tomllib", "tomli"):
        try:
            module = importlib.import_module(name)
        except ImportError:
            continue
        return module.loads(text)
    raise ValueError("TOML is read by Python 3.11, or with the package tomli")


def _project(path: Path, table: Any) -> Project:
    """Returns the settings of a table. Each key has to be one of them, with a value of its type."""
    if not isinstance(table, dict):
        raise ProjectError(f"{path}: the settings of lint must be a table")
    for key in table:
        if key not in _KEYS:
            raise ProjectError(f"{path}: unknown key '{key}'")
    lists: Dict[str, Tuple[str, ...]] = {}
    for key in _LISTS:
        value = table.get(key, [])
        if not isinstance(value, list) or not all(isinstance(each, str) for each in value):
            raise ProjectError(f"{path}: '{key}' must be a list of strings")
        lists[key] = tuple(value)
    severity = table.get("severity", {})
    if not isinstance(severity, dict) or not all(each in SEVERITIES for each in severity.values()):
        values = ", ".join(SEVERITIES)
        raise ProjectError(f"{path}: 'severity' must be a table with the values {values}")
    return Project(str(path.parent), severity=severity, **lists)


class _Pattern(NamedTuple):
    """A line of `.gitignore`: the patterns of the folders and the name of a path, of which `**` is
    for any number; whether it takes a file back, and whether it is of folders alone."""

    parts: Tuple[str, ...]
    takes_back: bool
    is_of_folders: bool

    def matches(self, path: Sequence[str]) -> bool:
        """Whether it matches the folders and the name of a path: what is after the last `**` so far
        is tried from each place on."""
        at, part = 0, 0
        retried: Optional[Tuple[int, int]] = None
        while at < len(path):
            if part < len(self.parts) and self.parts[part] == _ANY:
                part += 1
                retried = (at, part)
            elif part < len(self.parts) and fnmatch.fnmatchcase(path[at], self.parts[part]):
                at, part = at + 1, part + 1
            elif retried is not None:
                retried = (retried[0] + 1, retried[1])
                at, part = retried
            else:
                return False
        return all(each == _ANY for each in self.parts[part:])


def _pattern(line: str) -> Optional[_Pattern]:
    """Returns the pattern of a line, if it has one."""
    text = line.rstrip("\r\n")
    text = text if text.endswith("\\ ") else text.rstrip(" ")
    if not text or text.startswith("#"):
        return None
    takes_back = text.startswith("!")
    text = text[takes_back:]
    is_of_folders = text.endswith("/")
    text = text.rstrip("/")
    # A sign with a backslash before it is that sign.
    parts = [_ESCAPED.sub(r"[\1]", each) for each in text.split("/") if each]
    if "/" not in text:
        parts.insert(0, _ANY)
    if parts[-1:] == [_ANY]:
        # What is in a folder, and not the folder.
        parts.append("*")
    return _Pattern(tuple(parts), takes_back, is_of_folders) if text else None


class _Level(NamedTuple):
    """A folder, and the patterns that it has for what is in it."""

    folder: str
    patterns: List[_Pattern]


def _level(folder: str) -> _Level:
    """Returns a folder with the patterns of its `.gitignore`."""
    path = os.path.join(folder, _GITIGNORE)
    try:
        with open(path, encoding="utf-8", errors="surrogateescape") as file:
            found = [_pattern(line) for line in file]
    except OSError:
        found = []
    return _Level(folder, [each for each in found if each is not None])


def _levels_above(folder: str) -> List[_Level]:
    """Returns the folders of the repository that a folder is in, the outermost first, without it."""
    path = Path(folder).resolve()
    parents: List[Path] = []
    for each in (path, *path.parents):
        if each != path:
            parents.append(each)
        if (each / ".git").exists():
            return [_level(str(parent)) for parent in reversed(parents)]
    return []


def _is_ignored(path: str, is_folder: bool, levels: Sequence[_Level]) -> bool:
    """Whether the last pattern that matches a path leaves it out."""
    for level in reversed(levels):
        inner = os.path.relpath(path, level.folder).split(os.sep)
        for each in reversed(level.patterns):
            if (is_folder or not each.is_of_folders) and each.matches(inner):
                return not each.takes_back
    return False


def files_in(folder: str, is_wanted: Callable[[str], bool], project: Project) -> List[str]:
    """Returns the files in a folder that are wanted, in order, without foreign ones, those that git
    ignores, and those that the project excludes."""
    return sorted(_walk(folder, is_wanted, _exclusions(project), _levels_above(folder)))


def _exclusions(project: Project) -> Optional[_Level]:
    """Returns what a project excludes, from its folder on."""
    found = [_pattern(each) for each in project.exclude]
    patterns = [each for each in found if each is not None]
    return _Level(project.folder, patterns) if patterns else None


def _walk(
    folder: str,
    is_wanted: Callable[[str], bool],
    excluded: Optional[_Level],
    above: Sequence[_Level],
) -> Iterator[str]:
    """Yields the files in a folder, below folders with these patterns."""
    waiting: List[Tuple[str, List[_Level]]] = [(folder, list(above))]
    while waiting:
        at, outer = waiting.pop()
        levels = [*outer, _level(at)]
        own = [*levels, excluded] if excluded else levels
        try:
            entries = list(os.scandir(at))
        except OSError:
            continue
        for entry in entries:
            is_folder = entry.is_dir(follow_symlinks=False)
            if is_folder and entry.name in _FOREIGN:
                continue
            path = str(Path(at, entry.name))
            if _is_ignored(os.path.abspath(path), is_folder, _absolute(own)):
                continue
            if is_folder:
                waiting.append((path, levels))
            elif entry.is_file() and is_wanted(path):
                yield path


def _absolute(levels: Sequence[_Level]) -> List[_Level]:
    """Returns the folders with their whole paths."""
    return [_Level(os.path.abspath(each.folder), each.patterns) for each in levels]


def is_excluded(name: str, project: Project) -> bool:
    """Whether the project excludes a file."""
    level = _exclusions(project)
    if level is None:
        return False
    path = Path(name).resolve()
    paths = [(path, False), *((each, True) for each in path.parents)]
    own = Path(project.folder).resolve()
    return any(
        _is_ignored(str(each), is_folder, [_Level(str(own), level.patterns)])
        for each, is_folder in paths
        if own in each.parents
    )
