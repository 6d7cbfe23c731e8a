"""The command line: `python3 -m simplecss COMMAND`, of which `--help` shows all."""

from __future__ import annotations

from . import _interrupt

# What is imported after this takes a while.
_interrupt.end_at_once()

import argparse
import concurrent.futures
import glob
import io
import multiprocessing
import os
import sys
import threading
import time
from pathlib import Path
from typing import (
    Any,
    Callable,
    Iterator,
    List,
    NamedTuple,
    Optional,
    Sequence,
    TextIO,
    Tuple,
    Type,
    cast,
)

from . import _jobs, _lint
from ._clean import POLICIES
from ._completions import SHELLS
from ._device import TYPES, Device
from ._elements import TreeError
from ._jobs import (
    DONE,
    INPUT,
    OUT_OF_MEMORY,
    REFUSED,
    UNREADABLE,
    USAGE,
    Failure,
    Job,
    Outcome,
)
from ._library import InternalError, LibraryError, LimitError, __version__
from ._output import json_line, printable, printable_lines
from ._project import Project, ProjectError, files_in, is_excluded, project_of
from ._selectors import MODERN, PORT, TODAY, SelectorError
from ._server import Server
from ._sheet import sheet_of_texts, usage_of
from ._tree import Tree, elements_of
from ._watch import repeat
from ._words import words_of
from ._writing import abandon, write_file
from ._xml import is_xml

# How a terminal shows what is this bad: in bold, and red, yellow or cyan.
_COLOURS = {"error": "1;31", "warning": "1;33", "note": "1;36"}
# After how many seconds a bar of progress is shown.
_PATIENCE = 2.0
# What the lists of operands are called.
_LISTS = ("files", "pages", "sheets")
# From how many pages on they are shared out among processes, which take a while to begin.
_MANY = 8


class _Progress:
    """How many of the files are done, shown on a terminal."""

    def __init__(self) -> None:
        self.done = 0
        self.count = 0
        # Whether nothing is done, but files are watched.
        self.is_idle = False
        self._start = time.monotonic()
        self._is_shown = False

    def show(self) -> None:
        """Writes the bar, if the work takes long."""
        seconds = time.monotonic() - self._start
        is_shown = sys.stderr is not None and sys.stderr.isatty()
        if self.is_idle or seconds < _PATIENCE or not is_shown:
            return
        filled = 20 * self.done // max(self.count, 1)
        bar = "#" * filled + "." * (20 - filled)
        files = f"{self.done} of {self.count} files, " if self.count > 1 else ""
        sys.stderr.write(f"\r\033[Ksimplecss: [{bar}] {files}{seconds:.0f} s")
        sys.stderr.flush()
        self._is_shown = True

    def clear(self) -> None:
        """Removes the bar."""
        if self._is_shown and sys.stderr is not None:
            sys.stderr.write("\r\033[K")
            sys.stderr.flush()


_progress = _Progress()


class _File(NamedTuple):
    """A file that is named, and its path from the folder that it was found in."""

    name: str
    inner: str


def _is_linted(name: str) -> bool:
    """Whether a file of a folder is one that `lint` reads."""
    return _is_wanted(name, True) or _lint.is_component(name)


def _is_wanted(name: str, has_sheets: bool) -> bool:
    """Whether a file of a folder is a page, or a sheet where these are asked for."""
    return _lint.is_page(name) or has_sheets and name.lower().endswith(".css")


def _files_of(name: str, has_sheets: bool = False, has_components: bool = False) -> List[_File]:
    """Returns the files that a word names: one, those of a pattern, or the pages in a folder, and
    the sheets and the components where these are asked for."""
    if name == INPUT or os.path.isfile(name):
        return [_File(name, os.path.basename(name))]
    if os.path.isdir(name):
        every = sorted(str(each) for each in Path(name).rglob("*") if each.is_file())
        return [
            _File(each, os.path.relpath(each, name))
            for each in every
            if _is_wanted(each, has_sheets) or has_components and _lint.is_component(each)
        ]
    found = sorted(glob.glob(name, recursive=True)) if glob.has_magic(name) else []
    files = [_File(each, os.path.basename(each)) for each in found if os.path.isfile(each)]
    return files or [_File(name, os.path.basename(name))]


def _is_pages(name: str) -> bool:
    """Whether a word names pages: by its extension, or as a folder or a pattern."""
    is_pattern = glob.has_magic(name) and not name.lower().endswith(".css")
    return _lint.is_page(name) or os.path.isdir(name) or is_pattern and not os.path.isfile(name)


def _parted(words: Sequence[str], page: int) -> Tuple[List[_File], List[str]]:
    """Returns the pages and the sheets that words name, of which one is a page in any case."""
    pages: List[_File] = []
    sheets: List[str] = []
    page %= len(words)
    for at, name in enumerate(words):
        if at == page or _is_pages(name):
            pages += _files_of(name)
        else:
            sheets.append(name)
    return pages, sheets


def _free_processors() -> int:
    """Returns how many processors have no work, at least one."""
    has_affinity = hasattr(os, "sched_getaffinity")
    count = len(os.sched_getaffinity(0)) if has_affinity else os.cpu_count() or 1
    try:
        return max(1, count - int(os.getloadavg()[0]))
    except (OSError, AttributeError):
        return count


def _each(job: Job, names: Sequence[str]) -> Iterator[Outcome]:
    """Yields what a job does with each of the files, in order."""
    _progress.count = len(names)
    workers = min(len(names), _free_processors())
    if len(names) < _MANY or workers < 2 or INPUT in names:
        for name in names:
            yield job(name)
            _progress.done += 1
        return
    context = multiprocessing.get_context("spawn")
    with concurrent.futures.ProcessPoolExecutor(workers, mp_context=context) as pool:
        for outcome in pool.map(job, names, chunksize=4):
            yield outcome
            _progress.done += 1


def _write(data: bytes) -> None:
    """Writes to standard output."""
    if hasattr(sys.stdout, "buffer"):
        sys.stdout.flush()
        sys.stdout.buffer.write(data)
    else:
        sys.stdout.write(data.decode("utf-8", "replace"))


def _say_all(outcome: Outcome) -> None:
    for message in outcome.messages:
        _say(message)


def _show_each(words: argparse.Namespace, pages: Sequence[_File]) -> Tuple[int, int]:
    """Writes what comes of each page. Returns the status, and how many elements were found."""
    status, found = DONE, 0
    job = words.job(words, sys.stdout.isatty())
    for outcome in _each(job, [each.name for each in pages]):
        _say_all(outcome)
        _write(outcome.output)
        status = max(status, outcome.status)
        found += outcome.found
    return status, found


def _read_pages(words: argparse.Namespace) -> int:
    pages, words.sheets = _parted(words.files, -1)
    return _show_each(words, pages)[0]


def _is_file(word: str) -> bool:
    """Whether a word names files: by its extension, as a pattern, or since there is one."""
    return word == INPUT or word.lower().endswith(".css") or _is_pages(word) or os.path.exists(word)


def _style(words: argparse.Namespace) -> int:
    """Writes what wins of the property that the last word names, as for `cssq`. An earlier version
    took the first."""
    if len(words.files) < 2:
        raise Failure("style wants a PAGE and a NAME", USAGE)
    if _is_file(words.files[-1]) and not _is_file(words.files[0]):
        _say(f"style NAME PAGE is now style PAGE NAME: the name {words.files[0]} comes last")
        words.name, *words.files = words.files
    else:
        *words.files, words.name = words.files
    return _read_pages(words)


def _select(words: argparse.Namespace) -> int:
    pages = [each for name in words.pages for each in _files_of(name)]
    words.is_of_many = len(pages) > 1
    try:
        Tree().select(words.selectors, grammar=words.grammar)
    except SelectorError as error:
        raise Failure(f"selector refused: {error.message}", REFUSED) from None
    status, found = _show_each(words, pages)
    return status or (REFUSED if words.quiet and not found else DONE)


def _compare(words: argparse.Namespace) -> int:
    pages = [each for name in words.pages for each in _files_of(name)]
    status, found = _show_each(words, pages)
    return status or (REFUSED if found else DONE)


def _explain_page(words: argparse.Namespace) -> int:
    """Explains which declaration wins, on standard output or in a page of HTML."""
    job: Job = words.job(words, sys.stdout.isatty() and words.html is None)
    outcome = job(words.page)
    _say_all(outcome)
    if outcome.status != DONE:
        return outcome.status
    if words.html is None:
        _write(outcome.output)
    else:
        _write_into(Path(words.html), outcome.output)
    return DONE if outcome.found else REFUSED


def _write_into(path: Path, output: bytes) -> None:
    """Writes a file."""
    try:
        write_file(path, output)
    except OSError as error:
        raise Failure(f"cannot write {path}: {error.strerror}", UNREADABLE) from None


def _inline(words: argparse.Namespace) -> int:
    pages, words.sheets = _parted(words.files, 0)
    return _write_each(words, pages, "pages")


def _watched(words: argparse.Namespace) -> List[str]:
    """Returns the files that a command reads: those that its words name, and the sheets that pages link
    to."""
    named = [each.name for name in words.operands(words) for each in _files_of(name, True)]
    pages = [name for name in named if _lint.is_page(name)]
    files = []
    for outcome in map(_jobs.Linked(words, False), pages):
        files += outcome.output.decode("utf-8", "surrogateescape").split("\0")[:-1]
    return list(dict.fromkeys([*named, *files]))


def _run_watching(words: argparse.Namespace) -> int:
    """Runs a command each time that one of its files changes, until it is interrupted."""
    if INPUT in words.operands(words):
        raise Failure("standard input cannot be watched", USAGE)

    def run() -> None:
        _progress.is_idle = False
        try:
            words.run(words)
        except Failure as failure:
            _say(str(failure))
        sys.stdout.flush()
        _progress.clear()
        _progress.is_idle = True

    repeat(run, lambda: _watched(words))
    return DONE


def _complete(words: argparse.Namespace) -> int:
    sys.stdout.write(SHELLS[words.shell](_parser()))
    return DONE


def _sheets_of(words: argparse.Namespace) -> List[_File]:
    """Returns the style sheets that words name."""
    pages = [name for name in words.sheets if _lint.is_page(name)]
    if pages:
        raise Failure(f"{pages[0]} is not a style sheet", USAGE)
    files = [each for name in words.sheets for each in _files_of(name, True)]
    return [each for each in files if not _lint.is_page(each.name)]


def _minify(words: argparse.Namespace) -> int:
    return _write_each(words, _sheets_of(words), "sheets")


def _clean(words: argparse.Namespace) -> int:
    files = _sheets_of(words)
    return _show_each(words, files)[0] if words.check else _write_each(words, files, "sheets")


def _write_each(words: argparse.Namespace, pages: Sequence[_File], kind: str) -> int:
    """Writes what comes of each page or sheet, or writes it into a file: the output, or one in it if
    that is a folder."""
    if words.output is None:
        if len(pages) > 1 and not words.json:
            raise Failure(f"several {kind} need -o FOLDER", USAGE)
        return _show_each(words, pages)[0]
    output = Path(words.output)
    is_folder = len(pages) != 1 or output.is_dir() or words.output.endswith(("/", os.sep))
    paths = [output / each.inner if is_folder else output for each in pages]
    if len(set(paths)) < len(paths):
        raise Failure(f"two of the {kind} have one name", USAGE)
    status = DONE
    job = words.job(words, False)
    for outcome, path in zip(_each(job, [each.name for each in pages]), paths):
        _say_all(outcome)
        status = max(status, outcome.status)
        if outcome.status == DONE:
            try:
                path.parent.mkdir(parents=True, exist_ok=True)
                write_file(path, outcome.output)
            except OSError as error:
                raise Failure(f"cannot write {path}: {error.strerror}", UNREADABLE) from None
    return status


def _project(words: argparse.Namespace) -> Project:
    """Returns the settings of the project that the current folder is in."""
    try:
        return Project() if words.no_project else project_of(".")
    except ProjectError as error:
        raise Failure(str(error), USAGE) from None


def _names_of(word: str, words: argparse.Namespace, project: Project) -> List[str]:
    """Returns the names of the files that a word names: one, or each of a folder or a pattern that
    the project does not leave out."""
    if os.path.isdir(word) and not words.no_project:
        return files_in(word, _is_linted, project)
    found = [each.name for each in _files_of(word, True, True)]
    is_named = os.path.isfile(word) or words.no_project or not glob.has_magic(word)
    return [each for each in found if is_named or not is_excluded(each, project)]


def _marked(text: str, severity: Optional[str] = None) -> str:
    """Returns the text in bold on a terminal, and in the colour of a severity unless `NO_COLOR` is set."""
    if not sys.stdout.isatty():
        return text
    has_colour = severity is not None and not os.environ.get("NO_COLOR")
    return f"\033[{_COLOURS[severity] if severity and has_colour else 1}m{text}\033[0m"


def _explain(words: Sequence[str]) -> int:
    """Writes what kinds are, or a line for each of all."""
    if not words:
        sys.stdout.write(_lint.kinds())
        return DONE
    found = [_lint.explanation(each) for each in words]
    for word, text in zip(words, found):
        if text is None:
            raise Failure(f"unknown kind '{word}'", USAGE)
        sys.stdout.write(text)
    return DONE


def _lint_files(words: argparse.Namespace) -> int:
    if words.explain:
        return _explain(words.sheets)
    if not words.sheets:
        raise Failure("lint wants a FILE", USAGE)
    project = _project(words)
    names = [name for word in words.sheets for name in _names_of(word, words, project)]
    found: List[_lint.Finding] = []
    status = DONE
    # A sheet that several pages link to is reported once.
    seen = {os.path.realpath(name) for name in names}
    for outcome in _each(words.job(words, sys.stdout.isatty()), names):
        _say_all(outcome)
        _write(outcome.output)
        status = outcome.status or status
        linked = {each.file for each in outcome.mistakes} - {outcome.name}
        old = {file for file in linked if os.path.realpath(file) in seen}
        seen.update(os.path.realpath(file) for file in linked)
        those = (each for each in outcome.mistakes if each.file not in old)
        asked = words.select or (), words.ignore or ()
        found += [each for each in those if project.reports(each.kind, *asked)]
    # What is corrected of standard input is on standard output.
    stream = sys.stderr if words.fix and INPUT in names else sys.stdout
    _report(words, found, len(names), stream, project)
    return status or (REFUSED if found else DONE)


def _report(
    words: argparse.Namespace,
    found: Sequence[_lint.Finding],
    count: int,
    stream: Optional[TextIO],
    project: Project,
) -> None:
    """Writes what was found in so many files, if there is where to."""
    if stream is None:
        return
    form = "json" if words.json else words.format
    write = _lint.FORMATS.get(form)
    if write:
        stream.write(write(found, project.level))
        return

    def mark(text: str, each: _lint.Finding) -> str:
        return _marked(text, project.level(each.kind) or each.severity)

    stream.write(_lint.as_text(found, mark))
    if stream.isatty():
        files = len({each.file for each in found})
        stream.write(f"{len(found)} findings in {files} of {count} files\n")


def _linked_files(words: argparse.Namespace, pages: Sequence[_File]) -> Tuple[int, List[str]]:
    """Returns the status, and the files of the sheets that pages link to."""
    status, files = DONE, []
    for outcome in _each(_jobs.Linked(words, False), [each.name for each in pages]):
        _say_all(outcome)
        status = max(status, outcome.status)
        files += outcome.output.decode("utf-8", "surrogateescape").split("\0")[:-1]
    _progress.done = 0
    return status, list(dict.fromkeys(files))


def _unused(words: argparse.Namespace) -> int:
    pages, names = _parted(words.files, -1)
    status = DONE
    if not names:
        status, names = _linked_files(words, pages)
    if status != DONE:
        return status
    usage = usage_of(sheet_of_texts(map(_jobs.read, names)))
    _progress.count = len(pages)
    for name, _ in pages:
        has_xml = words.xml or is_xml(name)
        tree = _jobs.tree_of(name, _jobs.read_page(name, has_xml), has_xml)
        usage.see(elements_of(tree))
        _progress.done += 1
    if words.print:
        text = "".join(usage.used())
        _write((printable_lines(text) if sys.stdout.isatty() else text).encode("utf-8"))
        return DONE
    for each in usage.unused():
        file = names[each.source]
        if words.json:
            sys.stdout.write(json_line({"file": file, **each._asdict()}))
            continue
        place = _marked(f"{printable(file)}:{each.row}:{each.column}")
        text = printable(" ".join(words_of(each.selector)))
        more = "" if each.is_whole else ", and others of its rule do"
        sys.stdout.write(f"{place}: '{text}' matches nothing{more}\n")
    return DONE


def _serve(words: argparse.Namespace) -> int:
    """Answers an editor until it says to end."""
    if sys.stdin is None:
        raise Failure("standard input is closed", UNREADABLE)
    _progress.is_idle = True

    def write(data: bytes) -> None:
        _write(data)
        sys.stdout.buffer.flush()

    stream = cast(io.BufferedReader, sys.stdin.buffer)
    return Server(stream.read1, write).run()


_Run = Callable[[argparse.Namespace], int]


class _ArgumentParser(argparse.ArgumentParser):
    """A parser of words that raises an `OSError` where its help cannot be written, as that of the
    standard library does in some versions alone."""

    def _print_message(self, message: str, file: Any = None) -> None:
        stream = sys.stderr if file is None else file
        if message and stream is not None:
            # It may have the name of a file.
            stream.write("\n".join(map(printable, message.split("\n"))))


def _parser() -> argparse.ArgumentParser:
    parser = _ArgumentParser(
        prog="simplecss", description="Read, match, inline and check CSS in files."
    )
    parser.add_argument("--version", action="version", version=f"simplecss {__version__}")
    commands = parser.add_subparsers(dest="command", required=True)

    def add(name: str, run: _Run, job: Type[Job], text: str) -> Any:
        command = commands.add_parser(name, help=text, description=text)
        command.add_argument("--json", action="store_true", help="write lines of JSON")
        text = "read pages as XML, whatever their names"
        command.add_argument("--xml", action="store_true", help=text)
        command.set_defaults(run=run, job=job, watch=False)
        return command

    text = "Show which rules match each element."
    _add_reading(add("match", _read_pages, _jobs.Match, text))
    text = "Show which declaration of a property wins on each element."
    command = add("style", _style, _jobs.Style, text)
    _add_reading(command)
    command.usage = "simplecss style [OPTION..] [SHEET..] PAGE.. NAME"
    text = "Explain which declaration of a property wins on elements, and by what others lose."
    _add_explain(add("explain", _explain_page, _jobs.Explain, text))
    text = "Show the elements that a list of selectors matches."
    _add_select(add("select", _select, _jobs.Select, text))
    text = "Show the properties that two style sheets set differently on the elements of pages."
    _add_compare(add("compare", _compare, _jobs.Compare, text))
    text = "Write style sheets into the style attributes of pages."
    _add_inline(add("inline", _inline, _jobs.Inline, text))
    text = "Show the mistakes in style sheets, and in those of pages."
    command = add("lint", _lint_files, _jobs.Lint, text)
    command.formatter_class = argparse.RawDescriptionHelpFormatter
    command.epilog = (
        "`lint --explain` lists the kinds. The comment `/* simplecss-ignore KIND.. */` leaves these"
        " kinds out on its line."
    )
    _add_lint(command)
    text = "Write style sheets without comments, blanks and rules that say nothing."
    _add_writing(add("minify", _minify, _jobs.Minify, text))
    text = "Write style sheets with a line for each rule and each declaration."
    _add_writing(add("prettify", _minify, _jobs.Prettify, text))
    text = "Write style sheets with edits, and every other byte as it is."
    _add_edit(add("edit", _minify, _jobs.EditSheet, text))
    text = "Write what a policy allows of style sheets from strangers, under a scope."
    _add_clean(add("clean", _clean, _jobs.Clean, text))
    text = "Show the selectors of style sheets that match nothing on any of the pages."
    command = add("unused", _unused, _jobs.Job, text)
    text = "write the sheets without the rules that match nothing"
    command.add_argument("--print", action="store_true", help=text)
    _add_folder(command)
    text = "style sheets (default: the linked ones), and pages, folders or patterns of them"
    command.add_argument("files", nargs="+", metavar="FILE", help=text)
    text = "Report mistakes in an editor, by the Language Server Protocol over standard input and output."
    command = commands.add_parser("lsp", help=text, description=text)
    command.set_defaults(run=_serve, watch=False)
    text = "the only way, which editors name"
    command.add_argument("--stdio", action="store_true", help=text)
    text = "Write the completion of a shell."
    command = commands.add_parser("completions", help=text, description=text)
    command.set_defaults(run=_complete, watch=False)
    command.add_argument("shell", choices=list(SHELLS), help="the shell")
    return parser


def _add_watch(command: Any, operands: Callable[[argparse.Namespace], List[str]]) -> None:
    text = "run again when a file changes, until Ctrl-C"
    command.add_argument("--watch", action="store_true", help=text)
    command.set_defaults(operands=operands)


def _add_writing(command: Any) -> None:
    text = "the file of the sheet, or a folder for those of several"
    command.add_argument("-o", dest="output", metavar="PATH", help=text)
    command.set_defaults(folder=None)
    _add_watch(command, lambda words: list(words.sheets))
    text = "style sheets, folders or patterns of them"
    command.add_argument("sheets", nargs="+", metavar="SHEET", help=text)


def _add_edit(command: Any) -> None:
    text = "put imported sheets in the place of `@import`, in their layers and conditions"
    command.add_argument("--bundle", action="store_true", help=text)
    text = "write rules in style rules apart, for browsers without nesting"
    command.add_argument("--flatten", action="store_true", help=text)
    command.add_argument("--base-url", metavar="URL", help="resolve relative urls against it")
    text = "put this before the names of classes"
    command.add_argument("--prefix", metavar="TEXT", help=text)
    text = "put a selector and a blank before all selectors"
    command.add_argument("--scope", metavar="SELECTOR", help=text)
    command.add_argument("--map", action="store_true", help="end with a source map")
    _add_writing(command)
    command.add_argument("--folder", metavar="PATH", help="the folder of imported sheets")


def _add_clean(command: Any) -> None:
    kind = command.add_mutually_exclusive_group(required=True)
    text = "the selector that all selectors are put under, such as `.mail`"
    kind.add_argument("--scope", metavar="SELECTOR", help=text)
    kind.add_argument("--style", action="store_true", help="the texts are style attributes")
    text = "what is allowed (default: mail)"
    command.add_argument("--policy", choices=POLICIES, default="mail", help=text)
    for name, text in (
        ("add", "allow the property, too"),
        ("remove", "do not allow the property"),
    ):
        command.add_argument(f"--{name}", metavar="NAME", action="append", default=[], help=text)
    text = "a limit of a property, such as `margin=0,500,auto`"
    command.add_argument("--limit", metavar="NAME=LIMIT", action="append", default=[], help=text)
    text = "keep the at-rule, too"
    at_rules = ("supports", "container", "layer", "keyframes")
    command.add_argument("--at-rule", choices=at_rules, action="append", default=[], help=text)
    text = "what is put before names: ids, classes, layers, keyframes and custom properties"
    command.add_argument("--prefix", metavar="PREFIX", help=text)
    text = "write nothing; status 1 if a text is not clean"
    command.add_argument("--check", action="store_true", help=text)
    text = "report on standard error what is dropped"
    command.add_argument("--report", action="store_true", help=text)
    _add_writing(command)


def _grammar(word: str) -> str:
    """Returns a grammar's word. That of an earlier version is taken, too."""
    if word != TODAY:
        return word
    _say(f"--grammar {TODAY} is now --grammar {MODERN}")
    return MODERN


def _add_grammar(command: Any) -> None:
    text = "the grammar: that of browsers, or that of the Rust crate"
    choices = [MODERN, PORT]
    command.add_argument("--grammar", type=_grammar, choices=choices, default=MODERN, help=text)


def _add_folder(command: Any) -> None:
    text = "the folder of linked sheets (default: the folder of each page)"
    command.add_argument("--folder", metavar="PATH", help=text)


def _pixels(word: str) -> int:
    """Returns a number of pixels."""
    number = int(word)
    if not 0 <= number < 2**32:
        raise ValueError(word)
    return number


def _add_device(command: Any) -> None:
    usual = Device()
    text = "the media type (default: screen)"
    command.add_argument("--media", choices=TYPES, default=usual.type, help=text)
    text = "the width in pixels"
    command.add_argument("--width", type=_pixels, default=usual.width, metavar="PX", help=text)
    text = "the height in pixels"
    command.add_argument("--height", type=_pixels, default=usual.height, metavar="PX", help=text)
    command.add_argument("--dark", action="store_true", help="with dark colours")


def _add_reading(command: Any) -> None:
    _add_grammar(command)
    _add_folder(command)
    _add_device(command)
    text = "style sheets (default: those of each page), and pages, folders or patterns of them"
    command.add_argument("files", nargs="+", metavar="FILE", help=text)


def _add_select(command: Any) -> None:
    shown = command.add_mutually_exclusive_group()
    shown.add_argument("--text", action="store_true", help="write the text of each element")
    shown.add_argument("--attr", metavar="NAME", help="write the value of an attribute")
    shown.add_argument("--html", action="store_true", help="write the source of each element")
    shown.add_argument("--count", action="store_true", help="write how many there are")
    shown.add_argument(
        "--quiet", action="store_true", help="write nothing; status 1 if there are none"
    )
    _add_grammar(command)
    command.add_argument("selectors", metavar="SELECTORS", help="a list, such as `a, b > c`")
    text = "a page, folder or pattern"
    command.add_argument("pages", nargs="+", metavar="PAGE", help=text)


def _add_compare(command: Any) -> None:
    _add_device(command)
    text = "compare on all devices that conditions of @media tell apart, from this one on"
    command.add_argument("--all-conditions", action="store_true", help=text)
    command.add_argument("old", metavar="OLD", help="a style sheet")
    command.add_argument("new", metavar="NEW", help="the style sheet that it is compared with")
    text = "a page, folder or pattern"
    command.add_argument("pages", nargs="+", metavar="PAGE", help=text)


def _add_explain(command: Any) -> None:
    text = "a style sheet (default: those of the page)"
    command.add_argument(
        *("--sheet",),
        dest="sheets",
        action="append",
        default=[],
        metavar="FILE",
        help=text,
    )
    command.add_argument("--html", metavar="FILE", help="write a page of HTML into a file")
    text = "with what HTML and SVG suggest to browsers"
    command.add_argument("--ua", action="store_true", help=text)
    _add_folder(command)
    _add_device(command)
    command.set_defaults(grammar=MODERN)
    command.add_argument("selectors", metavar="SELECTORS", help="a list, such as `a, b > c`")
    command.add_argument("name", metavar="PROPERTY", help="a property, such as `color`")
    command.add_argument("page", metavar="PAGE", help="a page")


def _add_inline(command: Any) -> None:
    _add_folder(command)
    text = "the file of the page, or a folder for those of several"
    command.add_argument("-o", dest="output", metavar="PATH", help=text)
    command.add_argument("--base-url", metavar="URL", help="resolve relative urls against it")
    command.add_argument(
        "--preserve", metavar="SELECTORS", help="leave these style elements as they are"
    )
    command.add_argument("--ignore", metavar="SELECTORS", help="leave these elements as they are")
    for name, text in (
        ("keep-style", "leave all style elements"),
        ("remove-classes", "remove the classes that no rule needs any more"),
        ("attributes", "write `width`, `bgcolor` and the like beside styles"),
        (
            "as-attributes",
            "write attributes of SVG, such as `fill`, in place of styles",
        ),
        ("part", "read pages as parts of others, such as rows of a table"),
        (
            "no-important",
            "add no `!important`: leave what a rule that stays could override",
        ),
        ("report", "report on standard error what is not written"),
    ):
        command.add_argument(f"--{name}", action="store_true", help=text)
    _add_watch(command, lambda words: list(words.files))
    text = "a page, and more pages, folders or patterns of them, and style sheets"
    command.add_argument("files", nargs="+", metavar="FILE", help=text)


def _add_lint(command: Any) -> None:
    formats = ["text", *_lint.FORMATS]
    command.add_argument("--format", choices=formats, default="text", help="the form of the report")
    command.add_argument(
        "--select",
        action="append",
        metavar="KIND",
        help="report only these kinds, such as `unsupported`",
    )
    command.add_argument("--ignore", action="append", metavar="KIND", help="leave these kinds out")
    command.add_argument("--all", action="store_true", help="report what is unsupported, too")
    text = "correct mistakes that have one right answer in the sheets; `-` is written to standard output"
    command.add_argument("--fix", action="store_true", help=text)
    _add_grammar(command)
    _add_folder(command)
    _add_watch(command, lambda words: list(words.sheets))
    text = "the name that standard input is read and reported by, such as `a.html`"
    command.add_argument("--stdin-filename", metavar="NAME", help=text)
    text = "read no settings of a project, and leave out no file of a folder"
    command.add_argument("--no-project", action="store_true", help=text)
    text = "explain the kinds that are named in place of files, or list all"
    command.add_argument("--explain", action="store_true", help=text)
    text = "style sheets, pages, folders or patterns of them"
    command.add_argument("sheets", nargs="*", metavar="FILE", help=text)


def _say(message: str) -> None:
    """Writes a line to standard error."""
    if sys.stderr is not None:
        _progress.clear()
        text = printable(f"simplecss: {message}")
        print(text.encode("utf-8", "replace").decode(), file=sys.stderr)


def _run(words: argparse.Namespace) -> Tuple[int, str]:
    """Returns the exit status, and what to say on standard error."""
    try:
        if sys.stdout is None:
            return UNREADABLE, "standard output is closed"
        status = _run_watching(words) if words.watch else words.run(words)
        sys.stdout.flush()
        return status, ""
    except Failure as failure:
        return failure.status, str(failure)
    except TreeError as error:
        return REFUSED, str(error)
    except UnicodeEncodeError:
        return USAGE, "a word or a name of a file is not UTF-8"
    except LimitError as error:
        return REFUSED, str(error)
    except MemoryError:
        return OUT_OF_MEMORY, "out of memory"
    except LibraryError as error:
        return UNREADABLE, str(error)
    except InternalError as error:
        return UNREADABLE, f"a mistake in simplecss itself: {error}"
    except OSError as error:
        return _unwritten(error)


def _unwritten(error: OSError) -> Tuple[int, str]:
    """Returns the exit status where output cannot be written, and what to say on standard error."""
    _drop_output()
    return (
        UNREADABLE,
        "" if isinstance(error, BrokenPipeError) else f"cannot write: {error.strerror}",
    )


def _drop_output() -> None:
    """Keeps the interpreter from writing what is left when it ends."""
    try:
        os.dup2(os.open(os.devnull, os.O_WRONLY), sys.stdout.fileno())
    except (OSError, AttributeError):
        pass


def _run_aside(words: argparse.Namespace) -> Tuple[int, str]:
    """Runs in a thread, so that Ctrl-C need not wait for a call of the library."""
    answers: List[Tuple[int, str]] = []
    errors: List[BaseException] = []

    def work() -> None:
        try:
            answers.append(_run(words))
        except BaseException as error:  # what is no failure of ours is shown by the main thread
            errors.append(error)

    thread = threading.Thread(target=work, daemon=True)
    try:
        thread.start()
        while thread.is_alive():
            thread.join(0.2)
            _progress.show()
    except KeyboardInterrupt:
        _progress.clear()
        for each in multiprocessing.active_children():
            each.kill()
        abandon()
        os._exit(_interrupt.INTERRUPTED)
    _progress.clear()
    if errors:
        raise errors[0]
    return answers[0]


def _parse(arguments: Optional[List[str]]) -> argparse.Namespace:
    """Returns the words. Exits after the help, the version or an error of words, and raises an
    `OSError` where one of these cannot be written."""
    parser = _parser()
    try:
        words, rest = parser.parse_known_args(arguments)
        # Operands after an option that is among them.
        lists = [each for each in (getattr(words, it, None) for it in _LISTS) if each]
        if rest and (not lists or any(it.startswith("-") and it != INPUT for it in rest)):
            parser.error(f"unrecognized arguments: {' '.join(rest)}")
        for each in lists[:1]:
            each.extend(rest)
        return words
    except SystemExit:
        if sys.stdout is not None:
            sys.stdout.flush()
        raise


def main(arguments: Optional[List[str]] = None) -> int:
    """Runs the command line. Returns the exit status: 0 done, 1 refused or found, 2 wrong words, 3
    out of memory, 4 a file that cannot be read or written."""
    global _progress
    _progress = _Progress()
    try:
        words = _parse(arguments)
    except KeyboardInterrupt:
        return _interrupt.INTERRUPTED
    except OSError as error:
        status, message = _unwritten(error)
        if message:
            _say(message)
        return status
    reconfigure = getattr(sys.stdout, "reconfigure", None)
    if reconfigure is not None:
        reconfigure(encoding="utf-8", newline="\n")
    status, message = _run_aside(words)
    if message:
        _say(message)
    return status


_interrupt.raise_again()

if __name__ == "__main__":
    sys.exit(main())
