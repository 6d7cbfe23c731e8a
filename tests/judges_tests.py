"""The tests of other projects, for tests/judges.py: where Debian's archive has them, and what they
expect."""
from __future__ import annotations

import ast
import contextlib
import fcntl
import functools
import glob
import json
import os
import re
import shutil
import subprocess
import tarfile
from typing import (
    TYPE_CHECKING,
    Any,
    Callable,
    Dict,
    Iterator,
    List,
    NamedTuple,
    Optional,
    Sequence,
    Set,
    Tuple,
)

from tests.common import package

package()
from simplecss import Element, Item, SelectorError, Tree  # noqa: E402

if TYPE_CHECKING:
    from tests.judges import Judge

HERE = os.path.dirname(os.path.abspath(__file__))


class Project(NamedTuple):
    """A project: sources and packages of Debian, what judges by their tests, given the folder of
    all and a judge, and how many expectations it judges at least."""

    name: str
    sources: Sequence[str]
    packages: Sequence[str]
    judge: Callable[[str, "Judge"], None]
    least: int


# ---- Debian's archive

ARCHIVE = """Types: deb deb-src
URIs: http://deb.debian.org/debian
Suites: bookworm
Components: main
Architectures: amd64
Signed-By: /usr/share/keyrings/debian-archive-keyring.gpg

Types: deb-src
URIs: http://deb.debian.org/debian
Suites: trixie
Components: main
Signed-By: /usr/share/keyrings/debian-archive-keyring.gpg
"""
SECONDS = 300
# The folders of what is fetched.
SOURCES, PACKAGES = "sources", "packages"
# The folders into which no lists could be fetched.
WITHOUT_LISTS: Set[str] = set()


@contextlib.contextmanager
def alone_in(top: str) -> Iterator[None]:
    """Waits until no other process fetches into a folder, or deletes lists in it."""
    os.makedirs(top, exist_ok=True)
    with open(os.path.join(top, "lock"), "w", encoding="ascii") as lock:
        fcntl.flock(lock, fcntl.LOCK_EX)
        yield


def apt_get(words: Sequence[str], lists: str, folder: str) -> bool:
    """Runs apt-get in a folder, with lists of its own in place of the system's."""
    settings = {
        "Dir::Etc::sourcelist": os.path.join(lists, "archive.sources"),
        "Dir::Etc::sourceparts": os.devnull,
        "Dir::State::lists": os.path.join(lists, "lists"),
        # What the system has may be newer than what this archive has.
        "Dir::State::status": os.devnull,
        "Dir::Cache": os.path.join(lists, "cache"),
        "Dir::Cache::pkgcache": "packages.bin",
        "Dir::Cache::srcpkgcache": "sources.bin",
        "APT::Sandbox::User": "",
        "APT::Update::Error-Mode": "any",
        "Acquire::http::Timeout": "20",
    }
    options = [word for key, value in settings.items() for word in ("-o", f"{key}={value}")]
    quiet: Dict[str, Any] = dict.fromkeys(("stdin", "stdout", "stderr"), subprocess.DEVNULL)
    words = ["apt-get", *options, *words]
    try:
        made = subprocess.run(words, cwd=folder, timeout=SECONDS, check=False, **quiet)
    except subprocess.TimeoutExpired:
        return False
    return bool(made.returncode == 0)


def has_lists(lists: str) -> bool:
    """Whether the archive's lists are in a folder, into which they are fetched. What has failed once
    is not tried again."""
    if not os.path.isdir(lists) and lists not in WITHOUT_LISTS:
        for name in ("lists/partial", "cache/archives/partial"):
            os.makedirs(os.path.join(lists, name))
        with open(os.path.join(lists, "archive.sources"), "w", encoding="ascii") as file:
            file.write(ARCHIVE)
        if not apt_get(["update"], lists, lists):
            WITHOUT_LISTS.add(lists)
            shutil.rmtree(lists)
    return os.path.isdir(lists)


def forget_lists(top: str) -> None:
    """Deletes the archive's lists, which are large, and wanted no more if all was fetched."""
    with alone_in(top):
        shutil.rmtree(os.path.join(top, "apt"), ignore_errors=True)


def unpack(folder: str) -> bool:
    """Unpacks what apt-get has fetched into a folder. Returns whether that worked."""
    words = [
        ["tar", "-xf", path, "-C", folder]
        for path in glob.glob(os.path.join(folder, "*.orig*.tar.*"))
    ]
    words += [["dpkg-deb", "-x", path, folder] for path in glob.glob(os.path.join(folder, "*.deb"))]
    return bool(words) and all(subprocess.run(each, check=False).returncode == 0 for each in words)


def fetched(name: str, kind: str, top: str) -> bool:
    """Whether a source or a package is in a folder of its name, into which it is fetched once."""
    folder, lists = os.path.join(top, kind, name.partition("=")[0]), os.path.join(top, "apt")
    if os.path.isdir(folder):
        return True
    made = folder + ".part"
    shutil.rmtree(made, ignore_errors=True)
    os.makedirs(made)
    words = ["download"] if kind == PACKAGES else ["source", "--download-only", "--tar-only"]
    if not has_lists(lists) or not apt_get([*words, name], lists, made) or not unpack(made):
        return False
    os.rename(made, folder)
    return True


def fetch(project: Project, top: str) -> Optional[str]:
    """Fetches the tests of a project into a folder. Returns why it could not."""
    programs = ("apt-get", "dpkg-deb", "tar", *(("node",) if project.packages == MODULES else ()))
    missing = [each for each in programs if not shutil.which(each)]
    if missing:
        return f"there is no {missing[0]}"
    with alone_in(top):
        for kind, names in ((SOURCES, project.sources), (PACKAGES, project.packages)):
            for name in names:
                if not fetched(name, kind, top):
                    return f"{name} could not be fetched"
    return None


def path_of(top: str, pattern: str) -> str:
    """The one path below the folder that a pattern has."""
    (found,) = glob.glob(os.path.join(top, pattern))
    return found


def text_of(top: str, pattern: str) -> str:
    """The text of the one file that a pattern has."""
    with open(path_of(top, pattern), encoding="utf-8", newline="") as file:
        return file.read()


# ---- how elements are seen


def ids_of(found: Sequence[Element]) -> List[str]:
    """The ids of elements, `nil` for those that have none."""
    return [each.attributes.get("id", "nil") for each in found]


def sorted_ids_of(found: Sequence[Element]) -> List[str]:
    """The ids of elements, in the order of the alphabet."""
    return sorted(ids_of(found))


def tags_of(found: Sequence[Element]) -> List[Tuple[str, Dict[str, str]]]:
    """The names and attributes of elements."""
    return [(each.name, each.attributes) for each in found]


def within(tree: Tree, selector: str) -> Callable[[Sequence[Element]], int]:
    """Counts the elements in the first element that a selector finds, and this element itself."""
    (top,) = tree.select(selector)
    last = len(top.select("*")) + top.index
    return lambda found: sum(top.index <= each.index <= last for each in found)


# ---- cssselect: asserts of calls with literals


def asserted(module: ast.Module) -> Iterator[Tuple[str, List[str], Dict[str, bool], Any]]:
    """The name, the words and what is wanted of each `assert call("..") == wanted`, and of other
    calls."""
    for node in ast.walk(module):
        call, wanted = None, None
        if isinstance(node, ast.Assert) and isinstance(node.test, ast.Compare):
            call, wanted = node.test.left, node.test.comparators[0]
        elif isinstance(node, ast.Expr):
            call = node.value
        if not isinstance(call, ast.Call) or not isinstance(call.func, ast.Name):
            continue
        try:
            words = [ast.literal_eval(each) for each in call.args]
            keywords = {str(each.arg): ast.literal_eval(each.value) for each in call.keywords}
            value = None if wanted is None else ast.literal_eval(wanted)
        except ValueError:
            continue
        yield call.func.id, words, keywords, value


def pages_of(module: ast.Module) -> Dict[str, str]:
    """The texts that are assigned to names in capitals."""
    found = {}
    for node in module.body:
        if isinstance(node, ast.Assign) and isinstance(node.targets[0], ast.Name):
            found[node.targets[0].id] = str(ast.literal_eval(node.value)).strip()
    return found


def judge_series(judge: "Judge", text: str, wanted: Optional[Tuple[int, int]]) -> None:
    """`An+B` and its two numbers, or none if it is refused."""
    if wanted is None:
        judge.refuses(f":nth-child({text})")
    else:
        judge.reads_as(f":nth-child({text})", f":nth-child({wanted[0]}n{wanted[1]:+})")


def judge_cssselect(top: str, judge: "Judge") -> None:
    """Judges by cssselect's own tests and by its two documents."""
    module = ast.parse(text_of(top, "sources/python-cssselect/*/tests/test_cssselect.py"))
    pages = pages_of(module)
    trees = {name: Tree.from_xml(pages[name]) for name in ("HTML_IDS", "XMLLANG_IDS")}
    page = Tree.from_html("<!DOCTYPE html>" + pages["HTML_IDS"])
    play = Tree.from_html(pages["HTML_SHAKESPEARE"])
    in_body = within(play, "body")
    for name, words, keywords, wanted in asserted(module):
        if name == "parse_many":
            for text in words:
                judge.reads_as(text, words[0])
        elif name in ("parse_one", "parse_pseudo", "xpath", "css_to_xpath"):
            judge.reads(words[0])
        elif name == "css2css":
            judge.reads_as(words[0], words[-1])
        elif name == "get_error":
            (judge.reads if wanted is None else judge.refuses)(words[0])
        elif name == "specificity":
            judge.has_specificity(words[0], wanted)
        elif name == "series":
            judge_series(judge, words[0], wanted)
        elif name == "langid":
            judge.finds(trees["XMLLANG_IDS"], words[0], wanted, ids_of)
        elif name == "count":
            judge.finds(play, words[0], wanted, in_body)
        elif name == "pcss":
            for text in words:
                judge.finds(page if keywords else trees["HTML_IDS"], text, wanted, ids_of)


# ---- cascadia: tables of Go, and selectors in JSON

GO = r'(`[^`]*`|"(?:[^"\\]|\\.)*")'


def go_text(literal: str) -> str:
    """The value of a string of Go."""
    return literal[1:-1] if literal[0] == "`" else str(json.loads(literal))


def between(text: str, start: str, end: str) -> str:
    """What is between two texts, each of which is there."""
    return text[text.index(start) + len(start) :].partition(end)[0]


def start_tag(text: str) -> Tuple[str, Dict[str, str]]:
    """The name and the attributes of the start tag at the beginning of a text."""
    [(name, rest), *_] = re.findall(r'^<(\w+)((?:[^>"]|"[^"]*")*)>', text)
    return name, dict(re.findall(r'([-\w]+)="([^"]*)"', rest))


def judge_go_tables(top: str, judge: "Judge") -> None:
    """Judges by the elements that selectors find in small pages, and by what is counted in a
    play."""
    text = text_of(top, "sources/golang-github-andybalholm-cascadia/*/selector_test.go")
    table = between(text, "var selectorTests = []selectorTest{", "\n}\n")
    entries = re.findall(rf"\{{\s*{GO},\s*{GO},\s*\[\]string\{{((?:\s*{GO},)*)\s*\}},\s*\}}", table)
    assert len(entries) == table.count("[]string{"), len(entries)
    for page, selector, wanted, _ in entries:
        tags = [start_tag(go_text(each)) for each in re.findall(GO, wanted)]
        judge.finds(Tree.from_html(go_text(page)), go_text(selector), tags, tags_of)
    resources = "sources/golang-github-andybalholm-cascadia/*/test_resources"
    play = Tree.from_html(text_of(top, f"{resources}/shakespeare.html"))
    for selector, count in re.findall(rf"assertCount\({GO}, (\d+)\)", text):
        judge.finds(play, go_text(selector), int(count), within(play, "body"))


def judge_go_specificity(top: str, judge: "Judge") -> None:
    """Judges by specificities, some of them of pseudo-elements."""
    for name in ("selector_test.go", "specificity_test.go"):
        text = text_of(top, f"sources/golang-github-andybalholm-cascadia/*/{name}")
        pattern = rf"selector:\s*{GO},\s*spec:\s*Specificity\{{(\d+), (\d+), (\d+)\}}"
        for selector, *numbers in re.findall(pattern, text):
            judge.has_specificity(go_text(selector), tuple(map(int, numbers)))


def judge_go_names(top: str, judge: "Judge") -> None:
    """Judges by names and strings with escapes: what they denote, or nothing if they are
    refused."""
    text = text_of(top, "sources/golang-github-andybalholm-cascadia/*/parser_test.go")
    for table in ("identifierTests", "stringTests"):
        rows = between(text, f"var {table} = map[string]string{{", "\n}\n")
        for source, value in re.findall(rf"{GO}:\s*{GO},", rows):
            selector, wanted = f"[a={go_text(source)}]", go_text(value)
            if wanted:
                judge.finds(Tree([Item("p", {"id": "p", "a": wanted})]), selector, ["p"], ids_of)
            else:
                judge.refuses(selector)


def judge_cascadia(top: str, judge: "Judge") -> None:
    """Judges by cascadia's tests and by those of web-platform-tests that it has."""
    judge_go_tables(top, judge)
    judge_go_specificity(top, judge)
    judge_go_names(top, judge)
    resources = "sources/golang-github-andybalholm-cascadia/*/test_resources"
    text = text_of(top, f"{resources}/content.xhtml")
    pages = {"html": Tree.from_html(text), "xhtml": Tree.from_xml(text)}
    for each in json.loads(text_of(top, f"{resources}/valid_selectors.json")):
        for kind in pages.keys() - (each.get("exclude") or []):
            judge.finds(
                pages[kind], each["selector"], sorted(each.get("expect") or []), sorted_ids_of
            )
    for each in json.loads(text_of(top, f"{resources}/invalid_selectors.json")):
        judge.refuses(each["selector"])


# ---- nokogiri: calls in Ruby

RUBY = r"""("(?:[^"\\]|\\.)*"|'(?:[^'\\]|\\.)*'|%q\{[^}]*\})"""


def ruby_text(literal: str) -> str:
    """The value of a string of Ruby."""
    if literal[0] == "%":
        return literal[3:-1]
    if literal[0] == "'":
        return re.sub(r"\\([\\'])", r"\1", literal[1:-1])
    kinds = {"n": "\n", "t": "\t", "r": "\r"}
    return re.sub(r"\\(.)", lambda found: kinds.get(found[1], found[1]), literal[1:-1])


def joined_text(found: Sequence[Element]) -> str:
    """The texts of elements."""
    return "".join(each.text for each in found).strip()


def judge_nokogiri_pages(text: str, judge: "Judge") -> None:
    """Judges by what selectors find in the first page of the tests, and by how many elements of
    others."""
    pages = [
        ruby_text(f'"{each}"')
        for each in re.findall(r"<<~HTML\)?\n(.*?)\n *HTML\n", text, re.DOTALL)
    ]
    first, _, siblings, classes = (Tree.from_html("<!DOCTYPE html>" + each) for each in pages[:4])
    pattern = r'assert_result_rows\((\[[^\]]*\]), subject\.search\("([^"]*)"\)(?:, "(\w+)")?\)'
    for numbers, selector, word in re.findall(pattern, text):
        wanted = " ".join(f"{word or 'row'}{each}" for each in json.loads(numbers))
        judge.finds(first, selector, wanted, joined_text)
    for count, selector in re.findall(
        r'assert_equal\((\d+), doc\.search\("([^"]*)"\)\.size\)', text
    ):
        judge.finds(siblings, selector, int(count), len)
    pattern = (
        r'result = (\w+)\.(?:search|css)\("([^"]*)"\)\n\s*assert_equal\((\d+),'
        r" result\.(?:size|length)"
    )
    for name, selector, count in re.findall(pattern, text):
        judge.finds(first if name == "subject" else classes, selector, int(count), len)
    for selector in re.findall(r'nested\.css\("([^"]*)"\)', text):
        judge.reads(selector)


def judge_nokogiri(top: str, judge: "Judge") -> None:
    """Judges by nokogiri's tests of what selectors find, and by those of how they are read."""
    judge_nokogiri_pages(
        text_of(top, "sources/ruby-nokogiri/*/test/css/test_css_integration.rb"), judge
    )
    for name in ("xpath_visitor", "parser"):
        text = text_of(top, f"sources/ruby-nokogiri/*/test/css/test_{name}.rb")
        for raises, literal in re.findall(rf"(SyntaxError\) \{{ )?parser\.parse\({RUBY}\)", text):
            (judge.refuses if raises else judge.reads)(ruby_text(literal))


# ---- Servo: calls in Rust

RUST = r'("(?:[^"\\]|\\.)*")'


def rust_text(literal: str) -> str:
    """The value of a string of Rust."""
    return str(json.loads(literal))


def judge_servo(top: str, judge: "Judge") -> None:
    """Judges by what is read, how it is printed, and its specificity, which comes last of a
    statement."""
    text = text_of(top, "packages/librust-selectors-dev/usr/share/cargo/registry/*/parser.rs")
    tests = text[text.index("fn test_parsing()") :]
    for literal, outcome in re.findall(rf"assert!\(parse\({RUST}\)\.is_(ok|err)\(\)\);", tests):
        (judge.reads if outcome == "ok" else judge.refuses)(rust_text(literal))
    statements = re.findall(r"assert_eq!\(\n(.*?)\n        \);", tests, re.DOTALL)
    for statement in statements:
        literals = re.findall(rf"parse\w*\(\s*{RUST}(?:.*?Some\({RUST}\))?", statement, re.DOTALL)
        numbers = re.findall(r"specificity\((\d+), (\d+), (\d+)\)", statement)
        if literals and numbers:
            selector, shown = literals[0]
            judge.prints(rust_text(selector), rust_text(shown or selector))
            judge.has_specificity(rust_text(selector), tuple(map(int, numbers[-1])))


# ---- suites of JavaScript, which node runs

# fmt: off
MODULES = (
    "node-htmlparser2", "node-domutils", "node-domhandler", "node-domelementtype",
    "node-dom-serializer", "node-entities", "node-boolbase", "node-css-what", "esbuild",
)
# fmt: on


class Node:
    """A node of a tree, as BeautifulSoup has them, from which `Tree.from_soup` makes one."""

    def __init__(self, name: str, attrs: Dict[str, str], contents: List[Any]) -> None:
        self.name = name
        self.attrs = attrs
        self.contents = [each if isinstance(each, str) else Node(*each) for each in contents]


class Doctype(str):
    """What makes a page one that compares classes with case."""


@functools.lru_cache(maxsize=8)
def tree_of(line: str, is_xml: bool) -> Tree:
    """The tree of a suite, from JSON."""
    root: Any = Node("[document]", {}, json.loads(line))
    root.contents.insert(0, Doctype())
    root._is_xml = is_xml
    return Tree.from_soup(root)


class Hearing:
    """Answers what a suite asks, and judges by what it then reports."""

    def __init__(self, judge: "Judge") -> None:
        self.judge = judge
        self.forget()

    def forget(self) -> None:
        """Forgets what expectations were about."""
        self.texts: List[str] = []
        self.kind = "find"
        self.reason: Optional[str] = None
        self.is_refused = self.is_reported = False

    def answer(self, message: Dict[str, Any]) -> Optional[Dict[str, Any]]:
        """Takes a line of a suite. Returns what is answered to a question."""
        if "begins" in message or self.is_reported and ("ask" in message or "leftOut" in message):
            self.forget()
        if "ask" in message:
            return self.answered(message)
        if "leftOut" in message:
            self.reason = message["leftOut"]
        elif "parsed" in message:
            self.judge.reads_as(message["text"], spelled_list(message["parsed"]))
        elif "holds" in message:
            self.report(message)
        return None

    def answered(self, message: Dict[str, Any]) -> Dict[str, Any]:
        """Finds elements, or reads a text."""
        text = message["text"]
        self.kind = message["kind"]
        if text not in self.texts:
            self.texts.append(text)
        try:
            if "tree" not in message:
                shown = self.judge.printed(text)
                return {"printed": shown, "refused": shown is None}
            tree = tree_of(json.dumps(message["tree"]), message["xml"])
            return {"found": [each.index for each in tree.select(text)]}
        except SelectorError:
            self.is_refused = True
            return {"found": [], "refused": True}

    def report(self, message: Dict[str, Any]) -> None:
        """Judges an expectation about what was asked last."""
        shown = f"{message['name']}: {message['detail']}"
        self.is_reported = True
        if self.reason:
            self.judge.leave_out(self.texts, self.reason)
        elif self.texts or message.get("thrown"):
            holds = message["holds"] and (self.kind == "refuse" or not self.is_refused)
            self.judge.settle(self.texts, self.kind, holds, shown)


def run_suite(top: str, judge: "Judge", suite: str, folder: str) -> None:
    """Runs a suite of tests/judges.js."""
    modules = [os.path.join(top, PACKAGES, each, "usr", "share", "nodejs") for each in MODULES]
    words = ["node", os.path.join(HERE, "judges.js"), suite, folder]
    hearing = Hearing(judge)
    environment = {**os.environ, "NODE_PATH": ":".join(modules)}
    streams: Dict[str, Any] = {
        "stdin": subprocess.PIPE,
        "stdout": subprocess.PIPE,
        "encoding": "utf-8",
    }
    with subprocess.Popen(words, env=environment, **streams) as child:
        for line in child.stdout or ():
            answer = hearing.answer(json.loads(line))
            if answer is not None and child.stdin:
                child.stdin.write(json.dumps(answer) + "\n")
                child.stdin.flush()
    if child.returncode:
        judge.failures.append(f"{suite}: node ended with status {child.returncode}")


def transpiled(top: str, pattern: str) -> str:
    """The folder of a suite in TypeScript, of which esbuild makes JavaScript."""
    folder = path_of(top, pattern)
    found = [
        glob.glob(os.path.join(folder, name, "**", "*.ts"), recursive=True)
        for name in ("src", "test")
    ]
    esbuild = os.path.join(top, PACKAGES, "esbuild", "usr", "bin", "esbuild")
    words = ["--format=cjs", "--target=node18", "--log-level=error", f"--outdir={folder}"]
    subprocess.run([esbuild, *sum(found, []), *words, f"--outbase={folder}"], check=True)
    return folder


def hoist(path: str, name: str) -> None:
    """Makes a variable one of `var`, for it is assigned before its `let` is reached."""
    with open(path, encoding="utf-8") as file:
        text = file.read()
    with open(path, "w", encoding="utf-8") as file:
        file.write(text.replace(f"let {name} =", f"var {name} ="))


def judge_css_select(top: str, judge: "Judge") -> None:
    """Judges by css-select's tests and by those of Sizzle, NWMatcher and qwery."""
    folder = transpiled(top, "sources/node-css-select/css-select-*")
    hoist(os.path.join(folder, "test", "tools", "sizzle-testinit.js"), "document")
    run_suite(top, judge, "css-select", folder)


def judge_css_what(top: str, judge: "Judge") -> None:
    """Judges by css-what's tests of reading, and by those of web-platform-tests that it has."""
    run_suite(top, judge, "css-what", transpiled(top, "sources/node-css-what/css-what-*"))


def judge_jquery(top: str, judge: "Judge") -> None:
    """Judges by jQuery's tests of selectors."""
    run_suite(top, judge, "jquery", path_of(top, "sources/node-jquery/jquery-3*"))


# ---- what css-what reads, as text

COMBINATORS = {
    "descendant": " ",
    "child": " > ",
    "sibling": " ~ ",
    "adjacent": " + ",
    "parent": " < ",
    "column-combinator": " || ",
}
# fmt: off
ACTIONS = {"equals": "=", "element": "~=", "start": "^=", "end": "$=", "any": "*=", "not": "!=",
           "hyphen": "|="}
# fmt: on


def spelled_name(name: str) -> str:
    """A name with an escape for each character that is no letter."""
    return "".join(
        each if each.isalpha() and each.isascii() else f"\\{ord(each):x} " for each in name
    )


def spelled_string(value: str) -> str:
    """A string with an escape for each character that is no letter."""
    return f'"{spelled_name(value)}"'


def spelled_attribute(token: Dict[str, Any]) -> str:
    """An attribute selector, a class or an id."""
    name, value, space = token["name"], token["value"], token["namespace"]
    if token["ignoreCase"] == "quirks":
        return ("#" if name == "id" else ".") + spelled_name(value)
    front = "[" + ("" if space is None else f"{space}|") + spelled_name(name)
    if token["action"] == "exists":
        return front + "]"
    flag = {True: " i", False: " s"}.get(token["ignoreCase"], "")
    return front + ACTIONS[token["action"]] + spelled_string(value) + flag + "]"


def spelled(token: Dict[str, Any]) -> str:
    """A simple selector or a combinator."""
    kind, space = token["type"], token.get("namespace")
    if kind in COMBINATORS:
        return COMBINATORS[kind]
    if kind == "attribute":
        return spelled_attribute(token)
    if kind in ("tag", "universal"):
        name = "*" if kind == "universal" else spelled_name(token["name"])
        return name if space is None else f"{space}|{name}"
    data = token.get("data")
    shown = "" if data is None else f"({data if isinstance(data, str) else spelled_list(data)})"
    return f"{':' if kind == 'pseudo' else '::'}{token['name']}{shown}"


def spelled_list(parsed: List[List[Dict[str, Any]]]) -> str:
    """A list of selectors, as css-what reads them."""
    return ", ".join("".join(map(spelled, each)) for each in parsed)


PROJECTS = (
    Project("cssselect", ["python-cssselect=1.3.0-1"], [], judge_cssselect, 360),
    Project("css-select", ["node-css-select=5.1.0-3"], MODULES, judge_css_select, 720),
    Project("css-what", ["node-css-what=6.1.0-5"], MODULES, judge_css_what, 780),
    Project("jquery", ["node-jquery=3.6.1+dfsg+~3.5.14-1"], MODULES, judge_jquery, 150),
    Project("cascadia", ["golang-github-andybalholm-cascadia=1.3.3-1"], [], judge_cascadia, 540),
    Project("nokogiri", ["ruby-nokogiri=1.13.10+dfsg-2"], [], judge_nokogiri, 130),
    Project("servo", [], ["librust-selectors-dev=0.23.0-1"], judge_servo, 45),
)
