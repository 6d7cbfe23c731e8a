"""The examples: what is beside each page of examples/pages is what `inline` writes of it, and the
recipes of examples/python, examples/pre-commit and examples/github run. What a recipe needs and is
missing is named, and its test left out."""

import doctest
import importlib.util
import json
import os
import shlex
import shutil
import subprocess
import sys
import tempfile
import unittest
from typing import Any, Dict, List

SOURCE = os.path.join(os.path.dirname(os.path.abspath(__file__)), "..", "src")
sys.path.insert(0, SOURCE)

import simplecss  # noqa: E402

EXAMPLES = os.path.join(os.path.dirname(os.path.abspath(__file__)), "..", "..", "examples")
PAGES = os.path.join(EXAMPLES, "pages")

DJANGO = """
from django.conf import settings
settings.configure(
    EMAIL_BACKEND="django_mail.InlineBackend",
    INLINE_BACKEND="django.core.mail.backends.locmem.EmailBackend",
    INLINE_CSS="p { margin: 0 }",
)
import django
django.setup()
from django.core import mail
import django_mail
message = mail.EmailMultiAlternatives("a", "p", "a@example.org", ["b@example.org"])
message.attach_alternative("<p>1</p>", "text/html")
message.send()
page = mail.EmailMessage("a", "<p>2</p>", "a@example.org", ["b@example.org"])
page.content_subtype = "html"
page.send()
plain, html = mail.outbox
print(plain.body, plain.alternatives[0][0], html.body, django_mail.inline_css("<p>"))
"""


def read(name: str) -> str:
    """The text of a page."""
    with open(os.path.join(PAGES, name), encoding="utf-8", newline="") as file:
        return file.read()


class Guide(unittest.TestCase):
    """What docs/PYTHON.md begins with."""

    def test_answers(self) -> None:
        name = os.path.join(EXAMPLES, "..", "docs", "PYTHON.md")
        failed, tried = doctest.testfile(name, module_relative=False, encoding="utf-8")
        self.assertEqual((failed, tried), (0, 9))


class Examples(unittest.TestCase):
    """The inlined pages."""

    def test_inlined(self) -> None:
        """Each page has its inlined form beside it."""
        for name, inlined in (
            ("mail.html", "mail.inlined.html"),
            ("drawing.svg", "drawing.inlined.svg"),
            ("width.svg", "width.inlined.svg"),
        ):
            self.assertEqual(simplecss.inline(read(name), at=name), read(inlined), name)


class Recipes(unittest.TestCase):
    """The scripts and the settings of other programs."""

    def setUp(self) -> None:
        folder = tempfile.TemporaryDirectory()
        self.addCleanup(folder.cleanup)
        self.folder = folder.name

    def write(self, name: str, text: str) -> str:
        """Writes a file, and returns its path."""
        path = os.path.join(self.folder, name)
        with open(path, "w", encoding="utf-8") as file:
            file.write(text)
        return path

    def ran(self, *words: str, status: int = 0) -> str:
        """Runs words, and returns what they print."""
        paths = (
            SOURCE,
            os.path.join(EXAMPLES, "python"),
            os.environ.get("PYTHONPATH", ""),
        )
        environment = {**os.environ, "PYTHONPATH": os.pathsep.join(filter(None, paths))}
        environment["PYTHONDONTWRITEBYTECODE"] = "1"
        done = subprocess.run(
            words,
            cwd=self.folder,
            env=environment,
            stdout=subprocess.PIPE,
            stderr=subprocess.PIPE,
            encoding="utf-8",
            check=False,
        )
        self.assertEqual(done.returncode, status, done.stdout + done.stderr)
        return done.stdout

    def needs(self, module: str, package: str) -> None:
        """Leaves the test out if a module is missing."""
        if importlib.util.find_spec(module) is None:
            self.skipTest(f"there is no {module}: Debian's package is `{package}`")

    def settings(self, *names: str) -> Dict[Any, Any]:
        """What a file of settings says."""
        self.needs("yaml", "python3-yaml")
        import yaml

        with open(os.path.join(EXAMPLES, *names), encoding="utf-8") as file:
            found: Dict[Any, Any] = yaml.safe_load(file)
        return found

    def test_jinja(self) -> None:
        """A text is escaped before markup is made of it."""
        self.needs("jinja2", "python3-jinja2")
        script = os.path.join(EXAMPLES, "python", "jinja_mail.py")
        self.assertEqual(
            self.ran(sys.executable, script),
            '<h1 style="color: green">Fish &amp; chips</h1>\n',
        )

    def test_django(self) -> None:
        """The parts in HTML are inlined, and no others."""
        self.needs("django", "python3-django")
        self.assertEqual(
            self.ran(sys.executable, "-c", DJANGO),
            'p <p style="margin: 0">1</p> <p style="margin: 0">2</p> &lt;p&gt;\n',
        )

    def test_mails(self) -> None:
        """What stays in a sheet, and what is too long, is said."""
        script = os.path.join(EXAMPLES, "python", "check_mails.py")
        good = self.write("a.html", "<style>p { margin: 0 }</style><p>1</p>")
        self.assertEqual(self.ran(sys.executable, script, self.folder), "")
        bad = self.write("b.html", "<style>a:hover { color: red }</style><a>1</a>")
        long = self.write("c.html", "<p>" * 40_000)
        self.assertEqual(
            self.ran(sys.executable, script, self.folder, status=1),
            f"{bad}: `a:hover` stays: it depends on a state of the page\n"
            f"{long}: 120000 bytes are more than 104448\n",
        )
        self.assertNotIn(good, (bad, long))

    def test_pixels(self) -> None:
        """Lengths in em are pixels, and nothing else is changed."""
        script = os.path.join(EXAMPLES, "python", "pixels.py")
        sheet = self.write(
            "em.css",
            "a{margin:1.5em -.5EM 1e1em;b:'2em' 2rem url(3em)}/*4em*/.\\31 em{}",
        )
        self.assertEqual(
            self.ran(sys.executable, script, sheet),
            "a{margin:24px -8px 160px;b:'2em' 2rem url(3em)}/*4em*/.\\31 em{}",
        )

    def sheets(self) -> List[str]:
        """Writes a sheet without a mistake and one with one."""
        return [
            self.write("good.css", "a { top: 0 }"),
            self.write("bad.css", "a { top }"),
        ]

    def test_hook(self) -> None:
        """The local hook of pre-commit fails for a sheet with a mistake."""
        good, bad = self.sheets()
        (repository,) = self.settings("pre-commit", ".pre-commit-config.yaml")["repos"]
        (hook,) = repository["hooks"]
        self.assertEqual((repository["repo"], hook["language"]), ("local", "system"))
        words = shlex.split(hook["entry"])
        self.ran(sys.executable, *words[1:], good)
        self.ran(sys.executable, *words[1:], good, bad, status=1)

    def test_pre_commit(self) -> None:
        """So does pre-commit itself."""
        if shutil.which("pre-commit") is None or shutil.which("git") is None:
            self.skipTest("there is no pre-commit, or no git")
        name = ".pre-commit-config.yaml"
        shutil.copy(os.path.join(EXAMPLES, "pre-commit", name), self.folder)
        good, bad = map(os.path.basename, self.sheets())
        self.ran("git", "init", "-q")
        self.ran("git", "add", ".")
        self.ran("pre-commit", "run", "--files", good)
        self.assertIn("broken", self.ran("pre-commit", "run", "--files", bad, status=1))

    def test_workflow(self) -> None:
        """The step of the workflow of GitHub writes SARIF."""
        if shutil.which("bash") is None:
            self.skipTest("there is no bash")
        jobs = self.settings("github", "lint.yml")["jobs"]
        (step,) = (each for each in jobs["lint"]["steps"] if "sarif" in each.get("run", ""))
        self.sheets()
        self.ran(
            "bash",
            "-c",
            step["run"].replace("python3", shlex.quote(sys.executable)),
            status=1,
        )
        (named,) = (
            each["with"] for each in jobs["lint"]["steps"] if "sarif_file" in each.get("with", ())
        )
        with open(os.path.join(self.folder, named["sarif_file"]), encoding="utf-8") as file:
            log = json.load(file)
        self.assertEqual(log["version"], "2.1.0")
        (result,) = log["runs"][0]["results"]
        where = result["locations"][0]["physicalLocation"]
        self.assertEqual(where["artifactLocation"]["uri"], "bad.css")
        self.assertEqual(where["region"]["startColumn"], 5)


if __name__ == "__main__":
    unittest.main()
