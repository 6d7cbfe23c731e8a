"""Style sheets and style attributes from people whom nobody knows, made safe by a policy."""

from __future__ import annotations

import functools
from typing import (
    Any,
    Callable,
    Dict,
    Iterable,
    List,
    Mapping,
    NamedTuple,
    Optional,
    Sequence,
    Tuple,
    Union,
)

from . import _library as library
from ._given import expect_css
from ._library import expect_text, limit_of
from ._reading import Source
from ._words import lower

# What the library is asked for, by its numbers: a form of text, whether one of them is clean, the lists of its own
# policies, and the urls of a text.
_SHEET, _STYLE, _IS_CLEAN = range(3)
POLICIES = {"mail": 4, "comment": 5}
_URLS = 6
# What a policy has of names, in the order of the library. The urls and their answers are after the first four.
_LISTS = ("properties", "functions", "strings", "pseudos", "named", "words", "media")
_NUMBERS = ("important", "itself", "longest")
# How many urls of a text are answered. Others are refused.
_MOST_URLS = 1024
# What a value of a property may have: two numbers, between which its numbers are, and words, or a text of them.
Limit = Union[str, Iterable[Union[int, float, str]]]
# What answers a url: with what is written in its place, or with `None`, which refuses it.
Answer = Callable[[str], Optional[str]]


class Dropped(NamedTuple):
    """A piece of a text that was dropped.

    It has where it begins, the reason, its text, and the indices between which it is.
    """

    row: int
    column: int
    reason: str
    text: str
    start: int
    end: int


class Policy:
    """What is allowed of style sheets and style attributes.

    It has the names of properties, functions, properties whose values may have strings, pseudo-classes and
    words of media queries, limits of values, whether declarations may be important, whether rules may be for the
    elements that the scope matches, and the most bytes of a text. A limit is two numbers and words, as in
    `{"margin": (0, 500, "auto")}`: a value may have nothing but such words and numbers between these, where an
    absolute length counts in pixels, and all else by its number. With a prefix, custom properties are allowed, too. Their names
    get the prefix, and so does each word of the properties that are `named`, but for the `words`. If `"@supports"`,
    `"@container"`, `"@layer"` or `"@keyframes"` is among the words of media queries, these at-rules are kept, too; names
    of the last two get the prefix, and without one they are dropped.
    """

    def __init__(
        self,
        properties: Iterable[str],
        *,
        functions: Iterable[str] = (),
        strings: Iterable[str] = (),
        pseudos: Iterable[str] = (),
        media: Iterable[str] = (),
        prefix: str = "",
        named: Iterable[str] = (),
        words: Iterable[str] = (),
        limits: Optional[Mapping[str, Limit]] = None,
        important: bool = True,
        itself: bool = False,
        longest: Optional[int] = 262_144,
    ) -> None:
        expect_text(prefix)
        self.properties = _names(properties)
        self.functions = _names(functions)
        self.strings = _names(strings)
        self.pseudos = _names(pseudos)
        self.media = _names(media)
        self.prefix = prefix
        self.named = _names(named)
        self.words = _names(words)
        self.limits = _limits(limits or {})
        self.important = bool(important)
        self.itself = bool(itself)
        self.longest = limit_of(longest)

    @classmethod
    def of(cls, name: str) -> "Policy":
        """Returns a policy of the library: "mail", for the bodies of mails, or "comment"."""
        if name not in POLICIES:
            raise ValueError(f"a policy is {' or '.join(map(repr, POLICIES))}, not {name!r}")
        lines = _lines(name)
        properties, *lists = (lines[each] for each in _LISTS)
        important, itself, longest = (int(lines[each][0]) for each in _NUMBERS)
        others: Dict[str, Any] = dict(zip(_LISTS[1:], lists))
        others["limits"] = dict(zip(lines["limited"], lines["limits"]))
        return cls(
            properties,
            **others,
            important=bool(important),
            itself=bool(itself),
            longest=longest,
        )

    def changed(
        self,
        *,
        add: Iterable[str] = (),
        remove: Iterable[str] = (),
        functions: Iterable[str] = (),
        media: Iterable[str] = (),
        limits: Optional[Mapping[str, Limit]] = None,
        prefix: Optional[str] = None,
        important: Optional[bool] = None,
        itself: Optional[bool] = None,
        longest: Optional[int] = None,
    ) -> "Policy":
        """Returns the policy with other properties, more functions, words of media queries and limits, or another
        answer to what else it says."""
        gone, more = set(_names(remove)), _names(add)
        others = {each: getattr(self, each) for each in _LISTS[1:]}
        others["functions"] += _names(functions)
        others["media"] += _names(media)
        others["limits"] = {**self.limits, **_limits(limits or {})}
        return Policy(
            [each for each in (*self.properties, *more) if each not in gone],
            **others,
            prefix=self.prefix if prefix is None else prefix,
            important=self.important if important is None else important,
            itself=self.itself if itself is None else itself,
            longest=self.longest if longest is None else longest,
        )

    def __repr__(self) -> str:
        return f"<Policy of {len(self.properties)} properties>"


# A policy, or the name of one of the library.
AnyPolicy = Union[str, Policy]


class Cleaned:
    """What is kept of a text, as its `text`, and what was `dropped`."""

    __slots__ = ("text", "_asked", "_dropped")

    def __init__(self, text: str, asked: "_Asked") -> None:
        self.text = text
        self._asked = asked
        self._dropped: Optional[List[Dropped]] = None

    @property
    def dropped(self) -> List[Dropped]:
        """The pieces that were dropped, in order, a rule after its declarations."""
        if self._dropped is None:
            self._dropped = list(self._asked.dropped())
        return self._dropped

    def __str__(self) -> str:
        return self.text

    def __repr__(self) -> str:
        return f"<Cleaned {self.text!r}>"


def clean(
    text: str, *, scope: str, policy: AnyPolicy = "mail", url: Optional[Answer] = None
) -> Cleaned:
    """Returns what a policy allows of a style sheet, under a scope.

    The scope is one compound of names, ids and classes, such as `.mail`. A text that is longer than the
    policy says is dropped whole. `url` is called for each url of the text once, and returns what is written in its
    place, or `None`; without it all are refused.
    """
    expect_css(text)
    return _Asked(text, policy, scope, _SHEET, url).cleaned()


def clean_style(text: str, *, policy: AnyPolicy = "mail", url: Optional[Answer] = None) -> Cleaned:
    """Returns what a policy allows of a style attribute: the declarations that are allowed."""
    expect_text(text)
    return _Asked(text, policy, "", _STYLE, url).cleaned()


def is_clean(
    text: str, *, scope: str, policy: AnyPolicy = "mail", url: Optional[Answer] = None
) -> bool:
    """Whether a style sheet is one that a policy allows under a scope, as it is: with each url its own answer."""
    expect_text(text)
    return _Asked(text, policy, scope, _SHEET, _itself(url)).is_clean()


def is_clean_style(text: str, *, policy: AnyPolicy = "mail", url: Optional[Answer] = None) -> bool:
    """Whether a style attribute is one that a policy allows, as it is."""
    expect_text(text)
    return _Asked(text, policy, "", _STYLE, _itself(url)).is_clean()


class CSSSanitizer:
    """Cleans style attributes for bleach, as its `css_sanitizer`, and for nh3, as its `attribute_filter`."""

    def __init__(self, policy: AnyPolicy = "mail", *, url: Optional[Answer] = None) -> None:
        self.policy = _policy(policy)
        self.url = url

    def sanitize_css(self, style: str) -> str:
        """Returns what the policy allows of a style attribute."""
        return clean_style(style, policy=self.policy, url=self.url).text

    def __call__(self, element: str, attribute: str, value: str) -> Optional[str]:
        """Returns the value of an attribute, cleaned if it is `style`, or `None` if nothing is left."""
        if attribute != "style":
            return value
        return self.sanitize_css(value) or None


class _Asked:
    """A text, a policy and a form, of which the library is asked."""

    def __init__(
        self, text: str, policy: AnyPolicy, scope: str, form: int, url: Optional[Answer]
    ) -> None:
        expect_text(scope)
        self.source = Source(text)
        self.scope, self.form = scope, form
        answers = {} if url is None else _answers(self.source.data, url)
        self.policy = _arrays(scope, _policy(policy), answers)

    def _call(self, asked: int) -> str:
        """Returns what the library writes."""
        name, data = "simplecss_clean", self.source.data
        answer = library.call(name, data, self.policy, asked, room=256 + 2 * len(data))
        self._expect_scope(answer.status)
        return library.output_of(name, answer).decode("utf-8")

    def _expect_scope(self, status: int) -> None:
        """Raises `ValueError` for a scope that is refused."""
        if status == library.REFUSED:
            raise ValueError(f"a scope is a compound such as '.mail', not {self.scope!r}")

    def cleaned(self) -> Cleaned:
        """Returns what is kept."""
        return Cleaned(self._call(self.form), self)

    def is_clean(self) -> bool:
        """Whether the text is clean."""
        return self._call(_IS_CLEAN + self.form) == "true"

    def dropped(self) -> Iterable[Dropped]:
        """Yields what is dropped."""
        data, words = self.source.data, _lines("mail")["reasons"]
        numbers = library.numbers_of("simplecss_dropped", data, self.policy, self.form, room=300)
        for start, end, reason in library.rows_of(numbers, 3):
            span = self.source.offset(start), self.source.offset(end)
            row, column = self.source.position(span[0])
            yield Dropped(row, column, words[reason], self.source.text[slice(*span)], *span)


def _names(names: Iterable[str]) -> Tuple[str, ...]:
    """Returns names in lower case."""
    if isinstance(names, str):
        raise TypeError("a list of names is expected, not a text")
    return tuple(map(lower, names))


def _limits(limits: Mapping[str, Limit]) -> Dict[str, str]:
    """Returns limits as texts, by the names of the properties in lower case."""
    return {lower(name): _limit(limit) for name, limit in limits.items()}


def _limit(limit: Limit) -> str:
    """Returns a limit as a text."""
    return lower(limit if isinstance(limit, str) else ",".join(map(str, limit)))


def _policy(policy: AnyPolicy) -> Policy:
    """Returns a policy that is named, or is one."""
    return policy if isinstance(policy, Policy) else Policy.of(policy)


def _itself(url: Optional[Answer]) -> Optional[Answer]:
    """Returns what answers a url with itself, if it is answered so."""
    return None if url is None else functools.partial(_if_same, url)


def _if_same(url: Answer, asked: str) -> Optional[str]:
    """Returns a url that is its own answer."""
    return asked if url(asked) == asked else None


def _answers(data: bytes, url: Answer) -> Dict[str, str]:
    """Returns the answers to the urls of a text, by the urls."""
    answer = library.call("simplecss_clean", data, _NOTHING, _URLS, room=256)
    written = library.output_of("simplecss_clean", answer).decode("utf-8")
    asked = list(dict.fromkeys(written.split("\0")[:-1]))[:_MOST_URLS]
    answers = ((each, url(each)) for each in asked)
    return {each: found for each, found in answers if found is not None}


def _arrays(scope: str, policy: Policy, answers: Dict[str, str]) -> library.PolicyArrays:
    """Returns a policy as the library takes it, with answers to urls, which may be in `url()`."""
    lists: List[Sequence[str]] = [getattr(policy, each) for each in _LISTS]
    lists[1] = (*lists[1], "url") if answers else lists[1]
    lists[6:6] = list(policy.limits), list(policy.limits.values())
    lists[4:4] = list(answers), list(answers.values())
    texts = [[library.encode(text) for text in each] for each in lists]
    numbers = policy.important, policy.itself, policy.longest
    return library.PolicyArrays(_encoded(scope, policy.prefix), texts, *numbers)


def _encoded(*texts: str) -> List[bytes]:
    """Returns texts as the library takes them."""
    return [library.encode(text) for text in texts]


# A policy that allows nothing.
_NOTHING = library.PolicyArrays((b"", b""), ((),) * 11, 0, 0, 0)


@functools.lru_cache(maxsize=None)
def _lines(name: str) -> Dict[str, List[str]]:
    """Returns the lines of a policy of the library, by their first words."""
    answer = library.call("simplecss_clean", b"", _NOTHING, POLICIES[name], room=4096)
    written = library.output_of("simplecss_clean", answer).decode("utf-8")
    return {head: rest for head, *rest in (line.split(" ") for line in written.split("\n")[:-1])}
