"""The devices that conditions of `@media` tell apart.

A condition is made of tests in parentheses, and each asks about one property of a device, such as its width. Of each
property the values are taken on which the tests say different things, and these are combined. The library says what holds.
"""

from __future__ import annotations

import itertools
from typing import Any, Dict, FrozenSet, Iterable, Iterator, List, NamedTuple, Optional
from typing import Sequence, Set, Tuple

from . import _library as library
from ._device import CHOICES, HOLDS, MOST, THOUSAND, TYPES, Device, says
from ._reading import Condition
from ._tokens import GAPS, Token, tokens
from ._words import lower

_MEDIA = "media"
# How many devices there may be, and how many times the library may be asked.
MOST_DEVICES, _MOST_ASKED = 4096, 2_000_000
_NUMBERS = frozenset(("number", "dimension"))
# The other features that ask about a field.
_OTHERS: Dict[str, Tuple[str, ...]] = {
    "dark": ("prefers-color-scheme",),
    "reduced_motion": ("prefers-reduced-motion",),
    "reduced_transparency": ("prefers-reduced-transparency",),
    "contrast": ("prefers-contrast",),
    "high_dynamic_range": ("dynamic-range",),
}
# Some fields of a device with their values.
_Fields = Dict[str, Any]


class _Test(NamedTuple):
    """A test of a condition: its text, its words, and the values that it compares with."""

    text: str
    words: FrozenSet[str]
    values: Tuple[str, ...]


def told_apart(conditions: Iterable[Condition], base: Device) -> List[Device]:
    """Returns devices: on each other device the conditions of `@media` say what they say on one of these. The first is
    like the one that is given. More than 4,096 raise `LimitError`. A length that depends on the device, as `50vw`, is
    taken as it is on the device that is given."""
    every = sorted({each for each in conditions if each.name == _MEDIA})
    return _Regions(every, base).devices()


class _Regions:
    """What conditions tell apart."""

    def __init__(self, conditions: Sequence[Condition], base: Device) -> None:
        self._conditions, self._base = conditions, base
        found = {test.text: test for each in conditions for test in _tests_in(each.prelude)}
        self._tests = [found[text] for text in sorted(found)]
        self._words = {word for each in self._tests for word in each.words}
        self._values = sorted({value for each in self._tests for value in each.values})
        self._room = library.Room(_MOST_ASKED, "questions about conditions")

    def devices(self) -> List[Device]:
        """Returns a device for each combination."""
        groups: List[List[_Fields]] = []
        count = 1
        for each in self._groups():
            groups.append(self._distinct(each))
            count *= len(groups[-1])
            library.Room(MOST_DEVICES, "devices that the conditions tell apart").take(count)
        found: Dict[Tuple[str, ...], Device] = {}
        for choice in itertools.product(*groups):
            device = self._base
            for fields in choice:
                device = device._replace(**fields)
            found.setdefault(self._answers(device), device)
        return list(found.values())

    def _answers(self, device: Device) -> Tuple[str, ...]:
        """Returns what the conditions say on a device."""
        return tuple(self._says(each.prelude, device) for each in self._conditions)

    def _says(self, text: str, device: Device) -> str:
        self._room.take(1)
        return says(Condition(_MEDIA, text), device)

    def _distinct(self, group: Iterable[_Fields]) -> List[_Fields]:
        """Returns the first of those values of fields on which the tests say the same."""
        found: Dict[Tuple[str, ...], _Fields] = {}
        for each in group:
            device = self._base._replace(**each)
            answers = (self._says(test.text, device) for test in self._tests)
            found.setdefault((device.type, *answers), each)
        return list(found.values())

    # ---- the values of fields

    def _groups(self) -> Iterator[Iterable[_Fields]]:
        """Yields values of the fields that tests ask about, those of the device first. No test asks about two of
        these groups."""
        base = self._base
        if any(map(_names_type, self._conditions)):
            yield [{"type": each} for each in _first(base.type, TYPES)]
        if self._asks("width", "height", "aspect-ratio", "orientation"):
            yield self._sizes("", (base.width, base.height))
        if self._asks("device-width", "device-height", "device-aspect-ratio"):
            own = base.device_width or base.width, base.device_height or base.height
            yield self._sizes("device-", own)
        if self._asks("resolution", "pixel-ratio"):
            found = (each / THOUSAND for each in sorted(self._resolutions()))
            yield [{"resolution": each} for each in _first(base.resolution, found)]
        for feature in ("color", "color-index", "monochrome"):
            if self._asks(feature):
                field = feature.replace("-", "_")
                every = sorted({0, *self._near(feature, field)})
                yield [{field: each} for each in _first(getattr(base, field), every)]
        for fields in CHOICES:
            features = (name.replace("_", "-") for name in fields)
            if self._asks(*features, *_OTHERS.get(next(iter(fields)), ())):
                yield self._chosen(fields)

    def _asks(self, *features: str) -> bool:
        """Whether a test has the name of one of these features, or of its `min-` or `max-`."""
        return any(word.endswith(each) for word in self._words for each in features)

    def _chosen(self, fields: Dict[str, Tuple[Any, ...]]) -> List[_Fields]:
        """Returns the values of fields that have few."""
        usual = {"update": "none" if self._base.type == "print" else "fast"}
        own = (getattr(self._base, name) for name in fields)
        firsts = [usual.get(name) if value is None else value for name, value in zip(fields, own)]
        every = itertools.product(*map(_first, firsts, fields.values()))
        return [dict(zip(fields, values)) for values in every]

    def _sizes(self, front: str, own: Tuple[int, int]) -> Iterator[_Fields]:
        """Yields sizes: at least one where widths, heights and ratios are between those that tests name, and on
        these."""
        across, down = f"{front}width", f"{front}height"
        widths, heights = (
            {one} | self._near(*2 * (name,)) for one, name in zip(own, (across, down))
        )
        ratios = [each for each in self._values if not each[-1:].isalpha()]
        ratios = ["1/1", *ratios] if self._asks("aspect-ratio", "orientation") else []
        # A line of a ratio crosses those of heights.
        for value, height in itertools.product(ratios, sorted(heights)):
            widths |= self._cuts(f"min-{front}aspect-ratio", value, across, {_field(down): height})
        widths |= {each for value in ratios for each in _multiples(value, widths)}
        for width in _first(own[0], sorted(widths)):
            at = {_field(across): width}
            crossed = (self._cuts(f"max-{front}aspect-ratio", each, down, at) for each in ratios)
            for height in _first(own[1], sorted(heights.union(*crossed))):
                yield {**at, _field(down): height}

    def _resolutions(self) -> Set[int]:
        """Returns resolutions around those that tests name, in thousandths."""
        features = "min-resolution", "-webkit-min-device-pixel-ratio"
        pairs = itertools.product(features, self._values)
        return {each for pair in pairs for each in self._cuts(*pair, "resolution", {})}

    def _near(self, feature: str, field: str) -> Set[int]:
        """Returns numbers of a feature around those that tests name."""
        values = self._values if self._asks(feature) else ()
        return {near for each in values for near in self._cuts(f"min-{feature}", each, field, {})}

    def _cuts(self, feature: str, value: str, field: str, fields: _Fields) -> Set[int]:
        """Returns the least number of a field from which on a feature has a value, on a device with these fields, and
        its neighbours."""
        device, name = self._base._replace(**fields), _field(field)
        scale = THOUSAND if name == "resolution" else 1
        test = f"({feature}: {value})"

        def has(number: int) -> bool:
            found: _Fields = {name: number / scale if scale > 1 else number}
            return self._says(test, device._replace(**found)) == HOLDS

        low, high = 1, MOST
        if not has(high):
            return set()
        while low < high:
            middle = (low + high) // 2
            low, high = (low, middle) if has(middle) else (middle + 1, high)
        return {each for each in (low - 1, low, low + 1) if 0 < each <= MOST}


def _field(feature: str) -> str:
    """Returns the field of a device that a feature asks about."""
    return feature.replace("-", "_")


def _first(one: Any, others: Iterable[Any]) -> List[Any]:
    """Returns a value and then the others."""
    return [one, *(each for each in others if each != one)]


def _multiples(ratio: str, widths: Iterable[int]) -> Iterator[int]:
    """Yields for each width the least one that is not less and has a whole height by a ratio."""
    across = ratio.split("/")[0].strip()
    if across.isdecimal() and len(across) < 10 and int(across):
        yield from (min(-(-each // int(across)) * int(across), MOST) for each in sorted(widths))


def _names_type(condition: Condition) -> bool:
    """Whether a condition may ask about the type of a device."""
    words = (each for each in tokens(condition.prelude) if each.kind == "ident")
    return any(lower(each.value) in TYPES for each in words)


# ---- the tests of a condition


def _tests_in(prelude: str) -> Iterator[_Test]:
    """Yields the tests of a condition: what is in parentheses that have no others in them, but those of
    calculations."""
    # Where the parentheses begin that are open, and for each that is open whether it is of a function.
    opened: List[int] = []
    calls: List[bool] = []
    every = list(tokens(prelude))
    for at, token in enumerate(every):
        if token.kind == "function" or token.text == "(":
            calls.append(token.kind == "function" or any(calls))
            if not calls[-1]:
                opened.append(at)
        elif token.text == ")" and calls and not calls.pop() and opened:
            yield _test_of(every[opened[-1] : at + 1])
            opened.clear()


def _test_of(block: Sequence[Token]) -> _Test:
    """Returns the test that some tokens are."""
    words = frozenset(lower(each.value) for each in block if each.kind == "ident")
    text = "".join(each.text for each in block)
    return _Test(text, words, tuple(_values_of([each for each in block if each.kind not in GAPS])))


def _values_of(block: Sequence[Token]) -> Iterator[str]:
    """Yields the values that a test compares with: numbers, calculations, and ratios of these."""
    last: Optional[str] = None
    at = 0
    while at < len(block):
        end = _end_of(block, at)
        # A calculation needs blanks, and no other value has any.
        text = " ".join(each.text for each in block[at:end])
        is_value = block[at].kind in _NUMBERS or block[at].kind == "function"
        if is_value:
            yield text
            if last is not None and block[at - 1].text == "/":
                yield f"{last}/{text}"
            last = text
        elif block[at].text != "/":
            last = None
        at = end


def _end_of(block: Sequence[Token], at: int) -> int:
    """Returns where a token ends, or a function with what is in its parentheses."""
    depth = 0
    for end in range(at, len(block) if block[at].kind == "function" else at):
        depth += block[end].kind == "function" or block[end].text == "("
        depth -= block[end].text == ")"
        if depth == 0:
            return end + 1
    return at + 1 if block[at].kind != "function" else len(block)
