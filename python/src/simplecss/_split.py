"""The statements of a sheet: what of them is written into attributes, and what stays."""

from __future__ import annotations

import functools
import itertools
from typing import (
    Collection,
    Dict,
    FrozenSet,
    Iterable,
    Iterator,
    List,
    Mapping,
    NamedTuple,
    Optional,
    Sequence,
    Set,
    Tuple,
    Union,
)

from ._declaration import Declaration
from ._families import family_of
from ._found_names import find_names
from ._imports import ReadSheet
from ._marking import goes_back
from ._nested import has_rules
from ._order import LAYER, LayeredText, Layers, Ordered, Reach, layers_of, reaches_of
from ._page import Content
from ._reading import (
    STYLE,
    BlockItem,
    Fault,
    Level,
    ReadAtRule,
    ReadDeclaration,
    ReadSelector,
    RuleSet,
    Source,
    Span,
    Statement,
    ended,
    is_closed,
)
from ._selectors import SelectorTexts, states_in
from ._staying import (
    Marks,
    Place,
    SetBlock,
    StayingRule,
    ended_in,
    has_declarations,
    marked,
    rules_of,
    rules_with,
)
from ._tokens import is_escaping, tokens
from ._traits import traits_of
from ._words import BLANKS

# Why what is written into attributes stays, too.
_UNTOUCHED = "it matches an element without a tag of its own, or one that is ignored"
_OVERRIDDEN = "a rule that stays could override it"
_AT_RULE = "an at-rule"
# The states of links.
_LINKS = frozenset(("link", "any-link"))


class Rule(NamedTuple):
    """A rule that is written into attributes: its selector, and the statement that it is of."""

    selector: str
    statement: "SplitStatement"

    @property
    def number(self) -> int:
        """The number of its statement."""
        return self.statement.number


def _ended(text: str) -> str:
    """Returns the text of a statement with what the end of its sheet closes."""
    text = ended(text) or text
    kinds = [each.text for each in tokens(text)]
    if kinds[-1:] in ([";"], ["}"]):
        return text
    return f"{text}{chr(0xFFFD) if is_escaping(text) else ''};"


class Leftover:
    """What a page leaves of statements, by their numbers."""

    def __init__(self) -> None:
        # The families of declarations that stay, too, and those of them that are important.
        self.families: Dict[int, Set[str]] = {}
        self.important: Dict[int, Set[str]] = {}
        # Those of them that match an element whose attributes are not written.
        self.untouched: Set[int] = set()
        # Where `!important` is put.
        self.marks: Marks = {}
        # The statements of which rules for mail clients are kept, since they match nothing.
        self.unmatched: Set[int] = set()
        # Whether something in a layer stays.
        self.has_layers = False

    def changed(self) -> Set[int]:
        """Returns the statements of which not just the usual text stays."""
        return {*self.families, *self.marks, *self.unmatched}


class NotWritten(NamedTuple):
    """What `inline` leaves in a style sheet.

    `text` has the selectors or the at-rule, and `reason` says why.
    """

    text: str
    reason: str


class SplitStatement:
    """A statement of a sheet: what of it is written into attributes, and what stays."""

    def __init__(self, number: int, source: Source, span: Span, title: str, reason: str) -> None:
        self.number = number
        # What it is called in a report, and why all of it stays.
        self.title = title
        self.reason = reason
        self.is_whole = True
        # The statements that it has, if it is a group rule, or itself, and what they are in.
        self.inner: List[Statement] = []
        self.source = source
        self.span = span
        # Whether the text of another sheet, or the end of a layer, may follow.
        self.is_followed = False
        # The layers that it is in, if something of them is written, and what is before the blocks
        # of the style rules that it is in.
        self.layers: Layers = ()
        self.knows_layers = False
        self.heads: Tuple[str, ...] = ()
        # The selectors that are written into attributes, and those that stay.
        self.going: List[str] = []
        self.staying: List[ReadSelector] = []
        # Where the block of a rule set is, what opens and closes it, and what it has.
        self.block = (0, 0)
        self.brackets = ("", "")
        self.items: Sequence[BlockItem] = ()

    @functools.cached_property
    def declarations(self) -> Tuple[Declaration, ...]:
        """The declarations of a rule set that does not stay whole."""
        return ended_in(self.items, self.source)

    @functools.cached_property
    def families(self) -> FrozenSet[str]:
        """The families of the declarations."""
        return frozenset(family_of(each.name) for each in self.declarations)

    @functools.cached_property
    def back(self) -> FrozenSet[str]:
        """The families in which a declaration goes back to what sheets say."""
        return frozenset(family_of(each.name) for each in self.declarations if goes_back((each,)))

    @functools.cached_property
    def grouped(self) -> List[List[Declaration]]:
        """The declarations by name and importance, each where its last one is."""
        groups: Dict[Tuple[str, bool], List[Declaration]] = {}
        for declaration in self.declarations:
            key = (declaration.name, declaration.important)
            group = groups.pop(key, [])
            group.append(declaration)
            groups[key] = group
        return list(groups.values())

    def count(self) -> int:
        """Returns how many declarations of a name and importance the rules have."""
        names = {(name, important) for name, _, important in self.declarations}
        return len(names) * len(self.going)

    @functools.cached_property
    def _places(self) -> Dict[Tuple[str, bool], List[int]]:
        found: Dict[Tuple[str, bool], List[int]] = {}
        for at, each in enumerate(self.declarations):
            found.setdefault((each.name, each.important), []).append(at)
        return found

    def places_of(self, name: str, important: bool) -> List[int]:
        """Returns where the declarations of a name and importance are in the block."""
        return self._places[name, important]

    def rules(self) -> List[Rule]:
        """Returns the rules that are written into attributes."""
        going = self.going if has_declarations(self.items) else []
        return [Rule(text, self) for text in going]

    def has_kept(self) -> bool:
        """Whether something of it stays on all pages."""
        return self.is_whole or bool(self.staying)

    @property
    def is_order(self) -> bool:
        """Whether it says no more than the order of layers, and only that of layers that are known."""
        return (
            self.knows_layers
            and len(self.inner) == 1
            and isinstance(self.inner[0], ReadAtRule)
            and self.inner[0].rule.name == LAYER
        )

    @property
    def has_layer(self) -> bool:
        """Whether it is in a layer, or is one."""
        return bool(self.layers) or any(layers_of(self.source, each.levels) for each in self.inner)

    def has_text(self, leftover: Leftover) -> bool:
        """Whether something of it stays."""
        is_left = self.number in leftover.families or self.number in leftover.unmatched
        return (self.has_kept() or is_left) and not (self.is_order and not leftover.has_layers)

    def orders(self) -> Iterator[Tuple[Layers, str]]:
        """Yields what says the order of layers: those that it is in and has, and it itself."""
        each = self.inner[0] if self.is_order else None
        if isinstance(each, ReadAtRule):
            end = ";" if each.rule.block is None else "{}"
            yield self.layers, f"@{LAYER} {each.rule.prelude}{end}"
            return
        yield self.layers, ""
        for inner in self.inner:
            yield layers_of(self.source, inner.levels), ""

    @functools.cached_property
    def kept_rules(self) -> Tuple[List[StayingRule], Set[str]]:
        """The rules that stay, and what they animate."""
        animated: Set[str] = set()
        place = Place(self.number, True, animated, self.knows_layers, self.layers)
        if self.is_whole:
            return list(rules_of(self.source, self.inner, place)), animated
        block = SetBlock(self.items, self.source, self.number)
        return list(rules_with(self.staying, place, block)), animated

    @functools.cached_property
    def links(self) -> List[ReadSelector]:
        """The selectors that stay and match links in any state."""
        return [
            each
            for each in self.staying
            if each.specificity is not None and _LINKS.issuperset(states_in(each.text))
        ]

    def with_going(self, chosen: List[ReadSelector]) -> "SplitStatement":
        """Returns the statement with some of the selectors that stay among those that go."""
        found = SplitStatement(self.number, self.source, self.span, self.title, self.reason)
        found.inner, found.is_whole = self.inner, self.is_whole
        found.is_followed = self.is_followed
        found.block, found.brackets, found.items = self.block, self.brackets, self.items
        found.layers, found.knows_layers = self.layers, self.knows_layers
        found.heads = self.heads
        found.staying = [each for each in self.staying if each not in chosen]
        found.going = self.going + [each.text for each in chosen]
        return found

    @functools.cached_property
    def unmarked(self) -> List[str]:
        """The text that stays of most pages."""
        return self._kept(())

    def _kept(self, marks: Collection[int]) -> List[str]:
        if self.is_whole or not self.going and not self.heads:
            whole = self._whole_text(marks)
            return [f"{' { '.join([*self.heads, whole])}{' }' * len(self.heads)}"]
        if not self.staying:
            return []
        staying = ", ".join(each.text for each in self.staying)
        first, last = self.brackets
        return [f"{staying} {first}{marked(self.source, self.block, marks).strip(BLANKS)}{last}"]

    def _whole_text(self, marks: Collection[int]) -> str:
        """Returns all of its text."""
        whole = marked(self.source, self.span, marks)
        # The end of its sheet may close it.
        is_last = self.span[1] == len(self.source.data)
        return _ended(whole) if self.is_followed and is_last else whole

    def kept(self, leftover: Leftover) -> List[str]:
        """Returns the text that stays."""
        shown = self._with_clients if self.number in leftover.unmatched else self
        marks = leftover.marks.get(self.number)
        texts = shown._kept(marks) if marks else shown.unmarked
        important = leftover.important.get(self.number, ())
        left = [
            each._replace(important=each.important or family_of(each.name) in important)
            for each in self.left_declarations(leftover)
        ]
        return [*texts, f"{self._selectors()} {{ {'; '.join(map(str, left))} }}"] if left else texts

    def left_declarations(self, leftover: Leftover) -> List[Declaration]:
        """Returns the declarations that stay, too."""
        families = leftover.families.get(self.number, ())
        return [each for each in self.declarations if families and family_of(each.name) in families]

    def not_written(self, leftover: Leftover) -> Iterator[NotWritten]:
        """Yields what of it is not written into attributes, and why."""
        if self.is_whole:
            yield NotWritten(self.title, self.reason)
            return
        is_unmatched = self.number in leftover.unmatched
        for each in self._with_clients.staying if is_unmatched else self.staying:
            yield NotWritten(each.text, _reason_of(each))
        if leftover.families.get(self.number):
            is_untouched = self.number in leftover.untouched
            yield NotWritten(self._selectors(), _UNTOUCHED if is_untouched else _OVERRIDDEN)

    def _selectors(self) -> str:
        return ", ".join(self.going)

    def clients(self) -> List[ReadSelector]:
        """Returns the selectors for mail clients among those that go."""
        return [
            ReadSelector(text, text, None, None, (0, 0))
            for text in self.going
            if not self.is_whole and traits_of(text).is_of_client
        ]

    @functools.cached_property
    def _with_clients(self) -> "SplitStatement":
        """The statement with the selectors for mail clients among those that stay, too."""
        found = self.with_going([])
        found.staying = self.clients() + self.staying
        return found


class SplitSheet:
    """A sheet with those that it imports: its statements, and the `style` element that it is in, if
    any."""

    def __init__(self, statements: List[SplitStatement], content: Optional[Content] = None) -> None:
        self.statements = statements
        self.content = content

    # What pages have in common is found once.

    @functools.cached_property
    def rules(self) -> List[Rule]:
        """The rules that are written into attributes."""
        return [rule for each in self.statements for rule in each.rules()]

    @functools.cached_property
    def selectors(self) -> SelectorTexts:
        """The selectors of the rules that are written, and then of those that stay."""
        return selectors_of(self.rules, self.kept_rules[0])

    @functools.cached_property
    def most(self) -> int:
        """How many declarations these have at most, which is known sooner than how many they have."""
        return sum(len(each.items) * len(each.going) for each in self.statements)

    @functools.cached_property
    def count(self) -> int:
        """How many declarations of a name and importance these have."""
        return sum(each.count() for each in self.statements)

    @functools.cached_property
    def kept_rules(self) -> Tuple[List[StayingRule], Set[str]]:
        """The rules that stay, and what they animate."""
        kept: List[StayingRule] = []
        animated: Set[str] = set()
        for each in self.statements:
            if each.has_kept():
                rules, names = each.kept_rules
                kept += rules
                animated |= names
        return kept, animated

    @functools.cached_property
    def has_links(self) -> bool:
        """Whether a selector that stays matches links in any state."""
        return any(each.staying and each.links for each in self.statements)

    @functools.cached_property
    def for_clients(self) -> List[SplitStatement]:
        """The statements with selectors for mail clients among those that go."""
        return [each for each in self.statements if each.clients()]

    def kept(self, newline: str, leftover: Leftover) -> str:
        """Returns the text that stays. If something of a layer does, so do the places of others."""
        changed = leftover.changed()
        text = LayeredText(newline)
        for each in self.statements if leftover.has_layers else self._some(changed):
            if leftover.has_layers and each.layers:
                text.enter(each.layers)
            if each.number in changed or each.has_kept():
                kept = each.kept(leftover) if each.number in changed else each.unmarked
                for one in kept:
                    text.add(each.layers, one)
        return text.closed()

    def _some(self, changed: Set[int]) -> List[SplitStatement]:
        """Returns the statements of which something stays on all pages, and those of these numbers,
        but for those that say no more than the order of layers."""
        first = self.statements[0].number if self.statements else 0
        places = (number - first for number in changed)
        found = {at for at in places if 0 <= at < len(self.statements)}
        every = map(self.statements.__getitem__, sorted(found.union(self._usual)))
        return [each for each in every if each.number not in self._orders]

    @functools.cached_property
    def _usual(self) -> List[int]:
        """The indices of the statements of which something stays on all pages."""
        return [at for at, each in enumerate(self.statements) if each.has_kept()]

    @functools.cached_property
    def ordering(self) -> List[SplitStatement]:
        """The statements that say something of the order of layers."""
        return [each for each in self.statements if each.has_layer or each.is_order]

    @functools.cached_property
    def _orders(self) -> Set[int]:
        """The numbers of those that say no more than the order of layers."""
        return {each.number for each in self.ordering if each.is_order}

    @functools.cached_property
    def _layered(self) -> List[SplitStatement]:
        """The statements in layers, and the layers that stay as they are."""
        return [each for each in self.ordering if each.has_layer and not each.is_order]

    def has_layers(self, leftover: Leftover) -> bool:
        """Whether something in a layer stays."""
        return any(each.has_text(leftover) for each in self._layered)

    def has_written(self) -> bool:
        """Whether a statement is written into attributes."""
        return any(each.going for each in self.statements)

    def is_marked(self, leftover: Leftover) -> bool:
        """Whether something in it gets `!important`."""
        return any(each.number in leftover.marks for each in self.statements)


def selectors_of(rules: List[Rule], kept: List[StayingRule]) -> SelectorTexts:
    """Returns the selectors of rules that are written, and of rules that stay."""
    texts = SelectorTexts(each.selector for each in rules)
    texts += (each.selector for each in kept)
    return texts


class Order:
    """Where rules that are written into attributes, and rules that stay, are in the cascade, by their
    numbers."""

    def __init__(
        self,
        statements: Iterable[SplitStatement],
        rules: Mapping[int, Rule],
        kept: Mapping[int, StayingRule],
    ) -> None:
        """Takes the rules that match something, and the statements that say something of layers."""
        parts: List[Tuple[int, Union[Ordered, Tuple[Layers, str]]]] = [
            (each.number, order) for each in statements for order in each.orders()
        ]
        first = len(parts)
        parts += (
            (each.number, Ordered(each.statement.layers, each.selector)) for each in rules.values()
        )
        # Those that stay come after those that are written of their statement.
        parts += ((each.number, each.ordered) for each in kept.values())
        places = sorted(range(len(parts)), key=lambda at: parts[at][0])
        reaches = reaches_of([parts[at][1] for at in places])
        found = dict(zip((at - first for at in places if at >= first), reaches))
        self.strengths = {rule: found[at].most for at, rule in enumerate(rules)}
        self.reaches = {rule: found[at] for at, rule in enumerate(kept, len(rules))}


def statements_of(read: ReadSheet, start: int, knows_layers: bool) -> List[SplitStatement]:
    """Returns the statements of a sheet, of which the first has a number. Where the places of layers
    are not known, these stay as they are."""
    rules = (each for _, each in read.placed if isinstance(each, RuleSet))
    find_names(one.text for each in rules for one in each.selectors)
    found = list(_statements_at(read, read.placed, 0, knows_layers))
    for number, each in enumerate(found, start):
        each.number = number
        each.is_followed = bool(each.source.around) or each.source is not found[-1].source
    return found


_Placed = Tuple[Source, Statement]


def heads_of(levels: Iterable[Level]) -> Tuple[str, ...]:
    """Returns what is before the blocks of the style rules among levels."""
    return tuple(each.condition.prelude for each in levels if each.condition.name == STYLE)


def _group_of(placed: _Placed, depth: int) -> Optional[Tuple[Source, Span]]:
    """Returns the group rule of a depth that a statement is in."""
    source, statement = placed
    return (source, statement.levels[depth].span) if len(statement.levels) > depth else None


def _statements_at(
    read: ReadSheet, placed: Iterable[_Placed], depth: int, knows_layers: bool
) -> Iterator[SplitStatement]:
    """Yields the statements in group rules of a depth."""
    for group, run in itertools.groupby(placed, lambda each: _group_of(each, depth)):
        if group is None:
            for source, each in run:
                reason = read.reasons.get((source, each.span), _AT_RULE)
                for taken in _taken(source, each, reason):
                    taken.layers = layers_of(source, each.levels)
                    taken.knows_layers = knows_layers
                    taken.heads = heads_of(each.levels)
                    yield taken
            continue
        members = list(run)
        inner = _opened(read, members, depth, group, knows_layers)
        yield from inner or [_whole(members, depth, group, knows_layers)]


def _opened(
    read: ReadSheet,
    members: List[_Placed],
    depth: int,
    group: Tuple[Source, Span],
    knows_layers: bool,
) -> List[SplitStatement]:
    """Returns the statements in a level if it is a layer, or a style rule, of which something is
    written."""
    name = members[0][1].levels[depth].condition.name
    is_layer = name == LAYER and knows_layers and is_closed(group[0].at(group[1]))
    if not is_layer and name != STYLE:
        return []
    inner = list(_statements_at(read, members, depth + 1, knows_layers))
    return inner if any(each.going for each in inner) else []


def _whole(
    members: List[_Placed], depth: int, group: Tuple[Source, Span], knows_layers: bool
) -> SplitStatement:
    """Returns a level that stays as it is."""
    source, span = group
    levels = members[0][1].levels
    condition = levels[depth].condition
    title = condition.prelude if condition.name == STYLE else str(condition)
    found = SplitStatement(0, source, span, title, _reason_within(members[0][1], depth))
    found.inner = [each for _, each in members]
    found.layers = layers_of(source, levels[:depth])
    found.knows_layers = knows_layers
    found.heads = heads_of(levels[:depth])
    return found


def _reason_within(member: Statement, depth: int) -> str:
    """Returns why a level of this depth stays whose first statement this is."""
    is_style = all(each.condition.name == STYLE for each in member.levels[depth:])
    return _reason_of(member.selectors[0]) if is_style and isinstance(member, RuleSet) else _AT_RULE


def _taken(source: Source, found: Statement, reason: str) -> Iterator[SplitStatement]:
    """Yields a statement, if it is kept; one of an at-rule stays for the reason."""
    if isinstance(found, ReadAtRule):
        title = f"@{found.rule.name} {found.rule.prelude}".rstrip(BLANKS)
        statement = SplitStatement(0, source, found.span, title, reason)
        statement.inner = [found]
        yield statement
    elif isinstance(found, RuleSet):
        title, reason = source.at(found.head), "a browser may drop the list"
        statement = SplitStatement(0, source, found.span, title, reason)
        statement.inner = [found]
        _sort(statement, found, source)
        yield statement
    else:
        yield from _skipped(source, found)


def _skipped(source: Source, found: Fault) -> Iterator[SplitStatement]:
    """Yields what is skipped, if it has a block."""
    text = source.at(found.span)
    braces = [each for each in tokens(text) if each.text in ("{", "}")]
    opened = next((each.start for each in braces if each.text == "{"), None)
    if opened is not None and braces[-1].text == "}" and braces[-1].end == len(text):
        title = text[:opened].strip(BLANKS)
        yield SplitStatement(0, source, found.span, title, found.reason)


def _reason_of(selector: ReadSelector) -> str:
    """Returns why a selector stays."""
    if traits_of(selector.text).is_of_client:
        return "it is for a mail client"
    if selector.pseudo_element is not None:
        return "it has a pseudo-element"
    if selector.specificity is None:
        return "it is unsupported"
    return "it depends on a state of the page"


def _sort(statement: SplitStatement, found: RuleSet, source: Source) -> None:
    """Sorts the selectors of a rule set, unless it stays whole."""
    if not all(traits_of(each.text).is_known for each in found.selectors):
        return
    if has_rules(found.items):
        statement.reason = "it has rules in it"
        return
    for each in found.selectors:
        if each.specificity is None or traits_of(each.text).has_state:
            statement.staying.append(each)
        else:
            statement.going.append(each.text)
    statement.block = found.span if found.is_part else (found.head[1], found.span[1])
    block = source.at(statement.block).strip(BLANKS)
    if statement.staying and (_is_open(found) or not found.is_closed and is_escaping(block)):
        # No brace would close what stays.
        statement.going, statement.staying = [], []
        statement.reason = "the end of the text closes it"
        return
    statement.is_whole = False
    statement.brackets = ("{ ", " }") if found.is_part else ("", "}" * (not found.is_closed))
    statement.items = found.items


def _is_open(found: RuleSet) -> bool:
    """Whether the end of the text closes a declaration of a rule set."""
    return not found.items.are_whole and any(
        isinstance(each, ReadDeclaration) and not each.is_closed for each in found.items
    )
