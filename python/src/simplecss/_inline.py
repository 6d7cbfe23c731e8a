"""Style sheets written into `style` attributes, as mail is prepared.

What a sheet has, and which of its selectors match an element, are the library's answers.
"""

from __future__ import annotations

import functools
import os
import weakref
from typing import (
    AbstractSet,
    Callable,
    Dict,
    FrozenSet,
    Iterable,
    Iterator,
    List,
    NamedTuple,
    Optional,
    Sequence,
    Set,
    Tuple,
    TypeVar,
    Union,
)

from . import _library as library
from ._declaration import Declaration
from ._edits import OtherTree
from ._given import expect_css, expect_page
from ._families import EVERYTHING, family_of, is_in
from ._found_names import classes_in, pseudo_names
from ._imports import LOSES, ReadSheet, SheetReader
from ._linked import Load, Name, Shelf
from ._marking import (
    BACK,
    BUILT,
    COMPARED,
    HIGHEST,
    LAYERED,
    Group,
    Kind,
    Marking,
    Rank,
    Rival,
    Rivals,
    View,
    goes_back,
    raised_by,
)
from ._order import Grouped, Reach, Strength, Winners
from ._page import Content, EditedPage, written
from ._reading import ReadDeclaration, ReadSelector, Source, read_block
from ._selectors import Selectors, SelectorTexts, states_in
from ._sheet import StyleSheet, text_of
from ._presenting import attributes_of, is_presentable
from ._split import (
    Leftover,
    NotWritten,
    Order,
    Rule,
    SplitSheet,
    SplitStatement,
    selectors_of,
    statements_of,
)
from ._spaced import XLINK_HREF
from ._staying import Block, LeftBlock, Place, StayingRule, ended_in, marked, rules_of
from ._urls import joined
from ._values import color_in, has_ident, is_known, one_of, size_in
from ._words import BLANKS, lower, words_of
from ._xml import is_xml as is_xml_name
from ._encoding import decode_page

_URL_ATTRIBUTES = frozenset(("href", "src", "background", "action", "poster"))
# The attributes that say the same as a property: for which elements, and for which values.
_CELLS = frozenset(("td", "th", "tr"))
_TABLES = _CELLS | {"table"}
_SIZED = frozenset(("table", "td", "th", "img"))
_ATTRIBUTES: Dict[str, Tuple[Tuple[str, FrozenSet[str], Callable[[str], Optional[str]]], ...]] = {
    "width": (("width", _SIZED, size_in),),
    "height": (("height", _SIZED, size_in),),
    "background-color": (("bgcolor", _TABLES | {"body"}, color_in),),
    "text-align": (("align", _CELLS, one_of("left", "right", "center", "justify")),),
    "vertical-align": (("valign", _CELLS, one_of("top", "middle", "bottom", "baseline")),),
}

# How long a sheet is of which nothing is kept for the next document.
_MOST_KEPT = 1_000_000
# How many layers the library orders.
_MOST_LAYERS = 1024
# What the names of properties that set a colour have.
_COLORED = "color background border outline fill stroke column text caret -webkit --".split()

Document = TypeVar("Document", str, bytes)
# A sheet, or several, one after another.
Css = Union[str, StyleSheet, Sequence[Union[str, StyleSheet]]]
_ALL_FAMILIES = frozenset((EVERYTHING,))


class _Options(NamedTuple):
    """What `inline` is asked for beside its main work."""

    folder: Optional[Name] = None
    load: Optional[Load] = None
    base_url: Optional[str] = None
    preserve: Optional[Selectors] = None
    ignore: Optional[Selectors] = None
    keep_style: bool = False
    remove_classes: bool = False
    attributes: bool = False
    as_attributes: bool = False
    important: bool = True
    limit: int = library.USUAL_LIMIT
    answer_limit: int = library.USUAL_ANSWER_LIMIT


# What a `Kind` is made of.
_KindKey = Tuple[int, int, str, bool, str]
# Declarations by family and importance.
_Families = Dict[Tuple[str, bool], FrozenSet[Declaration]]


class _Found:
    """What is read of a sheet, and its statements: without layers, and with those that stay."""

    def __init__(self, read: ReadSheet) -> None:
        self.read = read
        self._split: Dict[bool, SplitSheet] = {}
        self._linked: Dict[bool, SplitSheet] = {}

    def split(self, knows_layers: bool) -> SplitSheet:
        """Returns its statements, of which the first has the number 0."""
        if knows_layers not in self._split:
            self._split[knows_layers] = self.split_from(0, knows_layers)
        return self._split[knows_layers]

    def split_from(self, number: int, knows_layers: bool) -> SplitSheet:
        """Returns its statements, of which the first has a number."""
        return SplitSheet(statements_of(self.read.taken(knows_layers), number, knows_layers))

    def linked(self, knows_layers: bool) -> SplitSheet:
        """Returns the same with rules for links among those that are written."""
        if knows_layers not in self._linked:
            self._linked[knows_layers] = _with_links([self.split(knows_layers)])[0]
        return self._linked[knows_layers]


_found_of: "weakref.WeakKeyDictionary[StyleSheet, Dict[Optional[str], _Found]]"
_found_of = weakref.WeakKeyDictionary()


@functools.lru_cache(maxsize=2)
def _found_in(css: str) -> Dict[Optional[str], _Found]:
    """Returns what is found of a text, by the base of its urls: many mails have the same sheet."""
    return {}


class _GivenSheet:
    """A sheet that is passed, for any number of pages."""

    def __init__(self, css: Union[str, StyleSheet]) -> None:
        self.css = _text_of(css)
        self.css.encode("utf-8")
        if isinstance(css, str):
            expect_css(css)
        # What is found of the sheet, by the base of its urls: of a `StyleSheet` once for all.
        self._found: Dict[Optional[str], _Found] = {}
        if not isinstance(css, str):
            self._found = _found_of.setdefault(css, self._found)
        elif len(css) <= _MOST_KEPT:
            self._found = _found_in(css)

    def read(self, reader: SheetReader, base: Optional[str]) -> _Found:
        """Returns what is read of the sheet: once, if it imports nothing."""
        if base in self._found:
            reader.texts.append(self.css)
            return self._found[base]
        found = _Found(reader.read(self.css, None))
        if not found.read.has_imports:
            self._found[base] = found
        return found


class _Prepared:
    """Sheets and options for any number of pages."""

    def __init__(self, css: Css, options: _Options) -> None:
        self.sheets = list(map(_GivenSheet, _each_of(css) or [""]))
        self.options = options

    def reader(self, page: EditedPage, at: Optional[Name]) -> SheetReader:
        """Returns what reads the sheets of a page, which is there."""
        options = self.options
        shelf = Shelf(at, options.folder, options.load, options.answer_limit)
        shelf.take_base(page.elements)
        return SheetReader(shelf, options.base_url)


class _PageInliner:
    """Writes sheets into the attributes of a page."""

    def __init__(self, page: EditedPage, prepared: _Prepared, at: Optional[Name]) -> None:
        self.page = page
        self.options = options = prepared.options
        self.reader = prepared.reader(page, at)
        # Whether what stays is made important, where that lets something be written.
        self.is_marking = options.important and not options.keep_style
        ignore = options.ignore
        self.ignored = page.elements.found_set(ignore) if ignore else frozenset()
        self.given = [each.read(self.reader, options.base_url) for each in prepared.sheets]
        self.own_sheets = list(self._read_all())
        self.knows_layers = self._knows_layers()
        self._take_sheets(self.knows_layers)
        # How many declarations may yet be compared, and how many characters the page may yet grow
        # by.
        self.compared = library.Room(options.answer_limit)
        self.growth = library.Room(options.answer_limit, "characters of style attributes")
        # The statements of the rules that match an element, by their numbers.
        self.numbered: Dict[int, SplitStatement] = {}
        self.winners: List[List[Group]] = []
        self.groups: Dict[int, List[Group]] = {}
        self.as_it_is: Dict[Tuple[int, int], FrozenSet[str]] = {}
        self.families: Dict[int, _Families] = {}
        self.owned: Dict[str, Optional[List[Declaration]]] = {}
        # The sets of rules, and of rules that stay, that match elements.
        self.rule_sets: List[Tuple[int, ...]] = []
        self.rival_sets: List[Tuple[int, ...]] = []
        # The elements of each kind, the families that are left of it, and what it has.
        self.kinds: Dict[Kind, List[int]] = {}
        self.left_of: Dict[Kind, Set[str]] = {}
        self.views: Dict[Kind, View] = {}
        self.rivals: Dict[Tuple[int, Tuple[Tuple[int, Strength], ...]], Rivals] = {}
        self.left_blocks: Dict[int, LeftBlock] = {}
        self.leftover = Leftover()

    def _read_all(self) -> Iterator[Tuple[Content, ReadSheet, bool, bool]]:
        """Yields the sheets of the page: the element, what is read, and whether it is written into
        attributes, and may change."""
        page, preserve = self.page, self.options.preserve
        preserved = page.elements.found_set(preserve) if preserve else frozenset()
        for content in page.sources:
            found = self._read(content) if page.is_style_sheet(content) else None
            if found is not None:
                may_change = content.element not in preserved
                yield content, found, page.is_plain(content) and may_change, may_change

    def _knows_layers(self) -> bool:
        """Whether the order of all layers is known."""
        whole = [read for _, read, is_written, _ in self.own_sheets if not is_written]
        reads = [each.read for each in self.given]
        reads += (read for _, read, _, _ in self.own_sheets)
        layered = [each for each in reads if each.knows_layers is not None]
        if not all(each.knows_layers and each not in whole for each in layered):
            return False
        if layered and any(each.reasons for each in reads):
            return False
        return sum(each.layer_count for each in layered) <= _MOST_LAYERS

    def _take_sheets(self, knows_layers: bool) -> None:
        """Takes the sheets and those of the page, whose layers are written if their order is known."""
        self.sheets: List[SplitSheet] = []
        # Whether an `@import` stays.
        self.has_staying = False
        # What `@keyframes` set, and the sheets that stay where they are, with their numbers.
        self.animated: Set[str] = set()
        self.others: List[Tuple[Content, Source, int]] = []
        self.kept: List[StayingRule] = []
        number = 0
        for each in self.given:
            sheet = (
                each.split(knows_layers) if number == 0 else each.split_from(number, knows_layers)
            )
            number = self._add(each.read.taken(knows_layers), sheet, number)
        for content, found, is_written, may_change in self.own_sheets:
            read = found.taken(knows_layers)
            # What it imports would import it in another place, if it were not there.
            is_needed = content.href is not None and read.returns and bool(read.reasons)
            if is_written and (knows_layers or not is_needed):
                sheet = SplitSheet(statements_of(read, number, knows_layers), content)
                number = self._add(read, sheet, number)
            else:
                self._keep_whole(read, content, number, may_change)
                number += 1
        if self.is_marking and not self.page.is_xml:
            self._take_links()
        self._prepare()

    def _add(self, read: ReadSheet, sheet: SplitSheet, number: int) -> int:
        """Adds a sheet, whose first statement has a number. Returns the next number."""
        self.sheets.append(sheet)
        self.has_staying = self.has_staying or bool(read.reasons)
        for each, has_layer in read.staying:
            self.kept.extend(each.rules(number, self.animated, has_layer))
        return number + len(sheet.statements)

    def _keep_whole(self, read: ReadSheet, content: Content, number: int, may_mark: bool) -> None:
        """Notes the rules of a sheet that stays where it is."""
        source = read.placed[0][0] if read.placed else Source("")
        is_alone = all(each is source for each, _ in read.placed) and not read.staying
        is_same = content.href is None and source.text == self.page.sheet_of(content)
        if not (may_mark and is_alone and is_same):
            self.kept.extend(read.rules(number, self.animated))
            return
        self.others.append((content, source, number))
        statements = (statement for _, statement in read.placed)
        self.kept.extend(rules_of(source, statements, Place(number, True, self.animated)))

    def _read(self, content: Content) -> Optional[ReadSheet]:
        """Reads the sheet of an element. Returns `None` for a link to one that cannot be read."""
        if content.href is None:
            return self.reader.read(self.page.sheet_of(content), None)
        url, shelf = content.href, self.reader.shelf
        if content.element < self.page.elements.base:
            url = shelf.before_base(url)
        css = shelf.read(url) if url else None
        return None if css is None else self.reader.read(css, url)

    def _prepare(self) -> None:
        """Collects the rules that are written into attributes, and those that stay."""
        limit, sheets = self.options.limit, self.sheets
        if sum(each.most for each in sheets) > limit < sum(each.count for each in sheets):
            raise library.LimitError("the rules would hold more declarations than the limit")
        is_alone = len(self.sheets) == 1 and not self.kept
        for sheet in self.sheets:
            kept, animated = sheet.kept_rules
            self.kept += kept
            self.animated |= animated
        self.rules: List[Rule] = [rule for sheet in self.sheets for rule in sheet.rules]
        sheet = self.sheets[0]
        self.selectors = sheet.selectors if is_alone else selectors_of(self.rules, self.kept)

    def _take_links(self) -> None:
        """Takes rules for links among those that are written, where visited links stay as they
        are."""
        if not any(sheet.has_links for sheet in self.sheets):
            return
        is_alone = len(self.sheets) == 1
        linked = self.given[0].linked(self.knows_layers) if is_alone else None
        self.sheets = [linked] if linked else _with_links(self.sheets)

    def write(self) -> None:
        """Writes what wins on each element into its attribute, and what stays into style
        elements."""
        self._sort_elements()
        marking = self._decide()
        self.leftover.marks = marking.marks
        for kind, indices in self.kinds.items():
            if kind.has_tag:
                self._write_kind(kind, indices, marking)
        self._keep_clients()
        if self.options.base_url is not None:
            self._rebase_attributes(self.options.base_url)
        if self.options.remove_classes:
            self._remove_classes()
        self._write_sheets()

    def _sort_elements(self) -> None:
        """Sorts the elements that are shown by their kinds."""
        elements, tags, ignored = self.page.elements, self.page.tags, self.ignored
        drawn = elements.drawn if self._has_attributes() else frozenset()
        styles = self._own_styles()
        found: Dict[_KindKey, List[int]] = {}
        for index, (is_shown, (rules, others, is_matched)) in enumerate(
            zip(self.page.shown(), self._matched())
        ):
            own = styles.get(index, "")
            if is_shown and (is_matched or own):
                has_tag = tags[index] is not None and index not in ignored
                name = elements.names[index] if index in drawn else ""
                found.setdefault((rules, others, own, has_tag, name), []).append(index)
        self.kinds = {Kind(*key): indices for key, indices in found.items()}

    def _own_styles(self) -> Dict[int, str]:
        """Returns the own `style` of elements, where it matters what it says."""
        return {
            index: attributes["style"]
            for index, attributes in enumerate(self.page.elements.plain)
            if "style" in attributes and (self.is_marking or has_ident(attributes["style"], BACK))
        }

    def _has_attributes(self) -> bool:
        """Whether drawings get attributes in place of styles. Where all sheets stay, or one is not read,
        these would beat what another sheet says."""
        given = self.sheets[: len(self.given)]
        is_beaten = self.options.keep_style and any(each.statements for each in given)
        is_known = not is_beaten and not self.reader.shelf.unread
        return self.options.as_attributes and is_known

    def _matched(self) -> Iterator[Tuple[int, int, bool]]:
        """Returns for each element the numbers of the set of rules that match it, and of the set of
        those that stay, and whether one of these matters. Most elements share few sets.
        """
        count = len(self.rules)
        possible = self.selectors.possible(self.page.elements.classes_and_ids)
        selectors = self.selectors
        if len(possible) < len(selectors):
            selectors = SelectorTexts(map(selectors.__getitem__, possible))
        lines = self.page.elements.matched(selectors, self.options.answer_limit)
        rule_sets: Dict[Tuple[int, ...], int] = {}
        rival_sets: Dict[Tuple[int, ...], int] = {}
        found: Dict[bytes, Tuple[int, int, bool]] = {}
        for line in dict.fromkeys(lines):
            numbers = [possible[int(each) - 1] for each in line.split()]
            rules = tuple(each for each in numbers if each < count)
            rivals = tuple(each - count for each in numbers if each >= count)
            found[line] = (
                rule_sets.setdefault(rules, len(rule_sets)),
                rival_sets.setdefault(rivals, len(rival_sets)),
                bool(rules) or self.is_marking and bool(rivals),
            )
        self.rule_sets, self.rival_sets = list(rule_sets), list(rival_sets)
        every = {rule for rules in rule_sets for rule in rules}
        for each in every:
            self.numbered[self.rules[each].number] = self.rules[each].statement
        self.order = self._ordered(every, {rule for rules in rival_sets for rule in rules})
        self._find_winners(every)
        return map(found.__getitem__, lines)

    def _ordered(self, rules: Iterable[int], kept: Iterable[int]) -> Order:
        """Returns where rules that match something are in the cascade."""
        statements = (each for sheet in self.sheets for each in sheet.ordering)
        return Order(
            statements if self.knows_layers else (),
            {rule: self.rules[rule] for rule in sorted(rules)},
            {rule: self.kept[rule] for rule in sorted(kept)},
        )

    def _find_winners(self, every: Iterable[int]) -> None:
        """Finds what wins of each set of rules, which are of these."""
        groups = {rule: self._groups(rule) for rule in every}
        for rules in self.rule_sets:
            self.compared.take(COMPARED * sum(len(groups[rule]) for rule in rules))
        names = {
            rule: (
                self.order.strengths[rule],
                [Grouped(each.name, each.important) for each in those],
            )
            for rule, those in groups.items()
        }
        self.winners = [
            [groups[rule][at] for rule, at in won] for won in Winners(names).of(self.rule_sets)
        ]

    def _groups(self, rule: int) -> List[Group]:
        """Returns the declarations of a rule by name and importance, each where its last one is."""
        found = self.groups.get(rule)
        if found is None:
            statement, strength = self.rules[rule].statement, self.order.strengths[rule]
            number = statement.number
            found = [Group(tuple(each), strength, number) for each in statement.grouped]
            self.groups[rule] = found
        return found

    def _decide(self) -> Marking:
        """Decides what is left in sheets of each kind of element, and what gets `!important`."""
        self.left_of = {kind: set() for kind in self.kinds}
        for kind in self.kinds:
            if not kind.has_tag:
                # There is no attribute that could be written into.
                self._leave(kind, _ALL_FAMILIES)
                continue
            self._leave(kind, self._back(kind))
            if not self.is_marking:
                self._leave(kind, self._left_as_it_is(kind))
        texts = (self.page.text, *self.reader.texts) if self.animated else ()
        is_animating = any("animation" in lower(text) or "\\" in text for text in texts)
        animated = self.animated if is_animating else set()
        while True:
            marking = Marking(self.left_of, self._view, animated, self.compared)
            if not self.is_marking:
                return marking
            conflicts = marking.solve(self._left_as_it_is)
            if not conflicts:
                return marking
            for kind, families in conflicts.items():
                self._leave(kind, families)
            self.views.clear()
            self.rivals.clear()
            self.left_blocks.clear()

    def _back(self, kind: Kind) -> Set[str]:
        """Returns the families in which a declaration goes back to what sheets say."""
        rules = self.rule_sets[kind.rules]
        found = {each for rule in rules for each in self._statement(rule).back}
        if rules and has_ident(kind.own, BACK):
            own = self._own(kind.own)
            is_all = own is None or any(each.name == "all" for each in self.winners[kind.rules])
            back = {family_of(each.name) for each in own or () if goes_back((each,))}
            found |= _ALL_FAMILIES if is_all else back
        return found

    def _left_as_it_is(self, kind: Kind) -> FrozenSet[str]:
        """Returns the families that have to be left of a kind if nothing gets `!important`."""
        key = (kind.rules, kind.rivals)
        if key not in self.as_it_is:
            winners = self.winners[kind.rules]
            rivals = self._strongest(self.rival_sets[kind.rivals])
            rules = [rule for rule, _ in rivals]
            declared_count = sum(1 + len(each.block.declared) for each in rules)
            self.compared.take(COMPARED * (len(winners) + declared_count))
            declared = [_Rival(*each, self._families(each[0])) for each in rivals]
            self.as_it_is[key] = _left_families(winners, declared)
        return self.as_it_is[key]

    def _view(self, kind: Kind) -> View:
        """Returns what a kind of element has."""
        if kind not in self.views:
            mine = self._written(kind)
            named = self._named(mine, kind)
            mine += [each for group in mine for each in _beaten(group, named.get(group.name, []))]
            rivals = self._rivals(kind)
            # Own declarations matter only where something stays.
            own = self._own(kind.own) if kind.own and rivals.every else []
            self.views[kind] = View(mine, own, rivals)
        return self.views[kind]

    def _rivals(self, kind: Kind) -> Rivals:
        """Returns the blocks that stay and may apply to a kind of element."""
        ranks = self._left_ranks(kind)
        key = (kind.rivals, tuple(ranks.items()))
        if key not in self.rivals:
            blocks: Dict[Block, List[int]] = {}
            for at in self.rival_sets[kind.rivals]:
                blocks.setdefault(self.kept[at].block, []).append(at)
            self.compared.take(BUILT * (len(blocks) + len(ranks)))
            every = [self._rival(block, rules) for block, rules in blocks.items()]
            for number, rank in ranks.items():
                every.append(Rival(self._left_block(number), Reach(rank, rank), False))
            self.rivals[key] = Rivals(every)
        return self.rivals[key]

    def _rival(self, block: Block, rules: List[int]) -> Rival:
        """Returns a block of which these rules that stay may apply."""
        if self.kept[rules[0]].is_layered:
            return Rival(block, LAYERED, True)
        reaches = [self.order.reaches[each] for each in rules]
        least = [each.least for each in reaches]
        definite = [each for each, rule in zip(least, rules) if self.kept[rule].is_definite]
        most = max(each.most for each in reaches)
        return Rival(block, Reach(max(definite) if definite else min(least), most), False)

    def _strongest(self, rules: Iterable[int]) -> List[Tuple[StayingRule, Strength]]:
        """Returns of the rules that stay of each rule set the one that may be strongest, and how
        strong that is."""
        found: Dict[int, Tuple[StayingRule, Strength]] = {}
        for at in rules:
            rule = self.kept[at]
            most = (LAYERED if rule.is_layered else self.order.reaches[at]).most
            key = id(rule.block)
            if key not in found or found[key][1] < most:
                found[key] = rule, most
        return list(found.values())

    def _left_ranks(self, kind: Kind) -> Dict[int, Strength]:
        """Returns how strong what is left is of the rule sets that match a kind of element."""
        found: Dict[int, Strength] = {}
        for rule in self.rule_sets[kind.rules]:
            number, rank = self.rules[rule].number, self.order.strengths[rule]
            if number in self.leftover.families:
                found[number] = max(rank, found.get(number, rank))
        return found

    def _left_block(self, number: int) -> LeftBlock:
        """Returns the block of what is left of a rule set."""
        if number not in self.left_blocks:
            declared = self.numbered[number].left_declarations(self.leftover)
            important = self.leftover.important.setdefault(number, set())
            self.left_blocks[number] = LeftBlock(declared, important)
        return self.left_blocks[number]

    def _own(self, text: str) -> Optional[List[Declaration]]:
        """Returns the declarations of an attribute `style`, or `None` if it has something else."""
        if text not in self.owned:
            source, items = read_block(text)
            found = list(ended_in(items, source))
            self.owned[text] = found if len(found) == len(items) else None
        return self.owned[text]

    def _written(self, kind: Kind) -> List[Group]:
        """Returns what wins on a kind of element and is not left."""
        left = self.left_of[kind]
        return [each for each in self.winners[kind.rules] if not is_in(each.name, left)]

    def _write_kind(self, kind: Kind, indices: List[int], marking: Marking) -> None:
        """Writes the attributes of the elements of a kind."""
        groups = self._written(kind)
        raised = raised_by(self._view(kind), marking.marked) if marking.marked else {}
        demoted = marking.demoted.get(kind, set())
        above = raised.keys() | {family_of(name) for _, name in demoted}
        own = (self._own(kind.own) or []) if above else []
        if all(each.important or family_of(each.name) not in above for each in own):
            own = []
        if kind.drawn:
            apart = self._presented(kind, groups)
            groups = [each for each in groups if each not in apart]
            self._present(apart, indices)
        texts = self._texts(kind, groups, own, raised, demoted)
        if texts:
            self.growth.take(sum(map(len, texts)) * len(indices))
            self.page.add_declarations(indices, texts, has_own=bool(own))
        for index in indices if self.options.attributes else ():
            _set_attributes(self.page, index, groups)

    def _presented(self, kind: Kind, groups: List[Group]) -> List[Group]:
        """Returns what is written into presentation attributes, which all rules beat: what is weaker
        than all that stays and may apply, and has no other value before it. Of a family all is, or
        nothing."""
        names = attributes_of(kind.drawn)
        named = self._named(groups, kind)
        rivals = self._view(kind).rivals
        families: Dict[str, List[Group]] = {}
        for each in groups:
            families.setdefault(family_of(each.name), []).append(each)
        found: List[Group] = []
        for family, those in families.items():
            is_plain = all(
                each.name in names
                and is_presentable(each)
                and not _beaten(each, named.get(each.name, []))
                for each in those
            )
            if is_plain and EVERYTHING not in families:
                top = max(each.rank for each in those)
                found += those if not rivals.may_lose(family, top) else ()
        return found

    def _present(self, groups: List[Group], indices: List[int]) -> None:
        """Writes declarations into presentation attributes."""
        for group in groups:
            value = written(group.declarations[0].value)
            self.growth.take((len(group.name) + len(value)) * len(indices))
            for index in indices:
                self.page.set_attribute(index, group.name, value)

    def _families(self, rival: StayingRule) -> _Families:
        """Returns the declarations of a rule that stays, by family and importance."""
        key = id(rival.block)
        if key not in self.families:
            found: Dict[Tuple[str, bool], List[Declaration]] = {}
            for each in rival.block.declared:
                found.setdefault((family_of(each.name), each.important), []).append(each)
            self.families[key] = {name: frozenset(those) for name, those in found.items()}
        return self.families[key]

    def _rebase_attributes(self, base: str) -> None:
        for index in range(len(self.page.elements)):
            is_ignored = index in self.ignored
            for name, url in () if is_ignored else self._urls_of(index).items():
                if url != joined(base, url):
                    self.page.set_attribute(index, name, joined(base, url))

    def _urls_of(self, index: int) -> Dict[str, str]:
        """Returns the attributes of an element that are urls. In XML that of XLink is also its `href`,
        which browsers take first."""
        elements = self.page.elements
        own = elements.plain[index]
        found = {name: own[name] for name in _URL_ATTRIBUTES & own.keys()}
        if self.page.is_xml and index in elements.spaced:
            spaced = elements.spaced[index].spaced
            links = [value for space, name, value in spaced if (space, name) == XLINK_HREF]
            found = {**{"href": value for value in links}, **found}
        return found

    def _remove_classes(self) -> None:
        """Removes the classes that no rule that stays names."""
        written = {sheet.content for sheet in self.sheets}
        links = {each for each in self.page.sources if each.href is not None}
        if self.has_staying or not links <= written:
            # What they name is in no text that is here.
            return
        kept = [sheet.kept("\n", self.leftover) for sheet in self.sheets]
        kept += [self.page.sheet_of(each) for each in self.page.styles if each not in written]
        named = None if self.options.keep_style else classes_in(kept)
        if named is None:
            return
        for index, attributes in enumerate(self.page.elements.plain):
            if "class" in attributes and index not in self.ignored:
                words = [each for each in words_of(attributes["class"]) if each in named]
                self.page.set_attribute(index, "class", " ".join(words) or None)

    def not_written(self) -> Iterator[NotWritten]:
        """Yields what could not be written into attributes, and why."""
        for url, reason in self.reader.shelf.unread:
            yield NotWritten(url, f"{reason}: {LOSES}")
        for sheet in self.sheets:
            for statement in sheet.statements:
                if statement.has_text(self.leftover):
                    yield from statement.not_written(self.leftover)

    def _leave(self, kind: Kind, families: AbstractSet[str]) -> None:
        """Notes that the declarations of families stay, of all rules that match a kind. Where `all`
        wins, it would set what stays, so that all stays."""
        if families and any(each.name == "all" for each in self.winners[kind.rules]):
            families = _ALL_FAMILIES
        self.left_of[kind] |= families
        is_all = EVERYTHING in families
        for rule in self.rule_sets[kind.rules] if families else ():
            statement = self._statement(rule)
            those = {
                family
                for family in statement.families
                if is_all or family in families or family == EVERYTHING
            }
            if those:
                self.leftover.families.setdefault(statement.number, set()).update(those)
            if those and not kind.has_tag:
                self.leftover.untouched.add(statement.number)

    def _statement(self, rule: int) -> SplitStatement:
        """Returns the statement that a rule is of."""
        return self.rules[rule].statement

    def _named(self, groups: List[Group], kind: Kind) -> Dict[str, List[Group]]:
        """Returns what the rules of a kind have of the names whose values a browser may not know."""
        unknown = {each.name for each in groups if not is_known(each.declarations[0].value)}
        named: Dict[str, List[Group]] = {name: [] for name in unknown}
        rules = self.rule_sets[kind.rules] if unknown else ()
        groups = [each for rule in rules for each in self._groups(rule)]
        self.compared.take(COMPARED * len(groups))
        for each in groups:
            if each.name in unknown:
                named[each.name].append(each)
        return named

    def _texts(
        self,
        kind: Kind,
        groups: List[Group],
        own: List[Declaration],
        raised: Dict[str, Rank],
        demoted: Set[Tuple[Rank, str]],
    ) -> List[str]:
        """Returns the declarations of the winners and of what these would beat if a browser may not
        know them, in the order of the cascade, and then the own ones; those that are important
        last."""
        named = self._named(groups, kind)
        beaten = [one for each in groups for one in _beaten(each, named.get(each.name, []))]
        found: List[Tuple[int, Declaration]] = []
        for each, one in self._placed([*groups, *beaten]):
            is_raised = each.rank > raised.get(family_of(each.name), HIGHEST)
            is_demoted = (each.rank, each.name) in demoted
            found.append((_level(one, is_raised, is_demoted), one))
        found += [(_level(one, family_of(one.name) in raised, False), one) for one in own]
        if raised or demoted:
            found.sort(key=lambda each: each[0])
        return [str(one._replace(important=level > _DEMOTED)) for level, one in found]

    def _placed(self, groups: List[Group]) -> List[Tuple[Group, Declaration]]:
        """Returns the declarations of groups in the order of the cascade, of which importance is
        apart."""
        found = [
            ((group.rank, place), group, each)
            for group in groups
            for place, each in zip(self._places_of(group), group.declarations)
        ]
        found.sort(key=lambda each: each[0])
        return [(group, each) for _, group, each in found]

    def _places_of(self, group: Group) -> List[int]:
        """Returns where the declarations of a group are in its block."""
        return self.numbered[group.number].places_of(group.name, group.important)

    def _keep_clients(self) -> None:
        """Keeps the rules for mail clients that match nothing in the page."""
        self.leftover.unmatched = {
            each.number
            for sheet in self.sheets
            for each in sheet.for_clients
            if each.number not in self.numbered
        }

    def _write_sheets(self) -> None:
        newline = self.page.newline
        self.leftover.has_layers = any(each.has_layers(self.leftover) for each in self.sheets)
        for sheet in self.sheets:
            kept = sheet.kept(newline, self.leftover)
            if sheet.content is None:
                if kept:
                    self.page.add_sheet(kept)
            elif not self.options.keep_style and (
                sheet.has_written()
                or sheet.is_marked(self.leftover)
                or sheet.content.href is not None
            ):
                self.page.set_sheet(sheet.content, kept)
        for content, source, number in self.others:
            marks = self.leftover.marks.get(number)
            if marks:
                self.page.set_sheet(content, marked(source, (0, len(source.data)), marks))


def _beaten(winner: Group, groups: List[Group]) -> List[Group]:
    """Returns what a winner beats of its name, from the last that every browser knows on."""
    if not groups:
        return []
    groups = sorted(groups, key=lambda each: (each.important, each.rank))
    groups = groups[: groups.index(winner)]
    for at in range(len(groups) - 1, -1, -1):
        if is_known(groups[at].declarations[0].value):
            return groups[at:]
    return groups


# What is not important, what need not be, what is made so, and what was.
_PLAIN, _DEMOTED, _RAISED, _URGENT = range(4)


def _level(declaration: Declaration, is_raised: bool, is_demoted: bool) -> int:
    """Returns where in an attribute a declaration is."""
    if declaration.important:
        return _DEMOTED if is_demoted else _URGENT
    return _RAISED if is_raised else _PLAIN


def _with_links(sheets: Sequence[SplitSheet]) -> List[SplitSheet]:
    """Returns sheets of which rules for links are written, where visited links stay as they are."""
    later = {
        lower(each.text): statement
        for sheet in sheets
        for statement in sheet.statements
        for each in statement.staying
    }
    return [
        SplitSheet([_linked(each, later) for each in sheet.statements], sheet.content)
        for sheet in sheets
    ]


def _linked(statement: SplitStatement, later: Dict[str, SplitStatement]) -> SplitStatement:
    """Returns a statement whose rules for links are written, if visited links stay as they are."""
    going = []
    for each in statement.links if statement.staying else ():
        visited = later.get(_of_visited(lower(each.text)))
        if "link" not in states_in(each.text) or _is_of_links(statement, visited):
            going.append(each)
    return statement.with_going(going) if going else statement


def _is_of_links(statement: SplitStatement, visited: Optional[SplitStatement]) -> bool:
    """Whether visited links look the same if what a statement says of links is said of them, too:
    of visited links only colours are taken, which another statement sets."""
    names = {each.name for each in statement.declarations if _has_color(each.name)}
    is_later = visited is not None and visited.number >= statement.number
    others = {each.name for each in visited.declarations} if visited and is_later else set()
    return names <= others


def _of_visited(selector: str) -> str:
    """Returns what a selector of links is for those that were visited."""
    pieces, at = [], 0
    for name in pseudo_names(selector):
        if name.name == "link" and not name.is_element:
            pieces += [selector[at : name.start], ":visited"]
            at = name.end
    return "".join([*pieces, selector[at:]])


def _has_color(name: str) -> bool:
    """Whether a property may set a colour."""
    return name == "all" or any(word in name for word in _COLORED)


class _Mine(NamedTuple):
    """What would be written of one name: where it is in the cascade, the number of its statement, and
    its declarations."""

    rank: Rank
    number: int
    declarations: FrozenSet[Declaration]


class _Rival(NamedTuple):
    """A rule that stays, how strong it may be, and its declarations."""

    rule: StayingRule
    strength: Strength
    families: _Families


def _by_family(groups: List[Group]) -> Dict[Tuple[str, bool], List[_Mine]]:
    """Returns what would be written by family and importance, the weakest first."""
    found: Dict[Tuple[str, bool], List[_Mine]] = {}
    for group in sorted(groups, key=lambda each: each.rank):
        mine = _Mine(group.rank, group.number, frozenset(group.declarations))
        found.setdefault((family_of(group.name), group.important), []).append(mine)
    return found


def _left_families(groups: List[Group], rivals: List[_Rival]) -> FrozenSet[str]:
    """Returns the families of which a rule that stays may beat what would be written."""
    families = _by_family(groups) if rivals else {}
    # Of rules that set everything, the rank of the strongest by importance beats what another one
    # does.
    strongest: Dict[bool, Rank] = {}
    left: Set[str] = set()
    for rival in rivals:
        for (family, important), those in rival.families.items():
            if rival.rule.is_layered and not important:
                continue
            rank = rival.strength.of(important)
            if family == EVERYTHING:
                strongest[important] = max(strongest.get(important, rank), rank)
            for each in {family, EVERYTHING}:
                mine = families.get((each, important), [])
                if _may_beat(rank, rival.rule.number, those, mine):
                    left.add(each)
    for (family, important), mine in families.items():
        if important in strongest and family != EVERYTHING:
            if strongest[important] >= mine[0].rank:
                left.add(family)
    return frozenset(left)


def _may_beat(rank: Rank, number: int, declared: FrozenSet[Declaration], mine: List[_Mine]) -> bool:
    """Whether declarations of a rule that stays may beat others that would be written, the weakest
    of which come first. Those of two names are never the same, so that few are looked at.
    """
    for each in mine:
        if rank < each.rank:
            return False
        # Of several values of one name a browser may take another one than the last.
        is_single = len(each.declarations) == 1 or number == each.number
        if not (is_single and declared <= each.declarations):
            return True
    return False


def _set_attributes(page: EditedPage, index: int, groups: Iterable[Group]) -> None:
    """Writes what older mail clients read of attributes, where the element has none of its own."""
    name = page.elements.names[index]
    for group in groups:
        value = lower(group.declarations[-1].value)
        for attribute, names, form in _ATTRIBUTES.get(group.name, ()):
            found = form(value)
            if found and name in names and attribute not in page.elements.plain[index]:
                page.set_attribute(index, attribute, found)


class Inliner:
    """Writes style sheets into the `style` attributes of many documents.

    It takes the sheets and the options of `inline` once.
    """

    def __init__(
        self,
        css: Css = "",
        *,
        folder: Optional[Name] = None,
        load: Optional[Load] = None,
        base_url: Optional[str] = None,
        preserve: Optional[Selectors] = None,
        ignore: Optional[Selectors] = None,
        keep_style: bool = False,
        remove_classes: bool = False,
        attributes: bool = False,
        as_attributes: bool = False,
        important: bool = True,
        limit: Optional[int] = library.USUAL_LIMIT,
        answer_limit: Optional[int] = library.USUAL_ANSWER_LIMIT,
    ) -> None:
        """Takes what `inline` does. The sheets are read at the first document."""
        if base_url is not None:
            library.expect_text(base_url)
        limits = library.limit_of(limit), library.limit_of(answer_limit)
        named = folder, load, base_url, preserve, ignore
        chosen = keep_style, remove_classes, attributes, as_attributes, important
        self._prepared = _Prepared(css, _Options(*named, *chosen, *limits))

    def inline(
        self,
        html: Document,
        *,
        at: Optional[Name] = None,
        is_xml: Optional[bool] = None,
        is_part: bool = False,
        report: Optional[List[NotWritten]] = None,
    ) -> Document:
        """Returns a document with the sheets in its `style` attributes, as `inline` does."""
        if report is not None and not isinstance(report, list):
            raise TypeError(f"a list is expected for the report, not {type(report).__name__}")
        has_xml = is_xml_name(os.fspath(at or "")) if is_xml is None else is_xml
        if has_xml and is_part:
            raise ValueError("only a document in HTML can be a part of a page")
        if isinstance(html, bytes):
            text, encode = decode_page(html)
            encode.expect_same(text, html)
            page = EditedPage(text, encode.lacks, is_xml=has_xml, is_part=is_part)
            return encode(self._inlined(page, at, report))
        library.expect_text(html)
        expect_page(html)
        html.encode("utf-8")
        page = EditedPage(html, is_xml=has_xml, is_part=is_part)
        return self._inlined(page, at, report)

    def _inlined(
        self, page: EditedPage, at: Optional[Name], report: Optional[List[NotWritten]]
    ) -> str:
        if page.is_doubtful:
            raise ValueError(
                "browsers read the document in different ways: NUL, `search` or end tags"
            )
        while True:
            inliner = _PageInliner(page, self._prepared, at)
            inliner.write()
            try:
                text = page.edited()
                break
            except OtherTree as error:
                # Elements where the tree would be another one are left in the sheet.
                if not page.leave(error.tag):
                    raise
        if report is not None:
            report.extend(inliner.not_written())
        return text


def inline(
    html: Document,
    css: Css = "",
    *,
    at: Optional[Name] = None,
    folder: Optional[Name] = None,
    load: Optional[Load] = None,
    base_url: Optional[str] = None,
    preserve: Optional[Selectors] = None,
    ignore: Optional[Selectors] = None,
    keep_style: bool = False,
    remove_classes: bool = False,
    attributes: bool = False,
    as_attributes: bool = False,
    important: bool = True,
    is_xml: Optional[bool] = None,
    is_part: bool = False,
    report: Optional[List[NotWritten]] = None,
    limit: Optional[int] = library.USUAL_LIMIT,
    answer_limit: Optional[int] = library.USUAL_ANSWER_LIMIT,
) -> Document:
    """Returns the document with style sheets written into `style` attributes.

    The sheets are `css`, one or several, and then the document's own `style` elements. Each element gets the
    declarations that win on it, and after them those of its own `style` attribute, so that its own
    are stronger, unless one of a sheet is important and they are not. Rules that depend on a state
    of the page (`:hover`), unsupported ones, and at-rules stay in a `style` element, as does one
    for some media only. They get `!important` where they override what is written, and so does what
    overrides them; where that would not be exact on all elements, or with `important=False`, what
    they could override stays, too. All other text is unchanged. A document in bytes is
    returned in bytes, in its encoding. `ValueError` is raised for one in bytes that would be written otherwise, and
    for css that no escape keeps in its `style` element.

    Sheets that `link rel=stylesheet` and `@import` name are written, too, if they are files in
    `folder`, or `load` returns them for their urls; `at` says where the document is, as a path or a
    url, which is the folder itself if it is not said. Nothing is ever fetched. `base_url` is what
    relative urls are taken from. `style` elements that the selectors `preserve` match stay as they
    are, and with `keep_style` all do. Elements that the selectors `ignore` match stay as they are,
    and so do the rules for them. `remove_classes` removes the classes that no rule needs any more.
    `attributes` writes `width`, `bgcolor` and the like beside styles. With `as_attributes` drawings
    get presentation attributes, such as `fill`, in place of styles. `is_xml` says whether the document is
    XML, as XHTML and SVG are, if the name in `at` does not say it; one that is not well-formed raises
    `TreeError`. `is_part` says that it is a part of a page in HTML, also one of a table, as a row.
    `report` gets what could not be written.

    Sheets whose rules would hold more declarations than `limit` raise `LimitError`. So do more
    rules than `answer_limit`, each counted once for each element that it matches, and a page that
    would grow by more characters. `None` sets no limit.

    For many documents, an `Inliner` reads the sheet once.
    """
    inliner = Inliner(
        css,
        folder=folder,
        load=load,
        base_url=base_url,
        preserve=preserve,
        ignore=ignore,
        keep_style=keep_style,
        remove_classes=remove_classes,
        attributes=attributes,
        as_attributes=as_attributes,
        important=important,
        limit=limit,
        answer_limit=answer_limit,
    )
    return inliner.inline(html, at=at, is_xml=is_xml, is_part=is_part, report=report)


def _each_of(css: Css) -> Sequence[Union[str, StyleSheet]]:
    """Returns the sheets that are one or several. Bytes are none, as `_text_of` says."""
    if isinstance(css, (str, bytes, bytearray)) or not isinstance(css, Sequence):
        return (css,)
    return css


def _text_of(css: Union[str, StyleSheet]) -> str:
    """Returns the text of a sheet, which has read it, or a text itself."""
    if isinstance(css, StyleSheet):
        return text_of(css)
    library.expect_text(css)
    return css
