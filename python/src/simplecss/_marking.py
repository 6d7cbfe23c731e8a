"""What of the rules that stay in sheets gets `!important`, so that it beats what is written into
attributes exactly where it did before.

A unit is all declarations of a family of properties in a block that stays: all of it is made
important, or nothing. For each kind of element, what it has says that a unit must be important, that
it cannot be, or that another one has to be if it is. What cannot be met leaves the family in the
sheet for that kind, and all is decided again.
"""

from __future__ import annotations

import bisect
from typing import (
    AbstractSet,
    Callable,
    Dict,
    FrozenSet,
    Iterable,
    Iterator,
    List,
    Mapping,
    NamedTuple,
    Optional,
    Sequence,
    Set,
    Tuple,
)

from . import _library as library
from ._declaration import Declaration
from ._families import EVERYTHING, family_of
from ._order import Reach, Strength
from ._staying import Block, Marks
from ._values import has_ident, is_known

# Where declarations are among those of the same importance, in the order of the cascade.
Rank = int
LOWEST: Rank = -(2**32)
HIGHEST: Rank = 2**62
# That of the own `style` of an element.
_OWN: Rank = 2**61
# Where a rule may be that is in a layer, of which the place is not known: above what is important.
LAYERED = Reach(Strength(HIGHEST, HIGHEST, 0), Strength(HIGHEST, HIGHEST, 0))

# As how many rules of an answer two things count that are compared, and one that is built: so much longer
# it takes to do that. By the usual limit, all takes about two seconds.
COMPARED, BUILT = 8, 160

# What goes back to what sheets say.
BACK = frozenset(("revert-layer",))

# A family of a block.
Unit = Tuple[Block, str]


class Group(NamedTuple):
    """The declarations of one name and importance in a block, which are written together: a browser
    takes the last that it knows."""

    declarations: Tuple[Declaration, ...]
    strength: Strength
    number: int

    @property
    def name(self) -> str:
        return self.declarations[0].name

    @property
    def important(self) -> bool:
        return self.declarations[0].important

    @property
    def rank(self) -> Rank:
        return self.strength.of(self.important)


class Kind(NamedTuple):
    """Elements of which all is decided alike: the numbers of the set of rules that match, and of that
    of those that stay and may match, the own `style`, whether they have a tag that can be written
    into, and the name of what has attributes in place of styles."""

    rules: int
    rivals: int
    own: str
    has_tag: bool
    drawn: str


class Rival(NamedTuple):
    """A block that stays and may apply, and the strengths between which it is."""

    block: Block
    reach: Reach
    is_layered: bool


class _Staying(NamedTuple):
    """Declarations of one importance of a block that may apply, and between which ranks they are; how
    high they would be as important ones, and how many layers are before theirs."""

    least: Rank
    most: Rank
    raised: Rank
    layer: int
    unit: Unit
    said: "_Said"


def _staying(rival: Rival, unit: Unit, declarations: List[Declaration]) -> _Staying:
    """Returns declarations of one importance of a block."""
    least, most = rival.reach
    important = declarations[0].important
    ranks = least.of(important), most.of(important), most.important
    return _Staying(*ranks, most.layer, unit, _said(declarations))


class _Part(NamedTuple):
    """What a block that stays has of a family: what is not important, if its place is known, and whether
    that may be made important; what is important; and the names that take part."""

    plain: Optional[_Staying]
    may_be_marked: bool
    urgent: Optional[_Staying]
    names: FrozenSet[str]


def _part(rival: Rival, family: str) -> _Part:
    """Returns what a block has of a family."""
    block = rival.block
    declared = block.families.get(family, [])
    plain = [each for each in declared if not each.important and not rival.is_layered]
    urgent = [each for each in declared if each.important]
    unit = (block, family)
    return _Part(
        _staying(rival, unit, plain) if plain else None,
        bool(plain) and block.can_mark(family),
        _staying(rival, unit, urgent) if urgent else None,
        frozenset(each.name for each in (*plain, *urgent)),
    )


# What declarations of one name say: of several equal ones no more than one does.
_Said = Tuple[Declaration, ...]


def _said(declarations: Sequence[Declaration]) -> _Said:
    """Returns what declarations say."""
    first = declarations[:1]
    return tuple(first if all(each == first[0] for each in declarations) else declarations)


class Rivals:
    """The blocks that stay and may apply to an element, by the families that they have."""

    def __init__(self, every: List[Rival]) -> None:
        self.every = every
        self.by_family: Dict[str, List[Rival]] = {}
        for each in every:
            for family in each.block.families:
                self.by_family.setdefault(family, []).append(each)
        # Those that set everything.
        self.whole = self.by_family.get(EVERYTHING, [])
        # The families of which it is not decided yet what they say where nothing is written.
        self.waiting = set(self.by_family)
        self._parts: Dict[str, List[_Part]] = {}

    def parts_of(self, family: str) -> List[_Part]:
        """Returns what those have of a family that have it."""
        parts = self._parts.get(family)
        if parts is None:
            those = self.by_family.get(family, ())
            parts = self._parts[family] = [_part(each, family) for each in those]
        return parts

    def may_lose(self, family: str, rank: Rank) -> bool:
        """Whether one that has a family, or all, may be below a rank, or is in a layer."""
        return any(
            (each.is_layered or each.reach.least.normal < rank) and each.block.has_plain(family)
            for each in (*self.by_family.get(family, ()), *self.whole)
        )

    def count(self, family: str) -> int:
        """Returns how many have a family, or all."""
        return len(self.by_family.get(family, ())) + len(self.whole)


class View(NamedTuple):
    """What a kind of element has: what would be written, its own declarations, or `None` if they
    cannot be written anew, and what may apply."""

    mine: List[Group]
    own: Optional[List[Declaration]]
    rivals: Rivals

    def names(self) -> Set[str]:
        """Returns the families of what is written, and of the own declarations."""
        return {family_of(each.name) for each in (*self.mine, *(self.own or ()))}


class _Clauses:
    """What cannot be important, and what must be if another unit is."""

    def __init__(self) -> None:
        self.forbidden: Set[Unit] = set()
        self._then: Dict[Unit, Set[Unit]] = {}

    def imply(self, one: Unit, other: Unit) -> None:
        """Notes that one unit is important only with another."""
        self._then.setdefault(one, set()).add(other)

    def barred(self) -> Set[Unit]:
        """Returns what cannot be important."""
        back: Dict[Unit, Set[Unit]] = {}
        for one, others in self._then.items():
            for other in others:
                back.setdefault(other, set()).add(one)
        return _reached(self.forbidden, back)

    def closed(self, units: Iterable[Unit]) -> Set[Unit]:
        """Returns what is important if these are."""
        return _reached(units, self._then)


def _reached(units: Iterable[Unit], edges: Dict[Unit, Set[Unit]]) -> Set[Unit]:
    found = set(units)
    waiting = list(found)
    while waiting:
        more = edges.get(waiting.pop(), set()) - found
        found |= more
        waiting.extend(more)
    return found


class _Base(NamedTuple):
    """What is written of a name: its rank, and its declarations."""

    rank: Rank
    declarations: Tuple[Declaration, ...]


class _Ranked:
    """What declarations say, in the order of their ranks."""

    def __init__(self, found: Iterable[Tuple[Rank, _Said]]) -> None:
        pairs = sorted(found, key=lambda pair: pair[0])
        self.ranks = [rank for rank, _ in pairs]
        self._first = pairs[0][1] if pairs else ()
        differing = (at for at, (_, said) in enumerate(pairs) if said != self._first)
        self._other = next(differing, len(pairs))

    def has_other(self, count: int, said: _Said) -> bool:
        """Whether one of so many, the first ones, says something else."""
        return count > (self._other if said == self._first else 0)


def goes_back(declarations: Iterable[Declaration]) -> bool:
    """Whether one of the declarations goes back to what sheets say."""
    return any(has_ident(each.value, BACK) for each in declarations)


class _Problem:
    """One family on one kind of element."""

    def __init__(self, mine: List[Group], own: List[Declaration], clauses: _Clauses) -> None:
        """Takes what would be written of the family, and the own declarations of it."""
        self._clauses = clauses
        # What must be important, and whether nothing can be.
        self.musts: List[Unit] = []
        self.has_no_way = False
        # What is important and need not be, since what stays and is important is above it.
        self.demoted: Set[Tuple[Rank, str]] = set()
        # What is written, and which of it is important.
        self._bases: List[_Base] = []
        self._urgent: List[_Base] = []
        self._normal: List[_Staying] = []
        self._important: List[_Staying] = []
        self._names = {each.name for each in mine} | {each.name for each in own}
        self._take(mine, own)

    def _take(self, mine: List[Group], own: List[Declaration]) -> None:
        """Takes what is written without what never shows, as another of its name is above it in
        every browser."""
        known = {each.name: each.important for each in own if is_known(each.value)}
        known_mine = {
            each.name for each in mine if each.important and is_known(each.declarations[-1].value)
        }
        for group in mine:
            over = known.get(group.name)
            if over is None or group.important and not over:
                base = _Base(group.rank, group.declarations)
                (self._urgent if group.important else self._bases).append(base)
        for each in own:
            if each.important:
                self._urgent.append(_Base(_OWN, (each,)))
            elif each.name not in known_mine and not known.get(each.name):
                self._bases.append(_Base(_OWN, (each,)))

    def add(self, parts: Iterable[_Part], is_animated: bool) -> None:
        """Adds what blocks that may apply have of the family, or of all."""
        for each in parts:
            if each.plain is not None:
                if is_animated or not each.may_be_marked:
                    self._clauses.forbidden.add(each.plain.unit)
                self._normal.append(each.plain)
            if each.urgent is not None:
                self._important.append(each.urgent)
            self._names.update(each.names)

    def solve(self) -> None:
        """Finds what must be important, and what cannot be."""
        is_settled = any(
            base.rank == _OWN and is_known(base.declarations[0].value) for base in self._urgent
        )
        if len(self._names) == 1 and is_settled:
            return
        if self._important:
            self._weigh_important()
        if self.demoted or any(goes_back(each.declarations) for each in self._bases + self._urgent):
            self._clauses.forbidden.update(each.unit for each in self._normal)
        if self._normal:
            self._weigh_normal()
            self._keep_order()

    def _weigh_important(self) -> None:
        """What is important and stays is below what is important and written, which need not be
        important if all that stays and is so is above it."""
        written = [each for each in self._urgent if each.rank != _OWN]
        above = _Ranked((-each.most, each.said) for each in self._important)
        is_needed = any(
            above.has_other(bisect.bisect_right(above.ranks, -base.rank), _said(base.declarations))
            for base in written
        )
        least = min((each.least for each in self._important), default=HIGHEST)
        most = max((each.most for each in self._important), default=LOWEST)
        for base in written if is_needed else ():
            if least >= base.rank:
                self.demoted.add((base.rank, base.declarations[0].name))
            elif most >= base.rank:
                self.has_no_way = True

    def _weigh_normal(self) -> None:
        """What is above something written must be important, unless that, or what stays and is
        important, would then be below it."""
        bases = _Ranked((base.rank, _said(base.declarations)) for base in self._bases)
        above = _Ranked((-each.most, each.said) for each in self._normal)
        self.musts += (
            each.unit
            for each in self._normal
            if bases.has_other(bisect.bisect_left(bases.ranks, each.most), each.said)
        )
        weighed = (
            base.rank
            for base in self._bases
            if self._important
            or above.has_other(
                bisect.bisect_left(above.ranks, -base.rank), _said(base.declarations)
            )
        )
        top = max(weighed, default=LOWEST)
        lowest = min((each.least for each in self._important), default=HIGHEST)
        for each in self._normal:
            if each.least < top or each.raised > lowest:
                self._clauses.forbidden.add(each.unit)

    def _keep_order(self) -> None:
        """Keeps the order of what stays: what is above something important is important, and of two
        in no order both or none are. Of two layers the order of what is important is the other
        one."""
        is_single = len(self._names) == 1
        floor = min((each.rank for each in self._bases), default=LOWEST) if is_single else LOWEST
        units = sorted(
            (each for each in self._normal if each.most >= floor),
            key=lambda each: each.least,
        )
        if len({each.layer for each in units}) > 1:
            self._clauses.forbidden.update(each.unit for each in units)
        for one, other in zip(units, units[1:]):
            self._clauses.imply(one.unit, other.unit)
        reach = 0
        for at, each in enumerate(units):
            reach = max(reach, at)
            while reach + 1 < len(units) and units[reach + 1].least <= each.most:
                reach += 1
                self._clauses.imply(units[reach].unit, each.unit)


class Marking:
    """Decides what gets `!important`, for all kinds of elements."""

    def __init__(
        self,
        left_of: Mapping[Kind, AbstractSet[str]],
        view_of: Callable[[Kind], View],
        animated: Set[str],
        room: library.Room,
    ) -> None:
        """Takes the families that are left of each kind, what each has, what is animated, and how
        much may be compared."""
        self._left_of = left_of
        self._view_of = view_of
        self._animated = animated
        self._room = room
        self._clauses = _Clauses()
        self._forbidden: Set[Rivals] = set()
        self._needed: List[Tuple[Kind, str, List[Unit]]] = []
        self._conflicts: Dict[Kind, Set[str]] = {}
        # What is important, where that is, and of each kind what need not be any more.
        self.marked: Set[Unit] = set()
        self.marks: Marks = {}
        self.demoted: Dict[Kind, Set[Tuple[Rank, str]]] = {}

    def solve(self, left_as_it_is: Callable[[Kind], FrozenSet[str]]) -> Dict[Kind, Set[str]]:
        """Decides for what is not left yet. Returns the families that have to be left, of which all
        is decided again; `left_as_it_is` are those of a kind if nothing is made important.
        """
        for kind in self._left_of:
            self._look_at(kind, left_as_it_is)
        barred = self._clauses.barred()
        for kind, family, musts in self._needed:
            if not barred.isdisjoint(musts):
                self._conflict(kind, {family})
        if not self._conflicts:
            needed = (unit for _, _, musts in self._needed for unit in musts)
            self.marked = self._clauses.closed(needed)
            for block, family in self.marked:
                block.mark(family, self.marks)
        return self._conflicts

    def _conflict(self, kind: Kind, families: AbstractSet[str]) -> None:
        """Notes that families have to be left, if one of them is not yet."""
        left = self._left_of[kind]
        if EVERYTHING not in left and not families <= left:
            self._conflicts.setdefault(kind, set()).update(families)

    def _look_at(self, kind: Kind, left_as_it_is: Callable[[Kind], FrozenSet[str]]) -> None:
        """Takes what a kind of element says."""
        view = self._view_of(kind)
        names = view.names()
        rivals = view.rivals
        self._room.take(COMPARED * (len(view.mine) + sum(map(rivals.count, names))))
        if not rivals.every:
            return
        if not kind.has_tag or view.own is None or EVERYTHING in names:
            self._forbid(rivals)
            if kind.has_tag:
                self._conflict(kind, left_as_it_is(kind))
            return
        waiting = rivals.waiting - names
        self._room.take(COMPARED * sum(map(rivals.count, waiting)))
        rivals.waiting -= waiting
        for family, problem in self._problems(view, names | waiting):
            problem.solve()
            if problem.has_no_way:
                self._conflict(kind, {family})
            elif problem.musts:
                self._needed.append((kind, family, problem.musts))
            if problem.demoted:
                self.demoted.setdefault(kind, set()).update(problem.demoted)

    def _forbid(self, rivals: Rivals) -> None:
        """Notes that nothing of what may apply can be important."""
        if rivals not in self._forbidden:
            self._forbidden.add(rivals)
            for family, those in rivals.by_family.items():
                self._room.take(COMPARED * len(those))
                self._clauses.forbidden.update((each.block, family) for each in those)

    def _problems(self, view: View, families: Set[str]) -> Iterator[Tuple[str, _Problem]]:
        """Yields the problems of families."""
        mine: Dict[str, List[Group]] = {}
        for group in view.mine:
            mine.setdefault(family_of(group.name), []).append(group)
        own: Dict[str, List[Declaration]] = {}
        for each in view.own or ():
            own.setdefault(family_of(each.name), []).append(each)
        rivals = view.rivals
        # Of others nothing stays that could be important.
        for family in families if rivals.whole else families & rivals.by_family.keys():
            problem = _Problem(mine.get(family, []), own.get(family, []), self._clauses)
            is_animated = family in self._animated or EVERYTHING in self._animated
            problem.add(rivals.parts_of(family), is_animated)
            if family != EVERYTHING:
                problem.add(rivals.parts_of(EVERYTHING), is_animated)
            yield family, problem


def raised_by(view: View, marked: Set[Unit]) -> Dict[str, Rank]:
    """Returns by family the ranks above which what is written is important."""
    found: Dict[str, Rank] = {}
    for family in view.names():
        those = view.rivals.by_family.get(family, ())
        ranks = [rival.reach.most.normal for rival in those if (rival.block, family) in marked]
        if ranks:
            found[family] = min(ranks)
    return found
