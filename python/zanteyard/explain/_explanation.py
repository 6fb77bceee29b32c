"""Why no order explains a history, as a tree of cases, and its layout: numbered steps for a page
and its pictures, and lines for a terminal."""

from __future__ import annotations

from collections.abc import Iterable, Iterator
from dataclasses import dataclass

from ..core._records import ShownId
from ._arcs import Arc, Ends, Event, Node, below, transaction_of


@dataclass(frozen=True)
class Case:
    """One of two cases: the arc that holds in it, and why that is impossible."""

    arc: Arc
    explanation: Explanation


@dataclass(frozen=True)
class WrongRead:
    """A read that no order allows: its source didn't write the key."""

    reader: ShownId
    key: str
    source: ShownId


@dataclass(frozen=True)
class Explanation:
    """A refutation, which ends in one of three ways. Either `arcs` lead from a transaction back to
    itself, as `circle` names it; or there are two `cases`, one of which holds in any order; or
    `read` is one that no order allows. `end` is a sentence about how it ends."""

    end: str
    arcs: tuple[Arc, ...] = ()
    circle: tuple[str, ...] = ()  # ends with the first transaction again
    cases: tuple[Case, ...] = ()
    read: WrongRead | None = None

    @property
    def lines(self) -> tuple[str, ...]:
        """The whole as text."""
        return tuple(lines_of(laid_out(self)))

    def ends(self) -> Iterator[Explanation]:
        """The leaves of the tree: the explanation itself, if it has no cases."""
        if not self.cases:
            yield self
        for case in self.cases:
            yield from case.explanation.ends()

    def all_arcs(self) -> list[Arc]:
        """The arcs of its cycles and all that they follow from, each after those that it follows
        from."""
        return below(arc for leaf in self.ends() for arc in leaf.arcs)


@dataclass(frozen=True)
class Link:
    """One transaction has to come before another, or one's begin or commit before another's, and
    why. `number` is that of the reason on its page, and `follows` are those of the reasons that it
    follows from."""

    start: ShownId
    end: ShownId
    why: str
    is_of_circle: bool
    is_of_aborted: bool = False  # the first was aborted, and was read all the same
    told: str = ""  # what comes before what, in words
    events: tuple[str, str] = ("", "")  # "begin" or "commit", if these are separate events
    number: int = 0
    follows: tuple[int, ...] = ()

    @property
    def ends(self) -> tuple[tuple[ShownId, str], tuple[ShownId, str]]:
        """Its two ends."""
        return (self.start, self.events[0]), (self.end, self.events[1])


@dataclass(frozen=True)
class ShownCase:
    """A case; `link` is what holds in it."""

    link: Link
    reasons: Reasons


@dataclass(frozen=True)
class Reasons:
    """An explanation as it is shown: first the links, then the end. `drawn` are all links that a
    cycle follows from, including those shown above its case."""

    links: tuple[Link, ...] = ()  # each after those that it follows from
    end: str = ""
    circle: tuple[str, ...] = ()
    cases: tuple[ShownCase, ...] = ()
    drawn: tuple[Link, ...] = ()


def laid_out(explanation: Explanation) -> Reasons:
    return _Layout().of(explanation, {})


class _Layout:
    """Numbers the reasons across all cases, so that each number stands for one."""

    def __init__(self) -> None:
        self.count = 0

    def of(self, explanation: Explanation, above: dict[Ends, Link]) -> Reasons:
        around = {arc.ends for arc in explanation.arcs}
        links = {**above}
        if not explanation.cases:
            needed = below(explanation.arcs)
            own = self._added(needed, links, around)
            drawn = [
                _link(arc, links[arc.ends].number, arc.ends in around, links) for arc in needed
            ]
            return Reasons(tuple(own), explanation.end, explanation.circle, (), tuple(drawn))
        own = self._added(_shared(explanation), links, around)
        cases = []
        for case in explanation.cases:
            inner = {**links}
            (link,) = self._added([case.arc], inner, around)
            cases.append(ShownCase(link, self.of(case.explanation, inner)))
        return Reasons(tuple(own), explanation.end, (), tuple(cases))

    def _added(
        self, arcs: Iterable[Arc], links: dict[Ends, Link], around: Iterable[Ends]
    ) -> list[Link]:
        """New links, for the arcs that have none yet."""
        added = []
        for arc in arcs:
            if arc.ends not in links:
                self.count += 1
                links[arc.ends] = _link(arc, self.count, arc.ends in around, links)
                added.append(links[arc.ends])
        return added


def _link(arc: Arc, number: int, is_of_circle: bool, links: dict[Ends, Link]) -> Link:
    return Link(
        transaction_of(arc.start),
        transaction_of(arc.end),
        arc.why,
        is_of_circle,
        told=arc.told,
        events=(_event(arc.start), _event(arc.end)),
        number=number,
        follows=tuple(links[need.ends].number for need in arc.needs),
    )


def _event(node: Node) -> str:
    return node.what if isinstance(node, Event) else ""


def _shared(explanation: Explanation) -> list[Arc]:
    """What is forced before the cases and used in both; each after those that it follows from."""
    first, second = (case.explanation.all_arcs() for case in explanation.cases)
    in_second = {id(arc) for arc in second}
    return below(arc for arc in first if arc.needs and id(arc) in in_second)


def lines_of(reasons: Reasons) -> Iterator[str]:
    """The lines of a text; what belongs to a case is indented."""
    for link in reasons.links:
        if link.start != link.end:  # it is obvious that it begins before it commits
            yield f"{link.told}: {link.why}"
    yield reasons.end
    for case in reasons.cases:
        yield f"if {case.link.told}:"
        yield from (f"    {line}" for line in lines_of(case.reasons))
