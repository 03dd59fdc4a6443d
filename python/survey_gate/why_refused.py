"""Why a recipe is refused with 9, 10 or 11: the site, and a smallest set of statements without which it is accepted.

The gate itself is asked about the recipe with statements left out. Only statements that can reach the site
matter: those that set a variable or a tray which the site's value may come from. A statement of a procedure counts
once, however often it is called. Sets are tried by size, smallest first; where that takes too long, a set is given
from which no statement can be put back.
"""

from __future__ import annotations

import time
from dataclasses import dataclass
from itertools import combinations
from typing import Dict, Iterable, List, Sequence, Set, Tuple

from .library import Library
from .recipe import Recipe
from .statements import OPERANDS, Kind, Procedure, Statement, arguments

SEARCH_SECONDS = 3.0
Place = Tuple[str, int]


@dataclass(frozen=True)
class Cause:
    """A site that is refused, and a set of statements without which it is accepted, by labels.

    `together` says that no site is refused alone; `smallest` that no smaller set serves.
    """

    site: int
    number: int
    labels: Tuple[int, ...]
    smallest: bool
    together: bool

    def told(self, recipe: Recipe) -> str:
        """The cause in words, with lines or labels."""
        name = recipe.variables[recipe.statements[self.site].a].name
        with_others = " with the sites before it" if self.together else ""
        text = f" ({recipe.statement_text(self.labels[0])})" if len(self.labels) == 1 else ""
        doubt = "" if self.smallest else ", and fewer might do"
        site = f"site {name} ({recipe.place(self.site)}){with_others}"
        return f"{site} is accepted without {recipe.places(self.labels)}{text}{doubt}"


def why_refused(recipe: Recipe, library: Library, seconds: float = SEARCH_SECONDS) -> List[Cause]:
    """The causes of refusal 9, 10 or 11, in the order of the sites."""
    sites = [label for label, statement in enumerate(recipe.statements) if statement.kind == Kind.SITE]
    alone = {site: library.refusal(recipe.without(set(sites) - {site})) for site in sites}
    refused = [site for site in sites if alone[site]]
    until = time.monotonic() + seconds
    if refused:
        share = seconds / len(refused)
        return [
            _cause(Question(recipe, library, set(sites) - {site}, time.monotonic() + share), site, alone[site], False)
            for site in refused
        ]
    for place, site in enumerate(sites):
        later = set(sites[place + 1 :])
        number = library.refusal(recipe.without(later))
        if number:
            return [_cause(Question(recipe, library, later, until), site, number, True)]
    return []


class Question:
    """Whether the recipe without some sites is accepted once more statements are left out."""

    def __init__(self, recipe: Recipe, library: Library, dropped: Set[int], until: float) -> None:
        self.recipe, self.library, self.dropped, self.until = recipe, library, dropped, until

    def accepted(self, labels: Iterable[int]) -> bool:
        """Whether it is accepted without these as well."""
        return not self.library.refusal(self.recipe.without(self.dropped.union(labels)))

    def is_late(self) -> bool:
        """Whether the time is over."""
        return time.monotonic() > self.until


def _cause(question: Question, site: int, number: int, together: bool) -> Cause:
    """The cause for a site: the smallest set of the statements that matter."""
    statements, procedures = question.recipe.statements, question.recipe.procedures
    sites = [label for label, s in enumerate(statements) if s.kind == Kind.SITE and label not in question.dropped]
    candidates = reaching(statements, procedures, sites)
    if together:
        candidates = candidates + [label for label in sites if label != site]
    found, smallest = _smallest(question, candidates)
    return Cause(site, number, tuple(sorted(found)), smallest, together)


def _smallest(question: Question, candidates: Sequence[int]) -> Tuple[Sequence[int], bool]:
    """A smallest set that serves, or one from which nothing can be put back, and whether it is a smallest."""
    kept = _irreducible(question, candidates)
    for size in range(1, len(kept)):
        for labels in combinations(candidates, size):
            if question.is_late():
                return kept, False
            if question.accepted(labels):
                return labels, True
    return kept, True


def _irreducible(question: Question, candidates: Sequence[int]) -> List[int]:
    """A set that serves: all candidates, and then as many put back as it still serves without, by halves."""
    kept = list(candidates)
    size = len(kept)
    while size > 0:
        before = len(kept)
        for at in range(len(kept), 0, -size):
            trial = kept[: max(at - size, 0)] + kept[at:]
            if trial and not question.is_late() and question.accepted(trial):
                kept = trial
        if size > 1 or len(kept) == before or question.is_late():
            size //= 2
    return kept


# ---- which statements matter


def reaching(statements: Sequence[Statement], procedures: Sequence[Procedure], sites: Sequence[int]) -> List[int]:
    """The statements that set what the sites' values may come from; those that feed themselves come first."""
    sets = [_sets(statement, procedures) for statement in statements]
    comes_from: Dict[Place, Set[Place]] = {}
    for set_by in sets:
        for target, sources in set_by.items():
            comes_from.setdefault(target, set()).update(sources)
    wanted = _closure({("variable", statements[site].a) for site in sites}, comes_from)
    labels = [label for label, set_by in enumerate(sets) if wanted.intersection(set_by)]
    turning = {place for place in wanted if place in _closure(comes_from.get(place, set()), comes_from)}
    return sorted(labels, key=lambda label: (not _feeds(sets[label], turning), label))


def _feeds(set_by: Dict[Place, Set[Place]], turning: Set[Place]) -> bool:
    """Whether a statement is part of a way from a value back to itself."""
    return any(target in turning and bool(turning.intersection(sources)) for target, sources in set_by.items())


def _sets(statement: Statement, procedures: Sequence[Procedure]) -> Dict[Place, Set[Place]]:
    """What a statement sets, and what each value comes from; an index passes nothing on.

    A call sets the own variables of its procedure, and its target to the result.
    """
    if statement.kind == Kind.STORE:
        return {("tray", statement.a): {("variable", statement.c)}}
    if statement.kind == Kind.LOAD:
        return {("variable", statement.a): {("tray", statement.b)}}
    if statement.kind == Kind.CALL:
        procedure = procedures[statement.b]
        found: Dict[Place, Set[Place]] = {("variable", number): set() for number in procedure.own}
        for parameter, argument in zip(procedure.own, arguments(statement, procedures)):
            found["variable", parameter] = {("variable", argument)}
        found["variable", statement.a] = {("variable", procedure.own[-1])}
        return found
    if statement.kind > Kind.LOAD:
        return {}
    named = zip(OPERANDS[statement.kind][1:], statement[2:4])
    return {("variable", statement.a): {("variable", number) for what, number in named if what == "variable"}}


def _closure(start: Set[Place], comes_from: Dict[Place, Set[Place]]) -> Set[Place]:
    """All that these places come from, themselves included."""
    found, todo = set(start), list(start)
    while todo:
        for place in comes_from.get(todo.pop(), set()) - found:
            found.add(place)
            todo.append(place)
    return found
