"""The gate for Python programs: check a sheet, run a recipe, each with its reason.

    from survey_gate import Recipe, Sheet, check, run

    recipe = Recipe.read("block.txt")
    sheet = Sheet.read("monday.csv", recipe)
    verdict = check(recipe, sheet)
    if verdict.passed:
        print(run(recipe, sheet, choices=[0, 0, 1]).records)
    else:
        print(verdict.cause, verdict.reason)

A verdict and the cause of a hold come from the proved library; the reason of a hold is worked out beside it, must
have the same cause, and is put to it again. A refusal raises Refused, with document 01's number and the place.
"""

from __future__ import annotations

from dataclasses import dataclass
from typing import List, Optional, Sequence

from .condition import Condition
from .library import Ran, load
from .recipe import Recipe
from .records import Record, choice_bytes, records_of
from .sheet import Sheet
from .sheet import refusal as sheet_refusal
from .sizes import MOST_RECORDS, USUAL_LIMIT
from .trouble import Disagreement, Refused
from .why_held import Hold, Tick, why_held
from .why_refused import Cause, why_refused

MOST_CAUSES_TOLD = 3


@dataclass(frozen=True)
class Verdict:
    """Pass, or held with the cause, `too big`, `too small` or `no divisor`, and the reason."""

    passed: bool
    cause: Optional[str] = None
    reason: Optional[Hold] = None


@dataclass(frozen=True)
class Run:
    """A run: the gate's verdict (nothing where it was not asked), the end, the steps, the log and its records.

    A sheet that is held is not run: then `end` is None and there are no records.
    """

    verdict: Optional[Verdict]
    end: Optional[int] = None
    steps: int = 0
    log: bytes = b""
    records: Sequence[Record] = ()


def derive(recipe: Recipe) -> Condition:
    """The recipe's condition; raises Refused with 9, 10 or 11, the sites and what they are accepted without."""
    try:
        return Condition.of(recipe)
    except Refused as refused:
        causes = why_refused(recipe, load())
        raise Refused(refused.number, told(causes, recipe)) from None


def told(causes: Sequence[Cause], recipe: Recipe) -> str:
    """The causes of a refusal in a line; sites that are accepted without the same statements only once."""
    first = {cause.labels: cause for cause in reversed(causes)}
    chosen = sorted(first.values(), key=lambda cause: cause.site)
    parts = [cause.told(recipe) for cause in chosen[:MOST_CAUSES_TOLD]]
    if len(causes) > len(parts):
        parts.append(f"{len(causes)} sites are refused in all")
    left = load().refusal(recipe.without(label for cause in causes for label in cause.labels))
    if left:
        parts.append(f"what is then left of the recipe is refused with {left}")
    return "; ".join(parts)


def check(recipe: Recipe, sheet: Sheet, condition: Optional[Condition] = None, tick: Tick = lambda work: None) -> Verdict:
    """Whether the sheet passes, with the cause and the reason where it is held.

    The condition is derived unless it is given; for many sheets, derive it once. Raises Refused with 9, 10, 11,
    14 or 15. `tick` hears of the nodes that the search for a reason works.
    """
    condition = condition or derive(recipe)
    try:
        cause = load().check(condition.data, sheet.to_bytes())
    except Refused as refused:
        raise placed(refused, recipe, condition, sheet) from None
    if cause is None:
        return Verdict(True)
    return Verdict(False, cause, why_held(recipe, condition, sheet, cause, load(), tick))


def placed(refused: Refused, recipe: Recipe, condition: Condition, sheet: Sheet) -> Refused:
    """A refusal with its place: 13 with the field or the reading, 14 or 15 with the conjunct or the fields.

    Disagreement where the readings give another of 14 and 15, or none.
    """
    if refused.number == 13:
        return sheet_refusal(sheet.to_bytes(), recipe.fields) or refused
    if refused.number not in (14, 15):
        return refused
    word = "column" if sheet.lines and recipe.named else "field"
    found = condition.refusal(sheet.columns, [part.name for part in recipe.fields], word)
    if found is None or found.number != refused.number:
        beside = found or "no refusal"
        raise Disagreement(f"the gate answers {refused.number}, and by the readings it is {beside}: one of the two is wrong")
    return found


def run(
    recipe: Recipe,
    sheet: Sheet,
    choices: Sequence[int] = (),
    limit: int = USUAL_LIMIT,
    guarded: bool = True,
) -> Run:
    """Runs the recipe on the sheet, behind the gate unless `guarded` is false.

    The k-th read takes the reading whose number is the k-th choice, modulo the number of readings. `limit` is
    the most steps. Raises Refused as `check` does.
    """
    condition = derive(recipe) if guarded else None
    return run_choices(recipe, sheet, choice_bytes(choices), limit, condition)


def run_choices(
    recipe: Recipe,
    sheet: Sheet,
    choices: bytes,
    limit: int,
    condition: Optional[Condition],
    tick: Tick = lambda work: None,
) -> Run:
    """As `run`, with the choices as they lie in a choice file; behind the gate if the recipe's condition is given."""
    library, room = load(), min(limit, MOST_RECORDS)
    data, readings = recipe.to_bytes(), sheet.to_bytes()
    if condition is None:
        return _ran(None, library.run(data, readings, limit, choices, room), recipe)
    try:
        passed, ran = library.guarded(data, readings, limit, choices, room)
    except Refused as refused:
        raise placed(refused, recipe, condition, sheet) from None
    if not passed:
        verdict = check(recipe, sheet, condition, tick)
        if verdict.passed:
            raise Disagreement("the gate holds the sheet before a run, and passes it by itself: one of the two is wrong")
        return Run(verdict)
    return _ran(Verdict(True), ran, recipe)


def _ran(verdict: Optional[Verdict], ran: Ran, recipe: Recipe) -> Run:
    """A run with its records taken apart."""
    records: List[Record] = records_of(ran.log, recipe)
    return Run(verdict, ran.end, ran.steps, ran.log, tuple(records))
