"""survey-gate: the proved gate against integer overflow, as a command and as a library.

    from survey_gate import Recipe, Sheet, Condition, check, run

Recipe, Sheet and Condition are the three files; check and run put them to the proved library. Mistakes in a
text raise Mistakes, what the gate refuses raises Refused, all else that goes wrong raises Trouble.
"""

from .condition import Condition
from .gate import Run, Verdict, check, derive, run
from .recipe import Recipe
from .records import Record
from .sheet import Sheet
from .trouble import Mistake, Mistakes, Refused, Trouble
from .why_held import Hold

__version__ = "1.0.0"
__all__ = [
    "Condition",
    "Hold",
    "Mistake",
    "Mistakes",
    "Recipe",
    "Record",
    "Refused",
    "Run",
    "Sheet",
    "Trouble",
    "Verdict",
    "check",
    "derive",
    "run",
]
