"""What each refusal means: in a few words here, and as a page of docs/REFUSALS.md."""

from __future__ import annotations

import os
import re

from .trouble import Refused, Trouble

MEANINGS = {
    1: "too little room was lent",
    2: "the recipe's length or section table is wrong",
    3: "a section has too many entries",
    4: "a type code, a field's bits, a tray's length or its zero byte is wrong",
    5: "a statement's kind, operand or unused byte is wrong",
    6: "types disagree",
    7: "a number does not fit its type",
    8: "blocks are unmatched or too deep",
    9: "an expression on its way to a site has over 120 nodes",
    10: "there are over 64 expressions",
    11: "a loop makes a value from its own earlier value",
    12: "the condition is damaged, or is no condition",
    13: "the sheet is damaged, has a reading beyond its bits, or belongs to another recipe",
    14: "a conjunct has over 1,048,576 combinations of readings",
    15: "a field that a conjunct reads has no readings",
    16: "a procedure is wrong, or the calls written out are too long or too deep",
}
HIGHEST_REFUSAL = max(MEANINGS)
PAGES = os.path.join(os.path.dirname(os.path.realpath(__file__)), "REFUSALS.md")


def told(refused: Refused) -> str:
    """A refusal as the commands print it: number, meaning, place."""
    place = f": {refused.place}" if refused.place else ""
    return f"refused {refused.number}: {MEANINGS[refused.number]}{place}"


def page(number: int) -> str:
    """The page of REFUSALS.md on this refusal."""
    if number not in MEANINGS:
        raise Trouble(f"{number} is no refusal; they are numbered 1 to {HIGHEST_REFUSAL}")
    try:
        with open(PAGES, encoding="utf-8") as pages:
            found = re.search(rf"^## {number}:.*?(?=^## |\Z)", pages.read(), re.M | re.S)
    except OSError as error:
        raise Trouble(f"{PAGES}: {error.strerror}") from None
    if not found:
        raise Trouble(f"{PAGES}: it has no page on refusal {number}")
    return found.group().strip() + "\n"
