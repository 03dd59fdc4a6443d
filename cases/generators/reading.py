"""The part `reading` of the program cases: what the three readers say of a case of the outside vectors.

A refusal comes from the vectors' answers; the counts of a file that is not refused are read from its section table or head."""
from typing import List

from vectors import Case


def number(s: bytes, a: int) -> int:
    """The number in the 4 bytes from a on."""
    return int.from_bytes(s[a:a + 4], "little")


def read_or_refused(answer: str) -> str:
    """Whether a sheet is read, by an answer that comes after its reading."""
    return "refused 13" if answer == "refused 13" else "read"


def recipe_lines(case: Case) -> List[str]:
    """The recipe, and the sheet by the recipe's fields."""
    recipe = case.content("recipe")
    if case.derive in [f"refused {n}" for n in (*range(2, 9), 16)]:
        return [f"{case.number} recipe {case.derive}"]
    counts = number(recipe, 4) // 2, number(recipe, 12), number(recipe, 20) // 4, number(recipe, 28) // 8
    return [
        f"{case.number} recipe fields %d variables %d trays %d statements %d" % counts,
        f"{case.number} sheet for the recipe {read_or_refused(case.run)}",
    ]


def condition_lines(case: Case) -> List[str]:
    """The condition, and the sheet by the condition's fields."""
    condition = case.content("condition")
    if case.made_up == "refused 12":
        return [f"{case.number} condition refused 12"]
    return [
        f"{case.number} condition conjuncts {number(condition, 0)} fields {number(condition, 4)}",
        f"{case.number} sheet for the condition {read_or_refused(case.made_up)}",
    ]


def lines(case: Case) -> List[str]:
    """What is said of a case."""
    return recipe_lines(case) + condition_lines(case)
