"""The part `analysing` of the program cases: the listing program's output for the recipe of a case of the outside vectors."""
from typing import List

from vectors import Case


def lines(case: Case) -> List[str]:
    """What is said of a case."""
    return [case.number, *case.content("listing").decode().splitlines()]
