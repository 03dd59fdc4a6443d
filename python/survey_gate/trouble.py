"""What can go wrong, as kinds of answer.

Trouble is one line for standard error and exit status 3. Mistakes is trouble with a line for each wrong line of a
file, Disagreement trouble between the gate and this package. Refused is an answer of the gate, by document 01's
number, with the place that it speaks of.
"""

from __future__ import annotations

from typing import Iterable, List, NamedTuple, Sequence

LONGEST_EXCERPT = 40


class Mistake(NamedTuple):
    """A line of a file (0: the file as a whole), what is wrong with it and what would be right."""

    line: int
    wrong: str
    right: str

    def told(self, name: str, word: str = "") -> str:
        """The mistake as it is printed; `word` is said before it, as `warning: `."""
        place = f"{shown(name)}:{self.line}" if self.line else shown(name)
        return f"{place}: {word}{self.wrong}; {self.right}"


class Trouble(Exception):
    """A file that cannot be read or written, wrong usage, or a disagreement with the gate."""

    def lines(self) -> List[str]:
        """The lines for standard error."""
        return [str(self)]


class Disagreement(Trouble):
    """The gate and what was worked out beside it differ. The file's name is not in it."""


class Mistakes(Trouble):
    """All the mistakes of a file."""

    def __init__(self, name: str, mistakes: Sequence[Mistake]) -> None:
        self.name = name
        self.mistakes = list(mistakes)
        super().__init__("\n".join(self.lines()))

    def lines(self) -> List[str]:
        """The lines for standard error."""
        return [mistake.told(self.name) for mistake in self.mistakes]


class Refused(Exception):
    """Refusal 1 to 16 and the place in the file, where it is known."""

    def __init__(self, number: int, place: str = "") -> None:
        super().__init__(f"refused {number}" + (f": {place}" if place else ""))
        self.number = number
        self.place = place


def shown(name: str) -> str:
    """A file's name for a line of output: control characters as escapes."""
    return "".join(c if c.isprintable() else c.encode("unicode_escape").decode() for c in name)


def excerpt(text: str) -> str:
    """A part of a line, in quotes and short enough to print."""
    text = shown(text.strip())
    return f"'{text}'" if len(text) <= LONGEST_EXCERPT else f"'{text[:LONGEST_EXCERPT]}...'"


def count(number: int) -> str:
    """A number with its thousands apart."""
    return f"{number:,}"


def close_to(word: str, words: Iterable[str]) -> List[str]:
    """The word that is most like this one, if any is."""
    from difflib import get_close_matches

    return get_close_matches(word, words, 1)
