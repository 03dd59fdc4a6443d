"""The reader of a recipe's text: a declaration or a statement a line, all mistakes at once.

Each line is matched against FORMS. A line that none fits goes to `hints`, which says what it looks like and
what would be right. Reading goes on after a mistake: a name whose declaration is wrong counts as declared,
with no type, and a block that is opened wrongly counts as opened, so that one mistake is told once.

Whatever the gate refuses with 2 to 8 or 16 is a mistake of some line here, so that no text is made into such a file.
"""

from __future__ import annotations

import re
from typing import Callable, Dict, List, Optional, Tuple

from . import fields, hints
from .files import lines_of
from .procedures import measured
from .ranges import TYPES, fits, fits_immediate, highest, is_signed, lowest
from .recipe import Recipe
from .sizes import (
    LONGEST_LINE,
    MOST_CELLS,
    MOST_DEPTH,
    MOST_DIGITS,
    MOST_FIELDS,
    MOST_MISTAKES,
    MOST_STATEMENTS,
    MOST_TRAYS,
    MOST_VARIABLES,
)
from .statements import OPERATORS, Kind, Named, Statement
from .text_names import Known, Scope, Wrong
from .text_procedures import call, open_procedure
from .trouble import Mistake, Mistakes, close_to, count, excerpt

NAME = hints.NAME
NUMBER = r"[+-]?[0-9]+"
MOST = {"field": MOST_FIELDS, "variable": MOST_VARIABLES, "tray": MOST_TRAYS}


class Reader:
    """Reads a recipe's text line by line."""

    def __init__(self, name: str) -> None:
        self.name = name
        self.recipe = Recipe(lines=[], named=True)
        self.known: Dict[str, Known] = {}
        self.open_blocks: List[Tuple[str, int]] = []
        self.owner: Dict[str, str] = {}
        self.inside: Optional[Scope] = None
        self.first_outside = 0
        self.mistakes: List[Mistake] = []
        self.line = 0

    def read(self, text: str) -> Recipe:
        """The recipe, or Mistakes."""
        for self.line, line in enumerate(lines_of(text), 1):
            try:
                self.read_line(line)
            except Wrong as wrong:
                self.note(wrong.wrong, wrong.right)
            if len(self.mistakes) == MOST_MISTAKES:
                self.note(f"over {count(MOST_MISTAKES)} mistakes", "the lines below are not read")
                break
        for word, line in self.open_blocks:
            need = "an else and an end" if word == "if" else "an end"
            self.mistakes.append(Mistake(line, f"this {word} has no end", f"write {need} below its lines"))
        if not self.mistakes:
            self.measure()
        if self.mistakes:
            raise Mistakes(self.name, sorted(self.mistakes))
        self.recipe.warnings = self.recipe.noticed()
        return self.recipe

    def measure(self) -> None:
        """Notes a mistake where the recipe with each call written out is too long or too deep."""
        excess = measured(self.recipe.statements, self.recipe.procedures)
        if excess:
            self.mistakes.append(Mistake(self.recipe.lines[excess.label], excess.wrong, excess.right))

    def note(self, wrong: str, right: str) -> None:
        """Notes a mistake in the line that is being read."""
        self.mistakes.append(Mistake(self.line, wrong, right))

    def read_line(self, line: str) -> None:
        """Reads a line; raises Wrong."""
        if len(line) > LONGEST_LINE:
            raise Wrong(f"the line has {count(len(line))} characters", f"a line has at most {count(LONGEST_LINE)}")
        words = line.split("#", 1)[0].strip()
        if not words:
            return
        for pattern, act in FORMS:
            found = pattern.fullmatch(words)
            if found:
                act(self, *found.groups())
                return
        self.recover(words)
        raise Wrong(*hints.hint(words))

    def recover(self, words: str) -> None:
        """Does of a wrong line what the lines below depend on."""
        declaration = re.match(rf"(field|var|tray)\s+({NAME})\b", words)
        if declaration and declaration[2] not in TYPES:
            self.known.setdefault(declaration[2], Known(hints.WHAT[declaration[1]], 0, None))
        first = hints.first_word(words)
        if hints.opens_procedure(words):
            self.recover_procedure(words)
        elif first in ("if", "while"):
            self.open_blocks.append((first, self.line))
        elif first in hints.ELSES and self.open_blocks:
            self.open_blocks[-1] = ("else", self.open_blocks[-1][1])
        elif first in hints.ENDS and self.open_blocks:
            self.close()

    def recover_procedure(self, words: str) -> None:
        """Opens a procedure whose opening is wrong, and declares what it seems to declare."""
        self.open_blocks.append(("proc", self.line))
        name = re.match(rf"[a-z]+\s+({NAME})", words)
        for own in re.findall(rf"({NAME})\s+(?:{'|'.join(TYPES)})\b", words):
            self.known.setdefault(own, Known("variable", 0, None))
        if name:
            self.known.setdefault(name[1], Known("procedure", 0, None))
        self.inside = self.inside or Scope(name[1] if name else "", self.line, False)

    def close(self) -> Tuple[str, int]:
        """Leaves the innermost block, which is given."""
        word, line = self.open_blocks.pop()
        if word == "proc" and not any(word == "proc" for word, _ in self.open_blocks):
            self.inside = None
        return word, line

    # -- names

    def declare(self, what: str, name: str, word: str, cells: int = 0, bits: int = 0) -> None:
        """Declares a name; a wrong type leaves it declared without one."""
        self.claim(name)
        table = self.recipe.names[what]
        if word not in TYPES:
            self.known[word if name in TYPES else name] = Known(what, 0, None)
            raise Wrong(f"{excerpt(word)} is no type", hints.right_type(word, name))
        self.known[name] = Known(what, len(table), TYPES.index(word))
        self.recipe.declared[name] = self.line
        table.append(Named(name, TYPES.index(word), cells, bits))
        if len(table) == MOST[what] + 1:
            raise Wrong(f"this is {what} {len(table)}", f"a recipe has at most {MOST[what]}")

    def claim(self, name: str) -> None:
        """Wrong where a name cannot be declared."""
        if name in hints.KEYWORDS:
            raise Wrong(f"'{name}' is a word of the language", "choose another name")
        if name in self.known:
            line = self.recipe.declared.get(name)
            raise Wrong(f"'{name}' is declared already" + (f" in line {line}" if line else ""), "a name means one thing")

    def look_up(self, what: str, name: str) -> Known:
        """What a name stands for, if it is what is wanted."""
        found = self.known.get(name)
        if found is None:
            if name in hints.KEYWORDS:
                raise Wrong(f"'{name}' is a word of the language", f"name a {what}")
            near = close_to(name, self.known)
            if near:
                raise Wrong(f"{excerpt(name)} is not declared", f"did you mean '{near[0]}'?")
            self.known[name] = Known(what, 0, None)
            raise Wrong(f"{excerpt(name)} is not declared", f"declare it above, as `{hints.declaration(what, name)}`")
        if found.what != what:
            raise Wrong(f"'{name}' is a {found.what}, and a {what} is wanted", hints.instead(found.what, name))
        return found

    def variable(self, name: str) -> Known:
        """A variable by its name, where it may be used: own variables in their procedure, and no others there."""
        found = self.look_up("variable", name)
        owner = self.owner.get(name)
        if self.inside and self.inside.right and found.code is not None and owner != self.inside.name:
            right = f"name it in line {self.inside.line} to have it, as a parameter or before `->`"
            raise Wrong(f"'{name}' is no own variable of {self.inside.name}", right)
        if owner and not self.inside:
            right = "declare another for the lines outside, and hand values over by calls"
            raise Wrong(f"'{name}' is an own variable of {owner}", right)
        return found

    def index(self, name: str) -> int:
        """The number of a variable that may be an index."""
        found = self.variable(name)
        if found.code is not None and is_signed(found.code):
            raise Wrong(f"the index '{name}' is {TYPES[found.code]}", "index with an unsigned variable: u8, u16, u32 or u64")
        return found.number

    def agree(self, *names: str) -> None:
        """Wrong where the types of these names differ."""
        codes = [(name, self.known[name].code) for name in names]
        if len({code for _, code in codes if code is not None}) > 1:
            told = ", ".join(f"{name} is {TYPES[code]}" for name, code in dict(codes).items() if code is not None)
            raise Wrong(f"types differ: {told}", hints.conversion(codes))

    # -- lines

    def put(self, kind: int, a: int = 0, b: int = 0, c: int = 0, immediate: int = 0) -> None:
        """Adds a statement."""
        if not self.inside:
            self.first_outside = self.first_outside or self.line
        self.recipe.statements.append(Statement(kind, a, b, c, immediate))
        self.recipe.lines.append(self.line)
        if len(self.recipe.statements) == MOST_STATEMENTS + 1:
            raise Wrong(f"this is statement {count(MOST_STATEMENTS + 1)}", f"a recipe has at most {count(MOST_STATEMENTS)}")

    def field(self, name: str, word: str, number: Optional[str] = None) -> None:
        most = fields.all_bits(TYPES.index(word)) if word in TYPES else 0
        bits = most if number is None else int(number) if len(number) <= MOST_DIGITS else most + 1
        self.declare("field", name, word, bits=bits)
        if not 1 <= bits <= most:
            raise Wrong(f"{excerpt(number)} is no number of bits", f"{word} has 1 to {most}")

    def var(self, name: str, word: str) -> None:
        self.declare("variable", name, word)
        if self.inside:
            self.known[name] = Known("variable", 0, None)
            right = f"its own variables are declared in line {self.inside.line}: write `{name} {word}` before `->`"
            raise Wrong(f"'{name}' is declared inside {self.inside.name or 'a procedure'}", right)

    def tray(self, name: str, word: str, length: str) -> None:
        cells = int(length) if len(length) <= MOST_DIGITS else MOST_CELLS + 1
        self.declare("tray", name, word, cells)
        if not 1 <= cells <= MOST_CELLS:
            raise Wrong(f"{excerpt(length)} is no length", f"a tray has 1 to {MOST_CELLS}")

    def number(self, a: str, literal: str) -> None:
        found = self.variable(a)
        if len(literal.lstrip("+-0")) > MOST_DIGITS:
            raise Wrong(f"a number of {count(len(literal))} digits", "no type has more than 20")
        value, code = int(literal), found.code
        if code is None:
            return
        if not fits(code, value):
            right = f"{TYPES[code]} goes from {lowest(code)} to {highest(code)}"
            raise Wrong(f"{value} does not fit {a}, which is {TYPES[code]}", right)
        if not fits_immediate(code, value):
            raise Wrong(f"{value} does not fit the 4 bytes of a number", "make it from smaller ones, as `x = a * b`")
        self.put(Kind.NUMBER, found.number, immediate=value & 0xFFFFFFFF)

    def copy(self, a: str, b: str) -> None:
        x, y = self.variable(a), self.variable(b)
        self.agree(a, b)
        self.put(Kind.COPY, x.number, y.number)

    def operation(self, a: str, b: str, sign: str, c: str) -> None:
        x, y, z = self.variable(a), self.variable(b), self.variable(c)
        self.agree(a, b, c)
        self.put(OPERATORS[sign], x.number, y.number, z.number)

    def convert(self, a: str, b: str) -> None:
        self.put(Kind.CONVERT, self.variable(a).number, self.variable(b).number)

    def take(self, a: str, f: str) -> None:
        x, y = self.variable(a), self.look_up("field", f)
        self.agree(a, f)
        self.put(Kind.READ, x.number, y.number)

    def load(self, a: str, t: str, i: str) -> None:
        x, y, index = self.variable(a), self.look_up("tray", t), self.index(i)
        self.agree(a, t)
        self.put(Kind.LOAD, x.number, y.number, index)

    def store(self, t: str, i: str, a: str) -> None:
        y, index, x = self.look_up("tray", t), self.index(i), self.variable(a)
        self.agree(t, a)
        self.put(Kind.STORE, y.number, index, x.number)

    def site(self, a: str) -> None:
        self.put(Kind.SITE, self.variable(a).number)

    def enter(self, word: str, a: str) -> None:
        self.open_blocks.append((word, self.line))
        self.put({"if": Kind.IF, "while": Kind.WHILE}[word], self.variable(a).number)
        depth = sum(word != "proc" for word, _ in self.open_blocks)
        if depth > MOST_DEPTH:
            raise Wrong(f"this block is {depth} deep", f"blocks nest at most {MOST_DEPTH} deep")

    def turn(self) -> None:
        if not self.open_blocks or self.open_blocks[-1][0] != "if":
            raise Wrong("this else belongs to no if", "every else stands between an if and its end, once")
        self.open_blocks[-1] = ("else", self.open_blocks[-1][1])
        self.put(Kind.ELSE)

    def leave(self) -> None:
        if not self.open_blocks:
            raise Wrong("this end closes nothing", "every end closes an if, a while or a proc above it")
        self.put(Kind.END)
        word, line = self.close()
        if word == "if":
            raise Wrong(f"the if of line {line} has no else", "write `else` above this end, with nothing below it if so meant")


Act = Callable[..., None]
FORMS: List[Tuple["re.Pattern[str]", Act]] = [
    (re.compile(pattern), act)
    for pattern, act in (
        (rf"field\s+({NAME})\s+(\S+)", Reader.field),
        (rf"field\s+({NAME})\s+(\S+)\s+([0-9]+)\s+bits?", Reader.field),
        (rf"var\s+({NAME})\s+(\S+)", Reader.var),
        (rf"tray\s+({NAME})\s+(\S+)\s+([0-9]+)", Reader.tray),
        (rf"({NAME})\s*=\s*({NUMBER})", Reader.number),
        (rf"({NAME})\s*=\s*({NAME})", Reader.copy),
        (rf"({NAME})\s*=\s*({NAME})\s*([-+*/])\s*({NAME})", Reader.operation),
        (rf"({NAME})\s*=\s*to\s+({NAME})", Reader.convert),
        (rf"({NAME})\s*=\s*read\s+({NAME})", Reader.take),
        (rf"({NAME})\s*=\s*({NAME})\s*\[\s*({NAME})\s*\]", Reader.load),
        (rf"({NAME})\s*\[\s*({NAME})\s*\]\s*=\s*({NAME})", Reader.store),
        (rf"site\s+({NAME})", Reader.site),
        (rf"(if|while)\s+({NAME})", Reader.enter),
        (rf"proc\s+({NAME})\s*\(([^()]*)\)\s*([^()]*?)\s*->\s*([^(),]+)", open_procedure),
        (rf"({NAME})\s*=\s*call\s+({NAME})\s*\(([^()]*)\)", call),
        (r"else", Reader.turn),
        (r"end", Reader.leave),
    )
]
