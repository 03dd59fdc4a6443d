"""What a line that is no declaration and no statement looks like, and what would be right.

HINTS is a list of looks, tried in order; each gives what is wrong and what would be right, or nothing. The
last says that the line is unknown.
"""

from __future__ import annotations

import re
import unicodedata
from typing import Callable, List, Optional, Sequence, Tuple

from .ranges import TYPES
from .trouble import close_to, excerpt

NAME = r"[A-Za-z_][A-Za-z_0-9]*"
KEYWORDS = ("field", "tray", "var", "read", "to", "site", "if", "else", "end", "while", "proc", "call")
STARTERS = ("field", "tray", "var", "site", "if", "else", "end", "while", "proc")
PROCS = ("proc", "procedure", "def", "func", "function", "fn", "fun", "sub")
ELSES = ("else", "elif", "elsif", "elseif")
ENDS = ("end", "endif", "endwhile", "done", "fi", "}")
OPERAND = r"[A-Za-z_0-9.]+"
NUMBER_LIKE = re.compile(r"[+-]?(?:[0-9][0-9A-Za-z_.,']*|\.[0-9]+)")
SIGNS_FOR = {"×": "*", "·": "*", "÷": "/", "−": "-", "–": "-", "≤": "<=", "≥": ">=", "≠": "!=", "←": "="}
TYPE_WORDS = {
    "int": "i32", "integer": "i32", "long": "i64", "short": "i16", "char": "u8", "byte": "u8", "bool": "u8",
    "unsigned": "u32", "uint": "u32", "size_t": "u64", "usize": "u64", "isize": "i64", "float": "i32", "double": "i64",
}

WHAT = {"field": "field", "var": "variable", "tray": "tray"}

Told = Tuple[str, str]
Look = Callable[[str], Optional[Told]]


def hint(words: str) -> Told:
    """What is wrong with the line, and what would be right."""
    for look in HINTS:
        told = look(words)
        if told:
            return told
    near = close_to(first_word(words), STARTERS)
    right = f"did you mean `{near[0]}`?" if near else "a line is a declaration or a statement, as `var x u32` or `x = a + b`"
    return f"{excerpt(words)} is no declaration and no statement", right


def first_word(words: str) -> str:
    """The word that the line starts with."""
    found = re.match(r"[A-Za-z_]+|\}", words)
    return found.group() if found else ""


def opens_procedure(words: str) -> bool:
    """Whether the line looks like the opening of a procedure, in whatever language."""
    return first_word(words) in PROCS and not re.match(r"[a-z]+\s*(=|\[)", words)


def right_type(word: str, name: str) -> str:
    """What a word that is no type may mean in the declaration of the name."""
    if name in TYPES:
        return f"the name comes first, as `var {word} {name}`"
    low = word.lower().strip(",;:")
    sized = re.fullmatch(r"(u?)int(8|16|32|64)(?:_t)?", low)
    if sized:
        return f"did you mean {'u' if sized[1] else 'i'}{sized[2]}?"
    narrow = re.fullmatch(r"([ui])([0-9]{1,2})", low)
    if narrow and low not in TYPES and 1 <= int(narrow[2]) <= 64:
        whole = next(bits for bits in (8, 16, 32, 64) if int(narrow[2]) <= bits)
        return f"types have 8, 16, 32 or 64 bits, and a field may have fewer, as `field {name} {narrow[1]}{whole} {narrow[2]} bits`"
    near = [low] if low in TYPES else [TYPE_WORDS[low]] if low in TYPE_WORDS else close_to(low, TYPES)
    return f"did you mean {near[0]}?" if near else f"types are {' '.join(TYPES)}"


def declaration(what: str, name: str) -> str:
    """How a name would be declared."""
    return {
        "field": f"field {name} u32",
        "variable": f"var {name} u32",
        "tray": f"tray {name} u32 8",
        "procedure": f"proc {name}(x u32) -> y u32",
    }[what]


def instead(what: str, name: str) -> str:
    """What to do with a name that means something else than what is wanted."""
    return {
        "field": f"read it into a variable first, as `x = read {name}`",
        "tray": f"a cell of it goes into a variable, as `x = {name}[i]`",
        "variable": "fields are named after `read`, trays before `[` and procedures after `call`",
        "procedure": f"it is called, as `x = call {name}(...)`",
    }[what]


def conversion(codes: Sequence[Tuple[str, Optional[int]]]) -> str:
    """How types that differ are brought together."""
    wanted = codes[0][1]
    name = next(name for name, code in codes[1:] if code is not None and code != wanted) if wanted is not None else codes[-1][0]
    return f"convert first, into a variable of the wanted type, as `y = to {name}`"


def argument(a: str, name: str, word: str) -> Told:
    """What is wrong with an argument that is no variable, and what would be right."""
    if NUMBER_LIKE.fullmatch(word):
        return f"the number {excerpt(word)} stands as an argument", f"give it a variable, as `n = {_decimal(word)}`, then `{a} = call {name}(n)`"
    if not word:
        return "an argument is missing", f"name the variables, with commas between, as `{a} = call {name}(x, y)`"
    return f"the argument {excerpt(word)} is more than a variable", f"work it out first, as `x = a * b`, then `{a} = call {name}(x)`"


# ---- looks


def _characters(words: str) -> Optional[Told]:
    """Characters that no line has."""
    for character in words:
        if " " <= character <= "~" or character == "\t":
            continue
        if character.isdecimal():
            digit = unicodedata.decimal(character)
            return f"the digit '{character}' is of another script", f"digits are 0 to 9: write {digit}"
        if character in SIGNS_FOR:
            return f"'{character}' is no sign of the language", f"write {SIGNS_FOR[character]}"
        told = unicodedata.name(character, "a control character")
        if character.isalpha():
            return f"'{character}' stands in a name", "names are made of a to z, A to Z, 0 to 9 and _"
        return f"the character U+{ord(character):04X} ({told}) stands in the line", "take it out"
    return None


def _comment(words: str) -> Optional[Told]:
    """A comment in another language's form."""
    for mark in ("//", "/*", "--", "%%"):
        if mark in words:
            return f"'{mark}' starts no comment", "a comment starts with #"
    return None


def _separator(words: str) -> Optional[Told]:
    """A semicolon."""
    if words.endswith(";"):
        return "the line ends with ';'", "a line ends by itself: leave it out"
    if ";" in words:
        return "';' stands in the line", "a line has one statement: write the next on a line of its own"
    return None


def _else_if(words: str) -> Optional[Told]:
    """An else with more behind it."""
    if re.match(r"else\s*if\b|elif\b|elsif\b|elseif\b", words):
        right = "write `else`, and below it an `if` with its own else and end"
        return f"{excerpt(words)}: an else has no test", right
    if re.match(r"else\b", words):
        return f"{excerpt(words)}: more stands after else", "`else` stands alone on its line"
    return None


def _end(words: str) -> Optional[Told]:
    """An end with more behind it, or in another language's form."""
    if first_word(words) in ENDS:
        return f"{excerpt(words)} closes no block", "write `end` alone on its line"
    return None


def _test(words: str) -> Optional[Told]:
    """An if or a while with anything but a variable."""
    found = re.fullmatch(r"(if|while)\b\s*(.*)", words)
    if not found:
        return None
    word, test = found.groups()
    nonzero = re.fullmatch(rf"\(?\s*({NAME})\s*(?:!=|<>|>)\s*0\s*\)?\s*(?:then|do|:|\{{)?", test)
    if nonzero:
        return f"'{test}' is a comparison", f"write `{word} {nonzero[1]}`: it is taken where {nonzero[1]} is not 0"
    if re.search(r"[<>!=]=|[<>]|=", test):
        right = f"a test is one variable and is taken where it is not 0, as `{word} x`; read a comparison's outcome from a field"
        return f"{excerpt(test)} is a comparison", right
    plain = re.fullmatch(rf"\(?\s*({NAME})\s*\)?\s*(?:then|do|:|\{{)?", test)
    if plain:
        return f"{excerpt(test)} is more than a variable", f"write `{word} {plain[1]}`"
    if re.fullmatch(NUMBER_LIKE, test):
        return f"the number {excerpt(test)} stands as a test", f"give it a variable, as `x = {_decimal(test)}`, then `{word} x`"
    if re.match(r"not\b|!", test):
        return f"{excerpt(test)} is negated", "test the variable itself, and write what is meant below `else`"
    if not test:
        return f"this {word} has no test", f"name a variable, as `{word} x`"
    return f"{excerpt(test)} is more than a variable", f"work it out first, as `x = a * b`, then `{word} x`"


def _declaration(words: str) -> Optional[Told]:
    """A declaration whose parts are wrong."""
    found = re.fullmatch(r"(field|var|tray)\b\s*(.*)", words)
    if not found:
        return None
    word, rest = found.groups()
    form = {"field": "field NAME TYPE", "var": "var NAME TYPE", "tray": "tray NAME TYPE LENGTH"}[word]
    bracket = re.fullmatch(rf"({NAME})\s*\[\s*([0-9]+)\s*\]\s+(\S+)", rest)
    if word == "tray" and bracket:
        return f"{excerpt(rest)} has its length in brackets", f"did you mean `tray {bracket[1]} {bracket[3]} {bracket[2]}`?"
    parts = rest.split()
    if "," in rest:
        return f"{excerpt(words)} declares several", f"a line declares one name: `{form}`"
    if parts and not re.fullmatch(NAME, parts[0]):
        return f"{excerpt(parts[0])} is no name", "a name starts with a letter or _, and goes on with letters, digits and _"
    if word == "tray" and len(parts) == 3:
        return f"{excerpt(parts[2])} is no length", "a length is a whole number, 1 to 256"
    if word == "tray" and len(parts) == 2 and parts[1] in TYPES:
        return f"{parts[0]} has no length", f"say how many cells, as `tray {parts[0]} {parts[1]} 8`"
    bits = re.fullmatch(rf"({NAME})\s+({'|'.join(TYPES)})\s+(\S+)(\s*bits?)?", rest)
    if bits and word != "tray":
        return _bits(word, *bits.groups())
    if len(parts) == 1:
        return f"{excerpt(parts[0])} has no type", f"say which, as `{declaration(WHAT[word], parts[0])}`"
    if "=" in rest:
        return f"{excerpt(words)} sets a value", f"a declaration has none: write `{form}`, and the value on a line of its own"
    return f"{excerpt(words)} is no declaration", f"write `{form}`"


def _bits(word: str, name: str, of: str, number: str, unit: Optional[str]) -> Told:
    """A declaration with more than a type behind the name, which may mean the bits of a field."""
    bare = number[:-4] if number.endswith("bits") else number
    if word != "field":
        return f"{name} has more than a type", f"fields alone have bits of their own: write `{word} {name} {of}`"
    if re.fullmatch(r"[0-9]{1,2}", bare):
        return f"{excerpt(number + (unit or ''))} stands behind the type", f"did you mean `field {name} {of} {bare} bits`?"
    return f"{excerpt(number)} is no number of bits", f"a field has all bits of its type, or some, as `field {name} {of} 4 bits`"


def _procedure(words: str) -> Optional[Told]:
    """The opening of a procedure whose parts are wrong, or in another language's form."""
    if not opens_procedure(words):
        return None
    word = first_word(words)
    form = "proc NAME(x u32, y u32) part u32 -> result u32"
    if word != "proc":
        return f"'{word}' opens no procedure", f"write `{form}`"
    named = re.match(rf"proc\s+({NAME})\s*(\()?", words)
    if not named:
        return "this procedure has no name", f"write `{form}`"
    if not named[2]:
        return f"{named[1]} has no parentheses", f"the parameters stand in them, or nothing, as `proc {named[1]}() -> result u32`"
    if "->" not in words:
        right = "name it behind `->`, as `-> result u32`; it may be the last variable before it, as `-> x`"
        return f"{named[1]} has no result", right
    return f"{excerpt(words)} opens no procedure", f"write `{form}`: parameters, other own variables, the result"


def _bare_call(words: str) -> Optional[Told]:
    """A call that goes nowhere, or a return."""
    found = re.match(rf"call\b\s*({NAME})?", words)
    if found:
        return f"{excerpt(words)} sets nothing", f"write where the result goes, as `x = call {found[1] or 'p'}(...)`"
    if re.match(r"return\b", words):
        return f"{excerpt(words)} is no statement", "set the variable behind `->`: a procedure gives what it holds at its end"
    return None


def _site(words: str) -> Optional[Told]:
    """A site on anything but a variable."""
    found = re.fullmatch(r"site\b\s*(.*)", words)
    if not found:
        return None
    bracket = re.fullmatch(rf"\(\s*({NAME})\s*\)", found[1])
    if bracket:
        return f"{excerpt(words)} has brackets", f"write `site {bracket[1]}`"
    if not found[1]:
        return "this site names no variable", "write `site x`"
    right = "put the value in a variable first, as `x = a * b`, then `site x`"
    return f"a site is on one variable, and not on {excerpt(found[1])}", right


def _assignment_sign(words: str) -> Optional[Told]:
    """A value set by another sign than =."""
    found = re.match(rf"({NAME})\s*(\+|-|\*|/|%)=\s*(.*)", words)
    if found:
        a, sign, rest = found.groups()
        return f"'{sign}=' is no sign of the language", f"write `{a} = {a} {sign} {rest or 'b'}`"
    if re.match(rf"{NAME}\s*(\+\+|--)$", words):
        return f"{excerpt(words)} counts by itself", "write `x = x + one`, with `one = 1` above"
    for sign in (":=", "==", "<-"):
        if re.match(rf"{NAME}\s*(\[.*\])?\s*{re.escape(sign)}", words):
            return f"'{sign}' is no sign of the language", "a value is set by ="
    return None


def _right_side(words: str) -> Optional[Told]:
    """An assignment whose right side is none of the seven."""
    found = re.fullmatch(rf"({NAME})\s*=\s*(.*)", words)
    if not found:
        return None
    a, right = found.groups()
    for look in (_literal, _call, _conversion_word, _comparison, _other_operation, _load, _number_operand, _negative, _nested):
        told = look(a, right)
        if told:
            return told
    if not right:
        return f"{a} is set to nothing", f"write a value, as `{a} = 5` or `{a} = b + c`"
    return f"{excerpt(right)} is no value", "a value is a number, `b`, `b + c`, `to b`, `read f`, `t[i]` or `call p(b, c)`"


def _decimal(literal: str) -> str:
    """The number that a literal of another form stands for, or the literal."""
    plain = literal.replace("_", "").replace(",", "").replace("'", "")
    try:
        return str(int(plain, 0)) if len(plain) < 40 else literal
    except ValueError:
        return literal


def _literal(a: str, right: str) -> Optional[Told]:
    """A number in another form."""
    if not NUMBER_LIKE.fullmatch(right):
        return None
    if re.match(r"[+-]?0[xXbBoO]", right):
        decimal = _decimal(right)
        told = f"write {decimal}" if decimal != right else "write it in decimal digits"
        return f"{excerpt(right)} is not decimal", f"numbers are decimal: {told}"
    if re.fullmatch(r"[+-]?[0-9_,']+", right):
        return f"{excerpt(right)} has signs between its digits", f"write `{a} = {_decimal(right)}`"
    if re.fullmatch(r"[+-]?[0-9]+[uUlLiI][0-9lL]*", right):
        return f"{excerpt(right)} has letters after its digits", "the type is the variable's: write the digits alone"
    return f"{excerpt(right)} is no whole number", "numbers are whole: scale the value, or divide in the recipe"


def _call(a: str, right: str) -> Optional[Told]:
    """A call with more in its line than variables in parentheses."""
    found = re.match(rf"call\b\s*({NAME})?\s*(\(.*\))?(.*)", right)
    if not found:
        return None
    name, given, more = found[1] or "p", found[2] or "", found[3].strip()
    if given and not more:
        told = f"work the arguments out first, one a line, then `{a} = call {name}(x, y)`"
        return f"{excerpt(right)} has more than one operation", told
    if given:
        return f"{excerpt(right)} has more than a call", f"write `y = call {name}{given}`, and the rest on a line of its own"
    return f"{excerpt(right)} has no parentheses", f"the arguments stand in them, or nothing, as `{a} = call {name}()`"


def _conversion_word(a: str, right: str) -> Optional[Told]:
    """A conversion or a read in another language's form."""
    types = "|".join(TYPES)
    found = (
        re.fullmatch(rf"to\s+(?:{types})\s+({NAME})", right)
        or re.fullmatch(rf"\(?(?:{types}|int|uint|to)\)?\s*\(\s*({NAME})\s*\)", right)
        or re.fullmatch(rf"\((?:{types}|int|uint)\)\s*({NAME})", right)
        or re.fullmatch(rf"({NAME})\s+(?:as|to)\s+(?:{types})", right)
    )
    if found:
        return f"{excerpt(right)} names a type", f"the type is {a}'s: write `{a} = to {found[1]}`"
    read = re.fullmatch(rf"read\s*[(\"'\[]+\s*({NAME})\s*[)\"'\]]+", right)
    if read:
        return f"{excerpt(right)} has brackets or quotes", f"write `{a} = read {read[1]}`"
    return None


def _comparison(a: str, right: str) -> Optional[Told]:
    """A comparison as a value."""
    if re.search(r"[<>!=]=|(?<![<>])[<>](?![<>])|\band\b|\bor\b|\bnot\b|&&|\|\||\?", right):
        return f"{excerpt(right)} is a comparison", "there is none: read its outcome from a field, 0 or 1"
    return None


def _other_operation(a: str, right: str) -> Optional[Told]:
    """An operation that there is not."""
    found = re.search(r"\*\*|<<|>>|[%&|^~]", right)
    if not found:
        return None
    right_form = {
        "%": "a remainder is `q = b / c`, `p = q * c`, `r = b - p`",
        "**": "a power is repeated `*`, a line each",
        "<<": "a shift to the left is `*` by a power of two",
        ">>": "a shift to the right of an unsigned value is `/` by a power of two",
    }.get(found.group(), "operations are + - * /")
    return f"there is no operation '{found.group()}'", right_form


def _load(a: str, right: str) -> Optional[Told]:
    """A load whose index is no variable."""
    found = re.fullmatch(rf"({NAME})\s*[\[(]\s*(.*?)\s*[\])]", right)
    if not found:
        return None
    tray, index = found.groups()
    if "(" in right and "[" not in right:
        told = f"a procedure is called as `{a} = call {tray}({index})`, and a tray's cell is `t[i]`"
        return f"{excerpt(right)} calls a function", told
    return _index_told(tray, index, f"{a} = {tray}[i]")


def _index_told(tray: str, index: str, line: str) -> Told:
    """What is wrong with an index, and the line with a right one."""
    if NUMBER_LIKE.fullmatch(index):
        right = f"give it a variable, as `i = {_decimal(index)}`, then `{line}`"
        return f"the number {excerpt(index)} stands as an index", right
    if not index:
        return f"{tray}[] has no index", f"name a variable, as `{line}`"
    return f"the index {excerpt(index)} is more than a variable", f"work it out first, as `i = a + b`, then `{line}`"


def _number_operand(a: str, right: str) -> Optional[Told]:
    """A number beside + - * /."""
    found = re.fullmatch(rf"({OPERAND})\s*([-+*/])\s*([+-]?{OPERAND})", right)
    if not found:
        return None
    b, sign, c = found.groups()
    for number, line in ((c, f"{a} = {b} {sign} n"), (b, f"{a} = n {sign} {c}")):
        if NUMBER_LIKE.fullmatch(number):
            right = f"give it a variable, as `n = {_decimal(number)}`, then `{line}`"
            return f"the number {excerpt(number)} stands as an operand", right
    return None


def _negative(a: str, right: str) -> Optional[Told]:
    """A sign before a variable."""
    found = re.fullmatch(rf"[-+]\s*({NAME})", right)
    if found:
        return f"{excerpt(right)} has a sign and no left side", f"subtract it from 0: `zero = 0`, then `{a} = zero - {found[1]}`"
    return None


def _nested(a: str, right: str) -> Optional[Told]:
    """More than one operation."""
    signs = len(re.findall(r"[-+*/]", right))
    if signs > 1 or "(" in right or (signs and ("[" in right or re.search(r"\b(?:to|read)\b", right))):
        told = f"one a line, by variables between, as `part = b * c`, then `{a} = part + d`"
        return f"{excerpt(right)} has more than one operation", told
    return None


def _store(words: str) -> Optional[Told]:
    """A store whose index or value is no variable."""
    found = re.fullmatch(rf"({NAME})\s*\[\s*(.*?)\s*\]\s*=\s*(.*)", words)
    if not found:
        return None
    tray, index, value = found.groups()
    if not re.fullmatch(NAME, index):
        return _index_told(tray, index, f"{tray}[i] = x")
    return f"a cell takes a variable, and not {excerpt(value)}", f"put the value in a variable first, then `{tray}[{index}] = x`"


def _reading(words: str) -> Optional[Told]:
    """A read or a conversion that goes nowhere."""
    found = re.fullmatch(rf"(read|to)\b\s*({NAME})?.*", words)
    if found:
        return f"{excerpt(words)} sets nothing", f"write where it goes, as `x = {found[1]} {found[2] or 'f'}`"
    return None


HINTS: List[Look] = [
    _characters, _comment, _else_if, _separator, _test, _end, _declaration, _procedure,
    _bare_call, _site, _assignment_sign, _right_side, _store, _reading,
]
