"""Cases of procedures beside the vectors, for the parts `analysing` and `running` of the program cases.

Each cause of 16 alone and with an end too many, which is 8; the limits of the written-out form, and what is never called; 5 and
6 of the two kinds; what calls do to conditions; and each end of a run around a call. The answers were worked out by hand, and
are those of the independent implementation, whose test `stored` holds it to them. All recipes have one field of u32, eight
variables of u32 and one of u8, and a tray of two u32, but for those of many procedures, whose variables are 64 of u32."""
from typing import List, Sequence

from recipes import (ADD, BLANK, CALL, COPY, ELSE, END, FIELDS, IF, LOAD, NUMBER, PROCEDURE, READ, SITE, STORE, SUBTRACT, TRAYS,
                     U32, VARIABLES, WHILE, Statement, Worked, s)
from recipes import recipe as of_parts
from recipes import refused as worked

MANY = [U32] * 64


def procedure(parameters: int, first: int, count: int) -> Statement:
    """The opening of a procedure."""
    return s(PROCEDURE, parameters, first, count)


def call(target: int, number: int, *given: int) -> Statement:
    """A call."""
    return bytes([CALL, target, number, 0]) + bytes(given).ljust(4, b"\0")


def recipe(statements: Sequence[Statement], variables: Sequence[int] = VARIABLES) -> bytes:
    """A recipe's file."""
    return of_parts(FIELDS, variables, statements, TRAYS)


CLOSE = s(END)
DOUBLES = [procedure(1, 4, 2), s(ADD, 5, 4, 4), CLOSE]
FINISHED = "end 0 steps %d records %d"


def refused(what: str, number: int, statements: Sequence[Statement], variables: Sequence[int] = VARIABLES) -> Worked:
    """A recipe that analysis and run refuse."""
    return worked(what, number, recipe(statements, variables))


def causes() -> List[Worked]:
    """Each cause of 16 that is none of the written-out form, alone and with an end too many."""
    rows = [
        ("a procedure below another statement", [s(NUMBER), *DOUBLES]),
        ("a procedure inside another", [procedure(1, 4, 2), procedure(1, 6, 2), CLOSE, CLOSE]),
        ("a procedure inside an if", [s(IF), *DOUBLES, s(ELSE), CLOSE]),
        ("a procedure that uses a variable of the statements outside", [procedure(1, 4, 2), s(COPY, 5, 0), CLOSE]),
        ("a procedure that tests one", [procedure(0, 4, 1), s(WHILE, 0), CLOSE, CLOSE]),
        ("a procedure that uses another's variable", [*DOUBLES, procedure(1, 6, 2), s(COPY, 7, 5), CLOSE]),
        ("two procedures that share a variable", [*DOUBLES, procedure(1, 5, 2), CLOSE]),
        ("a site outside on an own variable", [*DOUBLES, s(SITE, 5)]),
        ("a call outside whose argument is an own variable", [*DOUBLES, call(0, 0, 4)]),
        ("a procedure without an own variable", [procedure(0, 4, 0), CLOSE]),
        ("a procedure with two own variables and three parameters", [procedure(3, 4, 2), CLOSE]),
        ("a procedure that calls itself", [procedure(1, 4, 2), call(5, 0, 4), CLOSE]),
        ("a procedure that calls a later one", [procedure(1, 4, 2), call(5, 1, 4), CLOSE, procedure(1, 6, 2), CLOSE]),
    ]
    found = []
    for what, statements in rows:
        found.append(refused(what, 16, statements))
        found.append(refused("the same, and an end too many", 8, [*statements, CLOSE]))
    return found


def doubling(last: int) -> List[Statement]:
    """Procedures that each call the one before twice."""
    code = [procedure(0, 1, 1), CLOSE]
    for number in range(1, last + 1):
        own = number + 1
        code += [procedure(0, own, 1), call(own, number - 1), call(own, number - 1), CLOSE]
    return code


def limits() -> List[Worked]:
    """The written-out form at its limits, and what is never called."""
    body = [procedure(0, 4, 1), *[s(NUMBER, 4, immediate=7)] * 126, CLOSE]
    most = [*body, *[call(0, 0)] * 127, *[s(NUMBER, 1)] * 127, s(SITE, 0)]
    whiles = [s(WHILE, 4)] * 2 + [CLOSE] * 2
    deep = [procedure(0, 4, 1), *whiles, CLOSE]
    site = s(SITE, 0)
    called = recipe([*deep, s(WHILE), s(WHILE), call(0, 0), CLOSE, CLOSE, site])
    inside = recipe([procedure(0, 4, 1), *[s(WHILE, 4)] * 4, *[CLOSE] * 5, call(0, 0), site])
    too_deep = [*deep, procedure(0, 5, 1), *[s(WHILE, 5)] * 3, call(5, 0), *[CLOSE] * 4]
    return [
        Worked("16,384 statements written out", recipe(most), ["7"], FINISHED % (16257, 1), [(382, 0, 7)], limit=20000),
        refused("16,385", 16, [*most, s(NUMBER, 1)]),
        refused("2 to the power of 60 calls", 16, [*doubling(60), call(0, 60)], MANY),
        Worked("the same procedures, and none is called", recipe([*doubling(60), site], MANY), ["0"], FINISHED % (1, 1), [(242, 0, 0)]),
        Worked("a call nests blocks 4 deep", called, ["0"], FINISHED % (2, 1), [(11, 0, 0)]),
        refused("a call nests blocks 5 deep", 16, [*deep, *[s(WHILE)] * 3, call(0, 0), *[CLOSE] * 3]),
        Worked("4 deep inside a procedure, which is no nested block", inside, ["0"], FINISHED % (3, 1), [(11, 0, 0)]),
        refused("5 deep inside a procedure", 8, [procedure(0, 4, 1), *[s(WHILE, 4)] * 5, *[CLOSE] * 6]),
        Worked("5 deep where nobody calls it", recipe([*too_deep, site]), ["0"], FINISHED % (1, 1), [(15, 0, 0)]),
        Worked("procedures alone", recipe(DOUBLES), [], FINISHED % (0, 0), limit=1),
    ]


def operands() -> List[Worked]:
    """5 and 6 of the two kinds, and 16 where 6 passes over a call."""
    own = [procedure(2, 4, 3), CLOSE]
    return [
        refused("five parameters", 5, [procedure(5, 0, 5), CLOSE]),
        refused("own variables past the last variable", 5, [procedure(0, 5, 5), CLOSE]),
        refused("a procedure with an immediate", 5, [s(PROCEDURE, 1, 4, 2, 1), CLOSE]),
        refused("a call of a procedure that there is not", 5, [*own, call(0, 1, 1, 2)]),
        refused("a call whose c is not zero", 5, [*own, bytes([CALL, 0, 0, 1, 1, 2, 0, 0])]),
        refused("a call whose argument is no variable", 5, [*own, call(0, 0, 1, 9)]),
        refused("a call with an argument too many", 5, [*own, call(0, 0, 1, 2, 3)]),
        refused("a call whose argument has another type", 6, [*own, call(0, 0, 1, 8)]),
        refused("a call whose target has another type", 6, [*own, call(8, 0, 1, 2)]),
        refused("types that differ at a call of a procedure without own variables: 6 passes over", 16, [procedure(0, 4, 0), CLOSE, call(8, 0)]),
        refused("types that differ at a call of one with fewer than its parameters: 6 passes over", 16, [procedure(3, 4, 2), CLOSE, call(8, 0, 8, 8, 8)]),
        refused("a call above its procedure, which has its number all the same", 16, [call(0, 0, 1), *DOUBLES]),
    ]


def conditions() -> List[Worked]:
    """What the written-out assignments do to conditions."""
    reads, loads = [procedure(0, 4, 1), s(READ, 4), CLOSE], [procedure(0, 4, 2), s(LOAD, 5, 0, 4), CLOSE]
    again = [procedure(0, 4, 2), s(ADD, 4, 4, 4), s(COPY, 5, 4), CLOSE]
    itself, twice = [procedure(1, 4, 1), s(ADD, 4, 4, 4), CLOSE], [*DOUBLES, procedure(1, 6, 2), call(7, 0, 6), call(7, 0, 7), CLOSE]
    get, show, total = s(READ, 0), s(SITE, 0), [s(ADD, 0, 0, 1), s(SITE, 0)]
    two_loads = recipe([*loads, s(READ, 2), s(STORE, 0, 3, 2), call(0, 0), call(1, 0), *total])
    in_a_while = recipe([*again, get, s(WHILE, 0), call(1, 0), s(NUMBER, 0), CLOSE, s(SITE, 1)])
    sites = recipe([procedure(1, 4, 2), s(SITE, 4), s(ADD, 5, 4, 4), CLOSE, get, call(0, 0, 0), call(0, 0, 0)])
    both = ["0 0 add", "0 f0<1> add", "f0<1> 0 add", "f0<1> f0<1> add"]
    return [
        Worked("a read in a procedure, called twice: two atoms", recipe([*reads, call(0, 0), call(1, 0), *total]),
                ["f0<1> f0<2> add"], FINISHED % (6, 1), [(6, 0, 14)], choices=2),
        Worked("the target among the arguments", recipe([*DOUBLES, get, call(0, 0, 0), show]),
                ["f0<1> f0<1> add"], FINISHED % (4, 1), [(5, 0, 14)]),
        Worked("the result is the last parameter", recipe([*itself, get, call(1, 0, 0), show, s(SITE, 1)]),
                ["f0<1>", "f0<1> f0<1> add"], FINISHED % (5, 2), [(5, 0, 7), (6, 0, 14)]),
        Worked("a call in a while, whose own variable is read before it is set: 0 each time, so that the while settles", in_a_while,
                ["0", "0 0 add"], FINISHED % (8, 1), [(9, 0, 0)]),
        Worked("the same load in two calls: two labels", two_loads, both, FINISHED % (8, 1), [(8, 0, 14)]),
        Worked("a site in a procedure, called twice", sites, ["f0<1>", "f0<1> f0<1> add"], FINISHED % (7, 2), [(1, 0, 7), (1, 0, 14)]),
        Worked("calls in a call", recipe([*twice, get, call(1, 1, 0), s(SITE, 1)]),
                ["f0<1> f0<1> add f0<1> f0<1> add add"], FINISHED % (7, 1), [(9, 0, 28)]),
    ]


def runs() -> List[Worked]:
    """Each end of a run around a call, and marks that go through one."""
    body = [procedure(1, 4, 2), s(ADD, 5, 4, 4), s(SITE, 5), CLOSE]
    code = recipe([*body, s(READ, 0), call(1, 0, 0), call(1, 0, 1), s(SITE, 1)])
    expected = ["f0<1> f0<1> add", "f0<1> f0<1> add f0<1> f0<1> add add"]
    records = [(2, 0, 14), (2, 0, 28), (7, 0, 28)]

    def ended(what: str, end: int, steps: int, noted: int, **given: int) -> Worked:
        return Worked(what, code, expected, f"end {end} steps {steps} records {noted}", records[:noted], **given)

    last = recipe([procedure(1, 4, 2), CLOSE, call(1, 0, 1)])
    reads = recipe([procedure(0, 4, 1), s(READ, 4), CLOSE, call(0, 0), call(0, 0), s(SITE, 0)])
    keeps = [procedure(1, 4, 3), s(SITE, 5), s(COPY, 5, 4), s(COPY, 6, 4), CLOSE]
    marked = recipe([*keeps, s(NUMBER, 0, immediate=1), s(SUBTRACT, 0, 1, 0), call(2, 0, 0), s(SITE, 2), call(3, 0, 1), s(SITE, 3)])
    return [
        ended("two calls of a body of two steps: eight steps with the read and the last site", 0, 8, 3),
        ended("the same with a limit of eight steps", 0, 8, 3, limit=8),
        ended("the limit is met behind the second call", 1, 7, 2, limit=7),
        ended("the limit is met in the second body", 1, 5, 1, limit=5),
        ended("the limit is met at the second call", 1, 4, 1, limit=4),
        ended("the limit is met at the first call", 1, 1, 0, limit=1),
        ended("the log is full at a site in the second body", 4, 6, 1, room=12),
        ended("the log is full behind the second call", 4, 7, 2, room=35),
        Worked("a call as the last step of its limit: coming back is none", last, [], FINISHED % (1, 0), limit=1),
        Worked("a read in a body of a blank field", reads, ["f0<1>"], "end 2 steps 1 records 0", sheet=BLANK),
        Worked("choices used up in the second body", reads, ["f0<1>"], "end 3 steps 3 records 0"),
        Worked("a mark goes through a call, and an own variable has none at the next", marked, ["0", "0 1 sub"],
                FINISHED % (12, 4), [(1, 0, 0), (8, 1, 2**32 - 1), (1, 0, 0), (10, 0, 0)]),
    ]


def beside() -> List[Worked]:
    """The cases, in order."""
    return [*causes(), *limits(), *operands(), *conditions(), *runs()]
