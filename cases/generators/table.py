#!/usr/bin/env python3
"""table.py: writes cases/CASES.md, what each stored case is there for.

The answers come from the outside vectors, the places of refusals from the Python package, which finds them beside the proved
code. A test of the package holds the file to what this prints."""
import os
import sys
from itertools import groupby

HERE = os.path.dirname(os.path.abspath(__file__))
ROOT = os.path.dirname(os.path.dirname(HERE))
sys.path[:0] = [HERE, os.path.join(ROOT, "python")]

from cases import calling_cases, converting_cases, gate_cases, narrowing_cases, run_cases, worked_cases  # noqa: E402
from vectors import cases  # noqa: E402

from survey_gate.condition import Condition  # noqa: E402
from survey_gate.fields import all_bits  # noqa: E402
from survey_gate.recipe import Recipe  # noqa: E402
from survey_gate.recipe_file import OLD, refusal  # noqa: E402
from survey_gate.sheet import readings_of  # noqa: E402
from survey_gate.trouble import Refused  # noqa: E402

IF, WHILE, LOAD, STORE, SITE, PROCEDURE, CALL = 11, 14, 8, 9, 10, 15, 16
ENDS = ("finished", "step limit", "field without readings", "choices used up", "log full")
HEAD = """# The stored cases

What each stored case is there for. `.ci/run` runs the programs below over their stored files (`crates/NAME/data`, `stdin`, `args`) and holds what they print to `crates/NAME/stdout`. `cases/generators/table.py` writes this file from the cases, the other generators the cases from the outside vectors (`rust/vectors`, whose README says where those come from).

| program | cases | what it shows |
|---|---|---|
| `cases`, reading | 000 to %(last)s | the three readers: counts of what is read, refusals 2 to 8 and 16 of recipes, 12 of conditions, 13 of sheets, each sheet read for the recipe and for the condition |
| `cases`, analysing | 000 to %(last)s, %(first_calling)s to %(narrowing)s | the analysis: the condition byte for byte and its listing, or refusals 2 to 11 and 16 |
| `cases`, filtering | 000 to %(filter)s | the gate on the made-up condition and on the derived one: pass, held with the cause of the first failure, refusals 12 to 15 |
| `cases`, running | 000 to %(last)s, %(first_run)s to %(narrowing)s | the run: end, steps and every byte of the records; where the derived condition passes, the numbers of the whole-number run, unmarked |
| `cases`, converting | 000 to %(last)s, %(first_converting)s to %(converting)s | the conversion of old recipes: every byte of the new one, and the rest of the output as it was; or refusals 2 to 8 and 16 of the old form |
| `list` | one, on standard input | document 01's example of a listing: two reads of one field are two atoms |
| `derive` | one | document 01's loop `x = x + 1` before a site: refused 11, and nothing is written |
| `gate` | one | the files of 001: the made-up condition passes |
| `run`, `guarded` | one | the files of 036: it passes, finishes and logs two records |
| `convert` | one | 40 fields in an old recipe of 8,384 bytes: refused 3, and nothing is written |

The answers of the cases beside the vectors were worked out by hand; they are the independent implementation's too (`rust/oracle/tests/stored.rs` holds it to every stored case), and none comes from the proved programs. The same vectors go through the library in C's form by `rust/gate/tests/vectors.rs`, through the independent implementation by `rust/oracle/tests/vectors.rs`, and as files through the Python package by `python/tests`.

## Beside the vectors

| part | case | what it is there for |
|---|---|---|
%(beside)s
## The vectors

A recipe that is accepted, or refused with 9 to 11, shows its fields of fewer bits than their types', procedures, calls, whiles, ifs, loads, stores and sites. `Made up` is the condition that comes with the case, put to the case's sheet; `derived` is the recipe's own. A run that is refused as the recipe is says `the same`. `Old` is the recipe of the old form that comes with the case. Labels and entries count from 0, and readings from 1.

%(sets)s

| case | recipe | made up | derived | run | old |
|---|---|---|---|---|---|
"""


def place(call):
    """Where the package finds a file wrong; nothing if it is right."""
    try:
        call()
    except Refused as refused:
        return refused.place
    return ""


def told(answer, where):
    """A refusal with its place."""
    return f"{answer}: {where}" if where else answer


def shape(recipe):
    """What an accepted recipe is made of."""
    kinds = [statement.kind for statement in recipe.statements]
    named = [("procedure", PROCEDURE), ("call", CALL), ("while", WHILE), ("if", IF), ("load", LOAD), ("store", STORE), ("site", SITE)]
    narrow = sum(part.bits < all_bits(part.code) for part in recipe.fields)
    parts = [counted(str(narrow), "narrow field")] if narrow else []
    return ", ".join(parts + [counted(str(kinds.count(kind)), word) for word, kind in named if kind in kinds])


def recipe_told(case):
    data = case.content("recipe")
    where = place(lambda: Recipe.from_bytes(data))
    if where or case.derive in [f"refused {n}" for n in (*range(2, 9), 16)]:
        return told(case.derive, where)
    parts = shape(Recipe.from_bytes(data))
    return f"{case.derive}: {parts}" if parts else case.derive


def sheet_place(case, fields):
    return place(lambda: readings_of(case.content("sheet"), fields))


def gate_place(one):
    """Where the condition or the sheet of a case beside the vectors is wrong."""
    if one.answer == "refused 12":
        return place(lambda: Condition.from_bytes(one.condition))
    if one.answer != "refused 13":
        return ""
    return place(lambda: readings_of(one.sheet, Condition.from_bytes(one.condition).fields))


def verdict_told(case, kind, answer):
    """The gate's answer on a condition of the case, with the place of a refusal."""
    if answer == "refused 12":
        return told(answer, place(lambda: Condition.from_bytes(case.content(kind))))
    if not answer.startswith("refused"):
        return answer
    condition = Condition.from_bytes(case.content(kind))
    if answer == "refused 13":
        return told(answer, sheet_place(case, condition.fields))
    names = [part.name for part in condition.fields]
    return told(answer, condition.refusal(readings_of(case.content("sheet"), condition.fields), names).place)


def run_told(case):
    if case.run == "refused 13":
        return told(case.run, sheet_place(case, Recipe.from_bytes(case.content("recipe")).fields))
    if case.run.startswith("refused"):
        return "the same" if case.run == case.derive else case.run
    _, end, _, steps, _, records = case.run.split()
    marked = sum(case.content("log")[2::12])
    marks = f", {marked} marked" if marked else ""
    room = counted(case.room, "byte")
    return f"end {end}, {ENDS[int(end)]}: {counted(steps, 'step')}, {counted(records, 'record')}{marks}, {room} of log"


def counted(number, word):
    return f"{number} {word}" if number == "1" else f"{number} {word}s"


def old_told(answer, old, new):
    """What becomes of an old recipe."""
    if answer.startswith("refused"):
        return told(answer, refusal(old, OLD).place)
    return f"{counted(str(len(old)), 'byte')} become {len(new)}"


def convert_told(case):
    return old_told(case.convert, case.content("old"), b"" if case.convert else case.content("converted"))


def row(case):
    cells = [case.number, recipe_told(case), verdict_told(case, "condition", case.made_up)]
    cells += [verdict_told(case, "derived", case.derived), run_told(case), convert_told(case)]
    return "| " + " | ".join(cell.replace("|", "\\|") for cell in cells) + " |\n"


def sets_told(outside):
    """Which cases are of which set."""
    parts = []
    for name, of_set in groupby(outside, lambda case: case.set):
        first, *_, last = of_set
        there = f", there {first.own} to {last.own}" if first.own != first.number else ""
        parts.append(f"{first.number} to {last.number} are of the set `{name}`{there}")
    return "; ".join(parts) + "."


def worked_told(one):
    """What a case of analysis and run is there for, with its answers, and with the place of a refusal."""
    derive = one.listing()[0]
    if derive.startswith("refused"):
        return f"{one.what}: {told(derive, place(lambda: Recipe.from_bytes(one.recipe)))}"
    return f"{one.what}: {derive}, {one.run}"


def beside_told():
    """The rows of the cases beside the vectors."""
    rows = [("filtering", number, f"{one.what}: {told(one.answer, gate_place(one))}") for number, one in gate_cases()]
    rows += [("running", number, one.what) for number, one in run_cases()]
    rows += [("analysing, running", number, worked_told(one)) for number, one in worked_cases()]
    rows += [("converting", number, f"{one.what}: {old_told(one.answer, one.old, one.new)}") for number, one in converting_cases()]
    return "".join(f"| {part} | {number} | {what} |\n" for part, number, what in rows)


def table():
    """The whole of CASES.md."""
    outside = cases()
    numbers = {"last": outside[-1].number, "filter": gate_cases()[-1][0], "first_run": run_cases()[0][0]}
    numbers.update(first_calling=calling_cases()[0][0], narrowing=narrowing_cases()[-1][0])
    numbers.update(first_converting=converting_cases()[0][0], converting=converting_cases()[-1][0])
    head = HEAD % {"beside": beside_told(), "sets": sets_told(outside), **numbers}
    return head + "".join(row(case) for case in outside)


if __name__ == "__main__":
    with open(os.path.join(ROOT, "cases", "CASES.md"), "w", encoding="utf-8") as out:
        out.write(table())
