"""Procedures: their text and back, each mistake of a line, each cause of 16 in a file, and why a call is refused."""

import os
import struct
import unittest

from support import SAMPLES, Folder, cases, gate, refusal

from survey_gate import Mistakes, Recipe, Refused, Sheet, check, derive, run
from survey_gate.library import load as library
from survey_gate.procedures import measured
from survey_gate.statements import Kind, Statement, opened

END = Statement(Kind.END)
DOUBLES = "proc doubled(x u32) -> y u32\n    y = x + x\nend\n"


def procedure(parameters, first, count):
    return Statement(Kind.PROCEDURE, parameters, first, count)


def call(target, number, *given):
    return Statement(Kind.CALL, target, number, 0, int.from_bytes(bytes(given), "little"))


def file(statements, variables=b"\2\2\2\2\2\2\2\2\0"):
    """The file of statements over eight variables of u32 and one of u8."""
    table = struct.pack("<8I", 32, 0, 32, len(variables), 32 + len(variables), 0, 32 + len(variables), 8 * len(statements))
    return table + variables + b"".join(struct.pack("<BBBBI", *statement) for statement in statements)


class Texts(unittest.TestCase):
    def back(self, text):
        """The recipe of a text, whose file reads back to a text of the same file."""
        recipe = Recipe.from_text(text)
        again = Recipe.from_bytes(recipe.to_bytes())
        self.assertEqual(Recipe.from_text(again.to_text()).to_bytes(), recipe.to_bytes())
        return recipe

    def test_own_variables_in_their_order(self):
        recipe = self.back(
            "var a u32\nproc p(x u32, y u8) part u16, rest u32 -> out i8\nend\nvar b i8\nvar c u8\nb = call p(a, c)\n"
        )
        self.assertEqual([part.name for part in recipe.variables], ["a", "x", "y", "part", "rest", "out", "b", "c"])
        self.assertEqual(recipe.statements, [procedure(2, 1, 5), END, call(6, 0, 0, 7)])
        self.assertEqual(recipe.lines, [2, 3, 6])

    def test_the_result_may_be_the_last_before_the_arrow(self):
        for opening, statement in (
            ("proc p() -> r u32", procedure(0, 0, 1)),
            ("proc p(x u32) -> x", procedure(1, 0, 1)),
            ("proc p(w u8, x u32) -> x", procedure(2, 0, 2)),
            ("proc p(w u8) x u32 -> x", procedure(1, 0, 2)),
            ("proc p(w u8) x u32 -> y u32", procedure(1, 0, 3)),
        ):
            self.assertEqual(self.back(opening + "\nend\n").statements[0], statement, opening)

    def test_own_variables_that_are_declared_above(self):
        recipe = self.back("var x u8\nvar y u8\nvar z u8\nvar w u8\nproc p(z) -> z\nend\nproc q(x) -> y\nend\nw = call q(w)\n")
        self.assertEqual(recipe.statements[:4], [procedure(1, 2, 1), END, procedure(1, 0, 2), END])
        shown = Recipe.from_bytes(recipe.to_bytes()).to_text()
        self.assertIn("proc p0(v2 u8) -> v2\n", shown)
        self.assertIn("proc p1(v0) -> v1\n", shown)

    def test_stored_recipes_have_procedures(self):
        with_calls = 0
        for case in cases():
            try:
                recipe = Recipe.from_bytes(case.content("recipe"))
            except Refused:
                continue
            with_calls += any(statement.kind == Kind.CALL for statement in recipe.statements)
        self.assertGreater(with_calls, 20)

    def test_calls_in_calls_and_blocks(self):
        recipe = self.back(DOUBLES + "proc p(a u32) -> b u32\nwhile a\nb = call doubled(a)\nend\nend\nvar c u32\nc = call p(c)\nsite c\n")
        lines = ["proc p(a u32) -> b u32", "    while a", "        b = call doubled(a)", "    end", "end"]
        self.assertEqual(recipe.to_text().splitlines()[3:8], lines)


class Mistaken(unittest.TestCase):
    HEAD = "field f u32\nvar a u32\nvar k u8\n" + DOUBLES
    FIRST = HEAD.count("\n") + 1

    def told(self, text):
        with self.assertRaises(Mistakes) as raised:
            Recipe.from_text(text, "R")
        return raised.exception.lines()

    def wrong(self, lines, *told):
        """The lines after the declarations have these mistakes and no others."""
        found = self.told(self.HEAD + lines)
        self.assertEqual(len(found), len(told), found)
        for line, (place, part) in zip(found, told):
            self.assertTrue(line.startswith(f"R:{self.FIRST + place}: "), line)
            self.assertIn(part, line)

    def test_openings(self):
        self.wrong("proc p\nend\n", (0, "p has no parentheses; the parameters stand in them, or nothing, as `proc p() -> result u32`"))
        self.wrong("proc p(x2 u32)\nend\n", (0, "p has no result; name it behind `->`, as `-> result u32`"))
        self.wrong("proc (x2 u32)\nend\n", (0, "this procedure has no name; write `proc NAME(x u32, y u32) part u32 -> result u32`"))
        self.wrong("def p(x2):\nend\n", (0, "'def' opens no procedure"))
        self.wrong("proc p(q u33) -> r u32\nend\n", (0, "'u33' is no type"))
        self.wrong("proc p(q) -> r u32\nend\n", (0, "'q' has no type; say which, as `q u32`"))
        self.wrong("proc p(q u32,) -> r u32\nend\n", (0, "'' is no own variable; write each as `NAME TYPE`"))
        self.wrong("proc p(q u32 r u32) -> s u32\nend\n", (0, "'q u32 r u32' is no own variable"))
        self.wrong("proc p(b u8, c u8, d u8, e u8, g u8) -> h u8\nend\n", (0, "p has 5 parameters; a procedure has at most 4"))
        self.wrong("proc doubled() -> r u32\nend\n", (0, "'doubled' is declared already in line 4"))
        self.wrong("proc site() -> r u32\nend\n", (0, "'site' is a word of the language"))
        self.wrong("proc p() -> r u32\n", (0, "this proc has no end; write an end below its lines"))

    def test_places(self):
        late = "procedures come before all other statements"
        self.wrong("a = 1\nproc p() -> r u32\nend\n", (1, f"this procedure stands below line {self.FIRST}; {late}"))
        self.wrong("if a\nproc p() -> r u32\nend\nelse\nend\n", (1, f"this procedure stands inside the if of line {self.FIRST}; {late}"))
        nested = f"this procedure stands inside p; close the one of line {self.FIRST} above it"
        self.wrong("proc p() -> r u32\nproc q() -> s u32\nend\nend\n", (1, nested))

    def test_whose_variables(self):
        told = f"'a' is no own variable of p; name it in line {self.FIRST} to have it, as a parameter or before `->`"
        self.wrong("proc p() -> r u32\nr = a\nend\n", (1, told))
        self.wrong("proc p() -> r u32\nr = y\nend\n", (1, "'y' is no own variable of p"))
        self.wrong("proc p() -> r u32\nwhile k\nend\nend\n", (1, "'k' is no own variable of p"))
        self.wrong("site y\n", (0, "'y' is an own variable of doubled; declare another for the lines outside, and hand values over by calls"))
        self.wrong("a = call doubled(x)\n", (0, "'x' is an own variable of doubled"))
        self.wrong("proc p(y) -> r u32\nend\n", (0, "'y' is an own variable of doubled; procedures share none: declare another"))
        self.wrong("proc p(a) -> r u32\nend\n", (0, "the own variables of p do not follow each other; declare them in this line, each with its type"))
        told = f"'s' is declared inside p; its own variables are declared in line {self.FIRST}: write `s u32` before `->`"
        self.wrong("proc p() -> r u32\nvar s u32\nr = s\nend\n", (1, told))

    def test_calls(self):
        self.wrong("a = call doubled()\n", (0, "this call has no arguments, and doubled has 1 parameter; give a variable for each of them: x"))
        self.wrong("a = call doubled(a, a)\n", (0, "this call has 2 arguments, and doubled has 1 parameter"))
        self.wrong("a = call doubled(k)\n", (0, "types differ: x is u32, k is u8; convert first", ))
        told = "types differ: k is u8, y is u32; call into a variable of y's type, as `y = call doubled(...)`, then `k = to y`"
        self.wrong("k = call doubled(a)\n", (0, told))
        self.wrong("a = call doubled(5)\n", (0, "the number '5' stands as an argument; give it a variable, as `n = 5`, then `a = call doubled(n)`"))
        self.wrong("a = call doubled(a + a)\n", (0, "the argument 'a + a' is more than a variable"))
        self.wrong("a = call doubled(call doubled(a))\n", (0, "has more than one operation"))
        self.wrong("a = call doubled(a) + a\n", (0, "has more than a call"))
        self.wrong("a = call doubled\n", (0, "has no parentheses"))
        self.wrong("a = call double(a)\n", (0, "'double' is not declared; did you mean 'doubled'?"))
        self.wrong("a = call later(a)\n", (0, "'later' is not declared; declare it above, as `proc later(x u32) -> y u32`"))
        self.wrong("a = call f(a)\n", (0, "'f' is a field, and a procedure is wanted"))
        self.wrong("a = doubled\n", (0, "'doubled' is a procedure, and a variable is wanted; it is called, as `x = call doubled(...)`"))
        self.wrong("a = doubled(a)\n", (0, "a procedure is called as `a = call doubled(a)`"))
        self.wrong("call doubled(a)\n", (0, "sets nothing; write where the result goes, as `x = call doubled(...)`"))
        self.wrong("return a\n", (0, "set the variable behind `->`"))
        self.wrong("proc p(c u32) -> d u32\nd = call p(c)\nend\n", (1, "p calls itself; a procedure calls those that stand above it"))

    def test_one_mistake_is_told_once(self):
        self.wrong("proc p(q u32) s u33 -> r u32\nr = q\nr = s\nr = a\nend\na = call p(a)\na = call p()\n", (0, "'u33' is no type"))
        self.wrong("var z u33\nproc p(z) -> z\nz = a\nend\na = call p(a)\na = call p()\n", (0, "'u33' is no type"))
        self.wrong("proc p(q u32) r u32\nr = q\nif q\nelse\nend\nend\na = call p(a)\n", (0, "p has no result"))

    def test_too_long_and_too_deep(self):
        doubling = "proc p0() -> r0 u8\nend\n" + "".join(
            f"proc p{n}() -> r{n} u8\nr{n} = call p{n - 1}()\nr{n} = call p{n - 1}()\nend\n" for n in range(1, 40)
        )
        line = doubling.count("\n") + 2
        self.assertEqual(Recipe.from_text(doubling + "var a u8\na = call p12()\n").warnings[0].line, 0)
        told = "with each call written out the recipe has 32,766 statements; at most 16,384 are allowed"
        self.assertEqual(self.told(doubling + "var a u8\na = call p13()\n"), [f"R:{line}: {told}"])
        told = "with each call written out the recipe has 2,199,023,255,550 statements; at most 16,384 are allowed"
        self.assertEqual(self.told(doubling + "var a u8\na = call p39()\n"), [f"R:{line}: {told}"])
        deep = "proc p(n u8) -> n\nwhile n\nwhile n\nend\nend\nend\nvar a u8\nwhile a\nwhile a\nwhile a\na = call p(a)\nend\nend\nend\n"
        self.assertEqual(self.told(deep), ["R:11: with each call written out blocks nest 5 deep; at most 4 are allowed"])

    def test_warnings(self):
        recipe = Recipe.from_text("proc p(n u8) -> m u8\nsite n\nend\nvar a u8\na = 1\n")
        told = [warning.told("R", "warning: ") for warning in recipe.warnings]
        self.assertEqual(len(told), 3)
        self.assertIn("R: warning: every site stands in a procedure that is never called, so every sheet passes", told[0])
        self.assertIn("R:1: warning: p is never called, so nothing of it is run; call it, as `x = call p(...)`", told[1])
        self.assertIn("R:1: warning: m is never set, so it is 0 throughout", told[2])
        self.assertEqual(Recipe.from_text("proc p(n u8) -> n\nsite n\nend\nvar a u8\na = call p(a)\n").warnings, [])


class Files(unittest.TestCase):
    DOUBLES = [procedure(1, 4, 2), Statement(Kind.ADD, 5, 4, 4), END]
    SIXTEENS = [
        ([Statement(Kind.NUMBER, 0), *DOUBLES], "the procedure at label 1 stands below label 0, and procedures come before all other statements"),
        ([procedure(1, 4, 2), procedure(1, 6, 2), END, END], "the procedure at label 1 stands inside the procedure that label 0 opens"),
        ([Statement(Kind.WHILE, 0), *DOUBLES, END], "the procedure at label 1 stands inside the while that label 0 opens"),
        ([procedure(1, 4, 2), Statement(Kind.COPY, 5, 0), END], "label 1 (v5 = v0): v0 is no own variable of p0 (label 0)"),
        ([*DOUBLES, procedure(1, 5, 2), END], "p0 (label 0) and p1 (label 3) share v5"),
        ([*DOUBLES, Statement(Kind.SITE, 5)], "label 3 (site v5): v5 is an own variable of p0 (label 0)"),
        ([*DOUBLES, call(0, 0, 4)], "label 3 (v0 = call p0(v4)): v4 is an own variable of p0 (label 0)"),
        ([procedure(0, 4, 0), END], "p0 (label 0) has no own variables, and its result is one"),
        ([procedure(3, 4, 2), END], "p0 (label 0) has 2 own variables, and 3 parameters"),
        ([procedure(1, 4, 2), call(5, 0, 4), END], "label 1 (v5 = call p0(v4)): p0 calls itself"),
        ([procedure(1, 4, 2), call(5, 1, 4), END, procedure(1, 6, 2), END], "label 1 (v5 = call p1(v4)): p0 calls p1, which stands later"),
        (
            [procedure(0, 4, 1), *[Statement(Kind.NUMBER, 4)] * 127, END, *[call(0, 0)] * 128],
            "label 256 (v0 = call p0()): with each call written out the recipe has 16,512 statements, and at most 16,384 are allowed",
        ),
        (
            [procedure(0, 4, 1), *[Statement(Kind.WHILE, 4)] * 3, *[END] * 4, *[Statement(Kind.WHILE, 0)] * 2, call(0, 0), END, END],
            "label 10 (v0 = call p0()): with each call written out blocks nest 5 deep, and at most 4 are allowed",
        ),
    ]

    def refused(self, statements):
        with self.assertRaises(Refused) as raised:
            Recipe.from_bytes(file(statements))
        return raised.exception.number, raised.exception.place

    def test_each_cause_of_16_is_named(self):
        for statements, place in self.SIXTEENS:
            self.assertEqual(self.refused(statements), (16, place))
            self.assertEqual(library().refusal(file(statements)), 16, place)
            self.assertEqual(self.refused([*statements, END])[0], 8, place)
            self.assertEqual(library().refusal(file([*statements, END])), 8, place)

    def test_5_6_and_8_name_the_entry(self):
        doubles = self.DOUBLES
        for statements, number, place in (
            ([procedure(5, 0, 5), END], 5, "label 0, kind 15: a is 5 parameters, and a procedure has at most 4"),
            ([procedure(1, 8, 2), END], 5, "label 0, kind 15: 2 own variables from 8 on, and there are 9 variables"),
            ([Statement(15, 1, 4, 2, 1), END], 5, "label 0, kind 15: it has an immediate, and this kind does not use it"),
            ([*doubles, call(0, 1, 1)], 5, "label 3, kind 16: b is procedure 1, and there are 1"),
            ([*doubles, call(9, 0, 1)], 5, "label 3, kind 16: a is variable 9, and there are 9"),
            ([*doubles, Statement(16, 0, 0, 1)], 5, "label 3, kind 16: c is 1, and this kind does not use it"),
            ([*doubles, call(0, 0, 9)], 5, "label 3, kind 16: argument 0 is variable 9, and there are 9"),
            ([*doubles, call(0, 0, 1, 2)], 5, "label 3, kind 16: argument 1 is 2, and procedure 0 has 1 parameters"),
            ([Statement(17)], 5, "label 0 has kind 17, and the highest is 16"),
            ([*doubles, call(0, 0, 8)], 6, "label 3 (v0 = call p0(v8)): v8 is u8, v4 is u32"),
            ([*doubles, call(8, 0, 1)], 6, "label 3 (v8 = call p0(v1)): v8 is u8, v5 is u32"),
            ([procedure(0, 4, 1)], 8, "the procedure that label 0 opens has no end"),
            ([procedure(0, 4, 1), Statement(Kind.ELSE), END], 8, "the else at label 1 belongs to no if"),
        ):
            self.assertEqual(self.refused(statements), (number, place))
            self.assertEqual(library().refusal(file(statements)), number, place)

    def test_the_command_tells_them(self):
        folder = Folder(self)
        statements, place = self.SIXTEENS[5]
        recipe, sheet = folder.put("r.recipe", file(statements)), folder.put("s.csv", "")
        meaning = "refused 16: a procedure is wrong, or the calls written out are too long or too deep"
        self.assertEqual(gate("check", recipe, sheet), (2, f"{recipe}: {meaning}: {place}\n{sheet}: {meaning}: in the recipe\n", ""))

    def test_lengths_at_the_limit(self):
        body = [procedure(0, 4, 1), *[Statement(Kind.NUMBER, 4)] * 126, END]
        most = [*body, *[call(0, 0)] * 128]
        self.assertIsNone(measured(most, opened(most)))
        self.assertEqual(measured([*most, Statement(Kind.NUMBER, 0)], opened(most)).label, 256)


class Answers(unittest.TestCase):
    def test_the_sample(self):
        recipe = Recipe.read(os.path.join(SAMPLES, "resample.txt"))
        sheet = Sheet.read(os.path.join(SAMPLES, "resample.csv"), recipe)
        ran = run(recipe, sheet, choices=[0] * 5)
        self.assertEqual((ran.end, ran.steps, [record.label for record in ran.records]), (0, 15, [3, 3, 13]))
        self.assertFalse(check(recipe, Sheet.read(os.path.join(SAMPLES, "resample-held.csv"), recipe)).passed)

    def test_why_refused_looks_into_procedures(self):
        text = (
            "proc plus(x u32) one u32 -> y u32\none = 1\ny = x + one\nend\n"
            "field f u32\nvar n u32\nvar s u32\nn = read f\nwhile n\ns = call plus(s)\nend\nsite s\n"
        )
        with self.assertRaises(Refused) as raised:
            derive(Recipe.from_text(text))
        self.assertEqual((raised.exception.number, raised.exception.place), (11, "site s (line 12) is accepted without line 3 (y = x + one)"))

    def test_stored_refusals_16_have_a_place(self):
        places = set()
        for case in cases():
            if refusal(case.derive) == 16:
                with self.assertRaises(Refused) as raised:
                    Recipe.from_bytes(case.content("recipe"))
                self.assertEqual(raised.exception.number, 16, case)
                places.add(raised.exception.place)
        self.assertGreater(len(places), 4)


class Mends(unittest.TestCase):
    """The mends of 16, as REFUSALS.md names them."""

    def answer(self, statements):
        return library().refusal(file(statements))

    def test_places_and_values(self):
        late = [Statement(Kind.NUMBER, 0), *Files.DOUBLES]
        self.assertEqual((self.answer(late), self.answer(late[1:] + late[:1])), (16, 0))
        taking = [procedure(1, 4, 2), Statement(Kind.ADD, 5, 4, 0), END, call(1, 0, 1)]
        handed = [procedure(2, 4, 3), Statement(Kind.ADD, 6, 4, 5), END, call(1, 0, 1, 0)]
        self.assertEqual((self.answer(taking), self.answer(handed)), (16, 0))

    def test_length_and_depth(self):
        body, fewer = [procedure(0, 4, 4), *[Statement(Kind.NUMBER, 4)] * 120, END], [procedure(0, 4, 1), *[Statement(Kind.NUMBER, 4)] * 120, END]
        calls, loop = [call(0, 0)] * 132, [Statement(Kind.WHILE, 0), call(0, 0), END]
        self.assertEqual([self.answer(file) for file in (body + calls, fewer + calls, body + loop)], [16, 0, 0])
        inner = [Statement(Kind.WHILE, 4)] * 3 + [END] * 3
        loops, ends, deep = [Statement(Kind.WHILE, 0)] * 2, [END] * 2, [procedure(0, 4, 1), *inner, END]
        self.assertEqual(self.answer(deep + loops + [call(0, 0)] + ends), 16)
        self.assertEqual(self.answer(deep + loops + ends + [call(0, 0)]), 0)


if __name__ == "__main__":
    unittest.main()
