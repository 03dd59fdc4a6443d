"""Why refused: the site and a smallest set of statements, tried at the gate; places of 12 to 15."""

import itertools
import os
import struct
import unittest

from support import SAMPLES, Folder, cases, gate, refusal

from survey_gate import Condition, Recipe, Refused, Sheet, Trouble, check, derive, run
from survey_gate.commands import _agreed
from survey_gate.gate import placed
from survey_gate.library import load
from survey_gate.statements import Kind
from survey_gate.why_refused import reaching, why_refused


def sites_of(recipe):
    return [label for label, statement in enumerate(recipe.statements) if statement.kind == Kind.SITE]


class Causes(unittest.TestCase):
    def test_stored_recipes_are_accepted_without_what_is_named(self):
        seen = set()
        for case in cases():
            number = refusal(case.derive)
            if number not in (9, 10, 11):
                continue
            recipe = Recipe.from_bytes(case.content("recipe"))
            causes = why_refused(recipe, load())
            self.assertTrue(causes, case)
            for cause in causes:
                others = set(sites_of(recipe)) - {cause.site} if not cause.together else {
                    site for site in sites_of(recipe) if site > cause.site
                }
                self.assertTrue(load().refusal(recipe.without(others)), case)
                self.assertFalse(load().refusal(recipe.without(others.union(cause.labels))), case)
                self.no_smaller(recipe, others, cause, case)
            seen.add(number)
        self.assertEqual(seen, {9, 10, 11})

    def no_smaller(self, recipe, others, cause, case):
        """No smaller set of any statements but blocks serves."""
        labels = [k for k, s in enumerate(recipe.statements) if s.kind <= Kind.SITE and k != cause.site and k not in others]
        for size in range(1, len(cause.labels)):
            for left_out in itertools.combinations(labels, size):
                self.assertTrue(load().refusal(recipe.without(others.union(left_out))), (case, left_out))

    def told(self, text):
        with self.assertRaises(Refused) as raised:
            derive(Recipe.from_text(text))
        return raised.exception

    def test_11_names_the_line_that_counts(self):
        refused = self.told(
            "var n u8\nvar x u32\nvar y u32\nvar one u32\none = 1\nn = 5\nwhile n\ny = x * one\nsite y\nx = x + one\nend\n"
        )
        self.assertEqual((refused.number, refused.place), (11, "site y (line 9) is accepted without line 10 (x = x + one)"))

    def test_11_with_two_ways(self):
        refused = self.told(
            "var n u8\nvar x u32\nvar y u32\nvar one u32\nvar z u32\none = 1\nn = 5\nwhile n\nx = x + one\ny = y + one\nend\n"
            "z = x\nsite z\nz = y\nsite z\nz = x + y\nz = z + one\nz = x\nsite z\n"
        )
        self.assertIn("site z (line 13) is accepted without line 9 (x = x + one)", refused.place)
        self.assertIn("site z (line 15) is accepted without line 10 (y = y + one)", refused.place)
        self.assertIn("3 sites are refused in all", refused.place)

    def test_a_set_of_two(self):
        refused = self.told(
            "field f u8\nvar n u8\nvar x u32\nvar y u32\nvar z u32\nvar one u32\nvar t u32\none = 1\nn = read f\n"
            "while n\nx = x + one\ny = y + one\nend\nif n\nz = x\nelse\nz = y\nend\nt = z\nt = z + t\nif n\nt = x\nelse\nt = y\nend\nsite t\n"
        )
        self.assertEqual(refused.place, "site t (line 26) is accepted without lines 11 and 12")

    def test_9_and_10(self):
        doubling = "field f u64\nvar x u64\nx = read f\n" + "x = x + x\n" * 7 + "site x\n"
        refused = self.told(doubling)
        self.assertEqual((refused.number, refused.place), (9, "site x (line 11) is accepted without lines 4 and 5"))
        many = "field f u8\nvar a u8\nvar i u8\nvar s u8\ntray t u8 8\n" + "a = read f\nt[i] = a\n" + "".join(
            "a = t[i]\ns = s + a\n" for _ in range(7)
        )
        refused = self.told(many + "site s\n")
        self.assertEqual(refused.number, 10)
        self.assertIn("is accepted without line ", refused.place)

    def test_10_by_the_sites_together(self):
        lines = "".join(f"c = {k}\na = read f\na = a + c\nsite a\n" for k in range(66))
        refused = self.told("field f u8\nvar a u8\nvar c u8\n" + lines)
        self.assertEqual(refused.number, 10)
        self.assertIn("site a (line 263) with the sites before it is accepted without", refused.place)

    def test_what_is_left_may_be_refused_still(self):
        lines = "".join(f"c = {k}\na = read f\na = a + c\nsite a\n" for k in range(100))
        refused = self.told("field f u8\nvar a u8\nvar c u8\n" + lines)
        self.assertTrue(refused.place.endswith("; what is then left of the recipe is refused with 10"), refused.place)

    def test_a_search_that_is_too_long_says_so(self):
        text = "field f u64\nvar x u64\nvar y u64\nx = read f\n" + "y = read f\nx = x + y\n" * 80 + "site x\n"
        recipe = Recipe.from_text(text)
        (cause,) = why_refused(recipe, load(), seconds=0.3)
        self.assertFalse(cause.smallest)
        self.assertFalse(load().refusal(recipe.without(cause.labels)))
        self.assertRegex(cause.told(recipe), r"without lines (\d+, ){9}\d+ and \d+ more, and fewer might do$")

    def test_only_statements_that_reach_the_site_are_tried(self):
        recipe = Recipe.from_text("field f u8\nvar a u8\nvar b u8\na = read f\nb = a\nsite a\n")
        self.assertEqual(reaching(recipe.statements, [], [2]), [0])

    def test_a_recipes_file_is_told_by_labels(self):
        recipe = Recipe.from_bytes(Recipe.read(os.path.join(SAMPLES, "loop.txt")).to_bytes())
        with self.assertRaises(Refused) as raised:
            derive(recipe)
        self.assertEqual(raised.exception.place, "site v1 (label 4) is accepted without label 2 (v1 = v1 + v2)")


class Places(unittest.TestCase):
    RECIPE = "field f u8\nvar a u8\nvar b u8\nvar c u8\na = read f\nb = read f\nc = read f\na = a * b\na = a * c\nsite a\n"

    def test_14_names_the_conjunct(self):
        recipe = Recipe.from_text(self.RECIPE)
        sheet = Sheet.from_csv("f\n" + "0\n" * 128, recipe)
        with self.assertRaises(Refused) as raised:
            check(recipe, sheet)
        place = "conjunct 0 reads f 3 times (of 128): 2,097,152 combinations"
        self.assertEqual((raised.exception.number, raised.exception.place), (14, place))

    def test_14_with_more_than_can_be_counted(self):
        recipe = Recipe.from_text("field f u8\nfield g u8\nvar a u8\nvar b u8\n" + "b = read f\na = a + b\n" * 20 + "b = read g\na = a + b\nsite a\n")
        with self.assertRaises(Refused) as raised:
            check(recipe, Sheet(recipe.types, [[1] * 128, [1]]))
        place = "conjunct 0 reads f 20 times (of 128), g once (of 1): over 10^42 combinations"
        self.assertEqual((raised.exception.number, raised.exception.place), (14, place))

    def test_15_names_the_fields(self):
        recipe = Recipe.from_text("field f u8\nfield g u8\nvar a u8\nvar b u8\na = read f\nb = read g\na = a * b\nsite a\n")
        for columns, place in (
            ([[], [1]], "the field f is blank, and conjunct 0 reads f"),
            ([[], []], "the field f is blank, and conjunct 0 reads f; the field g is blank, and conjunct 0 reads g"),
        ):
            for call in (check, run):
                with self.assertRaises(Refused) as raised:
                    call(recipe, Sheet(recipe.types, columns))
                self.assertEqual((raised.exception.number, raised.exception.place), (15, place))

    def test_13_names_the_field(self):
        folder = Folder(self)
        recipe = folder.put("r.txt", self.RECIPE)
        good = Sheet.from_csv("f\n1\n", Recipe.read(recipe)).to_bytes()
        for data, place in (
            (good + b"\0", "the readings end at byte 9, and the file at 10"),
            (good[:4] + b"\x02\0\0\0" + good[8:], "f's readings end at byte 10, and the file at 9"),
            (bytes([16, 0, 0, 0, 1, 0, 0, 0, 17, 0, 0, 0, 0, 0, 0, 0, 5]), "f's readings start at byte 16 by the table, and at 8"),
        ):
            status, out, _ = gate("check", recipe, folder.put("s.sheet", data))
            self.assertEqual(status, 2)
            self.assertIn(f"refused 13: the sheet is damaged, has a reading beyond its bits, or belongs to another recipe: {place}", out)
        for data, place in (
            (b"\x09" + good[1:], "f's readings start at byte 9 by the table, and at 8 by what is before"),
            (good[:5], "f's readings are to start at byte 8, behind the table, and the file ends at 5"),
        ):
            path = folder.put("s.sheet", data)
            status, out, err = gate("check", recipe, path)
            self.assertEqual((status, out), (3, ""))
            self.assertEqual(err, f"{path}: no table of readings, for its zero bytes, and no sheet's file: {place}\n")

    def test_13_names_the_first_field_whose_pair_is_wrong(self):
        folder = Folder(self)
        recipe = folder.put("r.txt", "field f u8\nfield g u8\nfield h u8\nvar a u8\na = read f\nsite a\n")
        for pairs, place in (
            ([(24, 1), (25, 200), (9, 0)], "g has 200 readings, and a field has at most 128"),
            ([(24, 1), (25, 100), (9, 0)], "g's readings end at byte 125, and the file at 26"),
            ([(24, 1), (26, 0), (25, 1)], "g's readings start at byte 26 by the table, and at 25 by what is before"),
            ([(24, 1), (25, 0), (25, 2)], "h's readings end at byte 27, and the file at 26"),
            ([(24, 1), (25, 0)], "f's readings are to start at byte 24, behind the table, and the file ends at 18"),
        ):
            data = b"".join(struct.pack("<II", *pair) for pair in pairs) + b"\7\7"
            status, out, _ = gate("check", recipe, folder.put("s.sheet", data))
            self.assertEqual(status, 2)
            self.assertIn(f"refused 13: the sheet is damaged, has a reading beyond its bits, or belongs to another recipe: {place}", out)

    def test_12_names_the_place_and_a_condition_is_held_to_its_recipe(self):
        folder = Folder(self)
        recipe = folder.put("r.txt", self.RECIPE)
        sheet = folder.put("s.csv", "f\n1\n")
        data = Condition.of(Recipe.read(recipe)).data
        good, cut = folder.put("good", data), folder.put("cut", data[:-1])
        other = folder.put("other", Condition.of(Recipe.read(os.path.join(SAMPLES, "block.txt"))).data)
        self.assertEqual(gate("check", "--condition", good, recipe, sheet), (0, f"{sheet}: pass\n", ""))
        status, out, _ = gate("check", "--condition", cut, recipe, sheet)
        self.assertEqual(status, 2)
        self.assertIn(f"{cut}: refused 12: the condition is damaged, or is no condition: the table's entry for conjunct 0", out)
        self.assertIn(f"{sheet}: refused 12", out)
        status, out, err = gate("check", "--condition", other, recipe, sheet)
        self.assertEqual((status, out), (3, ""))
        self.assertEqual(err, f"{other}: not the condition of {recipe}; derive it again\n")

    def test_2_to_8_name_the_entry(self):
        folder = Folder(self)
        sheet = folder.put("s.csv", "f\n1\n")
        for case in cases():
            number = refusal(case.derive)
            if 2 <= number <= 8 and case.content("recipe")[:4] == b"\x20\0\0\0":
                recipe = folder.put("r.recipe", case.content("recipe"))
                status, out, err = gate("check", recipe, sheet)
                self.assertEqual((status, err), (2, ""))
                first, second = out.splitlines()
                self.assertRegex(first, rf"^{recipe}: refused {number}: [^:]+: .+")
                self.assertTrue(second.startswith(f"{sheet}: refused {number}: "))


class Disagreement(unittest.TestCase):
    def test_a_refusal_that_is_not_the_gates_is_trouble(self):
        refused = Refused(5, "label 0")
        self.assertIs(_agreed("r", refused, 5), refused)
        trouble = _agreed("r", refused, 6)
        self.assertIsInstance(trouble, Trouble)
        self.assertIn("r: refused 5: a statement's kind, operand or unused byte is wrong: label 0, and the gate answers 6", str(trouble))

    def test_a_place_of_another_refusal_is_trouble(self):
        recipe = Recipe.from_text(Places.RECIPE)
        condition = derive(recipe)
        blank, many, few = (Sheet(recipe.types, [[1] * readings]) for readings in (0, 128, 1))
        self.assertEqual(placed(Refused(15), recipe, condition, blank).number, 15)
        self.assertEqual(placed(Refused(14), recipe, condition, many).number, 14)
        for number, sheet, part in (
            (14, blank, "the gate answers 14, and by the readings it is refused 15: the field f is blank"),
            (15, many, "the gate answers 15, and by the readings it is refused 14: conjunct 0 reads f 3 times"),
            (15, few, "the gate answers 15, and by the readings it is no refusal: one of the two is wrong"),
        ):
            with self.assertRaises(Trouble) as raised:
                placed(Refused(number), recipe, condition, sheet)
            self.assertIn(part, str(raised.exception))

    def test_stored_conditions_are_refused_alike(self):
        for case in cases():
            if case.made_up == "refused 12":
                self.assertEqual(load().answer(lambda library: library.check(case.content("condition"), b"")), 12, case)


if __name__ == "__main__":
    unittest.main()
