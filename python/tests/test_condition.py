"""Conditions: derived as stored, listed as stored, refused with 12, 14 and 15 at a place; in infix by the author's names."""

import json
import os
import unittest

from support import SAMPLES, cases, gate, refusal

from survey_gate import Condition, Recipe, Refused
from survey_gate.library import load
from survey_gate.sheet import readings_of


class Conditions(unittest.TestCase):
    def test_derived_and_listed_as_stored(self):
        for case in cases():
            number = refusal(case.derive)
            data = case.content("recipe")
            self.assertEqual(load().refusal(data), number, case)
            if not number:
                condition = Condition.of(Recipe.from_bytes(data))
                self.assertEqual(condition.data, case.content("derived"), case)
                self.assertEqual(condition.raw().encode(), case.content("listing"), case)

    def test_refusal_12_is_the_stored_one_and_has_a_place(self):
        for case in cases():
            try:
                Condition.from_bytes(case.content("condition"))
                self.assertNotEqual(case.made_up, "refused 12", case)
            except Refused as refused:
                self.assertEqual((case.made_up, refused.number), ("refused 12", 12), case)
                self.assertTrue(refused.place)

    def test_refusals_14_and_15_are_the_stored_ones_and_have_a_place(self):
        seen = set()
        for case in cases():
            for kind, answer in (("condition", case.made_up), ("derived", case.derived)):
                if answer in ("", "refused 12", "refused 13"):
                    continue
                condition = Condition.from_bytes(case.content(kind))
                names = [part.name for part in condition.fields]
                refused = condition.refusal(readings_of(case.content("sheet"), condition.fields), names)
                self.assertEqual(refused.number if refused else 0, refusal(answer), case)
                self.assertTrue(refused is None or refused.place, case)
                seen.add(refusal(answer))
        self.assertEqual(seen, {0, 14, 15})

    def test_a_conjunct_alone_is_a_condition(self):
        for case in cases():
            if not refusal(case.derive):
                condition = Condition.from_bytes(case.content("derived"))
                for number, conjunct in enumerate(condition.conjuncts):
                    alone = Condition.from_bytes(condition.only(number))
                    self.assertEqual(alone.conjuncts[0].nodes, conjunct.nodes)

    def infix(self, text):
        recipe = Recipe.from_text(text)
        return [part.infix([f.name for f in recipe.fields]) for part in Condition.of(recipe).conjuncts]

    def test_infix(self):
        head = "field f i32\nfield g i32\nvar a i32\nvar b i32\nvar c i32\nvar d i32\nvar w i64\na = read f\nb = read f\nc = read g\n"
        for lines, told in (
            ("d = a - b\nd = d - c\nsite d", "f<1> - f<2> - g"),
            ("d = b - c\nd = a - d\nsite d", "f<1> - (f<2> - g)"),
            ("d = a + c\nd = d * b\nsite d", "(f<1> + g) × f<2>"),
            ("d = a * c\nd = a / d\nsite d", "f / (f × g)"),
            ("d = -5\nd = d * a\nsite d", "(-5) × f"),
            ("w = to a\nsite w", "i64(f)"),
        ):
            self.assertEqual(self.infix(head + lines + "\n"), [told])

    def test_list(self):
        sample = os.path.join(SAMPLES, "block.txt")
        status, out, _ = gate("list", sample)
        self.assertEqual((status, out.splitlines()[:2]), (0, ["conjuncts 3", "0: rate × u32(seconds) × 2"]))
        status, out, _ = gate("list", "--raw", sample)
        self.assertEqual((status, out), (0, Condition.of(Recipe.read(sample)).raw()))
        status, out, _ = gate("list", "--json", sample)
        self.assertEqual(json.loads(out.splitlines()[0])["infix"], "rate × u32(seconds) × 2")
        loop = os.path.join(SAMPLES, "loop.txt")
        self.assertEqual(gate("list", "--raw", loop)[:2], (2, "refused 11\n"))
        self.assertIn("refused 11: a loop makes", gate("list", loop)[1])


if __name__ == "__main__":
    unittest.main()
