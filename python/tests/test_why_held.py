"""Why held: the first failure and its cause, beside an evaluation of every combination in order; agreement with the gate."""

import itertools
import random
import time
import unittest
from unittest import mock

from support import Folder, cases, gate

from survey_gate import Condition, Recipe, Sheet, Trouble, check
from survey_gate.condition import READING, Atom, Conjunct, Node
from survey_gate.library import load
from survey_gate.ranges import CAUSES, NO_DIVISOR, TOO_BIG, TOO_SMALL, cause_of, highest, immediate_value, lowest
from survey_gate.statements import Kind
from survey_gate.why_held import Search, quotient, result, why_held

BLOCK = "field rate u32\nfield seconds u16\nvar r u32\nvar s u16\nvar t u32\nvar two u32\nvar x u32\n" + (
    "r = read rate\ns = read seconds\nt = to s\ntwo = 2\nx = r * t\nx = x * two\nsite x\n"
)


def every_combination(conjunct, columns):
    """The first combination that fails, by trying them all in order; and the cause of its first failing step."""
    for picks in itertools.product(*[range(len(columns[atom.field])) for atom in conjunct.atoms]):
        chosen, values = dict(zip(conjunct.atoms, picks)), []
        for node, left, right in conjunct.steps:
            if node.kind == READING:
                atom = Atom(node.field, node.last)
                values.append(columns[atom.field][chosen[atom]])
            elif node.kind < READING:
                values.append(immediate_value(node.code, node.last))
            else:
                value = result(node.kind, values[left], values[right])
                if cause_of(node.code, value):
                    return list(picks), cause_of(node.code, value)
                values.append(value)
    return None, None


class First(unittest.TestCase):
    def same(self, conjunct, columns, case=""):
        """The cause of the first failure, if there is one; the search must find its readings."""
        picks, cause = every_combination(conjunct, columns)
        self.assertEqual(Search(conjunct, columns, lambda work: None).first(), picks, case)
        return cause

    def test_stored_conditions(self):
        seen = []
        for case in cases():
            if case.derived != "pass" and not case.derived.startswith("held"):
                continue
            recipe = Recipe.from_bytes(case.content("recipe"))
            condition = Condition.from_bytes(case.content("derived"))
            sheet = Sheet.from_bytes(case.content("sheet"), recipe)
            if condition.work(sheet.columns) > 200_000:
                continue
            found = [self.same(conjunct, sheet.columns, case) for conjunct in condition.conjuncts]
            number, cause = next(((k, cause) for k, cause in enumerate(found) if cause), (None, None))
            self.assertEqual(f"held {cause}" if cause else "pass", case.derived, case)
            if cause:
                hold = why_held(recipe, condition, sheet, cause, load())
                self.assertEqual((hold.conjunct, hold.cause), (number, cause), case)
                seen.append(cause)
        self.assertEqual(set(seen), set(CAUSES))
        self.assertGreater(len(seen), 20)

    def test_random_conjuncts(self):
        rng = random.Random(15)
        failing = dict.fromkeys((None, *CAUSES), 0)
        for _ in range(600):
            code = rng.choice([0, 2, 4, 6, 7])
            nodes, last, depth = [], [0, 0], 0
            while depth != 1 or len(nodes) < 9:
                if depth < 2 or (depth < 4 and rng.random() < 0.5):
                    field = rng.randrange(2)
                    n = rng.randint(1, last[field] + 1) if last[field] < 3 else rng.randint(1, 3)
                    last[field] = max(last[field], n)
                    nodes.append(Node(READING, code, field, n) if rng.random() < 0.9 else Node(0, code, 0, 3))
                    depth += 1
                else:
                    nodes.append(Node(rng.choice([2, 3, 4, 5]), code, 0, 0))
                    depth -= 1
            edges = [0, 1, 2, 3, lowest(code), highest(code), highest(code) // 2, highest(code) // 3]
            columns = [[rng.choice(edges) for _ in range(rng.randint(1, 4))] for _ in range(2)]
            failing[self.same(Conjunct(nodes), columns)] += 1
        self.assertGreater(min(failing.values()), 50)

    def test_division_drops_the_fraction_toward_zero(self):
        self.assertEqual([quotient(*pair) for pair in ((7, 2), (-7, 2), (7, -2), (-7, -2))], [3, -3, -3, 3])

    def test_many_combinations_are_quick(self):
        """1,048,576 combinations of which only the last fails, of 119 nodes."""
        atom, plus = (lambda n: Node(READING, 3, 0, n)), Node(Kind.ADD, 3, 0, 0)
        nodes = [atom(1)] + [node for k in range(59) for node in (atom(k % 4 + 1), plus)]
        columns = [list(range(31)) + [(1 << 64) // 60 + 1]]
        began = time.monotonic()
        self.assertEqual(Search(Conjunct(nodes), columns, lambda work: None).first(), [31, 31, 31, 31])
        self.assertLess(time.monotonic() - began, 5)


class Told(unittest.TestCase):
    def hold(self, text, table, cause=TOO_BIG):
        recipe = Recipe.from_text(text)
        verdict = check(recipe, Sheet.from_csv(table, recipe))
        self.assertEqual((verdict.passed, verdict.cause, verdict.reason.cause), (False, cause, cause))
        return verdict.reason

    def test_the_step_its_values_and_the_lines_of_its_readings(self):
        table = "rate,seconds\n48000,60\n" + ",60\n" * 55 + ",60000\n"
        reason = self.hold(BLOCK, table)
        self.assertTrue(
            str(reason).startswith(
                "rate=48000 × seconds=60000 × 2 = 5760000000 is above u32's 4294967295; rate: line 2, seconds: line 58; "
            ),
            reason,
        )
        self.assertIn("conjunct 0 at 2880000000 × 2, readings 1 of rate, 57 of seconds", str(reason))
        self.assertEqual((reason.left, reason.right, reason.result, reason.end), (2880000000, 2, 5760000000, 4294967295))
        self.assertEqual([(t.field, t.number, t.of, t.line) for t in reason.readings], [("rate", 1, 1, 2), ("seconds", 57, 57, 58)])

    def test_a_sheets_file_has_readings_and_no_lines(self):
        recipe = Recipe.from_text(BLOCK)
        sheet = Sheet.from_csv("rate,seconds\n1,1\n4000000000,2\n", recipe)
        reason = check(recipe, Sheet.from_bytes(sheet.to_bytes(), recipe)).reason
        self.assertIn("rate: reading 2 of 2, seconds: reading 1 of 2", str(reason))

    def test_below_the_type(self):
        text = "field f u8\nfield g u8\nvar a u8\nvar b u8\na = read f\nb = read g\na = a - b\nsite a\n"
        reason = self.hold(text, "f,g\n3,1\n,5\n", TOO_SMALL)
        self.assertIn("f=3 - g=5 = -2 is below u8's 0; f: line 2, g: line 3;", str(reason))

    def test_a_zero_divisor(self):
        text = "field f u8\nfield g u8\nvar a u8\nvar b u8\na = read f\nb = read g\na = a / b\nsite a\n"
        reason = self.hold(text, "f,g\n3,0\n", NO_DIVISOR)
        self.assertIn("f=3 / g=0 divides by zero; f: line 2, g: line 2", str(reason))
        self.assertEqual((reason.result, reason.end), (None, None))

    def test_a_conversion(self):
        text = "field f i32\nvar a i32\nvar b u32\na = read f\nb = to a\nsite b\n"
        reason = self.hold(text, "f\n1\n-1\n", TOO_SMALL)
        self.assertIn("f=-1 to u32 = -1 is below u32's 0; f: line 3; conjunct 0 at -1 to u32", str(reason))

    def test_two_reads_of_a_field(self):
        text = "field f u8\nvar a u8\nvar b u8\na = read f\nb = read f\na = a * b\nsite a\n"
        reason = self.hold(text, "f\n9\n16\n20\n")
        self.assertIn("f<1>=16 × f<2>=16 = 256 is above u8's 255; f<1>: line 3, f<2>: line 3;", str(reason))
        reason = self.hold(text, "f\n1\n100\n3\n")
        self.assertIn("f<1>=100 × f<2>=100", str(reason))
        reason = self.hold(text, "f\n20\n15\n10\n13\n")
        self.assertIn("f<1>=20 × f<2>=20", str(reason))

    def test_the_first_step_in_postfix_is_told(self):
        text = "field f u8\nfield g u8\nvar a u8\nvar b u8\nvar c u8\na = read f\nb = read g\nc = b + b\na = a + a\nc = c + a\nsite c\n"
        self.assertIn("g=200 + g=200 = 400", str(self.hold(text, "f,g\n200,200\n")))

    def test_an_earlier_combination_comes_before_an_earlier_step(self):
        head = "field f u8\nfield g u8\nvar a u8\nvar b u8\nvar c u8\na = read f\nb = read g\n"
        text = head + "a = a - b\nc = b * b\na = a + c\nsite a\n"
        self.assertIn("g=16 × g=16 = 256", str(self.hold(text, "f,g\n20,16\n,30\n")))
        self.assertIn("f=20 - g=30 = -10", str(self.hold(text, "f,g\n20,30\n,16\n", TOO_SMALL)))

    def test_two_readings_of_a_field_are_put_to_the_gate_as_listed(self):
        """20 and 1 fail at the difference. With 20 listed before 1, 20 and 20 would come first, and fail at the product."""
        head = "field f u8\nvar a u8\nvar b u8\nvar c u8\nvar d u8\nvar t u8\na = read f\nb = read f\n"
        text = head + "d = a * b\nt = 10\nc = b + t\nc = c - a\nc = d + c\nsite c\n"
        reason = self.hold(text, "f\n1\n20\n", TOO_SMALL)
        self.assertIn("f<2>=1 + 10 - f<1>=20 = -9 is below u8's 0; f<1>: line 3, f<2>: line 2;", str(reason))
        self.assertIn("f<1>=20 × f<2>=20 = 400", str(self.hold(text, "f\n20\n1\n")))

    def test_a_long_expression_gives_way_to_its_values(self):
        lines = "".join("x = x + y\n" for _ in range(20))
        text = "field aRatherLongFieldName u8\nvar x u8\nvar y u8\ny = read aRatherLongFieldName\nx = y\n" + lines + "site x\n"
        self.assertTrue(str(self.hold(text, "aRatherLongFieldName\n13\n")).startswith("247 + 13 = 260 is above u8's 255; "))


class Disagreement(unittest.TestCase):
    class Lying:
        """A gate that answers what it is told to, in turn."""

        def __init__(self, *answers):
            self.answers = list(answers)

        def check(self, condition, sheet):
            return self.answers.pop(0)

    def setUp(self):
        self.recipe = Recipe.from_text(BLOCK)
        self.condition = Condition.of(self.recipe)

    def trouble(self, table, *answers):
        with self.assertRaises(Trouble) as raised:
            why_held(self.recipe, self.condition, Sheet.from_csv(table, self.recipe), TOO_BIG, self.Lying(*answers))
        return str(raised.exception)

    def test_the_command_names_the_sheet_and_gives_status_3(self):
        folder = Folder(self)
        recipe, sheet = folder.put("r.txt", BLOCK), folder.put("s.csv", "rate,seconds\n4000000000,2\n")
        with mock.patch("survey_gate.why_held.Search.first", return_value=None):
            for words in (("check", recipe, sheet), ("run", recipe, sheet, folder.at("log"))):
                status, out, err = gate(*words)
                self.assertEqual((status, out), (3, ""))
                told = "conjunct 0 is held by the gate, and in whole numbers nothing overflows: one of the two is wrong"
                self.assertEqual(err, f"{sheet}: {told}\n")

    def test_disagreement_is_trouble(self):
        small, large = "rate,seconds\n1,1\n", "rate,seconds\n4000000000,2\n"
        self.assertIn("in whole numbers nothing overflows", self.trouble(small, TOO_BIG))
        self.assertIn("under each conjunct alone", self.trouble(large, None))

    def test_another_cause_is_trouble(self):
        large = "rate,seconds\n4000000000,2\n"
        for answers, other in (
            ((TOO_SMALL,), "under conjunct 0 alone it is held too small"),
            ((TOO_BIG, None), "under conjunct 0 with just those readings it is pass"),
            ((TOO_BIG, NO_DIVISOR), "under conjunct 0 with just those readings it is held no divisor"),
        ):
            told = f"the gate answers held too big, and {other}: one of the two is wrong"
            self.assertEqual(self.trouble(large, *answers), told)
        sheet = Sheet.from_csv(large, self.recipe)
        with self.assertRaises(Trouble) as raised:
            why_held(self.recipe, self.condition, sheet, NO_DIVISOR, self.Lying(NO_DIVISOR))
        told = "the gate answers held no divisor, and in whole numbers it is held too big: one of the two is wrong"
        self.assertEqual(str(raised.exception), told)

    def test_a_run_that_is_held_and_a_check_that_passes_are_trouble(self):
        folder = Folder(self)
        recipe, sheet = folder.put("r.txt", BLOCK), folder.put("s.csv", "rate,seconds\n4000000000,2\n")
        with mock.patch("survey_gate.library.Library.check", return_value=None):
            status, out, err = gate("run", recipe, sheet, folder.at("log"))
        told = "the gate holds the sheet before a run, and passes it by itself: one of the two is wrong"
        self.assertEqual((status, out, err), (3, "", f"{sheet}: {told}\n"))


if __name__ == "__main__":
    unittest.main()
