"""check: a line or an object for each sheet, and the four exit statuses."""

import json
import os
import subprocess
import unittest

from support import LAUNCHER, SAMPLES, Folder, cases, gate

from filtering import beside
from survey_gate import Condition, Recipe, Refused, Sheet, check, run
from survey_gate.library import load

BLOCK = os.path.join(SAMPLES, "block.txt")
LOOP = os.path.join(SAMPLES, "loop.txt")
PASSES = os.path.join(SAMPLES, "passes.csv")
HELD = os.path.join(SAMPLES, "held.csv")
CLOCK = os.path.join(SAMPLES, "clock.txt")
BLANK = os.path.join(SAMPLES, "blank.csv")
NO_READINGS = "refused 15: a field that a conjunct reads has no readings"
REASON = "channels=3 × (rate=192000 × seconds=3600 × 2) + rate=192000 × seconds=3600 × 2 = 5529600000 is above u32's 4294967295"


class Statuses(unittest.TestCase):
    def test_0_all_pass(self):
        self.assertEqual(gate("check", BLOCK, PASSES, PASSES), (0, f"{PASSES}: pass\n" * 2, ""))

    def test_1_some_held(self):
        status, out, err = gate("check", BLOCK, HELD, PASSES)
        self.assertEqual((status, err), (1, ""))
        held, passes = out.splitlines()
        self.assertTrue(held.startswith(f"{HELD}: held too big: {REASON}; channels: line 2, rate: line 3, seconds: line 3; "), held)
        self.assertEqual(passes, f"{PASSES}: pass")

    def test_1_for_each_cause(self):
        for table, told in (
            ("clock-held.csv", "held too big: (recover=3100000 - deploy=-1200) × hour=720 = 2232864000 is above i32's 2147483647; "),
            ("clock-behind.csv", "held too small: (recover=-3100000 - deploy=-1200) × hour=720 = -2231136000 is below i32's -2147483648; "),
            ("clock-zero.csv", "held no divisor: (recover=845000 - deploy=-1200) × hour=1 / hours=0 divides by zero; "),
        ):
            path = os.path.join(SAMPLES, table)
            status, out, err = gate("check", CLOCK, path)
            self.assertEqual((status, err), (1, ""))
            self.assertTrue(out.startswith(f"{path}: {told}"), out)
            parts = json.loads(gate("check", "--json", CLOCK, path)[1])
            self.assertEqual((parts["verdict"], f"held {parts['cause']}"), ("held", told.split(":")[0]))

    def test_2_some_refused(self):
        folder = Folder(self)
        many = folder.put("many.txt", "field f u8\nvar a u8\nvar b u8\n" + "b = read f\na = a * b\n" * 3 + "site a\n")
        wide = folder.put("wide.csv", "f\n" + "1\n" * 128)
        narrow = folder.put("narrow.csv", "f\n200\n")
        status, out, err = gate("check", many, wide, narrow)
        self.assertEqual((status, err), (2, ""))
        self.assertEqual(out.splitlines()[0], f"{wide}: refused 14: a conjunct has over 1,048,576 combinations of readings: "
                         "conjunct 0 reads f 3 times (of 128): 2,097,152 combinations")
        self.assertEqual(out.splitlines()[1], f"{narrow}: pass")

    def test_2_the_recipe_is_refused(self):
        status, out, err = gate("check", LOOP, PASSES, HELD)
        self.assertEqual(status, 2)
        recipe, first, second = out.splitlines()
        self.assertEqual(recipe, f"{LOOP}: refused 11: a loop makes a value from its own earlier value: "
                         "site x (line 10) is accepted without line 8 (x = x + one)")
        self.assertTrue(first.startswith(f"{PASSES}: refused 11") and second.startswith(f"{HELD}: refused 11"))
        self.assertIn(f"{LOOP}:2: warning: n is never set", err)

    def test_3_trouble_and_the_others_are_still_checked(self):
        folder = Folder(self)
        wrong = folder.put("wrong.csv", "rate,seconds,channels\n1,x,300\n")
        status, out, err = gate("check", BLOCK, HELD, wrong, folder.at("none.csv"), PASSES)
        self.assertEqual(status, 3)
        self.assertEqual([line.split(": ")[1] for line in out.splitlines()], ["held too big", "pass"])
        self.assertEqual([line.split(": ")[0] for line in err.splitlines()], [f"{wrong}:2", f"{wrong}:2", folder.at("none.csv")])

    def test_3_usage(self):
        for words in ((), ("check",), ("check", BLOCK), ("frob",), ("check", "--frob", BLOCK, PASSES), ("recipe",),
                      ("choices", "f", "-1"), ("choices", "f", "٣"), ("run", BLOCK, PASSES, "l", "--take", "70000"),
                      ("--explain", "17"), ("--explain", "x"), ("run", BLOCK, PASSES, "l", "--take", "1", "--choices", "c")):
            status, out, err = gate(*words)
            self.assertEqual((status, out, err.count("\n")), (3, "", 1), words)

    def test_as_a_process(self):
        for words, status in (((BLOCK, PASSES), 0), ((BLOCK, HELD), 1), ((LOOP, PASSES), 2), ((BLOCK, "none"), 3)):
            ran = subprocess.run([LAUNCHER, "check", "-q", *words], capture_output=True, check=False)
            self.assertEqual((ran.returncode, ran.stdout), (status, b""))


class Forms(unittest.TestCase):
    def test_json_is_an_object_a_line(self):
        folder = Folder(self)
        wrong = folder.put("wrong.csv", "rate,seconds,channels\n1,x,3\n")
        status, out, _ = gate("check", "--json", BLOCK, PASSES, HELD, wrong)
        passes, held, trouble = [json.loads(line) for line in out.splitlines()]
        self.assertEqual(status, 3)
        self.assertEqual(passes, {"file": PASSES, "verdict": "pass"})
        self.assertEqual((held["file"], held["verdict"], held["cause"]), (HELD, "held", "too big"))
        self.assertEqual((held["conjunct"], held["operation"]), (2, "+"))
        self.assertEqual((held["left"], held["right"], held["result"]), (4147200000, 1382400000, 5529600000))
        self.assertEqual((held["type"], held["end"]), ("u32", 4294967295))
        self.assertEqual(held["readings"][1], {"atom": "rate", "field": "rate", "value": 192000, "number": 2, "of": 2, "line": 3})
        self.assertTrue(held["reason"].startswith(REASON))
        self.assertEqual((trouble["verdict"], trouble["mistakes"][0]["line"]), ("trouble", 2))
        refused = json.loads(gate("check", "--json", LOOP, PASSES)[1].splitlines()[0])
        self.assertEqual((refused["file"], refused["verdict"], refused["refusal"]), (LOOP, "refused", 11))
        self.assertIn("line 8", refused["place"])

    def test_quiet_prints_trouble_only(self):
        self.assertEqual(gate("check", "-q", BLOCK, HELD), (1, "", ""))
        self.assertEqual(gate("check", "-q", LOOP, PASSES), (2, "", ""))
        self.assertEqual(gate("check", "-q", BLOCK, "none")[2], "none: No such file or directory\n")

    def test_files_and_texts_mix(self):
        folder = Folder(self)
        recipe, sheet = folder.at("r.recipe"), folder.at("s.sheet")
        gate("recipe", "make", BLOCK, recipe)
        gate("sheet", "make", BLOCK, HELD, sheet)
        status, out, err = gate("check", BLOCK, sheet)
        self.assertEqual((status, err), (1, ""))
        self.assertIn("rate: reading 2 of 2", out)
        status, out, err = gate("check", recipe, HELD, sheet)
        self.assertEqual(status, 1)
        self.assertIn("f1=3600", out)
        self.assertIn("the columns are taken in their order", err)

    def test_odd_file_names(self):
        folder = Folder(self)
        odd = folder.put("a\nb\udcff.csv", "rate,seconds,channels\n1,1,1\n")
        status, out, err = gate("check", BLOCK, odd)
        self.assertEqual((status, out.count("\n"), err), (0, 1, ""))
        self.assertIn("a\\nb", out)


class Blank(unittest.TestCase):
    """Columns without readings: those that a conjunct reads are refused with 15, others are warned of."""

    def setUp(self):
        self.folder = Folder(self)

    def test_a_blank_column_is_refused_and_the_others_are_still_checked(self):
        told = f"{BLANK}: {NO_READINGS}: the column rate is blank, and conjunct 0 reads rate\n"
        self.assertEqual(gate("check", BLOCK, BLANK, PASSES), (2, f"{told}{PASSES}: pass\n", ""))

    def test_every_blank_column_is_named_with_the_first_conjunct_that_reads_it(self):
        blank = self.folder.put("blank.csv", "channels,rate,seconds\n,,60\n")
        rate = "the column rate is blank, and conjunct 0 reads rate"
        channels = "the column channels is blank, and conjunct 2 reads channels"
        self.assertEqual(gate("check", BLOCK, blank), (2, f"{blank}: {NO_READINGS}: {rate}; {channels}\n", ""))

    def test_a_sheets_file_has_fields(self):
        sheet, recipe = self.folder.at("s.sheet"), self.folder.at("r.recipe")
        gate("sheet", "make", BLOCK, BLANK, sheet)
        told = f"{sheet}: {NO_READINGS}: the field rate is blank, and conjunct 0 reads rate\n"
        self.assertEqual(gate("check", BLOCK, sheet), (2, told, ""))
        gate("recipe", "make", BLOCK, recipe)
        told = f"{BLANK}: {NO_READINGS}: the field f0 is blank, and conjunct 0 reads f0\n"
        self.assertEqual(gate("check", recipe, BLANK), (2, told, ""))

    def test_json(self):
        status, out, err = gate("check", "--json", BLOCK, BLANK)
        place = "the column rate is blank, and conjunct 0 reads rate"
        parts = {"file": BLANK, "verdict": "refused", "refusal": 15, "meaning": NO_READINGS[12:], "place": place}
        self.assertEqual((status, json.loads(out), err), (2, parts, ""))

    def test_a_column_that_no_conjunct_reads_may_be_blank(self):
        windows, blank = os.path.join(SAMPLES, "windows.txt"), os.path.join(SAMPLES, "windows-blank.csv")
        status, out, err = gate("check", windows, blank)
        self.assertEqual((status, out, err.count("\n")), (0, f"{blank}: pass\n", 1))
        self.assertIn(f"{blank}:1: warning: the column windows is blank; the gate refuses the sheet with 15 if a conjunct reads", err)

    def test_15_comes_before_14_and_before_a_hold(self):
        head = "field f u8\nfield g u8\nvar a u8\nvar b u8\nvar s u8\na = read g\nsite a\n"
        recipe = self.folder.put("r.txt", head + "b = read f\ns = s + b\n" * 3 + "site s\n")
        place = "the column g is blank, and conjunct 0 reads g"
        for rows, filled in ((128, "refused 14"), (1, "held too big")):
            blank = self.folder.put("blank.csv", "f,g\n" + "200,\n" * rows)
            self.assertEqual(gate("check", recipe, blank), (2, f"{blank}: {NO_READINGS}: {place}\n", ""))
            sheet = self.folder.put("filled.csv", "f,g\n200,1\n" + "200,\n" * (rows - 1))
            self.assertIn(filled, gate("check", recipe, sheet)[1])


def answer(condition, sheet):
    """The gate's answer as the vectors have it."""
    try:
        cause = load().check(condition, sheet)
    except Refused as refused:
        return f"refused {refused.number}"
    return f"held {cause}" if cause else "pass"


class Library(unittest.TestCase):
    def test_stored_verdicts(self):
        seen = set()
        for case in cases():
            if case.derived in ("", "refused 13"):
                continue
            recipe = Recipe.from_bytes(case.content("recipe"))
            sheet = Sheet.from_bytes(case.content("sheet"), recipe)
            try:
                verdict = check(recipe, sheet)
                told = "pass" if verdict.passed else f"held {verdict.cause}"
            except Refused as refused:
                told = f"refused {refused.number}"
                self.assertTrue(refused.place, case)
            self.assertEqual(told, case.derived, case)
            seen.add(told)
        self.assertEqual(seen, {"pass", "held too big", "held too small", "held no divisor", "refused 15"})

    def test_stored_verdicts_on_other_conditions(self):
        for case in cases():
            if case.made_up:
                told = answer(case.content("condition"), case.content("sheet"))
                self.assertEqual(told, case.made_up, case)

    def test_the_cases_beside_the_vectors(self):
        for one in beside():
            self.assertEqual(answer(one.condition, one.sheet), one.answer, one.what)

    def test_use(self):
        recipe = Recipe.read(BLOCK)
        condition = Condition.of(recipe)
        sheet = Sheet.read(PASSES, recipe)
        self.assertTrue(check(recipe, sheet, condition).passed)
        ran = run(recipe, sheet, choices=[1, 1, 0, 1, 1, 1])
        self.assertEqual((ran.end, ran.steps), (0, 31))
        self.assertEqual([(r.label, r.variable, r.value, r.overflowed) for r in ran.records],
                         [(6, "bytes", 23040000, False), (18, "last", 207360000, False)])
        held = run(recipe, Sheet.read(HELD, recipe), choices=[1, 1, 0, 1, 1, 1])
        self.assertEqual((held.verdict.passed, held.verdict.cause), (False, "too big"))
        self.assertEqual((held.end, held.records), (None, ()))


if __name__ == "__main__":
    unittest.main()
