"""Fields of fewer bits than their types: text, file, table and sheet; recipes of the old form, and their conversion."""

import os
import unittest

from support import ROOT, SAMPLES, Folder, cases, gate, load, stored
from support import refusal as refused_with

import cases as generated
from survey_gate import Condition, Mistakes, Recipe, Refused, Sheet, check, run
from survey_gate.fields import all_bits, ends
from survey_gate.library import load as library
from survey_gate.ranges import TYPES, highest, lowest
from survey_gate.recipe_file import OLD, TODAY, refusal

MEANING_4 = "a type code, a field's bits, a tray's length or its zero byte is wrong"
MEANING_13 = "the sheet is damaged, has a reading beyond its bits, or belongs to another recipe"


def old_form(recipe):
    """The recipe's file as it was before fields had bits."""
    data, count = recipe.to_bytes(), len(recipe.fields)
    numbers = [int.from_bytes(data[at : at + 4], "little") for at in range(0, 32, 4)]
    numbers = [32, count] + [number - count if at % 2 == 0 else number for at, number in enumerate(numbers[2:])]
    return b"".join(number.to_bytes(4, "little") for number in numbers) + bytes(recipe.types) + data[32 + 2 * count :]


class Ends(unittest.TestCase):
    def test_all_bits_are_the_types(self):
        for code in range(len(TYPES)):
            self.assertEqual(ends(code, all_bits(code)), (lowest(code), highest(code)))

    def test_fewer(self):
        u8, i8, i16, u64, i64 = (TYPES.index(name) for name in ("u8", "i8", "i16", "u64", "i64"))
        for code, bits, expected in (
            (u8, 1, (0, 1)), (u8, 4, (0, 15)), (i8, 1, (-1, 0)), (i16, 4, (-8, 7)),
            (u64, 63, (0, 2**63 - 1)), (i64, 63, (-(2**62), 2**62 - 1)),
        ):
            self.assertEqual(ends(code, bits), expected)


class Texts(unittest.TestCase):
    TEXT = "field gain u8 4 bits\nfield sign i8 1 bit\nfield rate u32\nvar x u8\nx = read gain\nsite x\n"

    def test_to_the_file_and_back(self):
        recipe = Recipe.from_text(self.TEXT)
        self.assertEqual([part.bits for part in recipe.fields], [4, 1, 32])
        data = recipe.to_bytes()
        self.assertEqual(data[32:38], bytes([0, 132, 4, 129, 2, 160]))
        text = Recipe.from_bytes(data).to_text()
        self.assertTrue(text.startswith("field f0 u8 4 bits\nfield f1 i8 1 bit\nfield f2 u32\n"), text)
        self.assertEqual(Recipe.from_text(text).to_bytes(), data)

    def test_all_bits_may_be_said_and_are_not_shown(self):
        said, bare = (Recipe.from_text(f"field f u16{bits}\nvar x u16\nx = read f\nsite x\n") for bits in (" 16 bits", ""))
        self.assertEqual(said.to_bytes(), bare.to_bytes())
        self.assertEqual(said.to_text(), bare.to_text())

    def test_mistakes(self):
        for line, told in (
            ("field a u8 0 bits", "'0' is no number of bits; u8 has 1 to 8"),
            ("field a u8 9 bits", "'9' is no number of bits; u8 has 1 to 8"),
            ("field a i64 65 bits", "'65' is no number of bits; i64 has 1 to 64"),
            ("field a u8 " + "9" * 30 + " bits", f"'{'9' * 30}' is no number of bits; u8 has 1 to 8"),
            ("field a u8 four bits", "'four' is no number of bits; a field has all bits of its type, or some, as `field a u8 4 bits`"),
            ("field a u8 -1 bits", "'-1' is no number of bits; a field has all bits of its type"),
            ("field a u8 4", "'4' stands behind the type; did you mean `field a u8 4 bits`?"),
            ("field a u8 4bits", "'4bits' stands behind the type; did you mean `field a u8 4 bits`?"),
            ("field a u4", "'u4' is no type; types have 8, 16, 32 or 64 bits, and a field may have fewer, as `field a u8 4 bits`"),
            ("field a i12", "as `field a i16 12 bits`"),
            ("field a u9 4 bits", "'u9' is no type"),
            ("var a u8 4 bits", "a has more than a type; fields alone have bits of their own: write `var a u8`"),
            ("tray a u8 8 4 bits", "is no declaration; write `tray NAME TYPE LENGTH`"),
        ):
            with self.assertRaises(Mistakes, msg=line) as raised:
                Recipe.from_text(f"{line}\nvar x u8\nx = 1\nsite x\n", "R")
            (only,) = raised.exception.lines()
            self.assertTrue(only.startswith("R:1: "), only)
            self.assertIn(told, only)

    def test_a_field_of_wrong_bits_is_declared_all_the_same(self):
        with self.assertRaises(Mistakes) as raised:
            Recipe.from_text("field a u8 9 bits\nvar x u8\nx = read a\nsite x\n", "R")
        self.assertEqual(len(raised.exception.lines()), 1)


class Files(unittest.TestCase):
    def test_4_names_the_second_byte(self):
        data = bytearray(Recipe.from_text("field a u8\nfield b i16 4 bits\nvar x u8\nx = read a\nsite x\n").to_bytes())
        for second in (0, 127, 128, 145, 255):
            data[35] = second
            with self.assertRaises(Refused) as raised:
                Recipe.from_bytes(bytes(data))
            place = f"field 1 has second byte {second}, and i16 has 129 to 144"
            self.assertEqual((raised.exception.number, raised.exception.place), (4, place))
            self.assertEqual(library().refusal(bytes(data)), 4)

    def test_the_recipes_beside_the_vectors(self):
        for _, one in generated.worked_cases():
            number = refused_with(one.listing()[0])
            self.assertEqual(library().refusal(one.recipe), number, one.what)
            found = refusal(one.recipe, TODAY)
            self.assertEqual(found.number if found else 0, number, one.what)
            if not number:
                self.assertEqual(library().derive(one.recipe), one.derived(), one.what)

    def test_12_names_the_second_byte(self):
        data = bytearray(Condition.of(Recipe.from_text("field a u8\nvar x u8\nx = read a\nsite x\n")).data)
        data[9] = 137
        with self.assertRaises(Refused) as raised:
            Condition.from_bytes(bytes(data))
        self.assertEqual((raised.exception.number, raised.exception.place), (12, "field 0 has second byte 137, and u8 has 129 to 136"))
        self.assertEqual(library().answer(lambda gate: gate.check(bytes(data), b"")), 12)

    def test_the_bits_stand_in_the_condition(self):
        condition = Condition.of(Recipe.read(os.path.join(SAMPLES, "gain.txt")))
        self.assertEqual([(TYPES[part.code], part.bits) for part in condition.fields], [("u8", 4), ("i16", 12)])
        self.assertEqual(condition.only(0), condition.data)


class Readings(unittest.TestCase):
    RECIPE = Recipe.from_text("field f u8\nfield g u8 4 bits\nfield h i16 4 bits\nvar x u8\nx = read f\nsite x\n")

    def test_a_table(self):
        self.assertEqual(Sheet.from_csv("f,g,h\n255,15,-8\n,0,7\n", self.RECIPE).columns, [[255], [15, 0], [-8, 7]])
        with self.assertRaises(Mistakes) as raised:
            Sheet.from_csv("f,g,h\n256,16,-9\n0,-1,8\n", self.RECIPE, "T")
        self.assertEqual(raised.exception.lines(), [
            "T:2: -9 under h does not fit 4 bits of i16; 4 bits of i16 go from -8 to 7",
            "T:2: 16 under g does not fit 4 bits of u8; 4 bits of u8 go from 0 to 15",
            "T:2: 256 under f does not fit u8; u8 goes from 0 to 255",
            "T:3: -1 under g does not fit 4 bits of u8; 4 bits of u8 go from 0 to 15",
            "T:3: 8 under h does not fit 4 bits of i16; 4 bits of i16 go from -8 to 7",
        ])

    def test_a_sheets_file(self):
        folder = Folder(self)
        recipe = folder.put("r", self.RECIPE.to_bytes())
        for columns, place in (
            ([[200], [3, 16], [0]], "reading 2 of f1 is 16, and 4 bits of u8 go from 0 to 15"),
            ([[200], [3], [7, -8, -9]], "reading 3 of f2 is -9, and 4 bits of i16 go from -8 to 7"),
            ([[], [16], [8]], "reading 1 of f1 is 16, and 4 bits of u8 go from 0 to 15"),
        ):
            sheet = folder.put("s", Sheet(self.RECIPE.types, columns).to_bytes())
            self.assertEqual(gate("check", recipe, sheet), (2, f"{sheet}: refused 13: {MEANING_13}: {place}\n", ""))
            log = folder.at("log")
            status, out, _ = gate("run", "--unguarded", recipe, sheet, log)
            self.assertEqual((status, out), (2, f"{sheet}: refused 13: {MEANING_13}: {place}\n"))
            status, _, err = gate("sheet", "show", recipe, sheet)
            self.assertEqual((status, err), (2, f"{sheet}: refused 13: {MEANING_13}: {place}\n"))

    def test_readings_of_a_program(self):
        sheet = Sheet(self.RECIPE.types, [[1], [16], [0]])
        for call in (check, run):
            with self.assertRaises(Refused) as raised:
                call(self.RECIPE, sheet)
            self.assertEqual((raised.exception.number, raised.exception.place), (13, "reading 1 of g is 16, and 4 bits of u8 go from 0 to 15"))

    def test_bits_bound_no_result(self):
        recipe = Recipe.from_text("field g u8 4 bits\nvar x u8\nx = read g\nx = x * x\nsite x\n")
        self.assertTrue(check(recipe, Sheet.from_csv("g\n15\n", recipe)).passed)

    def test_a_hold_of_narrow_fields_has_its_reason(self):
        recipe = Recipe.from_text("field g u8 5 bits\nvar x u8\nx = read g\nx = x * x\nsite x\n")
        verdict = check(recipe, Sheet.from_csv("g\n3\n16\n", recipe))
        self.assertEqual((verdict.passed, verdict.cause), (False, "too big"))
        self.assertIn("g=16 × g=16 = 256 is above u8's 255", str(verdict.reason))


class Conversions(unittest.TestCase):
    def test_the_outside_vectors(self):
        for case in cases():
            old = case.content("old")
            found = refusal(old, OLD)
            self.assertEqual(f"refused {found.number}" if found else "", case.convert, case)
            if found:
                self.assertTrue(found.place, case)
                self.assertEqual(library().answer(lambda gate, old=old: gate.convert(old)), found.number, case)
            else:
                self.assertEqual(library().convert(old), case.content("converted"), case)
                self.assertEqual(Recipe.from_old_bytes(old).to_bytes(), case.content("converted"), case)

    def test_the_cases_beside_them(self):
        for _, one in generated.converting_cases():
            found = refusal(one.old, OLD)
            self.assertEqual(found.number if found else 0, one.refusal, one.what)
            self.assertEqual(library().answer(lambda gate, one=one: gate.convert(one.old)), one.refusal, one.what)
            if not found:
                self.assertEqual(library().convert(one.old), one.new, one.what)

    def test_recipes_of_texts(self):
        for name in sorted(os.listdir(SAMPLES)):
            if not name.endswith(".txt") or name in ("wrong.txt", "gain.txt"):
                continue
            recipe = Recipe.read(os.path.join(SAMPLES, name))
            self.assertEqual(library().convert(old_form(recipe)), recipe.to_bytes(), name)

    def test_the_sample(self):
        block = Recipe.read(os.path.join(SAMPLES, "block.txt"))
        self.assertEqual(load(SAMPLES, "block.old"), old_form(block))

    def test_the_command(self):
        folder = Folder(self)
        new = folder.at("new")
        self.assertEqual(gate("recipe", "convert", os.path.join(SAMPLES, "block.old"), new), (0, "", ""))
        self.assertEqual(load(new), Recipe.read(os.path.join(SAMPLES, "block.txt")).to_bytes())
        again = folder.at("again")
        status, out, _ = gate("recipe", "convert", new, again)
        place = "field 1 has type code 160, and the highest is 7; it is of today's form already"
        self.assertEqual((status, out), (2, f"{new}: refused 4: {MEANING_4}: {place}\n"))
        status, out, err = gate("recipe", "convert", os.path.join(SAMPLES, "block.txt"), again)
        self.assertEqual((status, out), (3, ""))
        self.assertIn("no recipe's file; of a text `survey-gate recipe make` makes one", err)
        self.assertEqual(gate("recipe", "convert", new, new)[0], 3)
        self.assertEqual(folder.names(), ["new"])

    def test_a_refusal_moves_an_older_output_aside(self):
        folder = Folder(self)
        new, old = folder.put("new", "older"), folder.put("old", load(SAMPLES, "block.old")[:-1])
        status, out, _ = gate("recipe", "convert", old, new)
        self.assertEqual(status, 2)
        self.assertIn("refused 2", out)
        self.assertIn(f"the older {new} is now {new}.old", out)
        self.assertEqual(folder.names(), ["new.old", "old"])

    def test_a_recipe_of_the_old_form_is_told_as_such(self):
        status, out, _ = gate("list", os.path.join(SAMPLES, "block.old"))
        self.assertEqual(status, 2)
        self.assertIn("refused 2: ", out)
        self.assertIn("by the old form it is right: `survey-gate recipe convert` makes today's of it", out)
        two = bytes([32, 0, 0, 0, 2, 0, 0, 0, *[34, 0, 0, 0, 0, 0, 0, 0] * 3, 0, 0])
        with self.assertRaises(Refused) as raised:
            Recipe.from_bytes(two)
        self.assertEqual(raised.exception.number, 4)
        self.assertIn("field 0 has second byte 0, and u8 has 129 to 136; by the old form it is right", raised.exception.place)

    def test_stored_recipes_are_of_one_form(self):
        """No stored recipe is right by both forms, but for those without fields, which are the same in both."""
        for path in stored("recipe") + stored("old"):
            data = load(path)
            if not refusal(data, TODAY) and not refusal(data, OLD):
                self.assertEqual(data[4:8], bytes(4), path)


class Documents(unittest.TestCase):
    def test_the_dumps_of_formats_are_of_the_samples(self):
        text = load(ROOT, "docs", "FORMATS.md").decode()
        block = Recipe.read(os.path.join(SAMPLES, "block.txt"))
        sheet = Sheet.read(os.path.join(SAMPLES, "passes.csv"), block)
        for data, rows in ((block.to_bytes(), 5), (old_form(block), 3), (Condition.of(block).data, 5), (sheet.to_bytes(), 3)):
            for at in range(0, 16 * rows, 16):
                line = f"    {at:08x}: {data[at : at + 16].hex(' ')}"
                self.assertIn(line, text)
            self.assertIn(f"{len(data)} bytes", text)


if __name__ == "__main__":
    unittest.main()
