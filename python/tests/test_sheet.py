"""Sheets: every stored one goes to its table and back; tables as spreadsheets write them; every mistake is told."""

import os
import struct
import unittest
from itertools import product

from support import SAMPLES, Folder, cases, gate, load, stored

from survey_gate import Mistakes, Recipe, Refused, Sheet

RECIPE = Recipe.from_text("field f u8\nfield g i16\nvar a u8\na = read f\nsite a\n")


def sheet(text):
    return Sheet.from_csv(text, RECIPE, "T")


def named(data):
    """The field that a refusal of this file names, `end` if it names none, None if the file is read."""
    try:
        Sheet.from_bytes(data, RECIPE)
    except Refused as refused:
        return next((name for name in ("f", "g") if refused.place.startswith((f"{name}'s ", f"{name} has "))), "end")
    return None


def first_wrong(data, pairs):
    """The same by the rule, pair by pair, for a u8 and an i16: each by itself and the end of the one before."""
    starts = [16] + [sum(pair) for pair in pairs]
    for name, (offset, length), start, width in zip("fg", pairs, starts, (1, 2)):
        if len(data) < 16 or offset != start or length % width or length > 128 * width or offset + length > len(data):
            return name
    return None if starts[-1] == len(data) else "end"


class Files(unittest.TestCase):
    def test_stored_sheets_go_to_tables_and_back(self):
        shown = 0
        for path in stored("sheet"):
            beside = path[: -len("sheet")] + "recipe"
            if not os.path.exists(beside):
                continue
            try:
                recipe = Recipe.from_bytes(load(beside))
                read = Sheet.from_bytes(load(path), recipe)
            except Refused:
                continue
            text = read.to_csv(recipe)
            self.assertEqual(Sheet.from_csv(text, recipe, path).to_bytes(), load(path), path)
            shown += 1
        self.assertGreater(shown, 100)

    def test_refusal_13_is_the_stored_one_and_has_a_place(self):
        for case in cases():
            if not case.run.startswith("refused") or case.run == "refused 13":
                recipe = Recipe.from_bytes(case.content("recipe"))
                try:
                    Sheet.from_bytes(case.content("sheet"), recipe)
                    self.assertNotEqual(case.run, "refused 13", case)
                except Refused as refused:
                    self.assertEqual((case.run, refused.number), ("refused 13", 13), case)
                    self.assertTrue(refused.place)

    def test_refusal_13_names_the_first_field_whose_pair_is_wrong(self):
        seen = {}
        for pairs in product(product((15, 16, 17, 18, 19), (0, 1, 2, 3)), repeat=2):
            for size in (0, 15, 16, 17, 18, 19, 20):
                data = b"".join(struct.pack("<II", *pair) for pair in pairs).ljust(size, b"\7")[:size]
                found = named(data)
                self.assertEqual(found, first_wrong(data, pairs), (pairs, size))
                seen[found] = seen.get(found, 0) + 1
        self.assertEqual(set(seen), {"f", "g", "end", None})

    def test_make_and_show(self):
        folder = Folder(self)
        recipe, table = os.path.join(SAMPLES, "block.txt"), os.path.join(SAMPLES, "passes.csv")
        made = folder.at("passes.sheet")
        self.assertEqual(gate("sheet", "make", recipe, table, made), (0, "", ""))
        self.assertEqual(gate("sheet", "show", recipe, made), (0, load(table).decode(), ""))
        self.assertEqual(gate("sheet", "show", recipe, made, folder.at("back.csv")), (0, "", ""))
        self.assertEqual(load(folder.at("back.csv")), load(table))

    def test_a_blank_column_is_made_and_shown(self):
        folder = Folder(self)
        recipe, table = os.path.join(SAMPLES, "block.txt"), os.path.join(SAMPLES, "blank.csv")
        made = folder.at("blank.sheet")
        status, out, err = gate("sheet", "make", recipe, table, made)
        self.assertEqual((status, out, err.count("\n")), (0, "", 1))
        self.assertIn(f"{table}:1: warning: the column rate is blank; ", err)
        self.assertEqual(gate("sheet", "show", recipe, made), (0, load(table).decode(), ""))


class Tables(unittest.TestCase):
    def test_columns_in_any_order(self):
        read = sheet("g,f\n-1,2\n-3,\n")
        self.assertEqual(read.columns, [[2], [-1, -3]])
        self.assertEqual(read.lines, [[2], [2, 3]])

    def test_quotes_semicolons_tabs_and_a_byte_order_mark(self):
        for text in ('"f","g"\n"1","-2"\n', "f;g\n1;-2\n", "f\tg\n1\t-2\n", " f , g \r\n 1 , -2 \r\n"):
            self.assertEqual(sheet(text).columns, [[1], [-2]], text)
        folder = Folder(self)
        path = folder.put("marked.csv", b"\xef\xbb\xbff;g\r\n1;-2\r\n")
        self.assertEqual(Sheet.read(path, RECIPE).columns, [[1], [-2]])

    def test_lines_count_over_quoted_line_ends_and_blank_lines(self):
        read = sheet('f,"g\n"\n\n1,2\n\n3,4\n')
        self.assertEqual(read.lines, [[4, 6], [4, 6]])

    def wrong(self, text, *told):
        with self.assertRaises(Mistakes) as raised:
            sheet(text)
        self.assertEqual([line.split("; ")[0] for line in raised.exception.lines()], list(told))
        return raised.exception.lines()

    def test_wrong_columns(self):
        self.wrong("\n", "T:1: there is no line of names")
        self.wrong("f\n", "T:1: there is no column g")
        self.assertIn("did you mean 'g'?", self.wrong("f,gg\n", "T:1: 'gg' is no field of the recipe", "T:1: there is no column g")[0])
        self.wrong("f,g,f\n", "T:1: f has two columns")
        self.wrong("f,g,\n1,2,\n", "T:1: column 3 has no name")
        self.wrong("f,g\n1\n", "T:2: 1 cells")
        self.wrong('f,g\n"1,2\n', "T:2: the line is no CSV (unexpected end of data)")

    def test_wrong_cells_all_at_once(self):
        lines = self.wrong(
            "f,g\n256,x\n1.5,40000\n0x10,1\n٣,\n",
            "T:2: 'x' under g is no whole number",
            "T:2: 256 under f does not fit u8",
            "T:3: '1.5' under f is no whole number",
            "T:3: 40000 under g does not fit i16",
            "T:4: '0x10' under f is no whole number",
            "T:5: '٣' under f is no whole number",
        )
        self.assertIn("write 16", lines[4])
        self.assertIn("digits are 0 to 9", lines[5])
        self.assertIn("write 1000", self.wrong("f;g\n1;1,000\n", "T:2: '1,000' under g is no whole number")[0])
        self.assertIn("whole", self.wrong("f;g\n1;1,5\n", "T:2: '1,5' under g is no whole number")[0])
        self.wrong("f,g\n1," + "9" * 99 + "\n", "T:2: a number of 99 digits under g")
        self.wrong("f,g\n1," + "9" * 5000 + "\n", "T:2: the line has 5,002 characters")

    def test_a_file_that_is_no_table_at_all(self):
        with self.assertRaises(Mistakes) as raised:
            sheet("f,g\n" + "so,it\n" * 90_000)
        self.assertEqual(raised.exception.lines()[-1], "T:2501: over 5,000 mistakes; the lines below are not read")

    def test_a_reading_below_a_blank_cell(self):
        self.wrong("f,g\n1,\n2,3\n", "T:3: g has a reading below its blank cell in line 2")

    def test_too_many_readings(self):
        self.wrong("f,g\n" + "1,\n" * 129, "T:130: this is reading 129 of f")

    def test_warnings(self):
        (told,) = sheet("\nf,g\n1,\n").warnings
        right = "the gate refuses the sheet with 15 if a conjunct reads g, and a run that reads it ends there"
        self.assertEqual(told.told("T", "warning: "), f"T:2: warning: the column g is blank; {right}")

    def test_a_recipes_file_has_no_names(self):
        bare = Recipe.from_bytes(RECIPE.to_bytes())
        read = Sheet.from_csv("rate,depth\n1,-2\n", bare)
        self.assertEqual(read.columns, [[1], [-2]])
        self.assertIn("taken in their order", read.warnings[0].wrong)
        self.assertEqual(Sheet.from_csv("f1,f0\n-2,1\n", bare).columns, [[1], [-2]])
        self.assertEqual(Sheet.from_csv("rate,depth\n,-2\n", bare).warnings[1].wrong, "the field f0 is blank")
        with self.assertRaises(Mistakes):
            Sheet.from_csv("rate\n1\n", bare)

    def test_a_recipe_without_fields(self):
        bare = Recipe.from_text("var a u8\na = 1\nsite a\n")
        self.assertEqual(Sheet.from_either(b"", bare, "T").to_bytes(), b"")
        with self.assertRaises(Mistakes):
            Sheet.from_csv("f\n1\n", bare)


if __name__ == "__main__":
    unittest.main()
