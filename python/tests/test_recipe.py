"""Recipes: every stored one goes to its text and back; every mistake of a text is told, with what would be right."""

import os
import unittest

from support import SAMPLES, Folder, cases, gate, load, refusal, stored

from survey_gate import Mistakes, Recipe, Refused, Trouble
from survey_gate.recipe_file import packed
from survey_gate.statements import Statement

HEAD = (
    "field rate u32\nfield seconds u16\nvar x u32\nvar y u32\nvar z u32\nvar k u8\nvar s i8\nvar wide i64\n"
    "tray shifts u32 8\n"
)
FIRST = HEAD.count("\n") + 1


class Files(unittest.TestCase):
    def test_stored_recipes_go_to_text_and_back(self):
        shown = 0
        for path in stored("recipe"):
            data = load(path)
            try:
                recipe = Recipe.from_bytes(data)
            except Refused:
                continue
            self.assertEqual(Recipe.from_text(recipe.to_text(), path).to_bytes(), data, path)
            shown += 1
        self.assertGreater(shown, 100)

    def test_refusals_2_to_8_and_16_are_the_stored_ones_and_have_a_place(self):
        seen = set()
        for case in cases():
            number = refusal(case.derive)
            if 2 <= number <= 8 or number == 16:
                with self.assertRaises(Refused, msg=case) as raised:
                    Recipe.from_bytes(case.content("recipe"))
                self.assertEqual(raised.exception.number, number, case)
                self.assertTrue(raised.exception.place, case)
                seen.add(number)
            else:
                Recipe.from_bytes(case.content("recipe"))
        self.assertEqual(seen, {*range(2, 9), 16})

    def test_the_entry_is_named(self):
        recipe = Recipe.from_text("field f u8\nvar a u8\nvar b u16\ntray t u8 2\na = 5\nsite a\n")
        wrong = {
            5: [Statement(1, 0, 9), "label 0, kind 1: b is variable 9, and there are 2"],
            6: [Statement(1, 0, 1), "label 0 (v0 = v1): v0 is u8, v1 is u16"],
            7: [Statement(0, 0, 0, 0, 256), "label 0 (v0 = 256): v0 is u8"],
            8: [Statement(13), "the end at label 0 closes nothing"],
        }
        for number, (statement, place) in wrong.items():
            with self.assertRaises(Refused) as raised:
                Recipe.from_bytes(packed(recipe.names, [statement]))
            self.assertEqual((raised.exception.number, raised.exception.place), (number, place))

    def test_make_and_show(self):
        folder = Folder(self)
        made, text = folder.at("block.recipe"), folder.at("block.txt")
        self.assertEqual(gate("recipe", "make", os.path.join(SAMPLES, "block.txt"), made), (0, "", ""))
        status, out, _ = gate("recipe", "show", made)
        self.assertEqual(gate("recipe", "show", made, text), (0, "", ""))
        self.assertEqual((status, load(text).decode()), (0, out))
        self.assertEqual(Recipe.from_text(out).to_bytes(), load(made))

    def test_an_empty_recipe_goes_to_text_and_back(self):
        empty = Recipe().to_bytes()
        self.assertEqual(Recipe.from_text(Recipe.from_bytes(empty).to_text()).to_bytes(), empty)


class Texts(unittest.TestCase):
    def mistakes(self, text):
        with self.assertRaises(Mistakes) as raised:
            Recipe.from_text(text, "R")
        return raised.exception.lines()

    def wrong(self, line, *parts):
        """The line, after the declarations, is wrong as told; the first mistake is its."""
        told = self.mistakes(HEAD + line + "\n")[0]
        self.assertTrue(told.startswith(f"R:{FIRST}: "), told)
        self.assertIn("; ", told)
        for part in parts:
            self.assertIn(part, told)

    def test_a_number_as_operand(self):
        self.wrong("x = y + 1", "the number '1' stands as an operand; give it a variable, as `n = 1`, then `x = y + n`")
        self.wrong("x = 2 * y", "then `x = n * y`")
        self.wrong("x = y + 0x10", "as `n = 16`")

    def test_a_number_as_index(self):
        self.wrong("x = shifts[0]", "the number '0' stands as an index; give it a variable, as `i = 0`, then `x = shifts[i]`")
        self.wrong("shifts[0] = x", "then `shifts[i] = x`")
        self.wrong("x = shifts[y + z]", "the index 'y + z' is more than a variable")
        self.wrong("x = shifts[s]", "the index 's' is i8; index with an unsigned variable")
        self.wrong("x = shifts[]", "has no index")

    def test_a_comparison(self):
        self.wrong("if x > y", "'x > y' is a comparison", "read a comparison's outcome from a field")
        self.wrong("while x == 0", "is a comparison")
        self.wrong("if x != 0", "write `if x`: it is taken where x is not 0")
        self.wrong("x = y > z", "is a comparison")

    def test_nested_expressions(self):
        self.wrong("x = y + z * y", "more than one operation; one a line", "then `x = part + d`")
        self.wrong("x = (y + z) * y", "more than one operation")
        self.wrong("x = shifts[k] + y", "more than one operation")
        self.wrong("site x + y", "a site is on one variable")
        self.wrong("shifts[k] = x + y", "a cell takes a variable")

    def test_else_if(self):
        for word in ("else if", "elif", "elsif", "elseif"):
            lines = self.mistakes(HEAD + f"if x\ny = z\n{word} k\ny = x\nend\n")
            self.assertEqual(len(lines), 1, lines)
            self.assertIn(f"R:{FIRST + 2}: '{word} k': an else has no test; write `else`, and below it an `if`", lines[0])

    def test_numbers_in_other_forms(self):
        self.wrong("x = 0x10", "'0x10' is not decimal; numbers are decimal: write 16")
        self.wrong("x = 0b101", "write 5")
        self.wrong("x = 1_000", "write `x = 1000`")
        self.wrong("x = 1.5", "no whole number")
        self.wrong("x = 1e3", "no whole number")
        self.wrong("x = 12u32", "letters after its digits")
        self.wrong("x = ٣", "the digit '٣' is of another script; digits are 0 to 9: write 3")
        self.wrong("x = " + "9" * 30, "a number of 30 digits")
        self.wrong("x = 4294967296", "does not fit x, which is u32; u32 goes from 0 to 4294967295")
        self.wrong("wide = 2147483648", "does not fit the 4 bytes of a number; make it from smaller ones")
        self.wrong("tray t u8 " + "9" * 5000, "characters")
        self.wrong("tray t u8 " + "9" * 500, "is no length; a tray has 1 to 256")

    def test_comments_and_signs(self):
        self.wrong("x = y // z", "'//' starts no comment; a comment starts with #")
        self.wrong("// a block", "starts no comment")
        self.wrong("/* a block */", "starts no comment")
        self.wrong("x = y;", "the line ends with ';'")
        self.wrong("x = y; y = x", "write the next on a line of its own")
        self.wrong("x += y", "write `x = x + y`")
        self.wrong("x := y", "a value is set by =")
        self.wrong("x = y % z", "a remainder is `q = b / c`")
        self.wrong("x = y << k", "is `*` by a power of two")
        self.wrong("x = -y", "`zero = 0`, then `x = zero - y`")
        self.wrong("x = y × z", "'×' is no sign of the language; write *")
        self.wrong("x = y\u200b", "U+200B (ZERO WIDTH SPACE)")
        self.wrong("größe = 3", "stands in a name; names are made of a to z")

    def test_other_languages_forms(self):
        self.wrong("x = u32(k)", "write `x = to k`")
        self.wrong("x = to u32 k", "write `x = to k`")
        self.wrong("x = k as u32", "write `x = to k`")
        self.wrong("x = read(rate)", "write `x = read rate`")
        self.wrong("read rate", "sets nothing")
        self.wrong("if (x)", "write `if x`")
        self.wrong("if x then", "write `if x`")
        self.wrong("while 1", "stands as a test")
        self.wrong("if not x", "below `else`")
        self.wrong("endif", "write `end` alone")
        self.wrong("site(x)", "write `site x`")
        self.wrong("x = foo(y)", "calls a function")
        self.wrong("x = y z", "is no value")
        self.wrong("x =", "is set to nothing")
        self.wrong("site", "names no variable")

    def test_declarations(self):
        self.wrong("var q u9", "'u9' is no type")
        self.wrong("var q uint32", "did you mean u32?")
        self.wrong("var q int", "did you mean i32?")
        self.wrong("var u32 q", "the name comes first, as `var q u32`")
        self.wrong("var q", "'q' has no type; say which, as `var q u32`")
        self.wrong("var q, r u32", "declares several")
        self.wrong("var q u32 = 5", "sets a value")
        self.wrong("var 2q u32", "is no name")
        self.wrong("var x u32", "'x' is declared already in line 3")
        self.wrong("field if u8", "is a word of the language")
        self.wrong("tray t u8", "t has no length")
        self.wrong("tray t[4] u8", "did you mean `tray t u8 4`?")
        self.wrong("tray t u8 257", "a tray has 1 to 256")
        self.wrong("tray t u8 x", "is no length")

    def test_did_you_mean(self):
        self.wrong("x = rte", "'rte' is not declared; did you mean 'rate'?")
        self.wrong("x = shift[k]", "did you mean 'shifts'?")
        self.wrong("whlie x", "did you mean `while`?")
        self.wrong("vra q u32", "did you mean `var`?")
        self.wrong("x = unheard", "declare it above, as `var unheard u32`")
        self.wrong("x = rate", "'rate' is a field, and a variable is wanted; read it into a variable first, as `x = read rate`")
        self.wrong("x = shifts", "as `x = shifts[i]`")
        self.wrong("x = read y", "'y' is a variable, and a field is wanted")

    def test_types(self):
        self.wrong("x = k", "types differ: x is u32, k is u8; convert first", "`y = to k`")
        self.wrong("x = y + k", "types differ")
        self.wrong("x = read seconds", "types differ: x is u32, seconds is u16")
        self.wrong("shifts[k] = k", "types differ")

    def test_blocks(self):
        self.wrong("else", "this else belongs to no if")
        self.wrong("end", "this end closes nothing")
        self.wrong("while x", "this while has no end")
        self.assertIn("has no else; write `else` above this end", self.mistakes(HEAD + "if x\nend\n")[0])
        deep = self.mistakes(HEAD + "while x\n" * 5 + "end\n" * 5)
        self.assertEqual(deep, [f"R:{FIRST + 4}: this block is 5 deep; blocks nest at most 4 deep"])

    def test_too_many(self):
        self.assertIn("R:33: this is field 33; a recipe has at most 32", self.mistakes("".join(f"field f{i} u8\n" for i in range(40))))
        lines = self.mistakes("var a u8\n" + "a = 1\n" * 1100)
        self.assertEqual(lines, ["R:1026: this is statement 1,025; a recipe has at most 1,024"])

    def test_an_over_long_line(self):
        self.wrong("x = " + "y" * 2000, "the line has 2,004 characters; a line has at most 1,000")

    def test_all_mistakes_at_once_and_each_once(self):
        text = "var a u33\nvar b u32\nb = a\na = b + a\nb = c\nif d\nb = 1\nend\nb = 5000000000\n"
        lines = self.mistakes(text)
        self.assertEqual([line.split(":")[1] for line in lines], ["1", "5", "6", "8", "9"])

    def test_a_file_that_is_no_recipe_at_all(self):
        lines = self.mistakes("So it goes.\n" * 90_000)
        self.assertEqual(len(lines), 5001)
        self.assertEqual(lines[-1], "R:5000: over 5,000 mistakes; the lines below are not read")

    def test_lines_are_counted_as_editors_do(self):
        for ending in ("\n", "\r\n", "\r"):
            self.assertTrue(self.mistakes(f"var a u8{ending}{ending}# \x0c \x1c \u2028 here{ending}a = 300")[0].startswith("R:4: 300"))

    def test_a_wrong_text_is_told_in_the_files_name_and_nothing_is_written(self):
        folder = Folder(self)
        text, made = folder.put("r.txt", "var a u8\na = 300\nb = a\n"), folder.at("r.recipe")
        status, out, err = gate("recipe", "make", text, made)
        self.assertEqual((status, out), (3, ""))
        self.assertEqual([line.split(": ")[0] for line in err.splitlines()], [f"{text}:2", f"{text}:3"])
        self.assertEqual(folder.names(), ["r.txt"])

    def test_byte_order_marks_and_other_encodings(self):
        folder = Folder(self)
        marked = folder.put("marked.txt", b"\xef\xbb\xbfvar a u8\na = 1\nsite a\n")
        recipe = Recipe.read(marked)
        self.assertEqual(len(recipe.statements), 2)
        told = recipe.warnings[0].told("R", "warning: ")
        self.assertIn("R:1: warning: a byte order mark stands before the first line", told)
        wide = folder.put("wide.txt", "var a u8\n".encode("utf-16"))
        latin = folder.put("latin.txt", "var a u8\n# größe\n".encode("latin-1"))
        for path, part in ((wide, ":1: the text is in UTF-16; save it as UTF-8"), (latin, ":2: byte 0xf6 is not UTF-8")):
            with self.assertRaises(Trouble) as raised:
                Recipe.read(path)
            self.assertIn(path + part, str(raised.exception))

    def test_warnings(self):
        recipe = Recipe.from_text("field f u8\nvar a u8\nvar n u8\na = read f\nwhile n\nend\n")
        told = [warning.told("R", "warning: ") for warning in recipe.warnings]
        self.assertEqual(len(told), 2)
        self.assertIn("R: warning: the recipe has no site, so every sheet passes", told[0])
        self.assertIn("R:3: warning: n is never set, so it is 0 throughout", told[1])
        self.assertEqual(Recipe.from_text("var n u8\nn = 0\nsite n\n").warnings, [])


if __name__ == "__main__":
    unittest.main()
