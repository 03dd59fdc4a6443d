"""The documents are true: the commands of RECIPES.md give what it prints, and the mends of REFUSALS.md serve."""

import importlib
import os
import re
import subprocess
import unittest

from support import ROOT, Folder, cases, load

from survey_gate import Condition, Recipe, Sheet, check
from survey_gate.library import load as library


def blocks():
    """The indented blocks of RECIPES.md."""
    return re.findall(r"(?:^    .*\n)+", load(ROOT, "docs", "RECIPES.md").decode(), re.M)


class Recipes(unittest.TestCase):
    def examples(self):
        """The commands of the document with the lines below each."""
        found = []
        for block in blocks():
            for line in block.splitlines() if block.startswith("    $ ") else []:
                if line.startswith("    $ "):
                    found.append((line[6:], []))
                else:
                    found[-1][1].append(line[4:])
        return found

    def test_commands_print_what_the_document_says(self):
        os.makedirs(os.path.join(ROOT, "target"), exist_ok=True)
        examples = self.examples()
        self.assertGreater(len(examples), 12)
        for command, lines in examples:
            ran = subprocess.run(command.split(), cwd=ROOT, stdout=subprocess.PIPE, stderr=subprocess.STDOUT, text=True, check=False)
            self.assertEqual(ran.stdout.splitlines(), lines, command)

    def test_what_is_shown_of_recipes_stands_in_the_samples(self):
        names = [name for name in os.listdir(os.path.join(ROOT, "samples")) if name.endswith(".txt")]
        bare = re.sub(r"[ \t]+", " ", "\n".join(load(ROOT, "samples", name).decode() for name in names))
        parts = [block for block in blocks() if " = " in block and not block.startswith("    $ ")]
        self.assertEqual(len(parts), 6)
        for block in parts:
            for line in block.splitlines():
                self.assertIn(re.sub(r"[ \t]+", " ", line.strip()), bare)


class Refusals(unittest.TestCase):
    def test_the_package_has_the_page_of_the_documents(self):
        self.assertEqual(load(ROOT, "python", "survey_gate", "REFUSALS.md"), load(ROOT, "docs", "REFUSALS.md"))


class Mends(unittest.TestCase):
    """Each mend of 9, 10 and 11, beside what it mends."""

    LOADS = "field f u8\nvar a u8\nvar v u8\nvar i u8\nvar s u8\n"

    def answer(self, text):
        recipe = Recipe.from_text(text)
        return library().refusal(recipe.to_bytes()) or f"conjuncts {len(Condition.of(recipe).conjuncts)}"

    def test_9(self):
        head = "field f u64\nvar x u64\nvar m u64\nx = read f\n"
        self.assertEqual(self.answer(head + "x = x + x\n" * 7 + "site x\n"), 9)
        self.assertEqual(self.answer(head + "m = 128\nx = x * m\nsite x\n"), "conjuncts 1")
        self.assertEqual(self.answer(head + "x = x + x\n" * 4 + "site x\n"), "conjuncts 1")
        self.assertEqual(self.answer(head + "x = x + x\n" * 3 + "site x\n"), "conjuncts 1")

    def loads(self, cells, times, value="t[i]"):
        lines = f"a = {value}\ns = s + a\n" * times
        return self.answer(self.LOADS + f"tray t u8 {cells}\nv = read f\nt[i] = v\n" + lines + "site s\n")

    def test_10_by_loads(self):
        self.assertEqual(self.loads(8, 7), 10)
        self.assertEqual(self.loads(8, 6), "conjuncts 64")
        self.assertEqual(self.loads(1, 7), "conjuncts 1")
        self.assertEqual(self.loads(8, 7, "v"), "conjuncts 1")

    def test_10_by_branches(self):
        head = "field f u8\nvar g u8\nvar c u8\nvar s u8\n"
        branches = "".join(f"g = read f\nif g\nc = {k}\ns = s + c\nelse\nend\n" for k in range(1, 8))
        products = "".join(f"g = read f\nc = {k}\nc = c * g\ns = s + c\n" for k in range(1, 8))
        self.assertEqual(self.answer(head + branches + "site s\n"), 10)
        self.assertEqual(self.answer(head + products + "site s\n"), "conjuncts 1")

    def test_10_by_sites(self):
        head = "field f u8\nvar a u8\nvar c u8\n"
        sites = [f"c = {k}\na = read f\na = a + c\nsite a\n" for k in range(65)]
        self.assertEqual(self.answer(head + "".join(sites)), 10)
        self.assertEqual(self.answer(head + "".join(sites[:64])), "conjuncts 64")

    def test_11(self):
        head = "field f u8\nvar n u8\nvar one u8\nvar n32 u32\nvar x u32\nvar s u32\none = 1\ns = 5\nn = read f\n"
        self.assertEqual(self.answer(head + "while n\nx = x + s\nn = n - one\nend\nsite x\n"), 11)
        self.assertEqual(self.answer(head + "n32 = to n\nx = n32 * s\nsite x\n"), "conjuncts 1")


class WaysOut(unittest.TestCase):
    """The ways out of each cause of a hold, as REFUSALS.md names them."""

    def answer(self, lines, table, *, of="u8", in_type="u8"):
        """The gate's answer on a, b and c, read from fields of one type and worked in another."""
        fields, reads = "".join(f"field {name} {of}\nvar {name}0 {of}\n" for name in "fgh"), ""
        for name, field in zip("abc", "fgh"):
            reads += f"var {name} {in_type}\n{field}0 = read {field}\n{name} = to {field}0\n"
        recipe = Recipe.from_text(fields + reads + lines + "site a\n")
        verdict = check(recipe, Sheet.from_csv("f,g,h\n" + table, recipe))
        return "pass" if verdict.passed else f"held {verdict.cause}"

    def test_too_big(self):
        product = "a = a * b\n"
        self.assertEqual(self.answer(product, "16,16,0\n"), "held too big")
        self.assertEqual(self.answer(product, "16,15,0\n"), "pass")
        self.assertEqual(self.answer(product, "16,16,0\n", in_type="u16"), "pass")

    def test_too_small(self):
        difference, product = "a = a - b\n", "a = a * b\n"
        self.assertEqual(self.answer(difference, "3,5,0\n"), "held too small")
        self.assertEqual(self.answer(difference, "5,3,0\n"), "pass")
        self.assertEqual(self.answer(difference, "3,5,0\n", in_type="u64"), "held too small")
        self.assertEqual(self.answer(difference, "3,5,0\n", in_type="i16"), "pass")
        self.assertEqual(self.answer(product, "-100,2,0\n", of="i8", in_type="i8"), "held too small")
        self.assertEqual(self.answer(product, "-100,2,0\n", of="i8", in_type="i16"), "pass")

    def test_no_divisor(self):
        quotient, by_difference = "a = a / b\n", "b = b - c\na = a / b\n"
        for lines, zero, other in ((quotient, "3,0,0\n", "3,1,0\n"), (by_difference, "3,7,7\n", "3,7,6\n")):
            for in_type in ("u8", "u64", "i64"):
                self.assertEqual(self.answer(lines, zero, in_type=in_type), "held no divisor")
                self.assertEqual(self.answer(lines, other, in_type=in_type), "pass")

    def test_another_cause_behind_the_first(self):
        lines = "b = a - b\na = a * a\na = b + a\n"
        answers = [self.answer(lines, table) for table in ("20,30,0\n", "20,10,0\n", "15,10,0\n")]
        self.assertEqual(answers, ["held too small", "held too big", "pass"])


class Cases(unittest.TestCase):
    """cases/CASES.md is what its generator writes, and says rightly which files the programs have."""

    def test_the_table_is_of_these_cases(self):
        self.assertEqual(load(ROOT, "cases", "CASES.md").decode(), importlib.import_module("table").table())

    def files(self, crate):
        """The stored files of a crate: its output, and its data by name."""
        names = sorted(os.listdir(os.path.join(crate, "data")))
        return load(crate, "stdout"), {name: load(crate, "data", name) for name in names}

    def test_the_stored_files_are_what_the_generators_write(self):
        folder = Folder(self)
        importlib.import_module("cases").write(folder.path)
        self.assertEqual(self.files(folder.path), self.files(os.path.join(ROOT, "crates", "cases")))

    def test_the_files_of_the_programs(self):
        outside = {case.number: case for case in cases()}
        for program, case, kinds in (
            ("gate", "001", ("condition", "sheet")),
            ("run", "036", ("recipe", "sheet", "choices")),
            ("guarded", "036", ("recipe", "sheet", "choices")),
        ):
            for kind in kinds:
                self.assertEqual(load(ROOT, "crates", program, "data", kind), outside[case].content(kind), program)
        (trap,) = [one.old for _, one in importlib.import_module("cases").converting_cases() if one.what.startswith("40 fields")]
        self.assertEqual(load(ROOT, "crates", "convert", "data", "old"), trap)


if __name__ == "__main__":
    unittest.main()
