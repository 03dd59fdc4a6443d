"""run, derive, records and choices: as stored, written whole, and nothing left under the output's name after a hold."""

import json
import os
import subprocess
import unittest

from support import LAUNCHER, SAMPLES, Folder, cases, gate, load, refusal

from survey_gate import Recipe
from survey_gate.records import choice_file, from_choice_file, records_of
from survey_gate.library import load as library

BLOCK = os.path.join(SAMPLES, "block.txt")
LOOP = os.path.join(SAMPLES, "loop.txt")
PASSES = os.path.join(SAMPLES, "passes.csv")
HELD = os.path.join(SAMPLES, "held.csv")
BLANK = os.path.join(SAMPLES, "blank.csv")
TAKE = ("--take", "1,1,0,1,1,1")


class Stored(unittest.TestCase):
    def test_stored_runs(self):
        for case in cases():
            if refusal(case.run):
                continue
            limit, choices = from_choice_file(case.content("choices"))
            room = int(case.room) // 12
            ran = library().run(case.content("recipe"), case.content("sheet"), limit, choices, room)
            if room or case.run.split()[1] != "4":
                told = f"end {ran.end} steps {ran.steps} records {len(ran.log) // 12}"
                self.assertEqual((told, ran.log), (case.run, case.content("log")), case)


class Runs(unittest.TestCase):
    def test_a_sheet_that_passes_is_run(self):
        folder = Folder(self)
        log = folder.at("a.log")
        status, out, err = gate("run", BLOCK, PASSES, log, *TAKE)
        self.assertEqual((status, err), (0, ""))
        self.assertEqual(out, f"{PASSES}: pass; end 0 (finished) after 31 steps, 2 records in {log}\n")
        self.assertEqual(gate("records", BLOCK, log), (0, "label 6: bytes = 23040000\nlabel 18: last = 207360000\n", ""))
        self.assertEqual(json.loads(gate("records", "--json", BLOCK, log)[1].splitlines()[0])["value"], 23040000)

    def test_a_choice_file_does_the_same(self):
        folder = Folder(self)
        choices, one, other = folder.at("c"), folder.at("1.log"), folder.at("2.log")
        self.assertEqual(gate("choices", choices, "0", "1", "1", "0", "1", "1", "1"), (0, "", ""))
        gate("run", BLOCK, PASSES, one, *TAKE)
        self.assertEqual(gate("run", BLOCK, PASSES, other, "--choices", choices)[0], 0)
        self.assertEqual(load(one), load(other))
        status, out, _ = gate("run", BLOCK, PASSES, other, "--choices", choices, "--limit", "3")
        self.assertIn("end 1 (step limit) after 3 steps", out)

    def test_ends(self):
        folder = Folder(self)
        log = folder.at("a.log")
        self.assertIn("end 3 (choices used up) after 0 steps, 0 records", gate("run", BLOCK, PASSES, log)[1])
        self.assertIn("end 2 (field without readings)", gate("run", "--unguarded", BLOCK, BLANK, log, *TAKE)[1])

    def test_a_blank_column_that_a_conjunct_reads_leaves_no_log(self):
        folder = Folder(self)
        log = folder.put("a.log", b"older")
        status, out, err = gate("run", BLOCK, BLANK, log, *TAKE)
        told = "refused 15: a field that a conjunct reads has no readings: the column rate is blank, and conjunct 0 reads rate"
        self.assertEqual((status, out, err), (2, f"{BLANK}: {told}; the older {log} is now {log}.old\n", ""))
        self.assertEqual(folder.names(), ["a.log.old"])
        parts = json.loads(gate("run", "--json", BLOCK, BLANK, log, *TAKE)[1])
        self.assertEqual((parts["verdict"], parts["refusal"], parts["file"]), ("refused", 15, BLANK))

    def test_a_blank_column_that_no_conjunct_reads_passes_and_ends_the_run(self):
        folder = Folder(self)
        windows = os.path.join(SAMPLES, "windows.txt")
        blank, log = os.path.join(SAMPLES, "windows-blank.csv"), folder.at("a.log")
        status, out, err = gate("run", windows, blank, log, "--take", "0,0,0,0")
        self.assertEqual((status, out), (0, f"{blank}: pass; end 2 (field without readings) after 7 steps, 0 records in {log}\n"))
        self.assertIn(f"{blank}:1: warning: the column windows is blank; ", err)

    def test_a_held_sheet_leaves_no_log(self):
        folder = Folder(self)
        log = folder.at("a.log")
        status, out, _ = gate("run", BLOCK, HELD, log, *TAKE)
        self.assertEqual((status, folder.names()), (1, []))
        self.assertTrue(out.startswith(f"{HELD}: held too big: "), out)
        gate("run", BLOCK, PASSES, log, *TAKE)
        older = load(log)
        for aside in ("a.log.old", "a.log.old2"):
            status, out, _ = gate("run", BLOCK, HELD, log, *TAKE)
            self.assertEqual(status, 1)
            self.assertIn(f"; the older {log} is now {folder.at(aside)}\n", out)
            self.assertEqual(load(folder.at(aside)), older)
            self.assertFalse(os.path.exists(log))
            gate("run", BLOCK, PASSES, log, *TAKE)

    def test_a_refused_recipe_leaves_no_log_and_no_condition(self):
        folder = Folder(self)
        output = folder.put("out", b"older")
        for words in (("run", LOOP, folder.put("e.sheet", b""), output), ("derive", LOOP, output)):
            folder.put("out", b"older")
            status, out, _ = gate(*words)
            self.assertEqual(status, 2)
            self.assertIn("refused 11", out)
            self.assertIn(f"the older {output} is now {output}.old", out)
            self.assertFalse(os.path.exists(output))

    def test_a_refused_sheet_leaves_no_log(self):
        folder = Folder(self)
        output = folder.put("out", b"older")
        status, out, _ = gate("run", BLOCK, folder.put("s", bytes([8, 0, 0, 0, 0, 0, 0, 0])), output)
        self.assertEqual((status, os.path.exists(output)), (2, False))
        self.assertIn("refused 13", out)

    def test_unguarded(self):
        folder = Folder(self)
        log = folder.at("a.log")
        status, out, _ = gate("run", "--unguarded", BLOCK, HELD, log, *TAKE)
        self.assertEqual((status, out), (0, f"{HELD}: not gated; end 0 (finished) after 31 steps, 2 records, 1 OVERFLOWED, in {log}\n"))
        self.assertIn("last = 200261632 OVERFLOWED", gate("records", BLOCK, log)[1])

    def test_json(self):
        folder = Folder(self)
        parts = json.loads(gate("run", "--json", BLOCK, PASSES, folder.at("a.log"), *TAKE)[1])
        self.assertEqual((parts["verdict"], parts["end"], parts["steps"]), ("pass", 0, 31))
        self.assertEqual(parts["records"][0], {"label": 6, "variable": "bytes", "value": 23040000, "overflowed": False})


    def test_json_says_where_an_older_log_is(self):
        folder = Folder(self)
        log = folder.put("a.log", b"")
        parts = json.loads(gate("run", "--json", BLOCK, HELD, log, *TAKE)[1])
        told = ("held", "too big", f"the older {log} is now {log}.old")
        self.assertEqual((parts["verdict"], parts["cause"], parts["note"]), told)


class Outputs(unittest.TestCase):
    def test_derive(self):
        folder = Folder(self)
        output = folder.at("c")
        self.assertEqual(gate("derive", BLOCK, output), (0, f"{BLOCK}: conjuncts 3 in {output}\n", ""))
        self.assertEqual(len(load(output)), 278)

    def test_an_output_that_is_an_input_is_refused(self):
        folder = Folder(self)
        recipe, sheet = folder.put("r.txt", load(BLOCK)), folder.put("s.csv", load(PASSES))
        choices = folder.put("c", choice_file(0, [1]))
        link, hard = folder.at("link"), folder.at("hard")
        os.symlink(recipe, link)
        os.link(recipe, hard)
        for words in (
            ("recipe", "make", recipe, recipe),
            ("recipe", "show", recipe, link),
            ("recipe", "make", recipe, hard),
            ("derive", recipe, os.path.join(folder.path, ".", "r.txt")),
            ("sheet", "make", recipe, sheet, sheet),
            ("sheet", "make", recipe, sheet, recipe),
            ("sheet", "show", recipe, sheet, sheet),
            ("run", recipe, sheet, sheet),
            ("run", recipe, sheet, choices, "--choices", choices),
        ):
            status, out, err = gate(*words)
            self.assertEqual((status, out, err.count("\n")), (3, "", 1), words)
            self.assertIn("it is one of the inputs", err)
        self.assertEqual((load(recipe), load(sheet)), (load(BLOCK), load(PASSES)))

    def test_a_link_stays_and_modes_are_kept(self):
        folder = Folder(self)
        real, link = folder.put("real", b""), folder.at("link")
        os.symlink(real, link)
        os.chmod(real, 0o640)
        self.assertEqual(gate("derive", BLOCK, link)[0], 0)
        self.assertTrue(os.path.islink(link))
        self.assertEqual((len(load(real)), os.stat(real).st_mode & 0o777), (278, 0o640))

    def test_a_pipe_is_written_as_it_stands(self):
        ran = subprocess.run([LAUNCHER, "derive", "-q", BLOCK, "/dev/stdout"], capture_output=True, check=False)
        self.assertEqual((ran.returncode, len(ran.stdout), ran.stderr), (0, 278, b""))

    def test_choices_and_logs(self):
        self.assertEqual(from_choice_file(choice_file(7, [1, 2])), (7, b"\1\0\2\0"))
        self.assertEqual([from_choice_file(data) for data in (b"", b"\3", b"\0\0\0\0\5")], [(10000, b""), (3, b""), (10000, b"\5")])
        recipe = Recipe.from_text("var a i32\na = -5\nsite a\n")
        log = bytes([1, 0, 1, 0]) + (-5).to_bytes(8, "little", signed=True)
        self.assertEqual([str(record) for record in records_of(log, recipe)], ["label 1: a = -5 OVERFLOWED"])

    def test_a_log_of_another_recipe_is_trouble(self):
        folder = Folder(self)
        recipe = folder.put("r.txt", "var a i32\na = -5\nsite a\n")
        for data, part in ((bytes(11), "11 bytes"), (bytes(12), "which is no site"), (b"\1\0\2\0" + bytes(8), "is damaged")):
            status, out, err = gate("records", recipe, folder.put("log", data))
            self.assertEqual((status, out, err.count("\n")), (3, "", 1))
            self.assertIn(part, err)


if __name__ == "__main__":
    unittest.main()
