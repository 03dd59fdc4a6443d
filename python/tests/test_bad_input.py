"""Bad input: garbage, empty and huge files, folders, no permission, a full disk. One line, status 3, nothing half written."""

import ast
import json
import os
import resource
import subprocess
import sys
import unittest

from support import LAUNCHER, SAMPLES, Folder, gate, load

from survey_gate import Trouble
from survey_gate.library import _cause as cause_in
from survey_gate.ranges import CAUSES

BLOCK = os.path.join(SAMPLES, "block.txt")
PASSES = os.path.join(SAMPLES, "passes.csv")
NOBODY = 65534


def as_nobody(*words):
    """The command in a process without a superuser's rights."""
    read, write = os.pipe()
    child = os.fork()
    if not child:
        if os.geteuid() == 0:
            os.setgroups([])
            os.setgid(NOBODY)
            os.setuid(NOBODY)
        os.write(write, repr(gate(*words)).encode())
        os._exit(0)
    os.close(write)
    with os.fdopen(read, "rb") as answer:
        told = ast.literal_eval(answer.read().decode())
    os.waitpid(child, 0)
    return told


class Inputs(unittest.TestCase):
    """Each bad file in the place of each input."""

    def setUp(self):
        self.folder = Folder(self)
        self.output = self.folder.at("output")

    def commands(self, bad):
        log = self.folder.put("log", b"")
        yield ("check", bad, PASSES)
        yield ("check", BLOCK, bad)
        yield ("check", "--condition", bad, BLOCK, PASSES)
        yield ("run", bad, PASSES, self.output)
        yield ("run", BLOCK, bad, self.output)
        yield ("list", bad)
        yield ("list", "--raw", bad)
        yield ("derive", bad, self.output)
        yield ("recipe", "make", bad, self.output)
        yield ("recipe", "show", bad)
        yield ("sheet", "make", bad, PASSES, self.output)
        yield ("sheet", "make", BLOCK, bad, self.output)
        yield ("sheet", "show", BLOCK, bad, self.output)
        yield ("records", bad, log)

    def is_trouble(self, bad, *but):
        for words in self.commands(bad):
            if words[0] in but or (words[1] == "--condition" and "condition" in but):
                continue
            status, out, err = gate(*words)
            self.assertEqual((status, out, err.count("\n")), (3, "", 1), (words, err))
            self.assertTrue(err.startswith(bad), err)
            self.assertFalse(os.path.exists(self.output), words)

    def test_binary_garbage(self):
        self.is_trouble(self.folder.put("garbage", bytes(range(255, -1, -1)) * 3), "condition")
        self.is_trouble(self.folder.put("zeros", bytes(1000)), "condition")
        self.is_trouble(self.folder.put("program", load(sys.executable)[:5000]), "condition")

    def test_garbage_as_a_condition_is_refusal_12(self):
        bad = self.folder.put("garbage", bytes(range(255, -1, -1)) * 3)
        self.assertEqual(gate("check", "--condition", bad, BLOCK, PASSES)[0], 2)

    def test_empty_files(self):
        self.is_trouble(self.folder.put("empty", b""), "condition")
        self.is_trouble(self.folder.put("blank", b" \n\n\t\n"), "condition")

    def test_huge_files(self):
        huge = self.folder.at("huge")
        with open(huge, "wb") as out:
            out.truncate(1 << 40)
        self.is_trouble(huge)
        self.assertIn("over 1,048,576 bytes", gate("check", BLOCK, huge)[2])
        self.is_trouble("/dev/zero")

    def test_a_huge_choice_file_and_a_huge_log(self):
        huge = self.folder.at("huge")
        with open(huge, "wb") as out:
            out.truncate(1 << 40)
        for words in (("run", BLOCK, PASSES, self.output, "--choices", huge), ("records", BLOCK, huge)):
            status, out, err = gate(*words)
            self.assertEqual((status, out, err.count("\n")), (3, "", 1), words)

    def test_a_huge_text_of_lines(self):
        self.is_trouble(self.folder.put("lines", "x = y\n" * 200_000))

    def test_folders(self):
        self.is_trouble(self.folder.path)

    def test_files_that_are_not_there(self):
        self.is_trouble(self.folder.at("none"))
        self.is_trouble(self.folder.at("none") + "/below")

    def test_a_name_that_no_file_has(self):
        self.assertEqual(gate("check", BLOCK, "a\0b"), (3, "", "a\\x00b: no file's name\n"))

    @unittest.skipUnless(hasattr(os, "geteuid"), "no users here")
    def test_no_permission(self):
        closed = self.folder.put("closed", load(BLOCK))
        os.chmod(closed, 0)
        os.chmod(self.folder.path, 0o755)
        shut = self.folder.at("shut")
        os.mkdir(shut, 0o555)
        gate("check", BLOCK, PASSES)  # so that all modules are loaded
        for words in (("check", closed, PASSES), ("check", BLOCK, closed), ("derive", BLOCK, os.path.join(shut, "c"))):
            status, out, err = as_nobody(*words)
            self.assertEqual((status, out, err.count("\n")), (3, "", 1), err)
            self.assertIn("Permission denied", err)
        self.assertEqual(os.listdir(shut), [])


class Outputs(unittest.TestCase):
    """A full disk, by a device that is always full and by a bound on the size of files."""

    def setUp(self):
        self.folder = Folder(self)
        self.commands = [
            ("derive", BLOCK),
            ("recipe", "make", BLOCK),
            ("recipe", "show", BLOCK),
            ("sheet", "make", BLOCK, PASSES),
            ("sheet", "show", BLOCK, PASSES),
        ]

    def test_a_full_device(self):
        for words in self.commands:
            status, out, err = gate(*words, "/dev/full")
            self.assertEqual((status, out, err), (3, "", "/dev/full: No space left on device\n"), words)
        self.assertEqual(gate("choices", "/dev/full", "0")[2], "/dev/full: No space left on device\n")
        status, out, err = gate("run", BLOCK, PASSES, "/dev/full", "--take", "1,1,0,1,1,1")
        self.assertEqual((status, out, err), (3, "", "/dev/full: No space left on device\n"))

    def test_a_full_disk_leaves_what_was_there(self):
        for words in self.commands:
            output = self.folder.put("output", b"older")
            ran = subprocess.run(
                [sys.executable, "-B", LAUNCHER, *words, output], capture_output=True, text=True, check=False,
                preexec_fn=lambda: resource.setrlimit(resource.RLIMIT_FSIZE, (20, 20)),
            )
            self.assertEqual((ran.returncode, ran.stdout, ran.stderr), (3, "", f"{output}: File too large\n"))
            self.assertEqual((load(output), self.folder.names()), (b"older", ["output"]))

    def test_standard_output_is_full(self):
        for words in (("check", BLOCK, PASSES), ("list", BLOCK), ("recipe", "show", BLOCK), ("--explain", "9")):
            with open("/dev/full", "wb") as full:
                ran = subprocess.run([LAUNCHER, *words], stdout=full, stderr=subprocess.PIPE, text=True, check=False)
            self.assertEqual((ran.returncode, ran.stderr), (3, "survey-gate: standard output: No space left on device\n"))

    def test_standard_output_is_closed(self):
        read, write = os.pipe()
        os.close(read)
        ran = subprocess.run([LAUNCHER, "check", BLOCK, PASSES], stdout=write, stderr=subprocess.PIPE, text=True, check=False)
        os.close(write)
        self.assertEqual((ran.returncode, ran.stderr), (3, ""))

    def test_streams_that_are_closed_from_the_start(self):
        for closing, stdout in ((">&-", ""), ("2>&-", f"{PASSES}: pass\n")):
            command = f'"{LAUNCHER}" check "{BLOCK}" "{PASSES}" {closing}'
            ran = subprocess.run(["sh", "-c", command], capture_output=True, text=True, check=False)
            self.assertEqual((ran.returncode, ran.stdout, ran.stderr), (0, stdout, ""))

    def test_an_encoding_that_lacks_a_sign(self):
        narrow = {**os.environ, "PYTHONIOENCODING": "ascii", "PYTHONUTF8": "0"}
        held = os.path.join(SAMPLES, "held.csv")
        ran = subprocess.run([LAUNCHER, "check", "--json", BLOCK, held], capture_output=True, text=True, check=False, env=narrow)
        self.assertIn("channels=3 × (rate", json.loads(ran.stdout)["reason"])
        ran = subprocess.run([LAUNCHER, "check", BLOCK, held], capture_output=True, text=True, check=False, env=narrow)
        self.assertEqual((ran.returncode, ran.stderr), (1, ""))
        self.assertIn("channels=3 \\xd7 (rate", ran.stdout)

    def test_outputs_that_are_folders_or_below_none(self):
        for output in (self.folder.path, self.folder.at("none/c"), self.folder.put("file", b"") + "/c"):
            status, out, err = gate("derive", BLOCK, output)
            self.assertEqual((status, out, err.count("\n")), (3, "", 1), err)
        self.assertEqual(self.folder.names(), ["file"])


class Libraries(unittest.TestCase):
    def test_a_library_that_is_not_there_or_not_the_gates(self):
        folder = Folder(self)
        for path in (folder.at("none.so"), folder.put("garbage.so", b"garbage"), "libc.so.6"):
            ran = subprocess.run(
                [LAUNCHER, "check", BLOCK, PASSES], capture_output=True, text=True, check=False,
                env={**os.environ, "SURVEY_GATE_LIB": path},
            )
            self.assertEqual((ran.returncode, ran.stdout, ran.stderr.count("\n")), (3, "", 1), ran.stderr)
            self.assertTrue(ran.stderr.startswith(f"{path}: not the gate's library"))

    def test_an_answer_that_is_no_verdict(self):
        """As of an older library, whose hold has no cause: it is never taken for a pass, nor for some cause."""
        for answer in (1, 2, 256, 1 + 256 * 4):
            with self.assertRaises(Trouble) as raised:
                cause_in(answer)
            self.assertIn(f"answers {answer} to a check, which is no verdict", str(raised.exception))
        self.assertEqual([cause_in(answer) for answer in (0, 257, 513, 769)], [None, *CAUSES])


if __name__ == "__main__":
    unittest.main()
