"""Progress: silent for a second, then how far and about how long; and the pages that --explain prints."""

import io
import time
import unittest

from support import gate

from survey_gate import progress
from survey_gate.progress import Progress
from survey_gate.refusals import MEANINGS


class Terminal(io.StringIO):
    def isatty(self):
        return True


class Lines(unittest.TestCase):
    def shown(self, stream, seconds, quiet=False):
        before = progress.QUIET_SECONDS
        progress.QUIET_SECONDS = 0.05
        self.addCleanup(setattr, progress, "QUIET_SECONDS", before)
        with Progress(3, quiet, stream) as watched:
            watched.sheet("a.csv", int(progress.NODES_A_SECOND))
            time.sleep(seconds)
        return stream.getvalue()

    def test_short_work_is_silent(self):
        self.assertEqual(self.shown(Terminal(), 0.0), "")

    def test_long_work_is_told(self):
        told = self.shown(io.StringIO(), 0.6)
        self.assertRegex(told, r"^survey-gate: sheet 1 of 3, a\.csv: some \d+ % checked, \d+ s so far, about \d+ s to go\n$")

    def test_a_terminals_line_is_taken_away(self):
        told = self.shown(Terminal(), 0.6)
        self.assertTrue(told.startswith("\r\x1b[Ksurvey-gate: sheet 1 of 3"))
        self.assertTrue(told.endswith("\r\x1b[K"))

    def test_quiet(self):
        self.assertEqual(self.shown(Terminal(), 0.2, quiet=True), "")

    def test_estimates(self):
        watched = Progress(3, True)
        watched.sheet("a.csv", int(4 * progress.NODES_A_SECOND))
        now = watched.sheet_began
        self.assertAlmostEqual(watched.share(now + 1), 0.25)
        self.assertAlmostEqual(watched.left(now + 1), 3 + 2 * 4)
        watched.tick(int(progress.NODES_A_SECOND))
        self.assertAlmostEqual(watched.left(now + 10), 30 + 2 * 40)
        self.assertIn("searched for the reason of its hold", watched.line(now + 10))


    def test_a_long_sheet_says_how_fast_the_machine_is(self):
        watched = Progress(3, True)
        watched.sheet("a.csv", 1000)
        watched.sheet_began -= 2
        watched.finished()
        self.assertAlmostEqual(watched.speed, 500, delta=5)


class Pages(unittest.TestCase):
    def test_each_refusal_has_its_page(self):
        for number, meaning in MEANINGS.items():
            status, out, err = gate("--explain", str(number))
            self.assertEqual((status, err), (0, ""))
            self.assertEqual(out.splitlines()[0], f"## {number}: {meaning}")
            self.assertIn("Mend: ", out)


if __name__ == "__main__":
    unittest.main()
