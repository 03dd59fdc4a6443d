"""What the tests share: where the stored data is, and the command run within the test's process."""

import contextlib
import glob
import io
import os
import sys
import tempfile

HERE = os.path.dirname(os.path.abspath(__file__))
ROOT = os.path.dirname(os.path.dirname(HERE))
sys.path[:0] = [os.path.join(ROOT, "python"), os.path.join(ROOT, "cases", "generators")]

from survey_gate.cli import main  # noqa: E402
from vectors import VECTORS, cases  # noqa: E402, F401

SAMPLES = os.path.join(ROOT, "samples")
LAUNCHER = os.path.join(ROOT, "survey-gate")


def stored(kind):
    """The stored files of a kind: of the outside vectors and of the crates."""
    outside = glob.glob(os.path.join(VECTORS, "*", f"*.{kind}"))
    crates = glob.glob(os.path.join(ROOT, "crates", "*", "data", f"*.{kind}"))
    return sorted(outside + crates + glob.glob(os.path.join(ROOT, "crates", "*", "data", kind)))


def load(*parts):
    with open(os.path.join(*parts), "rb") as source:
        return source.read()


def refusal(answer):
    """The number of an answer `refused K`, else 0."""
    return int(answer.split()[1]) if answer.startswith("refused") else 0


def gate(*words):
    """The command within this process: its status, standard output and standard error."""
    out, err = io.StringIO(), io.StringIO()
    with contextlib.redirect_stdout(out), contextlib.redirect_stderr(err):
        status = main(list(words))
    return status, out.getvalue(), err.getvalue()


class Folder:
    """A folder of its own for a test, with files by name."""

    def __init__(self, test):
        held = tempfile.TemporaryDirectory()
        test.addCleanup(held.cleanup)
        self.path = held.name

    def at(self, name):
        return os.path.join(self.path, name)

    def put(self, name, content):
        data = content.encode("utf-8") if isinstance(content, str) else content
        with open(self.at(name), "wb") as out:
            out.write(data)
        return self.at(name)

    def names(self):
        return sorted(os.listdir(self.path))
