"""A line on standard error about work that takes over a second: how far it is, and what is left by estimate.

The work of a sheet is known beforehand: its conjuncts' nodes times their combinations. While the gate works on
it nothing is heard of it, so the share that is done is reckoned from the time; `tick` counts what is heard of.
"""

from __future__ import annotations

import sys
import threading
import time
from typing import Optional, TextIO

QUIET_SECONDS = 1.0
TERMINAL_SECONDS = 0.5
FILE_SECONDS = 10.0
TELLING_SECONDS = 0.1
NODES_A_SECOND = 1.0e9


class Progress:
    """Progress over a number of sheets; nothing is printed in the first second, nor if quiet."""

    def __init__(self, sheets: int, quiet: bool = False, stream: Optional[TextIO] = None) -> None:
        self.sheets = sheets
        self.stream = stream or sys.stderr
        self.done = 0
        self.name = ""
        self.work = 0
        self.heard = 0
        self.reckoned = True
        self.speed = NODES_A_SECOND
        self.began = self.sheet_began = time.monotonic()
        self.shown = False
        self._over = threading.Event()
        self._thread = None if quiet else threading.Thread(target=self._watch, daemon=True)

    def __enter__(self) -> "Progress":
        if self._thread:
            self._thread.start()
        return self

    def __exit__(self, *_: object) -> None:
        self._over.set()
        if self._thread:
            self._thread.join()
        self.clear()

    def sheet(self, name: str, work: int) -> None:
        """A sheet is begun, of so many nodes."""
        self.name, self.work, self.heard, self.reckoned = name, work, 0, True
        self.sheet_began = time.monotonic()

    def tick(self, work: int) -> None:
        """So many nodes more have been worked, in the search for a reason."""
        self.reckoned = False
        self.heard += work

    def finished(self) -> None:
        """The sheet is done. A long one says how fast this machine is."""
        spent = time.monotonic() - self.sheet_began
        if self.reckoned and self.work and spent > TELLING_SECONDS:
            self.speed = self.work / spent
        self.done += 1
        self.work = 0

    def clear(self) -> None:
        """Takes the line away, so that another can be printed in its place."""
        if self.shown and self.stream.isatty():
            self.stream.write("\r\x1b[K")
            self.stream.flush()
        self.shown = False

    def line(self, now: float) -> str:
        """How far the work is; without sheets it is the search for a refusal's cause."""
        if not self.sheets:
            return f"survey-gate: the recipe is refused, and its cause is looked for, {now - self.began:.0f} s so far"
        text = f"survey-gate: sheet {min(self.done + 1, self.sheets)} of {self.sheets}"
        left = self.left(now)
        if self.work:
            verb = "checked" if self.reckoned else "searched for the reason of its hold"
            text += f", {self.name}: some {100 * self.share(now):.0f} % {verb}"
        return f"{text}, {now - self.began:.0f} s so far, about {left:.0f} s to go"

    def share(self, now: float) -> float:
        """The part of this sheet's work that is done, by count or by the time."""
        if not self.work:
            return 1.0
        worked = (now - self.sheet_began) * self.speed if self.reckoned else self.heard
        return min(worked / self.work, 0.99)

    def left(self, now: float) -> float:
        """The seconds that are left: of this sheet, and as long for each other as those before took."""
        spent, share = now - self.sheet_began, self.share(now)
        if self.reckoned:
            here = max(self.work / self.speed - spent, 0.0)
        else:
            here = spent * (1 - share) / share if share else 0.0
        each = (self.sheet_began - self.began) / self.done if self.done else spent + here
        return here + each * max(self.sheets - self.done - 1, 0)

    def _watch(self) -> None:
        """Prints the line from the first second on, until the work is over."""
        if self._over.wait(QUIET_SECONDS):
            return
        while True:
            terminal = self.stream.isatty()
            text = self.line(time.monotonic())
            self.stream.write(f"\r\x1b[K{text}" if terminal else f"{text}\n")
            self.stream.flush()
            self.shown = True
            if self._over.wait(TERMINAL_SECONDS if terminal else FILE_SECONDS):
                return
