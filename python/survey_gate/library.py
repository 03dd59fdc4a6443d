"""The proved gate as a shared library: the functions of include/gate.h, with bytes in and out.

Each function is proved to equal document 01's definition for every input; here a refusal becomes Refused. The
library is found by the variable SURVEY_GATE_LIB, else beside this package, else in the repository's
target/staticlib, where `python/build` writes it.
"""

from __future__ import annotations

import ctypes
import os
import threading
from functools import lru_cache
from typing import Callable, NamedTuple, Optional, Tuple

from .ranges import CAUSES
from .sizes import CONDITION_ROOM, LONGEST_RECIPE, RECORD_BYTES
from .trouble import Refused, Trouble, shown

HERE = os.path.dirname(os.path.realpath(__file__))
ROOT = os.path.dirname(os.path.dirname(HERE))
NAME = "libgate.so"
VARIABLE = "SURVEY_GATE_LIB"
PLACES = (os.path.join(HERE, NAME), os.path.join(ROOT, "target", "staticlib", NAME))
VERDICT_HELD, END_HELD = 1, 5


class Ran(NamedTuple):
    """A run: its end, the steps that it took and its log."""

    end: int
    steps: int
    log: bytes


class Library:
    """The functions of the gate. Scratch is lent once; calls that take it wait for each other."""

    def __init__(self, path: str) -> None:
        try:
            self._gate = ctypes.CDLL(path)
            _declare(self._gate)
        except (OSError, AttributeError) as error:
            raise Trouble(f"{shown(path)}: not the gate's library ({shown(str(error))})") from None
        words = self._gate.gate_scratch()
        self._scratch = (ctypes.c_uint64 * words)()
        self._condition = ctypes.create_string_buffer(CONDITION_ROOM)
        self._lock = threading.Lock()

    def derive(self, recipe: bytes) -> bytes:
        """The recipe's condition file."""
        with self._lock:
            answer = self._gate.gate_derive(recipe, len(recipe), *self._lent())
            return self._condition[: _taken(answer)]

    def convert(self, old: bytes) -> bytes:
        """The recipe's file of a file of the old form."""
        recipe = ctypes.create_string_buffer(LONGEST_RECIPE)
        with self._lock:
            answer = self._gate.gate_convert(old, len(old), recipe, len(recipe), self._scratch, len(self._scratch))
        return recipe[: _taken(answer)]

    def refusal(self, recipe: bytes) -> int:
        """The number with which the recipe is refused, or 0."""
        with self._lock:
            return self._gate.gate_derive(recipe, len(recipe), *self._lent()) >> 32

    def answer(self, call: "Callable[[Library], object]") -> int:
        """The number with which a call is refused, or 0."""
        try:
            call(self)
        except Refused as refused:
            return refused.number
        return 0

    def check(self, condition: bytes, sheet: bytes) -> Optional[str]:
        """Why the sheet is held under the condition, one of CAUSES; nothing where it passes."""
        return _cause(_taken(self._gate.gate_check(condition, len(condition), sheet, len(sheet))))

    def run(self, recipe: bytes, sheet: bytes, limit: int, choices: bytes, records: int) -> Ran:
        """The run, with room for so many records."""
        log, steps, written = _lent_log(records)
        with self._lock:
            answer = self._gate.gate_run(
                recipe, len(recipe), sheet, len(sheet), limit, choices, len(choices),
                log, len(log), self._scratch, len(self._scratch), ctypes.byref(steps), ctypes.byref(written),
            )
        return Ran(_taken(answer), steps.value, log[: written.value * RECORD_BYTES])

    def guarded(self, recipe: bytes, sheet: bytes, limit: int, choices: bytes, records: int) -> Tuple[bool, Ran]:
        """Whether the sheet passes, and then the run behind the gate."""
        log, steps, written = _lent_log(records)
        with self._lock:
            answer = self._gate.gate_guarded(
                recipe, len(recipe), sheet, len(sheet), limit, choices, len(choices),
                log, len(log), *self._lent(), ctypes.byref(steps), ctypes.byref(written),
            )
        end = _taken(answer)
        return end != END_HELD, Ran(end, steps.value, log[: written.value * RECORD_BYTES])

    def _lent(self) -> Tuple[object, int, object, int]:
        """The condition's room and the scratch, as slices."""
        return self._condition, CONDITION_ROOM, self._scratch, len(self._scratch)


@lru_cache(maxsize=None)
def load() -> Library:
    """The library, found once."""
    named = os.environ.get(VARIABLE)
    if named:
        return Library(named)
    for place in PLACES:
        if os.path.exists(place):
            return Library(place)
    raise Trouble(f"the proved library {NAME} is not there; build it with python/build, or name it in {VARIABLE}")


def _lent_log(records: int) -> Tuple[ctypes.Array, ctypes.c_uint64, ctypes.c_uint64]:
    """Room for so many records, and for the numbers of steps and records."""
    return ctypes.create_string_buffer(max(records, 1) * RECORD_BYTES), ctypes.c_uint64(), ctypes.c_uint64()


def _taken(answer: int) -> int:
    """The lower half of an answer, or Refused with the upper."""
    if answer >> 32:
        raise Refused(answer >> 32)
    return answer


def _cause(answer: int) -> Optional[str]:
    """The cause in an answer of a check, which is 0 for a pass and else 1 plus 256 times the cause's number."""
    if answer == 0:
        return None
    number, verdict = divmod(answer, 256)
    if verdict != VERDICT_HELD or not 1 <= number <= len(CAUSES):
        raise Trouble(f"the gate's library answers {answer} to a check, which is no verdict: it is of another version")
    return CAUSES[number - 1]


def _declare(gate: ctypes.CDLL) -> None:
    """The types of include/gate.h: a slice is a pointer and a length."""
    slice_in, slice_out = [ctypes.c_char_p, ctypes.c_size_t], [ctypes.c_void_p, ctypes.c_size_t]
    number = ctypes.POINTER(ctypes.c_uint64)
    a_run = slice_in + slice_in + [ctypes.c_uint32] + slice_in + slice_out
    for function, takes in (
        (gate.gate_scratch, []),
        (gate.gate_derive, slice_in + slice_out + slice_out),
        (gate.gate_convert, slice_in + slice_out + slice_out),
        (gate.gate_check, slice_in + slice_in),
        (gate.gate_run, a_run + slice_out + [number, number]),
        (gate.gate_guarded, a_run + slice_out + slice_out + [number, number]),
    ):
        function.argtypes = takes
        function.restype = ctypes.c_uint64
