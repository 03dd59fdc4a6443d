"""What the command prints: answers on standard output, by line or as JSON; warnings and trouble on standard error."""

from __future__ import annotations

import sys
from typing import Any, Dict, List, Optional

from .gate import Verdict
from .refusals import MEANINGS, told
from .trouble import Mistake, Mistakes, Refused, Trouble, shown
from .why_held import Hold

PASS, HELD, REFUSED, TROUBLE = range(4)


class Output:
    """Prints answers. `quiet` leaves only trouble; `as_json` gives an object a line."""

    def __init__(self, quiet: bool = False, as_json: bool = False) -> None:
        self.quiet, self.as_json = quiet, as_json

    def answer(self, text: str, **parts: Any) -> None:
        """An answer: its line, or its parts as an object."""
        if self.quiet:
            return
        if self.as_json:
            import json

            plain = (getattr(sys.stdout, "encoding", None) or "").lower() != "utf-8"
            text = json.dumps(parts, ensure_ascii=plain)
        print(text, flush=True)

    def passed(self, name: str, also: str = "", **parts: Any) -> int:
        """A sheet that passes."""
        self.answer(f"{shown(name)}: pass{_after(also)}", file=name, verdict="pass", **parts)
        return PASS

    def held(self, name: str, verdict: Verdict, also: str = "") -> int:
        """A sheet that is held, with the gate's cause and the reason."""
        reason = verdict.reason
        text = f"{shown(name)}: held {verdict.cause}: {reason}{_after(also)}"
        parts = {"cause": verdict.cause, "reason": str(reason), **hold_parts(reason), **_noted(also)}
        self.answer(text, file=name, verdict="held", **parts)
        return HELD

    def refused(self, name: str, refused: Refused, also: str = "") -> int:
        """A sheet, or a recipe, that is refused."""
        number = refused.number
        text = f"{shown(name)}: {told(refused)}{_after(also)}"
        parts = {"refusal": number, "meaning": MEANINGS[number], "place": refused.place, **_noted(also)}
        self.answer(text, file=name, verdict="refused", **parts)
        return REFUSED

    def trouble(self, trouble: Trouble, name: Optional[str] = None) -> int:
        """Trouble goes to standard error; with --json an object for the file as well."""
        for line in trouble.lines():
            print(line, file=sys.stderr, flush=True)
        if name is not None and self.as_json:
            parts: Dict[str, Any] = {"file": name, "verdict": "trouble", "reason": str(trouble)}
            if isinstance(trouble, Mistakes):
                parts["mistakes"] = [mistake._asdict() for mistake in trouble.mistakes]
            self.answer("", **parts)
        return TROUBLE

    def warn(self, name: str, warnings: List[Mistake]) -> None:
        """Warnings, on standard error."""
        if not self.quiet:
            for warning in warnings:
                print(warning.told(name, "warning: "), file=sys.stderr, flush=True)


def hold_parts(reason: Hold) -> Dict[str, Any]:
    """The reason of a hold as parts of an object; the cause is said beside it."""
    parts = {key: value for key, value in vars(reason).items() if key not in ("cause", "readings")}
    return {**parts, "readings": [taken._asdict() for taken in reason.readings]}


def _noted(also: str) -> Dict[str, str]:
    """What is said besides, as where an older output is now."""
    return {"note": also} if also else {}


def _after(also: str) -> str:
    """What is said besides, at the end of a line."""
    return f"; {also}" if also else ""
