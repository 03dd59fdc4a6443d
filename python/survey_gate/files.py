"""Files: read within bounds, written beside and renamed, moved aside.

Nothing is left half written: an output is a new file beside its place until it is whole. An output that is
no ordinary file (a device, a pipe) is written as it stands.
"""

from __future__ import annotations

import os
import re
import stat
from typing import Iterable, List, Tuple

from .trouble import Mistake, Mistakes, Trouble, count, shown

UTF_16_MARKS = (b"\xff\xfe", b"\xfe\xff")
BYTE_ORDER_MARK = "\ufeff"


def failed(path: str, error: OSError) -> Trouble:
    """A failure of the system's as one line."""
    return Trouble(f"{shown(path)}: {error.strerror or error}")


def read(path: str, most: int) -> bytes:
    """The file's content; Trouble where it cannot be read or has more than `most` bytes."""
    try:
        with open(path, "rb") as source:
            data = source.read(most + 1)
    except OSError as error:
        raise failed(path, error) from None
    except ValueError:
        raise Trouble(f"{shown(path)}: no file's name") from None
    if len(data) > most:
        raise Trouble(f"{shown(path)}: over {count(most)} bytes, more than any file of this kind")
    return data


def decoded(data: bytes, name: str) -> Tuple[str, List[Mistake]]:
    """A text in UTF-8, with a warning where a byte order mark stood before it."""
    if data[:2] in UTF_16_MARKS:
        raise Mistakes(name, [Mistake(1, "the text is in UTF-16", "save it as UTF-8")])
    try:
        text = data.decode("utf-8")
    except UnicodeDecodeError as error:
        line = len(lines_of(data[: error.start].decode("utf-8")))
        raise Mistakes(name, [Mistake(line, f"byte {data[error.start]:#04x} is not UTF-8", "save the text as UTF-8")]) from None
    if not text.startswith(BYTE_ORDER_MARK):
        return text, []
    wrong = "a byte order mark stands before the first line and is passed over"
    return text[1:], [Mistake(1, wrong, "save the text as UTF-8 without one")]


def lines_of(text: str) -> List[str]:
    """The lines as editors count them."""
    return re.split(r"\r\n|\n|\r", text)


def refuse_input_as_output(output: str, inputs: Iterable[str]) -> None:
    """Trouble where the output is one of the inputs, by whatever name."""
    for path in inputs:
        if _same(path, output):
            raise Trouble(f"{shown(output)}: it is one of the inputs; name another file for the output")


def _same(one: str, other: str) -> bool:
    """Whether two names are of one ordinary file."""
    try:
        return os.path.samefile(one, other) and os.path.isfile(one)
    except (OSError, ValueError):
        return False


def write(path: str, data: bytes) -> None:
    """Writes the file whole or not at all."""
    try:
        if os.path.exists(path) and not os.path.isfile(path):
            with open(path, "wb") as out:
                out.write(data)
        else:
            _write_beside(os.path.realpath(path), data)
    except OSError as error:
        raise failed(path, error) from None
    except ValueError:
        raise Trouble(f"{shown(path)}: no file's name") from None


def _write_beside(target: str, data: bytes) -> None:
    """Writes a new file in the target's folder and renames it."""
    import tempfile

    handle, beside = tempfile.mkstemp(dir=os.path.dirname(target), prefix=".survey-gate-")
    try:
        with os.fdopen(handle, "wb") as out:
            out.write(data)
            out.flush()
            os.fsync(out.fileno())
        os.chmod(beside, _mode(target))
        os.replace(beside, target)
    except BaseException:
        os.unlink(beside)
        raise


def _mode(target: str) -> int:
    """The mode of the file that is replaced, or what a new file gets."""
    if os.path.exists(target):
        return stat.S_IMODE(os.stat(target).st_mode)
    mask = os.umask(0)
    os.umask(mask)
    return 0o666 & ~mask


def move_aside(path: str) -> str:
    """Moves an older output out of the way: says where it is now, or nothing where there was none."""
    if not os.path.isfile(path):
        return ""
    number, aside = 1, f"{path}.old"
    while os.path.lexists(aside):
        number += 1
        aside = f"{path}.old{number}"
    try:
        os.rename(path, aside)
    except OSError as error:
        raise Trouble(f"{shown(path)}: an older one stands and cannot be moved aside: {error.strerror}") from None
    return f"the older {shown(path)} is now {shown(aside)}"
