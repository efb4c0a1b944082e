"""Scripts run and journals audited in memory."""
import enum
from typing import Callable, Tuple

from . import _library as library
from ._arbiter import Answer, Refused

# More than an audit writes, and than most scripts do.
_ROOM = 1 << 16


class Ended(enum.IntEnum):
    """How a run or an audit ended, by the numbers of dine_oracle.h."""

    GOOD = 0
    WRONG = 1
    FAULT = 2
    GAVE_UP = 3
    BAD_LIMITS = 4
    TOO_SHORT = 5


def run(script: bytes, tasks: int = 64, conflicts: int = 256, journal: bool = False) -> Tuple[Ended, bytes]:
    """Runs a script: GOOD, or FAULT where a line has one, and what `hygienic run` writes, or `hygienic run --journal`.

    Limits out of their ranges are refused. MemoryError says that memory ran out, or that the script is longer than 16 MiB.
    """
    if not (0 <= tasks < 1 << 32 and 0 <= conflicts < 1 << 32):
        raise Refused(Answer.OUT_OF_RANGE)
    return _text(lambda room: library.run(tasks, conflicts, journal, script, room))


def audit(journal: bytes) -> Tuple[Ended, bytes]:
    """Audits a journal: GOOD, WRONG or FAULT, and what `hygienic audit` writes.

    MemoryError says that memory ran out, or that the journal is longer than 16 MiB.
    """
    return _text(lambda room: library.audit(journal, room))


def _text(asked: Callable[[int], Tuple[int, bytes, int]]) -> Tuple[Ended, bytes]:
    """The whole output: asked for again with room for it where it was too long."""
    answer, text, length = asked(_ROOM)
    if answer == Ended.TOO_SHORT:
        answer, text, _ = asked(length)
    if answer == Ended.BAD_LIMITS:
        raise Refused(Answer.OUT_OF_RANGE)
    if answer == Ended.GAVE_UP:
        raise MemoryError
    return Ended(answer), text
