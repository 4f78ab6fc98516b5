"""lta column and lta restore: a case with its orders column by column, request S-10, and the way back, as the library
writes them. Why it refuses a file is computed here, next to it.
"""

from __future__ import annotations

from dataclasses import dataclass

from . import causes, hour, library
from .causes import Disagreement

MARK = b"LTK"
ORDER_BYTES = 10


@dataclass(frozen=True)
class ColumnsResult:
    """The library's answer on a file, and the words of a refusal."""

    answer: library.Columned
    words: str = ""


def order_part(data: bytes) -> tuple[int, int] | None:
    """Where the orders of a case, or of its columns, begin and how many they are; None where the length is another."""
    counts = hour.case_counts(hour.MARKS["case"] + data[3:])
    if not counts or hour.demanded_length("case", counts) != len(data):
        return None
    return len(data) - ORDER_BYTES * counts["orders"], counts["orders"]


def would_restore(file: bytes) -> bytes:
    """The case that a file would give, readable or not. If its length is not what its header demands, only its mark
    changes.
    """
    start, count = order_part(file) or (len(file), 0)
    columns = [file[at : at + count] for at in range(start, len(file), count or 1)]
    return hour.MARKS["case"] + file[3:start] + b"".join(map(bytes, zip(*columns)))


def explained(answer: library.Columned, refusal: str, case: bytes) -> ColumnsResult:
    """An answer, and for a refusal why the case is not readable."""
    if answer.written:
        return ColumnsResult(answer)
    cause = causes.case_cause(case)
    if answer.number != 71 or cause is None:
        raise Disagreement(f"{answer.number} {answer.index}", "0 0")
    return ColumnsResult(answer, f"71: {refusal}; {cause.words}")


def column(case: bytes) -> ColumnsResult:
    return explained(library.case_columned(case), "the case is not readable", case)


def restore(file: bytes) -> ColumnsResult:
    answer = library.case_restored(file)
    if file[:3] != MARK and not answer.written:
        return ColumnsResult(answer, f"71: the file does not begin with {MARK.decode()}")
    return explained(answer, "no readable case results", would_restore(file))
