"""What falls short in the stored hours, letter s. A record has the output's room in numbers, the case and the proposal.
The hours are those that are short enough, each with as much room as its counts ask for. Hours that say what falls short
also come with one number of room too few, with more than enough and with none, and some refused hours with no room. The
line has number, index and length, and the numbers that are written. tests/stored_shortfalls compares both judges with
it.
"""

from __future__ import annotations

from collections.abc import Iterator, Sequence

from lta import gap, hour, rules

from . import Record, named
from .hours import HOURS, stored_hours

LONGEST = 256  # bytes of a stored hour's case that is taken
MORE = 7  # numbers of room past the last
# Refused by the judgement, which is asked before the room.
REFUSED = ("p03-link-unused-tolerance-0", "p05-volume-above-quantity", "p09-share-one-above", "refused-13-share-above")


def due_room(case: bytes) -> int:
    """How many numbers the case's counts ask for, at most as many as an hour can have."""
    counts = hour.case_counts(case)
    rows = sum(counts[name] for _, name in hour.RECORDS["case"]) if counts else 0
    return min(2 * rows, rules.SHORTFALL_ROOM)


def records() -> dict[str, tuple[int, bytes, bytes]]:
    """The room, the case and the proposal of each record by name."""
    found = {}
    for name, words in stored_hours().items():
        case, proposal = map(bytes, named(name, hour.build, words, HOURS))
        has_shortfalls = named(name, gap.expected, words) is not None
        if len(case) > LONGEST:
            continue
        room = due_room(case)
        found[name] = (room, case, proposal)
        if has_shortfalls:
            found[f"{name},one-too-few"] = (room - 1, case, proposal)
            found[f"{name},more-than-enough"] = (room + MORE, case, proposal)
        if has_shortfalls or name in REFUSED:
            found[f"{name},no-room"] = (0, case, proposal)
    return found


def answered(verdict: tuple[int, int], room: int, case: bytes, proposal: bytes) -> tuple[int, int, list[int]]:
    """Number, index, and the numbers that are written, of an hour with this verdict."""
    if verdict != (0, 0):
        return *verdict, []
    numbers = [number for *_, amount in rules.Sums(case, proposal).shortfalls() for number in divmod(amount, rules.WHOLE)]
    return (86, 0, []) if room < len(numbers) else (0, 0, numbers)


def line_of(number: int, index: int, numbers: Sequence[int]) -> str:
    """The line that is printed for an answer."""
    return " ".join(map(str, (number, index, len(numbers), *numbers)))


def runs() -> Iterator[tuple[tuple[Record, ...], list[str]]]:
    texts = stored_hours()
    for name, (room, case, proposal) in records().items():
        _, apart, _ = hour.expected(texts[name.split(",")[0]])
        yield (Record(b"s", (case, proposal), room=room),), [line_of(*answered(apart, room, case, proposal))]
