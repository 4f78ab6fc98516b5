"""The stored hours with families, letter f: the case, the proposal and the family list. The line has number and index
with the list, the 176 bytes of the report buffer in hex, zeros where nothing was written, and `without` and number and
index of the judgement without the list. What stands in a text, ./lta help text says.
"""

from __future__ import annotations

import pathlib
import struct
from collections.abc import Iterator, Mapping

from lta import hour, rules

from . import Record, named, texts

FAMILIES = pathlib.Path(__file__).resolve().parent.parent.parent / "families"


def stored_families() -> dict[str, str]:
    """The texts of the stored hours with families by name, sorted."""
    return texts(FAMILIES)


def files_of(words: str) -> tuple[bytes, bytes, bytes]:
    case, proposal, families = hour.build_families(words, FAMILIES)
    if families is None:
        raise ValueError("it has no family list")
    return case, proposal, families


def report(number: int, totals: Mapping[str, int], case: bytes, proposal: bytes) -> bytes:
    """The report buffer: the totals that the text expects, and prices by rule 6."""
    if number not in hour.REPORTED:
        return bytes(rules.REPORT_ROOM)
    amounts = [*totals.values(), *rules.Sums(case, proposal).prices]
    made = struct.pack(f"<3sHBBB{len(amounts)}q", b"LTR", 1, number, len(amounts) - len(totals), 0, *amounts)
    return made.ljust(rules.REPORT_ROOM, b"\0")


def line(words: str) -> str:
    """The line that is printed."""
    case, proposal, _ = files_of(words)
    (number, index), without, totals = hour.expected(words, "expect-without")
    return f"{number} {index} {report(number, totals, case, proposal).hex()} without {without[0]} {without[1]}"


def runs() -> Iterator[tuple[tuple[Record, ...], list[str]]]:
    for name, words in stored_families().items():
        yield (Record(b"f", named(name, files_of, words)),), [named(name, line, words)]
