"""The stored margin sheets, letter m: the zone count, the output's room and the sheet, behind the name; sheets/runs.txt
has them in order. The lines have number, index and length, then for each branch the margin in tenths and the PTDFs in
hundred-thousandths, as a sheet is read here, apart from the library.
"""

from __future__ import annotations

import pathlib
import re
from collections.abc import Iterator, Sequence
from typing import NamedTuple

from . import Record, text

SHEETS = pathlib.Path(__file__).resolve().parent.parent.parent / "sheets"


def stored_sheets() -> dict[str, tuple[int, int, bytes]]:
    """The zone count, the output's room and the bytes of each sheet by its file's name, as they are run."""
    found = {}
    for line in (SHEETS / "runs.txt").read_text().splitlines():
        if not line.startswith("#"):
            name, zones, room = line.split()
            file = f"{name}.csv"
            found[file] = (int(zones), int(room), (SHEETS / file).read_bytes())
    unlisted = sorted({path.name for path in SHEETS.glob("*.csv")} - found.keys())
    if unlisted:
        raise ValueError(f"not in sheets/runs.txt: {', '.join(unlisted)}")
    return found


# Fields of a line: the decimals of our unit, and the greatest size in it.
MARGIN, PTDF = (1, 500_000), (5, 200_000)
MOST_ZONES, MOST_LINES = 16, 64
NUMBER = re.compile(rb"(-?)([0-9]+)(?:\.([0-9]+))?")


class Field(NamedTuple):
    """A number of a sheet: its sign, digits and decimals, and what it may be."""

    sign: bytes
    whole: bytes
    fraction: bytes
    decimals: int
    most: int

    @property
    def too_fine(self) -> bool:
        return bool(self.fraction[self.decimals :].strip(b"0"))

    @property
    def size(self) -> int:
        """In our unit."""
        digits = self.whole + self.fraction[: self.decimals].ljust(self.decimals, b"0")
        return int(digits.lstrip(b"0")[:20] or b"0")

    @property
    def too_large(self) -> bool:
        return self.size > self.most

    @property
    def amount(self) -> int:
        """As a case has it. Sheets count export positive, a case import: the PTDFs turn, and the margin does not."""
        turned = (self.decimals, self.most) == PTDF
        return -self.size if bool(self.sign) != turned else self.size


def fields_of(line: bytes, columns: Sequence[tuple[int, int]]) -> list[Field] | None:
    """The numbers of a line; None where there are too few or too many, or one is no number."""
    words = line.split(b",")
    matches = [match for match in map(NUMBER.fullmatch, words) if match]
    if not len(words) == len(matches) == len(columns):
        return None
    return [Field(match[1], match[2], match[3] or b"", *column) for match, column in zip(matches, columns)]


def answer(zones: int, sheet: bytes) -> tuple[int, int, list[list[int]]]:
    """Number, index and branches by request S-1: its causes in its order, each over the whole sheet."""
    if not 1 <= zones <= MOST_ZONES:
        return 50, 0, []
    rows = sheet.split(b"\n")
    if not rows[-1]:
        rows.pop()
    table = []
    for index, row in enumerate(rows):
        fields = fields_of(row, (MARGIN, *[PTDF] * zones))
        if fields is None:
            return 51, index, []
        table.append(fields)
    for number, wrong in ((52, "too_fine"), (53, "too_large")):
        for index, fields in enumerate(table):
            if any(getattr(field, wrong) for field in fields):
                return number, index, []
    if len(table) > MOST_LINES:
        return 54, 0, []
    return 0, 0, [[field.amount for field in fields] for fields in table]


def lines(zones: int, room: int, sheet: bytes) -> list[str]:
    """What is printed for a sheet."""
    number, index, branches = answer(zones, sheet)
    length = 4 * (zones + 1) * len(branches)
    if number == 0 and room < length:
        number, length, branches = 55, 0, []
    return [f"{number} {index} {length}", *(" ".join(map(str, branch)) for branch in branches)]


def runs() -> Iterator[tuple[tuple[Record, ...], list[str]]]:
    for file, (zones, room, sheet) in stored_sheets().items():
        yield (text(f"{file}\n"), Record(b"m", (sheet,), zones, room)), [file, *lines(zones, room, sheet)]
