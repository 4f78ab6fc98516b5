"""The numbers that the entries return: numbers.txt, the one table of them, read."""

from __future__ import annotations

import pathlib
import re
from dataclasses import dataclass
from typing import NamedTuple

TABLE = pathlib.Path(__file__).resolve().parent / "numbers.txt"

HEADING = re.compile(r"\[(\w+)\] (.+)")
ROW = re.compile(r" *(\d+)  +(\w+)  +(\S+(?: \S+)*)  +(\S+(?: \S+)*)")


@dataclass(frozen=True)
class Number:
    """A row: the number, its name in the C header, what its index counts (empty if it is 0), and its words."""

    number: int
    name: str
    index: str
    words: str

    @property
    def short_name(self) -> str:
        """The number with its name in words, as a summary has it: 24 branch rule."""
        return f"{self.number} {self.name[len('LTA_') :].replace('_', ' ').lower()}"


class Section(NamedTuple):
    """An enum of the C header: the entries that return its numbers, and its rows in the order of asking."""

    entries: list[str]
    rows: list[Number]


def read(text: str) -> dict[str, Section]:
    """The sections of a table, by the header's enum."""
    sections: dict[str, Section] = {}
    for place, line in enumerate(text.splitlines(), 1):
        if not line or line.startswith("#"):
            continue
        heading, row = HEADING.fullmatch(line), ROW.fullmatch(line)
        if heading:
            rows: list[Number] = []
            sections[heading[1]] = Section(heading[2].split(", "), rows)
        elif row and sections:
            rows.append(Number(int(row[1]), row[2], row[3].replace("-", ""), row[4]))
        else:
            due = "NUMBER  NAME  INDEX  WORDS, two spaces apart"
            raise ValueError(f"numbers.txt, line {place}: no row, which is {due}")
    return sections


SECTIONS = read(TABLE.read_text(encoding="utf-8"))
# The row of each number, whichever entry returns it, and what it means.
ROWS = {row.number: row for section in SECTIONS.values() for row in section.rows}
WORDS = {number: row.words for number, row in ROWS.items()}
# The judgement's, and those of them that are asked only where there is a family list.
VERDICTS = {row.number for row in SECTIONS["lta_number"].rows}
FAMILY_VERDICTS = {row.number for row in SECTIONS["lta_number"].rows if row.name.startswith("LTA_FAMILY")}


def text(number: int, answered: str = WORDS[0]) -> str:
    """What a number means, in words; `answered` is what 0 is called."""
    return WORDS.get(number, f"number {number}") if number else answered
