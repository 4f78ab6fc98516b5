#!/usr/bin/env python3
"""build_numbers.py writes docs/NUMBERS.md, the table of the numbers for readers, and tools/lta/verdict.py, the
judgement's numbers by name for Python, from tools/lta/numbers.txt. tests/numbers says when that is due.
"""

from __future__ import annotations

import pathlib
import sys
from collections.abc import Iterator

import generated
from lta import numbers

ROOT = pathlib.Path(__file__).resolve().parent.parent

OPENING = """\
# The numbers

This page lists every number that an entry of the library returns. An entry tests the causes in the order of its table:
the number of the first cause that holds is the answer, and 0 is the answer if none holds. Orders, branches, links,
zones, lines, values and pairs are counted from 0, and offsets in bytes. `include/lta_judgement.h` says more about each
number.

- Only `lta_judge_families` returns the numbers `LTA_FAMILY_..`.
- `lta_hour_intuitive`, `lta_hour_intuitive_small` and `lta_shortfalls` judge the hour first. They return the
  judgement's numbers too, except 30.
- `lta_book_surplus` returns 4, 8 and 25. The index of its 8 is a row of the book, not an offset.

`tools/build_numbers.py` writes this page from `tools/lta/numbers.txt`.
"""


VERDICT = '''\
"""The judgement's numbers by name. tools/build_numbers.py writes this module from numbers.txt."""

from enum import IntEnum


class Verdict(IntEnum):
    """What lta_judge and lta_judge_families answer, in the order of asking. The names are those of the C header."""

'''


def section(of_enum: numbers.Section) -> Iterator[str]:
    yield "## " + ", ".join(f"`{entry}`" for entry in of_enum.entries)
    yield ""
    yield "| Number | Name | Index | Meaning |"
    yield "|---|---|---|---|"
    for row in of_enum.rows:
        yield f"| {row.number} | `{row.name}` | {row.index or '0'} | {row.words} |"


def page() -> str:
    """The page's text."""
    parts = ["\n".join(section(of_enum)) + "\n" for of_enum in numbers.SECTIONS.values()]
    return "\n".join([OPENING, *parts])


def verdict_module() -> str:
    """The module's text."""
    rows = numbers.SECTIONS["lta_number"].rows
    return VERDICT + "".join(f"    {row.name[len('LTA_') :]} = {row.number}\n" for row in rows)


FILES = {ROOT / "docs" / "NUMBERS.md": page, ROOT / "tools" / "lta" / "verdict.py": verdict_module}


if __name__ == "__main__":
    sys.exit(generated.run(FILES, __doc__, sys.argv[1:]))
