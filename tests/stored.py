"""What the tests of stored hours and dumps share: what is said of them, by both judges and in the stored output of
crates/prog_records, and what is counted. It is imported first, since it puts tools/ on the path. The library is there
before.
"""

from __future__ import annotations

import pathlib
import subprocess
import sys
from collections.abc import Iterable, Mapping, Sequence

ROOT = pathlib.Path(__file__).resolve().parent.parent
sys.path.insert(0, str(ROOT / "tools"))

import build_records

PROGRAM = "cargo run --release --offline --quiet -j2 -p comparison --bin {}"
LIBRARY, SECOND, STORED = "library", "second", "prog_records"
WRITTEN = "written"


def word(field: int | bytes) -> str:
    """A number, or a file in hexadecimal digits, as the programs read them."""
    return str(field) if isinstance(field, int) else field.hex() or "-"


def lines_of_both_judges(program: str, records: Mapping[str, Sequence[int | bytes]]) -> list[list[str]]:
    """Name, judge and words of each line that comparison/ prints for records: numbers and files, by name."""
    lines = "".join(f"{name} {' '.join(map(word, record))}\n" for name, record in records.items())
    command = PROGRAM.format(program).split()
    run = subprocess.run(command, cwd=ROOT, input=lines, stdout=subprocess.PIPE, text=True, check=True)
    return [line.split(" ", 2) for line in run.stdout.split("\n")[:-1]]


def answers_of_both_judges(program: str, records: Mapping[str, Sequence[int | bytes]]) -> dict[tuple[str, ...], str]:
    """What each judge says of each record: its line by name and judge, and under WRITTEN too what it wrote."""
    answers: dict[tuple[str, ...], str] = {}
    for name, judge, words in lines_of_both_judges(program, records):
        if words.startswith(WRITTEN):
            answers[name, judge, WRITTEN] = words.removeprefix(WRITTEN)
        else:
            answers[name, judge] = words
    return answers


def stored_lines(kind: str) -> list[str]:
    """The lines of a kind in the stored output."""
    return build_records.lines_of(kind, (ROOT / "crates" / STORED / "stdout").read_text())


def stored_output(kind: str, names: Iterable[str]) -> tuple[dict[tuple[str, ...], str], int]:
    """What stands there in the same way, a line for each name in order; and how many lines."""
    lines = stored_lines(kind)
    return {(name, STORED): line for name, line in zip(names, lines)}, len(lines)


class Count:
    """Checks, counted; what fails is said."""

    def __init__(self) -> None:
        self.passed = self.failed = 0

    def check(self, good: object, words: str) -> None:
        self.passed, self.failed = self.passed + bool(good), self.failed + (not good)
        if not good:
            print(f"FAILED: {words}")

    def so_far(self, what: str) -> None:
        print(f"{what}: {self.passed} as expected, {self.failed} not")

    def closing(self) -> int:
        """The last line, and the status."""
        print(f"{self.passed} passed, {self.failed} failed")
        return 0 if self.passed and not self.failed else 1
