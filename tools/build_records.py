#!/usr/bin/env python3
"""Writes what the program crates/prog_records reads and what it must print.

  build_records.py OUTDIR            writes OUTDIR/stdin and OUTDIR/stdout
  build_records.py --check OUTDIR    writes nothing; fails if one of the two is missing or different

stdin has a record for each stored input, kind by kind, as tools/records says. stdout has the lines of each kind under a
heading, `== KIND`. They are computed here from the stored inputs, without the library.
"""

from __future__ import annotations

import pathlib
import sys
from collections.abc import Iterator, Mapping

import records
from records import columns, dumps, exchanges, families, hours, queues, sheets, shortfalls

KINDS = {
    "hours": hours,
    "families": families,
    "dumps": dumps,
    "columns": columns,
    "shortfalls": shortfalls,
    "sheets": sheets,
    "exchanges": exchanges,
    "queues": queues,
}


def heading(kind: str) -> str:
    return f"== {kind}"


def lines_of(kind: str, printed: str) -> list[str]:
    """The lines of a kind in what the program prints."""
    lines = printed.splitlines()
    start = lines.index(heading(kind)) + 1
    ends = [at for at in range(start, len(lines)) if lines[at].startswith("== ")]
    return lines[start : ends[0] if ends else len(lines)]


def runs() -> Iterator[tuple[bytes, bytes]]:
    """Some records and what the program must print for them, in turn: the heading of a kind, then each run of it."""
    for kind, module in KINDS.items():
        opening = f"{heading(kind)}\n"
        yield records.text(opening).data, opening.encode()
        for run, lines in module.runs():
            yield b"".join(record.data for record in run), "".join(f"{line}\n" for line in lines).encode()


def run_files() -> dict[str, bytes]:
    """Standard input and output of the program, by file name."""
    given, due = zip(*runs())
    return {"stdin": b"".join(given), "stdout": b"".join(due)}


def differences(made: Mapping[str, bytes], folder: pathlib.Path) -> Iterator[str]:
    """The files in which the folder is not what would be written, each with why."""
    for name, data in made.items():
        path = folder / name
        if not path.is_file():
            yield f"{name} is missing"
        elif path.read_bytes() != data:
            yield f"{name} differs from what the stored inputs give"


def main(arguments: list[str]) -> int:
    check = arguments[:1] == ["--check"]
    folders = arguments[1:] if check else arguments
    if len(folders) != 1 or folders[0].startswith("-"):
        sys.stderr.write(__doc__)
        return 2
    folder = pathlib.Path(folders[0])
    try:
        made = run_files()
        if check:
            wrong = list(differences(made, folder))
            for line in wrong:
                print(f"build_records.py: {line}", file=sys.stderr)
            return 1 if wrong else 0
        folder.mkdir(parents=True, exist_ok=True)
        for name, data in made.items():
            (folder / name).write_bytes(data)
            print(f"{name} {len(data)} bytes")
    except (OSError, ValueError) as fault:
        print(f"build_records.py: {fault}", file=sys.stderr)
        return 1
    return 0


if __name__ == "__main__":
    sys.exit(main(sys.argv[1:]))
