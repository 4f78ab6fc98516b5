"""Reads host/numbers.tsv and host/report.tsv as a binding in another language does, and the three-zone hour's report by
them. The last line is 'N passed, M failed'.

    bindings.py SHARED_OBJECT CASE PROPOSAL
"""

from __future__ import annotations

import csv
import ctypes
import sys
from typing import Any

passed = failed = 0


def check(name: str, found: object, due: object) -> None:
    global passed, failed
    if found == due:
        passed += 1
    else:
        failed += 1
        print(f"{name} FAILED: {found}, and should be {due}")


def table(name: str) -> list[dict[str, str]]:
    with open(f"host/{name}.tsv", encoding="utf-8", newline="") as file:
        return list(csv.DictReader(file, delimiter="\t"))


def fields(report: bytes) -> dict[str, Any]:
    """The fields of a report by name; one that is there for each zone is a list."""
    found: dict[str, Any] = {}
    values: list[Any]
    for row in table("report"):
        at, size = int(row["offset"]), int(row["bytes"])
        count = int(row["count"]) if row["count"].isdigit() else found[row["count"]]
        cells = [report[at + size * k : at + size * (k + 1)] for k in range(count)]
        if row["kind"] == "text":
            values = [cell.decode("ascii") for cell in cells]
        else:
            values = [int.from_bytes(cell, "little", signed=row["kind"] == "signed") for cell in cells]
        found[row["field"]] = values[0] if row["count"] == "1" else values
    return found


def judged(library: ctypes.CDLL, case: bytes, proposal: bytes) -> tuple[str, bytes]:
    """The words of the verdict's number, and the report."""
    report = ctypes.create_string_buffer(176)
    library.lta_judge.restype = ctypes.c_uint64
    lent = (part for data in (case, proposal) for part in (data, ctypes.c_size_t(len(data))))
    verdict = library.lta_judge(*lent, report, ctypes.c_size_t(len(report)))
    words = {int(row["number"]): row["words"] for row in table("numbers")}
    return words[verdict % 256], report.raw


library = ctypes.CDLL(sys.argv[1])
case, proposal = (open(name, "rb").read() for name in sys.argv[2:4])
words, report = judged(library, case, proposal)
check("words", words, "accepted")
check("report", fields(report), {
    "mark": "LTR", "version": 1, "number": 0, "zones": 3,
    "welfare": 2212500000000, "bound": 2212500000000, "gap": 0, "rent": 1750000000000, "owed": 1750000000000,
    "price": [200000000, 637500000, 500000000],
})
words, _ = judged(library, proposal, case)
check("words", words, "case does not begin with LTC")
# Every field, the signed ones too, in bytes of its own.
numbers = (-1, 2, -3, 4, -5, 6, -7)
made = b"LTR\1\0\x1a\2\0" + b"".join(number.to_bytes(8, "little", signed=True) for number in numbers)
check("signs", list(fields(made).values()), ["LTR", 1, 26, 2, -1, 2, -3, 4, -5, [6, -7]])

print(f"{passed} passed, {failed} failed")
sys.exit(1 if failed else 0)
