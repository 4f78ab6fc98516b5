"""Cases in rows and in columns, letter c. A record has the output's room and a file. The files are the cases of the
stored hours that are short enough, each as it is and with its orders in columns, if its header tells where they are.
The three-zone case of either version follows with other marks, lengths and rooms. Each record has two lines, columned
and restored, with number, index and length and what is written, in hex.
"""

from __future__ import annotations

from collections.abc import Iterator

from lta import causes, columns, hour

from . import Record
from .hours import HOURS, stored_hours

LONGEST = 256  # bytes of a stored hour's case that is taken


def stored_cases() -> dict[str, bytes]:
    """The cases of the stored hours by name, sorted, each once."""
    cases: dict[str, bytes] = {}
    for name, words in stored_hours().items():
        case = bytes(hour.build(words, HOURS)[0])
        if len(case) <= LONGEST and case not in cases.values():
            cases[name] = case
    return cases


def in_columns(case: bytes) -> bytes:
    """A case's columns, readable or not; if its length is wrong only its mark is changed."""
    start, count = columns.order_part(case) or (len(case), 0)
    orders = [case[at : at + columns.ORDER_BYTES] for at in range(start, len(case), columns.ORDER_BYTES)]
    return columns.MARK + case[3:start] + b"".join(map(bytes, zip(*orders)))


def files() -> dict[str, tuple[int, bytes]]:
    """The room and the bytes of each file, by name."""
    found = {}
    for name, case in stored_cases().items():
        for shape, file in (("rows", case), ("columns", in_columns(case))):
            found[f"{name}, {shape}"] = (len(file), file)
    for name in ("p01-three-zone-hour", "contracted-below-capacity"):
        case = stored_cases()[name]
        for shape, file in (("rows", case), ("columns", in_columns(case))):
            size = len(file)
            found[f"{name}, {shape}, a byte of room too many"] = (size + 1, file)
            found[f"{name}, {shape}, a byte of room too few"] = (size - 1, file)
            found[f"{name}, {shape}, no room"] = (0, file)
            found[f"{name}, {shape}, a byte missing"] = (size, file[:-1])
            found[f"{name}, {shape}, a byte too many"] = (size + 1, file + b"\0")
            found[f"{name}, {shape}, the header alone"] = (size, file[:14])
            found[f"{name}, {shape}, thirteen bytes"] = (size, file[:13])
            for mark in (b"LTc", b"LtK", b"lTC", b"LTP"):
                found[f"{name}, {shape}, mark {mark.decode()}"] = (size, mark + file[3:])
        wrong_price = in_columns(case)[:-1] + b"\x7f"
        found[f"{name}, columns, a price out of range and no room"] = (0, wrong_price)
    return found


def lines(room: int, file: bytes) -> Iterator[str]:
    """What is printed for a file, either way."""
    restored = columns.would_restore(file)
    for name, case, made in (("columned", file, in_columns(file)), ("restored", restored, restored)):
        number = 72 if room < len(file) else 0
        if causes.case_cause(case) is not None or (name == "restored" and file[:3] != columns.MARK):
            number = 71
        data = b"" if number else made
        yield f"{name} {number} 0 {len(data)} {data.hex()}"


def runs() -> Iterator[tuple[tuple[Record, ...], list[str]]]:
    for room, file in files().values():
        yield (Record(b"c", (file,), room=room),), list(lines(room, file))
