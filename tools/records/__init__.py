"""The records that crates/prog_records reads: their bytes, and the stored texts that they are made from. Each module
has the records of one kind, and the lines that the program must print for them.
"""

from __future__ import annotations

import pathlib
import struct
from collections.abc import Callable
from dataclasses import dataclass
from typing import Any, TypeVar

from lta import hour

KEPT = 65_536  # bytes of a record's parts that the program keeps
T = TypeVar("T")
OPENING = struct.Struct("<c5I")


@dataclass(frozen=True)
class Record:
    """A letter that says which entry the record is for, up to three parts, and two numbers."""

    letter: bytes
    parts: tuple[bytes, ...]
    number: int = 0
    room: int = 0

    @property
    def data(self) -> bytes:
        parts = b"".join(self.parts)
        if len(parts) > KEPT:
            raise ValueError(f"a record has {len(parts)} bytes, and the program keeps {KEPT}")
        lengths = [len(part) for part in self.parts] + [0] * (3 - len(self.parts))
        return OPENING.pack(self.letter, self.number, self.room, *lengths) + parts


def text(words: str) -> Record:
    """The record that has the program print these words as they stand."""
    return Record(b"t", (words.encode(),))


def read(data: bytes) -> list[Record]:
    """The records of a program's input, each with its three parts."""
    found, at = [], 0
    while at < len(data):
        letter, number, room, *lengths = OPENING.unpack_from(data, at)
        at += OPENING.size
        parts = []
        for length in lengths:
            parts.append(data[at : at + length])
            at += length
        if at > len(data):
            raise ValueError("the last record is cut short")
        found.append(Record(letter, tuple(parts), number, room))
    return found


def texts(folder: pathlib.Path) -> dict[str, str]:
    """The stored texts of a folder by name, sorted."""
    return {path.stem: hour.read_text(path) for path in sorted(folder.glob("*.txt"))}


def named(name: str, make: Callable[..., T], *words: Any) -> T:
    """What `make` gives for a stored text; where it refuses the text, its name is said."""
    try:
        return make(*words)
    except ValueError as fault:
        raise ValueError(f"{name}.txt: {fault}") from None
