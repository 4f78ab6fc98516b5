"""Reading that is bounded: a file is read no further than one of its kind can go, and one that is too long is refused
before it is read.
"""

from __future__ import annotations

import os
import stat
from typing import BinaryIO

CHUNK = 2**20
MOST_OF_A_TEXT = 2**20  # of a sheet and of pairs of zones too; a binary file that is longer is cut


class TooLong(ValueError):
    """A file that goes on past what is read of it."""

    def __init__(self, size: int | None, most: int) -> None:
        has = f"over {most:,} bytes" if size is None else f"{size:,} bytes"
        super().__init__(f"{has}, and at most {most:,} are read")


def size_of(file: BinaryIO) -> int | None:
    """The length of an open file; None for what has none, as a pipe, a device or a stream in memory."""
    try:
        told = os.fstat(file.fileno())
    except (OSError, ValueError):
        return None
    return told.st_size if stat.S_ISREG(told.st_mode) else None


def first_bytes(file: BinaryIO, count: int) -> bytes:
    """As many bytes of an open file, or all where it has fewer."""
    data = bytearray()
    while len(data) < count:
        chunk = file.read(min(CHUNK, count - len(data)))
        if not chunk:
            break
        data += chunk
    return bytes(data)


def read_up_to(file: BinaryIO, most: int) -> bytes:
    """All of an open file, which is refused where it is longer."""
    size = size_of(file)
    if size is not None and size > most:
        raise TooLong(size, most)
    data = first_bytes(file, most + 1)
    if len(data) > most:
        raise TooLong(None, most)
    return data


def read_or_cut(file: BinaryIO, most: int, first: int) -> tuple[bytes, bool]:
    """All of an open file, or its first bytes where it is longer, and whether it was cut so."""
    size = size_of(file)
    if size is not None and size > most:
        return first_bytes(file, first), True
    data = first_bytes(file, most + 1)
    return (data[:first], True) if len(data) > most else (data, False)


def read_file(path: str, most: int) -> bytes:
    with open(path, "rb", buffering=0) as file:
        return read_up_to(file, most)


def read_below(folder: str, name: str, most: int) -> tuple[str, bytes]:
    """The path and the bytes of a file that a text names: a regular file in the text's folder or below."""
    path = os.path.join(folder, name)
    if os.path.isabs(name) or os.pardir in name.split("/"):
        raise ValueError("it must lie in the text's folder or below")
    top = os.path.realpath(folder or os.curdir)
    mode = os.stat(path).st_mode
    if os.path.commonpath((top, os.path.realpath(path))) != top:
        raise ValueError("it must lie in the text's folder or below")
    if stat.S_ISDIR(mode):
        raise IsADirectoryError(21, "Is a directory")
    if not stat.S_ISREG(mode):
        raise ValueError("no regular file")
    return path, read_file(path, most)
