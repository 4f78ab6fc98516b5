"""The stored dumps, letter d: the case and the dump. The line has number, index and length, and of what is written
`judged` and the number of the judgement. What stands in a text, ./lta help text says.
"""

from __future__ import annotations

import pathlib
from collections.abc import Iterator

from lta import dump_format

from . import Record, named, texts

DUMPS = pathlib.Path(__file__).resolve().parent.parent.parent / "dumps"


def stored_dumps() -> dict[str, str]:
    """The texts of the stored dumps by name, sorted."""
    return texts(DUMPS)


def runs() -> Iterator[tuple[tuple[Record, ...], list[str]]]:
    for name, words in stored_dumps().items():
        record = Record(b"d", named(name, dump_format.build, words, DUMPS))
        yield (record,), [named(name, dump_format.expected, words).line]
