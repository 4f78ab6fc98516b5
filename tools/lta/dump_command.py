"""lta dump: the proposal that a solver's dump gives for a case, as the library writes it, and what becomes of each
value. Why the library refuses a value is computed next to it and held to its number and index.
"""

from __future__ import annotations

import os
from dataclasses import dataclass

from . import causes, dump_format, hour, library
from .amounts import counted
from .causes import Disagreement
from .inputs import (
    CASE,
    DUMP,
    JOINED,
    TEXT,
    UNREAD,
    Hashed,
    Input,
    InputError,
    read,
    read_hashed,
    text_inputs,
    why_not,
)


@dataclass(frozen=True)
class DumpFiles:
    """A case and a dump, and the files that were read for them."""

    case: bytes
    dump: bytes
    inputs: tuple[Hashed, ...]


@dataclass(frozen=True)
class DumpResult:
    """The library's answer on a dump, and its words."""

    case: bytes
    dump: bytes
    answer: library.Dumped
    words: str

    @property
    def shown(self) -> str:
        known = self.answer.number not in (56, 57)
        return dump_format.show(self.case, self.dump, self.answer.proposal, self.words, known)


def text_dump(path: str, data: bytes) -> DumpFiles:
    """The case and the dump of a text."""
    try:
        taken = hour.taken(hour.decoded(data), os.path.dirname(path), dump_format.Dump)
        case, dump = taken.files()
    except ValueError as fault:
        raise InputError(path, why_not(fault)) from None
    return DumpFiles(case, dump, text_inputs(path, data, taken))


def is_text(data: bytes) -> bool:
    """Whether a file is the text of a dump."""
    try:
        return dump_format.is_text(hour.decoded(data))
    except ValueError:
        return False


def files_of(source: Input) -> DumpFiles:
    """The case and the dump that are named."""
    if source.kind == UNREAD:
        raise InputError(source.name, source.paths[0])
    if source.kind == JOINED:
        raise InputError(source.name, "dump takes a case and a dump, or the text of a dump; see --pairs")
    if source.kind != TEXT:
        (case, case_read), (dump, dump_read) = map(read_hashed, source.paths, (CASE, DUMP))
        return DumpFiles(case, dump, (case_read, dump_read))
    data = read(source.name)
    if not is_text(data):
        raise InputError(source.name, "the text of an hour, and not of a dump")
    return text_dump(source.name, data)


def ask(case: bytes, data: bytes) -> DumpResult:
    """Has the library answer, and finds the words of a refusal."""
    answer = library.dump_proposal(case, data)
    number, index, words = refusal(case, data)
    if (answer.number, answer.index) != (number, index):
        raise Disagreement(f"{answer.number} {answer.index}", f"{number} {index}")
    if answer.proposal is not None:
        words = f"written: a proposal of {counted(len(answer.proposal), 'byte')}"
    return DumpResult(case, data, answer, words)


def refusal(case: bytes, data: bytes) -> tuple[int, int, str]:
    """Number, index and words of what is wrong, as it is read here; 0 where nothing is."""
    cause = causes.case_cause(case)
    if cause is not None:
        return 56, cause.number, f"56: the case is refused; {cause.words}"
    due = dump_format.demanded_length(hour.case_counts(case))
    if len(data) != due:
        more = f"{counted(len(data) - due, 'byte')} too many" if len(data) > due else f"{due - len(data):,} missing"
        has = f"the dump has {counted(len(data), 'byte')}, and for this case it takes {due:,}"
        return 57, 0, f"57: {has}: {more}"
    readings = dump_format.readings(case, data)
    for number in (58, 59):
        for reading in readings:
            if reading.number == number:
                return number, reading.place, reading.words
    return 0, 0, ""
