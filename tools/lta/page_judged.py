"""An hour as a page has it: judged by the library, with its explanation and what is computed next to the library."""

from __future__ import annotations

import os
from dataclasses import dataclass

from . import amounts, explain_text, gap, hour, judging, library, rules
from .causes import Disagreement, Explanation, explain
from .further import Also, also
from .inputs import JOINED, Hashed, Input
from .results import Result


@dataclass(frozen=True)
class Judged:
    """An hour for a page: where it came from; the library's answers as `lta judge` has them, the last for the two files
    apart; the explanation, or why there is none; the sums, if the hour could be cleared; the parts of its gap; and what
    else is wrong with it.
    """

    name: str
    case: bytes
    proposal: bytes
    rows: list[Result]
    explanation: Explanation | None
    fault: str = ""
    joined: bool = False
    families: bytes | None = None
    sums: rules.Sums | None = None
    parts: gap.Parts | None = None
    inputs: tuple[Hashed, ...] = ()
    also: Also = Also()

    @property
    def judgement(self) -> library.Judgement:
        """The library's answer to the two files."""
        found = self.rows[-1].judgement
        assert found is not None, "an hour that was read is judged"
        return found

    @property
    def accepted(self) -> bool:
        return self.judgement.accepted

    @property
    def reported(self) -> bool:
        return self.judgement.number in hour.REPORTED

    @property
    def words(self) -> str:
        """The verdict in words, without its number."""
        found = self.explanation
        if found is None:
            return self.fault
        if self.sums is not None and found.number == 0:
            gap_euros, tolerance = map(amounts.microcents, (self.judgement.totals["gap"], self.sums.tolerance))
            return f"the gap of {gap_euros} euros is within the tolerance of {tolerance}"
        return f"{found.place}: {found.cause}" if found.place else found.cause

    @property
    def as_expected(self) -> bool | None:
        """Whether all is as the text expects; None where there is none that does."""
        return None if self.rows[-1].expected is None else all(row.as_expected for row in self.rows)

    @property
    def missed(self) -> list[Result]:
        """The answers that are not as expected."""
        return [row for row in self.rows if row.as_expected is False]


def judged_hour(source: Input, folder: str | None = None) -> Judged:
    """An hour, judged. In a folder it is named from there."""
    read, name = source.read(), source.name if folder is None else os.path.relpath(source.name, folder)
    rows = judging.rows_of(name, read)
    files, judgement = (read.case, read.proposal), rows[-1].judgement
    assert judgement is not None, "an hour that was read is judged"
    found, sums, parts, further, fault = None, None, None, Also(), ""
    try:
        found = explain(*files, judgement, families=read.families)
        further = also(*files, read.families, judgement)
        if explain_text.clearable(judgement.number):
            sums = rules.Sums(*files)
            parts = gap.parts(*files, judgement, sums) if judgement.number in hour.REPORTED else None
    except Disagreement as disagreement:
        found, sums, parts, further, fault = None, None, None, Also(), str(disagreement)
    joined = source.kind == JOINED
    return Judged(name, *files, rows, found, fault, joined, read.families, sums, parts, read.inputs, further)
