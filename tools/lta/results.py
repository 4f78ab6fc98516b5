"""What became of an hour: the library's answer, or why there is none. Tables, JSON and CSV are made of this record."""

from __future__ import annotations

from dataclasses import dataclass
from typing import Any

from . import amounts, hour, library

# What became of an hour's family list.
USED, LEFT_OUT, NO_LIST = "used", "left out", "none"


@dataclass(frozen=True)
class Result:
    """An hour as judged, or the error for which it was not judged. A text has two if joined and apart differ.

    judgement is None if there is an error, and error is empty if there is a judgement.
    families is USED, LEFT_OUT or NO_LIST, and empty if there is an error.
    expected has the verdict and the totals that the hour's text expects, and is None if it expects nothing.
    way is "joined" or "apart" if a text has a result for each.
    explanation is the verdict in a sentence, and empty if none was asked for.
    """

    file: str
    judgement: library.Judgement | None = None
    error: str = ""
    families: str = ""
    expected: tuple[tuple[int, int], dict[str, int]] | None = None
    way: str = ""
    inputs: tuple[Any, ...] = ()
    explanation: str = ""

    @property
    def name(self) -> str:
        return f"{self.file} ({self.way})" if self.way else self.file

    @property
    def accepted(self) -> bool:
        return self.judgement is not None and self.judgement.accepted

    @property
    def as_expected(self) -> bool | None:
        if self.expected is None or self.judgement is None:
            return None
        verdict, totals = self.expected
        same_totals = verdict[0] not in hour.REPORTED or self.judgement.totals == totals
        return self.judgement.verdict == verdict and same_totals

    @property
    def good(self) -> bool:
        """Accepted, or as its text expects."""
        return self.accepted if self.as_expected is None else self.as_expected

    def due(self) -> str:
        """What was expected and is not so: the verdict, else the totals."""
        if self.expected is None or self.judgement is None:
            return ""
        verdict, totals = self.expected
        if self.judgement.verdict != verdict:
            return "{} {}".format(*verdict)
        wrong = [name for name, total in totals.items() if self.judgement.totals[name] != total]
        return ", ".join(f"{name} {amounts.microcents(totals[name])}" for name in wrong)

    def remark(self) -> str:
        """In words: the error, what was expected where it is not so, else what the number means."""
        if self.judgement is None:
            return f"NOT READ: {self.error}"
        if self.good or self.expected is None:
            return self.judgement.text
        return f"NOT AS EXPECTED: {self.due()}"
