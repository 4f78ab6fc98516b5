"""The gap's parts: by how much each order, branch and link of an accepted hour falls short (request S-14), as the
library writes it, and what is left, the larger total's lead. The lead is computed here, from both totals, and held to
what the shortfalls leave of the reported gap.
"""

from __future__ import annotations

import re
from dataclasses import dataclass
from decimal import Decimal

from . import amounts, hour, library, rules
from .causes import Disagreement

KINDS = ("order", "branch", "link")
DECIMALS = 13  # of a euro, in which a hundred-thousandth of a microcent is whole
EXPECTATION = re.compile(r"#\s*shortfall\b(.*)")
EXPECTED = re.compile(rf"\s+({'|'.join(KINDS)})\s+(\d+)\s+(\d+(?:\.\d{{1,{DECIMALS}}})?)\s*")


@dataclass(frozen=True)
class Part:
    """A part of the gap: an order, branch or link at its place, or what a total is behind the larger one, and how much
    it is, in hundred-thousandths of a microcent.
    """

    kind: str
    place: int | None
    amount: int


@dataclass(frozen=True)
class Parts:
    """An hour's gap in microcents and its parts: the shortfalls in file order, the library's or found next to it, and
    what is left.
    """

    gap: int
    shortfalls: tuple[Part, ...]
    left: tuple[Part, ...]
    from_library: bool

    @property
    def short(self) -> list[Part]:
        """The shortfalls that are not zero, largest first."""
        return sorted((part for part in self.shortfalls if part.amount), key=lambda part: -part.amount)

    @property
    def lead(self) -> int:
        return sum(part.amount for part in self.left)

    @property
    def nonzero(self) -> list[Part]:
        """What a reader sees: the shortfalls that are not zero, largest first, and what is left."""
        return [*self.short, *(part for part in self.left if part.amount)]


def own_shortfalls(sums: rules.Sums) -> tuple[Part, ...]:
    """The shortfalls in file order, computed here."""
    return tuple(Part(*found) for found in sums.shortfalls())


def of_answer(answer: library.Shortfalls) -> tuple[Part, ...]:
    """The library's shortfalls in file order."""
    lists = zip(KINDS, (answer.orders, answer.branches, answer.links))
    return tuple(Part(kind, place, amount) for kind, found in lists for place, amount in enumerate(found or ()))


def cross_checked(judgement: library.Judgement, shortfalls: tuple[Part, ...], sums: rules.Sums) -> Parts:
    """The parts of a gap, if shortfalls and leads together are the gap that the library reports."""
    left = tuple(Part(kind, None, amount) for kind, amount in sums.leads())
    gap, lead = judgement.gap or 0, sum(part.amount for part in left)
    rest = rules.WHOLE * gap - sum(part.amount for part in shortfalls)
    if rest != lead:
        raise Disagreement(f"shortfalls that leave {amounts.gap_part(rest)}", f"a lead of {amounts.gap_part(lead)}")
    return Parts(gap, shortfalls, left, judgement.accepted)


def parts(case: bytes, proposal: bytes, judgement: library.Judgement, sums: rules.Sums) -> Parts:
    """The parts of an hour that has a gap. If it is accepted, the shortfalls are the library's. If it is refused by 26,
    the library gives none, and they are computed here.
    """
    if not judgement.accepted:
        return cross_checked(judgement, own_shortfalls(sums), sums)
    answer = library.shortfalls(case, proposal)
    if not answer.answered:
        raise Disagreement(f"{answer.number} {answer.index} for the shortfalls", "0 0")
    return cross_checked(judgement, of_answer(answer), sums)


# What a stored hour expects.


def expected(text: str) -> dict[tuple[str, int], int] | None:
    """What falls short by the text of a stored hour, by kind and place, or None where it says nothing of that."""
    found: dict[tuple[str, int], int] = {}
    expectation_lines = []
    for line, content in enumerate(text.split("\n"), 1):
        match = EXPECTATION.match(content)
        if match is None:
            continue
        words = EXPECTED.fullmatch(match.group(1))
        expectation_lines.append(content)
        if words is None:
            if match.group(1).strip() != "none":
                raise hour.TextError(line, f"{hour.short(content)!r} is no shortfall line")
            continue
        kind, place, euros = words.group(1), int(words.group(2)), Decimal(words.group(3))
        if not euros or (kind, place) in found:
            raise hour.TextError(line, f"{hour.short(content)!r} is zero, or a second one")
        found[kind, place] = int(euros.scaleb(DECIMALS))
    if len(expectation_lines) != max(len(found), 1 if expectation_lines else 0):
        raise ValueError("a line says that nothing falls short, and another what does")
    return found if expectation_lines else None
