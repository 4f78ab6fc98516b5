"""lta shortfalls: by how much each order, branch and link of an accepted hour falls short, as the library writes it,
and what is left of the gap. What falls short is named next to it.
"""

from __future__ import annotations

from dataclasses import dataclass, replace
from typing import Any

from . import amounts, explain_text, gap, library, rules, schema
from .causes import Disagreement, explain
from .inputs import Hashed, HourFiles

RECORD_TYPE = schema.SHORTFALLS
NOT_PROVED = "Shortfalls and gap are the library's. All else is computed next to it and is not proved."


@dataclass(frozen=True)
class ShortfallsResult:
    """The library's answer on an hour, and its parts, or of a refusal the words; or why there is no answer."""

    name: str
    answer: library.Shortfalls | None = None
    cause: str = ""
    sums: rules.Sums | None = None
    parts: gap.Parts | None = None
    inputs: tuple[Hashed, ...] = ()
    families: str = ""
    error: str = ""

    @property
    def answered(self) -> bool:
        return self.answer is not None and self.answer.answered


def ask(name: str, read: HourFiles) -> ShortfallsResult:
    """Has the library answer on an hour as it was read, and finds the rest. An hour that is refused with its family
    list is not accepted, and has no shortfalls.
    """
    case, proposal, families = read.case, read.proposal, read.families
    judgement, answer = library.judge(case, proposal, families), library.shortfalls(case, proposal)
    if families is not None and not judgement.accepted:
        answer = library.Shortfalls(*judgement.verdict)
    found = explain(case, proposal, judgement, families=families)
    if (answer.number, answer.index) != (found.number, found.index):
        raise Disagreement(f"{answer.number} {answer.index}", f"{found.number} {found.index}")
    made = ShortfallsResult(name, answer, inputs=read.inputs, families=read.list_use)
    if not answer.answered:
        return replace(made, cause=found.words)
    sums = rules.Sums(case, proposal)
    return replace(made, sums=sums, parts=gap.cross_checked(judgement, gap.of_answer(answer), sums))


def first_line(found: gap.Parts) -> str:
    """How many fall short, by how much together, and what is left."""
    whole = f"gap {amounts.microcents(found.gap)} euros"
    if not found.gap:
        return f"{whole}: no order, branch or link falls short"
    together = amounts.gap_part(sum(part.amount for part in found.short))
    count = f"{len(found.short):,} of {len(found.shortfalls):,} orders, branches and links fall short"
    short = f"{count}, by {together} together" if found.short else "no order, branch or link falls short"
    left = f"{amounts.gap_part(found.lead)} is left, the larger total's lead" if found.lead else "nothing is left"
    return f"{whole}: {short}; {left}"


def as_text(result: ShortfallsResult) -> str:
    if result.parts is None or result.sums is None:
        return f"not answered; {result.cause}\n"
    body = ["", *explain_text.part_lines(result.sums, result.parts)] if result.parts.nonzero else []
    return "\n".join([first_line(result.parts), *body, "", NOT_PROVED]) + "\n"


def part_record(part: gap.Part) -> dict[str, Any]:
    """A part for machines: the entry's two numbers, and euros with all their decimals, as text."""
    whole, rest = divmod(part.amount, rules.WHOLE)
    return {
        "part_kind": part.kind,
        "part_index": part.place,
        "part_microcents": whole,
        "part_hundred_thousandths": rest,
        "part_euros": amounts.fixed(part.amount, gap.DECIMALS),
    }


def record(result: ShortfallsResult) -> schema.Record:
    """An hour for machines: every shortfall in file order, and what is left."""
    found = result.parts
    return schema.answer_record(
        schema.SHORTFALLS,
        result,
        gap_microcents=None if found is None else found.gap,
        gap_euros=None if found is None else schema.euros(found.gap),
        left_euros=None if found is None else amounts.fixed(found.lead, gap.DECIMALS),
        shortfalls=None if found is None else [part_record(part) for part in found.shortfalls],
        explanation=(result.cause if found is None else f"0: {first_line(found)}") or None,
    )
