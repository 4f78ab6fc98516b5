"""lta judge: many hours judged by the library, and held to what their texts expect."""

from __future__ import annotations

from collections.abc import Callable, Iterator, Sequence
from typing import Optional

from . import amounts, library, rules
from .causes import Disagreement, explain
from .inputs import HourFiles, Input, InputError
from .progress import Progress
from .results import Result

# A case, a proposal, and a family list or None.
Files = tuple[bytes, bytes, Optional[bytes]]


def sentence(judgement: library.Judgement, files: Files) -> str:
    """The verdict in a sentence, as explain begins with it; an accepted hour is not read again for it."""
    if judgement.accepted:
        return f"0: accepted, with a gap of {amounts.microcents(judgement.totals['gap'])} euros"
    case, proposal, families = files
    try:
        return explain(case, proposal, judgement, families=families).words
    except Disagreement as fault:
        return str(fault)


def rows_of(name: str, read: HourFiles, explained: bool = False) -> list[Result]:
    """The results of an hour, each with a sentence if `explained`. A joined file and its two parts can have different
    answers; then a text has two results, apart last. For a text with families, the answer for all three files is
    compared with what the text expects.
    """
    apart_files = (read.case, read.proposal, read.families)

    def row(
        judgement: library.Judgement,
        expected: tuple[tuple[int, int], dict[str, int]] | None = None,
        way: str = "",
        files: Files = apart_files,
    ) -> Result:
        words = sentence(judgement, files) if explained else ""
        return Result(name, judgement, "", read.list_use, expected, way, read.inputs, words)

    if read.expected is None:
        return [row(library.judge(*apart_files))]
    if read.families is not None:
        due, _, totals = read.expected
        return [row(library.judge(*apart_files), (due, totals))]
    due, apart_due, totals = read.expected
    joined_files = (*rules.cut(read.joined or b""), None)
    joined, apart = library.judge(*joined_files), library.judge(*apart_files)
    if due == apart_due and joined == apart:
        return [row(joined, (due, totals), files=joined_files)]
    return [
        row(joined, (due, totals), "joined", joined_files),
        row(apart, (apart_due, totals), "apart"),
    ]


def judged(source: Input, explained: bool = False) -> list[Result]:
    """The rows of one input."""
    return rows_of(source.name, source.read(), explained)


def results(
    sources: Sequence[Input],
    complain: Callable[[InputError], object],
    explained: bool = False,
    with_progress: bool = True,
) -> Iterator[Result]:
    """The results of all inputs, each as soon as it is judged, with a sentence if `explained`. An input that could not
    be read is a result with an error, and is also passed to `complain`.
    """
    progress = Progress(f"{{:,}} of {len(sources):,} hours judged", with_progress)
    library.entry()
    try:
        for done, source in enumerate(sources):
            progress.step(done)
            try:
                yield from judged(source, explained)
            except InputError as fault:
                progress.end()
                complain(fault)
                yield Result(source.name, error=str(fault))
    finally:
        progress.end()


def is_good(row: Result) -> bool:
    """Whether an hour is accepted, or as its text expects."""
    return row.good


def is_accepted(row: Result) -> bool:
    """Whether an hour is accepted, and its text does not expect otherwise: no expectation makes a refusal good."""
    return row.accepted and row.good
