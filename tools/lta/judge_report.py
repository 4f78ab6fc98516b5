"""How the results of lta judge are written: a table for readers, JSON, JSON Lines and CSV for machines, and JUnit."""

from __future__ import annotations

from collections import Counter
from collections.abc import Callable, Iterable, Iterator, Sequence

from . import amounts, hour, junit, numbers, schema
from .each_hour import put_records
from .inputs import printable
from .results import Result
from .writing import put, put_file

VERDICT_COLUMNS = (("verdict", "number"), ("index", "index"))
COLUMNS = ("welfare", "gap", "rent", "owed")


# For readers.


def decimals_needed(texts: Iterable[str]) -> int:
    return max((len(text.partition(".")[2]) for text in texts), default=0)


def money_column(values: Iterable[int | None]) -> list[str]:
    """Amounts with as many decimals as the one with the most has, so that the points stand under each other."""
    shown = ["" if value is None else amounts.microcents(value) for value in values]
    most = decimals_needed(shown)
    return [text and text + "0" * (most - len(text.partition(".")[2])) for text in shown]


def table(rows: Sequence[Result]) -> str:
    """The table for a reader."""

    def column(name: str) -> list[int | None]:
        return [getattr(row.judgement, name, None) for row in rows]

    columns = [
        ["file", *(printable(row.name) for row in rows)],
        *([name, *("" if one is None else str(one) for one in column(of))] for name, of in VERDICT_COLUMNS),
        *([name, *money_column(column(name))] for name in COLUMNS),
        ["families", *(row.families for row in rows)],
        ["", *(row.remark() for row in rows)],
    ]
    widths = [max(map(len, column)) for column in columns]
    lines = []
    for cells in zip(*columns):
        first, *middle, last = (cell.rjust(width) for cell, width in zip(cells, widths))
        lines.append("  ".join([cells[0].ljust(widths[0]), *middle, cells[-1]]).rstrip() + "\n")
    return "".join(lines)


def refused_by(rows: Iterable[Result]) -> list[str]:
    """How many hours are refused by each number, the most first; a line for each."""
    counts = Counter(row.judgement.number for row in rows if row.judgement is not None and not row.accepted)
    width = max((len(f"{count:,}") for count in counts.values()), default=0)
    names = {number: row.short_name for number, row in numbers.ROWS.items()}
    most_first = sorted(counts.items(), key=lambda one: (-one[1], one[0]))
    return [f"{count:{width},} refused by {names.get(number, number)}\n" for number, count in most_first]


def closing(rows: Sequence[Result]) -> str:
    """What counts all hours, shown or not: the refused by their numbers, and a last line."""
    accepted, unread = sum(row.accepted for row in rows), sum(row.judgement is None for row in rows)
    count = len(rows) - unread
    clauses = [f"{amounts.counted(count, 'judgement')}: {accepted:,} accepted, {count - accepted:,} refused"]
    as_expected = [row.as_expected for row in rows if row.as_expected is not None]
    if as_expected:
        clauses.append(f"{sum(as_expected):,} as expected, {len(as_expected) - sum(as_expected):,} not")
    if unread:
        clauses.append(f"{unread:,} not read")
    clauses.append("money in euros")
    return "".join([*refused_by(rows), "; ".join(clauses), "\n"])


# For machines.


def record(row: Result) -> schema.Record:
    """A result as the schema has it."""
    judgement = row.judgement
    found = {} if judgement is None else judgement.totals
    (verdict, index), due = row.expected if row.expected is not None else ((None, None), {})
    return schema.record(
        schema.JUDGE,
        row.file,
        row.inputs,
        way=row.way or None,
        error=row.error or None,
        **schema.answered(*(getattr(judgement, name, None) for name in ("number", "index", "text"))),
        accepted=None if judgement is None else row.accepted,
        families=row.families or None,
        **{f"{name}_microcents": found.get(name) for name in hour.TOTALS},
        **schema.totals("", found),
        prices_euros=[amounts.fixed(price, schema.PRICE_DECIMALS) for price in (judgement.prices if judgement else ())],
        explanation=row.explanation or None,
        expected_verdict=verdict,
        expected_index=index,
        **schema.totals("expected_", due if verdict in hour.REPORTED else {}),
        as_expected=row.as_expected,
    )


# Both.


def report(
    results: Iterable[Result],
    good: Callable[[Result], bool],
    form: str | None,
    only_refused: bool,
    junit_file: str | None,
) -> list[Result]:
    """Writes results, JSON Lines and CSV as they come, and gives them all back. `good` says which hours pass."""
    rows: list[Result] = []

    def shown() -> Iterator[Result]:
        for row in results:
            rows.append(row)
            if not (only_refused and row.accepted):
                yield row

    if form is not None:
        put_records(form, schema.JUDGE, map(record, shown()))
    else:
        listed = list(shown())
        if any(row.judgement for row in rows):
            put((table(listed) + "\n" if listed else "") + closing(rows))
    if junit_file is not None:
        put_file(junit_file, junit.as_junit(rows, good))
    return rows
